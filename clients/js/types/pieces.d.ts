/** So many units of a text are surely the same where they come again. */
export const SAME: 3;
export class Pieces {
    set list(arg: Piece[]);
    get list(): Piece[];
    /** The text of some of them. */
    text(isWanted: any): string;
    /** The number of the piece of the room's that begins at the place of its text: one that the place is inside of is cut there. */
    atRooms(k: any): number;
    /** The room's pieces that are so many units of its text from a place on. They are cut at both ends. */
    rooms(k: any, units: any): Piece[];
    /** How many units of the room's text stand before a piece. */
    roomPlace(index: any): number;
    /** How many units that are shown stand before a piece. */
    shownPlace(index: any): number;
    /** Cuts a piece: what stands behind the place is the next one. */
    cut(index: any, place: any): void;
    /** Takes a piece out that isn't lost. */
    remove(index: any): void;
    /** Joins the pieces round a number that are of one kind, but for what is lost, which may be looked at. */
    joinAt(index: any): void;
    /** Joins all neighbours of one kind. */
    join(): void;
    get hasLost(): boolean;
    /** Others are waited for, to put in again what is lost now. Of what was lost before only what was deleted here is waited for. */
    awaitLost(): void;
    /** Lets go of what others haven't put in again. */
    forgetLost(): void;
    /**
     * A text that others put in: behind what is pending at its place, which stands right behind what is before it. What they put in again
     * stands where it stood, and what was deleted of it here is deleted again.
     */
    put(k: any, text: any, changes: any): void;
    /** Units of the room's text that are deleted, by whom ever. What was gone is gone for good. Gives the pieces. */
    take(k: any, units: any, changes: any): Piece[];
    /** The room lost so many units from a place on, all put in here, or all by others. */
    lose({ at, put, isOwn }: {
        at: any;
        put: any;
        isOwn: any;
    }, changes: any): void;
    /**
     * The room lost what came in these ways, the last one first, and others are waited for to do it again. Each unit has a number meanwhile:
     * the room's text is a list of these, and of each unit it is told which one stands before it, and who put it in where it is lost.
     * @param {import("./memory.js").Way[]} ways
     */
    goBack(ways: import("./memory.js").Way[]): any[];
    /** A character that was under way is the room's now. Where it stands elsewhere than it is shown, what is pending there moves. */
    settle(k: any, ch: any, changes: any): void;
    /** What was under way is the room's now. */
    comes(piece: any): void;
    #private;
}
import { Piece } from "./piece.js";
