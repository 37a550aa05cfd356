/** The most characters of an insertion, units of a deletion, edits of a pull and operations of an `ops`. */
export const MOST: 64;
export class Document {
    /**
     * The document of a room's text at a version, whose log has this last.
     * @param {Known[]} last
     */
    constructor(text?: string, version?: number, last?: Known[]);
    version: number;
    memory: Memory;
    /** How many units were there at first: whether the clients of who put them in are there still isn't known. */
    inherited: number;
    /**
     * What the log has of the first submission that was accepted in the server's run, and from which version on.
     * @type {{from: number, known: Known[]} | null}
     */
    first: {
        from: number;
        known: Known[];
    } | null;
    /** How many operations of each site the log had where the room was joined, as its last ones told. @type {Map<number, number>} */
    counts: Map<any, any>;
    /** The site of the server's run, once an accepted submission has told it. */
    get site(): number | null;
    /** The text that is shown. */
    get text(): string;
    /** The room's text at the document's version. */
    get roomText(): string;
    /** The room's text as it is once what is under way is played. */
    get textToCome(): string;
    /**
     * What is under way and wasn't played yet, or null: where it was put in or deleted in the room's text, and its characters.
     */
    get underWay(): {
        isPut: boolean;
        k: number;
        signs: string[];
    } | null;
    /**
     * What was changed here and the room isn't known to have: the texts that were put in, and those that were deleted.
     */
    get unsent(): Unsent[];
    /** How many changes of the room's text are new or under way: characters to put in, and such to delete. */
    get pending(): number;
    /**
     * How many more changes are pending where the shown text is changed so, from the last place to the first; fewer than none where what is
     * new is taken out.
     * @param {Change[]} changes
     */
    cost(changes: Change[]): number;
    /** Whether a submission is under way, accepted or not, whose edits weren't played yet. */
    get isWaiting(): boolean;
    /** From and to which version what is under way leads, once it is accepted. */
    get accepted(): any[] | null;
    /**
     * What the user does: each change removes so many units at a place of the shown text, and puts a text in there. They are changes of one
     * text, from the last place to the first. No end is inside of a pair. A unit of a pair that stands alone in a text, which no room takes,
     * becomes U+FFFD. Gives the changes that were made.
     * @param {Change[]} changes
     * @returns {Change[]}
     */
    replace(changes: Change[]): Change[];
    /** The order of what is made next: all that is pending now has that of before. */
    get order(): number;
    /**
     * What is to be sent next, and marks it as under way; nothing where all is sent that was made before an order, or something is under way.
     * What was done first is sent first.
     * @returns {Submission | null}
     */
    next(before?: number): Submission | null;
    /** Whether something is new that was made before an order. */
    hasNew(before?: number): boolean;
    /** Whether something that was made before an order isn't known to be in the room. */
    isPending(before: any): boolean;
    /**
     * What is under way was accepted: it leads from a version to another, and the edits between them are its own. Gives whether it was so:
     * an answer that leads from before what was pulled is that of an earlier submission, which comes once more.
     */
    accept(from: any, to: any): boolean;
    /** What is under way wasn't accepted: it is new again. */
    takeBack(): void;
    /**
     * So many characters of what is under way are the room's, where they are shown: its log has them from a version on. The others are new
     * again.
     */
    came(from: any, count: any): void;
    /**
     * Plays edits that lead from the document's version on, and gives the changes of the shown text, each of the text that the ones before
     * lead to. While something is under way it has to be accepted before. Edits from another version come late or once more, and change
     * nothing.
     * @param {Edit[]} edits
     * @returns {Change[]}
     */
    play(edits: Edit[], from?: number): Change[];
    /**
     * The room has another text by now, of a version whose way from this one isn't known: what both have in common stays. `isLost`: what it
     * lacks it lost, so what was put in here of that is new again.
     */
    follow({ roomText, version, memory }: {
        roomText: any;
        version: any;
        memory: any;
    }, isLost?: boolean): any[];
    /**
     * The room has lost all that came behind so many entries of the memory, as `Memory.since` tells. What was done here since is new again,
     * what others did is undone: they do it again. Gives the changes of the shown text.
     */
    goBack(length: any, isOwnAlone?: boolean): any[];
    /** The room has the text with another log, of which so many operations make it. */
    renew(version: any, last: any): void;
    #private;
}
export type Change = import("./changes.js").Change;
/**
 * An edit as docs/PROTOCOL.md has it, of a session that counts UTF-16 units.
 */
export type Edit = ["i", number, string] | ["d", number, number] | ["n"];
/**
 * What is to be sent next: its kind, its place in the room's text at the document's version, and its text or how many units it deletes.
 */
export type Submission = {
    t: "ins";
    k: number;
    x: string;
} | {
    t: "del";
    k: number;
    c: number;
};
export type Unsent = {
    kind: "put in" | "deleted";
    text: string;
};
export type Known = import("./memory.js").Known;
import { Memory } from "./memory.js";
