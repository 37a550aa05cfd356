/**
 * @typedef {import("./changes.js").Change} Change
 * @typedef {import("./session.js").Session} Session
 *
 * `onTrouble` gets a sentence where a change can't be made or is held back, and an empty text once that is over.
 * @typedef {{onTrouble?: (trouble: string) => void}} BindingOptions
 *
 * What is done with an editor: it is made read-only or not, shows others' changes, and undoes a step or does it again.
 * @typedef {{setReadOnly(isReadOnly: boolean): void, follow(changes: Change[]): void, turn(isRedo: boolean): void}} Editing
 */
export class Binding {
    /**
     * `replaced` is the editor's text of before.
     * @param {Session} session
     * @param {string} replaced
     * @param {BindingOptions} [options]
     */
    constructor(session: Session, replaced: string, { onTrouble }?: BindingOptions | undefined);
    session: import("./session.js").Session;
    steps: Undo;
    /** The text that the editor had before it was bound, and has no more. */
    replaced: string;
    onTrouble: (trouble: string) => void;
    /** Until when the editor and the session are listened to. */
    get signal(): AbortSignal;
    /**
     * Listens to the session from now on.
     * @param {Editing} editing
     */
    begin(editing: Editing): void;
    /** Undoes the user's last step. */
    undo(): void;
    /** Does again what was undone last. */
    redo(): void;
    /** Lets go of the editor and the session. */
    release(): void;
    /**
     * Makes a change, or says why it can't be made. Gives whether it was made.
     * @param {() => void} make
     */
    change(make: () => void): boolean;
    #private;
}
export type Change = import("./changes.js").Change;
/**
 * `onTrouble` gets a sentence where a change can't be made or is held back, and an empty text once that is over.
 */
export type Session = import("./session.js").Session;
/**
 * What is done with an editor: it is made read-only or not, shows others' changes, and undoes a step or does it again.
 */
export type BindingOptions = {
    onTrouble?: ((trouble: string) => void) | undefined;
};
export type Editing = {
    setReadOnly(isReadOnly: boolean): void;
    follow(changes: Change[]): void;
    turn(isRedo: boolean): void;
};
import { Undo } from "./undo.js";
