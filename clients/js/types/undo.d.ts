export class Undo {
    /**
     * A change that the user made, and the text that it took out. `isMore`: it belongs to the step of the one before, wherever that was.
     * @param {Change} change
     * @param {string} taken
     */
    note(change: Change, taken: string, when?: number, isMore?: boolean): void;
    /**
     * Changes that the user made as one step, from the last place to the first, each with the text that it took out.
     * @param {(Change & {taken: string})[]} changes
     */
    noteAll(changes: (Change & {
        taken: string;
    })[], when?: number, isMore?: boolean): void;
    /**
     * Changes that others made, or the room.
     * @param {Change[]} changes
     */
    follow(changes: Change[]): void;
    /**
     * Undoes the user's last step, or does again what was undone last: `make` is handed its changes, from the last place to the first, as
     * `replaceAll` of the session takes them. Where it throws nothing is done.
     * @param {boolean} isRedo
     * @param {{text: string}} session
     * @param {(changes: Change[]) => unknown} make
     */
    turn(isRedo: boolean, session: {
        text: string;
    }, make: (changes: Change[]) => unknown): void;
    #private;
}
export type Change = import("./changes.js").Change;
