declare const Session_base: new () => Tells & EventTarget;
/**
 * A session. It tells of itself by events: `changes`, whose `detail` is a list of changes of the shown text, made by others or by the room;
 * and `state`, when `state`, `why` or `number` has become another, or the other text that the user is to choose of.
 */
export class Session extends Session_base {
    /**
     * `connect` gives an open line to the room, at each call a new one. Where its signal is aborted nobody waits for that any more.
     * @param {(signal: AbortSignal) => Promise<Line>} connect
     * @param {import("./options.js").Options} [options]
     */
    constructor(connect: (signal: AbortSignal) => Promise<Line>, options?: import("./options.js").Options | undefined);
    document: Document;
    /** @type {State} */
    state: State;
    why: string;
    /**
     * The number of a refusal that `why` tells, else null.
     * @type {number | null}
     */
    number: number | null;
    /**
     * Settles when the room's text is shown for the first time; rejects, as `sent` does, where the room refuses before.
     * @type {Promise<void>}
     */
    ready: Promise<void>;
    /**
     * Settles when the session has ended; `state` and `why` tell how.
     * @type {Promise<void>}
     */
    ended: Promise<void>;
    /** The text that is shown. */
    get text(): string;
    /**
     * What another run of the server has, where the user is to choose: its text, and the changes that lead from it to the one that is shown,
     * the last one in the text first. Else null.
     * @returns {{text: string, readonly difference: Change[]} | null}
     */
    get other(): {
        text: string;
        readonly difference: Change[];
    } | null;
    /** What was changed here and the room isn't known to have: a list of texts that were put in or deleted, each with its `kind`. */
    get unsent(): import("./document.js").Unsent[];
    /** How many changes the room takes in all. */
    get operations(): number;
    /** How many more changes the room takes, as far as is known here: a character put in or deleted is one. */
    get left(): number;
    /** Whether the session has something that the room isn't known to have. */
    get isAhead(): boolean;
    /** Whether some of the text may be lost where the session is left: the room isn't known to have it, or has another one. */
    get mayBeLost(): boolean;
    /**
     * Whether an editor holds something back that its user types, as what is composed.
     * @param {boolean} isHeld
     */
    set isHeld(arg: boolean);
    /**
     * Whether nobody looks at the text: then news is asked for rarely.
     * @param {boolean} isHidden
     */
    set isHidden(arg: boolean);
    /**
     * Puts a text in: `replace` that removes nothing.
     * @param {number} at
     * @param {string} text
     * @returns {Change}
     */
    insert(at: number, text: string): Change;
    /**
     * Removes so many units: `replace` that puts nothing in.
     * @param {number} at
     * @param {number} removed
     * @returns {Change}
     */
    remove(at: number, removed: number): Change;
    /**
     * How many of the changes that the room takes are used up where the shown text is changed so; less than none where it undoes some.
     * @param {number} at
     * @param {number} removed
     * @param {string} text
     * @returns {number}
     */
    cost(at: number, removed: number, text: string): number;
    /**
     * Removes so many units at a place of the shown text, and puts a text in there: shown at once, and sent when its turn comes. Throws
     * `Full` where the room doesn't take as many changes, and `Ended` where the session is closed or refused; then nothing is done.
     * Gives the change, which is told by no event.
     * @param {number} at
     * @param {number} removed
     * @param {string} text
     * @returns {Change}
     */
    replace(at: number, removed: number, text: string): Change;
    /**
     * Makes several changes of the shown text, from the last place to the first: all of them, or none where `replace` would throw.
     * @param {Change[]} changes
     * @returns {Change[]}
     */
    replaceAll(changes: Change[]): Change[];
    /** Another run of the server has another text: shows that, and lets go of what was shown. */
    takeTheirs(): void;
    /** Another run of the server has another text: makes it the one that is shown, unless the room changes before. */
    putMine(): void;
    /**
     * Leaves the room until it is gone on with, as a page that ends or may come back: at once, behind what one submission takes of what is
     * new, where none is under way. What is done meanwhile is kept.
     */
    pause(): void;
    /** Goes on after a pause. */
    resume(): void;
    /**
     * Settles once the room has all that was done here until now. Rejects with `GivenUp`, where the user takes the room's text before; with
     * `Refused`, where the room refuses; and with `Ended`, where the session is closed.
     * @returns {Promise<void>}
     */
    sent(): Promise<void>;
    /**
     * Ends the session: sends what is new, for some seconds, and leaves the room; where nothing is new at once. Where the line isn't there
     * it tries to leave, once. With `flush` it first tries for so many milliseconds to have all in the room, also where the line isn't
     * there yet. Once the time is over nothing is waited for. Gives whether the room has all. Of two calls the first limit holds.
     * @param {{flush?: number}} [options]
     * @returns {Promise<boolean>}
     */
    close({ flush }?: {
        flush?: number | undefined;
    } | undefined): Promise<boolean>;
    #private;
}
export type Change = import("./changes.js").Change;
export type Line = import("./connection.js").Line;
export type Unsent = import("./document.js").Unsent;
export type State = "joining" | "up to date" | "sending" | "no answer" | "offline" | "refused" | "another text" | "closed";
export type Tells = {
    addEventListener(name: "changes", listener: (event: CustomEvent<Change[]>) => void, options?: AddEventListenerOptions): void;
    addEventListener(name: "state", listener: () => void, options?: AddEventListenerOptions): void;
};
import { Document } from "./document.js";
export {};
