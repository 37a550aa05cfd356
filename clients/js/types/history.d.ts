/**
 * Takes in what a room's log has behind a history. `line` is one to the room, as `connect` gives it.
 * @param {History} history
 * @param {import("./connection.js").Line} line
 */
export function follow(history: History, line: import("./connection.js").Line): Promise<void>;
/**
 * The history of a text: that of a file of `serve --keep`, of which a last line that was cut short is left out and the digests aren't
 * looked at, or a snapshot. Throws a SyntaxError or a RangeError where it is neither.
 * @param {string} text
 */
export function historyOfFile(text: string): History;
export class History {
    /** The newest version that is known. */
    get version(): number;
    /**
     * Takes in what comes next in the log: objects as a reply to `ops` and a snapshot have them. Throws a RangeError where one builds on an
     * element that isn't there.
     * @param {Operation[]} operations
     */
    add(operations: Operation[]): void;
    /**
     * The elements of a version's text.
     * @param {number} version
     */
    elements(version: number): Element[];
    /**
     * The text of a version.
     * @param {number} version
     */
    text(version: number): string;
    /**
     * What led to a version from the one before. Where that deleted what was gone already, nothing is removed.
     * @param {number} version
     * @returns {Change}
     */
    change(version: number): Change;
    #private;
}
/**
 * An operation or a run of them, as docs/EXCHANGE.md has it.
 */
export type Change = import("./changes.js").Change;
/**
 * An element: the character, its stamp, from which version on it is there, up to which one it isn't any more, and those below it, the least
 * stamp first.
 */
export type Operation = {
    c: number[][];
    k: string;
    s: number;
    p?: number[] | null;
    t?: number[];
    x?: string;
};
export type Element = {
    sign: string;
    stamp: number;
    from: number;
    to: number;
    below: Element[];
};
