/**
 * Changes of a text. All places count UTF-16 units, as JavaScript does.
 *
 * A change removes so many units at a place, and puts a text in there. Where it is a move, that is the text that it removes, and it is
 * put in at the place `to` of what is left.
 * @typedef {{at: number, removed: number, text: string, to?: number}} Change
 */
/**
 * The text that changes lead to.
 * @param {string} text
 * @param {Change[]} changes
 */
export function played(text: string, changes: Change[]): string;
/**
 * A place carried over changes of the text. At equality it stays before what is put in. With a text that moves it goes where it is
 * within it or right behind it, as a caret that has just typed it.
 * @param {number} place
 * @param {Change[]} changes
 */
export function carried(place: number, changes: Change[]): number;
/**
 * Where a unit of the text is after changes; null where one removed it.
 * @param {number} unit
 * @param {Change[]} changes
 */
export function carriedUnit(unit: number, changes: Change[]): number | null;
/** Adds a change, or lengthens the last one where it goes on there. */
export function add(changes: any, change: any): void;
/**
 * Changes in lists of those that go from the last place to the first, as changes of one text: each list may be played in one pass. A move
 * is alone.
 * @param {Change[]} changes
 */
export function runs(changes: Change[]): Change[][];
/**
 * Changes of a text. All places count UTF-16 units, as JavaScript does.
 *
 * A change removes so many units at a place, and puts a text in there. Where it is a move, that is the text that it removes, and it is
 * put in at the place `to` of what is left.
 */
export type Change = {
    at: number;
    removed: number;
    text: string;
    to?: number;
};
