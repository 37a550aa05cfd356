/**
 * Texts of UTF-16 units: where they may be cut, how many characters they have, and which change leads from one to another.
 * @typedef {import("./changes.js").Change} Change
 */
/** Whether the place of the text is inside of a pair of units. */
export function isInside(text: any, place: any): boolean;
/** The first so many characters of a text. */
export function beginning(text: any, characters: any): any;
/** How many characters a text has. */
export function characters(text: any): number;
/**
 * The one change that leads from a text to another. What both end with counts first in the last `behind` units, as behind a caret, then
 * what they begin with, and then what they end with. No end of it is inside of a pair.
 * @returns {Change}
 */
export function difference(from: any, to: any, behind?: number): Change;
/**
 * Texts of UTF-16 units: where they may be cut, how many characters they have, and which change leads from one to another.
 */
export type Change = import("./changes.js").Change;
