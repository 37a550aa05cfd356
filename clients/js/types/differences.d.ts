/**
 * Changes that lead from a text to another, of which none touches the next, the last one in the text first.
 * @returns {Change[]}
 */
export function differences(from: any, to: any): Change[];
/** How many units are put in or removed between two texts. */
export function distance(from: any, to: any): any;
/**
 * Where a stretch of a list, and what stands in its place in another one, begin and end.
 */
export type Change = import("./changes.js").Change;
/**
 * What differs between two texts: the fewest changes of single characters that lead from one to the other (Myers, 1986). Where these are
 * too many the texts are compared by lines, what differs then by words, and then by pieces, since not all scripts have blanks; and only
 * within those by characters again.
 */
export type Stretch = [start: number, end: number, putStart: number, putEnd: number];
