/** The units of a text, as a list takes them. */
export function unitsOf(text: any): Int32Array;
export class Gap {
    /** @param {Int32Array} numbers */
    constructor(numbers: Int32Array);
    get length(): number;
    /** All of the list, as numbers of their own. */
    get all(): Int32Array;
    /** The number at a place. */
    at(place: any): number;
    /** Whether these are all of the list. */
    is(numbers: any): boolean;
    /** Takes so many off at a place, puts others in there, and gives what was taken off. */
    replace(at: any, removed: any, put: any): Int32Array;
    #private;
}
