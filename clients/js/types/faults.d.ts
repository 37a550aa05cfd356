/** No answer came. The request may have been carried out. */
export class Lost extends Error {
}
/** The server refused a request; `number` says why. */
export class Refused extends Error {
    constructor(number: any);
    number: any;
}
/** A change that doesn't fit into the room. Nothing of it was done. */
export class Full extends RangeError {
    constructor(left: any);
    left: any;
}
/** The session takes no change: it is closed, or the room takes nothing more. */
export class Ended extends Error {
    constructor(why: any);
}
/** What was done here won't be in the room: its user took the room's text in place of what was shown. */
export class GivenUp extends Error {
    constructor();
}
