/** A time as a timer takes it. Throws a TypeError where it is no number above 0. */
export function inTime(name: any, milliseconds: any): number;
/**
 * The options, with the usual values of those that aren't told. Throws a TypeError where there is no option of a name, or one is no number
 * above 0.
 * @param {Options} options
 */
export function withUsual(options: Options): Required<Options>;
/** What may be set of a session: times in milliseconds, and a limit. */
/** The most operations of a room. */
export const OPERATIONS: 131072;
/**
 * @typedef {object} Options
 * @property {number} [answer] until an answer is missed and the line counts as lost
 * @property {number} [joined] the same of an answer to `join`: it has the whole text, and where it isn't seen a session is left unused
 * @property {number} [silence] until the state says that no answer comes
 * @property {number} [retry] until a line is tried again, at first; each time twice as long
 * @property {number} [longest] until a line is tried again, at most
 * @property {number} [shut] until a room is asked again that took nothing more, at most; each time twice as long
 * @property {number} [closing] until a session that is closed has ended, at most
 * @property {number} [typing] between two rounds of a typist
 * @property {number} [idle] between two pulls that bring nothing
 * @property {number} [quiet] without news until that becomes longer
 * @property {number} [slowest] between two pulls that bring nothing, at most
 * @property {number} [hidden] between two pulls where nobody looks
 * @property {number} [operations] how many changes the room takes in all
 */
/** @type {Required<Options>} */
export const USUAL: Required<Options>;
export type Options = {
    /**
     * until an answer is missed and the line counts as lost
     */
    answer?: number | undefined;
    /**
     * the same of an answer to `join`: it has the whole text, and where it isn't seen a session is left unused
     */
    joined?: number | undefined;
    /**
     * until the state says that no answer comes
     */
    silence?: number | undefined;
    /**
     * until a line is tried again, at first; each time twice as long
     */
    retry?: number | undefined;
    /**
     * until a line is tried again, at most
     */
    longest?: number | undefined;
    /**
     * until a room is asked again that took nothing more, at most; each time twice as long
     */
    shut?: number | undefined;
    /**
     * until a session that is closed has ended, at most
     */
    closing?: number | undefined;
    /**
     * between two rounds of a typist
     */
    typing?: number | undefined;
    /**
     * between two pulls that bring nothing
     */
    idle?: number | undefined;
    /**
     * without news until that becomes longer
     */
    quiet?: number | undefined;
    /**
     * between two pulls that bring nothing, at most
     */
    slowest?: number | undefined;
    /**
     * between two pulls where nobody looks
     */
    hidden?: number | undefined;
    /**
     * how many changes the room takes in all
     */
    operations?: number | undefined;
};
