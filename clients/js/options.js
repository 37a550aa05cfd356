/** What may be set of a session: times in milliseconds, and a limit. */

/** The most operations of a room. */
export const OPERATIONS = 131_072;

/**
 * @typedef {object} Options
 * @property {number} [answer] until an answer is missed and the line counts as lost
 * @property {number} [joined] the same of an answer to `join`: it has the whole text, and where it isn't seen a session is left unused
 * @property {number} [silence] until the state says that no answer comes
 * @property {number} [retry] until a line is tried again, at first; each time twice as long
 * @property {number} [longest] until a line is tried again, at most
 * @property {number} [shut] until a room is asked again that took nothing more, at most; each time twice as long
 * @property {number} [closing] until a session that is closed has ended, at most
 * @property {number} [typing] between two rounds of a typist
 * @property {number} [idle] between two pulls that bring nothing
 * @property {number} [quiet] without news until that becomes longer
 * @property {number} [slowest] between two pulls that bring nothing, at most
 * @property {number} [hidden] between two pulls where nobody looks
 * @property {number} [operations] how many changes the room takes in all
 */

/** @type {Required<Options>} */
export const USUAL = {
  answer: 8_000,
  joined: 60_000,
  silence: 2_000,
  retry: 100,
  longest: 5_000,
  shut: 30_000,
  closing: 2_000,
  typing: 200,
  idle: 1_000,
  quiet: 60_000,
  slowest: 5_000,
  hidden: 10_000,
  operations: OPERATIONS,
};

/** So many milliseconds a timer takes at most: 24 days. */
const LONGEST = 2 ** 31 - 1;

/** A time as a timer takes it. Throws a TypeError where it is no number above 0. */
export function inTime(name, milliseconds) {
  if (!(typeof milliseconds === "number" && milliseconds > 0)) throw new TypeError(`the option ${name} is a number above 0`);
  return Math.min(milliseconds, LONGEST);
}

/**
 * The options, with the usual values of those that aren't told. Throws a TypeError where there is no option of a name, or one is no number
 * above 0.
 * @param {Options} options
 */
export function withUsual(options) {
  for (const name of Object.keys(options)) if (!Object.hasOwn(USUAL, name)) throw new TypeError(`there is no option ${name}`);
  const told = Object.entries({ ...USUAL, ...options }).map(([name, value]) => [name, inTime(name, value)]);
  return /** @type {Required<Options>} */ (Object.fromEntries(told));
}
