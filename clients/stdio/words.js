/**
 * What a user is told of a session, in words.
 *
 * @typedef {import("./module.js").Session} Session
 */

/** From this part of its changes on it is told how many more a room takes. */
const SCARCE = 0.1;

/**
 * How it stands.
 * @param {Session} session
 */
export function standing({ state, why, left, operations }) {
  if (why !== "") return `${state}: ${why}`;
  return left < SCARCE * operations ? `${state}; the room takes ${left} more changes` : state;
}

/**
 * What the room isn't known to have.
 * @param {Session} session
 */
export function lacking({ unsent, other }) {
  if (other !== null) return "the room has another text";
  return unsent.length === 0 ? "the room has all" : unsent.map(({ kind, text }) => `${kind}: ${text}`).join("\n");
}

/**
 * Whether the room has what was done until a flush.
 * @param {Session} session
 * @param {boolean} sent
 */
export function flushed(session, sent) {
  return sent ? "the room has it" : `the room doesn't have all of it: ${standing(session)}`;
}
