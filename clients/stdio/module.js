/**
 * What is asked of the module: it is imported here alone.
 * @typedef {import("../js/changes.js").Change} Change
 * @typedef {import("../js/session.js").Session} Session
 */
export { along, joined } from "../js/along.js";
export { runs } from "../js/changes.js";
export { inTime } from "../js/options.js";
export { difference, differences, Ended, Full, open } from "../js/rgatext.js";
export { Undo } from "../js/undo.js";
