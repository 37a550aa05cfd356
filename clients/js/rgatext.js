/**
 * A session with a room of an rgatext server, for editors in a page or in Node: what is typed shows at once, and what others type comes
 * as changes of the shown text. docs/PROTOCOL.md has the protocol, docs/CLIENTS.md the rules that this module keeps.
 *
 *     import { open } from "./rgatext.js";
 *     const session = open("ws://127.0.0.1:7878", "notes");
 *     session.addEventListener("changes", ({ detail }) => { ... });  // what to play on an editor's own text
 *     session.replace(0, 0, "Hello");
 */
import { carried, played } from "./changes.js";
import { Connection } from "./connection.js";
import { differences } from "./differences.js";
import { Document } from "./document.js";
import { Ended, Full, GivenUp, Lost, Refused } from "./faults.js";
import { withUsual } from "./options.js";
import { Session } from "./session.js";
import { difference } from "./text.js";

/**
 * @typedef {import("./changes.js").Change} Change
 * @typedef {import("./options.js").Options} Options
 * @typedef {import("./session.js").State} State
 */

export { carried, difference, differences, Document, Ended, Full, GivenUp, Lost, played, Refused, Session };

/**
 * Opens a session with a room of a server, as open("ws://127.0.0.1:7878", "notes"). Throws a TypeError where that is no address, where
 * there is no option of a name, or where there is no WebSocket: Node has it from 22 on, Node 20 with --experimental-websocket; else a class
 * like it is the option `Socket`.
 * @param {string} address
 * @param {string} room
 * @param {Options & {Socket?: new (address: string) => any}} [options]
 * @returns {Session}
 */
export function open(address, room, { Socket = globalThis.WebSocket, ...options } = {}) {
  if (!isAddress(address)) throw new TypeError("an address is ws://HOST:PORT");
  const isThere = typeof Socket === "function";
  if (!isThere) throw new TypeError("there is no WebSocket: start Node 20 with --experimental-websocket, or name a class");
  const times = withUsual(options);
  const session = new Session((signal) => Connection.open(address, room, Socket, times, signal), options);
  session.isHidden = globalThis.document?.hidden ?? false;
  return session;
}

/** Whether it is an address as a WebSocket takes it: with a path or none, but with no user, query or fragment. */
function isAddress(address) {
  try {
    const { username, password } = new URL(address);
    return /^wss?:\/\/[^?#]+$/.test(address) && username === "" && password === "";
  } catch {
    return false;
  }
}
