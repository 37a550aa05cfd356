/**
 * Opens a session with a room of a server, as open("ws://127.0.0.1:7878", "notes"). Throws a TypeError where that is no address, where
 * there is no option of a name, or where there is no WebSocket: Node has it from 22 on, Node 20 with --experimental-websocket; else a class
 * like it is the option `Socket`.
 * @param {string} address
 * @param {string} room
 * @param {Options & {Socket?: new (address: string) => any}} [options]
 * @returns {Session}
 */
export function open(address: string, room: string, { Socket, ...options }?: (import("./options.js").Options & {
    Socket?: (new (address: string) => any) | undefined;
}) | undefined): Session;
export type Change = import("./changes.js").Change;
export type Options = import("./options.js").Options;
export type State = import("./session.js").State;
import { Session } from "./session.js";
import { carried } from "./changes.js";
import { difference } from "./text.js";
import { differences } from "./differences.js";
import { Document } from "./document.js";
import { Ended } from "./faults.js";
import { Full } from "./faults.js";
import { GivenUp } from "./faults.js";
import { Lost } from "./faults.js";
import { played } from "./changes.js";
import { Refused } from "./faults.js";
export { carried, difference, differences, Document, Ended, Full, GivenUp, Lost, played, Refused, Session };
