/**
 * A connection to a room of an rgatext server, as docs/PROTOCOL.md has it: requests go out, and their replies come in the same order.
 *
 * @typedef {import("./document.js").Edit} Edit
 * @typedef {{x?: string}} Operation
 * @typedef {{r: string, n?: number, s?: number, v?: number, x?: string, from?: number, to?: number, es?: Edit[], ops?: Operation[]}} Reply
 * An open line to a room. `ask` sends a request and gives its reply, or throws `Lost`.
 * @typedef {{isOpen: boolean, ask(request: object): Promise<Reply>, close(): void}} Line
 */
import { Lost, Refused } from "./faults.js";
import { USUAL } from "./options.js";

/** A line over a WebSocket. */
export class Connection {
  /**
   * Connects, and opens the room. `Socket` is a class like WebSocket. Rejects with `Lost`, also where a signal is aborted before, or with
   * `Refused` where there is no such room.
   * @param {string} address
   * @param {string} room
   * @param {AbortSignal} [signal]
   * @returns {Promise<Line>}
   */
  static async open(address, room, Socket = globalThis.WebSocket, options = USUAL, signal = undefined) {
    const connection = new Connection(new Socket(address), options);
    const close = () => connection.close();
    signal?.addEventListener("abort", close);
    const reply = await connection.ask({ t: "open", room }).finally(() => signal?.removeEventListener("abort", close));
    if (reply.r !== "opened") {
      connection.close();
      throw new Refused(reply.n);
    }
    return connection;
  }

  constructor(socket, options) {
    this.socket = socket;
    this.options = options;
    this.isOpen = true;
    this.waiting = []; // requests, until the socket is open; none from then on
    this.asked = [];
    socket.addEventListener("open", () => {
      for (const request of this.waiting) socket.send(request);
      this.waiting = null;
    });
    socket.addEventListener("close", () => this.close());
    socket.addEventListener("error", () => this.close());
    socket.addEventListener("message", ({ data }) => this.answered(data));
  }

  /** Sends a request at once, and gives its reply. An answer that is missed ends the connection. */
  async ask(request) {
    if (!this.isOpen) throw new Lost();
    const timer = setTimeout(() => this.close(), request.t === "join" ? this.options.joined : this.options.answer);
    try {
      return await new Promise((resolve, reject) => {
        this.asked.push({ resolve, reject });
        const text = JSON.stringify(request);
        if (this.waiting !== null) this.waiting.push(text);
        else this.socket.send(text);
      });
    } finally {
      clearTimeout(timer);
    }
  }

  /** Hands a reply over. What isn't one ends the connection. */
  answered(text) {
    const reply = parsed(text);
    if (reply === null) this.close("what answers is no rgatext server");
    else this.asked.shift()?.resolve(reply);
  }

  close(why = "") {
    if (!this.isOpen) return;
    this.isOpen = false;
    this.socket.close();
    for (const { reject } of this.asked.splice(0)) reject(new Lost(why));
  }
}

/** @returns {Reply | null} */
function parsed(text) {
  try {
    const reply = JSON.parse(text);
    return typeof reply?.r === "string" ? reply : null;
  } catch {
    return null;
  }
}
