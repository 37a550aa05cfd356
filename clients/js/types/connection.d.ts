/** A line over a WebSocket. */
export class Connection {
    /**
     * Connects, and opens the room. `Socket` is a class like WebSocket. Rejects with `Lost`, also where a signal is aborted before, or with
     * `Refused` where there is no such room.
     * @param {string} address
     * @param {string} room
     * @param {AbortSignal} [signal]
     * @returns {Promise<Line>}
     */
    static open(address: string, room: string, Socket?: {
        new (url: string | URL, protocols?: string | string[] | undefined): WebSocket;
        prototype: WebSocket;
        readonly CLOSED: number;
        readonly CLOSING: number;
        readonly CONNECTING: number;
        readonly OPEN: number;
    }, options?: Required<import("./options.js").Options>, signal?: AbortSignal | undefined): Promise<Line>;
    constructor(socket: any, options: any);
    socket: any;
    options: any;
    isOpen: boolean;
    waiting: any[];
    asked: any[];
    /** Sends a request at once, and gives its reply. An answer that is missed ends the connection. */
    ask(request: any): Promise<any>;
    /** Hands a reply over. What isn't one ends the connection. */
    answered(text: any): void;
    close(why?: string): void;
}
/**
 * A connection to a room of an rgatext server, as docs/PROTOCOL.md has it: requests go out, and their replies come in the same order.
 */
export type Edit = import("./document.js").Edit;
/**
 * A connection to a room of an rgatext server, as docs/PROTOCOL.md has it: requests go out, and their replies come in the same order.
 */
export type Operation = {
    x?: string;
};
/**
 * An open line to a room. `ask` sends a request and gives its reply, or throws `Lost`.
 */
export type Reply = {
    r: string;
    n?: number;
    s?: number;
    v?: number;
    x?: string;
    from?: number;
    to?: number;
    es?: Edit[];
    ops?: Operation[];
};
/**
 * A connection to a room of an rgatext server, as docs/PROTOCOL.md has it: requests go out, and their replies come in the same order.
 */
export type Line = {
    isOpen: boolean;
    ask(request: object): Promise<Reply>;
    close(): void;
};
