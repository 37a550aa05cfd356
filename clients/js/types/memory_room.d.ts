export class MemoryRoom {
    /**
     * A room of a site's run, with a log; it takes so many operations in all.
     * @param {{site?: number, log?: Operation[], operations?: number}} [options]
     */
    constructor({ site, log, operations }?: {
        site?: number | undefined;
        log?: import("./history.js").Operation[] | undefined;
        operations?: number | undefined;
    } | undefined);
    /** The newest version. */
    get version(): number;
    /** The text of the newest version. */
    get text(): string;
    /** How many sessions are there. */
    get sessions(): number;
    /**
     * The log, packed as replies have it.
     * @returns {Operation[]}
     */
    get log(): import("./history.js").Operation[];
    /** Ends the run, as a kill does, and gives the next one, which kept the log up to a version. */
    restart(kept?: number): MemoryRoom;
    /** Cuts all lines. */
    cut(): void;
    /**
     * A line to the room. Each request takes `delay` milliseconds there, and its answer as many back. `meets` says what a request meets:
     * "request" where it is lost with the line, "answer" where the answer is, a reply where it is answered so, and an empty text where all
     * goes well.
     * @param {{delay?: number, meets?: (request: any) => "" | "request" | "answer" | object}} [options]
     * @returns {Promise<Line>}
     */
    connect({ delay, meets }?: {
        delay?: number | undefined;
        meets?: ((request: any) => "" | "request" | "answer" | object) | undefined;
    } | undefined): Promise<Line>;
    /**
     * The reply to a request, at once.
     * @param {object} request
     * @returns {import("./connection.js").Reply}
     */
    answer(request: object): import("./connection.js").Reply;
    #private;
}
export type Operation = import("./history.js").Operation;
export type Line = import("./connection.js").Line;
