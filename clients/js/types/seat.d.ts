/** The room and the session don't have one count any more, on a line that is there: the run of the server is the same. */
export class OutOfStep extends Error {
    constructor(number: any);
    isGone: boolean;
}
export function pause(milliseconds: any): Promise<any>;
export class Seat {
    /** @param {() => void} onSilence is called where an answer doesn't come soon */
    constructor(onSilence?: () => void, options?: Required<import("./options.js").Options>);
    /** @type {import("./connection.js").Line} */
    line: import("./connection.js").Line;
    log: Log;
    onSilence: () => void;
    options: Required<import("./options.js").Options>;
    get isTaken(): boolean;
    /** Whether the room was asked for the end of the session. */
    get isLeaving(): boolean;
    get isUnanswered(): boolean;
    /** Sends a request, and gives the reply. */
    send(request: any): Promise<import("./connection.js").Reply>;
    /** Asks, again where memory was refused. Gives the reply, a refusal too. */
    ask(request: any): Promise<import("./connection.js").Reply>;
    /** Asks, and throws where that is refused. */
    must(request: any): Promise<import("./connection.js").Reply>;
    /** Joins, and gives the room's document. */
    join(): Promise<Document>;
    /** Gives the number up, for another one. */
    giveUp(): Promise<void>;
    /** Whether the room takes calls, and so many changes. */
    takes(changes: any): Promise<boolean>;
    /** Asks for the end of the session at once, and once. Settles with whether it has come to that. */
    leave(): Promise<true | null>;
    /** Whether nothing is left in the room. */
    isLeft(): Promise<boolean>;
    /**
     * What the number is on a new line. The same run of the server answers the last accepted submission, asked for once more with an empty
     * text, as it did; another run may so answer another's, so its operations tell where its edits weren't played. Where one was under way it
     * may have been accepted since, and is then the last: they tell, too. `document` is the one that follows the session.
     * @param {Document} document
     * @returns {Promise<"same" | "unused" | "another">}
     */
    findOut(document: Document): Promise<"same" | "unused" | "another">;
    /**
     * Whether what was found is one's own, or may be left as such: it is unused, and its log and versions are those that are known, so that
     * who else may have it loses nothing.
     * @param {"same" | "unused" | "another"} found
     * @param {Document} document
     */
    isOwn(found: "same" | "unused" | "another", document: Document): Promise<boolean>;
    /** Whether nothing has come of the session until now: what is under way may come yet, but isn't among what was pulled. */
    isUnused(): Promise<boolean>;
    /** Asks for edits from a version on. */
    pull(have: any): Promise<import("./connection.js").Reply>;
    /** The edits of a reply to a pull; none where memory was refused, which is waited for. */
    editsOf(reply: any): Promise<any>;
    /** Finds out a site of the log behind a document, where none is known: it tells the run again where nothing of that was kept. */
    meet({ version, memory }: {
        version: any;
        memory: any;
    }): Promise<void>;
    /** The edits since a document's version, by a session; null where they aren't to be had. */
    editsSince({ roomText, version }: {
        roomText: any;
        version: any;
    }, s?: null): Promise<any[] | null>;
    /**
     * The request of what a document has to be submitted, of what was made before an order: the same again, while its answer wasn't seen.
     * What isn't sent isn't under way.
     * @param {Document} document
     * @returns {object | null}
     */
    submission(document: Document, before?: number): object | null;
    /** Sends what a document has to be submitted, where nothing is under way, and waits for nothing: the log tells later whether it came. */
    submit(document: any): void;
    /** Whether what was accepted last leads to a version, or one before. */
    hasCome(version: any): boolean;
    /**
     * Takes the reply to a submission.
     * @param {Document} document
     * @param {import("./connection.js").Reply} reply
     */
    answered(document: Document, reply: import("./connection.js").Reply): Promise<any>;
    #private;
}
import { Log } from "./log.js";
import { Document } from "./document.js";
