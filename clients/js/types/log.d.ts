export class Log {
    /** @param {(request: object) => Promise<import("./connection.js").Reply>} ask */
    constructor(ask: (request: object) => Promise<import("./connection.js").Reply>);
    /** How many operations of each site those knew that were told by `last`. @type {Map<number, number>} */
    counts: Map<any, any>;
    /**
     * The last operations up to a version.
     * @returns {Promise<Known[]>}
     */
    last(version: any): Promise<Known[]>;
    /**
     * The operations that lead from a version to another.
     * @returns {Promise<Known[]>}
     */
    known(from: any, to: any): Promise<Known[]>;
    /** The site of an operation. */
    siteOf(number: any): Promise<number>;
    /**
     * Whether the log goes on from what a document knows of it.
     * @param {Document} document
     */
    goesOn(document: Document): Promise<boolean>;
    /**
     * Up to which version the log is the one that a document knows, and whether it surely lost what was behind that; null where not even
     * its beginning is known.
     * @param {Document} document
     */
    upTo(document: Document): Promise<{
        kept: any;
        isSure: boolean;
        isBefore: true;
        isWhole?: undefined;
    } | {
        kept: number;
        isSure: boolean;
        isWhole: boolean;
        isBefore?: undefined;
    } | {
        kept: any;
        isSure: boolean;
    } | null>;
    /**
     * Whether a site is that of the server's run: that takes no operation of its own from elsewhere. This one deletes what isn't there, so
     * nobody takes it.
     */
    isOfRun(site: any): Promise<boolean>;
    /**
     * Whether the operations from a version to another are all that a document has under way: a part may be another's, in another run.
     * @param {Document} document
     * @param {number} from
     * @param {number} to
     */
    is(document: Document, from: number, to: number): Promise<boolean>;
    /**
     * Where the log has what a document has under way: behind what the document knows, and in one piece; or its beginning alone, where the
     * log lost the end. Null where it hasn't. `others`: so many operations are surely others'; `from`: the version that it leads from, where
     * that is known.
     * @param {Document} document
     * @param {number} others
     * @param {number} [from]
     */
    find(document: Document, others: number, from?: number | undefined): Promise<{
        from: number;
        count: number;
    } | null>;
    /**
     * The text that one site typed from its beginning to its end, where the log begins so, and whether it is that of a new document, as a
     * room is renewed: behind it is another site's first operation or none, and the run of the server is of another site too. Null where the
     * log begins otherwise.
     * @param {Document} room
     */
    firstText(room: Document): Promise<{
        text: any;
        version: any;
        last: any;
        isNew: boolean;
    } | null>;
    #private;
}
export type Document = import("./document.js").Document;
/**
 * A single operation: the character that it puts in, or an empty text of a deletion; its site; which of its site's it is; its clock; its
 * stamp, and that of the element that it stands behind or deletes.
 */
export type Known = import("./memory.js").Known;
export type Single = {
    sign: string;
    site: number;
    sequence: number;
    clock: number[][];
    stamp: string;
    of: string;
};
