/** Of so many units from a place on the runs that were all put in here, or all by others, the last first. */
export function runsOf(own: any, at: any, units: any): Generator<{
    at: any;
    taken: never[];
    put: number;
    isOwn: boolean;
}, void, unknown>;
/** So many operations tell one log from another. */
export const SIGNS: 64;
export class Memory {
    /**
     * Remembers nothing but the version, what the log has last up to there, and of each unit of the text whether it was put in here.
     * @param {Known[]} last
     * @param {Int32Array} own
     */
    constructor(version: any, last: Known[], own: Int32Array);
    /** The version that can be gone back to. */
    base: any;
    /** The sites of all operations that were known at some time. @type {Set<number>} */
    sites: Set<any>;
    /** @param {Omit<Entry, "when">} entry */
    add(entry: Omit<Entry, "when">): void;
    /** What is known of the operations from some number below the base on; of those in between nothing may be known. */
    get known(): {
        start: number;
        known: (Known | undefined)[];
    };
    /** The version of the first text that is known: one that was joined, of whose operations the last alone are known, or the base. */
    get joined(): any;
    /** What is known of the last operations up to a version, at most `SIGNS`. */
    last(version: any): (Known | undefined)[];
    /** Of each unit of the text of now whether it was put in here. */
    get own(): Int32Array;
    /**
     * What is remembered where another log has the text at a version: whose it is, and which sites were known.
     * @param {Known[]} last
     */
    renewed(version: any, last: Known[]): Memory;
    /** How many entries lead to the document's version. */
    get length(): number;
    /** How many entries lead to a version; fewer where the entries don't tell it alone, and less than none before the base. */
    lengthAt(version: any): number;
    /**
     * Forgets all but so many entries, the last one first. Where these are less than none the text at the base goes, too, or what was put in
     * here of it alone.
     */
    since(length: any, isOwnAlone: any): Generator<Entry | {
        from: number;
        ways: {
            at: any;
            taken: never[];
            put: number;
            isOwn: boolean;
        }[];
    } | undefined, void, unknown>;
    /** How many entries lead to the last of the room's texts, up to the one of now, that is the wanted one; null where none is. */
    lengthWhere(wanted: any, text: any): number | null;
    /**
     * The entries that put in something here that the room's text of so many units still has, the last first: how many lead to each, and
     * where. What the text at the base has of that is the last one, which less than none lead to.
     */
    ownEntries(units: any): Generator<{
        length: number;
        places: number[];
    }, void, unknown>;
    #private;
}
/**
 * What took the room's text from a version to another: what was deleted at a place, each text with whether it was deleted here too, and
 * the number of the wait in which it came; and how many units were put in there, and whether here. `known` are its last operations.
 */
export type Known = {
    sign: string;
    site: number | null;
    of?: string;
};
/**
 * What is known of an operation: the character that it puts in, or an empty text of a deletion; its site; and the stamp of the element
 * that it stands behind or deletes, both where they are known.
 */
export type Way = {
    at: number;
    taken: {
        text: string;
        isMine: boolean;
        since: number;
    }[];
    put: number;
    isOwn: boolean;
};
/**
 * What is known of an operation: the character that it puts in, or an empty text of a deletion; its site; and the stamp of the element
 * that it stands behind or deletes, both where they are known.
 */
export type Entry = {
    from: number;
    to: number;
    known: Known[];
    ways: Way[];
    when: number;
};
