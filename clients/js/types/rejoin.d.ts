/**
 * How a document comes to a room's text, as far as the room is known: a call that does so, and gives the changes of what is shown. Null
 * where the room has another text. `edits` are such as lead from the document's version on, and so many of them are surely `others`'.
 * @param {Document} document
 * @param {Document} room
 * @param {import("./log.js").Log} log
 * @param {Edit[]} edits
 * @param {number} [others]
 * @returns {Promise<(() => Change[]) | null>}
 */
export function wayTo(document: Document, room: Document, log: import("./log.js").Log, edits: Edit[], others?: number | undefined): Promise<(() => Change[]) | null>;
export type Change = import("./changes.js").Change;
export type Edit = import("./document.js").Edit;
import { Document } from "./document.js";
