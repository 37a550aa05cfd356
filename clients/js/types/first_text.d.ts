/**
 * The characters of the text, their site, and what stands behind them in the log, as far as the room's version has it; null where the log
 * begins with no text.
 * @param {Read} read
 * @param {{version: number, roomText: string}} room
 */
export function firstText(read: Read, { version, roomText }: {
    version: number;
    roomText: string;
}): Promise<{
    site: number | null;
    signs: any;
    next: import("./log.js").Single | null;
} | null>;
export type Single = import("./log.js").Single;
export type Read = (after: number, max?: number) => Promise<Single[]>;
