/** Lists of pieces of a text, looked at in one pass. */
/**
 * Goes through pieces along changes of their text, of which none overlaps the next, from the last place to the first as they are made.
 * `units` tells how many units of the text a piece is; `part(start, end)` of a piece gives what is between, as a piece of its own. Gives in
 * turn each change where it begins, with no piece; and each piece or part of one, with the change that it is within, or null.
 * @template {{part(start: number, end: number): P}} P
 * @template {{at: number, removed: number}} C
 * @param {C[]} changes
 * @param {P[]} pieces
 * @param {(piece: P) => number} units
 * @returns {Generator<[C | null, P | null], void>}
 */
export function along<P extends {
    part(start: number, end: number): P;
}, C extends {
    at: number;
    removed: number;
}>(changes: C[], pieces: P[], units: (piece: P) => number): Generator<[C | null, P | null], void, any>;
/**
 * Pieces, of which neighbours of one kind are one.
 * @template {{isLike(other: P): boolean, join(next: P): void}} P
 * @param {P[]} pieces
 */
export function joined<P extends {
    isLike(other: P): boolean;
    join(next: P): void;
}>(pieces: P[]): P[];
