/** Lists of pieces of a text, looked at in one pass. */

/**
 * Goes through pieces along changes of their text, of which none overlaps the next, from the last place to the first as they are made.
 * `units` tells how many units of the text a piece is; `part(start, end)` of a piece gives what is between, as a piece of its own. Gives in
 * turn each change where it begins, with no piece; and each piece or part of one, with the change that it is within, or null.
 * @template {{part(start: number, end: number): P}} P
 * @template {{at: number, removed: number}} C
 * @param {C[]} changes
 * @param {P[]} pieces
 * @param {(piece: P) => number} units
 * @returns {Generator<[C | null, P | null], void>}
 */
export function* along(changes, pieces, units) {
  let next = changes.length - 1;
  let place = 0;
  let within = null; // the change that has begun and hasn't ended
  for (let index = 0; ; index += 1) {
    const length = index < pieces.length ? units(pieces[index]) : 0;
    for (let start = 0; ; ) {
      if (within !== null && place >= within.at + within.removed) within = null;
      for (; within === null && changes[next]?.at === place; next -= 1) {
        yield [changes[next], null];
        if (changes[next].removed > 0) within = changes[next];
      }
      if (start === length) break;
      const ahead = (within === null ? changes[next]?.at : within.at + within.removed) - place;
      const end = ahead > 0 && ahead < length - start ? start + ahead : length;
      yield [within, start === 0 && end === length ? pieces[index] : pieces[index].part(start, end)];
      place += end - start;
      start = end;
    }
    if (index >= pieces.length) return;
    if (length === 0) yield [within, pieces[index]];
  }
}

/**
 * Pieces, of which neighbours of one kind are one.
 * @template {{isLike(other: P): boolean, join(next: P): void}} P
 * @param {P[]} pieces
 */
export function joined(pieces) {
  /** @type {P[]} */
  const list = [];
  for (const piece of pieces) {
    if (list.at(-1)?.isLike(piece)) list.at(-1).join(piece);
    else list.push(piece);
  }
  return list;
}
