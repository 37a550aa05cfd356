/**
 * What differs between two texts: the fewest changes of single characters that lead from one to the other (Myers, 1986). Where these are
 * too many the texts are compared by lines, what differs then by words, and then by pieces, since not all scripts have blanks; and only
 * within those by characters again.
 * @typedef {import("./changes.js").Change} Change
 *
 * Where a stretch of a list, and what stands in its place in another one, begin and end.
 * @typedef {[start: number, end: number, putStart: number, putEnd: number]} Stretch
 */

/** The most steps from either end that are looked for the way where both meet, and for one where it was too far. */
const STEPS = 1_000;
const FEWER = 128;

const SIGNS = null; // single characters
const lines = (text) => text.match(/[^\n]*\n|[^\n]+$/g) ?? [];
const words = (text) => text.match(/\s+|\S+/g) ?? [];
const COARSER = [lines, words, pieces];

/** A text cut behind each character whose number is a multiple of seven: so what stands behind a change is cut as before. */
function pieces(text) {
  const found = [];
  let start = 0;
  for (let at = 0; at < text.length; ) {
    const number = text.codePointAt(at);
    at += number > 0xffff ? 2 : 1;
    if (number % 7 !== 0 && at < text.length) continue;
    found.push(text.slice(start, at));
    start = at;
  }
  return found;
}

/**
 * Changes that lead from a text to another, of which none touches the next, the last one in the text first.
 * @returns {Change[]}
 */
export function differences(from, to) {
  const found = compared(from, to, COARSER);
  return found.map(([at, end, start, stop], n) => {
    const [, before = -1] = found[n + 1] ?? [];
    const change = { at, removed: end - at, text: to.slice(start, stop) };
    return change.text === "" || end === at ? aligned(change, from, before) : change;
  });
}

/**
 * A change that only puts in or only removes may stand at several places where the same characters are before it as at its end. It is that
 * of whole words where there is one: behind the end of another change.
 */
function aligned(change, from, before) {
  const { at, removed, text } = change;
  const whole = removed > 0 ? from.slice(at, at + removed) : text;
  const isSpace = (sign) => sign === undefined || /\s/.test(sign);
  for (let back = 0; ; back += 1) {
    const [first, last] = [from[at - back - 1], whole.at(-1 - (back % whole.length))];
    if (isSpace(first) && isSpace(last)) {
      const moved = whole.slice(whole.length - (back % whole.length)) + whole.slice(0, whole.length - (back % whole.length));
      return { at: at - back, removed, text: removed > 0 ? "" : moved };
    }
    if (first !== last || at - back - 1 <= before || /[\ud800-\udfff]/.test(first)) return change;
  }
}

/** How many units are put in or removed between two texts. */
export function distance(from, to) {
  return compared(from, to, COARSER).reduce((sum, [at, end, start, stop]) => sum + end - at + stop - start, 0);
}

/**
 * What differs, in units, the last first: by characters, or where that is too much, or known to be, by what is coarser, and within that by
 * what is finer.
 */
function compared(from, to, [split, ...finer], isMuch = false) {
  const exact = isMuch ? null : comparedBy(SIGNS, from, to, split === undefined);
  if (exact !== null) return exact;
  return comparedBy(split, from, to, true).flatMap(([at, end, start, stop]) => {
    const isAll = end - at === from.length && stop - start === to.length;
    const found = compared(from.slice(at, end), to.slice(start, stop), finer, isAll && finer.length > 0);
    return found.map(([a, b, c, d]) => [at + a, at + b, start + c, start + d]);
  });
}

/** What differs of the parts of two texts, in units; none where that is too much, unless it is to be told `anyway`. */
function comparedBy(part, from, to, anyway) {
  const numbers = new Map();
  const [old, put] = [from, to].map((text) => (part === SIGNS ? signs(text) : parts(part(text), numbers)));
  const found = new Comparison(old.list, put.list, anyway).stretches();
  return found?.map(([at, end, start, stop]) => [old.starts[at], old.starts[end], put.starts[start], put.starts[stop]]) ?? null;
}

/** The characters of a text as numbers, and where each begins. */
function signs(text) {
  const [list, starts] = [new Int32Array(text.length), new Int32Array(text.length + 1)];
  let count = 0;
  for (let at = 0; at < text.length; at = starts[count]) {
    list[count] = text.codePointAt(at);
    starts[(count += 1)] = at + (list[count - 1] > 0xffff ? 2 : 1);
  }
  return { list: list.subarray(0, count), starts };
}

/** Parts of a text as numbers, the same ones as the same number, and where each begins. */
function parts(texts, numbers) {
  const starts = new Int32Array(texts.length + 1);
  texts.forEach((it, n) => (starts[n + 1] = starts[n] + it.length));
  for (const it of texts) if (!numbers.has(it)) numbers.set(it, numbers.size);
  return { list: Int32Array.from(texts, (it) => numbers.get(it)), starts };
}

class Comparison {
  #steps = STEPS;
  #ahead = new Int32Array(2 * STEPS + 5); // how far in `old` each diagonal comes from the beginning, and back from the end
  #back = new Int32Array(2 * STEPS + 5);

  constructor(old, put, anyway) {
    Object.assign(this, { old, put, anyway });
  }

  /** What differs, the last first. */
  stretches() {
    /** @type {Stretch[]} */
    const found = [];
    const parts = [[0, this.old.length, 0, this.put.length]];
    while (parts.length > 0) {
      const [x0, x1, y0, y1] = this.#trimmed(parts.pop());
      if (x0 < x1 && y0 < y1) {
        const half = this.#halved(x0, x1, y0, y1);
        if (half === null) return null;
        const [x, y] = half;
        parts.push([x0, x, y0, y], [x, x1, y, y1]);
      } else if (x0 < x1 || y0 < y1) {
        const next = found.at(-1);
        if (next?.[0] === x1 && next[2] === y1) [next[0], next[2]] = [x0, y0];
        else found.push([x0, x1, y0, y1]);
      }
    }
    return found;
  }

  #trimmed([x0, x1, y0, y1]) {
    const { old, put } = this;
    for (; x0 < x1 && y0 < y1 && old[x0] === put[y0]; x0 += 1) y0 += 1;
    for (; x0 < x1 && y0 < y1 && old[x1 - 1] === put[y1 - 1]; x1 -= 1) y1 -= 1;
    return [x0, x1, y0, y1];
  }

  /** A place in both that the shortest way leads through: where the ways from both ends meet. Else that where one has come furthest. */
  #halved(x0, x1, y0, y1) {
    const { old, put } = this;
    const [n, m] = [x1 - x0, y1 - y0];
    const [ahead, back, zero] = [this.#ahead, this.#back, STEPS + 2];
    const isIn = (x, k) => x <= n && x - k <= m;
    const begins = (reach, k, count) => {
      const [down, right] = [reach[zero + k + 1], reach[zero + k - 1] + 1];
      return k === -count || (k !== count && right <= down) ? down : right;
    };
    let best = [0, 0];
    ahead[zero + 1] = back[zero + 1] = 0;
    for (let count = 0; count <= this.#steps; count += 1) {
      for (let k = -count; k <= count; k += 2) {
        let x = begins(ahead, k, count);
        while (x < n && x - k < m && old[x0 + x] === put[y0 + x - k]) x += 1;
        ahead[zero + k] = x;
        if (!isIn(x, k)) continue;
        if (2 * x - k > best[0] + best[1]) best = [x, x - k];
        const other = n - m - k;
        if (Math.abs(other) % 2 !== count % 2 && Math.abs(other) < count && x + back[zero + other] >= n) return [x0 + x, y0 + x - k];
      }
      for (let k = -count; k <= count; k += 2) {
        let x = begins(back, k, count);
        while (x < n && x - k < m && old[x1 - 1 - x] === put[y1 - 1 - x + k]) x += 1;
        back[zero + k] = x;
        const other = n - m - k;
        const isMet = Math.abs(other) % 2 === count % 2 && Math.abs(other) <= count && x + ahead[zero + other] >= n;
        if (isMet && isIn(x, k)) return [x1 - x, y1 - x + k];
      }
    }
    if (!this.anyway) return null;
    this.#steps = FEWER;
    return [x0 + best[0], y0 + best[1]];
  }
}
