/**
 * The text that a log begins with, where one site typed it from its beginning to its end, as a room is renewed. A long one would take two
 * thousand requests to read; so its end is looked for, and the text is made out of the room's and of what came since.
 */
import { MOST } from "./document.js";

/**
 * @typedef {import("./log.js").Single} Single
 * @typedef {(after: number, max?: number) => Promise<Single[]>} Read
 */

/** So many requests are on their way at one time. */
const AHEAD = 16;

/**
 * The characters of the text, their site, and what stands behind them in the log, as far as the room's version has it; null where the log
 * begins with no text.
 * @param {Read} read
 * @param {{version: number, roomText: string}} room
 */
export async function firstText(read, { version, roomText }) {
  const { site, count, next } = await endOf(read, version);
  if (count === 0) return null;
  const signs = without(await between(read, count, version), count, [...roomText]);
  if (signs !== null) return { site, signs: await filled(read, signs), next };
  const all = await between(read, 0, count);
  const end = all.findIndex((it, n) => !isNext(it, n, site));
  return { site, signs: all.slice(0, end < 0 ? count : end).map(({ sign }) => sign), next: end < 0 ? next : all[end] };
}

/** The stamp of a site's n-th operation, where a log begins with so many of it. */
const stampOf = (n, site) => (n === 0 ? "null" : `${[n, site]}`);

/** Whether a log's operation with so many before it, which all are of the site, goes on with its text. */
const isNext = ({ sign, sequence, of }, before, site) => sign !== "" && sequence === before + 1 && of === stampOf(before, site);

/**
 * With how many operations the log begins that are all of one site, as the number of the last among the site's own tells; and what stands
 * behind them. Of those that are read, all of some thousand and a part in each sixteenth of more, each stood behind the one before.
 * @param {Read} read
 */
async function endOf(read, version) {
  let [start, count] = [0, version]; // so many are it surely, and so many may be
  let site = null;
  let next = null;
  while (start < count) {
    const step = Math.max(MOST, Math.ceil((count - start) / AHEAD));
    const places = [];
    for (let at = start; at < count; at += step) places.push(at);
    const parts = await Promise.all(places.map((at) => read(at)));
    for (const [n, part] of parts.entries()) {
      site ??= part[0]?.site ?? null;
      const end = part.findIndex((it, more) => !isNext(it, places[n] + more, site));
      const good = Math.min(end < 0 ? part.length : end, count - places[n]);
      if (good > 0) start = places[n] + good;
      if (good === MOST) continue;
      [count, next] = [places[n] + good, part[good] ?? null];
      break;
    }
  }
  return { site, count, next };
}

/**
 * The operations from a version to another.
 * @param {Read} read
 */
async function between(read, from, to) {
  const found = [];
  for (let start = from; start < to; start += AHEAD * MOST) {
    const places = Array.from({ length: AHEAD }, (_, n) => start + n * MOST).filter((place) => place < to);
    for (const part of await Promise.all(places.map((place) => read(place, Math.min(MOST, to - place))))) found.push(...part);
  }
  return found;
}

/**
 * The characters of a text of so many operations, out of those that the room shows: without what came since, and null
 * for each that was deleted. All is null where what came since may stand elsewhere than right behind the character that it was typed at, or
 * where that doesn't explain the room's text.
 * @param {Single[]} since
 */
function without(since, count, shown) {
  const anchors = new Map(); // of each insertion since the number of the character that it stands behind, at once or behind others
  const more = new Map(); // how many shown ones stand so behind a character
  const add = (anchor, shown) => more.set(anchor, (more.get(anchor) ?? 0) + shown);
  const gone = new Set();
  const goneSince = new Set();
  for (const { sign, stamp, of } of since) {
    const sum = of === "null" ? 0 : parseInt(of);
    const isOfText = sum <= count;
    const anchor = isOfText ? sum : anchors.get(of);
    if (anchor === undefined || parseInt(stamp) <= count) return null;
    if (sign !== "") {
      anchors.set(stamp, anchor);
      add(anchor, 1);
    } else if (isOfText) {
      gone.add(sum);
    } else if (!goneSince.has(of)) {
      goneSince.add(of);
      add(anchor, -1);
    }
  }
  const signs = [];
  let at = more.get(0) ?? 0;
  for (let n = 1; n <= count; n += 1) {
    signs.push(gone.has(n) ? null : shown[at++]);
    at += more.get(n) ?? 0;
  }
  return at === shown.length ? signs : null;
}

/**
 * The characters of a text, of which those that are null are read.
 * @param {Read} read
 */
async function filled(read, signs) {
  const lacking = [];
  for (const [n, sign] of signs.entries()) if (sign === null && !(n < lacking.at(-1) + MOST)) lacking.push(n);
  while (lacking.length > 0) {
    const places = lacking.splice(0, AHEAD);
    const parts = await Promise.all(places.map((place) => read(place, Math.min(MOST, signs.length - place))));
    for (const [n, part] of parts.entries()) part.forEach(({ sign }, more) => (signs[places[n] + more] ??= sign));
  }
  return signs;
}
