/**
 * What the log of a room tells of a document: whether it goes on from what the document knows, up to where it is the one that is known,
 * and whether it has what is under way.
 */
import { MOST } from "./document.js";
import { Refused } from "./faults.js";
import { firstText } from "./first_text.js";
import { SIGNS } from "./memory.js";

/**
 * @typedef {import("./document.js").Document} Document
 * @typedef {import("./memory.js").Known} Known
 *
 * A single operation: the character that it puts in, or an empty text of a deletion; its site; which of its site's it is; its clock; its
 * stamp, and that of the element that it stands behind or deletes.
 * @typedef {{sign: string, site: number, sequence: number, clock: number[][], stamp: string, of: string}} Single
 */

/** So many operations behind what is known are looked through for what is under way: as many as a log takes. */
const FAR = 131_072;

/**
 * Where no more units than so were there at first nobody is asked if all is lost, though who put them in may be gone: a team types as many
 * before the first turn of a server that keeps a log each five seconds.
 */
const FEW = 1_024;

/** So often something is asked that others' typing spoils. */
const TRIES = 4;

const sumOf = (clock) => clock.reduce((sum, [, count]) => sum + count, 0);

/** @returns {Single[]} */
function singles({ c, k, s, p, x, t }) {
  const sum = sumOf(c);
  const sequence = c.find(([site]) => site === s)[1];
  if (k === "d") return [{ sign: "", site: s, sequence, clock: c, stamp: `${[sum, s]}`, of: `${t}` }];
  return [...x].map((sign, n) => ({
    sign,
    site: s,
    sequence: sequence + n,
    clock: c.map(([site, count]) => [site, site === s ? count + n : count]),
    stamp: `${[sum + n, s]}`,
    of: n === 0 ? `${p}` : `${[sum + n - 1, s]}`,
  }));
}

/** What is remembered of operations. @returns {Known[]} */
const knownOf = (singles) => singles.map(({ sign, site, of }) => ({ sign, site, of }));

/** Whether an operation is one of which something is known, as far as that tells. */
const isLike = (known, single) =>
  known === undefined ||
  (known.sign === single.sign && (known.site === null || known.site === single.site) && (known.of ?? single.of) === single.of);

export class Log {
  #ask;
  #end = 0; // a version that the log has
  /** How many operations of each site those knew that were told by `last`. @type {Map<number, number>} */
  counts = new Map();

  /** @param {(request: object) => Promise<import("./connection.js").Reply>} ask */
  constructor(ask) {
    this.#ask = ask;
  }

  /** At most so many operations from a number on, at most 64; fewer where the log is shorter. */
  async #singles(after, max = MOST) {
    if (max === 0) return [];
    const reply = await this.#ask({ t: "ops", after, max });
    if (reply.r === "no" && reply.n !== 23) throw new Refused(reply.n);
    return (reply.ops ?? []).flatMap(singles);
  }

  /**
   * The last operations up to a version.
   * @returns {Promise<Known[]>}
   */
  async last(version) {
    this.#end = version;
    const max = Math.min(version, SIGNS);
    const last = await this.#singles(version - max, max);
    this.counts = new Map();
    for (const [site, count] of last.flatMap(({ clock }) => clock)) this.counts.set(site, Math.max(count, this.counts.get(site) ?? 0));
    return knownOf(last);
  }

  /**
   * The operations that lead from a version to another.
   * @returns {Promise<Known[]>}
   */
  async known(from, to) {
    return knownOf(await this.#singles(from, to - from));
  }

  /** The site of an operation. */
  async siteOf(number) {
    return (await this.#singles(number, 1))[0]?.site ?? null;
  }

  /** The operations from a number on, where they are as they are known; else none. */
  async #at(number, known) {
    const found = await this.#singles(number, known.length);
    return found.length === known.length && known.every((it, n) => isLike(it, found[n])) ? found : [];
  }

  /**
   * Up to which version a log may be the one that a document knows: where it hasn't the first of its submissions, no further. That tells
   * a run apart whose site comes again.
   * @param {Document} document
   */
  async #most({ version, first }) {
    const count = first === null ? 0 : Math.min(first.known.length, version - first.from);
    const found = count > 0 ? await this.#singles(first.from, count) : [];
    const another = found.findIndex((it, n) => !isLike(first.known[n], it));
    return another < 0 ? version : first.from + another;
  }

  /**
   * Whether the log goes on from what a document knows of it.
   * @param {Document} document
   */
  async goesOn(document) {
    const { version, memory, first } = document;
    const last = memory.last(version);
    const start = version - last.length;
    if ((await this.#at(start, last)).length === 0) return version === 0;
    return first === null || first.from >= start || (await this.#most(document)) === version;
  }

  /**
   * Up to which version the log is the one that a document knows, and whether it surely lost what was behind that; null where not even
   * its beginning is known.
   * @param {Document} document
   */
  async upTo(document) {
    const { version, memory } = document;
    const { joined } = memory;
    const most = await this.#most(document);
    const { start, known } = memory.known;
    const isKnown = (at) => at <= joined || known[at - start - 1] !== undefined;
    let kept = most;
    for (let back = SIGNS; ; back *= 2) {
      const before = kept;
      kept = Math.max(joined, most - back);
      if (!isKnown(kept)) {
        let end = kept; // of a text that was joined nothing is known but its end, which is looked at once
        while (!isKnown(end)) end += 1;
        end += SIGNS - 1;
        if (end < before) kept = end;
        else while (!isKnown(kept)) kept -= 1;
      }
      const last = memory.last(kept);
      const same = await this.#at(kept - last.length, last);
      const isChance = same.length < SIGNS && (await this.#isOfOneOf(new Set(same.map(({ site }) => site)))); // its site came again
      if (kept === 0 || (same.length > 0 && !isChance)) break;
      if (kept === joined) return this.#before(document);
    }
    const same = new Set(memory.last(kept).map(({ site }) => site));
    const firsts = new Map(); // where each site begins among what is as it was known
    let next = null;
    for (let found = []; kept < version; kept += 1) {
      if (found.length === 0) found = await this.#singles(kept);
      next = found.shift() ?? null;
      const was = known[kept - start];
      if (next === null || !isLike(was, next)) break;
      if (was !== undefined) same.add(was.site);
      if (!firsts.has(next.site)) firsts.set(next.site, kept);
    }
    for (const [site, first] of firsts) {
      if (await this.isOfRun(site)) return { kept: first, isSure: first > 0 || memory.sites.has(site) };
    }
    if (kept > 0) return { kept, isSure: next === null || next.sequence === 1 || (await this.#hasAnother(same, known[0 - start])) };
    const sites = [...memory.sites].filter((site) => next === null || site === next.site);
    if (await this.#isOfOneOf(sites)) return { kept, isSure: true };
    const isAgain = sites.length > 0 && next?.sequence === 1; // its number came again, or a new document has it
    return isAgain ? { kept, isSure: false } : null;
  }

  /** What is told of a log that isn't the known one where what is remembered begins: it may have ended before. */
  async #before({ inherited, memory: { base, joined, sites, known: { start, known } } }) {
    const first = Math.max(start, joined - SIGNS);
    const found = await this.#singles(first, joined - first);
    const kept = found.findIndex((it, n) => !isLike(known[first - start + n], it));
    const next = kept < 0 ? undefined : found[kept];
    const isBefore = found.length > 0 && kept !== 0 && (next === undefined || next.sequence === 1);
    if (isBefore) return { kept: joined, isSure: true, isBefore };
    const isWhole = inherited <= FEW && (await this.#isOfOneOf(sites));
    if (await this.#isEmpty()) return isWhole ? { kept: 0, isSure: true } : null;
    return base === 0 || inherited <= FEW ? { kept: 0, isSure: false, isWhole } : null;
  }

  /** Whether one of some sites isn't that of the first operation, which may be known: a new document begins with a text of one site. */
  async #hasAnother(sites, begin) {
    const first = begin?.site ?? (await this.siteOf(0));
    return [...sites].some((site) => site !== null && site !== first);
  }

  async #isEmpty() {
    return (await this.#singles(0, 1)).length === 0;
  }

  /** Whether one of some sites is that of the server's run. */
  async #isOfOneOf(sites) {
    for (const site of sites) if (await this.isOfRun(site)) return true;
    return false;
  }

  /**
   * Whether a site is that of the server's run: that takes no operation of its own from elsewhere. This one deletes what isn't there, so
   * nobody takes it.
   */
  async isOfRun(site) {
    for (let tries = 0; tries < TRIES; tries += 1) {
      const sequence = 1 + (await this.#countOf(site));
      const reply = await this.#ask({ t: "put", ops: [{ c: [[site, sequence]], k: "d", s: site, t: [sequence, site] }] });
      if (reply.r === "no") throw new Refused(reply.n);
      const [[, why]] = reply.os;
      if (why !== 17) return why === 16;
    }
    return true; // the site's operations come faster than they are asked for
  }

  /** How many operations of a site the log has: as the last of them tells, or the last one that knew all before it. */
  async #countOf(site) {
    let start = Math.max(0, this.#end - 1);
    let found = await this.#singles(start);
    this.#end = Math.max(this.#end, start + found.length);
    while (start > 0 || found.length > 0) {
      const last = found.findLast((it, n) => it.site === site || sumOf(it.clock) === start + n + 1);
      if (last !== undefined) return new Map(last.clock).get(site) ?? 0;
      const count = Math.min(start, MOST);
      start -= count;
      found = await this.#singles(start, count);
    }
    return 0;
  }

  /**
   * Whether the operations from a version to another are all that a document has under way: a part may be another's, in another run.
   * @param {Document} document
   * @param {number} from
   * @param {number} to
   */
  async is(document, from, to) {
    const found = await this.find(document, 0, from);
    return found !== null && found.count === document.underWay.signs.length && found.from + found.count === to;
  }

  /**
   * Where the log has what a document has under way: behind what the document knows, and in one piece; or its beginning alone, where the
   * log lost the end. Null where it hasn't. `others`: so many operations are surely others'; `from`: the version that it leads from, where
   * that is known.
   * @param {Document} document
   * @param {number} others
   * @param {number} [from]
   */
  async find(document, others, from = document.accepted?.[0]) {
    const { version, site, roomText, underWay } = document;
    const { isPut, k, signs } = underWay;
    const before = k === 0 ? "" : [...roomText.slice(0, k)].at(-1);
    const first = Math.max(from ?? version, version);
    const found = [];
    for (let isMore = true; isMore && found.length < (from === undefined ? FAR : 2 * MOST); ) {
      const more = await this.#singles(first + found.length);
      found.push(...more);
      isMore = more.length === MOST;
    }
    const isNext = (at, n) => {
      const it = found[at + n];
      if (it === undefined || (site !== null && it.site !== site) || (n > 0 && it.site !== found[at].site)) return false;
      return isPut ? it.sign === signs[n] && (n === 0 || it.of === found[at + n - 1].stamp) : it.sign === "";
    };
    const since = new Set(found.map(({ stamp }) => stamp));
    const isOfSince = (operations) => operations.slice(0, isPut ? 1 : MOST).some(({ of }) => since.has(of)); // it wasn't there when it was sent
    for (let at = from === undefined ? others : 0; at < (from === undefined ? found.length : 1); at += 1) {
      let count = 0;
      while (count < signs.length && isNext(at, count)) count += 1;
      const end = found[at + count];
      const isWhole = count === signs.length || (count > 0 && (end === undefined || end.sequence === 1));
      if (!isWhole) continue;
      const own = found.slice(at, at + count);
      const isFound = document.accepted !== null || (!isOfSince(own) && (await this.#areOf(own, isPut ? [before] : signs)));
      if (isFound) return { from: first + at, count };
    }
    return null;
  }

  /** Whether operations stand behind, or delete, elements that have these signs, as far as that is found out. */
  async #areOf(operations, signs) {
    for (const [n, sign] of signs.slice(0, operations.length).entries()) {
      const { of } = operations[n];
      if (of === "null" || sign === "") {
        if (sign !== "" || of !== "null") return false;
        continue;
      }
      const [element] = await this.#singles(Number(of.split(",")[0]) - 1, 1); // no further, and just there where one server alone typed
      if (element?.stamp === of && element.sign !== sign) return false;
    }
    return true;
  }

  /**
   * The text that one site typed from its beginning to its end, where the log begins so, and whether it is that of a new document, as a
   * room is renewed: behind it is another site's first operation or none, and the run of the server is of another site too. Null where the
   * log begins otherwise.
   * @param {Document} room
   */
  async firstText(room) {
    const found = await firstText((after, max) => this.#singles(after, max), room);
    if (found === null) return null;
    const { site, signs, next } = found;
    const isNew = (next === null || next.sequence === 1) && !(await this.isOfRun(site));
    return { text: signs.join(""), version: signs.length, last: signs.slice(-SIGNS).map((sign) => ({ sign, site })), isNew };
  }
}
