/**
 * What a document remembers of the edits that it played, until they are surely kept: the room's log may lose its end with a run of the
 * server. Each entry tells what the log has at which versions, and how the edit is undone.
 */
import { Gap, unitsOf } from "./gap.js";

/** Milliseconds until an edit is surely kept, and how many are remembered at most. */
const SURE = 300_000;
const EDITS = 32_768;

/** So many operations tell one log from another. */
export const SIGNS = 64;

/**
 * What is known of an operation: the character that it puts in, or an empty text of a deletion; its site; and the stamp of the element
 * that it stands behind or deletes, both where they are known.
 * @typedef {{sign: string, site: number | null, of?: string}} Known
 *
 * What took the room's text from a version to another: what was deleted at a place, each text with whether it was deleted here too, and
 * the number of the wait in which it came; and how many units were put in there, and whether here. `known` are its last operations.
 * @typedef {{at: number, taken: {text: string, isMine: boolean, since: number}[], put: number, isOwn: boolean}} Way
 * @typedef {{from: number, to: number, known: Known[], ways: Way[], when: number}} Entry
 */

const takenUnits = ({ taken }) => taken.reduce((sum, { text }) => sum + text.length, 0);

/** Plays what an entry did in a list that tells of each unit of a text whether it was put in here. */
function play({ ways }, own) {
  for (const way of ways) own.replace(way.at, takenUnits(way), new Int32Array(way.put).fill(Number(way.isOwn)));
}

/** Of so many units from a place on the runs that were all put in here, or all by others, the last first. */
export function* runsOf(own, at, units) {
  for (let [start, end] = [at + units, at + units]; end > at; end = start) {
    while (start > at && own[start - 1] === own[end - 1]) start -= 1;
    yield { at: start, taken: [], put: end - start, isOwn: own[start] === 1 };
  }
}

export class Memory {
  /** @type {Entry[]} */
  #entries = [];
  /** @type {Known[]} */
  #before;
  /** Of each unit of the text at the base whether it was put in here. @type {Gap} */
  #own;
  /** What was asked for last, until the entries change. @type {{start: number, known: (Known | undefined)[]} | null} */
  #known = null;

  /**
   * Remembers nothing but the version, what the log has last up to there, and of each unit of the text whether it was put in here.
   * @param {Known[]} last
   * @param {Int32Array} own
   */
  constructor(version, last, own) {
    /** The version that can be gone back to. */
    this.base = version;
    this.#before = last;
    this.#own = new Gap(own);
    /** The sites of all operations that were known at some time. @type {Set<number>} */
    this.sites = new Set();
    this.#meet(last);
  }

  /** @param {Omit<Entry, "when">} entry */
  add(entry) {
    this.#known = null;
    this.#entries.push({ ...entry, when: Date.now() });
    this.#meet(entry.known);
    if (this.#entries.length % SIGNS === 0) this.#forget();
  }

  #meet(known) {
    for (const { site } of known) if (site !== null) this.sites.add(site);
  }

  #forget() {
    const sure = Date.now() - SURE;
    let count = Math.max(0, this.#entries.length - EDITS);
    while (count < this.#entries.length && this.#entries[count].when < sure) count += 1;
    for (const entry of this.#entries.splice(0, count)) {
      const { to, known } = entry;
      play(entry, this.#own);
      this.#before = (known.length < to - this.base ? known : [...this.#before, ...known]).slice(-SIGNS);
      this.base = Math.max(this.base, to);
    }
  }

  /** What is known of the operations from some number below the base on; of those in between nothing may be known. */
  get known() {
    if (this.#known !== null) return this.#known;
    const start = this.base - this.#before.length;
    /** @type {(Known | undefined)[]} */
    const known = [...this.#before];
    for (const { to, known: last } of this.#entries) {
      last.forEach((it, n) => (known[to - last.length + n - start] = it));
      known.length = Math.max(known.length, to - start);
    }
    return (this.#known = { start, known });
  }

  /** The version of the first text that is known: one that was joined, of whose operations the last alone are known, or the base. */
  get joined() {
    const { start, known } = this.known;
    const first = known.findIndex((it) => it !== undefined);
    return first > 0 ? start + first + SIGNS : this.base;
  }

  /** What is known of the last operations up to a version, at most `SIGNS`. */
  last(version) {
    const { start, known } = this.known;
    const last = [];
    for (let n = version - start - 1; n >= 0 && known[n] !== undefined && last.length < SIGNS; n -= 1) last.unshift(known[n]);
    return last;
  }

  /** Of each unit of the text of now whether it was put in here. */
  get own() {
    const own = new Gap(this.#own.all);
    for (const entry of this.#entries) play(entry, own);
    return own.all;
  }

  /**
   * What is remembered where another log has the text at a version: whose it is, and which sites were known.
   * @param {Known[]} last
   */
  renewed(version, last) {
    const memory = new Memory(version, last, this.own);
    for (const site of this.sites) memory.sites.add(site);
    return memory;
  }

  /** How many entries lead to the document's version. */
  get length() {
    return this.#entries.length;
  }

  /** How many entries lead to a version; fewer where the entries don't tell it alone, and less than none before the base. */
  lengthAt(version) {
    if (version < this.base) return -1;
    let length = this.#entries.length;
    while (length > 0 && this.#entries[length - 1].to > version) length -= 1;
    return length;
  }

  /**
   * Forgets all but so many entries, the last one first. Where these are less than none the text at the base goes, too, or what was put in
   * here of it alone.
   */
  *since(length, isOwnAlone) {
    for (; this.#entries.length > Math.max(0, length); this.#known = null) yield this.#entries.pop();
    if (length >= 0) return;
    const own = this.#own.all;
    const ways = [...runsOf(own, 0, own.length)].filter(({ isOwn }) => isOwn || !isOwnAlone).reverse();
    const left = isOwnAlone ? own.filter((isOwn) => isOwn === 0) : new Int32Array(0);
    yield { from: 0, ways };
    [this.base, this.#before, this.#own, this.#known] = [0, [], new Gap(left), null];
  }

  /** How many entries lead to the last of the room's texts, up to the one of now, that is the wanted one; null where none is. */
  lengthWhere(wanted, text) {
    const [units, last] = [new Gap(unitsOf(text)), unitsOf(wanted)];
    let length = this.#entries.length;
    for (; !units.is(last); length -= 1) {
      if (length === 0) return null;
      for (const { at, taken, put } of [...this.#entries[length - 1].ways].reverse()) {
        units.replace(at, put, unitsOf(taken.map((it) => it.text).join("")));
      }
    }
    return length;
  }

  /**
   * The entries that put in something here that the room's text of so many units still has, the last first: how many lead to each, and
   * where. What the text at the base has of that is the last one, which less than none lead to.
   */
  *ownEntries(units) {
    const now = new Gap(Int32Array.from({ length: units }, (_, place) => place));
    for (let length = this.#entries.length - 1; length >= 0; length -= 1) {
      const places = [];
      for (const way of [...this.#entries[length].ways].reverse()) {
        const old = new Int32Array(takenUnits(way)).fill(-1);
        for (const place of now.replace(way.at, way.put, old)) if (way.isOwn && place >= 0) places.push(place);
      }
      if (places.length > 0) yield { length, places };
    }
    const own = this.#own.all;
    const places = [...now.all].filter((place, n) => own[n] === 1 && place >= 0);
    if (places.length > 0) yield { length: -1, places };
  }
}
