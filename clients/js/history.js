/**
 * The past of a room: its text at each version, made of its operations by the definitions of docs/EXCHANGE.md. The elements are a tree,
 * each below the one that it stands behind. They are read from the top, of those below one the one with the greatest stamp first.
 */
import { MOST } from "./document.js";
import { Refused } from "./faults.js";
import { isOperation } from "./operation.js";

/**
 * @typedef {import("./changes.js").Change} Change
 *
 * An operation or a run of them, as docs/EXCHANGE.md has it.
 * @typedef {{c: number[][], k: string, s: number, p?: number[] | null, t?: number[], x?: string}} Operation
 *
 * An element: the character, its stamp, from which version on it is there, up to which one it isn't any more, and those below it, the least
 * stamp first.
 * @typedef {{sign: string, stamp: number, from: number, to: number, below: Element[]}} Element
 */

/** So many requests are on their way at one time. */
const AHEAD = 32;

/** A stamp as a number: the greater stamp has the greater one. */
const SITES = 32;
const stampOf = ([sum, site]) => sum * SITES + site;

export class History {
  /** @type {Element} */
  #top = { sign: "", stamp: 0, from: 0, to: Infinity, below: [] };
  #elements = new Map([[0, this.#top]]); // by stamp
  #log = []; // of each operation the element that it puts in or deletes
  /** @type {Element[] | null} */
  #order = null; // as long as nothing more has come

  /** The newest version that is known. */
  get version() {
    return this.#log.length;
  }

  /**
   * Takes in what comes next in the log: objects as a reply to `ops` and a snapshot have them. Throws a RangeError where one builds on an
   * element that isn't there.
   * @param {Operation[]} operations
   */
  add(operations) {
    this.#order = null;
    for (const { c, k, s, p, t, x } of operations) {
      let place = this.#element(k === "d" ? t : p);
      if (k === "d") {
        this.#log.push(place);
        place.to = Math.min(place.to, this.version);
        continue;
      }
      let sum = c.reduce((total, [, count]) => total + count, 0);
      for (const sign of x) place = this.#put(place, stampOf([sum++, s]), sign);
    }
  }

  #mustHave(version) {
    if (!Number.isInteger(version) || version < 0 || version > this.version) throw new RangeError(`there is no version ${version}`);
  }

  #element(stamp) {
    const element = this.#elements.get(stamp === null ? 0 : stampOf(stamp));
    if (element === undefined) throw new RangeError(`the operation behind version ${this.version} builds on an element that isn't there`);
    return element;
  }

  #put({ below }, stamp, sign) {
    const element = { sign, stamp, from: this.version + 1, to: Infinity, below: [] };
    let at = below.length;
    while (at > 0 && below[at - 1].stamp > stamp) at -= 1;
    below.splice(at, 0, element);
    this.#elements.set(stamp, element);
    this.#log.push(element);
    return element;
  }

  /** All elements that were ever there, in their order. */
  get #ordered() {
    if (this.#order !== null) return this.#order;
    this.#order = [];
    for (const waiting = [...this.#top.below]; waiting.length > 0; ) {
      const element = waiting.pop();
      this.#order.push(element);
      for (const it of element.below) waiting.push(it);
    }
    return this.#order;
  }

  /**
   * The elements of a version's text.
   * @param {number} version
   */
  elements(version) {
    this.#mustHave(version);
    return this.#ordered.filter((it) => isIn(version, it));
  }

  /**
   * The text of a version.
   * @param {number} version
   */
  text(version) {
    this.#mustHave(version);
    const signs = [];
    for (const it of this.#ordered) if (isIn(version, it)) signs.push(it.sign);
    return signs.join("");
  }

  /**
   * What led to a version from the one before. Where that deleted what was gone already, nothing is removed.
   * @param {number} version
   * @returns {Change}
   */
  change(version) {
    this.#mustHave(version);
    if (version === 0) throw new RangeError("no operation led to version 0");
    const element = this.#log[version - 1];
    let at = 0;
    for (const it of this.#ordered) {
      if (it === element) break;
      if (isIn(version, it)) at += it.sign.length;
    }
    if (element.from === version) return { at, removed: 0, text: element.sign };
    return { at, removed: element.to === version ? element.sign.length : 0, text: "" };
  }
}

/** Whether a version's text has an element. */
const isIn = (version, { from, to }) => from <= version && version < to;

/**
 * Takes in what a room's log has behind a history. `line` is one to the room, as `connect` gives it.
 * @param {History} history
 * @param {import("./connection.js").Line} line
 */
export async function follow(history, line) {
  for (let isMore = true; isMore; ) {
    const parts = Array.from({ length: AHEAD }, (_, n) => line.ask({ t: "ops", after: history.version + n * MOST, max: MOST }));
    for (const reply of await Promise.all(parts)) {
      if (reply.r === "no" && reply.n !== 23) throw new Refused(reply.n);
      const before = history.version;
      history.add(reply.ops ?? []);
      isMore = history.version === before + MOST;
      if (!isMore) break; // what a part behind it has came later
    }
  }
}

/**
 * The history of a text: that of a file of `serve --keep`, of which a last line that was cut short is left out and the digests aren't
 * looked at, or a snapshot. Throws a SyntaxError or a RangeError where it is neither.
 * @param {string} text
 */
export function historyOfFile(text) {
  const history = new History();
  const lines = text.split("\n");
  if (lines.length > 1) lines.pop();
  for (const line of lines) {
    const { ops, from = 0, sha256 } = Object(JSON.parse(line));
    if (sha256 !== undefined) continue;
    const isLog = Array.isArray(ops) && ops.every(isOperation) && from === history.version;
    if (!isLog) throw new SyntaxError("that is no kept file and no snapshot");
    history.add(ops);
  }
  return history;
}
