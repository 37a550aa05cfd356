/**
 * A room in memory, for the trials of whoever writes over this module: it answers as docs/PROTOCOL.md and docs/EXCHANGE.md have it, over
 * lines that may go wrong, and needs no server. What would wait for other operations it refuses with 18.
 *
 *     const room = new MemoryRoom();
 *     const session = new Session(() => room.connect({ delay: 20, meets: ({ t }) => (t === "ins" && isUnlucky() ? "answer" : "") }));
 */
import { MOST } from "./document.js";
import { Lost } from "./faults.js";
import { History } from "./history.js";
import { isCount, isOperation, isText } from "./operation.js";
import { OPERATIONS } from "./options.js";
import { pause } from "./seat.js";

/**
 * @typedef {import("./history.js").Operation} Operation
 * @typedef {import("./connection.js").Line} Line
 */

const SESSIONS = 64;
const SITES = 32;

/** Thrown to answer a request by a refusal. */
class No {
  constructor(n) {
    this.n = n;
  }
}

const must = (isSo, n) => {
  if (!isSo) throw new No(n);
};

/** Of each kind of a request its keys, and what each has to be. */
const KINDS = {
  join: {},
  ins: { s: isCount, n: isCount, v: isCount, k: isCount, x: isText },
  del: { s: isCount, n: isCount, v: isCount, k: isCount, c: isCount },
  pull: { s: isCount, have: isCount, max: isCount },
  leave: { s: isCount },
  read: {},
  ops: { after: isCount, max: isCount },
  put: { ops: (it) => Array.isArray(it) && it.every(isOperation) },
};

/**
 * The single operations of an object.
 * @returns {Operation[]}
 */
function singles({ c, k, s, p, t, x }) {
  if (k === "d") return [{ c, k, s, t }];
  const sum = sumOf(c);
  const clock = (n) => c.map(([site, count]) => [site, site === s ? count + n : count]);
  return [...x].map((sign, n) => ({ c: clock(n), k: "i", s, p: n === 0 ? p : [sum + n - 1, s], x: sign }));
}

const sumOf = (clock) => clock.reduce((total, [, count]) => total + count, 0);
const countOf = (clock, site) => clock.find(([it]) => it === site)?.[1] ?? 0;
const isSame = (one, other) => JSON.stringify(one) === JSON.stringify(other);

/** What the site of an insertion makes next, where it puts a character in right behind. */
function nextOf({ c, k, s }, x) {
  return { c: c.map(([site, count]) => [site, site === s ? count + 1 : count]), k, s, p: [sumOf(c), s], x };
}

/** Single operations, packed as replies have them. */
function packed(operations) {
  const objects = [];
  let last = null;
  for (const it of operations) {
    const run = objects.at(-1);
    const isNext = last?.k === "i" && isSame(nextOf(last, it.x), it);
    if (isNext && [...run.x].length < MOST) Object.assign(run, { k: "r", x: run.x + it.x });
    else objects.push({ ...it });
    last = it;
  }
  return objects;
}

export class MemoryRoom {
  #site;
  #most;
  #log = []; // single operations
  #history = new History();
  #sessions = new Map();
  #joined = 0; // so many sessions there were
  #counts = new Map(); // of each site its operations
  #lines = new Set();
  #isEnded = false;
  #answers = {
    join: (request) => this.#answerJoin(request),
    ins: (request) => this.#answerIns(request),
    del: (request) => this.#answerDel(request),
    pull: (request) => this.#answerPull(request),
    leave: (request) => this.#answerLeave(request),
    read: () => this.#answerRead(),
    ops: (request) => this.#answerOps(request),
    put: (request) => this.#answerPut(request),
  };

  /**
   * A room of a site's run, with a log; it takes so many operations in all.
   * @param {{site?: number, log?: Operation[], operations?: number}} [options]
   */
  constructor({ site = 0, log = [], operations = OPERATIONS } = {}) {
    this.#site = site;
    this.#most = operations;
    for (const it of log.flatMap(singles)) this.#take(it);
  }

  /** The newest version. */
  get version() {
    return this.#log.length;
  }

  /** The text of the newest version. */
  get text() {
    return this.#history.text(this.version);
  }

  /** How many sessions are there. */
  get sessions() {
    return this.#sessions.size;
  }

  /**
   * The log, packed as replies have it.
   * @returns {Operation[]}
   */
  get log() {
    return packed(this.#log);
  }

  /** Ends the run, as a kill does, and gives the next one, which kept the log up to a version. */
  restart(kept = this.version) {
    this.#isEnded = true;
    this.cut();
    const log = this.#log.slice(0, kept);
    const used = new Set(log.map(({ s }) => s));
    let site = 0;
    while (used.has(site)) site += 1;
    return new MemoryRoom({ site, log, operations: this.#most });
  }

  /** Cuts all lines. */
  cut() {
    for (const line of [...this.#lines]) line.close();
  }

  /**
   * A line to the room. Each request takes `delay` milliseconds there, and its answer as many back. `meets` says what a request meets:
   * "request" where it is lost with the line, "answer" where the answer is, a reply where it is answered so, and an empty text where all
   * goes well.
   * @param {{delay?: number, meets?: (request: any) => "" | "request" | "answer" | object}} [options]
   * @returns {Promise<Line>}
   */
  async connect({ delay = 0, meets = () => "" } = {}) {
    if (this.#isEnded) throw new Lost();
    const asked = new Set(); // what ends the wait for an answer
    let before = Promise.resolve(); // answers come in order
    const line = {
      isOpen: true,
      ask: (request) => {
        const answer = before.then(() => this.#carried(line, structuredClone(request), delay, meets));
        before = answer.then(() => {}, () => {});
        return new Promise((resolve, reject) => {
          const lose = () => reject(new Lost());
          asked.add(lose);
          if (!line.isOpen) return lose();
          return answer.then(resolve, reject).finally(() => asked.delete(lose));
        });
      },
      close: () => {
        line.isOpen = false;
        this.#lines.delete(line);
        for (const lose of asked) lose();
      },
    };
    this.#lines.add(line);
    return line;
  }

  async #carried(line, request, delay, meets) {
    const met = line.isOpen ? meets(request) : "request";
    if (delay > 0) await pause(delay);
    if (met === "request") line.close();
    if (!line.isOpen) throw new Lost();
    const reply = typeof met === "string" ? this.answer(request) : met;
    if (met === "answer") line.close();
    if (delay > 0) await pause(delay);
    if (!line.isOpen) throw new Lost();
    return structuredClone(reply);
  }

  /**
   * The reply to a request, at once.
   * @param {object} request
   * @returns {import("./connection.js").Reply}
   */
  answer(request) {
    try {
      const { t, u, ...rest } = Object(request);
      must(typeof t === "string", 2);
      must(Object.hasOwn(KINDS, t), 3);
      const keys = KINDS[t];
      must(u === undefined || (t === "join" && u === 16), 2);
      must(Object.keys(rest).length === Object.keys(keys).length, 2);
      for (const [key, is] of Object.entries(keys)) must(is(rest[key]), 2);
      return this.#answers[t]({ ...rest, u });
    } catch (why) {
      if (!(why instanceof No)) throw why;
      return { n: why.n, r: "no" };
    }
  }

  #answerJoin({ u }) {
    must(this.#sessions.size < SESSIONS, 6);
    this.#joined += 1;
    const { version } = this;
    this.#sessions.set(this.#joined, { first: version, sent: version, n: 0, kept: null, hasUnits: u === 16 });
    return { r: "joined", s: this.#joined, v: version, x: this.text };
  }

  #answerRead() {
    return { r: "text", v: this.version, x: this.text };
  }

  #answerLeave({ s }) {
    must(this.#sessions.delete(s), 5);
    return { r: "left" };
  }

  #answerPull({ s, have, max }) {
    const session = this.#session(s);
    must(max >= 1 && max <= MOST, 11);
    must(have >= session.first && have <= session.sent, 22);
    const end = Math.min(have + max, this.version);
    session.sent = Math.max(session.sent, end);
    const es = [];
    for (let version = have + 1; version <= end; version += 1) es.push(this.#edit(version, session.hasUnits));
    return { es, from: have, r: "edits" };
  }

  #edit(version, hasUnits) {
    const { at, removed, text } = this.#history.change(version);
    if (removed === 0 && text === "") return ["n"];
    const k = hasUnits ? at : [...this.#history.text(version).slice(0, at)].length;
    if (text !== "") return ["i", k, text];
    return hasUnits ? ["d", k, removed] : ["d", k];
  }

  #answerIns({ s, n, v, k, x }) {
    return this.#submitted(s, n, v, (session) => {
      const signs = [...x];
      must(signs.length >= 1 && signs.length <= MOST, 10);
      const before = this.#upTo(v, k, session).at(-1);
      let p = before === undefined ? null : [Math.floor(before.stamp / SITES), before.stamp % SITES];
      return signs.map((sign, at) => {
        const c = this.#clock(at + 1);
        const operation = { c, k: "i", s: this.#site, p, x: sign };
        p = [sumOf(c), this.#site];
        return operation;
      });
    });
  }

  #answerDel({ s, n, v, k, c }) {
    return this.#submitted(s, n, v, (session) => {
      must(c >= 1 && c <= MOST, 11);
      const [before, within] = [this.#upTo(v, k, session), this.#upTo(v, k + c, session)];
      return within.slice(before.length).map(({ stamp }, at) => {
        return { c: this.#clock(at + 1), k: "d", s: this.#site, t: [Math.floor(stamp / SITES), stamp % SITES] };
      });
    });
  }

  #answerOps({ after, max }) {
    must(after <= this.version && max >= 1 && max <= MOST, 23);
    return { from: after, ops: packed(this.#log.slice(after, after + max)), r: "ops" };
  }

  #answerPut({ ops }) {
    const operations = ops.flatMap(singles);
    must(operations.length >= 1 && operations.length <= MOST, 11);
    return { os: operations.map((it) => this.#put(it)), r: "put" };
  }

  #session(s) {
    must(this.#sessions.has(s), 5);
    return this.#sessions.get(s);
  }

  /** The elements of a version before a place. */
  #upTo(version, place, { hasUnits }) {
    const elements = this.#history.elements(version);
    let count = 0;
    for (let rest = place; rest > 0; count += 1) {
      must(count < elements.length, 9);
      rest -= hasUnits ? elements[count].sign.length : 1;
      must(rest >= 0, 9);
    }
    return elements.slice(0, count);
  }

  #submitted(s, n, v, operations) {
    const session = this.#session(s);
    if (n === session.n && n > 0) return session.kept;
    must(n === session.n + 1, 7);
    must(v >= session.first && v <= session.sent, 8);
    const made = operations(session);
    must(this.version + made.length <= this.#most, 12);
    const from = this.version;
    for (const it of made) this.#take(it);
    session.n = n;
    session.kept = { from, r: "ok", to: this.version };
    return session.kept;
  }

  /** The clock of the site's next operation but so many. */
  #clock(further) {
    const counts = new Map(this.#counts);
    if (further > 0) counts.set(this.#site, (counts.get(this.#site) ?? 0) + further);
    return [...counts].sort(([one], [other]) => one - other);
  }

  #put(operation) {
    const { c, k, s, p, t } = operation;
    const own = countOf(c, s);
    const known = this.#clock(0);
    if (s === this.#site && own > countOf(known, s)) return ["no", 16];
    const alike = this.#log.find((it) => it.s === s && countOf(it.c, s) === own);
    if (alike !== undefined) return isSame(alike, operation) ? ["again"] : ["no", 17];
    const isReady = c.every(([site, count]) => count <= countOf(known, site) + Number(site === s)) && own === countOf(known, s) + 1;
    if (!isReady) return ["no", 18];
    if (this.version >= this.#most) return ["no", 12];
    const last = this.#log.findLast((it) => it.s === s);
    if (last !== undefined && sumOf(last.c) >= sumOf(c)) return ["no", 19];
    const place = k === "d" ? t : p;
    if (place !== null && !this.#log.some((it) => it.k === "i" && isSame([sumOf(it.c), it.s], place))) return ["no", 20];
    if (k === "i" && place !== null && place[0] * SITES + place[1] >= sumOf(c) * SITES + s) return ["no", 21];
    this.#take(operation);
    return ["took", 1, 0];
  }

  #take(operation) {
    this.#log.push(operation);
    this.#counts.set(operation.s, (this.#counts.get(operation.s) ?? 0) + 1);
    this.#history.add([operation]);
  }
}
