/**
 * What a client has in a room under the number of a session: which submission was accepted last, and which is under way. It joins and
 * leaves, and finds out on a new line whether the number is still its own.
 */
import { Document, MOST } from "./document.js";
import { Lost, Refused } from "./faults.js";
import { Log } from "./log.js";
import { USUAL } from "./options.js";

/** The room and the session don't have one count any more, on a line that is there: the run of the server is the same. */
export class OutOfStep extends Error {
  constructor(number) {
    super();
    this.isGone = number === 5;
  }
}

export const pause = (milliseconds) => new Promise((resolve) => setTimeout(resolve, milliseconds));

/** Whether this answers an empty submission, by the first number of a session, where nothing has come of that. */
const isUnused = ({ n }) => n === 8 || n === 10;

/** What a refused request leads to. */
function refusal(number) {
  if (number === 25) return new Lost();
  return [5, 7, 8, 9, 22].includes(number) ? new OutOfStep(number) : new Refused(number);
}

export class Seat {
  /** @type {import("./connection.js").Line} */
  line = null;
  log = new Log((request) => this.ask(request));
  #number = null; // none before it has joined
  #last = { n: 0, from: 0, to: 0 }; // the last accepted submission
  #underWay = null; // the request of a submission whose answer wasn't seen
  #leaving = null; // the request to leave for good
  #unknown = []; // what was joined, until its log is known and it alone is left

  /** @param {() => void} onSilence is called where an answer doesn't come soon */
  constructor(onSilence = () => {}, options = USUAL) {
    this.onSilence = onSilence;
    this.options = options;
  }

  get isTaken() {
    return this.#number !== null;
  }

  /** Whether the room was asked for the end of the session. */
  get isLeaving() {
    return this.#leaving !== null;
  }

  get isUnanswered() {
    return this.#underWay !== null;
  }

  /** Sends a request, and gives the reply. */
  async send(request) {
    const timer = setTimeout(this.onSilence, this.options.silence);
    try {
      return await this.line.ask(request);
    } finally {
      clearTimeout(timer);
    }
  }

  /** Asks, again where memory was refused. Gives the reply, a refusal too. */
  async ask(request) {
    for (;;) {
      const reply = await this.send(request);
      if (reply.r !== "no" || (reply.n !== 25 && reply.n !== 26)) return reply;
      if (reply.n === 25) throw new Lost();
      await pause(this.options.retry);
    }
  }

  /** Asks, and throws where that is refused. */
  async must(request) {
    const reply = await this.ask(request);
    if (reply.r === "no") throw refusal(reply.n);
    return reply;
  }

  /** Joins, and gives the room's document. */
  async join() {
    this.#number = null;
    const { s, v, x } = await this.must({ t: "join", u: 16 });
    this.#unknown.push({ s, v, x });
    const room = new Document(x, v, await this.log.last(v));
    room.counts = this.log.counts;
    for (; this.#unknown.length > 1; this.#unknown.shift()) await this.#leaveUnknown(this.#unknown[0], room, s);
    this.#unknown = [];
    this.#number = s;
    this.#last = { n: 0, from: 0, to: 0 };
    this.#underWay = null;
    this.#leaving = null;
    return room;
  }

  /** Leaves what was joined on a line that was lost before its log was known, where it is unused and its text leads to the room's. */
  async #leaveUnknown({ s, v, x }, { version, roomText }, number) {
    if (s >= number) return; // another run: the numbers of one go up
    if (!isUnused(await this.#again(1, s))) return;
    const document = new Document(x, v);
    const edits = await this.editsSince(document, s);
    if (edits === null) return;
    document.play(edits.slice(0, version - v));
    if (document.version === version && document.roomText === roomText) await this.ask({ t: "leave", s });
  }

  /** Asks for a submission's answer once more: with an empty text, so that it isn't accepted now. */
  #again(n, s = this.#number) {
    return this.ask({ t: "ins", s, n, v: 0, k: 0, x: "" });
  }

  /** Gives the number up, for another one. */
  async giveUp() {
    await this.ask({ t: "leave", s: this.#number });
    this.#number = null;
  }

  /** Whether the room takes calls, and so many changes. */
  async takes(changes) {
    const reply = await this.ask({ t: "ops", after: Math.max(0, this.options.operations - changes), max: 1 });
    return reply.r === "no" ? reply.n === 23 : reply.ops.length === 0;
  }

  /** Asks for the end of the session at once, and once. Settles with whether it has come to that. */
  async leave() {
    if (!this.isTaken) return true;
    this.#leaving ??= this.send({ t: "leave", s: this.#number }).then(
      () => (this.#number = null) === null,
      () => false,
    );
    return this.#leaving;
  }

  /** Whether nothing is left in the room. */
  async isLeft() {
    return !this.isTaken || (this.#leaving !== null && (await this.#leaving));
  }

  /**
   * What the number is on a new line. The same run of the server answers the last accepted submission, asked for once more with an empty
   * text, as it did; another run may so answer another's, so its operations tell where its edits weren't played. Where one was under way it
   * may have been accepted since, and is then the last: they tell, too. `document` is the one that follows the session.
   * @param {Document} document
   * @returns {Promise<"same" | "unused" | "another">}
   */
  async findOut(document) {
    this.#leaving = null;
    const { n, from, to } = this.#last;
    let reply = n > 0 ? await this.#again(n) : { r: "no", n: 7 };
    let isSame = reply.r === "ok" && reply.from === from && reply.to === to;
    if (isSame && document.accepted !== null) isSame = (await this.log.find(document, 0))?.count === document.underWay.signs.length;
    if (reply.n === 7) {
      reply = await this.#again(n + 1);
      isSame = reply.r === "ok" && this.#underWay !== null && (await this.log.is(document, reply.from, reply.to));
    }
    if (reply.n === 13) throw new Refused(13);
    if (isSame) return (await this.log.goesOn(document)) ? "same" : "another";
    return n === 0 && isUnused(reply) ? "unused" : "another";
  }

  /**
   * Whether what was found is one's own, or may be left as such: it is unused, and its log and versions are those that are known, so that
   * who else may have it loses nothing.
   * @param {"same" | "unused" | "another"} found
   * @param {Document} document
   */
  async isOwn(found, document) {
    if (found !== "unused" || !(await this.log.goesOn(document))) return found === "same";
    return (await this.ask({ t: "pull", s: this.#number, have: document.version, max: 1 })).r === "edits";
  }

  /** Whether nothing has come of the session until now: what is under way may come yet, but isn't among what was pulled. */
  async isUnused() {
    return isUnused(await this.#again(1));
  }

  /** Asks for edits from a version on. */
  pull(have) {
    return this.send({ t: "pull", s: this.#number, have, max: MOST });
  }

  /** The edits of a reply to a pull; none where memory was refused, which is waited for. */
  async editsOf(reply) {
    if (reply.r === "no" && reply.n !== 26) throw refusal(reply.n);
    if (reply.r === "no") await pause(this.options.retry);
    return reply.es ?? null;
  }

  /** Finds out a site of the log behind a document, where none is known: it tells the run again where nothing of that was kept. */
  async meet({ version, memory }) {
    if (memory.sites.size > 0) return;
    const site = await this.log.siteOf(version);
    if (site !== null) memory.sites.add(site);
  }

  /** The edits since a document's version, by a session; null where they aren't to be had. */
  async editsSince({ roomText, version }, s = this.#number) {
    const edits = [];
    for (let isMore = true; isMore; ) {
      const { es } = await this.ask({ t: "pull", s, have: version + edits.length, max: MOST });
      if (es === undefined) return null;
      edits.push(...es);
      isMore = es.length === MOST;
    }
    try {
      new Document(roomText, version).play(edits);
      return edits;
    } catch (fault) {
      if (fault instanceof RangeError) return null;
      throw fault;
    }
  }

  /**
   * The request of what a document has to be submitted, of what was made before an order: the same again, while its answer wasn't seen.
   * What isn't sent isn't under way.
   * @param {Document} document
   * @returns {object | null}
   */
  submission(document, before = Infinity) {
    if (this.#underWay !== null) return this.#underWay;
    if (!this.line.isOpen) throw new Lost();
    const next = document.next(before);
    if (next === null) return null;
    const { t, ...rest } = next;
    this.#underWay = { t, s: this.#number, n: this.#last.n + 1, v: document.version, ...rest };
    return this.#underWay;
  }

  /** Sends what a document has to be submitted, where nothing is under way, and waits for nothing: the log tells later whether it came. */
  submit(document) {
    if (this.isUnanswered || !this.line.isOpen) return;
    const request = this.submission(document);
    if (request !== null) this.send(request).catch(() => {});
  }

  /** Whether what was accepted last leads to a version, or one before. */
  hasCome(version) {
    return this.#underWay === null && version >= this.#last.to;
  }

  /**
   * Takes the reply to a submission.
   * @param {Document} document
   * @param {import("./connection.js").Reply} reply
   */
  async answered(document, reply) {
    if (reply.r === "ok" && document.accept(reply.from, reply.to)) {
      this.#last = { n: this.#underWay.n, from: reply.from, to: reply.to };
      this.#underWay = null;
      document.first ??= { from: reply.from, known: await this.log.known(reply.from, reply.to) };
      return;
    }
    if (reply.n === 26) return pause(this.options.retry);
    const fault = refusal(reply.r === "ok" ? 7 : reply.n);
    if (fault instanceof Lost) throw fault;
    this.#underWay = null;
    document.takeBack();
    if (fault instanceof Refused) await this.giveUp(); // it sends nothing more, and a room has 64
    throw fault;
  }
}
