/**
 * A session with a room: it connects, again and again, sends what is done here, and tells what others do. rgatext.js opens one.
 */
import { add } from "./changes.js";
import { differences } from "./differences.js";
import { Document, MOST } from "./document.js";
import { Ended, Full, GivenUp, Lost, Refused } from "./faults.js";
import { inTime, withUsual } from "./options.js";
import { Pace } from "./pace.js";
import { wayTo } from "./rejoin.js";
import { OutOfStep, Seat } from "./seat.js";
import { turn } from "./turn.js";

/**
 * @typedef {import("./changes.js").Change} Change
 * @typedef {import("./connection.js").Line} Line
 * @typedef {import("./document.js").Unsent} Unsent
 * @typedef {"joining" | "up to date" | "sending" | "no answer" | "offline" | "refused" | "another text" | "closed"} State
 * @typedef {{
 *   addEventListener(name: "changes", listener: (event: CustomEvent<Change[]>) => void, options?: AddEventListenerOptions): void,
 *   addEventListener(name: "state", listener: () => void, options?: AddEventListenerOptions): void,
 * }} Tells
 */

const ANOTHER = "the room has another text by now";

/** Milliseconds until a full room is asked again, at first. */
const SOON = 1_000;

/**
 * A session. It tells of itself by events: `changes`, whose `detail` is a list of changes of the shown text, made by others or by the room;
 * and `state`, when `state`, `why` or `number` has become another, or the other text that the user is to choose of.
 */
export class Session extends /** @type {{new (): Tells & EventTarget}} */ (EventTarget) {
  #connect;
  #options;
  #seat;
  #pace;
  #other = null; // the document of another run of the server, until the user chooses
  #joined = null; // the document of the room that was joined, until it is gone on with or is another's
  #compared = null; // its version where the user chose to put in what is shown
  /** @type {(value?: any) => void} */
  #wake = () => {};
  #isServed = false; // the line is open, and the session is there
  #isPaused = false;
  #isClosing = false; // what is done here is sent, and nothing is taken any more
  #isClosed = false;
  #cut = new AbortController(); // aborted where no answer is waited for any more
  #stopConnecting = () => {};
  #isShut = false; // the room takes nothing more for now
  #isRefused = false; // for good: nothing is tried any more
  #isJoined = false; // the room's text was shown at some time
  #isHeld = false; // an editor has something that it hasn't told
  #given = 0; // how often the user took the room's text
  #hasOther = false; // as it was told
  #awaited = []; // what callers wait for: whether it has come, and how they are told

  /**
   * `connect` gives an open line to the room, at each call a new one. Where its signal is aborted nobody waits for that any more.
   * @param {(signal: AbortSignal) => Promise<Line>} connect
   * @param {import("./options.js").Options} [options]
   */
  constructor(connect, options = {}) {
    super();
    this.#connect = connect;
    this.#options = withUsual(options);
    this.#seat = new Seat(() => this.#isClosed || this.state === "refused" || this.#tell("no answer"), this.#options);
    this.#pace = new Pace(this.#options);
    this.document = new Document();
    /** @type {State} */
    this.state = "joining";
    this.why = "";
    /**
     * The number of a refusal that `why` tells, else null.
     * @type {number | null}
     */
    this.number = null;
    /**
     * Settles when the room's text is shown for the first time; rejects, as `sent` does, where the room refuses before.
     * @type {Promise<void>}
     */
    this.ready = this.#until(() => this.#isJoined);
    this.ready.catch(() => {});
    /**
     * Settles when the session has ended; `state` and `why` tell how.
     * @type {Promise<void>}
     */
    this.ended = new Promise((resolve, reject) => {
      this.#cut.signal.addEventListener("abort", () => resolve());
      this.#run().then(resolve, reject);
    });
    this.ended.catch(() => {});
  }

  /** The text that is shown. */
  get text() {
    return this.document.text;
  }

  /**
   * What another run of the server has, where the user is to choose: its text, and the changes that lead from it to the one that is shown,
   * the last one in the text first. Else null.
   * @returns {{text: string, readonly difference: Change[]} | null}
   */
  get other() {
    if (this.#other === null) return null;
    const [text, shown] = [this.#other.roomText, this.text];
    return {
      text,
      get difference() {
        return differences(text, shown);
      },
    };
  }

  /** What was changed here and the room isn't known to have: a list of texts that were put in or deleted, each with its `kind`. */
  get unsent() {
    return this.document.unsent;
  }

  /** How many changes the room takes in all. */
  get operations() {
    return this.#options.operations;
  }

  /** How many more changes the room takes, as far as is known here: a character put in or deleted is one. */
  get left() {
    return Math.max(0, this.operations - this.document.version - this.document.pending);
  }

  /** Whether the session has something that the room isn't known to have. */
  get isAhead() {
    return this.document.pending > 0;
  }

  /** Whether some of the text may be lost where the session is left: the room isn't known to have it, or has another one. */
  get mayBeLost() {
    return this.isAhead || this.#isHeld || this.#other !== null;
  }

  /**
   * Whether an editor holds something back that its user types, as what is composed.
   * @param {boolean} isHeld
   */
  set isHeld(isHeld) {
    this.#isHeld = isHeld;
    if (this.state === "up to date" || this.state === "sending") this.#tell(this.#standing);
  }

  /**
   * Whether nobody looks at the text: then news is asked for rarely.
   * @param {boolean} isHidden
   */
  set isHidden(isHidden) {
    this.#pace.isHidden = isHidden;
    this.#wake();
  }

  /**
   * Puts a text in: `replace` that removes nothing.
   * @param {number} at
   * @param {string} text
   * @returns {Change}
   */
  insert(at, text) {
    return this.replace(at, 0, text);
  }

  /**
   * Removes so many units: `replace` that puts nothing in.
   * @param {number} at
   * @param {number} removed
   * @returns {Change}
   */
  remove(at, removed) {
    return this.replace(at, removed, "");
  }

  /**
   * How many of the changes that the room takes are used up where the shown text is changed so; less than none where it undoes some.
   * @param {number} at
   * @param {number} removed
   * @param {string} text
   * @returns {number}
   */
  cost(at, removed, text) {
    return this.document.cost([{ at, removed, text }]);
  }

  /**
   * Removes so many units at a place of the shown text, and puts a text in there: shown at once, and sent when its turn comes. Throws
   * `Full` where the room doesn't take as many changes, and `Ended` where the session is closed or refused; then nothing is done.
   * Gives the change, which is told by no event.
   * @param {number} at
   * @param {number} removed
   * @param {string} text
   * @returns {Change}
   */
  replace(at, removed, text) {
    return this.replaceAll([{ at, removed, text }])[0];
  }

  /**
   * Makes several changes of the shown text, from the last place to the first: all of them, or none where `replace` would throw.
   * @param {Change[]} changes
   * @returns {Change[]}
   */
  replaceAll(changes) {
    if (changes.length === 0) return [];
    if (this.#isClosing || this.#isShut || this.#isRefused) throw new Ended(this.why);
    if (this.document.cost(changes) > this.left) throw new Full(this.left);
    const made = this.document.replace(changes);
    if (this.state === "up to date") this.#tell(this.#standing);
    this.#pace.hasNews();
    this.#wake();
    return made;
  }

  /** Another run of the server has another text: shows that, and lets go of what was shown. */
  takeTheirs() {
    if (this.#other === null) return;
    const changes = differences(this.text, this.#other.roomText);
    this.document = this.#other;
    this.#given += 1;
    this.#tellChanges(changes);
    this.#goOn();
  }

  /** Another run of the server has another text: makes it the one that is shown, unless the room changes before. */
  putMine() {
    if (this.#other === null) return;
    if (this.#isRefused) throw new Ended(this.why);
    const left = this.operations - this.#other.version;
    if (this.#other.cost(this.other.difference) > left) throw new Full(left);
    this.#compared = this.#other.version;
    this.#wake();
  }

  /**
   * Leaves the room until it is gone on with, as a page that ends or may come back: at once, behind what one submission takes of what is
   * new, where none is under way. What is done meanwhile is kept.
   */
  pause() {
    this.#isPaused = true;
    if (this.#isServed && this.#other === null) this.#seat.submit(this.document);
    this.#end();
  }

  /** Goes on after a pause. */
  resume() {
    this.#isPaused = false;
    this.#wake();
  }

  /**
   * Settles once the room has all that was done here until now. Rejects with `GivenUp`, where the user takes the room's text before; with
   * `Refused`, where the room refuses; and with `Ended`, where the session is closed.
   * @returns {Promise<void>}
   */
  sent() {
    const { document } = this;
    const before = document.order;
    const given = this.#given;
    const isSent = () => !this.isAhead || (document === this.document && !document.isPending(before));
    return this.#until(() => {
      if (given !== this.#given) throw new GivenUp();
      return this.#other === null && isSent();
    });
  }

  /**
   * Ends the session: sends what is new, for some seconds, and leaves the room; where nothing is new at once. Where the line isn't there
   * it tries to leave, once. With `flush` it first tries for so many milliseconds to have all in the room, also where the line isn't
   * there yet. Once the time is over nothing is waited for. Gives whether the room has all. Of two calls the first limit holds.
   * @param {{flush?: number}} [options]
   * @returns {Promise<boolean>}
   */
  async close({ flush } = {}) {
    const time = flush === undefined ? this.#options.closing : inTime("flush", flush);
    this.#isClosing = true;
    if (flush !== undefined) this.#isPaused = false;
    const isServed = this.#isServed && !this.#isOver && this.#other === null;
    if (this.isAhead && (isServed || flush !== undefined)) this.#wake();
    else this.#close();
    const timer = setTimeout(() => this.#cutOff(), time);
    try {
      await this.ended;
    } finally {
      clearTimeout(timer);
    }
    return !this.mayBeLost;
  }

  #close() {
    this.#isClosed = true;
    this.#end();
  }

  /** Ends, and waits for no answer. */
  #cutOff() {
    this.#close();
    this.#seat.line?.close();
    this.#cut.abort();
    this.#stopConnecting();
    this.#tell("closed");
  }

  /** Leaves the room at once. */
  #end() {
    if (this.#isServed) this.#seat.leave();
    this.#wake();
  }

  /** Whether the session is closed or paused; it may be gone on with before the room has answered that it was left. */
  get #isOver() {
    return this.#isClosed || this.#isPaused || (this.#isServed && this.#seat.isLeaving);
  }

  /** What the state is while all goes well. */
  get #standing() {
    return this.isAhead || this.#isHeld ? "sending" : "up to date";
  }

  /** The user has chosen, or needn't. */
  #goOn() {
    this.#isJoined = true;
    this.#other = null;
    this.#compared = null;
    this.#tell(this.#isServed ? this.#standing : this.state, this.#isServed ? "" : this.why);
    this.#wake();
  }

  #tell(state, why = "", number = null) {
    if (this.#cut.signal.aborted && state !== "closed") return;
    const hasOther = this.#other !== null;
    const isTold = state === this.state && why === this.why && number === this.number && hasOther === this.#hasOther;
    this.#hasOther = hasOther;
    Object.assign(this, { state, why, number });
    this.#look();
    if (!isTold) this.dispatchEvent(new CustomEvent("state"));
  }

  /** Settles once something has come, or rejects where the room refuses before, or the session ends. */
  #until(hasCome) {
    return new Promise((resolve, reject) => {
      this.#awaited.push({ hasCome, resolve, reject });
      this.#look();
    });
  }

  /** Tells those who wait for what has come. */
  #look() {
    const isOver = this.state === "refused" || this.state === "closed";
    for (const it of this.#awaited.splice(0)) {
      try {
        if (it.hasCome()) it.resolve();
        else if (isOver) it.reject(this.number === null ? new Ended(this.why) : new Refused(this.number));
        else this.#awaited.push(it);
      } catch (fault) {
        it.reject(fault);
      }
    }
  }

  #tellChanges(changes) {
    const told = [];
    for (const change of changes) if (change.removed > 0 || change.text !== "") add(told, change);
    if (told.length === 0 || this.#cut.signal.aborted) return;
    this.#pace.hasNews();
    this.dispatchEvent(new CustomEvent("changes", { detail: told }));
  }

  /** Connects, again and again, and serves each line as long as it lasts. */
  async #run() {
    const { retry, longest } = this.#options;
    for (let wait = retry; !this.#isClosed && !this.#isRefused; wait = Math.min(2 * wait, longest)) {
      try {
        this.#seat.line = await this.#newLine();
        if (this.#isShut) await this.#awaitRoom();
        await this.#resume();
        this.#isShut = false;
        this.#isServed = true;
        wait = retry;
        await this.#serve();
        await this.#seat.leave();
      } catch (fault) {
        this.#failed(fault);
      }
      this.#isServed = false;
      this.#seat.line?.close();
      while (this.#isPaused && !this.#isClosed) await this.#sleep(longest);
      if (!this.#isClosed && !this.#isRefused) await this.#sleep(wait);
    }
    if (!this.#isClosed) return;
    if (!this.#cut.signal.aborted) await this.#leaveLate();
    this.#tell("closed");
  }

  /** A new line. Where the session is cut off before, none: it is closed once it comes. */
  async #newLine() {
    const line = this.#connect(this.#cut.signal);
    await new Promise((resolve, reject) => {
      this.#stopConnecting = () => resolve();
      line.then(resolve, reject);
    });
    if (!this.#cut.signal.aborted) return line;
    line.then((it) => it.close(), () => {});
    throw new Lost();
  }

  /** Says what went wrong, and whether it is for good. A fault that is none of the line's or the room's is thrown on. */
  #failed(fault) {
    if (this.#isOver && fault instanceof Lost) return;
    const isFault = !(fault instanceof Lost || fault instanceof Refused || fault instanceof OutOfStep);
    if (isFault || (fault instanceof Refused && fault.number !== 26)) {
      this.#isShut ||= fault.number === 12 || fault.number === 13;
      this.#isRefused = ![6, 12, 13].includes(fault.number);
      this.#tell("refused", fault.message, fault.number ?? null);
    } else if (!this.#isShut) {
      this.#tell("offline", fault.message);
    }
    if (isFault) this.#seat.line?.close();
    if (isFault) throw fault;
  }

  /** Asks now and then whether the room takes calls again, and what is pending: soon at first, since a room may begin anew at once. */
  async #awaitRoom() {
    for (let pause = SOON; !(await this.#seat.takes(Math.max(1, this.document.pending))); pause *= 2) {
      for (let until = Date.now() + Math.min(pause, this.#options.shut); Date.now() < until; await this.#sleep(SOON)) {
        if (!this.#seat.line.isOpen || this.#isOver) throw new Lost();
      }
    }
  }

  /** Leaves a session that was closed while the line wasn't there: once, and only where the run of the server is the same. */
  async #leaveLate() {
    if (await this.#seat.isLeft()) return;
    try {
      this.#seat.line = await this.#newLine();
      if (await this.#seat.isOwn(await this.#seat.findOut(this.#current), this.#current)) await this.#seat.giveUp();
    } catch {
      // the session stays
    }
    this.#seat.line?.close();
  }

  /** Waits, but not longer than until something is to be done. */
  async #sleep(milliseconds) {
    let timer;
    await new Promise((resolve) => {
      this.#wake = resolve;
      timer = setTimeout(resolve, milliseconds);
    });
    clearTimeout(timer); // a program that has closed its session may end
    this.#wake = () => {};
  }

  /** The session on a new line: the same one where the run of the server is the same, else a new one. */
  async #resume() {
    if (!this.#seat.isTaken) return this.#joinAnew(false);
    const found = await this.#seat.findOut(this.document);
    if (found !== "same") await this.#joinAnew(await this.#seat.isOwn(found, this.#current));
  }

  /** The document that the session follows. */
  get #current() {
    return this.#joined ?? this.#other ?? this.document;
  }

  /**
   * Joins, and goes on where the room's text follows from what is known. Else the text of the room stands beside that which is shown,
   * until the user chooses. `isOwn`: the number is that of a session to leave.
   */
  async #joinAnew(isOwn) {
    const edits = isOwn && this.#current === this.document ? await this.#seat.editsSince(this.document) : null;
    const others = edits !== null && (await this.#seat.isUnused()) ? edits.length : 0;
    if (isOwn) await this.#seat.giveUp();
    const room = await this.#seat.join();
    this.#joined = room; // where the line is lost before the way is found, the session that is left is known by this
    const go = await wayTo(this.document, room, this.#seat.log, edits ?? [], others);
    this.#joined = null;
    if (go === null) {
      this.#other = room;
      this.#compared = null;
      return this.#tell("another text", ANOTHER);
    }
    const changes = go();
    if (!this.#isJoined) this.document.inherited = room.inherited;
    this.document.first = null;
    this.#isServed = true;
    this.#tellChanges(changes);
    this.#goOn();
  }

  /** Sends what is new and pulls what others did, until the session is closed. */
  async #serve() {
    for (let began = 0; !this.#isOver; ) {
      if (this.document.pending <= MOST || this.#other !== null) await this.#rest(began + this.#options.typing);
      if (this.#isOver) return;
      began = Date.now();
      const isMore = await this.#step();
      if (this.#other === null) this.#tell(this.#standing);
      if (this.#isClosing && !this.isAhead) this.#close();
      if (this.left <= 0 && !this.isAhead && this.#other === null) await this.#leaveFull();
      const isIdle = this.#other === null ? !isMore && !this.isAhead : this.#compared === null;
      if (!this.#isOver && isIdle) await this.#sleep(Math.max(0, began + this.#pace.next() - Date.now()));
    }
  }

  /** Waits until a time, but not longer than until the session is closed. */
  async #rest(until) {
    while (!this.#isClosing && !this.#isOver && Date.now() < until) await this.#sleep(until - Date.now());
  }

  /** No more can come of a full room: it is left, for others to have the place. */
  async #leaveFull() {
    await this.#seat.giveUp();
    throw new Refused(12);
  }

  #turn() {
    return turn(this.document, this.#seat, () => !this.#isOver, (changes) => this.#tellChanges(changes));
  }

  /** Does what is next on the line. Whether there is more to pull. */
  async #step() {
    try {
      if (this.#other === null) return await this.#turn();
      await this.#watch();
    } catch (fault) {
      if (!(fault instanceof OutOfStep)) throw fault;
      if (!this.#isOver) await this.#joinAnew(!fault.isGone);
    }
    return false;
  }

  /** Follows another run, as long as the user hasn't chosen; where it comes to read what is known here, it is gone on with. */
  async #watch() {
    const other = this.#other;
    const { version } = other;
    for (let isMore = true; isMore; ) {
      const edits = await this.#seat.editsOf(await this.#seat.pull(other.version));
      if (this.#other !== other) return;
      if (edits !== null) other.play(edits);
      isMore = edits === null || edits.length === MOST;
    }
    if (other.roomText === this.document.textToCome) {
      this.document.came(this.document.version, Infinity);
      this.#tellChanges(this.document.follow(other));
      this.document.renew(other.version, other.memory.last(other.version));
      this.document.first = null;
      this.document.counts = other.counts;
      this.#goOn();
    } else if (this.#compared !== null) {
      if (this.#putIn(other)) await this.#turn(); // at once, before another does so too
    } else {
      this.#tell("another text", this.why || ANOTHER);
      if (other.version !== version) this.dispatchEvent(new CustomEvent("state"));
    }
  }

  /** Makes another run's text the one that is shown, where it is still the one that the user saw. Whether it is. */
  #putIn(other) {
    const isAsSeen = other.version === this.#compared;
    this.#compared = null;
    if (isAsSeen) {
      const { difference } = this.other;
      this.document = other;
      this.document.replace(difference);
      this.#goOn();
    } else {
      this.#tell("another text", "the room has changed in the meantime: choose again");
    }
    return isAsSeen;
  }
}
