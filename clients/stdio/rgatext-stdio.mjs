#!/usr/bin/env -S node --experimental-websocket --no-warnings
// A room of an rgatext server for an editor that starts a program: it speaks by lines of JSON, which README.md tells.
import { setTimeout as pause } from "node:timers/promises";
import { COUNTS, gone, goneBack, size } from "./count.js";
import { EditorText } from "./editor_text.js";
import { linesOf, textOf } from "./lines.js";
import { Ended, Full, inTime, open, Undo } from "./module.js";
import { flushed, lacking, standing } from "./words.js";

const [address, room, counted = "units", ...more] = process.argv.slice(2);
const count = Object.hasOwn(COUNTS, counted) ? COUNTS[counted] : undefined;

/** Milliseconds: for each step of the end at most, and without a line until all is read that was written before a signal. */
const ENDING = 2_000;
const SILENCE = 200;

/** What tells a change of the editor. */
const CHANGES = ["replace", "whole"];

/** A line that isn't as it should be. Nothing of it was done. */
class Wrong extends Error {}

const isPlace = (it) => Number.isInteger(it) && it >= 0;
const isText = (it) => typeof it === "string";
const isChange = (it) => Array.isArray(it) && it.length === 3 && isPlace(it[0]) && isPlace(it[1]) && isText(it[2]);
const isTime = (it) => isPlace(it) && it > 0;
const isTrue = (it) => it === true;

/** Ends the program, with a word of why. */
function stop(why) {
  console.error(`rgatext-stdio: ${why}`);
  process.exit(2);
}

/** Tells a line; `done` is called once it is written. */
function tell(line, done = () => {}) {
  process.stdout.write(`${JSON.stringify(line)}\n`, done);
}

/**
 * Changes of one step of the editor, each behind all before or before all of them: so they are changes of one text, and are made at once.
 */
class Batch {
  #whole;
  #start = { index: 0, place: 0 }; // before the first change: the unit of the text, and the editor's place
  #end = { index: 0, place: 0 }; // behind the last one
  changes = [];

  constructor(whole, isMore) {
    this.#whole = whole;
    this.isMore = isMore;
  }

  /** Whether it may have a change too. */
  takes(at, removed) {
    return at >= this.#end.place || at + removed <= this.#start.place;
  }

  add(at, removed, text, caret) {
    const isBehind = at >= this.#end.place;
    const start = isBehind
      ? gone(this.#whole, at - this.#end.place, count, this.#end.index)
      : goneBack(this.#whole, this.#start.place - at, count, this.#start.index);
    const end = gone(this.#whole, removed, count, start.index);
    if (start.rest > 0 || end.rest > 0) throw new Wrong("the change is beyond the text");
    if (start.rest < 0 || end.rest < 0) throw new Wrong("the change begins or ends inside of a character");
    const behind = caret === null || caret < at ? 0 : text.length - gone(text, caret - at, count).index;
    const change = { at: start.index, removed: end.index - start.index, text, behind };
    if (!isBehind || this.changes.length === 0) this.#start = { index: start.index, place: at };
    if (isBehind) {
      this.changes.unshift(change);
      this.#end = { index: end.index, place: at + size(text, count) };
    } else {
      this.changes.push(change);
      this.#end.place += size(text, count) - removed;
    }
  }
}

class Conversation {
  #text = new EditorText();
  #undo = new Undo();
  #session;
  #hasTold = false; // that there is news, since the editor took some
  #heard = 0; // so many changes of the editor are made or refused
  #told = { ahead: false, heard: 0, words: "" };
  /** @type {Batch | null} */
  #batch = null; // what was read and isn't made yet
  #isClosing = false;
  #lines = 0; // that were read

  constructor(session) {
    this.#session = session;
    session.addEventListener("changes", ({ detail }) => {
      this.#undo.follow(detail);
      this.#text.follow(detail);
      this.#tellNews();
      if (standing(session) !== this.#told.words) this.#tellState();
    });
    session.addEventListener("state", () => this.#tellState());
    this.#tellState();
  }

  /** What a line asks, by its key: whether the value is right, and what is done; `answer` tells the answer to it. */
  #asks = {
    replace: [isChange, (change, { more, caret }) => this.#replace(change, more, caret)],
    whole: [isText, (text, { more, caret }) => this.#replace([0, size(this.#text.text, count), text], more, caret)],
    take: [isTrue, (_, { answer }) => answer({ changes: this.#take() })],
    undo: [isTrue, (_, { answer }) => answer(this.#turn(false))],
    redo: [isTrue, (_, { answer }) => answer(this.#turn(true))],
    flush: [isTime, (milliseconds, { answer }) => this.#flush(milliseconds, answer)],
    unsent: [isTrue, (_, { answer }) => answer({ unsent: this.#session.unsent, words: lacking(this.#session) })],
    text: [isTrue, (_, { answer }) => answer({ text: (this.#take(), this.#text.text) })],
    other: [isTrue, (_, { answer }) => answer(this.#other())],
    choose: [(it) => it === "mine" || it === "theirs", (whose, { answer }) => answer(this.#choose(whose))],
    close: [isTrue, (_, { answer }) => this.close(answer)],
  };

  /**
   * Does what a line asks.
   * @param {Buffer} line
   */
  does(line) {
    if (this.#isClosing) return;
    this.#lines += 1;
    try {
      this.#obey(line);
    } catch (fault) {
      if (!(fault instanceof Wrong)) throw fault;
      tell({ wrong: `line ${this.#lines}: ${fault.message}` });
    }
  }

  #obey(line) {
    const { more = false, caret = null, id, ...request } = parsed(line);
    const [[key, value] = [], ...others] = Object.entries(request);
    if (key === undefined || !Object.hasOwn(this.#asks, key)) throw new Wrong(`it asks for nothing that is known: ${key ?? ""}`);
    const [isRight, does] = this.#asks[key];
    const isPlain = others.length === 0 && (CHANGES.includes(key) || (more === false && caret === null));
    if (!isPlain) throw new Wrong(`a key is too many beside ${key}`);
    if (!isRight(value)) throw new Wrong(`the value of ${key} isn't as it should be`);
    if (typeof more !== "boolean") throw new Wrong("more is true or false");
    if (caret !== null && !isPlace(caret)) throw new Wrong("a caret is a place");
    if (key !== "replace") this.#makeBatch();
    does(value, { more, caret, answer: (told, done) => tell(id === undefined ? told : { ...told, id }, done) });
  }

  /** The editor has changed its text, where its caret is at a place then. */
  #replace([at, removed, text], isMore, caret) {
    if (!isMore || !this.#batch?.takes(at, removed)) this.#makeBatch();
    if (this.#batch === null) setImmediate(() => this.#makeBatch()); // once all is read that is there
    this.#batch ??= new Batch(this.#text.text, isMore);
    this.#batch.add(at, removed, text, caret);
  }

  #makeBatch() {
    if (this.#batch === null) return;
    const { changes, isMore } = this.#batch;
    this.#batch = null;
    this.#heard += changes.length;
    this.#change(() =>
      this.#text.replace(changes, (made) => {
        this.#session.replaceAll(made);
        this.#undo.noteAll(made, Date.now(), isMore);
      }),
    );
    this.#tellNews();
  }

  /** Makes a change, or says why it isn't made, and gives that. */
  #change(make) {
    let refused = "";
    try {
      make();
    } catch (fault) {
      if (!(fault instanceof Full || fault instanceof Ended)) throw fault;
      refused = fault.message;
      tell({ refused });
    }
    if (this.#session.mayBeLost !== this.#told.ahead || this.#heard !== this.#told.heard) this.#tellState();
    return refused;
  }

  #take() {
    this.#hasTold = false;
    return this.#text.take(count);
  }

  #tellNews() {
    if (this.#hasTold || !this.#text.hasNews) return;
    this.#hasTold = true;
    tell({ news: true });
  }

  /** Undoes the editor's own last step, or does it again. */
  #turn(isRedo) {
    let caret = null;
    const make = (changes) => {
      this.#session.replaceAll(changes);
      this.#text.follow(changes);
      caret = changes.at(-1).at + changes.at(-1).text.length;
    };
    this.#change(() => this.#undo.turn(isRedo, this.#session, make));
    const changes = this.#take();
    return caret === null ? { changes } : { changes, caret: size(this.#text.text.slice(0, caret), count) };
  }

  #choose(whose) {
    const refused = this.#change(() => (whose === "mine" ? this.#session.putMine() : this.#session.takeTheirs()));
    return { chosen: whose, words: refused || standing(this.#session) };
  }

  /** Says whether the room has all that was done here until now: once that is known, in so many milliseconds at most. */
  #flush(milliseconds, answer) {
    const isSent = this.#session.sent().then(() => true, () => false);
    const isLate = pause(inTime("flush", milliseconds), false, { ref: false });
    Promise.race([isSent, isLate]).then((sent) => answer({ flushed: milliseconds, sent, words: flushed(this.#session, sent) }));
  }

  #other() {
    const other = this.#session.other?.text ?? null;
    return { other, words: other ?? "the room has no other text" };
  }

  #tellState() {
    const { state, why, mayBeLost: ahead, left } = this.#session;
    this.#told = { ahead, heard: this.#heard, words: standing(this.#session) };
    if (!this.#isClosing) tell({ state, why, ahead, left, heard: this.#heard, words: this.#told.words });
  }

  /** Does what was written before, as far as it comes in time, and closes. Looks are counted: a busy machine may take longer for one. */
  async end() {
    for (let lines = -1, looks = 0; lines !== this.#lines && looks < ENDING / SILENCE; looks += 1) {
      lines = this.#lines;
      await pause(SILENCE);
      await new Promise(setImmediate); // what came meanwhile is read by then
    }
    await this.close();
  }

  /** Sends what is new, leaves the room, says what it doesn't have, and ends the program. */
  async close(answer = tell) {
    if (this.#isClosing) return;
    this.#makeBatch();
    this.#isClosing = true;
    await this.#session.close({ flush: ENDING }).catch((fault) => console.error(fault));
    const { unsent, mayBeLost } = this.#session;
    const ends = () => process.exit(mayBeLost ? 1 : 0);
    answer({ closed: true, sent: !mayBeLost, heard: this.#heard, unsent, words: lacking(this.#session) }, ends);
    setTimeout(ends, ENDING); // where nobody reads
  }
}

/** The object of a line, which has a key. */
function parsed(line) {
  let request;
  try {
    request = JSON.parse(textOf(line));
  } catch {
    throw new Wrong("it is no JSON");
  }
  const isRequest = typeof request === "object" && request !== null && Object.keys(request).length > 0;
  if (!isRequest) throw new Wrong("it is no object with a key");
  return request;
}

if (room === undefined || count === undefined || more.length > 0) {
  stop("usage: rgatext-stdio.mjs ADDRESS ROOM [units|characters|bytes]");
}
let conversation;
try {
  conversation = new Conversation(open(address, room));
} catch (fault) {
  if (!(fault instanceof TypeError)) throw fault;
  stop(fault.message);
}
for (const signal of ["SIGTERM", "SIGINT", "SIGHUP"]) process.on(signal, () => conversation.end());
process.stdout.on("error", () => conversation.close()); // nobody reads any more
for await (const line of linesOf(process.stdin)) conversation.does(line);
await conversation.close();
