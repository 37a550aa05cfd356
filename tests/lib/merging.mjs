// What tests/try_merging plays with a document. The one argument is the program.
import assert from "node:assert/strict";
import { carried, played } from "../../clients/js/changes.js";
import { Document, MOST } from "../../clients/js/document.js";
import { Log } from "../../clients/js/log.js";
import { wayTo } from "../../clients/js/rejoin.js";
import { isInside } from "../../clients/js/text.js";
import { rejoin } from "./rejoining.mjs";
import { dice, Room } from "./room.mjs";
import { mustFitWhole, undoAtRandom, undoBesideAList, undoOnesOwn, undoQuickly, undoTogether } from "./undoing.mjs";
import { vectors } from "./vectors.mjs";
import { keptRun, renewedRun } from "./way.mjs";

/** A case of the vectors, played with a document: each answer and edit is the program's. */
class Case {
  room = new Room();
  log = new Log((request) => this.room.ask(request));
  others = 0; // submissions
  seen = 0; // edits that the other session was told
  number = 0;
  submission = null;
  again = null; // the last answer, once more

  constructor({ name, text, steps }) {
    Object.assign(this, { name, text, steps });
  }

  equal(one, other, what = this.name) {
    assert.deepEqual(one, other, what);
  }

  async play() {
    await this.room.ask({ t: "join", u: 16 });
    if (this.text !== "") await this.submitAsOther({ t: "ins", v: 0, k: 0, x: this.text });
    const { x, v } = await this.room.ask({ t: "join", u: 16 });
    this.document = new Document(x, v, await this.log.last(v));
    for (const step of this.steps) {
      if (step.restart) await this.restart(step.restart);
      if (step.local) this.document.replace([step.local]);
      if (step.other) await this.submitAsOther(step.other);
      if (step.send) await this.submit(step);
      if (step.again) this.answerAgain(step.again);
      if (step.late) await this.pullLate(step.late);
      if (step.follow) await this.follow(step);
      else if (step.changes) await this.pull(step);
      if (step.shown !== undefined) this.equal(this.document.text, step.shown);
    }
    this.room.close();
  }

  async submitAsOther(request) {
    this.seen += (await this.room.edits(1, this.seen)).length;
    this.equal((await this.room.ask({ ...request, s: 1, n: (this.others += 1) })).r, "ok");
  }

  async submit({ send, answer }) {
    this.submission ??= { ...this.document.next(), v: this.document.version };
    this.equal(this.submission, send);
    const reply = await this.room.ask({ ...this.submission, s: 2, n: this.number + 1 });
    if (!answer) return;
    this.equal(reply, { r: "ok", ...answer });
    this.equal(this.document.accept(reply.from, reply.to), true);
    this.document.first ??= { from: reply.from, known: await this.log.known(reply.from, reply.to) };
    [this.number, this.submission] = [this.number + 1, null];
    this.again = await this.room.ask({ t: "ins", s: 2, n: this.number, v: 0, k: 0, x: "" });
  }

  answerAgain(wanted) {
    this.equal(this.again, { r: "ok", ...wanted });
    this.equal(this.document.accept(this.again.from, this.again.to), false);
  }

  async pullLate(wanted) {
    const { from, es } = await this.room.ask({ t: "pull", s: 2, have: wanted.from, max: MOST });
    this.equal({ from, edits: es }, wanted);
    this.equal(this.document.play(es, from), []);
  }

  /** Another run of the program, whose log has lost so many operations, or is a new one of the same text. */
  async restart({ lost, isRenewed = false, isSameSite = false }) {
    this.room = await (isRenewed ? renewedRun(this.room, lost) : keptRun(this.room, lost, isSameSite ? 0 : 2));
    this.seen = (await this.room.ask({ t: "join", u: 16 })).v;
    [this.others, this.number, this.submission] = [0, 0, null];
  }

  /** The client joins the run, and comes to its text. */
  async follow(step) {
    const { x, v } = await this.room.ask({ t: "join", u: 16 });
    const shown = this.document.text;
    const go = await wayTo(this.document, new Document(x, v, await this.log.last(v)), this.log, []);
    const changes = go();
    this.document.first = null;
    this.equal(changes, step.changes);
    this.equal(played(shown, changes), this.document.text);
    this.equal(this.document.roomText, x);
    for (const [before, after] of step.carets ?? []) this.equal(carried(before, changes), after, `${this.name}: a caret at ${before}`);
  }

  async pull(step) {
    const edits = await this.room.edits(2, this.document.version, step.max);
    if (step.edits) this.equal(edits, step.edits);
    const shown = this.document.text;
    const changes = this.document.play(edits);
    this.equal(changes, step.changes);
    this.equal(played(shown, changes), this.document.text);
    for (const [before, after] of step.carets ?? []) this.equal(carried(before, changes), after, `${this.name}: a caret at ${before}`);
    if (!step.max) this.equal(this.document.roomText, (await this.room.ask({ t: "read" })).x);
  }
}

/** A change at random of a text: a place outside of pairs, how much is removed, and what is put in. */
function someChange(roll, text) {
  const outside = (place) => (isInside(text, place) ? place - 1 : place);
  const at = outside(roll(text.length + 1));
  const end = roll(3) > 0 ? at : Math.max(at, outside(Math.min(text.length, at + roll(12))));
  const words = ["a", "é", "😀", "日本", "\n", "hello", "x".repeat(70)];
  return { at, removed: end - at, text: roll(4) === 0 ? "" : words[roll(words.length)] };
}

/** A document of a session, and what its editor shows by the changes. */
class Peer {
  document = new Document();
  shown = "";
  number = 0;
  submission = null;

  constructor(room, session, roll) {
    Object.assign(this, { room, session, roll });
  }

  show(changes) {
    this.shown = played(this.shown, changes);
    assert.equal(this.shown, this.document.text);
  }

  change() {
    this.show(this.document.replace([someChange(this.roll, this.shown)]));
  }

  send() {
    const next = this.document.next();
    if (next !== null) this.submission = { ...next, v: this.document.version };
  }

  async answer() {
    if (this.submission === null) return;
    const { r, from, to } = await this.room.ask({ ...this.submission, s: this.session, n: (this.number += 1) });
    assert.equal(r, "ok");
    assert.ok(this.document.accept(from, to));
    this.submission = null;
  }

  async pull() {
    if (this.submission !== null) return 0;
    const { es } = await this.room.ask({ t: "pull", s: this.session, have: this.document.version, max: 1 + this.roll(MOST) });
    const changes = this.document.play(es);
    assert.ok(changes.every(({ at, to }) => at !== to), "a move leads elsewhere");
    this.show(changes);
    return es.length;
  }

  async pullAll() {
    while ((await this.pull()) > 0);
  }
}

/** Four documents that change at random, send and pull early and late: at the end all have the room's text. */
async function mergeAtRandom(seed, steps) {
  const roll = dice(seed);
  const room = new Room();
  const peers = [];
  for (let session = 1; session <= 4; session += 1) {
    await room.ask({ t: "join", u: 16 });
    peers.push(new Peer(room, session, roll));
  }
  for (let step = 0; step < steps; step += 1) {
    const does = ["change", "change", "send", "answer", "pull"][roll(5)];
    await peers[roll(peers.length)][does]();
  }
  for (let isAhead = true; isAhead; ) {
    isAhead = false;
    for (const peer of peers) {
      await peer.answer();
      await peer.pullAll();
      isAhead ||= peer.document.pending > 0;
      peer.send();
    }
  }
  for (const peer of peers) await peer.pullAll();
  const { x } = await room.ask({ t: "read" });
  for (const { shown, document } of peers) assert.deepEqual([shown, document.roomText], [x, x]);
  room.close();
  return x.length;
}

/** What is gone back over letter by letter goes in deletions of 64 units at most, the last letters first, and pairs whole. */
function goesBackOver(text, counts) {
  const document = new Document(text, 0);
  for (let left = text; left !== ""; left = document.text) {
    const letter = [...left].at(-1);
    document.replace([{ at: left.length - letter.length, removed: letter.length, text: "" }]);
  }
  const sent = [];
  for (let next = document.next(); next !== null; next = document.next()) {
    const { k, c } = next;
    const signs = [...document.roomText.slice(k, k + c)];
    assert.equal(k + c, document.roomText.length);
    document.accept(document.version, document.version + signs.length);
    document.play(signs.map((sign) => ["d", k, sign.length]));
    sent.push(c);
  }
  assert.deepEqual([document.roomText, sent], ["", counts]);
}

/** So much is remembered at most of what may be lost: 32,768 edits, and those of the last five minutes. */
function forgets() {
  const { now } = Date;
  const document = new Document();
  const play = (count) => {
    for (let n = 0; n < count; n += 1) document.play([["i", document.version, "x"]]);
    return document.memory.length;
  };
  assert.ok(play(33_024) < 32_768 + 64);
  Date.now = () => now() + 301_000;
  const length = play(64);
  Date.now = now;
  assert.ok(length <= 64);
  assert.equal(document.memory.base, document.version - length);
  assert.ok(document.memory.lengthAt(document.memory.base - 1) < 0);
}

const cases = vectors("merging");
for (const it of cases) await new Case(it).play();
const rejoined = await rejoin(vectors("rejoining"));
const merged = [];
for (let seed = 1; seed <= 3; seed += 1) merged.push(await mergeAtRandom(seed, 1_000));
goesBackOver("x".repeat(100), [64, 36]);
goesBackOver("😀".repeat(40), [64, 16]);
goesBackOver(`a${"😀".repeat(32)}b`, [63, 3]);
forgets();
undoOnesOwn();
undoQuickly();
undoTogether();
mustFitWhole();
for (let seed = 1; seed <= 300; seed += 1) undoAtRandom(dice(seed), seed % 2 === 0);
for (let seed = 1; seed <= 300; seed += 1) undoBesideAList(dice(seed));
console.log(`tests/try_merging: ${cases.length + rejoined} vectors, texts of ${merged.join(", ")} units merged, steps undone`);
