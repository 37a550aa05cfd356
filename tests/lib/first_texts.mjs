// What tests/try_merging plays with the text that a room was renewed with: it is found whatever was typed since, in few requests, and so is
// what a document remembers of it. By rooms in memory.
import assert from "node:assert/strict";
import { Document, MOST } from "../../clients/js/document.js";
import { Gap } from "../../clients/js/gap.js";
import { Log } from "../../clients/js/log.js";
import { MemoryRoom } from "../../clients/js/memory_room.js";
import { wayTo } from "../../clients/js/rejoin.js";
import { Session } from "../../clients/js/session.js";
import { isInside } from "../../clients/js/text.js";
import { dice, until } from "./room.mjs";

const OLD = 5; // the site of what a room begins with
const SIGNS = [..."abcdefgh", "\n", "é", "\u{1F600}"];
const LENGTHS = [1, 2, 63, 64, 65, 130, 1_000, 1_024, 1_025, 3_000, 12_000];

const textOf = (roll, count) => Array.from({ length: count }, () => SIGNS[roll(SIGNS.length)]).join("");

/** A room that begins with a text. */
const renewed = (site, x) => new MemoryRoom({ site, log: [{ c: [[OLD, 1]], k: "r", s: OLD, p: null, x }] });

/** Types at random in a room's newest version, so many times. */
function typeIn(room, roll, times) {
  const { s, v } = room.answer({ t: "join", u: 16 });
  let have = v;
  for (let n = 1; n <= times; n += 1) {
    while (have < room.version) have += room.answer({ t: "pull", s, have, max: MOST }).es.length;
    const { text } = room;
    const place = (at) => (isInside(text, at) ? at - 1 : at);
    const k = place(roll(text.length + 1));
    const c = place(Math.min(text.length, k + 1 + roll(9))) - k;
    const what = roll(2) === 0 && c > 0 ? { t: "del", k, c } : { t: "ins", k, x: textOf(roll, 1 + roll(9)) };
    assert.equal(room.answer({ s, n, v: have, ...what }).r, "ok");
  }
}

/** What a log tells of the text that its room begins with, and in how many requests. */
async function found(room) {
  let requests = 0;
  const log = new Log(async (request) => ((requests += 1), room.answer(request)));
  const { v, x } = room.answer({ t: "read" });
  await log.last(v);
  const first = await log.firstText({ version: v, roomText: x });
  return { first, requests };
}

async function isFound(seed) {
  const roll = dice(seed);
  const text = textOf(roll, LENGTHS[roll(LENGTHS.length)]);
  const room = renewed(roll(3), text);
  typeIn(room, roll, roll(60));
  const { first, requests } = await found(room);
  assert.equal(first.text, text, `seed ${seed}`);
  assert.equal(first.version, [...text].length);
  assert.ok(first.isNew);
  assert.ok(requests <= 70, `seed ${seed}: ${requests} requests`);
}

/** Puts operations of another server in. */
const put = (room, ...ops) => ops.forEach((it) => room.answer({ t: "put", ops: [it] }).os.forEach(([is]) => assert.equal(is, "took")));

/** What another server typed that knew a beginning alone may stand behind all of the text: then the log is read whole. */
async function isFoundBesideAnother() {
  const text = textOf(dice(1), 500);
  const room = renewed(1, text);
  put(room, { c: [[2, 1], [OLD, 300]].sort((one, other) => one[0] - other[0]), k: "r", s: 2, p: [300, OLD], x: "xyz" });
  assert.ok(room.text.endsWith("xyz"));
  assert.equal((await found(room)).first.text, text);
}

/** What came since at the beginning, behind others and of the text's own site; and a character that two servers deleted at one time. */
async function isFoundWhateverCame() {
  const text = textOf(dice(1), 5_000);
  const room = renewed(0, text);
  put(room, { c: [[OLD, 5_001]], k: "i", s: OLD, p: [7, OLD], x: "x" });
  put(room, { c: [[1, 1], [OLD, 5_001]], k: "i", s: 1, p: [5_001, OLD], x: "y" });
  put(room, { c: [[1, 2], [OLD, 5_001]], k: "i", s: 1, p: null, x: "z" });
  put(room, { c: [[1, 3], [OLD, 5_001]], k: "i", s: 1, p: [5_000, OLD], x: "." });
  for (const s of [2, 3]) put(room, { c: [[1, 2], [s, 1], [OLD, 5_001]], k: "d", s, t: [5_002, 1] });
  const { first, requests } = await found(room);
  assert.equal(first.text, text);
  assert.ok(requests < 50, `${requests} requests`);
}

/** Where one site typed otherwise than from the beginning to the end, the text ends there, and no room was renewed with it. */
async function endsWhereItIsOtherwise() {
  const begin = { c: [[OLD, 1]], k: "r", s: OLD, p: null, x: "abc" };
  const next = { c: [[OLD, 4]], s: OLD };
  for (const it of [{ ...next, k: "i", p: null, x: "d" }, { ...next, k: "d", t: [3, OLD] }, { ...next, k: "d", t: [1, OLD] }]) {
    const { first } = await found(new MemoryRoom({ site: 1, log: [begin, it] }));
    assert.deepEqual([first.text, first.version, first.isNew], ["abc", 3, false]);
  }
}

/** Also where that stands in a part of a long log that isn't looked at: the text ends there. */
async function endsInAPartThatIsNotSeen() {
  const text = textOf(dice(1), 8_000);
  const run = (from, to, c = []) => ({ c: [...c, [OLD, from + 1]], k: "r", s: OLD, p: from === 0 ? null : [from, OLD], x: [...text].slice(from, to).join("") });
  const deletion = { c: [[OLD, 3_001]], k: "d", s: OLD, t: [1, OLD] };
  const further = { c: [[OLD, 3_002]], k: "r", s: OLD, p: [3_000, OLD], x: [...text].slice(3_000).join("") };
  const deleted = await found(new MemoryRoom({ site: 1, log: [run(0, 3_000), deletion, further] }));
  assert.deepEqual([deleted.first.version, deleted.first.isNew], [3_000, false]);
  const of = 2;
  const other = { c: [[of, 1], [OLD, 3_000]], k: "i", s: of, p: [3_000, OLD], x: "x" };
  const behind = { c: [[of, 1], [OLD, 3_001]], k: "r", s: OLD, p: [3_001, of], x: [...text].slice(3_000).join("") };
  const joined = await found(new MemoryRoom({ site: 1, log: [run(0, 3_000), other, behind] }));
  assert.deepEqual([joined.first.version, joined.first.text], [3_000, [...text].slice(0, 3_000).join("")]);
}

/** A document with a long past goes over to a renewed room in a hundred requests: what was done since it heard of the room came, too. */
async function goesOver() {
  const roll = dice(7);
  const begin = textOf(roll, 20_000);
  const before = new MemoryRoom({ site: 1, log: [{ c: [[0, 1]], k: "r", s: 0, p: null, x: begin }] });
  const { v, x } = before.answer({ t: "join", u: 16 });
  const document = new Document(x, v);
  typeIn(before, roll, 400);
  for (let count = MOST; count === MOST; ) {
    const { es } = before.answer({ t: "pull", s: 1, have: document.version, max: MOST });
    document.play(es);
    count = es.length;
  }
  document.replace([{ at: 3, removed: 0, text: "own" }]);
  for (const missed of [0, 5]) {
    typeIn(before, roll, missed);
    const room = renewed(2, before.text);
    typeIn(room, roll, 3);
    let requests = 0;
    const log = new Log(async (request) => ((requests += 1), room.answer(request)));
    const joined = room.answer({ t: "join", u: 16 });
    const other = new Document(joined.x, joined.v, await log.last(joined.v));
    const go = await wayTo(document, other, log, []);
    go();
    assert.equal(document.roomText, room.text);
    assert.ok(document.text.includes("own"));
    assert.ok(requests <= 100, `${requests} requests`);
  }
}

/** Who only reads goes on in a renewed room, and asks nobody. */
async function followsAReader() {
  const before = new MemoryRoom({ site: 1, log: [{ c: [[0, 1]], k: "r", s: 0, p: null, x: "what was typed long ago" }] });
  let room = before;
  const reader = new Session(() => room.connect(), { idle: 20 });
  const states = new Set();
  reader.addEventListener("state", () => states.add(reader.state));
  await reader.ready;
  typeIn(before, dice(9), 20);
  await until(() => reader.text === before.text, () => "it reads along");
  typeIn(before, dice(10), 3); // which it doesn't hear of
  room = renewed(2, before.text);
  typeIn(room, dice(11), 20);
  before.cut();
  await until(() => reader.text === room.text && reader.state === "up to date", () => "it reads the new document");
  assert.ok(!states.has("another text"));
  await reader.close();
}

/** The edits of a text that is put in at a place. */
const editsOf = (k, text) => [...text].map((sign, n) => ["i", k + n, sign]);

/** What has come stands elsewhere in another run: it is one's own still, and is put in again where all is lost then. */
function ownsWhatHasCome() {
  const document = new Document();
  document.play(editsOf(0, "of others"));
  document.replace([{ at: 0, removed: 0, text: "own " }]);
  document.next();
  document.came(9, 4);
  document.follow(new Document("of others, own text", 19));
  document.goBack(-1);
  assert.deepEqual([document.text, document.version], ["own ", 0]);
}

/** What others put in again in parts, for longer than a letter or two is waited for, is deleted again where it was deleted here. */
function deletesAgainAsLongAsItComes() {
  const { now } = Date;
  const document = new Document();
  document.play(editsOf(0, "one two three four"));
  document.replace([{ at: 14, removed: 4, text: "" }]);
  document.goBack(-1);
  for (const [at, text] of ["one ", "two ", "three ", "four"].entries()) {
    Date.now = () => now() + 7_000 * at;
    document.play(editsOf(document.roomText.length, text));
  }
  Date.now = now;
  assert.deepEqual([document.text, document.roomText], ["one two three ", "one two three four"]);
}

/** A list with a gap is the list that a plain one is. */
function isAsAPlainList() {
  const roll = dice(3);
  const plain = Array.from({ length: 50 }, () => roll(100));
  const gap = new Gap(Int32Array.from(plain));
  for (let n = 0; n < 2_000; n += 1) {
    const at = roll(plain.length + 1);
    const removed = Math.min(plain.length - at, roll(60));
    const put = Array.from({ length: roll(60) }, () => roll(100));
    assert.deepEqual([...gap.replace(at, removed, put)], plain.splice(at, removed, ...put));
    assert.equal(gap.length, plain.length);
    assert.ok(gap.is(Int32Array.from(plain)));
    assert.deepEqual([...gap.all], plain);
    if (plain.length > 0) assert.ok(!gap.is(Int32Array.from(plain, (it, place) => it + Number(place === at % plain.length))));
  }
}

for (let seed = 1; seed <= 60; seed += 1) await isFound(seed);
await isFoundBesideAnother();
await isFoundWhateverCame();
await endsWhereItIsOtherwise();
await endsInAPartThatIsNotSeen();
await goesOver();
await followsAReader();
ownsWhatHasCome();
deletesAgainAsLongAsItComes();
isAsAPlainList();
console.log("tests/lib/first_texts.mjs: the text that a room was renewed with is found in few requests");
