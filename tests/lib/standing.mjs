// What tests/try_merging plays of what a session tells, asks and sends: its states, a choice of the user, full rooms, closing, and how many
// calls it makes. The one argument is the program.
import assert from "node:assert/strict";
import { differences } from "../../clients/js/differences.js";
import { MOST } from "../../clients/js/document.js";
import { Pace } from "../../clients/js/pace.js";
import { bindPage } from "../../clients/js/page.js";
import { Ended, played, Session } from "../../clients/js/rgatext.js";
import { pause } from "../../clients/js/seat.js";
import { dice, Room, until } from "./room.mjs";
import { vectors, whole } from "./vectors.mjs";
import { begin, end, endsAs, keptRun, roomOf, textOf, typedBy, Way } from "./way.mjs";

/** A case of the vectors: putting in what is shown costs what differs, and deletes nothing that the user wasn't shown. */
async function chooses({ name, shown, room, late, operations }) {
  const mine = whole(shown);
  const way = await begin(mine);
  const { session } = way.editor;
  const other = await roomOf(whole(room), 2);
  way.cut(other);
  await way.comesTo("another text", mine);
  assert.equal(session.other.text, whole(room), name);
  const began = (await other.ask({ t: "read" })).v;
  if (late) {
    await typedBy(other, late.k, late.x);
    session.putMine();
    const told = played(whole(room), [{ at: late.k, removed: 0, text: late.x }]);
    await until(() => session.other.text === told, () => name);
    assert.deepEqual([session.state, await textOf(other)], ["another text", told], name);
  }
  assert.equal(played(session.other.text, session.other.difference), mine, name);
  session.putMine();
  await way.comesTo("up to date", mine);
  const { v, x } = await other.ask({ t: "read" });
  assert.equal(x, mine, name);
  assert.ok(v - began <= operations, `${name}: ${v - began} operations`);
  await end(way);
}

/** What differs at eight places of a long text is found, and soon: put in, removed or replaced, with blanks and without. */
function findsWhatDiffers() {
  const roll = dice(3);
  for (const sign of [() => "the quick brown fox\n"[roll(20)], () => String.fromCharCode(0x4e00 + roll(3_000))]) {
    const some = (length) => Array.from({ length }, sign).join("");
    const text = some(50_000);
    for (const removed of [0, 130]) {
      let other = text;
      for (let place = 43_750; place >= 0; place -= 6_250) other = other.slice(0, place) + some(130) + other.slice(place + removed);
      findsAtMost(1_040 + 8 * removed, text, other);
      findsAtMost(1_040 + 8 * removed, other, text);
    }
  }
}

function findsAtMost(most, from, to) {
  let took = Infinity;
  let changes = [];
  for (let tries = 0; tries < 3; tries += 1) {
    const began = performance.now();
    changes = differences(from, to);
    took = Math.min(took, performance.now() - began);
  }
  assert.equal(played(from, changes), to);
  const cost = changes.reduce((sum, it) => sum + it.removed + it.text.length, 0);
  assert.ok(cost <= most && took < 200, `${cost} operations, ${took} ms`);
}

/** A full room, or one at its end: the session is read-only, keeps what it has, and comes back once there is room. */
async function comesBack(number) {
  const way = await begin("hello");
  const isFull = { full: true };
  way.loses = ({ t, after }) => {
    if (!isFull.full) return "";
    if (number === 13) return { r: "no", n: 13 };
    if (t === "ins") return { r: "no", n: 12 };
    return t === "ops" && after > 100_000 ? { r: "ops", from: after, ops: [{ k: "i" }] } : "";
  };
  way.editor.change(5, 0, " unsent");
  await way.comesTo("refused", "hello unsent");
  assert.throws(() => way.editor.session.insert(0, "x"), Ended);
  assert.deepEqual(way.editor.session.unsent, [{ kind: "put in", text: " unsent" }]);
  const { length } = way.lines;
  const kept = await keptRun(way.room);
  way.cut(kept);
  await until(() => way.lines.length > length);
  await pause(100);
  assert.equal(way.editor.session.state, "refused", "there is no room yet");
  const next = await keptRun(kept);
  isFull.full = false;
  way.cut(next);
  await endsAs(way, "hello unsent");
}

/** Who only reads hears of a full room too, and leaves. */
async function hearsOfAFullRoom() {
  const room = new Room(1);
  const { s } = await room.ask({ t: "join" });
  for (let n = 1; n <= 131_072 / MOST; n += 1) await room.ask({ t: "ins", s, n, v: 0, k: 0, x: "x".repeat(MOST) });
  const way = new Way(room);
  await until(() => way.editor.session.state === "refused");
  assert.match(way.editor.session.why, /full/);
  assert.equal(way.lines[0].asked.filter((it) => it === "leave").length, 1);
  await end(way);
}

/** The state is true at once, and what isn't known to be in the room is told. */
async function tellsWhatIsSo() {
  const way = await begin("hello");
  const { session } = way.editor;
  way.loses = ({ t }) => (t === "ins" ? pause(3_500).then(() => "") : "");
  way.editor.change(5, 0, "!");
  assert.equal(session.state, "sending");
  await until(() => session.document.isWaiting);
  way.editor.change(5, 1, "");
  assert.deepEqual(session.unsent, [{ kind: "deleted", text: "!" }], "it was under way");
  const began = Date.now();
  await until(() => session.state === "no answer");
  assert.ok(Date.now() - began < 2_500);
  await endsAs(way, "hello");
}

/** What was typed, and what was deleted while it was under way, is sent before a session that is closed leaves. */
async function sendsWhatIsNew() {
  const way = await begin("hello");
  way.delay = 100;
  way.editor.change(5, 0, "!");
  await until(() => way.editor.session.document.isWaiting);
  way.editor.change(5, 1, "");
  way.editor.change(0, 1, "J");
  const closed = way.editor.session.close();
  assert.throws(() => way.editor.session.insert(0, "x"), Ended);
  await closed;
  assert.equal(await textOf(way.room), "Jello");
  assert.equal((await way.room.ask({ t: "leave", s: 1 })).n, 5);
  way.room.close();
}

/** A page that is left and comes back goes on, with what was typed before. */
async function comesBackWithItsPage() {
  const way = await begin("hello");
  way.editor.session.pause();
  await pause(300);
  assert.equal((await way.room.ask({ t: "leave", s: 1 })).n, 5, "the session is left");
  way.editor.change(5, 0, "!");
  way.editor.session.resume();
  await way.comesTo("up to date", "hello!");
  way.editor.change(6, 0, "?");
  way.cut();
  way.editor.session.pause(); // on a line that is gone
  way.editor.session.resume();
  await endsAs(way, "hello!?");
}

/**
 * A page that ends waits for nothing. In that moment what was done first is sent, where nothing is under way, and the room is left behind
 * it; what goes out no more is unsent.
 */
async function endsWithItsPage(isUnderWay) {
  const way = await begin("hello");
  way.delay = 100;
  const page = new EventTarget();
  Object.assign(globalThis, { addEventListener: page.addEventListener.bind(page), document: page });
  bindPage(way.editor.session);
  const [{ asked }] = way.lines;
  const submitted = () => asked.filter((it) => it === "ins").length;
  const before = submitted();
  way.editor.change(5, 0, "!");
  if (isUnderWay) await until(() => submitted() > before);
  way.editor.change(0, 0, ">");
  const { length } = asked;
  page.dispatchEvent(Object.assign(new Event("pagehide"), { persisted: false }));
  assert.deepEqual(asked.slice(length), isUnderWay ? ["leave"] : ["ins", "leave"]);
  assert.deepEqual(way.editor.session.unsent.map(({ text }) => text), [">", "!"], "the room isn't known to have it");
  way.isUp = false;
  await pause(300);
  assert.equal(await textOf(way.room), "hello!");
  assert.equal((await way.room.ask({ t: "leave", s: 1 })).n, 5, "the session is left");
  page.dispatchEvent(Object.assign(new Event("pageshow"), { persisted: true }));
  way.isUp = true;
  await endsAs(way, ">hello!");
}

/** A page that is left sends nothing where no line is there yet, nor to another text while the user is to choose. */
async function leavesWithNothing() {
  const early = new Session(() => new Promise(() => {}));
  early.insert(0, "x");
  early.pause();
  await early.close();
  const way = await begin("hello");
  way.cut(await roomOf("world", 2));
  await way.comesTo("another text", "hello");
  way.editor.change(5, 0, "!");
  way.editor.session.pause();
  await pause(100);
  assert.equal(await textOf(way.room), "world");
  await end(way);
}

/** A page that nobody looks at asks each ten seconds, and at once when somebody does. */
async function asksRarely() {
  const way = await begin("hello");
  const [{ asked }] = way.lines;
  way.editor.session.isHidden = true;
  await pause(1_500);
  const { length } = asked;
  await pause(3_000);
  assert.ok(asked.length <= length + 1, `${asked.length - length} calls in three seconds`);
  way.editor.session.isHidden = false;
  await until(() => asked.length > length);
  await end(way);
}

/** A minute without news, and the pause between two pulls becomes longer; the first news makes it short again. */
function asksLessWhileNothingComes() {
  const { now } = Date;
  let time = now();
  Date.now = () => time;
  const pace = new Pace();
  const before = pace.next();
  time += 61_000;
  const idle = [pace.next(), pace.next(), pace.next(), pace.next()];
  pace.hasNews();
  Date.now = now;
  assert.deepEqual([before, ...idle, pace.next()], [1_000, 2_000, 4_000, 5_000, 5_000, 1_000]);
  pace.isHidden = true;
  assert.equal(pace.next(), 10_000);
}

/** One key at twenty carets is in the room within a second, and with another who asks for news each second, within two. */
async function typesAtTwentyCarets() {
  const text = "some words in a line\n".repeat(20);
  const way = await begin(text);
  way.delay = 20;
  const other = new Way(way.room, 20);
  await other.comesTo("up to date", text);
  const began = Date.now();
  for (let n = 20; n > 0; n -= 1) way.editor.change(21 * n - 1, 0, "x");
  await way.comesTo("up to date");
  const took = Date.now() - began;
  await other.comesTo("up to date", way.editor.shown);
  const seen = Date.now() - began;
  assert.ok(took < 1_000 && seen < 2_000, `${took} ms, ${seen} with the other`);
  await end(way, other);
}

await Promise.all([
  comesBack(12),
  comesBack(13),
  tellsWhatIsSo(),
  sendsWhatIsNew(),
  comesBackWithItsPage(),
  endsWithItsPage(true),
  endsWithItsPage(false),
  leavesWithNothing(),
  asksRarely(),
]);
await typesAtTwentyCarets();
await hearsOfAFullRoom();
for (const it of vectors("choosing")) await chooses(it);
findsWhatDiffers();
asksLessWhileNothingComes();
console.log("tests/try_merging: states, choices, full rooms, closing, and few calls");
