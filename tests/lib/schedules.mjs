// What tests/try_merging plays with sessions and lines that break at a given request. The one argument is the program.
import assert from "node:assert/strict";
import { Connection } from "../../clients/js/connection.js";
import { MOST } from "../../clients/js/document.js";
import { USUAL } from "../../clients/js/options.js";
import { Lost, open, Refused, Session } from "../../clients/js/rgatext.js";
import { pause } from "../../clients/js/seat.js";
import { Line, Room, until } from "./room.mjs";
import { begin, deletedBy, end, endsAs, keptRun, roomOf, textOf, typedBy, Way } from "./way.mjs";

/** A line that is cut while the user is to choose, and then the right run of three. */
async function isCutWhileChoosing() {
  const way = await begin("hello");
  const kept = await keptRun(way.room);
  way.cut(new Room());
  await way.comesTo("another text", "hello");
  way.cutOff();
  await way.comesTo("offline", "hello");
  assert.ok(way.editor.session.other !== null, "the choice is there while the line isn't");
  way.isUp = true;
  await way.comesTo("another text", "hello");
  assert.equal((await way.room.ask({ t: "leave", s: 1 })).n, 5, "the session before is left");
  way.editor.change(5, 0, " unsent");
  way.cut(kept);
  await way.comesTo("up to date", "hello unsent");
  assert.equal(await textOf(kept), "hello unsent");
  await end(way);
}

/** What was under way has come to the log that is kept, and the first answer to `join` there, or to `ops`, is lost. */
async function isKeptWithWhatWasUnderWay(lost) {
  const way = await begin("hello");
  const isLost = way.loseOnce("answer", "ins");
  way.editor.change(5, 0, "X");
  await isLost;
  const kept = await keptRun(way.room);
  const isLostToo = way.loseOnce("answer", lost, true);
  way.cut(kept);
  await isLostToo;
  await way.comesTo("up to date", "helloX");
  assert.equal(await textOf(kept), "helloX");
  await end(way);
}

/** A run is refilled in two parts while an editor looks at it, and what was under way comes with the second one. */
async function isRefilledInParts() {
  const way = await begin("hello");
  const isLost = way.loseOnce("answer", "ins");
  way.editor.change(5, 0, "?");
  await isLost;
  const told = [...(await way.room.operations()).flat()];
  const [{ x, ...run }] = told;
  assert.equal(x, "hello?");
  way.cut(new Room(2));
  await way.comesTo("another text");
  await way.room.refill([[{ x: "hello", ...run }]]);
  await pause(1_500);
  assert.deepEqual([way.editor.session.state, way.editor.shown], ["another text", "hello?"]);
  await way.room.refill([told]);
  await endsAs(way, "hello?");
}

/** What is typed while the line is gone, or is sent and doesn't come, follows into a run that is kept, where another types. */
async function isKeptWithoutWhatWasTyped(isSent) {
  const way = await begin("kept here");
  const isLost = isSent ? way.loseOnce("request", "ins") : way.cutOff();
  way.editor.change(9, 0, "!");
  await isLost;
  way.room = await keptRun(way.room);
  await typedBy(way.room, 0, "B ");
  way.isUp = true;
  await endsAs(way, "B kept here!");
}

/** What was sent and doesn't come isn't taken for what another types, or deletes, elsewhere. */
async function isTypedByAnotherToo(kind) {
  const way = await begin("kept here");
  const isLost = way.loseOnce("request", kind);
  if (kind === "ins") way.editor.change(9, 0, "!");
  else way.editor.change(8, 1, "");
  await isLost;
  way.room = await keptRun(way.room);
  await typedBy(way.room, 0, "!");
  const { s, v } = await way.room.ask({ t: "join" });
  await way.room.ask({ t: "del", s, n: 1, v, k: 2, c: 1 });
  way.isUp = true;
  await way.comesTo("up to date", kind === "ins" ? "!kpt here!" : "!kpt her");
  assert.equal(await textOf(way.room), way.editor.shown);
  await end(way);
}

/** A run that has another text, or another deletion, under the same numbers, is another one, and its session is left alone. */
async function isAnsweredAlike() {
  const way = await begin("hello");
  const room = new Room(2);
  await room.ask({ t: "join", u: 16 });
  await room.ask({ t: "ins", s: 1, n: 1, v: 0, k: 0, x: "world" });
  way.cut(room);
  await way.comesTo("another text", "hello");
  const deletes = await begin("abcdef");
  const isLost = deletes.loseOnce("request", "del");
  deletes.editor.change(0, 1, "");
  await isLost;
  const other = new Room(2);
  await other.ask({ t: "join", u: 16 });
  await other.ask({ t: "ins", s: 1, n: 1, v: 0, k: 0, x: "abcdef" });
  await other.ask({ t: "pull", s: 1, have: 0, max: MOST });
  await other.ask({ t: "del", s: 1, n: 2, v: 6, k: 1, c: 4 });
  deletes.cut(other);
  await deletes.comesTo("up to date", "f");
  assert.equal(await textOf(other), "f");
  for (const it of [way, deletes]) assert.equal((await it.room.ask({ t: "leave", s: 1 })).r, "left");
  await end(way, deletes);
}

/** What is pending keeps its place and what it deletes, in the same run by a session that has sent nothing, and in one that is kept. */
async function keepsPlaces(isKept) {
  const way = await begin("one two three four five", isKept);
  way.cutOff();
  await way.comesTo("offline");
  way.editor.change(8, 0, "MINE ");
  way.editor.change(13, 6, "");
  if (isKept) way.room = await keptRun(way.room);
  await typedBy(way.room, 0, "<");
  await typedBy(way.room, 24, ">");
  way.isUp = true;
  await endsAs(way, "<one two MINE four five>");
}

/** In the same run what came is played, where the texts alone would tell another place. */
async function playsWhatCame() {
  const way = await begin("aaa", false);
  way.cutOff();
  await way.comesTo("offline");
  way.editor.change(1, 0, "X");
  await typedBy(way.room, 0, "a");
  way.isUp = true;
  await way.comesTo("up to date", "aaXaa");
  await end(way);
}

/** A session's number is freed by somebody, or is out of step, on a line that is there: another one goes on. */
async function isOutOfStep(spoil) {
  const way = await begin("hello");
  await typedBy(way.room, 5, "B");
  await spoil(way);
  way.editor.change(5, 0, "A");
  await until(() => way.editor.shown.length === 7);
  await way.comesTo("up to date");
  assert.equal(await textOf(way.room), way.editor.shown);
  assert.equal((await way.room.ask({ t: "leave", s: 1 })).n, 5, "the old session is left");
  assert.equal(way.lines.length, 1);
  await end(way);
}

/** The answer to the `join` behind an unused session, or to its `leave`, is lost, and another types meanwhile. */
async function losesJoin(kind) {
  const way = await begin("", false);
  const isLost = way.loseOnce("answer", kind, true);
  way.cut();
  way.editor.change(0, 0, "mine");
  await isLost;
  await typedBy(way.room, 0, "theirs");
  await way.comesTo("up to date", "minetheirs");
  assert.equal((await way.room.ask({ t: "leave", s: 1 })).n, 5);
  await end(way);
}

/**
 * A session that is closed leaves at once, also in the middle of a round; where something is under way once that has come; and where the
 * line is away once it is there.
 */
async function leavesAtOnce() {
  const idle = await begin("hello");
  idle.delay = 300;
  const { asked } = idle.lines[0];
  const { length } = asked;
  await until(() => asked.length > length);
  const closed = idle.editor.session.close();
  assert.deepEqual(asked.slice(length), ["pull", "leave"]);
  await closed;
  const busy = await begin("hello");
  busy.delay = 300;
  busy.editor.change(5, 0, "!");
  await until(() => busy.lines[0].asked.filter((it) => it === "ins").length === 2);
  assert.equal(await busy.editor.session.close(), true);
  const away = await begin("hello");
  away.cutOff();
  await away.comesTo("offline");
  away.isUp = true;
  await away.editor.session.close();
  for (const { room } of [idle, busy, away]) assert.equal((await room.ask({ t: "leave", s: 1 })).n, 5);
  await end(idle, busy, away);
}

/** A key of an editor on a slow line isn't held up by another's paste, and what came is told a few times a second. */
async function typesBesideAPaste() {
  const paster = await begin("");
  paster.delay = 5;
  const typist = new Way(paster.room, 25);
  await typist.comesTo("up to date", "");
  let [events, hasKey] = [0, false];
  typist.editor.session.addEventListener("changes", () => (events += 1));
  paster.editor.session.addEventListener("changes", ({ detail }) => (hasKey ||= detail.some(({ text }) => text.includes("K"))));
  const began = Date.now();
  paster.editor.change(0, 0, "0123456789".repeat(600));
  await pause(200);
  typist.editor.change(0, 0, "K");
  const pressed = Date.now();
  await until(() => hasKey);
  const held = Date.now() - pressed;
  await until(() => !paster.editor.session.isAhead && typist.editor.shown.length === 6_001);
  const seconds = (Date.now() - began) / 1_000;
  const took = `the key came after ${held} ms, all after ${seconds} s, ${events} events`;
  assert.ok(held < 500 && seconds < 9 && events <= 5.5 * seconds + 2, took);
  await end(paster, typist);
}

/** Two users put the same text into an empty run, one right after the other: it comes once. */
async function putsInOnce() {
  const [one, two] = [await begin("hello"), await begin("hello")];
  const room = new Room(2);
  for (const way of [one, two]) way.cut(room);
  for (const way of [one, two]) await way.comesTo("another text");
  await typedBy(room, 0, "x");
  one.editor.session.putMine();
  await until(() => one.editor.session.why.includes("changed"));
  assert.equal(await textOf(room), "x", "it isn't as the user saw it");
  one.editor.session.putMine();
  await pause(100);
  two.editor.session.putMine();
  for (const way of [one, two]) await way.comesTo("up to date", "hello");
  assert.equal(await textOf(room), "hello");
  await end(one, two);
}

/** A submission came, and its repeat is refused for want of memory, but not the pull right behind it. */
async function isRefusedAtTheRepeat() {
  const way = await begin("hello ");
  let asked = 0;
  way.loses = ({ t, x }) => {
    if (t !== "ins" || x !== "world") return "";
    asked += 1;
    return ["", "answer", { r: "no", n: 26 }][asked] ?? "";
  };
  way.editor.change(6, 0, "world");
  await endsAs(way, "hello world");
}

/** The first submission of a session comes late: when the new line has looked into the log, and others have typed. */
async function comesLate(kind) {
  const way = await begin("");
  let late = null;
  way.loses = (request) => {
    if (request.t === "ins" && request.x === "mine" && late === null) {
      late = request;
      way.isUp = false;
      return "request";
    }
    if (request.t === kind && late !== null && way.isUp) {
      way.room.ask(late);
      way.loses = () => "";
    }
    return "";
  };
  way.editor.change(0, 0, "mine");
  await until(() => late !== null);
  await typedBy(way.room, 0, "theirs");
  way.isUp = true;
  await endsAs(way, "minetheirs");
}

/** The first letter of a session doesn't come, and another types the same at its place, in the same run: both are there. */
async function typesALetterToo() {
  const way = await begin("", false);
  const isLost = way.loseOnce("request", "ins");
  way.editor.change(0, 0, "a");
  await isLost;
  await typedBy(way.room, 0, "a");
  way.isUp = true;
  await endsAs(way, "aa");
}

/** An `ok` was seen, and the pull behind it lost; others deleted most of what came, and the run is a kept one. */
async function isAcceptedAndDeleted() {
  const way = await begin("text ");
  way.editor.change(5, 0, "abcd");
  way.loses = async ({ t }) => {
    if (t !== "pull" || !way.editor.session.document.isWaiting) return "";
    await until(() => way.editor.session.document.accepted !== null);
    way.isUp = false;
    return "request";
  };
  await until(() => !way.isUp);
  way.loses = () => "";
  await deletedBy(way.room, 5, 3);
  way.cut(await keptRun(way.room));
  await endsAs(way, "text d");
}

/** An editor that joined a text types more than that, and the log loses most of it: what was kept doesn't come twice. */
async function losesMuchOfItsOwn() {
  const room = new Room(1);
  const [joined, typed] = ["joined ".repeat(36), "0123456789".repeat(30)];
  for (let at = 0; at < joined.length; at += 63) await typedBy(room, 0, joined.slice(0, 63));
  const way = new Way(room);
  await way.comesTo("up to date", joined);
  way.editor.change(joined.length, 0, typed);
  await way.comesTo("up to date", joined + typed);
  const kept = await keptRun(room, 270);
  way.cut(kept);
  await way.joins(kept);
  await endsAs(way, joined + typed);
}

/** The line is lost again and again while an editor that has joined another run looks for its way: no session is left behind. */
async function leavesWhatItJoined() {
  const way = await begin("hello");
  const kept = await keptRun(way.room, 2);
  let lost = 0;
  way.loses = ({ t }, { asked }) => {
    const since = asked.includes("join") ? asked.slice(asked.indexOf("join")) : [];
    const isLost = t === "ops" && lost < 5 && (since.length === 1 ? lost === 0 : since.includes("ops")); // (the first tells the end)
    lost += isLost;
    return isLost ? "answer" : "";
  };
  way.cut(kept);
  await way.joins(kept);
  await way.comesTo("up to date", "hello");
  const { s } = await kept.ask({ t: "join" });
  for (let n = 1; n < s - 1; n += 1) assert.equal((await kept.ask({ t: "leave", s: n })).n, 5, `session ${n} of ${s} is left`);
  await endsAs(way, "hello");
}

/** In another run the number of a session that was never used is that of another client, which has other versions: that isn't left. */
async function leavesOthersAlone() {
  const way = await begin("hello", false);
  const kept = await keptRun(way.room);
  await typedBy(kept, 5, "!");
  const { s } = await kept.ask({ t: "join", u: 16 });
  way.cut(kept);
  await way.comesTo("up to date", "hello!");
  assert.equal((await kept.ask({ t: "leave", s })).r, "left");
  await end(way);
}

/** The line was lost right behind `joined`, and in another run the number is another client's, or one's own again: that isn't left. */
async function joinsUnderOneNumber(others) {
  const way = new Way(await roomOf("hello", 1));
  await way.loseOnce("answer", "ops");
  const kept = new Room(2);
  for (let n = 0; n < others; n += 1) await kept.ask({ t: "join", u: 16 });
  await kept.refill(await way.room.operations());
  way.isUp = true;
  way.cut(kept);
  await way.comesTo("up to date", "hello");
  const { s } = await kept.ask({ t: "join", u: 16 });
  for (let n = 1; n < s; n += 1) assert.equal((await kept.ask({ t: "leave", s: n })).r, "left", `session ${n} of ${s} is there`);
  await end(way);
}

/** The same, where the number is that of a session that is unused too, in a room whose text is another one and as long: that isn't left. */
async function joinsBesideAnUnusedSession() {
  const way = new Way(await roomOf("hello", 1));
  await way.loseOnce("answer", "ops");
  const kept = await keptRun(await roomOf("world", 1));
  for (let n = 0; n < 2; n += 1) await kept.ask({ t: "join", u: 16 });
  way.isUp = true;
  way.cut(kept);
  await way.comesTo("up to date", "world");
  assert.equal((await kept.ask({ t: "leave", s: 2 })).r, "left"); // (that was its own number, too)
  await end(way);
}

/** In another run a beginning of what was under way is the submission of who has the same number there: all of it comes. */
async function isBegunByAnother() {
  const way = await begin("");
  const isLost = way.loseOnce("request", "ins");
  way.editor.change(0, 0, "hello");
  await isLost;
  const other = new Room(2);
  const { s } = await other.ask({ t: "join", u: 16 });
  await other.ask({ t: "ins", s, n: 1, v: 0, k: 0, x: "h" });
  way.cut(other);
  await endsAs(way, "hello");
}

/** A socket that is open at once, and answers each message by a text. */
class Socket extends EventTarget {
  static answer = "hello";

  constructor() {
    super();
    setTimeout(() => this.dispatchEvent(new Event("open")));
  }

  send() {
    setTimeout(() => this.dispatchEvent(Object.assign(new Event("message"), { data: Socket.answer })));
  }

  close() {}
}

/** Where nobody answers, or no server, or not yet: the session is offline, and goes on. */
async function isOffline() {
  for (const fault of [new Lost(), new Refused(26)]) {
    let isThere = false;
    const room = new Room();
    const session = new Session(async () => {
      if (isThere) return new Line(room, Infinity);
      throw fault;
    });
    await until(() => session.state === "offline");
    isThere = true;
    await until(() => session.state === "up to date");
    await session.close();
    room.close();
  }
  await assert.rejects(Connection.open("ws://nowhere", "notes", Socket), Lost);
  const session = open("ws://nowhere", "notes", { Socket });
  await until(() => session.state === "offline" && session.why.includes("no rgatext server"));
  await session.close();
  assert.throws(() => open("ws://nowhere", "notes", { Socket: null }), /WebSocket/);
  assert.ok(USUAL.joined > 2 * USUAL.answer, "each join that is missed costs a session");
}

await Promise.all([
  isCutWhileChoosing(),
  isKeptWithWhatWasUnderWay("join"),
  isKeptWithWhatWasUnderWay("ops"),
  isRefilledInParts(),
  isKeptWithoutWhatWasTyped(false),
  isKeptWithoutWhatWasTyped(true),
  isTypedByAnotherToo("ins"),
  isTypedByAnotherToo("del"),
  isAnsweredAlike(),
  keepsPlaces(false),
  keepsPlaces(true),
  playsWhatCame(),
  isOutOfStep(({ room }) => room.ask({ t: "leave", s: 1 })),
  isOutOfStep((way) => void way.refuseOnce("pull", 22)),
  isOutOfStep((way) => void way.refuseOnce("ins", 9)),
  isOutOfStep((way) => void way.loseOnce({ r: "ok", from: 0, to: 5 }, "ins", true)),
  isRefusedAtTheRepeat(),
  comesLate("leave"),
  comesLate("pull"),
  typesALetterToo(),
  isAcceptedAndDeleted(),
  losesMuchOfItsOwn(),
  leavesWhatItJoined(),
  leavesOthersAlone(),
  joinsUnderOneNumber(1),
  joinsUnderOneNumber(2),
  joinsBesideAnUnusedSession(),
  isBegunByAnother(),
  losesJoin("join"),
  losesJoin("leave"),
  leavesAtOnce(),
  putsInOnce(),
  isOffline(),
]);
await typesBesideAPaste();
console.log("tests/try_merging: schedules of lines that break, of kept and other runs, of closing and of a paste");
