// Tries what the module promises its callers, with rooms in memory: it needs Node 20, and no server.
import assert from "node:assert/strict";
import { execFile } from "node:child_process";
import { access, readFile } from "node:fs/promises";
import { promisify } from "node:util";
import { MemoryRoom } from "./memory_room.js";
import { Ended, Full, GivenUp, Lost, open, played, Refused, Session } from "./rgatext.js";
import { bindTextarea } from "./textarea.js";
import { Clock } from "../../tests/lib/clock.mjs";
import { dice } from "../../tests/lib/room.mjs";

const pause = (milliseconds) => new Promise((resolve) => setTimeout(resolve, milliseconds));

/** Waits until something is so, ten seconds at most. */
async function until(is, what = `${is}`) {
  for (let n = 0; !is(); n += 1) {
    if (n > 1_000) throw new Error(`it doesn't come to that: ${what}`);
    await pause(10);
  }
}

/**
 * What requests meet: in turn one of so many is lost, or its answer. Those for which a session would be left are spared. To find out what
 * became of another run takes a line some twenty requests.
 */
function fault(every) {
  let count = 0;
  const faults = { [every]: "request", [2 * every]: "answer" };
  return ({ t }) => (t === "join" || t === "leave" ? "" : faults[(count += 1) % (2 * every + 1)] ?? "");
}

/** What a call takes, in milliseconds. */
async function timed(call) {
  const began = Date.now();
  await call();
  return Date.now() - began;
}

async function isReady() {
  const room = new MemoryRoom();
  const first = new Session(() => room.connect());
  first.insert(0, "hello");
  await first.sent();
  const second = new Session(() => room.connect({ delay: 30 }));
  assert.equal(second.text, "");
  await second.ready;
  assert.equal(second.text, "hello");
  const nowhere = new Session(async () => {
    throw new Refused(4);
  });
  await assert.rejects(nowhere.ready, ({ number }) => number === 4);
  assert.deepEqual([nowhere.state, nowhere.number], ["refused", 4]);
  const early = new Session(() => new Promise(() => {}));
  early.close();
  assert.throws(() => early.insert(0, "x"), Ended);
  await Promise.all([first.close(), second.close()]);
  assert.equal(room.sessions, 0);
}

/** What is sent is in the room when that is told, also over lines that go wrong, and while more is typed. */
async function isSent() {
  const room = new MemoryRoom();
  const session = new Session(() => room.connect({ delay: 2, meets: fault(11) }));
  for (const word of ["one ", "two ", "three "]) {
    session.insert(session.text.length, word);
    const isWordSent = session.sent();
    session.insert(session.text.length, "more ");
    await isWordSent;
    assert.ok(room.text.includes(word), word);
  }
  await session.sent();
  assert.equal(room.text, "one more two more three more ");
  await session.sent();
  assert.equal(await session.close({ flush: 5_000 }), true);
  await assert.doesNotReject(session.sent(), "nothing is pending");
  const full = new MemoryRoom({ operations: 4 });
  const late = new Session(() => full.connect());
  late.insert(0, "hello");
  await assert.rejects(late.sent(), ({ number }) => number === 12);
  assert.deepEqual([late.state, late.number, late.unsent], ["refused", 12, [{ kind: "put in", text: "hello" }]]);
  assert.throws(() => late.insert(0, "x"), Ended);
  await late.close();
}

/** A script that opens, puts in and ends has put it in; where nobody answers that is told when the time is over. */
async function isFlushed() {
  const room = new MemoryRoom();
  const plain = new Session(() => room.connect({ delay: 50 }));
  plain.insert(0, "lost");
  assert.equal(await plain.close(), false);
  assert.equal(room.text, "");
  const session = new Session(() => room.connect({ delay: 50 }));
  session.insert(0, "x".repeat(200));
  assert.equal(await session.close({ flush: 5_000 }), true);
  assert.deepEqual([room.text, room.sessions], ["x".repeat(200), 0]);
  let isThere = false;
  const connect = async () => {
    if (!isThere) throw new Lost();
    return room.connect();
  };
  const late = new Session(connect);
  late.insert(0, "late ");
  const closed = late.close({ flush: 5_000 });
  assert.throws(() => late.insert(0, "x"), Ended);
  setTimeout(() => (isThere = true), 300);
  assert.equal(await closed, true);
  assert.equal(room.text, `late ${"x".repeat(200)}`);
  isThere = false;
  const never = new Session(connect);
  never.insert(0, "never");
  const took = await timed(async () => assert.equal(await never.close({ flush: 300 }), false));
  assert.ok(took > 250 && took < 1_000, `${took} ms`);
  assert.deepEqual([never.state, never.unsent], ["closed", [{ kind: "put in", text: "never" }]]);
  const left = new Session(() => room.connect());
  await left.ready;
  left.pause();
  left.insert(0, "paused ");
  assert.equal(await left.close({ flush: 5_000 }), true);
  assert.ok(room.text.startsWith("paused "));
  assert.equal(room.sessions, 0);
}

/** Where the server is silent a session ends when its time is over: joined or not, with something to send or without. */
async function endsInTime() {
  const room = new MemoryRoom();
  let isSilent = false;
  const connect = async () => {
    const line = await room.connect();
    const { ask } = line;
    return Object.assign(line, { ask: (request) => (isSilent ? new Promise(() => {}) : ask(request)) });
  };
  const sessions = [1, 2, 3].map(() => new Session(connect, { closing: 300 }));
  await Promise.all(sessions.map((it) => it.ready));
  isSilent = true;
  const late = new Session(connect);
  for (const it of [sessions[0], sessions[2], late]) it.insert(0, "unsent");
  const limits = [300, undefined, undefined, 300];
  const ends = [...sessions, late].map((it, n) => timed(async () => assert.equal(await it.close({ flush: limits[n] }), n === 1)));
  for (const took of await Promise.all(ends)) assert.ok(took < 1_000, `${took} ms`);
  assert.deepEqual([...sessions, late].map((it) => it.state), Array(4).fill("closed"));
}

/** What is typed right when the session is ready is sent; and where it is under way, before others' many edits, it counts as sent then. */
async function sendsBeforeItEnds() {
  for (const text of ["hello", "m".repeat(1_000)]) {
    const room = new MemoryRoom();
    const session = new Session(() => room.connect({ delay: 5 }));
    await session.ready;
    assert.equal(session.state, "up to date");
    session.insert(0, text);
    assert.equal(await session.close(), true);
    assert.deepEqual([room.text, room.sessions, session.unsent], [text, 0, []]);
  }
  const room = new MemoryRoom();
  const [other, session] = [0, 60].map((delay) => new Session(() => room.connect({ delay })));
  await Promise.all([other.ready, session.ready]);
  await until(() => session.state === "up to date");
  session.insert(0, "mine");
  other.insert(0, "y".repeat(500));
  await until(() => room.text.includes("mine") && room.text.length === 504);
  assert.equal(session.isAhead, true, "it doesn't know yet");
  assert.equal(await session.close(), true);
  assert.deepEqual(session.unsent, []);
  await other.close();
}

/** Once `close` has settled nothing comes any more but the end, also where a line is still being opened. */
async function endsForGood() {
  const room = new MemoryRoom();
  const writer = new Session(() => room.connect());
  writer.insert(0, "hello");
  await writer.close({ flush: 5_000 });
  let line;
  const late = new Session(async () => {
    await pause(300);
    return (line = await room.connect());
  }, { closing: 100 });
  const told = [];
  for (const name of ["state", "changes"]) late.addEventListener(name, () => told.push(name === "state" ? late.state : name));
  assert.equal(await late.close(), true);
  await late.ended;
  await until(() => line !== undefined);
  await pause(100);
  assert.deepEqual([told, late.text, room.sessions, line.isOpen], [["closed"], "", 0, false]);
  const sockets = [];
  class Socket extends EventTarget {
    isClosed = false;
    constructor() {
      super();
      sockets.push(this);
    }
    close() {
      this.isClosed = true;
    }
  }
  const never = open("ws://nowhere", "notes", { Socket, closing: 100 });
  assert.equal(await never.close(), true);
  await never.ended;
  assert.deepEqual(sockets.map((it) => it.isClosed), [true], "a line that is being opened is closed");
  let isBusy = false;
  const meets = () => (isBusy ? { r: "no", n: 26 } : "");
  const busy = new Session(() => room.connect({ meets }), { closing: 100, retry: 200 });
  await busy.ready;
  isBusy = true;
  busy.insert(0, "x");
  await pause(50);
  assert.equal(await busy.close(), false);
  busy.addEventListener("state", () => told.push(busy.state));
  await pause(400);
  assert.deepEqual([told, busy.state], [["closed"], "closed"]);
}

/** A program ends once its session is closed, also where that comes to a fault of another kind: no time that it was given holds it. */
async function ends() {
  const times = "{ silence: 3_600_000, idle: 3_600_000, closing: 3_600_000 }";
  const run = async (program) => {
    const words = ["--input-type=module", "--eval", program];
    return (await promisify(execFile)(process.execPath, words, { timeout: 60_000 })).stdout;
  };
  const flushed = await run(`
    import { MemoryRoom } from ${JSON.stringify(new URL("memory_room.js", import.meta.url))};
    import { Session } from ${JSON.stringify(new URL("rgatext.js", import.meta.url))};
    const room = new MemoryRoom();
    const session = new Session(() => room.connect(), ${times});
    session.insert(0, "hello");
    console.log(await session.close({ flush: 3_600_000 }), room.text);`);
  assert.equal(flushed, "true hello\n");
  const failed = await run(`
    import { Session } from ${JSON.stringify(new URL("rgatext.js", import.meta.url))};
    const session = new Session(async () => none(), ${times});
    session.insert(0, "hello");
    await session.close({ flush: 3_600_000 }).catch((fault) => console.log(fault.name));`);
  assert.equal(failed, "ReferenceError\n");
}

/** The example of a room in memory does what it says. */
async function isAsThePageTells() {
  const page = await readFile(new URL("README.md", import.meta.url), "utf8");
  const [, example] = page.split("## A room in memory")[1].match(/```js\n([^`]*)```/);
  const program = example.replaceAll('"./', `"${new URL("./", import.meta.url)}`);
  const { stdout } = await promisify(execFile)(process.execPath, ["--input-type=module", "--eval", program]);
  assert.equal(stdout, "Hello true\n");
}

/** What README.md names. */
const NAMES = {
  "rgatext.js": "open Session Full Ended GivenUp Refused Lost played carried",
  "textarea.js": "bindTextarea",
  "codemirror.js": "bindCodeMirror",
  "page.js": "bindStatus bindPage",
  "undo.js": "Undo",
  "connection.js": "Connection",
  "history.js": "History follow historyOfFile",
  "memory_room.js": "MemoryRoom",
};

/** What the package exports is there by its name, with its declarations; importing it needs no page, and opens nothing. */
async function isAPackage() {
  const { exports } = JSON.parse(await readFile(new URL("package.json", import.meta.url), "utf8"));
  for (const [name, { types }] of Object.entries(exports)) {
    await import(name.replace(".", "rgatext"));
    await access(new URL(types, import.meta.url));
  }
  const page = await readFile(new URL("README.md", import.meta.url), "utf8");
  for (const [file, names] of Object.entries(NAMES)) {
    const module = await import(file === "rgatext.js" ? "rgatext" : `rgatext/${file}`);
    for (const it of names.split(" ")) assert.ok(module[it] !== undefined && page.includes(it), `${it} of ${file}`);
  }
  for (const [, file] of page.matchAll(/`(\w+\.js)`/g)) assert.ok(Object.hasOwn(NAMES, file), `${file} is named, and not exported`);
}

/** Changes that others made are told, in turn, and own ones aren't. */
async function tellsChanges() {
  const room = new MemoryRoom();
  const [one, other] = [1, 2].map(() => new Session(() => room.connect()));
  await Promise.all([one.ready, other.ready]);
  const told = [];
  one.addEventListener("changes", ({ detail }) => told.push(...detail));
  assert.deepEqual(one.replace(0, 0, "b\ud83d"), { at: 0, removed: 0, text: "b\ufffd" });
  await one.sent();
  await until(() => other.text === "b\ufffd");
  other.insert(0, "a");
  other.remove(1, 1);
  await until(() => one.text === "a\ufffd");
  assert.equal(played("b\ufffd", told), "a\ufffd");
  other.insert(2, "😀");
  for (const [at, removed] of [[3, 0], [2, 1], [9, 0], [-1, 0], [NaN, 0], [0, 0.5]]) {
    assert.throws(() => other.replace(at, removed, ""), RangeError);
  }
  await Promise.all([one.close(), other.close()]);
}

/** An address that can't be opened is refused at once, and no socket is made for it. */
async function takesAddresses() {
  const made = [];
  class Socket extends EventTarget {
    constructor(address) {
      super();
      made.push(address);
    }
    close() {}
  }
  const wrong = ["", "nowhere", "ws://", "http://h:7", "ws:h:7", "ws://127.0.0.1:99999", "ws://a b", "ws://h:7#", "ws://h:7#x", "ws://h:7/?x"];
  for (const it of [...wrong, "ws://me@h:7", "ws://:word@h:7"]) assert.throws(() => open(it, "notes", { Socket }), TypeError, it);
  const right = ["ws://127.0.0.1:7878", "ws://[::1]:7878/", "wss://text.example/room"];
  const sessions = right.map((it) => open(it, "notes", { Socket, closing: 1 }));
  assert.deepEqual(made, right);
  await Promise.all(sessions.map((it) => it.close()));
}

async function takesOptions() {
  const room = new MemoryRoom({ operations: 6 });
  assert.throws(() => new Session(() => room.connect(), { speed: 1 }), /no option speed/);
  assert.throws(() => open("ws://nowhere", "notes", { answer: "1", Socket: EventTarget }), /answer/);
  const wrong = new Session(() => room.connect());
  for (const flush of [-1, NaN, "1", 0]) await assert.rejects(wrong.close({ flush }), TypeError);
  assert.equal(wrong.replace(0, 0, "").at, 0, "nothing was done");
  await wrong.close();
  const patient = new Session(() => room.connect({ delay: 50 }), { silence: 2 ** 31, answer: Infinity, typing: 1 });
  const states = [];
  patient.addEventListener("state", () => states.push(patient.state));
  await until(() => patient.state === "up to date");
  assert.ok(!states.includes("no answer"), "a time that no timer takes is the longest that one does");
  await patient.close();
  const session = new Session(() => room.connect({ delay: 150 }), { operations: 6, silence: 100, idle: 5_000 });
  await until(() => session.state === "no answer");
  await session.ready;
  assert.throws(() => session.insert(0, "1234567"), ({ left }) => left === 6);
  session.insert(0, "123456");
  assert.deepEqual([session.left, session.cost(0, 1, "")], [0, -1]);
  assert.throws(() => session.insert(0, "7"), Full);
  await session.close({ flush: 5_000 });
  assert.equal(room.text, "123456");
}

/** The next run of a server has another text: the user is asked, and may type on meanwhile. */
async function hasAnother() {
  let room = new MemoryRoom();
  const [one, other] = [1, 2].map(() => new Session(() => room.connect()));
  one.insert(0, "hello");
  await one.sent();
  await until(() => other.text === "hello");
  assert.equal(one.other, null);
  room.cut();
  room = new MemoryRoom({ site: 7 });
  await until(() => one.state === "another text" && other.state === "another text");
  one.insert(5, "!");
  assert.deepEqual([one.other.text, one.other.difference], ["", [{ at: 0, removed: 0, text: "hello!" }]]);
  let isKnown = false;
  const sent = one.sent().then(() => (isKnown = true));
  await pause(100);
  assert.equal(isKnown, false, "nothing of it is in the room");
  one.putMine();
  await sent;
  assert.equal(room.text, "hello!");
  other.insert(5, "?");
  const given = [other.sent(), other.sent()];
  other.takeTheirs();
  for (const it of given) await assert.rejects(it, GivenUp);
  await other.sent();
  await until(() => other.text === "hello!" && other.state === "up to date");
  await Promise.all([one.close(), other.close()]);
}

/** What a room of memory loses with its lines, and with its end, sessions put in again. */
async function losesNothing() {
  let room = new MemoryRoom();
  const meets = fault(41);
  const sessions = [1, 2].map(() => new Session(() => room.connect({ delay: 1, meets })));
  for (let n = 0; n < 30; n += 1) {
    for (const [who, it] of sessions.entries()) it.insert(it.text.length, "ab"[who]);
    if (n === 15) await Promise.all(sessions.map((it) => it.sent()));
    if (n === 20) room = room.restart(room.version - 5);
    await pause(20);
  }
  await Promise.all(sessions.map((it) => it.sent()));
  await until(() => sessions[0].text === sessions[1].text && sessions[0].text === room.text);
  for (const letter of "ab") assert.equal(room.text.split(letter).length - 1, 30, `${letter} in ${room.text}`);
  await Promise.all(sessions.map((it) => it.close()));
}

/** Lists of changes, of characters of all kinds, at random: each makes the text that its changes lead to, and costs what it then has. */
async function replacesAtRandom() {
  const signs = ["a", "b", "\r", "\n", "\0", "é", "😀", "😁", "\ud83d"];
  for (let seed = 1; seed <= 6; seed += 1) {
    const roll = dice(seed);
    const operations = seed % 3 === 0 ? 120 : 131_072;
    const room = new MemoryRoom({ operations });
    const meets = ({ t }) => (t === "join" || t === "leave" || roll(25) > 0 ? "" : ["request", "answer"][roll(2)]);
    const times = { typing: 2, idle: 3, retry: 1, longest: 4, operations };
    const sessions = [1, 2, 3].map(() => new Session(() => room.connect({ meets }), times));
    const shown = new Map(sessions.map((it) => [it, ""]));
    for (const it of sessions) it.addEventListener("changes", ({ detail }) => shown.set(it, played(shown.get(it), detail)));
    for (let n = 0; n < 100; n += 1) {
      const session = sessions[roll(3)];
      const { text, left, document: { pending } } = session;
      assert.equal(text, shown.get(session));
      if (session.state === "refused") break;
      const borders = [0];
      for (const sign of text) borders.push(borders.at(-1) + sign.length);
      const changes = [];
      for (let m = roll(5), last = borders.length - 1; m > 0; m -= 1) {
        const end = roll(last + 1);
        const start = roll(2) === 0 ? end : roll(end + 1);
        const put = Array.from({ length: roll(4) }, () => signs[roll(signs.length)]).join("");
        changes.push({ at: borders[start], removed: borders[end] - borders[start], text: put });
        last = start;
      }
      const wanted = changes.map((it) => ({ ...it, text: it.text.toWellFormed() }));
      const cost = session.document.cost(changes);
      if (cost > left) {
        assert.throws(() => session.replaceAll(changes), Full);
        assert.equal(session.text, text);
      } else {
        assert.deepEqual(session.replaceAll(changes), wanted);
        shown.set(session, played(text, wanted));
        assert.equal(session.text, shown.get(session));
        assert.equal(session.document.pending - pending, cost);
      }
      if (roll(4) === 0) await pause(roll(4));
    }
    await Promise.all(sessions.map((it) => it.sent().catch(({ number }) => assert.equal(number, 12))));
    const isThere = (it) => it.state === "refused" || (it.text === room.text && shown.get(it) === room.text);
    await until(() => sessions.every(isThere));
    await Promise.all(sessions.map((it) => it.close()));
  }
}

/** What five seconds of keys cost in calls: two for each stretch that is put in or taken out in a round, of which five begin in a second. */
async function countsCalls() {
  const calls = async (keys, does) => {
    const room = new MemoryRoom({ log: [{ c: [[0, 1]], k: "r", s: 0, p: null, x: "some words in a line\n".repeat(20) }], site: 1 });
    const asked = [];
    const session = new Session(() => room.connect({ meets: ({ t }) => (asked.push(t), "") }), { idle: 3_600_000 });
    await until(() => asked.includes("pull")); // the first brings nothing
    for (let n = 0; n < keys; n += 1) {
      does(session, n);
      await pause(50);
    }
    await session.sent();
    await session.close();
    return asked.filter((it) => ["ins", "del", "pull"].includes(it)).length - 1;
  };
  const places = Array.from({ length: 20 }, (_, n) => ({ at: 21 * (19 - n), removed: 4, text: "more" }));
  for (const [keys, does, wanted] of [
    [100, (session, n) => session.insert(n, "x"), 50],
    [100, (session) => session.remove(5, 1), 50],
    [100, (session, n) => session.replace(n, 1, "x"), 100],
    [100, (session, n) => session.remove(400 - n, 1), 50],
    [1, (session) => session.replaceAll(places), 80],
  ]) {
    const count = await calls(keys, does);
    assert.ok(count >= wanted && count <= wanted + 4, `${count} calls of ${keys} keys: ${does}`); // (a round more at an end)
  }
}

/** What a text area has of a page, as far as a binding asks for it. */
class Area extends EventTarget {
  #value = "";
  constructor() {
    super();
    Object.assign(this, { selectionStart: 0, selectionEnd: 0, selectionDirection: "none", scrollTop: 0, readOnly: false });
  }
  get value() {
    return this.#value;
  }
  set value(value) {
    this.#value = value;
    this.selectionStart = this.selectionEnd = value.length;
  }
  setSelectionRange(start, end, direction) {
    Object.assign(this, { selectionStart: start, selectionEnd: end, selectionDirection: direction });
  }
  after() {}
  /** The user puts a text in in the place of another, as an event tells. */
  types(at, removed, text) {
    this.value = this.value.slice(0, at) + text + this.value.slice(at + removed);
    this.selectionStart = this.selectionEnd = at + text.length;
    this.dispatchEvent(new Event("input"));
  }
}

/** What is composed over a text removes that alone, whatever others put in and delete there meanwhile. */
async function composesAlone() {
  const element = { style: {}, remove: () => {}, offsetHeight: 0 };
  Object.assign(globalThis, { document: { createElement: () => element }, getComputedStyle: () => ({}) });
  for (const [start, theirs, composed, wanted] of [
    ["abcde", [[1, 0, "QQ"], [3, 1, ""]], [1, 2, "X"], "aXQQde"],
    ["abcde", [[2, 0, "Q"], [1, 1, ""]], [1, 2, ""], "aQde"],
    ["abcde", [[1, 2, "QQ"]], [1, 2, "X"], "aXQQde"],
    ["a😀b", [[1, 2, "Q"]], [0, 4, "X"], "XQ"],
  ]) {
    const room = new MemoryRoom();
    const [one, other] = [1, 2].map(() => new Session(() => room.connect(), { idle: 5, typing: 5 }));
    one.insert(0, start);
    await one.sent();
    await until(() => other.text === start);
    const area = new Area();
    const binding = bindTextarea(one, area);
    area.dispatchEvent(new Event("compositionstart"));
    area.types(...composed);
    for (const [at, removed, text] of theirs) {
      other.replace(at, removed, text);
      await other.sent();
    }
    await until(() => one.text === other.text);
    area.dispatchEvent(new Event("compositionend"));
    await one.sent();
    assert.deepEqual([room.text, area.value], [wanted, wanted]);
    binding.release();
    await Promise.all([one.close(), other.close()]);
  }
}

await Promise.all([ends, isAsThePageTells, isAPackage].map((it) => it()));
const trials = [isReady, isSent, isFlushed, endsInTime, sendsBeforeItEnds, endsForGood, tellsChanges, takesAddresses, takesOptions, hasAnother, countsCalls];
const clock = new Clock(1); // so that a busy machine misses no time
await clock.run(Promise.all([...trials, losesNothing, composesAlone, replacesAtRandom].map((it) => it())));
console.log("the module: what is ready, sent, closed, told and asked is as the page says");
