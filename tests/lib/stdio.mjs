// What tests/try_merging plays of the program of clients/stdio, as an editor starts it, at rooms in memory: it needs no server.
import assert from "node:assert/strict";
import { spawn } from "node:child_process";
import { createHash } from "node:crypto";
import { once } from "node:events";
import { createServer } from "node:http";
import { createInterface } from "node:readline";
import { fileURLToPath } from "node:url";
import { MemoryRoom } from "../../clients/js/memory_room.js";
import { pause } from "../../clients/js/seat.js";
import { dice } from "./room.mjs";

const PROGRAM = fileURLToPath(new URL("../../clients/stdio/rgatext-stdio.mjs", import.meta.url));
const TICKS = new URL("ticks.mjs", import.meta.url).href;
const TICK = 40; // so many milliseconds pass for the program at a time, and here
const LIMIT = 300_000; // milliseconds until something is missed, also on a busy machine
const [TEXT, END] = [1, 8]; // kinds of frames (RFC 6455)

/** A server of WebSockets with one room, which may be another one later, and may be silent. */
class Server {
  room = new MemoryRoom();
  isSilent = false;
  #sockets = new Set();
  #server = createServer();

  async listen() {
    this.#server.on("upgrade", (request, socket) => this.#shake(request, socket));
    await new Promise((resolve) => this.#server.listen(0, "127.0.0.1", resolve));
    return this;
  }

  get address() {
    return `ws://127.0.0.1:${this.#server.address().port}`;
  }

  /** Has another room, and cuts all lines. */
  turn(room) {
    this.room = room;
    for (const it of this.#sockets) it.destroy();
  }

  close() {
    this.turn(this.room);
    this.#server.close();
  }

  #shake({ headers }, socket) {
    const key = createHash("sha1").update(`${headers["sec-websocket-key"]}258EAFA5-E914-47DA-95CA-C5AB0DC85B11`).digest("base64");
    const lines = ["HTTP/1.1 101 Switching Protocols", "Upgrade: websocket", "Connection: Upgrade", `Sec-WebSocket-Accept: ${key}`];
    socket.write(`${lines.join("\r\n")}\r\n\r\n`);
    this.#sockets.add(socket);
    let held = Buffer.alloc(0);
    socket.on("error", () => {});
    socket.on("close", () => this.#sockets.delete(socket));
    socket.on("data", (block) => {
      held = Buffer.concat([held, block]);
      for (let frame = taken(held); frame !== null; frame = taken(held)) {
        held = held.subarray(frame.length);
        if (frame.kind === END) socket.end(Buffer.from([0x88, 0]));
        if (frame.kind === TEXT && !this.isSilent) socket.write(framed(JSON.stringify(this.#answer(JSON.parse(frame.text)))));
      }
    });
  }

  #answer(request) {
    return request.t === "open" ? { r: "opened" } : this.room.answer(request);
  }
}

/** The frame that bytes begin with, or null. */
function taken(bytes) {
  if (bytes.length < 2) return null;
  const short = bytes[1] & 0x7f;
  const start = { 126: 4, 127: 10 }[short] ?? 2;
  if (bytes.length < start + 4) return null;
  const size = short === 126 ? bytes.readUInt16BE(2) : short === 127 ? Number(bytes.readBigUInt64BE(2)) : short;
  const [mask, length] = [bytes.subarray(start, start + 4), start + 4 + size];
  if (bytes.length < length) return null;
  const text = Buffer.from(bytes.subarray(start + 4, length).map((byte, n) => byte ^ mask[n % 4])).toString();
  return { kind: bytes[0] & 0xf, length, text };
}

function framed(text) {
  const bytes = Buffer.from(text);
  const { length } = bytes;
  const head = Buffer.alloc(length < 126 ? 2 : length < 65_536 ? 4 : 10);
  head[0] = 0x81;
  head[1] = { 2: length, 4: 126, 10: 127 }[head.length];
  if (head.length === 4) head.writeUInt16BE(length, 2);
  if (head.length === 10) head.writeBigUInt64BE(BigInt(length), 2);
  return Buffer.concat([head, bytes]);
}

/** An editor that has started the program: its text, and what was told. */
class Editor {
  told = [];
  text = "";
  #looks = () => {};

  constructor({ address }, count = "units") {
    const words = ["--experimental-websocket", "--no-warnings", "--import", TICKS, PROGRAM, address, "notes", count];
    this.child = spawn(process.execPath, words, { stdio: ["pipe", "pipe", "inherit", "ipc"] });
    this.child.on("message", () => setTimeout(() => this.child.connected && this.child.send(TICK, () => {}), TICK));
    this.ended = new Promise((resolve) => this.child.on("close", resolve));
    createInterface({ input: this.child.stdout }).on("line", (line) => {
      this.told.push(JSON.parse(line));
      this.#looks();
    });
  }

  /** The seconds of a processor that the program has taken. */
  async processor() {
    const [{ user, system }] = await once(this.child, "message");
    return (user + system) / 1_000_000;
  }

  say(...requests) {
    this.child.stdin.write(requests.map((it) => `${JSON.stringify(it)}\n`).join(""));
  }

  /** Waits for a line: the first one that is as wanted and wasn't waited for before. */
  async hears(isWanted) {
    for (let since = Date.now(); ; ) {
      const found = this.told.findIndex(isWanted);
      if (found >= 0) return this.told.splice(found, 1)[0];
      if (Date.now() - since > LIMIT) throw new Error(`it isn't told: ${isWanted}: ${JSON.stringify(this.told.slice(-5))}`);
      await Promise.race([new Promise((resolve) => (this.#looks = resolve)), pause(1_000)]);
    }
  }

  /** Waits for a state. */
  comesTo(wanted) {
    return this.hears(({ state }) => state === wanted);
  }

  /** What is told under a key for a request. */
  async asks(request, key) {
    this.say(request);
    return (await this.hears((it) => key in it))[key];
  }

  /** Takes what others did, or what a request changes. */
  async take(request = { take: true }) {
    for (const [at, removed, text] of await this.asks(request, "changes")) {
      this.text = this.text.slice(0, at) + text + this.text.slice(at + removed);
    }
  }

  /** Ends the program, and gives what it says then and its status. */
  async closes() {
    this.say({ close: true });
    return this.isClosed();
  }

  async isClosed() {
    const { closed, heard, ...rest } = await this.hears((it) => it.closed);
    this.heard = heard;
    return { ...rest, status: await this.ended };
  }
}

/** What a program that has sent all says at its end, and its status. */
const ALL = { sent: true, unsent: [], words: "the room has all", status: 0 };

/** What a flush is answered: that the room has what was done before it, or how the session stands instead. */
const flushed = (milliseconds, standing = null, id = undefined) => ({
  flushed: milliseconds,
  sent: standing === null,
  words: standing === null ? "the room has it" : `the room doesn't have all of it: ${standing}`,
  ...(id === undefined ? {} : { id }),
});

/** A room that has a text. */
const roomOf = (text) => new MemoryRoom({ log: [{ c: [[0, 1]], k: "r", s: 0, p: null, x: text }], site: 1 });

/** A word is replaced at 10,000 places, by one change or by many in both orders, and that is undone: each in four seconds of a processor at most. */
async function replacesAtManyPlaces(server) {
  const text = "the cat the\n".repeat(5_000);
  const done = text.replaceAll("the", "some");
  const places = Array.from({ length: 10_000 }, (_, n) => ({ replace: [13 * (n >> 1) + (n % 2) * 9 + (n >> 1), 3, "some"], more: n > 0 }));
  const starts = [...text.matchAll(/the/g)].map(({ index }) => index);
  const back = starts.reverse().map((at, n) => ({ replace: [at, 3, "some"], more: n > 0 }));
  for (const changes of [[{ whole: done }], places, back]) {
    server.turn(roomOf(text));
    const editor = new Editor(server);
    await editor.hears(({ news }) => news);
    await editor.take();
    assert.equal(editor.text, text);
    for (const does of ["replace", "undo"]) {
      const before = await editor.processor();
      if (does === "replace") editor.say(...changes);
      await editor.take(does === "replace" ? undefined : { undo: true });
      const took = (await editor.processor()) - before;
      console.log(`tests/lib/stdio.mjs: ${does} at 10,000 places, told by ${changes.length}: ${took.toFixed(1)} s of a processor`);
      assert.ok(took < 4, `${took} s`);
      if (does === "replace") editor.text = done;
      assert.equal(await editor.asks({ text: true }, "text"), editor.text);
    }
    assert.equal(editor.text, text);
    editor.child.kill("SIGKILL");
  }
}

/** Steps of changes at random places, or told by whole texts, in each count, become what a plain list becomes; half a pair (the last sign) is U+FFFD. */
async function stepsAtRandom(server) {
  const signs = ["a", "\r", "\n", "é", "漢", "😀", "😁", "\ud83d"];
  const counts = { units: (it) => it.length, characters: () => 1, bytes: (it) => (it === signs.at(-1) ? 1 : Buffer.byteLength(it)) };
  for (const [count, size] of Object.entries(counts)) {
    server.turn(new MemoryRoom());
    const [editor, roll, list] = [new Editor(server, count), dice(7), []];
    for (let n = 0; n < 500; n += 1) {
      const at = roll(list.length + 1);
      const removed = roll(2) * roll(Math.min(6, list.length - at + 1));
      const put = Array.from({ length: roll(4) }, () => signs[roll(signs.length)]);
      const places = [list.slice(0, at), list.slice(at, at + removed)].map((it) => it.reduce((sum, sign) => sum + size(sign), 0));
      list.splice(at, removed, ...put);
      const change = roll(8) > 0 ? { replace: [...places, put.join("")] } : { whole: list.join("") };
      editor.say({ ...change, more: roll(6) > 0 });
      if (roll(40) > 0) continue;
      list.splice(0, list.length, ...list.map((it) => it.toWellFormed()));
      assert.equal(await editor.asks({ text: true }, "text"), list.join(""));
    }
    assert.deepEqual(await editor.closes(), ALL);
    assert.equal(server.room.text, list.join("").toWellFormed());
    assert.ok(!editor.told.some((it) => "wrong" in it));
    assert.equal(editor.told.findLast(({ heard }) => heard !== undefined).heard, 500);
  }
}

/** A byte that is no UTF-8 (RFC 3629) counts one place, and becomes U+FFFD at the next `take`; outside of a text it is no JSON. */
async function readsBytesThatAreNoText(server) {
  server.turn(new MemoryRoom());
  const editor = new Editor(server, "bytes");
  const bytes = [0x61, 0xff, 0xc3, 0xc3, 0xa9, 0xed, 0xa0, 0x80, 0xf0, 0x9f, 0x98, 0x80, 0xf0, 0x9f];
  editor.child.stdin.write(Buffer.concat([Buffer.from('{"replace":[0,0,"'), Buffer.from(bytes), Buffer.from('"]}\n')]));
  const wanted = [[1, 2, "\ufffd".repeat(2)], [9, 3, "\ufffd".repeat(3)], [22, 2, "\ufffd".repeat(2)]];
  assert.deepEqual(await editor.asks({ take: true }, "changes"), wanted);
  editor.child.stdin.write(Buffer.from([0x7b, 0xff, 0x7d, 0x0a]));
  assert.deepEqual(await editor.hears((it) => "wrong" in it), { wrong: "line 3: it is no JSON" });
  for (const [at, removed] of [[1, 1], [2, 1], [2, 0], [8, 0], [7, 1]]) {
    editor.say({ replace: [at, removed, "x"] });
    assert.match((await editor.hears((it) => "wrong" in it)).wrong, /inside of a character/, `${at}`);
  }
  await editor.closes();
  assert.equal(server.room.text, "a\ufffd\ufffdé\ufffd\ufffd\ufffd😀\ufffd\ufffd");
}

/** What was written before a signal is done, and is in the room. */
async function endsWithASignal(server) {
  for (const signal of ["SIGTERM", "SIGINT", "SIGHUP"]) {
    server.turn(new MemoryRoom());
    const editor = new Editor(server);
    await editor.comesTo("up to date");
    const lines = Array.from({ length: 600 }, (_, n) => `${JSON.stringify({ replace: [n, 0, "abc"[n % 3]] })}${" ".repeat(8_000)}\n`);
    editor.child.stdin.write(lines.join("")); // more than is read at once, and than goes out before the signal
    editor.child.kill(signal);
    assert.deepEqual(await editor.isClosed(), ALL, signal);
    assert.equal(editor.heard, 600, signal);
    assert.equal(server.room.text, "abc".repeat(200), signal);
  }
}

/** Each `flush` is answered by its number, once the room has what was done before it, whatever is typed since; or else once it is late. */
async function flushesWhatWasBefore(server) {
  server.turn(new MemoryRoom());
  const editor = new Editor(server);
  await editor.comesTo("up to date");
  let typed = 0;
  const types = () => editor.say({ replace: [typed++, 0, "x"] });
  types();
  editor.say({ flush: 10_000 });
  const typing = setInterval(types, 20);
  assert.deepEqual(await editor.hears((it) => "flushed" in it), flushed(10_000));
  clearInterval(typing);
  assert.ok(typed < 100, `it took till ${typed} characters were typed`);
  server.isSilent = true;
  types();
  editor.say({ flush: 100 }, { flush: Number.MAX_SAFE_INTEGER });
  assert.deepEqual(await editor.hears((it) => "flushed" in it), flushed(100, "sending"));
  await editor.comesTo("no answer");
  server.isSilent = false;
  server.turn(server.room);
  assert.deepEqual(await editor.hears((it) => "flushed" in it), flushed(Number.MAX_SAFE_INTEGER));
  editor.say({ flush: 0 });
  assert.match((await editor.hears((it) => "wrong" in it)).wrong, /the value of flush/);
  assert.equal((await editor.closes()).status, 0);
}

/** Where the room takes nothing more `flush` says at once whether it has all: also where it does, or what was typed is refused. */
async function flushesAtAFullRoom(server) {
  const flushed = async (editor, ...requests) => {
    editor.say(...requests, { flush: 60_000 });
    return (await editor.hears((it) => "flushed" in it)).sent;
  };
  server.turn(roomOf("x".repeat(131_068)));
  const [late, editor] = [new Editor(server), new Editor(server)];
  for (const it of [late, editor]) await it.comesTo("up to date");
  server.isSilent = true;
  late.say({ replace: [0, 0, "late"] });
  await late.comesTo("no answer");
  const { s, v } = server.room.answer({ t: "join" });
  server.room.answer({ t: "ins", s, n: 1, v, k: 0, x: "full" });
  server.isSilent = false;
  server.turn(server.room);
  assert.match((await editor.comesTo("refused")).why, /full/);
  assert.equal(await flushed(editor), true, "the room has all");
  assert.equal(await flushed(editor, { replace: [0, 0, "no"] }), true, "what is refused isn't done");
  assert.match((await late.comesTo("refused")).why, /full/);
  assert.equal(await flushed(late), false, "it doesn't have what is late");
  assert.equal((await editor.closes()).sent, true);
  assert.equal((await late.closes()).sent, false);
}

/** An answer has the `id` of its request. */
async function answersById(server) {
  server.turn(new MemoryRoom());
  const editor = new Editor(server);
  await editor.comesTo("up to date");
  server.isSilent = true;
  editor.say({ replace: [0, 0, "a"], id: 0 }, { flush: 100, id: 1 }, { flush: 100, id: [2] }, { text: true, id: "3" }, { take: true });
  assert.deepEqual(await editor.hears((it) => "text" in it), { text: "a", id: "3" });
  assert.deepEqual(await editor.hears((it) => "changes" in it), { changes: [] });
  for (const id of [1, [2]]) assert.deepEqual(await editor.hears((it) => "flushed" in it), flushed(100, "sending", id));
  server.isSilent = false;
  server.turn(server.room);
  editor.say({ undo: true, id: null }, { close: true, id: { n: 4 } });
  assert.deepEqual(await editor.hears((it) => "changes" in it), { changes: [[0, 1, ""]], caret: 0, id: null });
  const { id, heard, sent } = await editor.hears((it) => it.closed);
  assert.deepEqual({ id, heard, sent }, { id: { n: 4 }, heard: 1, sent: true });
}

/** Each state tells how many changes were made or refused before, and what the user is told; so do answers that are shown. */
async function tellsInWords(server) {
  server.turn(roomOf("x".repeat(131_068)));
  const [editor, other] = [new Editor(server), new Editor(server)];
  await editor.hears(({ news }) => news);
  await editor.take();
  const saved = "up to date; the room takes 3 more changes";
  await editor.comesTo("up to date");
  other.say({ replace: [0, 0, "x"] });
  await other.closes();
  const wanted = { state: "up to date", why: "", ahead: false, left: 3, heard: 0, words: saved };
  assert.deepEqual(await editor.comesTo("up to date"), wanted, "what others use up is told");
  editor.say({ replace: [0, 0, "abcd"] });
  assert.equal((await editor.hears((it) => "refused" in it)).refused, "the room takes 3 more changes");
  assert.deepEqual((await editor.hears(({ heard }) => heard === 1)).words, saved);
  server.isSilent = true;
  editor.say({ replace: [0, 0, "a"] }, { replace: [0, 0, "b"], more: true }, { replace: [0, 0, ""] });
  const { ahead, left, words } = await editor.hears(({ heard }) => heard === 4);
  assert.deepEqual({ ahead, left, words }, { ahead: true, left: 1, words: "sending; the room takes 1 more changes" });
  editor.say({ unsent: true }, { other: true });
  assert.deepEqual(await editor.hears((it) => "unsent" in it), { unsent: [{ kind: "put in", text: "ba" }], words: "put in: ba" });
  assert.deepEqual(await editor.hears((it) => "other" in it), { other: null, words: "the room has no other text" });
  server.isSilent = false;
  server.turn(new MemoryRoom({ site: 7 }));
  assert.match((await editor.comesTo("another text")).words, /^another text: ./);
  editor.say({ unsent: true }, { other: true });
  assert.equal((await editor.hears((it) => "unsent" in it)).words, "the room has another text");
  assert.deepEqual(await editor.hears((it) => "other" in it), { other: "", words: "" });
  editor.child.kill("SIGKILL");
}

/** At another text nothing is said to be sent, neither by `flush`, where it is given up, nor at the end. */
async function givesUpAtAnotherText(server) {
  server.turn(new MemoryRoom());
  const editors = [new Editor(server), new Editor(server)];
  editors[0].say({ replace: [0, 0, "here"] }, { flush: 10_000 });
  await editors[0].hears(({ sent }) => sent);
  await editors[1].hears(({ news }) => news);
  await editors[1].take();
  server.turn(new MemoryRoom({ site: 7 }));
  for (const it of editors) assert.equal((await it.comesTo("another text")).ahead, true);
  editors[0].say({ flush: 10_000 }, { choose: "theirs" });
  assert.deepEqual(await editors[0].hears((it) => "flushed" in it), flushed(10_000, "up to date"));
  assert.deepEqual(await editors[0].hears((it) => "chosen" in it), { chosen: "theirs", words: "up to date" });
  assert.deepEqual(await editors[0].closes(), ALL);
  assert.deepEqual(await editors[1].closes(), { sent: false, unsent: [], words: "the room has another text", status: 1 });
}

/** Who types and ends before the line is there has it in the room; what isn't sent is told whole, and who doesn't read that is left. */
async function endsBeforeItIsThere(server) {
  server.turn(new MemoryRoom());
  const early = new Editor(server);
  early.say({ replace: [0, 0, "early"] }, { flush: 10_000 });
  assert.deepEqual(await early.closes(), ALL);
  assert.equal(server.room.text, "early");
  const text = "世".repeat(100_000); // more than a pipe holds
  const nowhere = { address: "ws://127.0.0.1:9" };
  const alone = new Editor(nowhere);
  alone.say({ replace: [0, 0, text] }, { flush: 10_000 });
  assert.deepEqual(await alone.closes(), { sent: false, unsent: [{ kind: "put in", text }], words: `put in: ${text}`, status: 1 });
  assert.deepEqual(await alone.hears((it) => "flushed" in it), flushed(10_000, "closed"));
  const deaf = new Editor(nowhere);
  await deaf.hears(({ state }) => state !== undefined);
  deaf.child.stdout.pause();
  deaf.say({ replace: [0, 0, text] }, { close: true });
  const [status] = await once(deaf.child, "exit", { signal: AbortSignal.timeout(LIMIT) });
  assert.equal(status, 1, "it ends, though nobody reads");
  deaf.child.stdout.destroy();
}

const server = await new Server().listen();
const attempts = [tellsInWords, flushesWhatWasBefore, givesUpAtAnotherText, endsBeforeItIsThere, endsWithASignal, readsBytesThatAreNoText];
attempts.push(stepsAtRandom, replacesAtManyPlaces);
attempts.push(flushesAtAFullRoom, answersById);
for (const attempt of attempts) await attempt(server);
server.close();
console.log("tests/lib/stdio.mjs: many places, signals, flushes, ends, bytes, and another text");
