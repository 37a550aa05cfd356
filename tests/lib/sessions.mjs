// What tests/try_merging plays with sessions. The one argument is the program.
import assert from "node:assert/strict";
import { carried } from "../../clients/js/changes.js";
import { MOST } from "../../clients/js/document.js";
import { Ended } from "../../clients/js/rgatext.js";
import { pause } from "../../clients/js/seat.js";
import { dice, editorOf, Line, Room, until } from "./room.mjs";

/** Two sessions over lines that break again and again go on with their numbers, and lose and double nothing. */
async function goOnOverBrokenLines() {
  const roll = dice(7);
  const room = new Room();
  let lines = 0;
  const connect = async () => new Line(room, ((lines += 1) % 2 === 0 ? 3 : 5) + roll(8));
  const editors = [editorOf(connect), editorOf(connect)];
  await until(() => editors.every(({ session }) => session.state === "up to date"));
  const letters = ["a", "b"];
  for (let n = 0; n < 40; n += 1) {
    for (const [who, editor] of editors.entries()) editor.change(roll(editor.shown.length + 1), 0, letters[who]);
    await pause(roll(60));
  }
  await until(() => editors.every(({ session, shown }) => !session.isAhead && shown === editors[0].shown && shown.length === 80));
  assert.equal(editors[0].shown.replaceAll("b", "").length, 40);
  assert.equal((await room.ask({ t: "join" })).s, 3, "a line that breaks costs a session");
  assert.ok(lines > 8, `${lines} lines alone`);
  for (const { session } of editors) await session.close();
  room.close();
  return lines;
}

/** Another run of the server, with no text: what was shown stays, until the user chooses. */
async function goOnInAnotherRun() {
  let room = new Room();
  const connect = async () => new Line(room, Infinity);
  const editors = [editorOf(connect), editorOf(connect)];
  await until(() => editors.every(({ session }) => session.state === "up to date"));
  editors[0].change(0, 0, "hello");
  await until(() => editors.every(({ shown, session }) => shown === "hello" && !session.isAhead));
  room.close();
  room = new Room(1);
  await until(() => editors.every(({ session }) => session.state === "another text"));
  assert.deepEqual(editors.map(({ shown }) => shown), ["hello", "hello"]);
  editors[0].change(5, 0, "!");
  editors[0].session.putMine();
  await until(() => !editors[0].session.isAhead && editors[0].session.state === "up to date");
  editors[1].session.takeTheirs();
  await until(() => editors[1].shown === "hello!" && editors[0].shown === "hello!");
  const late = editorOf(connect);
  let whole = "";
  late.session.addEventListener("changes", () => (whole = late.session.text));
  await until(() => late.shown === "hello!");
  assert.equal(whole, "hello!", "what is told of is there already");
  editors.push(late);
  for (const { session } of editors) await session.close();
  room.close();
}

/** What found no memory is asked again; at 12 the session ends, is left, and keeps what it didn't send. */
async function isRefused() {
  const room = new Room();
  const patient = editorOf(async () => new Line(room, Infinity, 26));
  patient.change(0, 0, "once");
  await until(() => patient.session.state === "up to date");
  assert.equal((await room.ask({ t: "read" })).x, "once");
  const line = new Line(room, Infinity, 12);
  const late = editorOf(async () => line);
  await until(() => late.shown === "once");
  const tooMany = " too many".repeat(8);
  late.change(4, 0, tooMany);
  late.change(0, 2, "");
  await until(() => late.session.state === "refused");
  const unsent = [{ kind: "deleted", text: "on" }, { kind: "put in", text: tooMany }];
  assert.deepEqual([late.session.state, late.session.unsent, line.asked.at(-1)], ["refused", unsent, "leave"]);
  for (const { session } of [late, patient]) await session.close();
  for (const { session } of [late, patient]) assert.throws(() => session.insert(0, "x"), Ended);
  room.close();
}

/** A run that is refilled by a bridge after the editors have joined it: they go on. */
async function goOnInARefilledRun() {
  let room = new Room(1);
  const connect = async () => new Line(room, Infinity);
  const editors = [editorOf(connect), editorOf(connect)];
  const allShow = (text) => until(() => editors.every(({ session, shown }) => shown === text && !session.isAhead));
  editors[0].change(0, 0, "hello");
  await allShow("hello");
  const told = await room.operations();
  room.close();
  room = new Room(2);
  await until(() => editors.every(({ session }) => session.state === "another text"));
  await room.refill(told);
  await until(() => editors.every(({ session }) => session.state === "up to date"));
  editors[0].change(5, 0, "!");
  await allShow("hello!");
  for (const { session } of editors) await session.close();
  room.close();
}

/** A line on which the answer to the first submission is the last that comes, and whether it has come. */
function endedByAnAnswer(room) {
  const line = new Line(room, Infinity);
  const ask = line.ask.bind(line);
  let [isAccepted, submitted] = [false, Promise.resolve()];
  line.ask = (request) => {
    const answer = submitted.then(() => {
      if (isAccepted) line.close();
      return ask(request);
    });
    if (request.t === "ins") submitted = answer.then(({ r }) => (isAccepted = r === "ok"));
    return answer;
  };
  return { line, isAccepted: () => isAccepted };
}

/** The answer to a submission is seen, its edits aren't, and the next run has them: nothing is lost and nothing comes twice. */
async function goOnWhereTheLastWasAccepted() {
  let room = new Room(2);
  await room.ask({ t: "join" });
  await room.ask({ t: "ins", s: 1, n: 1, v: 0, k: 0, x: "hello!" });
  const { line, isAccepted } = endedByAnAnswer(room);
  const editor = editorOf(async () => (line.room === room ? line : new Line(room, Infinity)));
  await until(() => editor.shown === "hello!");
  editor.change(6, 0, "?");
  await until(isAccepted);
  const told = await room.operations();
  room.close();
  room = new Room(3);
  await room.refill(told);
  await until(() => editor.session.state === "up to date");
  assert.deepEqual([editor.shown, (await room.ask({ t: "read" })).x], ["hello!?", "hello!?"]);
  await editor.session.close();
  room.close();
}

/** What is under way comes elsewhere than it is shown, before another's change: all are told in turn, and the caret behind it goes too. */
async function movesWhatWasTyped(next, shown) {
  const room = new Room();
  await room.ask({ t: "join" });
  await room.ask({ t: "ins", s: 1, n: 1, v: 0, k: 0, x: "ab" });
  const line = new Line(room, Infinity);
  const editor = editorOf(async () => line);
  await until(() => editor.session.state === "up to date");
  const ask = line.ask.bind(line);
  line.ask = (request) => {
    const answer = ask(request);
    if (request.t === "ins") room.ask({ ...next, s: 1, n: 4, v: 4 }); // before the pull
    return answer;
  };
  const told = [];
  editor.session.addEventListener("changes", ({ detail }) => told.push(...detail));
  room.ask({ t: "pull", s: 1, have: 0, max: MOST });
  room.ask({ t: "del", s: 1, n: 2, v: 2, k: 1, c: 1 });
  room.ask({ t: "pull", s: 1, have: 2, max: MOST });
  room.ask({ t: "ins", s: 1, n: 3, v: 3, k: 1, x: "o" });
  room.ask({ t: "pull", s: 1, have: 3, max: MOST });
  editor.change(2, 0, "X"); // behind the neighbour that is deleted by now
  await until(() => editor.session.text === shown && !editor.session.isAhead);
  assert.deepEqual([editor.shown, (await room.ask({ t: "read" })).x], [shown, shown]);
  assert.deepEqual(told[2], { at: 1, removed: 1, text: "X", to: 2 });
  assert.equal(told.length, 4);
  assert.equal(carried(3, told), shown.length);
  await editor.session.close();
  room.close();
}

/** Two editors that never typed, in a new run that the second one joins first: no two have one session. */
async function haveSessionsOfTheirOwn() {
  let room = new Room();
  let isLate = false;
  const connect = async () => new Line(room, Infinity);
  const waits = async () => {
    await until(() => !isLate);
    return connect();
  };
  const editors = [editorOf(waits), editorOf(connect)];
  await until(() => editors.every(({ session }) => session.state === "up to date"));
  isLate = true;
  room.close();
  room = new Room();
  await until(() => editors[1].session.state === "up to date" && editors[0].session.state === "offline");
  isLate = false;
  await until(() => editors.every(({ session }) => session.state === "up to date"));
  editors[0].change(0, 0, "one");
  await until(() => editors.every(({ shown }) => shown === "one"));
  editors[1].change(3, 0, "two");
  await until(() => editors.every(({ session, shown }) => shown === "onetwo" && !session.isAhead));
  assert.equal((await room.ask({ t: "read" })).x, "onetwo");
  for (const { session } of editors) await session.close();
  room.close();
}

/** Who only watches makes at most one call a second, and who types, or goes back letter by letter, at most ten. */
async function makesFewCalls(text, key) {
  const room = new Room();
  const lines = [new Line(room, Infinity), new Line(room, Infinity)];
  const [typist, watcher] = lines.map((line) => editorOf(async () => line));
  await until(() => [typist, watcher].every(({ session }) => session.state === "up to date"));
  if (text !== "") typist.change(0, 0, text);
  await until(() => watcher.shown === text && !typist.session.isAhead);
  for (const line of lines) line.calls = 0;
  const began = Date.now();
  while (Date.now() - began < 3_000) {
    key(typist);
    await pause(40);
  }
  const seconds = (Date.now() - began) / 1_000;
  const [typed, watched] = lines.map(({ calls }) => calls);
  await until(() => watcher.shown === typist.shown && !typist.session.isAhead);
  const isFew = typed <= 10 * seconds + 2 && watched <= seconds + 1 + Math.ceil(typed / 2 / MOST);
  assert.ok(isFew, `${typed} and ${watched} calls in ${seconds} s`);
  for (const { session } of [typist, watcher]) await session.close();
  room.close();
}

const lines = await goOnOverBrokenLines();
await goOnInAnotherRun();
await goOnInARefilledRun();
await goOnWhereTheLastWasAccepted();
await movesWhatWasTyped({ t: "ins", k: 2, x: ">" }, "ao>X");
await movesWhatWasTyped({ t: "del", k: 1, c: 1 }, "aX");
await haveSessionsOfTheirOwn();
await isRefused();
const typesOn = (typist) => typist.change(typist.shown.length, 0, "x");
const goesBack = (typist) => typist.change(typist.shown.length - 1, 1, "");
await Promise.all([makesFewCalls("", typesOn), makesFewCalls("x".repeat(100), goesBack)]);
console.log(`tests/try_merging: ${lines} lines broken, other runs, a move, refusals, few calls`);
