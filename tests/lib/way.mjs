// Editors and their ways to a room, which break at given requests, for tests/lib/schedules.mjs.
import assert from "node:assert/strict";
import { MOST } from "../../clients/js/document.js";
import { Lost } from "../../clients/js/rgatext.js";
import { pause } from "../../clients/js/seat.js";
import { beginning, characters } from "../../clients/js/text.js";
import { editorOf, Line, Room, until } from "./room.mjs";

/**
 * One editor's way to a room. `loses` says of a request whether it is lost or its answer, and the line with it; or it gives another
 * answer, at once or later.
 */
export class Way {
  constructor(room, delay = 0) {
    this.room = room;
    this.delay = delay;
    this.isUp = true;
    this.lines = [];
    this.loses = () => "";
    this.editor = editorOf(() => this.connect());
    this.states = [];
    this.editor.session.addEventListener("state", () => this.states.push(this.editor.session.state));
  }

  async connect() {
    if (!this.isUp) throw new Lost();
    const line = new Line(this.room, Infinity);
    const ask = line.ask.bind(line);
    line.ask = async (request) => {
      const told = this.loses(request, line);
      const loses = told instanceof Promise ? await told : told;
      if (!line.isOpen || loses === "request") line.close();
      if (!line.isOpen) throw new Lost();
      if (loses.r) return loses;
      if (loses === "answer") line.close();
      const reply = await ask(request);
      if (this.delay > 0) await pause(this.delay);
      return reply;
    };
    this.lines.push(line);
    return line;
  }

  /** Cuts the line, and gives others, to the room or to the one that is there in its place. */
  cut(room = this.room) {
    if (room !== this.room) this.room.close();
    this.room = room;
    this.isUp = true;
    for (const line of this.lines) line.close();
  }

  /** Cuts the line, and gives no other. */
  cutOff() {
    this.cut();
    this.isUp = false;
  }

  /** Loses the first request of a kind, or its answer, with the line; whether there is another one then. */
  async loseOnce(what, kind, isUp = false) {
    let isLost = false;
    this.loses = ({ t }) => {
      if (isLost || t !== kind) return "";
      isLost = true;
      this.isUp = isUp;
      return what;
    };
    await until(() => isLost);
  }

  /** Refuses the first request of a kind. */
  refuseOnce(kind, n) {
    return this.loseOnce({ r: "no", n }, kind, true);
  }

  /** Waits until the editor has joined the room that is there in another's place. */
  async joins(room) {
    await until(() => this.lines.at(-1).room === room && this.lines.at(-1).asked.includes("join"));
  }

  async comesTo(state, shown = this.editor.shown) {
    const { editor } = this;
    const { session } = editor;
    const isAsWanted = () => session.state === state && editor.shown === shown && !(state === "up to date" && session.isAhead);
    const told = (text) => `"${text.slice(0, 100)}" of ${text.length}`;
    await until(isAsWanted, () => `${state}, ${told(shown)}: ${session.state}, ${told(editor.shown)}`);
  }
}

/** A site that no run has. */
const READER = 31;

export const textOf = async (room) => (await room.ask({ t: "read" })).x;

/** A run of the program at a site where one session typed a text. */
export async function roomOf(text, site) {
  const room = new Room(site);
  const { s } = await room.ask({ t: "join", u: 16 });
  for (let at = 0, n = 1; at < text.length; at += MOST, n += 1) {
    await room.ask({ t: "ins", s, n, v: at, k: at, x: text.slice(at, at + MOST) });
    await room.ask({ t: "pull", s, have: at, max: MOST });
  }
  return room;
}

/** A room with a text of a session, and an editor that has it as its own or others' text. */
export async function begin(text, isOwn = true, site = 1) {
  const room = new Room(site);
  if (!isOwn && text !== "") await typedBy(room, 0, text);
  const way = new Way(room);
  await way.comesTo("up to date", isOwn ? "" : text);
  if (isOwn) way.editor.change(0, 0, text);
  await way.comesTo("up to date", text);
  return way;
}

/** Another session submits something, and leaves. */
async function submittedBy(room, submission) {
  const { s, v } = await room.ask({ t: "join", u: 16 });
  assert.equal((await room.ask({ s, n: 1, v, ...submission })).r, "ok");
  await room.ask({ t: "leave", s });
}

/** Another session puts a text in. */
export const typedBy = (room, k, x) => submittedBy(room, { t: "ins", k, x });

/** Another session deletes so many units. */
export const deletedBy = (room, k, c) => submittedBy(room, { t: "del", k, c });

/** The single operations of one that may be a run. */
function singles({ k, c, s, p, x, t }) {
  if (k === "d") return [{ k, c, s, t }];
  const sum = c.reduce((total, [, count]) => total + count, 0);
  const clock = (n) => c.map(([site, count]) => [site, count + (site === s ? n : 0)]);
  return [...x].map((sign, n) => ({ k: "i", c: clock(n), s, p: n === 0 ? p : [sum + n - 1, s], x: sign }));
}

/** The single operations of a room, but for the last ones. */
export async function singlesOf(room, without = 0) {
  const told = (await room.operations()).flat().flatMap(singles);
  return told.slice(0, told.length - without);
}

/** Another run at a site, with the log of a room but for the last operations. */
export async function keptRun(room, without = 0, site = 2) {
  const kept = new Room(site);
  const told = await singlesOf(room, without);
  while (told.length > 0) await kept.refill([told.splice(0, MOST)]);
  room.close();
  return kept;
}

/** The least site that operations lack: a run takes it that goes on with them. */
export function freeSite(told) {
  const sites = new Set(told.map(({ s }) => s));
  let site = 0;
  while (sites.has(site)) site += 1;
  return site;
}

/** A room that was renewed: with the text of another one, as one site typed it, but for the last operations. `old`: what its server had. */
export async function renewedRun(room, without = 0, site = 0, old = []) {
  const kept = await keptRun(room, without, READER); // (a run of a site in the log would refuse what that did)
  const text = await textOf(kept);
  kept.close();
  const typist = new Room(site);
  const { s } = await typist.ask({ t: "join", u: 16 });
  for (let k = 0, v = 0, n = 1; k < text.length; n += 1) {
    const x = beginning(text.slice(k), MOST);
    await typist.ask({ t: "ins", s, n, v, k, x });
    await typist.ask({ t: "pull", s, have: v, max: MOST });
    k += x.length;
    v += characters(x);
  }
  const renewed = new Room(freeSite([...old, ...(await singlesOf(typist))]));
  await renewed.refill(await typist.operations());
  typist.close();
  return renewed;
}

/** A room that its server renewed: with all of the text, as the least site typed it that the log lacks, in a run of one that both lack. */
export async function anewRun(room) {
  const old = await singlesOf(room);
  return renewedRun(room, 0, freeSite(old), old);
}

export async function end(...ways) {
  for (const { editor } of ways) await editor.session.close();
  for (const { room } of ways) room.close();
}

/** The editor shows a text that the room has, and its session ends. */
export async function endsAs(way, text) {
  await way.comesTo("up to date", text);
  assert.equal(await textOf(way.room), text);
  await end(way);
}
