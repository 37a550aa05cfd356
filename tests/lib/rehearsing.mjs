// Editors that type by sessions of a module like clients/js, in a time of their own, over lines that go wrong and at a room that is
// ended and comes back, for tests/rehearse. The arguments are the program, the module's folder and the seed,
// the input is what else is asked for.
import { readFileSync, writeFileSync } from "node:fs";
import { USUAL } from "../../clients/js/options.js";
import { pause } from "../../clients/js/seat.js";
import { Clock } from "./clock.mjs";
import { Room } from "./room.mjs";
import { moduleOf, Typist } from "./typist.mjs";
import { anewRun, freeSite, keptRun, renewedRun, singlesOf } from "./way.mjs";

const [, , , folder, seed] = process.argv;
const { texts, turns, rate, every, pace, late, isOfWords, isTold } = JSON.parse(readFileSync(0, "utf8"));
const clock = new Clock(Number(seed));
const module = await moduleOf(folder);
const { Lost, Session } = module;
const roll = (below) => Math.floor(Math.random() * below);
const began = clock.now;
const tell = (what) => writeFileSync(1, `${JSON.stringify({ when: clock.now - began, ...what })}\n`); // (the end waits for all of it)
const { ask } = Room.prototype;
Room.prototype.ask = function (request) {
  return clock.during(ask.call(this, request));
};

const FAULTS = ["request", "answer", "silent", "late answer", "late request", "26"];
const SPARED = { join: ["request", "late answer"], leave: ["request"] }; // a lost answer would cost a session
const LAST_SITE = 28;
const SILENT = 10_000;

/** A room, where it is there, and how much of its log is kept. */
class Server {
  room = new Room(0);
  lines = new Set();
  kept = 0;
  copied = null;
  rate = rate;

  async version() {
    return (await this.room.ask({ t: "read" })).v;
  }

  /** Keeps what is there, now and again. */
  async keep() {
    for (; ; await pause(every)) if (this.room !== null) this.kept = await this.version();
  }

  /** Ends the room, and begins it anew some time later with what it kept, or otherwise. */
  async restart(how, milliseconds) {
    const old = this.room;
    const version = await this.version();
    if (every === 0 || how === "anew") this.kept = version;
    this.room = null;
    for (const line of this.lines) line.close();
    await pause(milliseconds);
    const kept = { back: this.copied ?? this.kept, empty: 0 }[how] ?? this.kept;
    const site = freeSite(await singlesOf(old, version - kept));
    const turn = site > LAST_SITE ? "renew" : how;
    if (turn === "anew") this.room = await anewRun(old);
    else if (turn === "renew") this.room = await renewedRun(old, version - kept);
    else this.room = await keptRun(old, version - kept, site);
    this.kept = await this.version();
    if (["anew", "renew", "empty"].includes(turn)) this.copied = null;
    else if (this.copied !== null) this.copied = Math.min(this.copied, kept);
    tell({ restart: turn, version, kept, site });
  }

  /** A line to the room, as long as that is there. */
  async connect() {
    await pause(5 + roll(20));
    if (this.room === null) throw new Lost();
    const line = new Line(this);
    this.lines.add(line);
    return line;
  }
}

/** A line that carries requests and answers in their order, each some time later, until a fault ends it. */
class Line {
  isOpen = true;
  #asked = new Set(); // what ends a wait for an answer
  #arrival = 0;
  #answer = 0;

  constructor(server) {
    Object.assign(this, { server, room: server.room });
  }

  get #fault() {
    return Math.random() < this.server.rate ? FAULTS[roll(FAULTS.length)] : null;
  }

  async ask(request) {
    if (!this.isOpen) throw new Lost();
    const drawn = this.#fault;
    const fault = (SPARED[request.t] ?? FAULTS).includes(drawn) ? drawn : null;
    if (fault !== null) tell({ met: fault });
    const timer = setTimeout(() => this.close(), request.t === "join" ? USUAL.joined : USUAL.answer);
    const answer = new Promise((resolve, reject) => {
      const lose = () => reject(new Lost());
      this.#asked.add(lose);
      this.#carry(request, fault, (reply) => {
        this.#asked.delete(lose);
        resolve(reply);
      });
    });
    try {
      return await answer;
    } finally {
      clearTimeout(timer);
    }
  }

  async #carry(request, fault, answer) {
    const [there, back] = [1 + roll(30), 1 + roll(30) + (fault === "late answer" ? roll(2_000) : 0)];
    const late = fault === "late request" ? roll(1_500) : 0;
    this.#arrival = Math.max(this.#arrival, clock.now + there);
    if (fault === "request" || fault === "late request") setTimeout(() => this.close());
    if (fault === "request") return;
    await pause(this.#arrival + late - clock.now);
    if (!(this.isOpen || late > 0) || this.server.room !== this.room) return;
    const reply = fault === "26" ? { r: "no", n: 26 } : await this.room.ask(request);
    if (isTold) tell({ request, reply });
    this.#answer = Math.max(this.#answer, clock.now + back + (fault === "silent" ? SILENT : 0));
    await pause(this.#answer - clock.now);
    if (fault === "answer" || fault === "silent") this.close();
    if (this.isOpen) answer(reply);
  }

  close() {
    if (!this.isOpen) return;
    this.isOpen = false;
    this.server.lines.delete(this);
    for (const lose of this.#asked) lose();
  }
}

/** Waits until something is so, some seconds at most. */
async function until(is, seconds) {
  for (const end = clock.now + 1_000 * seconds; !is() && clock.now < end; ) await pause(200);
}

async function rehearse() {
  const server = new Server();
  const open = () => new Session(() => server.connect());
  const typists = [];
  const enters = (it) => typists.push(new Typist({ module, open, tell, isOfWords }, it));
  for (const it of texts) {
    if (late === 0 || it.who === 0) enters(it);
    else setTimeout(() => enters(it), roll(late));
  }
  const states = () => typists.map(({ session }) => session.state);
  if (every > 0) server.keep();
  for (const how of turns) {
    await pause(500 + roll(pace));
    if (roll(10) < 7) await until(() => states().every((it) => it === "up to date" || it === "sending"), 20);
    await server.restart(how, roll(3_000) * roll(2));
    if (roll(10) < 3) server.copied = server.kept = await server.version();
  }
  await until(() => typists.length === texts.length, late / 1_000);
  await pause(2_000);
  server.rate = 0;
  for (const it of typists) it.isTyping = false;
  const isSettled = () => typists.every(({ session }) => session.state === "up to date" && !session.isAhead);
  const isOne = () => new Set(typists.map(({ session }) => session.text)).size === 1;
  await until(() => isSettled() && isOne(), 90);
  for (const it of typists) it.tell({ report: it.report });
  const { x } = await server.room.ask({ t: "read" });
  tell({ text: x });
}

await clock.run(rehearse());
process.exit();
