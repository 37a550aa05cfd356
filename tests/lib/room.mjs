// What tests/try_merging plays with: runs of the program, lines to them that break, and editors of sessions.
import assert from "node:assert/strict";
import { spawn } from "node:child_process";
import { createInterface } from "node:readline";
import { MOST } from "../../clients/js/document.js";
import { Lost, played, Session } from "../../clients/js/rgatext.js";
import { pause } from "../../clients/js/seat.js";

/** Numbers that look random, the same in each run. */
export function dice(seed) {
  let state = seed;
  return (below) => {
    state = (Math.imul(state, 1664525) + 1013904223) >>> 0;
    return Math.floor((state / 2 ** 32) * below);
  };
}

/** A run of the program at a site, which answers each request by one line. */
export class Room {
  constructor(site = 0) {
    this.child = spawn(process.argv[2], ["lines", "--site", `${site}`], { stdio: ["pipe", "pipe", "inherit"] });
    this.asked = [];
    this.isGone = false;
    this.child.on("close", () => this.asked.splice(0).forEach((resolve) => resolve(null)));
    createInterface({ input: this.child.stdout }).on("line", (line) => this.asked.shift()(JSON.parse(line)));
  }

  ask(request) {
    return new Promise((resolve) => {
      this.asked.push(resolve);
      this.child.stdin.write(`${JSON.stringify(request)}\n`);
    });
  }

  /** All edits from a version on, or so many. */
  async edits(session, have, most = Infinity) {
    const edits = [];
    for (;;) {
      const max = Math.min(MOST, most - edits.length);
      const { es } = await this.ask({ t: "pull", s: session, have: have + edits.length, max });
      edits.push(...es);
      if (es.length < MOST || edits.length === most) return edits;
    }
  }

  /** All operations. */
  async operations() {
    const told = [];
    for (let isMore = true, after = 0; isMore; ) {
      const { v } = await this.ask({ t: "read" });
      const { ops } = await this.ask({ t: "ops", after, max: MOST });
      if (ops.length > 0) told.push(ops);
      after += MOST;
      isMore = after < v;
    }
    return told;
  }

  /** Takes operations in, as a bridge hands them over: all of them. */
  async refill(told) {
    for (const ops of told) {
      const { r, os } = await this.ask({ t: "put", ops });
      assert.ok(r === "put" && os.every(([outcome]) => outcome !== "no"), JSON.stringify(os));
    }
  }

  close() {
    this.isGone = true;
    this.child.stdin.end();
  }
}

/** A line to a room that is lost after so many answers, of which the last doesn't come. Of the first `ins` one may be refused. */
export class Line {
  constructor(room, answers, refusal = null) {
    this.room = room;
    this.answers = answers;
    this.refusal = refusal;
    this.asked = [];
    this.calls = 0;
  }

  get isOpen() {
    return this.answers > 0 && !this.room.isGone;
  }

  async ask(request) {
    this.calls += 1;
    this.asked.push(request.t);
    if (this.refusal !== null && request.t === "ins") {
      const refused = { r: "no", n: this.refusal };
      this.refusal = null;
      return refused;
    }
    const reply = this.room.isGone ? null : await this.room.ask(request);
    if ((this.answers -= 1) < 0 || this.room.isGone) throw new Lost();
    return reply;
  }

  close() {
    this.answers = 0;
  }
}

/** Waits for something that is to come within 30 seconds. */
export const until = async (is, what = () => "that") => {
  for (let n = 0; !is(); n += 1) {
    if (n > 3_000) throw new Error(`it doesn't come to ${what()}`);
    await pause(10);
  }
};

/** An editor of a session: what it shows by the changes that it was told. */
export function editorOf(connect) {
  const editor = { session: new Session(connect), shown: "" };
  editor.session.addEventListener("changes", ({ detail }) => (editor.shown = played(editor.shown, detail)));
  editor.change = (at, removed, text) => (editor.shown = played(editor.shown, [editor.session.replace(at, removed, text)]));
  return editor;
}
