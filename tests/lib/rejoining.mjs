// What tests/lib/merging.mjs plays of clients/vectors/rejoining.json with a session of the module.
import assert from "node:assert/strict";
import { until } from "./room.mjs";
import { whole } from "./vectors.mjs";
import { anewRun, deletedBy, end, freeSite, keptRun, renewedRun, roomOf, singlesOf, textOf, typedBy, Way } from "./way.mjs";

/** How many units so many characters of a text have from a place on. */
const units = (text, at, count) => [...text].slice(at, at + count).join("").length;

async function otherDoes(room, { other: { t, k, x, c }, times = 1, apart = 0 }) {
  for (let n = 0; n < times; n += 1) {
    const text = await textOf(room);
    const place = k + n * apart;
    const at = units(text, 0, place);
    await (t === "ins" ? typedBy(room, at, x) : deletedBy(room, at, units(text, place, c)));
  }
}

/** Another run of the server in place of one. */
async function another(room, run) {
  if (run === "anew") return anewRun(room);
  if (run === "renewed") return renewedRun(room);
  const told = await singlesOf(room);
  return keptRun(room, told.length - run.kept, freeSite(told.slice(0, run.kept)));
}

class Player {
  constructor({ name, text, steps }) {
    Object.assign(this, { name, steps, text: whole(text) });
  }

  async play() {
    this.room = await roomOf(this.text, 0);
    this.way = new Way(this.room);
    await this.way.comesTo("up to date", this.text);
    for (const step of this.steps) {
      if (step.local) await this.change(step);
      if (step.other) await otherDoes(this.room, step);
      if (step.run) this.room = await another(this.room, step.run);
      if (step.back) await this.comeBack(whole(step.text));
    }
    await end(this.way);
  }

  async change({ local: { at, removed, text }, lost }) {
    const { way } = this;
    const { editor } = way;
    if (way.isUp) await this.isSettled();
    const isLost = lost && this.lose(lost, text === "" ? "del" : "ins");
    editor.change(units(editor.shown, 0, at), units(editor.shown, at, removed), text);
    if (isLost) await isLost;
    else if (way.isUp) await this.isSettled();
  }

  async isSettled() {
    const { editor } = this.way;
    await until(() => editor.session.state === "up to date" && !editor.session.isAhead, () => this.name);
    const text = await textOf(this.room);
    await until(() => editor.shown === text, () => `${this.name}: "${text}", and not "${editor.shown}"`);
  }

  /** Loses the line with the next submission; settles once it is lost. */
  async lose(what, kind) {
    const { way } = this;
    let isLost = false;
    let isAccepted = false;
    way.loses = (request) => {
      if (isLost) return "";
      if (request.t === kind) isAccepted = true;
      if (what === "edits" ? request.t !== "pull" || !isAccepted : request.t !== kind) return "";
      isLost = true;
      way.isUp = false;
      if (what === "late") this.late = request;
      if (what === "leave") this.isLeaving = true;
      return what === "answer" ? "answer" : "request";
    };
    await until(() => isLost, () => this.name);
  }

  async comeBack(text) {
    const { way, late } = this;
    way.loses = async (request) => {
      if (this.late && request.t === "leave") this.late = await this.room.ask(late).then(() => null);
      if (!this.isLeaving || request.t !== "leave") return "";
      this.isLeaving = false;
      return "answer";
    };
    way.cut(this.room);
    await way.comesTo("up to date", text);
    assert.ok(!this.isLeaving, this.name);
    assert.deepEqual([way.editor.shown, await textOf(this.room)], [text, text], this.name);
  }
}

/** Plays the cases, and gives how many there are. */
export async function rejoin(cases) {
  for (const it of cases) {
    try {
      await new Player(it).play();
    } catch (fault) {
      throw new Error(`${it.name}: ${fault.message}`);
    }
  }
  return cases.length;
}
