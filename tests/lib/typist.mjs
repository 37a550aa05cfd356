// An editor that types at random by a session of a module like clients/js, for tests/lib/typing.mjs and tests/lib/rehearsing.mjs.
import { pathToFileURL } from "node:url";

const pause = (milliseconds) => new Promise((resolve) => setTimeout(resolve, milliseconds));
const roll = (below) => Math.floor(Math.random() * below);
const isInside = (text, at) => /[\ud800-\udbff]/.test(text[at - 1] ?? "") && /[\udc00-\udfff]/.test(text[at] ?? "");

/** What a typist asks of the module in a folder. */
export async function moduleOf(folder) {
  const load = (name) => import(new URL(name, pathToFileURL(`${folder}/`)).href);
  return { ...(await load("rgatext.js")), ...(await load("undo.js")) };
}

export class Typist {
  /** `open` gives a session, and `tell` takes what was done, a line each. Who is quick puts in and takes out so many characters at a time,
   * a third of the times out. */
  constructor({ module, open, tell, isOfWords }, { who, text, answer, quick = 0 }) {
    Object.assign(this, { module, open, isOfWords, who, answer, quick, supply: [...text], used: 0, asked: 0, differs: 0, isTyping: true });
    this.tell = (what) => tell({ who, ...what });
    this.begin();
    this.type().catch((fault) => this.tell({ fault: `${fault.stack}` }));
  }

  begin() {
    Object.assign(this, { shown: "", caret: 0, last: "", isOver: false, undo: new this.module.Undo(), session: this.open() });
    const { session } = this;
    const { carried, played } = this.module;
    session.ended.catch((fault) => this.tell({ fault: `${fault.stack}` })).then(() => (this.isOver = true));
    session.addEventListener("changes", ({ detail }) => {
      this.caret = carried(this.caret, detail);
      this.shown = played(this.shown, detail);
      this.undo.follow(detail);
      if (this.shown !== session.text) this.differs += 1;
    });
    let state = "";
    let left = null;
    session.addEventListener("state", () => {
      const isThere = session.state === "up to date" || session.state === "sending";
      if (isThere && left !== null && this.quick) this.tell({ away: Date.now() - left });
      left = isThere ? null : (left ?? Date.now());
      if (session.state === "another text" && state !== "another text") {
        this.asked += 1;
        setTimeout(() => this.choose(session), 1_000);
      }
      state = session.state;
    });
  }

  choose(session) {
    if (session.other === null) return;
    try {
      if (this.answer === "mine") session.putMine();
      else this.takeTheirs(session);
    } catch (fault) {
      if (!this.isRefusal(fault)) throw fault;
    }
    setTimeout(() => this.choose(session), 1_000); // where the room has changed in the meantime
  }

  /** What the user lets go of is told as taken out. */
  takeTheirs(session) {
    const dropped = session.unsent.map(({ kind, text }) => (kind === "put in" ? text : "")).join("");
    session.takeTheirs();
    this.tell({ put: "", taken: dropped, left: "", right: "", undone: false });
  }

  isRefusal(fault) {
    return fault instanceof this.module.Full || fault instanceof this.module.Ended;
  }

  /** Makes changes of the shown text; whether the session took them. */
  isTaken(make) {
    try {
      make();
    } catch (fault) {
      if (this.isRefusal(fault)) return false;
      throw fault;
    }
    return true;
  }

  change(at, removed, text) {
    const { shown } = this;
    if (!this.isTaken(() => this.session.replace(at, removed, text))) return false;
    this.undo.note({ at, removed, text }, shown.slice(at, at + removed));
    this.show(at, removed, text, false);
    return true;
  }

  /** Shows a change that was made, told with its neighbours. */
  show(at, removed, text, undone) {
    const { shown } = this;
    const taken = shown.slice(at, at + removed);
    this.shown = this.module.played(shown, [{ at, removed, text }]);
    this.caret = at + text.length;
    const left = [...shown.slice(Math.max(0, at - 2), at)].at(-1) ?? "";
    const right = [...shown.slice(at + removed, at + removed + 2)][0] ?? "";
    this.tell({ put: text, taken, left, right, undone });
  }

  outside(at) {
    return isInside(this.shown, at) ? at - 1 : at;
  }

  /** Takes so many units out from a place on, where there are as many. */
  clear(at, count) {
    const [start, end] = [at, at + count].map((it) => this.outside(Math.min(it, this.shown.length)));
    if (end > start) this.change(start, end - start, "");
  }

  async put() {
    if (roll(10) < 3) this.caret = this.outside(roll(this.shown.length + 1));
    const count = this.quick ? 1 + roll(2 * this.quick) : roll(50) === 0 ? 65 + roll(70) : 1 + roll(5);
    const text = this.supply.slice(this.used, this.used + count);
    const parts = this.quick || count > 5 || roll(2) === 0 ? [text.join("")] : text;
    this.last = "";
    for (const part of parts) {
      if (!this.isTyping || !this.change(this.caret, 0, part)) return;
      this.used += [...part].length;
      this.last += part;
      if (parts.length > 1) await pause(10 + roll(40));
    }
  }

  take() {
    if (this.isOfWords) {
      const last = [...this.last].slice(-1 - roll(3)).join(""); // one's own alone, as backspaces: others' letters are alike
      if (last === "" || !this.shown.slice(0, this.caret).endsWith(last)) return;
      if (this.change(this.caret - last.length, last.length, "")) this.last = this.last.slice(0, -last.length);
      return;
    }
    const most = this.quick ? 2 * this.quick : 4;
    const at = this.outside(roll(3) > 0 ? Math.max(0, this.caret - 1 - roll(most)) : roll(this.shown.length));
    let end = Math.min(this.shown.length, at + 1 + roll(most));
    if (isInside(this.shown, end)) end += 1;
    if (end > at) this.change(at, end - at, "");
  }

  turn(isRedo) {
    const make = (changes) => {
      this.session.replaceAll(changes);
      for (const { at, removed, text } of changes) this.show(at, removed, text, true);
    };
    this.isTaken(() => this.undo.turn(isRedo, this.session, make));
  }

  /** Types again, a text in place of what was left. What was done before isn't undone any more. */
  goOn(text) {
    Object.assign(this, { supply: [...text], used: 0, isTyping: true, undo: new this.module.Undo() });
    this.undo.follow([{ at: 0, removed: 0, text: this.shown }]);
    this.type().catch((fault) => this.tell({ fault: `${fault.stack}` }));
  }

  async type() {
    while (this.isTyping) {
      await pause(this.quick ? 150 + roll(300) : 50 + roll(300));
      if (this.isOver) {
        this.tell({ ended: this.session.why, unsent: this.session.unsent });
        this.begin();
        await pause(2_000);
        continue;
      }
      if (this.session.state === "joining" || this.session.state === "another text") continue;
      const does = roll(40);
      if (does < (this.quick ? 13 : 8)) this.take();
      else if (does === 8 && !this.isOfWords) this.turn(roll(3) === 0);
      else await this.put();
    }
  }

  /** What it shows now, and how it stands. */
  get report() {
    const { state, why, text, isAhead, unsent } = this.session;
    const { asked, differs, shown } = this;
    return { state, why, text, isAhead, asked, unsent, differs: differs + Number(shown !== text) };
  }
}
