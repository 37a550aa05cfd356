/** A text area over a session: what is typed goes to the room, and what others type comes into the area. */
import { Binding } from "./binding.js";
import { carried, carriedUnit } from "./changes.js";
import { difference } from "./text.js";

/** Milliseconds until it is told that what an input method composes is held back. */
const HELD = 3_000;

/** What decides how high a text is in an area. */
const STYLES = ["font", "letterSpacing", "wordSpacing", "tabSize", "textIndent", "textTransform", "paddingLeft", "paddingRight"];

/** What the area has of a text. It would make CR to LF, and CR LF to one LF, so CR has a sign. */
const signs = (text) => text.replaceAll("\r", "\u240d");

/** Where so many units from a place on are after changes: the stretches that others' text stands between. */
function stretches(at, units, changes) {
  const found = [];
  for (let unit = at; unit < at + units; unit += 1) {
    const to = carriedUnit(unit, changes);
    if (to !== null && found.at(-1)?.[1] === to) found.at(-1)[1] += 1;
    else if (to !== null) found.push([to, to + 1]);
  }
  return found;
}

/** A change of a text that others have changed since, as changes of the text of now: from the last place to the first. */
function changesOf({ at, removed, text }, came) {
  if (came.length === 0) return [{ at, removed, text }];
  const place = carried(at, came);
  const changes = stretches(at, removed, came).map(([from, to]) => ({ at: from, removed: to - from, text: "" }));
  const first = changes.find((it) => it.at === place);
  if (first !== undefined) first.text = text;
  else if (text !== "") changes.push({ at: place, removed: 0, text });
  return changes.sort((one, other) => other.at - one.at);
}

/**
 * Keeps a text area in step with a session, with an undoing of the user's own changes alone. What the area had before is `replaced` of the
 * binding.
 * @param {import("./session.js").Session} session
 * @param {HTMLTextAreaElement} area
 * @param {import("./binding.js").BindingOptions} [options]
 * @returns {Binding}
 */
export function bindTextarea(session, area, options) {
  return new TextareaBinding(session, area, options);
}

class TextareaBinding extends Binding {
  #area;
  #shown = ""; // the text of the area, as it was set or taken over last
  #isComposing = false;
  #waiting = []; // changes that came while something was composed
  #held; // the timer until that is told
  #measure = document.createElement("div");

  constructor(session, area, options) {
    super(session, area.value, options);
    this.#area = area;
    const { signal } = this;
    area.addEventListener("input", () => this.#typed(), { signal });
    area.addEventListener("compositionstart", () => this.#composes(), { signal });
    area.addEventListener("compositionend", () => this.#composed(), { signal });
    area.addEventListener("beforeinput", (event) => this.#asked(event), { signal });
    area.addEventListener("keydown", (event) => this.#pressed(event), { signal });
    this.#show(0, 0, "none");
    this.begin({
      setReadOnly: (isReadOnly) => (area.readOnly = isReadOnly),
      follow: (changes) => this.#follow(changes),
      turn: (isRedo) => this.#turn(isRedo),
    });
  }

  release() {
    super.release();
    this.#isComposing = false;
    this.#letGo();
  }

  /** Shows the text, with a selection. */
  #show(start, end, direction) {
    this.#shown = signs(this.session.text);
    this.#area.value = this.#shown;
    this.#area.setSelectionRange(start, end, direction);
  }

  /** Shows others' changes, unless something is being composed: then once it is. The line of the caret stays where it is seen. */
  #follow(changes) {
    this.#waiting.push(...changes);
    if (this.#isComposing) return;
    const told = this.#waiting.splice(0);
    this.steps.follow(told);
    const { selectionStart, selectionEnd, selectionDirection, scrollTop } = this.#area;
    const before = this.#heightToCaret();
    this.#show(carried(selectionStart, told), carried(selectionEnd, told), selectionDirection);
    this.#area.scrollTop = scrollTop + this.#heightToCaret() - before;
  }

  /** How high the text up to the caret is, in pixels. */
  #heightToCaret() {
    const { style } = this.#measure;
    const own = getComputedStyle(this.#area);
    for (const name of STYLES) style[name] = own[name];
    const whiteSpace = this.#area.wrap === "off" ? "pre" : "pre-wrap";
    const hidden = { position: "absolute", visibility: "hidden", top: "0", left: "0", boxSizing: "border-box", overflowWrap: "break-word" };
    Object.assign(style, hidden, { whiteSpace, width: `${this.#area.clientWidth}px` });
    this.#measure.textContent = `${this.#area.value.slice(0, this.#area.selectionStart)}.`;
    this.#area.after(this.#measure);
    const height = this.#measure.offsetHeight;
    this.#measure.remove();
    return height;
  }

  #composes() {
    this.#isComposing = true;
    this.session.isHeld = true;
    this.#held = setTimeout(() => this.onTrouble("what is being composed is sent when it is done"), HELD);
  }

  #composed() {
    this.#isComposing = false;
    this.#typed();
    this.#letGo();
  }

  /** Nothing is held back any more. */
  #letGo() {
    this.session.isHeld = false;
    clearTimeout(this.#held);
  }

  /** Tells the session what the user changed since the area was shown: what stands behind the caret stayed. */
  #typed() {
    if (this.#isComposing) return;
    const { value, selectionEnd } = this.#area;
    const { at, removed, text } = difference(this.#shown, value.toWellFormed(), value.length - selectionEnd);
    const came = this.#waiting.splice(0);
    this.steps.follow(came);
    const place = carried(at, came) + text.length;
    this.#change(() => {
      this.#make(changesOf({ at, removed, text }, came));
      if (came.length > 0) this.#show(place, place, "none");
      else this.#shown = signs(this.session.text);
    });
  }

  /** Makes changes from the last place to the first: all of them or none. */
  #make(changes) {
    const { text } = this.session;
    this.session.replaceAll(changes);
    this.steps.noteAll(changes.map((it) => ({ ...it, taken: text.slice(it.at, it.at + it.removed) })));
  }

  /** Makes a change, or shows the text without it. */
  #change(make) {
    if (this.change(make)) return;
    const place = Math.min(this.#area.selectionStart, this.session.text.length);
    this.#show(place, place, "none");
  }

  #turn(isRedo) {
    if (this.#isComposing || this.#area.readOnly) return;
    let place = this.#area.selectionStart;
    const make = (changes) => {
      this.session.replaceAll(changes);
      place = changes.at(-1).at + changes.at(-1).text.length;
    };
    this.#change(() => {
      this.steps.turn(isRedo, this.session, make);
      this.#show(place, place, "none");
    });
  }

  /** The browser's own undoing, as of its menu, is ours. */
  #asked(event) {
    if (event.inputType !== "historyUndo" && event.inputType !== "historyRedo") return;
    event.preventDefault();
    this.#turn(event.inputType === "historyRedo");
  }

  #pressed(event) {
    const key = event.key.toLowerCase();
    if (!(event.ctrlKey || event.metaKey) || event.altKey || (key !== "z" && key !== "y")) return;
    event.preventDefault();
    this.#turn(key === "y" || event.shiftKey);
  }
}
