/** What a page tells of its session and asks of its user, and how a session comes and goes with its page. */
import { Ended, Full } from "./faults.js";

/** @typedef {import("./session.js").Session} Session */

/** What is said of a state. */
const WORDS = {
  "joining": "opening",
  "up to date": "saved",
  "sending": "not sent yet",
  "no answer": "no answer",
  "offline": "offline, trying again",
  "refused": "refused",
  "another text": "please choose",
  "closed": "closed",
};

/** From this part on it is told how full a room is. */
const SCARCE = 0.75;

/** Milliseconds for which something has to be so until it is read out. */
const SAID = 1_000;

/** How an element is read out and not seen. */
const UNSEEN = { position: "absolute", width: "1px", height: "1px", margin: "0", overflow: "hidden", clipPath: "inset(50%)" };

const number = (count) => count.toLocaleString("en");

/** How full a room is, where that is told. */
function fullness({ left, operations }) {
  const used = 1 - left / operations;
  return used < SCARCE ? "" : `; the room is ${Math.floor(100 * used)} % full and takes ${number(left)} more changes`;
}

/** An element with a text, and with others in it. */
function made(name, className, ...inside) {
  const element = document.createElement(name);
  if (className !== "") element.className = className;
  element.append(...inside);
  return element;
}

/** Shows a text, with stretches of it marked. */
function showMarked(element, text, stretches) {
  const parts = [];
  let shown = 0;
  for (const [from, to] of stretches) {
    parts.push(text.slice(shown, from), made("mark", "", text.slice(from, to)));
    shown = to;
  }
  element.replaceChildren(...parts, text.slice(shown));
}

/**
 * Tells in an element of the page how a session stands, and asks what the user has to choose. `name` is what the room is called there.
 * @param {Session} session
 * @param {HTMLElement} place
 * @param {{name?: string}} [options]
 */
export function bindStatus(session, place, options) {
  return new StatusBinding(session, place, options);
}

class StatusBinding {
  #session;
  #place;
  #name;
  #trouble = "";
  #timer;
  #bound = new AbortController();
  #state = made("p", "state");
  #said = made("p", "said");
  #theirs = made("button", "theirs", "Take the room's text");
  #mine = made("button", "mine", "Put mine in");
  #save = made("button", "save", "Save what is shown");
  #choice = made("p", "choice", this.#theirs, " ", this.#mine, " ", this.#save);
  #other = made("pre", "other");
  #own = made("pre", "own");
  #texts = made("div", "texts", "The room has:", this.#other, "and here is:", this.#own);
  #lost = made("pre", "lost");
  #unsent = made("div", "unsent", "The room has what is shown, but for this:", this.#lost);

  constructor(session, place, { name = "" } = {}) {
    this.#session = session;
    this.#place = place;
    this.#name = name;
    for (const it of [this.#theirs, this.#mine, this.#save]) it.type = "button";
    this.#said.setAttribute("aria-live", "polite");
    Object.assign(this.#said.style, UNSEEN);
    const { signal } = this.#bound;
    this.#theirs.addEventListener("click", () => session.takeTheirs(), { signal });
    this.#mine.addEventListener("click", () => this.#putMine(), { signal });
    this.#save.addEventListener("click", () => this.#saveText(), { signal });
    session.addEventListener("state", () => this.#tell(), { signal });
    session.addEventListener("changes", () => this.#tell(), { signal });
    place.classList.add("rgatext-status");
    place.replaceChildren(this.#state, this.#said, this.#choice, this.#texts, this.#unsent);
    this.#tell();
  }

  /** Tells what an editor's binding has trouble with, until it is called with an empty text. */
  trouble(trouble) {
    this.#trouble = trouble;
    this.#tell();
  }

  /** Lets go of the session and the element. */
  release() {
    this.#bound.abort();
    clearTimeout(this.#timer);
    this.#place.replaceChildren();
  }

  #tell() {
    const { state, why, unsent, other } = this.#session;
    const isOver = state === "refused" || state === "closed";
    const words = (!isOver && this.#trouble) || WORDS[state] + (why === "" ? "" : `: ${why}`);
    this.#state.textContent = (this.#name === "" ? "" : `${this.#name}: `) + words + fullness(this.#session);
    this.#state.dataset.state = state;
    this.#state.classList.toggle("trouble", words !== WORDS[state] || ["no answer", "offline", "refused"].includes(state));
    this.#choice.hidden = other === null && state !== "refused";
    this.#theirs.hidden = this.#mine.hidden = other === null;
    this.#showTexts(other);
    this.#unsent.hidden = !isOver || other !== null || unsent.length === 0;
    this.#lost.textContent = isOver ? unsent.map((it) => `${it.kind}: ${it.text}`).join("\n") : "";
    clearTimeout(this.#timer);
    this.#timer = setTimeout(() => this.#say(words), SAID);
  }

  /** Reads out what has been so for a while. */
  #say(words) {
    if (this.#said.textContent !== words) this.#said.textContent = words;
  }

  /** Shows the two texts of which the user is to choose, and what differs. */
  #showTexts(other) {
    this.#texts.hidden = other === null;
    if (other === null) return;
    const [theirs, own] = [[], []];
    let further = 0;
    for (const { at, removed, text: put } of other.difference.reverse()) {
      theirs.push([at, at + removed]);
      own.push([at + further, at + further + put.length]);
      further += put.length - removed;
    }
    showMarked(this.#other, other.text, theirs);
    showMarked(this.#own, this.#session.text, own);
  }

  #putMine() {
    try {
      this.#session.putMine();
    } catch (fault) {
      if (!(fault instanceof Full || fault instanceof Ended)) throw fault;
      this.trouble(fault instanceof Full ? `${fault.message}: that doesn't fit` : fault.message);
    }
  }

  #saveText() {
    const link = document.createElement("a");
    link.href = URL.createObjectURL(new Blob([this.#session.text]));
    link.download = "text.txt";
    link.click();
    URL.revokeObjectURL(link.href);
  }
}

/**
 * Asks before text is left that may be lost, leaves the room with the page, which can't wait, goes on where the page comes back, and asks
 * rarely while it is hidden. Gives what unbinds it.
 * @param {Session} session
 */
export function bindPage(session) {
  const bound = new AbortController();
  const { signal } = bound;
  addEventListener("beforeunload", (event) => session.mayBeLost && event.preventDefault(), { signal });
  addEventListener("pagehide", () => session.pause(), { signal });
  addEventListener("pageshow", ({ persisted }) => persisted && session.resume(), { signal });
  document.addEventListener("visibilitychange", () => (session.isHidden = document.hidden), { signal });
  return { release: () => bound.abort() };
}
