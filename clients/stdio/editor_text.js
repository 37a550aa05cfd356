/**
 * An editor's text beside the session's: what the session has and the editor hasn't taken yet, and what the editor has and the session
 * hasn't. All places count UTF-16 units here.
 *
 * Both texts are one list of pieces. A piece is of both, of the session's text alone or of the editor's alone; half a pair of the editor's,
 * which no room takes, is of both as well, as U+FFFD to the session. What the editor puts in stands right behind the character that it was
 * put in behind, before what was put in there and isn't taken yet.
 *
 * @typedef {import("./module.js").Change} Change
 * @typedef {import("./count.js").Count} Count
 */
import { size } from "./count.js";
import { along, difference, differences, joined, runs } from "./module.js";

/** What each half of a pair is here: so two of them that come one by one are no pair. */
const HALF = "\udc00";

class Piece {
  constructor(text, owner) {
    this.text = text;
    this.owner = owner; // "both", "half", "session" or "editor"
  }

  isOf(whose) {
    return this.owner === "both" || this.owner === "half" || this.owner === whose;
  }

  /** What it is in one of the texts. */
  textOf(whose) {
    if (!this.isOf(whose)) return "";
    return this.owner === "half" && whose === "session" ? "\ufffd".repeat(this.text.length) : this.text;
  }

  /** What is between two places, as a piece of its own. */
  part(start, end) {
    return new Piece(this.text.slice(start, end), this.owner);
  }

  isLike(other) {
    return this.owner === other.owner;
  }

  join(next) {
    this.text += next.text;
  }
}

/** How many units of one of the texts a piece is. */
const unitsOf = (whose) => (piece) => (piece.isOf(whose) ? piece.text.length : 0);

/** The pieces that a text of the editor becomes. */
function fresh(text) {
  const parts = text.match(/\p{Surrogate}+|\P{Surrogate}+/gu) ?? [];
  return parts.map((it) => new Piece(it, it.startsWith(HALF) ? "half" : "both"));
}

/**
 * The changes that lead from a text to another, from the last place to the first: what stays the same is none. So many units stand behind
 * the caret, and are taken to have stayed where they may.
 * @returns {Change[]}
 */
function differing(from, to, behind) {
  const { at, removed, text } = difference(from, to, behind);
  return differences(from.slice(at, at + removed), text).map((it) => ({ ...it, at: at + it.at }));
}

export class EditorText {
  /** @type {Piece[]} */
  #pieces = [];

  /** The editor's text. */
  get text() {
    return this.#textOf("editor");
  }

  #textOf(whose, pieces = this.#pieces) {
    return pieces.map((it) => it.textOf(whose)).join("");
  }

  /** Whether there is something to take. */
  get hasNews() {
    return this.#pieces.some((it) => it.owner !== "both");
  }

  /**
   * The session's text has changed.
   * @param {Change[]} changes
   */
  follow(changes) {
    const puts = ({ text }) => [new Piece(text, "session")];
    for (const run of runs(changes)) {
      const { at, removed, text, to } = run[0];
      if (to === undefined) {
        this.#rewrite("session", run, puts, "editor");
      } else {
        this.#rewrite("session", [{ at, removed, text: "" }], puts, "editor");
        this.#rewrite("session", [{ at: to, removed: 0, text }], puts, "editor");
      }
    }
  }

  /**
   * The editor has changed its text at some places, from the last one to the first; of what each put in so many units stand `behind` its
   * caret. `make` changes the session's as well: by a list of changes, in the same order. Where it throws, none of them was made, and what
   * the editor did is to be taken back.
   * @param {(Change & {behind: number})[]} edits
   * @param {(changes: (Change & {taken: string})[]) => void} make
   */
  replace(edits, make) {
    const { text: whole } = this;
    const changes = edits.flatMap(({ at, removed, text, behind }) =>
      differing(whole.slice(at, at + removed), text.replace(/\p{Surrogate}/gu, HALF), behind).map((it) => ({ ...it, at: at + it.at })),
    );
    try {
      make(this.#inSession(changes));
    } catch (fault) {
      this.#rewrite("editor", changes, ({ text }) => [new Piece(text, "editor")], "session");
      throw fault;
    }
    this.#rewrite("editor", changes, ({ text }) => fresh(text), null);
  }

  /** Makes changes of one of the texts: `puts` gives what one puts in. What they take out of both stays in the other one, if any. */
  #rewrite(whose, changes, puts, other) {
    const pieces = [];
    for (const [change, piece] of along(changes, this.#pieces, unitsOf(whose))) {
      if (piece === null) pieces.push(...puts(change).filter((it) => it.text !== ""));
      else if (change === null || !piece.isOf(whose)) pieces.push(piece);
      else if (other !== null && piece.isOf(other)) pieces.push(new Piece(piece.textOf(other), other));
    }
    this.#pieces = joined(pieces);
  }

  /** Changes of the editor's text as changes of the session's, in the same order, with what is taken out. */
  #inSession(changes) {
    /** @type {(Change & {taken: string})[]} */
    const found = [];
    let place = 0;
    for (const [change, piece] of along(changes, this.#pieces, unitsOf("editor"))) {
      if (piece === null) {
        const text = this.#textOf("session", fresh(change.text));
        if (text !== "") found.push({ at: place, removed: 0, text, taken: "" });
        continue;
      }
      if (!piece.isOf("session")) continue;
      if (change !== null && piece.isOf("editor")) {
        const last = found.at(-1);
        const goesOn = last !== undefined && last.at + last.removed === place;
        if (!goesOn) found.push({ at: place, removed: 0, text: "", taken: "" });
        found.at(-1).removed += piece.text.length;
        found.at(-1).taken += piece.textOf("session");
      }
      place += piece.text.length;
    }
    return found.reverse();
  }

  /**
   * The changes that make the editor's text the session's: each counts its places in the text that the ones before lead to.
   * @param {Count} count
   * @returns {[number, number, string][]}
   */
  take(count) {
    /** @type {[number, number, string][]} */
    const changes = [];
    let [at, removed, text] = [0, 0, ""];
    for (const piece of [...this.#pieces, new Piece("", "both")]) {
      if (piece.owner !== "both") {
        removed += size(piece.textOf("editor"), count);
        text += piece.textOf("session");
        continue;
      }
      if (removed > 0 || text !== "") changes.push([at, removed, text]);
      at += size(text + piece.text, count);
      [removed, text] = [0, ""];
    }
    this.#pieces = [new Piece(this.#textOf("session"), "both")];
    return changes;
  }
}
