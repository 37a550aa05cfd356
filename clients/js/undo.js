/**
 * The undoing of one's own changes, while others change the text too: what others put in stays, wherever it stands. Each change of the
 * text, one's own or others', is told in turn.
 *
 * The text is a list of pieces. What was taken out and may come back stands hidden among them, so it comes back where it stood.
 */
import { along, joined } from "./along.js";
import { carried, runs } from "./changes.js";

/** @typedef {import("./changes.js").Change} Change */

/** Milliseconds within which typing or deleting goes on as one step. */
const PAUSE = 1_000;

/** A step of the user: whether it put something in, where it ended, and when. */
class Step {
  constructor(isTyping) {
    this.isTyping = isTyping;
    this.end = 0;
    this.when = 0;
  }

  /** Whether a change goes on with the step: it types on, or deletes on, forwards or backwards. */
  isGoneOnBy({ at, removed, text }, when) {
    if (when - this.when >= PAUSE) return false;
    if (this.isTyping) return removed === 0 && at === this.end;
    return text === "" && (at === this.end || at + removed === this.end);
  }
}

/** A piece of the text, or of what may come back: that is hidden, and has its text. */
class Piece {
  constructor(length, putBy = null, takenBy = null, text = null) {
    this.length = length;
    this.putBy = putBy; // the step that put it in, where that was the user
    this.takenBy = takenBy; // the step that took it out, undone or not
    this.text = text;
  }

  get isHidden() {
    return this.text !== null;
  }

  /** What is between two places of a piece that is shown, as a piece of its own. */
  part(start, end) {
    return new Piece(end - start, this.putBy, this.takenBy);
  }

  /** Whether both are of one kind, so that they may be one piece. */
  isLike(other) {
    return this.isHidden === other.isHidden && this.putBy === other.putBy && this.takenBy === other.takenBy;
  }

  /** Takes in a piece of its kind that stands behind it. */
  join(next) {
    this.length += next.length;
    if (this.isHidden) this.text += next.text;
  }
}

/** How many units of the text a piece is. */
const shownUnits = (piece) => (piece.isHidden ? 0 : piece.length);

export class Undo {
  #pieces = [new Piece(Infinity)]; // the text of before, however long it is
  /** @type {Step[]} */
  #done = [];
  /** @type {Step[]} */
  #undone = [];
  #mayGoOn = false; // whether the last step may be gone on with

  /**
   * A change that the user made, and the text that it took out. `isMore`: it belongs to the step of the one before, wherever that was.
   * @param {Change} change
   * @param {string} taken
   */
  note(change, taken, when = Date.now(), isMore = false) {
    this.noteAll([{ ...change, taken }], when, isMore);
  }

  /**
   * Changes that the user made as one step, from the last place to the first, each with the text that it took out.
   * @param {(Change & {taken: string})[]} changes
   */
  noteAll(changes, when = Date.now(), isMore = false) {
    const made = changes.filter(({ removed, text }) => removed > 0 || text !== "");
    if (made.length === 0) return;
    this.#forgetUndone();
    const goesOn = this.#mayGoOn && (isMore || this.#done.at(-1).isGoneOnBy(made[0], when));
    if (!goesOn) this.#done.push(new Step(made[0].text !== ""));
    const step = this.#done.at(-1);
    let rest = "";
    const puts = ({ text, taken }) => {
      rest = taken;
      return text === "" ? [] : [new Piece(text.length, step)];
    };
    this.#rewrite(made, puts, (piece) => {
      if (piece.isHidden) return [piece];
      const text = rest.slice(0, piece.length);
      rest = rest.slice(piece.length);
      return piece.putBy === step ? [] : [new Piece(piece.length, piece.putBy, step, text)]; // what the step put in itself is gone
    });
    const { at, text } = made.at(-1);
    step.end = at + text.length;
    step.when = when;
    this.#mayGoOn = true;
  }

  /**
   * Changes that others made, or the room.
   * @param {Change[]} changes
   */
  follow(changes) {
    for (const run of runs(changes)) {
      const moved = [];
      const { to } = run[0];
      const puts = ({ text }) => (text === "" || to !== undefined ? [] : [new Piece(text.length)]);
      this.#rewrite(run, puts, (piece) => {
        if (to !== undefined) moved.push(piece);
        return piece.isHidden && to === undefined ? [piece] : [];
      });
      if (to !== undefined) this.#rewrite([{ at: to, removed: 0, text: "" }], () => moved, (piece) => [piece]);
    }
    if (this.#mayGoOn) this.#done.at(-1).end = carried(this.#done.at(-1).end, changes);
  }

  /**
   * Undoes the user's last step, or does again what was undone last: `make` is handed its changes, from the last place to the first, as
   * `replaceAll` of the session takes them. Where it throws nothing is done.
   * @param {boolean} isRedo
   * @param {{text: string}} session
   * @param {(changes: Change[]) => unknown} make
   */
  turn(isRedo, session, make) {
    const [from, to] = isRedo ? [this.#undone, this.#done] : [this.#done, this.#undone];
    const before = session.text;
    for (let turned = []; turned.length === 0 && from.length > 0; to.push(from.pop())) {
      turned = this.#turned(from.at(-1), isRedo); // nothing, where others have left nothing of the step
      if (turned.length > 0) make(turned.map(({ change }) => change));
      for (const { piece, change } of turned) piece.text = piece.isHidden ? null : before.slice(change.at, change.at + change.removed);
      this.#mayGoOn = false;
    }
    this.#pieces = joined(this.#pieces);
  }

  /** The pieces that a step turns, each with its change, from the last one to the first: so each place is one of the text of now. */
  #turned(step, isRedo) {
    const turned = [];
    let at = 0;
    for (const piece of this.#pieces) {
      const owner = piece.isHidden === isRedo ? piece.putBy : piece.takenBy;
      const change = piece.isHidden ? { at, removed: 0, text: piece.text } : { at, removed: piece.length, text: "" };
      if (owner === step) turned.push({ piece, change });
      at += shownUnits(piece);
    }
    return turned.reverse();
  }

  /** What was undone isn't done again any more. */
  #forgetUndone() {
    const gone = new Set(this.#undone.splice(0));
    this.#pieces = this.#pieces.filter((piece) => !(piece.isHidden && gone.has(piece.putBy)));
    for (const piece of this.#pieces) if (gone.has(piece.takenBy)) piece.takenBy = null;
  }

  /**
   * Makes changes of the text: `puts` gives the pieces that one puts in, behind what is hidden at its place, and `takes` what becomes of
   * one that is within what it removes.
   */
  #rewrite(changes, puts, takes) {
    const pieces = [];
    const waiting = [];
    for (const [change, piece] of along(changes, this.#pieces, shownUnits)) {
      if (piece === null) {
        waiting.push(...puts(change));
      } else if (change !== null) {
        pieces.push(...takes(piece));
      } else {
        if (!piece.isHidden) pieces.push(...waiting.splice(0));
        pieces.push(piece);
      }
    }
    this.#pieces = joined(pieces);
  }
}
