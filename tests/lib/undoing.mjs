// What tests/try_merging plays of the undoing of one's own steps.
import assert from "node:assert/strict";
import { Full } from "../../clients/js/rgatext.js";
import { Undo } from "../../clients/js/undo.js";

/** A text with the steps of its user, each long after the one before unless a time is told, and with others' changes. */
class Typed {
  #time = 0;

  constructor(text = "", left = Infinity) {
    Object.assign(this, { text, left, undo: new Undo() });
  }

  /** Changes from the last place to the first: all of them, or none where there is no room. */
  replaceAll(changes) {
    const cost = changes.reduce((sum, { removed, text }) => sum + removed + text.length, 0);
    if (cost > this.left) throw new Full(this.left);
    this.left -= cost;
    for (const { at, removed, text } of changes) this.text = this.text.slice(0, at) + text + this.text.slice(at + removed);
  }

  own(at, removed, text, when = undefined, isMore = false) {
    this.step([{ at, removed, text }], when, isMore);
  }

  /** Changes from the last place to the first, as one step. */
  step(changes, when = (this.#time += 5_000), isMore = false) {
    this.undo.noteAll(changes.map((it) => ({ ...it, taken: this.text.slice(it.at, it.at + it.removed) })), when, isMore);
    this.replaceAll(changes);
  }

  other(at, removed, text) {
    this.undo.follow([{ at, removed, text }]);
    this.replaceAll([{ at, removed, text }]);
  }

  turn(isRedo, wanted) {
    this.undo.turn(isRedo, this, (changes) => this.replaceAll(changes));
    if (wanted !== undefined) assert.equal(this.text, wanted);
  }
}

/** One's own steps are undone and done again, and what others put in stays. */
export function undoOnesOwn() {
  const typed = new Typed();
  typed.own(0, 0, "hello");
  typed.other(2, 0, "XX");
  typed.turn(false, "XX");
  typed.turn(true, "heXXllo");
  typed.own(1, 5, "Q");
  typed.other(0, 0, "--");
  typed.turn(false, "--heXXllo");
  typed.other(0, 2, "");
  typed.turn(false, "XX");
  typed.other(0, 2, "");
  typed.turn(true, "hello");
  typed.turn(true, "hQo");
  typed.turn(false, "hello");
}

/** Deletions that follow each other are one step, and others' deletions leave no step that does nothing. */
export function undoQuickly() {
  const typed = new Typed("abcdef");
  for (const place of [5, 4, 3]) typed.own(place, 1, "", place * -10);
  typed.own(0, 1, "", 60_000);
  typed.own(0, 1, "", 60_010);
  assert.equal(typed.text, "c");
  typed.turn(false, "abc");
  typed.turn(false, "abcdef");
  typed.own(6, 0, "x", 70_000);
  typed.other(6, 1, "");
  typed.turn(false, "abcdef");
  for (let n = 0; n < 20_000; n += 1) {
    typed.own(0, 0, "x");
    typed.other(0, 1, "");
  }
  typed.turn(false, "abcdef");
}

/** Changes that are told as one step are one, wherever they are; what it put in and took out itself doesn't come back. */
export function undoTogether() {
  const typed = new Typed("one two one");
  typed.own(0, 3, "three");
  typed.own(10, 3, "three", undefined, true);
  typed.other(5, 0, "X");
  typed.own(0, 1, "", undefined, true);
  assert.equal(typed.text, "hreeX two three");
  typed.turn(false, "oneX two one");
  typed.turn(true, "hreeX two three");
}

/** What doesn't fit isn't begun. */
export function mustFitWhole() {
  const typed = new Typed("12345678");
  typed.own(0, 6, "");
  typed.other(2, 0, "THEIRS");
  typed.left = 5;
  for (const _ of "12") assert.throws(() => typed.turn(false), Full);
  assert.equal(typed.text, "78THEIRS");
  typed.left = 6;
  typed.turn(false, "12345678THEIRS");
}

/** All undone is the text of before, with what others put in since, and all done again the one before that. */
export function undoAtRandom(roll, isAlone) {
  const start = "0123456789";
  const typed = new Typed(start);
  const [steps, others] = [[], []];
  for (let n = 3 + roll(6); n > 0; n -= 1) {
    const at = roll(typed.text.length + 1);
    const removed = roll(2) * Math.min(typed.text.length - at, roll(4));
    const text = "abc".slice(0, roll(4));
    if (!isAlone && roll(3) === 0) typed.other(at, 0, others[others.push("X") - 1]);
    else if (removed > 0 || text !== "") {
      const isMore = steps.length > 0 && roll(4) === 0;
      typed.own(at, removed, text, undefined, isMore);
      if (!isMore) steps.push(text);
    }
  }
  const before = typed.text;
  for (const _ of steps) typed.turn(false);
  assert.equal(typed.text.replaceAll("X", ""), start);
  assert.equal(typed.text.length, start.length + others.length);
  for (const _ of steps) typed.turn(true);
  assert.equal(typed.text, before);
}

/** Steps of several changes, and others' changes, beside a list that tells of each character who put it in and who took it out. */
export function undoBesideAList(roll) {
  const typed = new Typed();
  const [known, done, undone] = [new Map(), [], []];
  let next = 0x4e00;
  const some = () => Array.from({ length: roll(4) }, () => String.fromCodePoint(next++)).join("");
  const change = (last) => {
    const end = roll(last + 1);
    const at = roll(2) === 0 ? end : roll(end + 1);
    return { at, removed: end - at, text: some() };
  };
  /** What a step leaves of the text, or brings back. */
  const turned = (shown, step, isRedo) => {
    const wanted = new Set(shown);
    for (const [sign, { putBy, takenBy, isGone }] of known) {
      const [hides, brings] = isRedo ? [takenBy === step, putBy === step] : [putBy === step, takenBy === step];
      if (isGone || (hides && brings)) continue; // what a step put in and took out itself doesn't come back
      if (hides) wanted.delete(sign);
      if (brings) wanted.add(sign);
    }
    return wanted;
  };
  for (let n = 0; n < 60; n += 1) {
    const does = roll(10);
    if (does < 4) {
      const step = [];
      for (let m = roll(4), last = typed.text.length; m > 0; m -= 1, last = step.at(-1).at) step.push(change(last));
      const made = step.filter(({ removed, text }) => removed > 0 || text !== "");
      if (made.length === 0) continue;
      const gone = new Set(undone.splice(0));
      for (const [sign, it] of known) {
        const isShown = typed.text.includes(sign);
        it.isGone ||= !isShown && gone.has(it.putBy);
        if (isShown && gone.has(it.takenBy)) it.takenBy = null;
      }
      for (const { at, removed, text } of made) {
        for (const sign of typed.text.slice(at, at + removed)) known.get(sign).takenBy = step;
        for (const sign of text) known.set(sign, { putBy: step, takenBy: null, isGone: false });
      }
      typed.step(made);
      done.push(step);
    } else if (does < 7) {
      const { at, removed, text } = change(typed.text.length);
      for (const sign of typed.text.slice(at, at + removed)) known.get(sign).isGone = true;
      for (const sign of text) known.set(sign, { putBy: null, takenBy: null, isGone: false });
      typed.other(at, removed, text);
    } else {
      const isRedo = does === 9;
      const [from, to] = isRedo ? [undone, done] : [done, undone];
      const shown = new Set(typed.text);
      let wanted = shown;
      while (from.length > 0 && wanted.size === shown.size && [...wanted].every((it) => shown.has(it))) {
        to.push(from.pop());
        wanted = turned(shown, to.at(-1), isRedo);
      }
      typed.turn(isRedo);
      assert.deepEqual([...typed.text].sort(), [...wanted].sort());
    }
  }
}
