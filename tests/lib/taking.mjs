// What tests/try_merging plays of clients/stdio without a server: an editor's text beside the session's, each character of which is known by
// itself, while both change at random. What is right is told by plain lists of characters.
import assert from "node:assert/strict";
import { COUNTS, gone, size } from "../../clients/stdio/count.js";
import { EditorText } from "../../clients/stdio/editor_text.js";
import { Full } from "../../clients/stdio/module.js";
import { dice } from "./room.mjs";

/** Characters of one to four bytes in turn, none of them twice. */
const STARTS = [0x21, 0xa1, 0x4e00, 0x20000];
const MOST = { 0x21: 90, 0xa1: 1_500, 0x4e00: 20_000, 0x20000: 40_000 };

/** What each count says of a text, by what the language has for it. */
const PLAIN = { units: (text) => text.length, characters: (text) => [...text].length, bytes: (text) => Buffer.byteLength(text) };

/** An editor and a session, with plain lists of their characters. */
class Both {
  constructor(seed, count) {
    Object.assign(this, { roll: dice(seed), count, text: new EditorText(), editor: [], session: [], used: {}, refused: [], moved: [] });
  }

  /** Some characters that stand nowhere yet. */
  some() {
    return Array.from({ length: 1 + this.roll(4) }, () => {
      const usable = STARTS.filter((it) => (this.used[it] ?? 0) < MOST[it]);
      const start = usable[this.roll(usable.length)];
      this.used[start] = (this.used[start] ?? 0) + 1;
      return String.fromCodePoint(start + this.used[start]);
    });
  }

  /** A place in a list, and how many from there on. */
  range(list) {
    const at = this.roll(list.length + 1);
    return [at, this.roll(2) * this.roll(Math.min(5, list.length - at + 1))];
  }

  /** Others, or an undo, change the session's text: that may be a move. */
  others() {
    const [at, removed] = this.range(this.session);
    const before = this.session.slice(0, at).join("").length;
    const taken = this.session.splice(at, removed);
    const isMove = removed > 0 && this.roll(4) === 0;
    const put = isMove ? taken : this.some();
    if (isMove) this.moved.push(...taken); // to the editor they are gone, and others come
    const to = isMove ? this.roll(this.session.length + 1) : at;
    const change = { at: before, removed: taken.join("").length, text: put.join("") };
    this.text.follow([isMove ? { ...change, to: this.session.slice(0, to).join("").length } : change]);
    this.session.splice(to, 0, ...put);
  }

  /** The editor changes its text at some places, from the last one to the first; the session may refuse that. */
  edits() {
    const edits = [];
    for (let n = 1 + this.roll(3), last = this.editor.length; n > 0; n -= 1, last = edits.at(-1).at) {
      const end = this.roll(3) === 0 ? last : this.roll(last + 1);
      const at = Math.max(0, end - this.roll(2) * this.roll(5));
      edits.push({ at, removed: end - at, put: this.roll(3) > 0 ? this.some() : [] });
    }
    const isRefused = this.roll(8) === 0;
    const [before, editor] = [[...this.session], [...this.editor]];
    const units = (from, to) => editor.slice(from, to).join("").length;
    const changes = edits.map(({ at, removed, put }) => {
      return { at: units(0, at), removed: units(at, at + removed), text: put.join(""), behind: this.roll(3) };
    });
    const make = (made) => {
      if (isRefused) throw new Full(0);
      let shown = this.session.join("");
      for (const [n, { at: place, removed: length, text, taken: out }] of made.entries()) {
        assert.equal(shown.slice(place, place + length), out);
        assert.ok(n === 0 || place + length <= made[n - 1].at, "from the last one to the first");
        shown = shown.slice(0, place) + text + shown.slice(place + length);
      }
      this.session = [...shown];
    };
    if (isRefused) assert.throws(() => this.text.replace(changes, make), Full);
    else this.text.replace(changes, make);
    const put = edits.flatMap((it) => it.put);
    const taken = edits.flatMap(({ at, removed, put }) => this.editor.splice(at, removed, ...put));
    if (isRefused) return this.refused.push(...put);
    const isPut = new Set(put);
    const isTaken = new Set(taken.filter((it) => !this.moved.includes(it)));
    const [left, wanted] = [this.session.filter((it) => !isPut.has(it)), before.filter((it) => !isTaken.has(it))];
    assert.deepEqual(left, wanted, "others' text stays, and its order");
    for (const it of edits) {
      const first = this.session.indexOf(it.put[0]);
      if (first < 0) continue;
      assert.deepEqual(this.session.slice(first, first + it.put.length), it.put, "what is put in stays together");
      const neighbour = editor[it.at - 1];
      const isAlone = edits.every((other) => other === it || other.at + other.removed < it.at || other.at > it.at);
      const isBehind = isAlone && this.session.includes(neighbour) && !this.moved.includes(neighbour);
      if (isBehind) assert.equal(this.session[first - 1], neighbour, "it stands right behind the character that it was put in behind");
    }
  }

  /** The editor takes what there is, in its own count, and has the session's text then. */
  take() {
    const hasNews = this.text.hasNews;
    const shown = this.editor.join("");
    assert.equal(this.text.text, shown, "the editor's text is known");
    const changes = this.text.take(COUNTS[this.count]);
    assert.equal(changes.length > 0, hasNews);
    let text = shown;
    for (const [at, removed, put] of changes) {
      const { index, rest } = gone(text, at, COUNTS[this.count]);
      const end = gone(text.slice(index), removed, COUNTS[this.count]);
      assert.deepEqual([rest, end.rest], [0, 0]);
      assert.equal(PLAIN[this.count](text.slice(0, index)), at, "places are counted as the editor counts");
      text = text.slice(0, index) + put + text.slice(index + end.index);
    }
    this.editor = [...text];
    this.moved = [];
    assert.deepEqual(this.editor, this.session, "the editor has the session's text");
    assert.ok(this.refused.every((it) => !this.editor.includes(it)), "what was refused is taken back");
  }
}

for (const count of Object.keys(COUNTS)) {
  for (let seed = 1; seed <= 200; seed += 1) {
    const both = new Both(seed, count);
    for (let n = 0; n < 150; n += 1) {
      const does = both.roll(10);
      if (does < 4) both.others();
      else if (does < 9) both.edits();
      else both.take();
    }
    both.take();
  }
}
for (const [count, plain] of Object.entries(PLAIN)) {
  for (const text of ["", "a", "é", "\u{4e00}", "\u{1f600}x", "\0\r\n"]) assert.equal(size(text, COUNTS[count]), plain(text));
}
const text = new EditorText();
const first = (text, removed = 0, behind = 0) => [{ at: 0, removed, text, behind }];
text.replace(first("a\udcffb"), (changes) => assert.equal(changes[0].text, "a\ufffdb"));
assert.deepEqual(text.take(COUNTS.bytes), [[1, 1, "\ufffd"]], "a byte that is no UTF-8 becomes U+FFFD");
const half = new EditorText();
half.replace(first("\ud83d"), () => {});
half.replace(first("😀", 1), (changes) => assert.deepEqual(changes, [{ at: 0, removed: 1, text: "😀", taken: "\ufffd" }]));
assert.deepEqual(half.take(COUNTS.units), [], "nothing is left of half a pair that is replaced");
half.replace(first("\ud83d", 2), () => {});
half.replace([{ at: 1, removed: 0, text: "\ude00", behind: 0 }], () => {});
assert.deepEqual(half.take(COUNTS.bytes), [[0, 2, "\ufffd\ufffd"]], "halves that came one by one are no pair");
for (const [from, to, caret, wanted] of [
  ["aaa", "aaaa", 1, [[0, 0, "a"]]],
  ["aaa", "aaaa", 3, [[2, 0, "a"]]],
  ["the cat the end", "some cat some end", 17, [[8, 2, "som"], [0, 2, "som"]]],
  ["same", "same", 0, []],
]) {
  const one = new EditorText();
  one.replace(first(from), () => {});
  one.replace(first(to, from.length, to.length - caret), (changes) => {
    const told = changes.map((it) => [it.at, it.removed, it.text]);
    assert.deepEqual(told, wanted, "what stays is no change, and the caret tells where letters are alike");
  });
}
console.log("tests/lib/taking.mjs: an editor that takes what there is has the session's text, in each count");
