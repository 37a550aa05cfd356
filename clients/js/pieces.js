/**
 * The list of pieces of a document: what is shown are those that aren't gone, and the room's text are those that are its own. A place is
 * one of the shown text or one of the room's, and both count UTF-16 units.
 */
import { joined } from "./along.js";
import { add } from "./changes.js";
import { Gap } from "./gap.js";
import { Piece } from "./piece.js";

/**
 * Milliseconds for which others are waited for to put in again what the room lost; and for a letter or two, which anybody may type, and
 * what was deleted here, since whoever types that anew wants it.
 */
const RETURNED = 60_000;
const SOON = 10_000;

/** So many units of a text are surely the same where they come again. */
export const SAME = 3;

export class Pieces {
  /** @type {Piece[]} */
  #list = [];
  #signs = null; // how often each character stands in what isn't lost, once that was asked for
  #lostUntil = 0; // what others put in and the room lost is waited for till then
  #waits = 0; // how often it was waited so
  #soonUntil = 0; // as long as others put it in again, and some time more

  get list() {
    return this.#list;
  }

  set list(list) {
    this.#list = list;
    this.#signs = null;
  }

  /** The text of some of them. */
  text(isWanted) {
    return this.list.map((piece) => (isWanted(piece) ? piece.text : "")).join("");
  }

  /** The number of the piece of the room's that begins at the place of its text: one that the place is inside of is cut there. */
  atRooms(k) {
    let rest = k;
    for (let index = 0; index < this.list.length; index += 1) {
      const { isRooms, text } = this.list[index];
      if (!isRooms) continue;
      if (rest === 0) return index;
      if (rest < text.length) {
        this.cut(index, rest);
        return index + 1;
      }
      rest -= text.length;
    }
    if (rest !== 0) throw new RangeError("beyond the room's text");
    return this.list.length;
  }

  /** The room's pieces that are so many units of its text from a place on. They are cut at both ends. */
  rooms(k, units) {
    const found = [];
    let rest = units;
    for (let index = rest > 0 ? this.atRooms(k) : 0; rest > 0; index += 1) {
      const piece = this.list[index];
      if (!piece.isRooms) continue;
      if (piece.text.length > rest) this.cut(index, rest);
      rest -= piece.text.length;
      found.push(piece);
    }
    return found;
  }

  /** How many units of the room's text stand before a piece. */
  roomPlace(index) {
    let units = 0;
    for (let i = 0; i < index; i += 1) if (this.list[i].isRooms) units += this.list[i].text.length;
    return units;
  }

  /** How many units that are shown stand before a piece. */
  shownPlace(index) {
    let units = 0;
    for (let i = 0; i < index; i += 1) if (this.list[i].isShown) units += this.list[i].text.length;
    return units;
  }

  /** Cuts a piece: what stands behind the place is the next one. */
  cut(index, place) {
    if (place < this.list[index].text.length) this.list.splice(index + 1, 0, this.list[index].cut(place));
  }

  /** Takes a piece out that isn't lost. */
  remove(index) {
    const [{ text }] = this.list.splice(index, 1);
    this.#count(text, -1);
  }

  /** Joins the pieces round a number that are of one kind, but for what is lost, which may be looked at. */
  joinAt(index) {
    for (let at = Math.min(index + 1, this.list.length - 1); at >= Math.max(1, index - 1); at -= 1) {
      const [left, piece] = this.list.slice(at - 1, at + 1);
      if (piece.isLost || !left.isLike(piece)) continue;
      left.join(piece);
      this.list.splice(at, 1);
    }
  }

  /** Joins all neighbours of one kind. */
  join() {
    this.list = joined(this.list);
  }

  get hasLost() {
    return this.#lostUntil > 0;
  }

  /** Whether the wait for lost text has just begun, or some has just come again. */
  get #isSoon() {
    return Date.now() < this.#soonUntil;
  }

  /** The number of the wait for lost text, or 0. */
  get #now() {
    return this.hasLost ? this.#waits : 0;
  }

  /** Others are waited for, to put in again what is lost now. Of what was lost before only what was deleted here is waited for. */
  awaitLost() {
    if (!this.hasLost) this.#waits += 1;
    this.#lostUntil = Date.now() + RETURNED;
    this.#soonUntil = Date.now() + SOON;
    this.list = this.list.filter(({ isLost, gone }) => !(isLost && gone === "others"));
  }

  /** Lets go of what others haven't put in again. */
  forgetLost() {
    if (!this.hasLost || Date.now() < this.#lostUntil) return;
    this.#lostUntil = 0;
    this.list = this.list.filter((piece) => !piece.isLost);
    for (const piece of this.list) piece.since = 0;
    this.join();
  }

  /** The lost pieces at a place, and beside it as far as what stands between came since. */
  #lostAt(k) {
    const { list } = this;
    const isOlder = ({ isRooms, since }) => isRooms && since !== this.#now;
    let at = this.atRooms(k);
    while (at > 0 && !isOlder(list[at - 1])) at -= 1;
    const lost = [];
    for (; at < list.length && !isOlder(list[at]); at += 1) {
      if (list[at].isLost && (this.#isSoon || list[at].gone === "others")) lost.push(list[at]);
    }
    return lost;
  }

  /** Takes so many units of a lost piece off, and gives them as a piece of their own. */
  #lostPart(piece, start, units) {
    const rest = start > 0 ? piece.cut(start) : piece;
    if (rest !== piece) this.list.splice(this.list.indexOf(piece) + 1, 0, rest);
    this.cut(this.list.indexOf(rest), units);
    return rest;
  }

  /** How often a character stands in what isn't lost. */
  #countOf(sign) {
    if (this.#signs === null) {
      this.#signs = new Map();
      for (const { text, isLost } of this.list) if (!isLost) this.#count(text, 1);
    }
    return this.#signs.get(sign) ?? 0;
  }

  /** A text is there once more, or less, that isn't lost. */
  #count(text, by) {
    if (this.#signs !== null) for (const sign of text) this.#signs.set(sign, (this.#signs.get(sign) ?? 0) + by);
  }

  /**
   * The parts of a text that others put in, each with the lost piece that it is where they put it in again. That is so where the text was
   * lost there in one piece; but a letter or two may be anybody's, so they count soon, and where nothing else was lost there. Else it is so
   * of a character that stands nowhere else.
   */
  #parts(k, text) {
    let lost = this.#lostAt(k);
    const all = lost.map((piece) => piece.text).join("");
    let start = all.indexOf(text);
    const parts = [];
    if (start >= 0 && (text.length >= SAME || (all === text && this.#isSoon))) {
      for (let rest = text.length, n = 0; rest > 0; n += 1) {
        if (start < lost[n].text.length) {
          const piece = this.#lostPart(lost[n], start, rest);
          parts.push({ text: piece.text, piece });
          rest -= piece.text.length;
        }
        start = Math.max(0, start - lost[n].text.length);
      }
      return parts;
    }
    const standsOnce = (sign, within) => within.includes(sign) && within.indexOf(sign) === within.lastIndexOf(sign);
    for (const sign of text) {
      if (standsOnce(sign, all) && standsOnce(sign, text) && this.#countOf(sign) === 0) {
        const it = lost.find((piece) => piece.text.includes(sign));
        const piece = this.#lostPart(it, it.text.indexOf(sign), sign.length);
        lost = this.#lostAt(k);
        parts.push({ text: sign, piece });
      } else if (parts.length > 0 && parts.at(-1).piece === null) {
        parts.at(-1).text += sign;
      } else {
        parts.push({ text: sign, piece: null });
      }
    }
    return parts;
  }

  /**
   * A text that others put in: behind what is pending at its place, which stands right behind what is before it. What they put in again
   * stands where it stood, and what was deleted of it here is deleted again.
   */
  put(k, text, changes) {
    for (const { text: part, piece } of this.hasLost ? this.#parts(k, text) : [{ text, piece: null }]) {
      const index = piece === null ? -1 : this.list.indexOf(piece);
      const isThere = index >= 0 && this.roomPlace(index) === k;
      if (index >= 0) this.list.splice(index, 1);
      if (piece !== null && this.#isSoon) this.#soonUntil = Date.now() + SOON;
      this.#place(isThere ? index : this.atRooms(k), part, piece === null || piece.gone === "others" ? null : "new", changes);
      k += part.length;
    }
  }

  #place(index, text, gone, changes) {
    const { list } = this;
    if (gone === null) add(changes, { at: this.shownPlace(index), removed: 0, text });
    this.#count(text, 1);
    const piece = new Piece(text, "room", gone, 0, this.#now);
    const left = list[index - 1];
    if (left?.isLike(piece)) left.text += text;
    else list.splice(index, 0, piece);
    this.joinAt(index);
  }

  /** Units of the room's text that are deleted, by whom ever. What was gone is gone for good. Gives the pieces. */
  take(k, units, changes) {
    const { list } = this;
    const taken = this.rooms(k, units);
    let index = 0;
    for (const piece of taken) {
      index = list.indexOf(piece);
      if (piece.isShown) add(changes, { at: this.shownPlace(index), removed: piece.text.length, text: "" });
      this.remove(index);
    }
    this.joinAt(index);
    return taken;
  }

  /** The room lost so many units from a place on, all put in here, or all by others. */
  lose({ at, put, isOwn }, changes) {
    for (const piece of this.rooms(at, put)) {
      const index = this.list.indexOf(piece);
      if (piece.isShown && !isOwn) add(changes, { at: this.shownPlace(index), removed: piece.text.length, text: "" });
      if (!piece.lose(isOwn)) this.remove(index);
      else if (!isOwn) this.#count(piece.text, -1);
    }
  }

  /**
   * The room lost what came in these ways, the last one first, and others are waited for to do it again. Each unit has a number meanwhile:
   * the room's text is a list of these, and of each unit it is told which one stands before it, and who put it in where it is lost.
   * @param {import("./memory.js").Way[]} ways
   */
  goBack(ways) {
    this.awaitLost();
    const units = [];
    const number = (piece) => {
      for (let place = 0; place < piece.text.length; place += 1) units.push({ piece, place, before: units.length - 1, isOwn: null });
    };
    for (const piece of [...this.list, new Piece(" ", "room")]) number(piece); // the last one is the end
    const end = units.at(-1);
    const rooms = new Gap(Int32Array.from(units.keys()).filter((n) => units[n].piece.isRooms));
    for (const { at, taken, put, isOwn } of ways) {
      const first = units.length;
      for (const { text, isMine, since } of taken) number(new Piece(text, "room", isMine ? "new" : "others", 0, since));
      const old = Array.from({ length: units.length - first }, (_, n) => first + n);
      for (const n of rooms.replace(at, put, old)) units[n].isOwn = isOwn;
      const next = units[rooms.at(at + old.length)];
      if (old.length > 0) [units[first].before, next.before] = [next.before, units.length - 1];
    }
    const list = [];
    for (let last = end.before; last >= 0; ) {
      const { piece, place, isOwn } = units[last];
      let first = last;
      while (units[first].place > 0 && units[first].before === first - 1 && units[first - 1].isOwn === isOwn) first -= 1;
      const part = piece.part(units[first].place, place + 1);
      if (isOwn === null || part.lose(isOwn)) list.push(part);
      last = units[first].before;
    }
    this.list = list.reverse();
    return this.#seen();
  }

  /** What others put in and the room lost is shown no more, and what they deleted is shown again. Gives the changes of the shown text. */
  #seen() {
    const changes = [];
    const isUnseen = ({ isLost, gone }) => isLost && gone === "others";
    const before = this.list.filter((piece) => piece.isShown || isUnseen(piece));
    let at = before.reduce((sum, { text }) => sum + text.length, 0);
    for (const piece of before.reverse()) {
      at -= piece.text.length;
      if (isUnseen(piece)) add(changes, { at, removed: piece.text.length, text: "" });
    }
    for (const piece of this.list) {
      if (piece.isRooms && piece.gone === "others") {
        piece.gone = null;
        add(changes, { at, removed: 0, text: piece.text });
      }
      if (piece.isShown) at += piece.text.length;
    }
    this.join();
    return changes;
  }

  /** A character that was under way is the room's now. Where it stands elsewhere than it is shown, what is pending there moves. */
  settle(k, ch, changes) {
    const { list } = this;
    const piece = list.find(({ owner }) => owner === "sent");
    if (piece === undefined || !piece.text.startsWith(ch)) throw new Error("an edit of another submission");
    if (this.roomPlace(list.indexOf(piece)) !== k) this.#move(piece, k, changes);
    const index = list.indexOf(piece);
    this.cut(index, ch.length);
    this.comes(piece);
    this.joinAt(index);
  }

  /** What was under way is the room's now. */
  comes(piece) {
    piece.owner = "room";
    piece.since = this.#now;
    if (piece.isShown) piece.order = 0;
  }

  /**
   * Moves a piece that is under way to a place of the room's text, and with it what is pending behind it up to the room's next piece. What
   * is pending on the way moves along, so that all that was typed here keeps its order.
   */
  #move(piece, k, changes) {
    const { list } = this;
    const place = this.atRooms(k);
    const from = list.indexOf(piece);
    const isLeft = place < from;
    let end = isLeft ? from : place;
    if (isLeft) while (end < list.length && !list[end].isRooms) end += 1;
    else while (!list[end - 1].isRooms) end -= 1;
    const moved = list.slice(isLeft ? place : from, end).filter(({ isRooms, isLost }) => !isRooms && !isLost);
    let before = list[(isLeft ? place : end) - 1];
    while (moved.length > 0) {
      const first = list.indexOf(moved[0]);
      let count = 1;
      while (count < moved.length && list[first + count] === moved[count]) count += 1;
      const at = this.shownPlace(first);
      const run = list.splice(first, count);
      const text = run.map((it) => (it.isShown ? it.text : "")).join("");
      const next = list.indexOf(before) + 1;
      const to = this.shownPlace(next);
      if (text !== "" && to !== at) changes.push({ at, removed: text.length, text, to });
      list.splice(next, 0, ...run);
      before = run.at(-1);
      moved.splice(0, count);
    }
  }
}
