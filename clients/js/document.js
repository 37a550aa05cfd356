/**
 * The text of an editor over a room's text: what is shown, with the changes that the room doesn't have yet. It has no socket and knows
 * no session; rgatext.js speaks the protocol for it. All places count UTF-16 units, as JavaScript does.
 *
 * The text is a list of pieces. A piece is the room's, or it was put in here and is new or under way; and it may be gone, which is a
 * deletion that is new or under way. What is shown are the pieces that aren't gone. The room's text are the pieces that are its own.
 */
import { along } from "./along.js";
import { differences } from "./differences.js";
import { Memory, runsOf } from "./memory.js";
import { Piece } from "./piece.js";
import { Pieces, SAME } from "./pieces.js";
import { beginning, characters, isInside } from "./text.js";

/** The most characters of an insertion, units of a deletion, edits of a pull and operations of an `ops`. */
export const MOST = 64;

/** @typedef {import("./changes.js").Change} Change */

/**
 * An edit as docs/PROTOCOL.md has it, of a session that counts UTF-16 units.
 * @typedef {["i", number, string] | ["d", number, number] | ["n"]} Edit
 */

/**
 * What is to be sent next: its kind, its place in the room's text at the document's version, and its text or how many units it deletes.
 * @typedef {{t: "ins", k: number, x: string} | {t: "del", k: number, c: number}} Submission
 */

/** @typedef {{kind: "put in" | "deleted", text: string}} Unsent */
/** @typedef {import("./memory.js").Known} Known */

const NONE = [];

/** How many units of what is shown a piece is. */
const shownUnits = (piece) => (piece.isShown ? piece.text.length : 0);

/** What is remembered of a piece of the room's that is deleted: also whether it was deleted here. */
const remembered = ({ text, isShown, since }) => ({ text, isMine: !isShown, since });

/** How a text was put in at a place, of which the parts that stand in a list were put in here. @returns {import("./memory.js").Way[]} */
function waysOf(at, text, own) {
  const part = own.find((it) => text.includes(it));
  if (part === undefined) return [{ at, taken: NONE, put: text.length, isOwn: false }];
  const start = text.indexOf(part);
  const end = start + part.length;
  const way = { at: at + start, taken: NONE, put: part.length, isOwn: true };
  return [...waysOf(at, text.slice(0, start), own), way, ...waysOf(at + end, text.slice(end), own)];
}

/** What is known of operations, one object for those that are alike: many thousands are remembered. */
const alike = new Map();
function knownAs(sign, site) {
  if (alike.size === 10_000) alike.clear();
  const key = `${site} ${sign}`;
  if (!alike.has(key)) alike.set(key, { sign, site });
  return alike.get(key);
}

export class Document {
  #pieces = new Pieces();
  #orders = 0;
  /** What is under way: nothing, or what was sent; once it is accepted, from and to which version it leads. */
  #sent = null;
  /** What has come in another run, and may stand elsewhere there. @type {string[]} */
  #come = [];

  /**
   * The document of a room's text at a version, whose log has this last.
   * @param {Known[]} last
   */
  constructor(text = "", version = 0, last = []) {
    if (text !== "") this.#pieces.list.push(new Piece(text, "room"));
    this.version = version;
    this.memory = new Memory(version, last, new Int32Array(text.length));
    /** How many units were there at first: whether the clients of who put them in are there still isn't known. */
    this.inherited = text.length;
    /**
     * What the log has of the first submission that was accepted in the server's run, and from which version on.
     * @type {{from: number, known: Known[]} | null}
     */
    this.first = null;
    /** How many operations of each site the log had where the room was joined, as its last ones told. @type {Map<number, number>} */
    this.counts = new Map();
  }

  /** The site of the server's run, once an accepted submission has told it. */
  get site() {
    return this.first === null ? null : this.first.known[0].site;
  }

  /** The text that is shown. */
  get text() {
    return this.#pieces.text((piece) => piece.isShown);
  }

  /** The room's text at the document's version. */
  get roomText() {
    return this.#pieces.text((piece) => piece.isRooms);
  }

  /** The room's text as it is once what is under way is played. */
  get textToCome() {
    return this.#pieces.text((piece) => (piece.isRooms || piece.owner === "sent") && piece.gone !== "sent");
  }

  /**
   * What is under way and wasn't played yet, or null: where it was put in or deleted in the room's text, and its characters.
   */
  get underWay() {
    if (this.#sent === null) return null;
    const isUnderWay = (piece) => piece.owner === "sent" || piece.gone === "sent";
    const first = this.#pieces.list.findIndex(isUnderWay);
    const isPut = this.#sent.submission.t === "ins";
    return { isPut, k: this.#pieces.roomPlace(first), signs: [...this.#pieces.text(isUnderWay)] };
  }

  /**
   * What was changed here and the room isn't known to have: the texts that were put in, and those that were deleted.
   */
  get unsent() {
    /** @type {Unsent[]} */
    const unsent = [];
    for (const { text, isShown, isRooms, isLost } of this.#pieces.list) {
      if (!isLost && !(isShown && isRooms)) unsent.push({ kind: isShown ? "put in" : "deleted", text });
    }
    return unsent;
  }

  /** How many changes of the room's text are new or under way: characters to put in, and such to delete. */
  get pending() {
    let count = 0;
    for (const { text, isShown, isRooms, isLost } of this.#pieces.list) {
      if (!isLost && !isRooms) count += characters(text);
      if (!isLost && !isShown) count += characters(text);
    }
    return count;
  }

  /**
   * How many more changes are pending where the shown text is changed so, from the last place to the first; fewer than none where what is
   * new is taken out.
   * @param {Change[]} changes
   */
  cost(changes) {
    let count = 0;
    for (const [change, piece] of along(changes, this.#pieces.list, shownUnits)) {
      if (piece === null) count += characters(change.text.toWellFormed());
      else if (change !== null && piece.isShown) count += piece.owner === "new" ? -characters(piece.text) : characters(piece.text);
    }
    return count;
  }

  /** Whether a submission is under way, accepted or not, whose edits weren't played yet. */
  get isWaiting() {
    return this.#sent !== null;
  }

  /** From and to which version what is under way leads, once it is accepted. */
  get accepted() {
    return this.#sent === null || this.#sent.from === null ? null : [this.#sent.from, this.#sent.to];
  }

  /**
   * What the user does: each change removes so many units at a place of the shown text, and puts a text in there. They are changes of one
   * text, from the last place to the first. No end is inside of a pair. A unit of a pair that stands alone in a text, which no room takes,
   * becomes U+FFFD. Gives the changes that were made.
   * @param {Change[]} changes
   * @returns {Change[]}
   */
  replace(changes) {
    this.#mustBePlaces(changes);
    const made = changes.map(({ at, removed, text }) => ({ at, removed, text: text.toWellFormed() }));
    const pieces = [];
    const real = made.filter(({ removed, text }) => removed > 0 || text !== "");
    let order = 0;
    for (const [change, piece] of along(real, this.#pieces.list, shownUnits)) {
      if (piece === null) {
        if (change.removed > 0) order = this.#orders += 1;
        if (change.text !== "") this.#put(change.text, pieces);
      } else if (change === null || !piece.isShown) {
        pieces.push(piece);
      } else if (piece.owner !== "new") {
        pieces.push(Object.assign(piece, { gone: "new", order }));
      }
    }
    this.#pieces.list = pieces;
    return made;
  }

  #mustBePlaces(changes) {
    const shown = this.text;
    let last = shown.length;
    for (const { at, removed } of changes) {
      const isWithin = Number.isInteger(at) && Number.isInteger(removed) && at >= 0 && removed >= 0 && at + removed <= shown.length;
      if (!isWithin) throw new RangeError("beyond the text");
      if (at + removed > last) throw new RangeError("not from the last place to the first");
      if (isInside(shown, at) || isInside(shown, at + removed)) throw new RangeError("inside of a pair");
      last = at;
    }
  }

  /** Puts a text in behind pieces. What is new there already takes it in. */
  #put(text, pieces) {
    const left = pieces.at(-1);
    if (left?.owner === "new" && left.isShown) left.text += text;
    else pieces.push(new Piece(text, "new", null, (this.#orders += 1)));
  }

  /** The order of what is made next: all that is pending now has that of before. */
  get order() {
    return this.#orders + 1;
  }

  /**
   * What is to be sent next, and marks it as under way; nothing where all is sent that was made before an order, or something is under way.
   * What was done first is sent first.
   * @returns {Submission | null}
   */
  next(before = Infinity) {
    const first = this.#sent === null ? this.#first(before) : -1;
    if (first < 0) return null;
    this.#sent = this.#pieces.list[first].isRooms ? this.#deletion(first, before) : this.#insertion(first);
    return this.#sent.submission;
  }

  /** Whether something is new that was made before an order. */
  hasNew(before = Infinity) {
    return this.#first(before) >= 0;
  }

  /** Whether something that was made before an order isn't known to be in the room. */
  isPending(before) {
    return this.#pieces.list.some(({ isPending, order }) => isPending && order < before);
  }

  #first(before) {
    const { list } = this.#pieces;
    let first = -1;
    for (const [index, piece] of list.entries()) {
      if (piece.isNew && piece.order < before && (first < 0 || piece.order < list[first].order)) first = index;
    }
    return first;
  }

  #insertion(index) {
    const piece = this.#pieces.list[index];
    const k = this.#pieces.roomPlace(index);
    const x = beginning(piece.text, MOST);
    this.#pieces.cut(index, x.length);
    piece.owner = "sent";
    return { submission: { t: "ins", k, x }, from: null, to: null };
  }

  /**
   * The deletion of what is gone round a piece, without a gap in the room's text: one may have gone back over it. What was deleted to the
   * left of it behind an order, or once something was put in that is new, isn't taken along.
   */
  #deletion(index, before) {
    const { list } = this.#pieces;
    const until = list.reduce((least, it) => (it.owner === "new" ? Math.min(least, it.order) : least), before);
    let first = index;
    for (let at = index - 1, units = list[index].text.length; at >= 0; at -= 1) {
      if (!list[at].isRooms) continue;
      units += list[at].text.length;
      if (list[at].gone !== "new" || list[at].order >= until || units > MOST) break;
      first = at;
    }
    const k = this.#pieces.roomPlace(first);
    let c = 0;
    for (let at = first; at < list.length; at += 1) {
      const piece = list[at];
      if (!piece.isRooms) continue;
      if (piece.gone !== "new") break;
      let most = Math.min(MOST - c, piece.text.length);
      if (isInside(piece.text, most)) most -= 1;
      if (most === 0) break;
      this.#pieces.cut(at, most);
      piece.gone = "sent";
      c += most;
    }
    return { submission: { t: "del", k, c }, from: null, to: null };
  }

  /**
   * What is under way was accepted: it leads from a version to another, and the edits between them are its own. Gives whether it was so:
   * an answer that leads from before what was pulled is that of an earlier submission, which comes once more.
   */
  accept(from, to) {
    if (this.#sent === null || from < this.version) return false;
    this.#sent.from = from;
    this.#sent.to = to;
    return true;
  }

  /** What is under way wasn't accepted: it is new again. */
  takeBack() {
    this.#sent = null;
    for (const piece of this.#pieces.list) {
      if (piece.owner === "sent") piece.owner = "new";
      if (piece.gone === "sent") piece.gone = "new";
    }
    this.#pieces.join();
  }

  /**
   * So many characters of what is under way are the room's, where they are shown: its log has them from a version on. The others are new
   * again.
   */
  came(from, count) {
    const { list } = this.#pieces;
    let rest = count;
    for (let index = 0; index < list.length && rest > 0; index += 1) {
      const piece = list[index];
      if (piece.owner !== "sent" && piece.gone !== "sent") continue;
      this.#pieces.cut(index, beginning(piece.text, rest).length);
      rest -= characters(piece.text);
      const at = this.#pieces.roomPlace(index);
      const isPut = piece.owner === "sent";
      if (isPut && piece.text.length >= SAME) this.#come.push(piece.text);
      if (isPut) this.#pieces.comes(piece);
      else this.#pieces.remove(index--);
      const way = isPut ? { at, taken: [], put: piece.text.length } : { at, taken: [remembered(piece)], put: 0 };
      this.#remember(from, [...piece.text].map((sign) => (isPut ? sign : "")), { ...way, isOwn: true });
      from += characters(piece.text);
    }
    this.takeBack();
  }

  #remember(from, signs, way) {
    const { isOwn } = way;
    const told = (n) => (isOwn && this.first !== null ? this.first.known[from + n - this.first.from] : undefined);
    const known = signs.map((sign, n) => told(n) ?? knownAs(sign, isOwn ? this.site : null));
    this.memory.add({ from, to: from + signs.length, known, ways: [way] });
  }

  /**
   * Plays edits that lead from the document's version on, and gives the changes of the shown text, each of the text that the ones before
   * lead to. While something is under way it has to be accepted before. Edits from another version come late or once more, and change
   * nothing.
   * @param {Edit[]} edits
   * @returns {Change[]}
   */
  play(edits, from = this.version) {
    const changes = [];
    if (from !== this.version) return changes;
    this.#pieces.forgetLost();
    let put = 0; // so many edits were put in with those before
    for (const [index, edit] of edits.entries()) {
      const isOwn = this.#isOwn(this.version);
      const way = { at: edit[1] ?? 0, taken: NONE, put: 0, isOwn };
      const sign = edit[0] === "i" ? edit[2] : "";
      if (edit[0] === "i") {
        way.put = sign.length;
        if (isOwn) this.#pieces.settle(edit[1], edit[2], changes);
        else if (put > 0) put -= 1;
        else put = this.#putRun(edits, index, changes);
      } else if (edit[0] === "d") {
        way.taken = this.#pieces.take(edit[1], edit[2], changes).map(remembered);
      }
      this.#remember(this.version, [sign], way);
      this.version += 1;
      if (isOwn && this.version === this.#sent.to) this.#sent = null;
    }
    return changes;
  }

  /** Whether the edit that leads from a version on is one's own. */
  #isOwn(version) {
    return this.#sent !== null && this.#sent.from !== null && this.#sent.from <= version && version < this.#sent.to;
  }

  /** Puts in what others did from an edit on. Gives how many edits more it takes in: a text that may have been lost counts as a whole. */
  #putRun(edits, first, changes) {
    const [, k] = edits[first];
    let text = edits[first][2];
    let more = 0;
    if (this.#pieces.hasLost) {
      for (; edits[first + more + 1]?.[0] === "i" && edits[first + more + 1][1] === k + text.length; more += 1) {
        if (this.#isOwn(this.version + more + 1)) break;
        text += edits[first + more + 1][2];
      }
    }
    this.#pieces.put(k, text, changes);
    return more;
  }

  /**
   * The room has another text by now, of a version whose way from this one isn't known: what both have in common stays. `isLost`: what it
   * lacks it lost, so what was put in here of that is new again.
   */
  follow({ roomText, version, memory }, isLost = false) {
    const changes = [];
    const ways = [];
    const own = isLost ? this.memory.own : [];
    const before = this.roomText;
    const differ = differences(before, roomText);
    const gone = differ.map(({ at, removed }) => before.slice(at, at + removed));
    const moved = this.#come.splice(0).filter((it) => gone.some((text) => text.includes(it)));
    for (const { at, removed, text } of differ) {
      const taken = this.#pieces.rooms(at, removed);
      ways.push({ at, taken: taken.map(remembered), put: 0, isOwn: false }, ...waysOf(at, text, moved));
      if (isLost) for (const run of runsOf(own, at, removed)) this.#pieces.lose(run, changes);
      else this.#pieces.take(at, removed, changes);
      if (text !== "") this.#pieces.put(at, text, changes);
    }
    const known = memory.last(version);
    if (version > this.version || ways.length > 0) this.memory.add({ from: this.version, to: version, known, ways });
    this.version = version;
    return changes;
  }

  /**
   * The room has lost all that came behind so many entries of the memory, as `Memory.since` tells. What was done here since is new again,
   * what others did is undone: they do it again. Gives the changes of the shown text.
   */
  goBack(length, isOwnAlone = false) {
    const ways = [];
    this.takeBack();
    for (const entry of this.memory.since(length, isOwnAlone)) {
      ways.push(...entry.ways.reverse());
      this.version = Math.min(this.version, entry.from);
    }
    return this.#pieces.goBack(ways);
  }

  /** The room has the text with another log, of which so many operations make it. */
  renew(version, last) {
    this.version = version;
    this.memory = this.memory.renewed(version, last);
  }
}
