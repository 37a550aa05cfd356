/**
 * How a document goes on in a room that may be another run of the server: with the same log, with one that lost its end, or with a new log
 * of the same text. What was done here and the room doesn't have is pending then.
 */
import { differences, distance } from "./differences.js";
import { Document } from "./document.js";
import { SAME } from "./pieces.js";

/**
 * @typedef {import("./changes.js").Change} Change
 * @typedef {import("./document.js").Edit} Edit
 */

/** A text of so few units may have become any other. */
const SHORT = 64;

/** Unrelated texts of one language have a hundredth in common in pieces of so many units, and more than a quarter in shorter ones. */
const PIECE = 8;

/** Two don't put in the same so many units at one time. */
const LONG = 16;

/** Nobody deletes all that another put in at so many places, and not what stands beside it there. */
const PLACES = 4;

/** The distance of texts that differ in more units is told only about. */
const FAR = 2_000;

/**
 * How a document comes to a room's text, as far as the room is known: a call that does so, and gives the changes of what is shown. Null
 * where the room has another text. `edits` are such as lead from the document's version on, and so many of them are surely `others`'.
 * @param {Document} document
 * @param {Document} room
 * @param {import("./log.js").Log} log
 * @param {Edit[]} edits
 * @param {number} [others]
 * @returns {Promise<(() => Change[]) | null>}
 */
export async function wayTo(document, room, log, edits, others = 0) {
  const way = await wayWithin(document, room, log, edits, others);
  const isSame = room.roomText === document.textToCome;
  if (way === null && !isSame && document.roomText !== "") return null; // who shows nothing has nothing to choose
  return () => {
    const changes = way === null ? [] : way();
    if (way === null) document.came(document.version, isSame ? Infinity : 0);
    changes.push(...document.follow(room));
    if (way === null) document.renew(room.version, room.memory.last(room.version));
    document.counts = room.counts;
    return changes;
  };
}

/** How a document comes to what its log has in common with the room's. */
async function wayWithin(document, room, log, edits, others) {
  const { memory } = document;
  const goesOn = await log.goesOn(document);
  const found = goesOn && document.isWaiting ? await log.find(document, others) : null;
  const knows = document.version > 0 || found !== null || !document.isWaiting; // any log goes on from nothing, a new document's too
  if (goesOn && knows) return () => settle(document, found, edits);
  const lost = await log.upTo(document);
  const goBack = ({ kept, isBefore = false }) => () => {
    const changes = document.goBack(memory.lengthAt(kept));
    if (isBefore) {
      changes.push(...document.follow(room, true));
      document.renew(room.version, room.memory.last(room.version));
    }
    return changes;
  };
  let told = null;
  const own = () => (told ??= ownIn(document, room.roomText)); // once at most: of a long text it takes a while
  const mayBeNew = lost?.kept > 0 && lost.kept <= memory.joined && own() > 0;
  if (lost?.isSure && !mayBeNew) return goBack(lost);
  const first = await log.firstText(room);
  if (lost?.isSure && first?.version < lost.kept) return goBack(lost);
  const isOlder = memory.joined > 0 && !(lost?.kept > 0) && isShorter(document, room, first, own);
  const before = first === null ? null : textBefore(document, first.text);
  if (first?.text === document.roomText) return () => renew(document, first, before);
  const isBefore = isOlder && own() <= 0;
  if (isBefore) return goBack({ kept: memory.joined, isBefore });
  const isAgain = lost?.isSure === false && first !== null && memory.sites.has(first.last[0].site);
  const isOfOthers = memory.base === 0 && memory.joined > 0; // what was joined last: one's own was lost before, and came in again behind it
  if (isAgain && !isOfOthers && isOfOther(document, first, before)) return goBack(lost);
  if (first?.isNew && isLike(before.text, first.text)) return () => renew(document, first, before);
  if (isAgain) return goBack(isOfOthers ? { kept: memory.joined, isBefore: true } : lost);
  if (first?.isNew) return null;
  if (goesOn) return () => settle(document, found, edits);
  return lost?.isWhole || (lost !== null && memory.base === 0 && isLike(document.roomText, room.roomText)) ? goBack(lost) : null;
}

/**
 * Whether a log may be the one that was joined, and have lost more than is known of it: its first site has as many operations as it had
 * there. A room that is renewed by hand when all sites are used begins with a text of site 0, which may be as long: then another site has
 * to have as many, too, or what was put in here is missing.
 */
function isShorter({ counts }, room, first, own) {
  const same = [...counts.keys()].filter((site) => room.counts.get(site) === counts.get(site));
  const site = first?.last[0].site;
  return same.includes(site) && (same.length > 1 || site > 0 || first.version < counts.get(site) || own() < 0);
}

/**
 * Whether a log of a site that is known, which has nothing in common with what is known, is of the run that is known, which lost more than
 * that, or of a later one, whose site came again. It may begin as a renewed room's does, of a text that was never there: with nothing of
 * the known.
 */
function isOfOther({ roomText }, first, before) {
  return !first.isNew || (roomText.length >= SHORT && before.text !== first.text && inCommon(roomText, first.text) === 0);
}

/** How many units more a text has than it lacks of those that were put in here since the room was joined. */
function ownIn({ memory, roomText }, text) {
  const others = without(roomText, [...memory.ownEntries(roomText.length)].filter(({ length }) => length >= 0));
  return distance(others, text) - distance(roomText, text);
}

/** A text without what some entries put in. */
function without(text, entries) {
  const isGone = new Uint8Array(text.length);
  for (const { places } of entries) for (const place of places) isGone[place] = 1;
  let left = "";
  for (let [start, end] = [0, 0]; start < text.length; start = end) {
    while (end < text.length && isGone[end] === isGone[start]) end += 1;
    if (isGone[start] === 0) left += text.slice(start, end);
  }
  return left;
}

/** Takes what is under way as what the log has of it, if it has any, and plays the edits: others may have deleted all of that before. */
function settle(document, found, edits) {
  if (found === null || found.count === 0) {
    document.takeBack();
    return document.play(edits);
  }
  const { from, count } = found;
  if (count === document.underWay.signs.length && from + count <= document.version + edits.length) {
    document.accept(from, from + count);
    return document.play(edits);
  }
  document.came(from, count);
  return [];
}

/** How many units two texts have in common, in their order, in pieces of `PIECE` at least. */
function inCommon(from, to) {
  let units = 0;
  let end = from.length;
  for (const { at, removed } of [...differences(from, to), { at: 0, removed: 0 }]) {
    const piece = end - at - removed;
    if (piece >= PIECE) units += piece;
    end = at;
  }
  return units;
}

/**
 * Whether a text has what was put in and is under way: in one piece, as nobody else types it; or where it is shown, since the text is
 * nearer with it and has it in one piece beside what it was put in beside, or is no further with it in pieces. Up to three units are told
 * by the first alone, and so is all in texts that differ much. `away` is the distance of the room's text.
 */
function hasCome({ roomText, textToCome, underWay }, text, away) {
  if (!underWay?.isPut) return false;
  const put = underWay.signs.join("");
  const [old, now] = [roomText, text].map((it) => `\0${it}\0`);
  const isMore = (piece) => now.split(piece).length > old.split(piece).length;
  const isRare = put.length >= LONG || (put.length >= SAME && underWay.signs.some((sign) => !roomText.includes(sign)));
  if (isRare && isMore(put)) return true;
  const isNearer = distance(textToCome, text) < away;
  // all pieces of a short one have a neighbour, which may be another's by now; and those of texts that differ much are told only about
  if (put.length <= SAME || SAME * away > FAR) return isNearer;
  const isBeside = isMore(old[underWay.k] + put) || isMore(put + old[underWay.k + 1]);
  if (isBeside && isNearer) return true;
  const signs = new Map();
  const [before, come, there] = [roomText, textToCome, text].map((it) => inPieces(it, signs));
  return distance(come, there) <= distance(before, there);
}

/**
 * The text that a new document was made of, and how many entries lead there: the last one that is the same. Else it was made by changes
 * that weren't seen, of a later one; but as far as all is missing that was put in here last, that was lost. Others put theirs in again.
 * What is older than all entries may be missing since others deleted it, unless it stood at many places. Where the new document has what is
 * under way, or lacks what is being deleted and nothing else, nothing was lost.
 */
function textBefore(document, wanted) {
  const { memory, roomText } = document;
  const length = memory.lengthWhere(wanted, roomText);
  if (length !== null) return { length, text: wanted };
  const { text: left, own, away, isNearer } = leftOf(document, wanted);
  if (hasCome(document, wanted, away)) return { length: memory.length, text: roomText, hasCome: true };
  if (own.at(-1)?.length < 0 && placesOf(own, left, wanted) < PLACES) own.pop();
  const upTo = (entry) => without(left, own.slice(0, entry));
  const isMissing = (entry) => {
    const text = upTo(entry);
    return distance(text, wanted) + left.length - text.length <= away;
  };
  const [least, most] = lackingOf(own, left, wanted);
  let low = away > FAR ? least : 0; // all is missing of the last `low` entries, and not of the last `high`
  let high = low + 1;
  for (; high <= most && isMissing(high); high *= 2) low = high;
  for (high = Math.min(high, most + 1); high - low > 1; ) {
    const middle = (low + high) >> 1;
    if (isMissing(middle)) low = middle;
    else high = middle;
  }
  if (low === 0) return { length: memory.length, text: roomText, hasCome: isNearer };
  return { length: own[low - 1].length, text: upTo(low) };
}

/**
 * The room's text, and the entries that put in something here that it still has, the last first, but for what is being deleted here. That
 * is left out of the text, too, where the wanted one is nearer by all of it: it is gone there. `away` is the distance of the
 * text; `isNearer`: the wanted one is nearer without it at all.
 */
function leftOf({ memory, roomText, underWay }, wanted) {
  const [start, count] = underWay?.isPut === false ? [underWay.k, underWay.signs.join("").length] : [0, 0];
  const text = roomText.slice(0, start) + roomText.slice(start + count);
  const far = distance(roomText, wanted);
  const nearer = count > 0 ? far - distance(text, wanted) : 0;
  const isGone = count > 0 && nearer >= count;
  const isLeft = (place) => place < start || place >= start + count;
  const left = (places) => places.filter(isLeft).map((place) => (isGone && place >= start ? place - count : place));
  const own = [...memory.ownEntries(roomText.length)].map(({ length, places }) => ({ length, places: left(places) }));
  const away = isGone ? far - nearer : far;
  return { text: isGone ? text : roomText, own: own.filter(({ places }) => places.length > 0), away, isNearer: nearer > 0 };
}

/** At how many places where something was put in here a text has what stands right before or behind it in the room's, a piece by itself. */
function placesOf(entries, roomText, wanted) {
  const [before, there] = [roomText, wanted].map((it) => piecesOf(it, PIECE));
  const isThere = (piece) => before.get(piece) === 1 && there.has(piece);
  const own = entries.flatMap(({ places }) => places).sort((one, other) => one - other);
  const others = without(roomText, entries);
  const places = [...new Set(own.map((place, n) => place - n))]; // in the text of others
  return places.filter((at) => isThere(others.slice(Math.max(0, at - PIECE), at)) || isThere(others.slice(at, at + PIECE))).length;
}

/**
 * How many of the last entries a text lacks, at least and at most, as far as what stands once in the room's text and is in the other one,
 * or isn't, tells: wherever it is there. Where the texts differ much their distance tells less.
 */
function lackingOf(entries, roomText, wanted) {
  const [before, there] = [piecesOf(roomText), piecesOf(wanted)];
  const own = new Set(entries.flatMap(({ places }) => places));
  const pieceWith = (place) => {
    for (let start = place; start > place - SAME; start -= 1) {
      const piece = roomText.slice(start, start + SAME);
      if (own.has(start) && own.has(start + SAME - 1) && before.get(piece) === 1) return piece;
    }
    return null;
  };
  let [least, most, best, sum] = [0, 0, 0, 0];
  for (const [n, { places }] of entries.entries()) {
    for (const place of places) {
      const piece = pieceWith(place);
      if (piece !== null) sum += there.has(piece) ? -1 : 1;
    }
    if (sum > best) [least, best] = [n + 1, sum];
    if (sum === best) most = n + 1;
  }
  return [least, most];
}

/**
 * A text as its pieces of `SAME` units, and what is shorter at its ends, each as the sign that stands for it: letters of another text are
 * like its own in their order, and hardly ever these.
 */
function inPieces(text, signs) {
  let pieces = "";
  for (let end = 1; end < text.length + SAME; end += 1) {
    const piece = text.slice(Math.max(0, end - SAME), end);
    if (!signs.has(piece)) signs.set(piece, String.fromCodePoint(0x10000 + signs.size));
    pieces += signs.get(piece);
  }
  return pieces;
}

/** How often each piece of so many units stands in a text. */
function piecesOf(text, units = SAME) {
  const pieces = new Map();
  for (let end = units; end <= text.length; end += 1) {
    const piece = text.slice(end - units, end);
    pieces.set(piece, 1 + (pieces.get(piece) ?? 0));
  }
  return pieces;
}

/** Whether a text may have become of one before: it has at least a quarter of that, in pieces, or that is too short to tell. */
function isLike(before, text) {
  return before.length < SHORT || 4 * inCommon(before, text) >= before.length;
}

/** Takes a new document's text for the one that was known at some time, or for what became of it. */
function renew(document, { text, version, last }, before) {
  let changes = [];
  if (before.length < document.memory.length) changes = document.goBack(before.length, true);
  else if (before.hasCome) document.came(document.version, Infinity);
  else document.takeBack();
  changes.push(...document.follow(new Document(text, version, last)));
  document.renew(version, last);
  return changes;
}
