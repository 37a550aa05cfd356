// What tests/try_merging plays with sessions behind a run of the server that lost the end of its log, or whose room was renewed. The one
// argument is the program.
import assert from "node:assert/strict";
import { carried } from "../../clients/js/changes.js";
import { Undo } from "../../clients/js/undo.js";
import { Room, until } from "./room.mjs";
import { anewRun, begin, deletedBy, end, endsAs, keptRun, renewedRun, roomOf, singlesOf, textOf, typedBy, Way } from "./way.mjs";

/** Unrelated texts, by Melville and by Carroll: of the shorter one seven tenths of the letters stand in the longer one, in their order. */
const WHALE =
  "Call me Ishmael. Some years ago, never mind how long precisely, having little or no money in my purse, I thought I would sail about a" +
  " little.";
const RABBIT =
  "Alice was beginning to get very tired of sitting by her sister on the bank, and of having nothing to do: once or twice she had peeped" +
  " into the book her sister was reading, but it had no pictures or conversations in it, and what is the use of a book, thought Alice," +
  " without pictures or conversations? So she was considering in her own mind, as well as she could, for the hot day made her feel very" +
  " sleepy and stupid, whether the pleasure of making a daisy-chain would be worth the trouble of getting up and picking the daisies.";

/** 400 characters, each once. */
const SIGNS = String.fromCodePoint(...Array.from({ length: 400 }, (_, n) => 0x400 + n));

/** An editor has a text of its own in a room, and another one one behind it. */
async function two(text, more) {
  const one = await begin(text);
  const other = new Way(one.room);
  await other.comesTo("up to date", text);
  other.editor.change(text.length, 0, more);
  for (const way of [one, other]) await way.comesTo("up to date", text + more);
  return [one, other];
}

/** Another run begins for all, and the editors come to show a text; nobody is asked. */
async function goOver(room, ways, text) {
  for (const way of ways) way.cut(room);
  for (const way of ways) await way.joins(room);
  await showUnasked(ways, text);
}

/** The same, one after another: of two who put in again at one time the later might stand first. */
async function goOverInTurn(room, ways, text) {
  for (const way of ways) {
    const { session } = way.editor;
    way.cut(room);
    await way.joins(room);
    await until(() => session.state === "up to date" && !session.isAhead);
  }
  await showUnasked(ways, text);
}

async function showUnasked(ways, text) {
  for (const way of ways) await way.comesTo("up to date", text);
  assert.deepEqual(ways.map(({ states }) => states.includes("another text")), ways.map(() => false), "nobody is asked");
}

/** They go over to another run, whose room has that text, and end. */
async function goOn(room, ways, text, goesOver = goOver) {
  await goesOver(room, ways, text);
  assert.equal(await textOf(room), text);
  await end(...ways);
}

/** What each typed is put in again by its own client, once, whatever the log lost of it. */
async function losesItsEnd(without) {
  const ways = await two("hello ", "world");
  await goOn(await keptRun(ways[0].room, without), ways, "hello world", goOverInTurn);
}

/** Nothing was kept of a room's first run, and its site comes again. */
async function losesItsFirstRun() {
  const ways = await two("hello ", "world");
  await goOn(new Room(1), ways, "hello world", goOverInTurn);
}

/** Nothing was kept of a first run, before the edits of its first submission came, and in the next one another submits as much first. */
async function losesItsFirstRunToAnothersFirst() {
  const way = new Way(new Room(0));
  await way.comesTo("up to date", "");
  const isLost = way.loseOnce("answer", "ops");
  way.editor.change(0, 0, "hello ");
  await isLost;
  const next = new Room(0);
  await next.ask({ t: "join", u: 16 });
  await next.ask({ t: "ins", s: 1, n: 1, v: 0, k: 0, x: "world!" });
  await goOn(next, [way], "hello world!");
}

/** A room is renewed, more is typed, and then nothing of it was kept, twice: each puts in again what it put in at any time. */
async function losesAllBehindARenewal(renew) {
  const ways = await two("hello ", "world");
  await goOver(await renew(ways[0].room), ways, "hello world");
  ways[0].editor.change(11, 0, " again");
  for (const way of ways) await way.comesTo("up to date", "hello world again");
  await goOverInTurn(new Room(0), ways, "hello world again");
  await goOn(new Room(0), ways, "hello world again", goOverInTurn);
}

/** The same, where another came first, and what it put in is kept: its operations are of the site that the known ones were of. */
async function losesAllBehindARenewalAndComesLate() {
  const ways = await two("hello ", WHALE);
  await goOver(await renewedRun(ways[0].room), ways, `hello ${WHALE}`);
  ways[0].cutOff();
  await ways[0].comesTo("offline");
  const room = new Room(0);
  ways[1].cut(room);
  await ways[1].comesTo("up to date", WHALE);
  await typedBy(room, 0, "> ");
  await goOn(await keptRun(room, 0, 1), ways, `hello > ${WHALE}`);
}

/** A first run is lost whole, where another had begun, and of the next one, at the same site, the first letter is alike. */
async function losesItsFirstRunToOneThatBeginsAlike() {
  const way = await begin(SIGNS.slice(0, 60), false);
  way.editor.change(60, 0, "mine.");
  await way.comesTo("up to date", `${SIGNS.slice(0, 60)}mine.`);
  const next = new Room(1);
  await typedBy(next, 0, `${SIGNS[0]}x`);
  await goOn(next, [way], `${SIGNS[0]}mine.x`);
}

/** Another moves what one put in, and the room is renewed while that one is away: it is there once. */
async function isRenewedWithItsOwnElsewhere() {
  const own = "This is mine. ";
  const way = new Way(await roomOf(WHALE, 0));
  await way.comesTo("up to date", WHALE);
  way.editor.change(0, 0, own);
  await way.comesTo("up to date", own + WHALE);
  way.cutOff();
  await way.comesTo("offline");
  await deletedBy(way.room, 0, own.length);
  await typedBy(way.room, WHALE.length, own);
  way.room = await renewedRun(way.room);
  way.isUp = true;
  await endsAs(way, WHALE + own);
}

/**
 * Nothing was kept of a run but what there was before, its site comes again, and another does the like there elsewhere: both are done.
 * `stays`: under the same number of a session.
 */
async function losesARunWhoseSiteComesAgain(before, change, like, text, stays) {
  const room = await keptRun(await roomOf(before, 0), 0, 1);
  const way = new Way(room);
  await way.comesTo("up to date", before);
  way.editor.change(...change);
  await way.comesTo("up to date");
  const kept = await keptRun(room, (await singlesOf(room)).length - before.length, 1);
  const { s, v } = await kept.ask({ t: "join", u: 16 });
  for (const [at, it] of like.entries()) await kept.ask({ s, n: at + 1, v, ...it });
  if (!stays) await kept.ask({ t: "leave", s });
  await goOn(kept, [way], text);
}

/**
 * A first run is lost whole while one is away, and of the next one, at the same site, a little is kept, as another typed it. What the one
 * had typed is put in again, and nobody is asked.
 */
async function losesItsFirstRunAndMore(first, little, isInOrder) {
  const way = await begin(first);
  way.cutOff();
  await way.comesTo("offline");
  const next = new Room(1);
  way.room.close();
  const half = little.length >> 1;
  const [one, other] = [little.slice(0, half), little.slice(half)];
  await typedBy(next, 0, isInOrder ? one : other);
  await typedBy(next, isInOrder ? half : 0, isInOrder ? other : one);
  way.room = await keptRun(next);
  way.isUp = true;
  await way.comesTo("up to date", first + little);
  assert.ok(!way.states.includes("another text"), "nobody is asked");
  await endsAs(way, first + little);
}

/** What was brought from another server knows nothing of what was typed here: of the end that the log loses alone is it put in again. */
async function losesItsEndBehindABridge() {
  const way = await begin("hello ");
  const elsewhere = await roomOf("world", 5);
  await way.room.refill(await elsewhere.operations());
  elsewhere.close();
  await way.comesTo("up to date", "worldhello ");
  way.editor.change(11, 0, "!");
  await way.comesTo("up to date", "worldhello !");
  await goOn(await keptRun(way.room, 1), [way], "worldhello !");
}

/** While both come back a third types, in the new run, before what was lost. */
async function losesItsEndWhileAThirdTypes() {
  const ways = await two("hello ", "world");
  const kept = await keptRun(ways[0].room, 4);
  await typedBy(kept, 0, "Oh, ");
  await goOn(kept, ways, "Oh, hello world");
}

/** A deletion is lost, of what was kept and of what wasn't: it is done again, and what its author took back stays away. */
async function losesDeletions() {
  const ways = await two("hello ", "world");
  ways[1].editor.change(1, 8, "");
  for (const way of ways) await way.comesTo("up to date", "hld");
  await goOn(await keptRun(ways[0].room, 13), ways, "hld");
}

/** The answer to a text is lost, with all that the log has of it, or with some. */
async function losesWhatWasUnderWay(without) {
  const way = await begin("hello");
  const isLost = way.loseOnce("answer", "ins");
  way.editor.change(5, 0, " you");
  await isLost;
  await goOn(await keptRun(way.room, without), [way], "hello you");
}

/** What is pending, a caret, and the undoing of what was lost. */
async function keepsWhatIsPending() {
  const [one, other] = await two("hello ", "world");
  const undo = new Undo();
  let caret = 8;
  one.editor.session.addEventListener("changes", ({ detail }) => {
    undo.follow(detail);
    caret = carried(caret, detail);
  });
  undo.note({ at: 5, removed: 0, text: "!" }, "");
  one.editor.change(5, 0, "!");
  await other.comesTo("up to date", "hello! world");
  one.cutOff();
  await one.comesTo("offline");
  one.editor.change(0, 1, "J");
  const kept = await keptRun(one.room, 6);
  for (const way of [one, other]) way.cut(kept);
  for (const way of [one, other]) await way.joins(kept);
  for (const way of [one, other]) await way.comesTo("up to date", "Jello! world");
  assert.equal(caret, 7, "a caret in what others lost stands where that stood");
  const { session } = one.editor;
  undo.turn(false, session, (changes) => changes.forEach(({ at, removed, text }) => one.editor.change(at, removed, text)));
  await other.comesTo("up to date", "Jello world");
  assert.equal(session.text, "Jello world");
  await end(one, other);
}

/** A room is renewed: people type on, and nobody is asked. */
async function isRenewed(first, second, renew) {
  const ways = await two(first, second);
  ways[1].editor.change(1, 1, "");
  ways[1].editor.change(1, 0, (first + second)[1]);
  for (const way of ways) await way.comesTo("up to date", first + second);
  const renewed = await renew(ways[0].room);
  await typedBy(renewed, 0, "<");
  ways[0].cutOff();
  await ways[0].comesTo("offline");
  ways[0].editor.change(first.length, 0, "-");
  await goOn(renewed, ways, `<${first}-${second}`);
}

/** While a renewed room is looked at, an operation of the site that wrote it comes from elsewhere. */
async function isRenewedWhileMoreComes() {
  const way = await begin("hello world");
  way.cutOff();
  await way.comesTo("offline");
  await typedBy(way.room, 0, "> ");
  const renewed = await renewedRun(way.room);
  let hasCome = false;
  way.loses = async ({ t }) => {
    if (t !== "put" || hasCome) return "";
    hasCome = true;
    const { os } = await renewed.ask({ t: "put", ops: [{ c: [[0, 14]], k: "i", s: 0, p: [13, 0], x: "!" }] });
    assert.equal(os[0][0], "took");
    return "";
  };
  await goOn(renewed, [way], "> hello world!");
  assert.ok(hasCome, "it came in the midst");
}

/** A room is renewed twice, and what was typed between is lost by the second. */
async function isRenewedTwice() {
  const ways = await two("one ", "two");
  for (const without of [2, 1]) await goOver(await renewedRun(ways[0].room, without), ways, "one two");
  assert.equal(await textOf(ways[0].room), "one two");
  await end(...ways);
}

/** A room is renewed, and twice more while one is away who had typed in it: it begins as it did, with numbers that it had. */
async function isRenewedTwiceWhileAway(at) {
  const [one, other] = await two(WHALE, RABBIT);
  const ways = [one, other];
  let text = WHALE + RABBIT;
  const puts = async (way, place, put) => {
    text = text.slice(0, place) + put + text.slice(place);
    way.editor.change(place, 0, put);
    for (const it of ways) await it.comesTo(it.isUp ? "up to date" : "offline", it.isUp ? text : it.editor.shown);
  };
  await goOver(await anewRun(one.room), ways, text);
  await puts(one, at, " (one)");
  one.cutOff();
  await one.comesTo("offline");
  one.editor.change(0, 0, "> ");
  for (const put of [" (two)", " (three)"]) {
    await puts(other, text.length, put);
    await goOver(await anewRun(other.room), [other], text);
  }
  await goOn(other.room, ways, `> ${text}`);
}

/**
 * One who joined a room long after its server had renewed it loses what it typed, and more of the log than it knows. `brought`: what came
 * there from another server.
 */
async function losesItsEndBehindARenewal(brought) {
  const room = await anewRun(await roomOf(`${WHALE} The end.`, 0));
  await deletedBy(room, WHALE.length, 9);
  await typedBy(room, WHALE.length, " More was typed since.");
  const pasted = "0123456789".repeat(8);
  await typedBy(room, 0, pasted.slice(0, 64));
  await typedBy(room, 64, pasted.slice(64));
  const elsewhere = await roomOf(brought, 5);
  await room.refill(await elsewhere.operations());
  elsewhere.close();
  const text = `${WHALE} More was typed since.`;
  const more = pasted + brought;
  const way = new Way(room);
  await way.comesTo("up to date", more + text);
  way.editor.change(more.length + text.length, 0, " And the end.");
  await way.comesTo("up to date", `${more}${text} And the end.`);
  await goOn(await keptRun(room, 93 + brought.length, 3), [way], `${text} And the end.`);
}

/** The same, where hardly anything was kept but what site 0 had renewed it with. */
async function losesMostBehindARenewal() {
  const room = await anewRun(await roomOf(WHALE, 1));
  const typed = RABBIT + SIGNS;
  for (let at = 0; at < typed.length; at += 64) await typedBy(room, at, typed.slice(at, at + 64));
  const way = new Way(room);
  await way.comesTo("up to date", typed + WHALE);
  way.editor.change(typed.length + WHALE.length, 0, " And the end.");
  await way.comesTo("up to date", `${typed}${WHALE} And the end.`);
  await goOn(await keptRun(room, typed.length + 13, 3), [way], `${WHALE} And the end.`);
}

/** An editor has pasted 80 digits in front of the text of a room, and then another one joined. */
async function joinedBehindAPaste(room) {
  const pasted = "0123456789".repeat(8);
  const other = new Way(room);
  await other.comesTo("up to date", WHALE);
  other.editor.change(0, 0, pasted);
  await other.comesTo("up to date", pasted + WHALE);
  const way = new Way(room);
  await way.comesTo("up to date", pasted + WHALE);
  return { pasted, other, way };
}

/** One who has just joined loses what it typed, and so many operations of another that it had joined with, of which it deleted one. */
async function losesItsEndBehindAJoin(without) {
  const { pasted, other, way } = await joinedBehindAPaste(await keptRun(await roomOf(WHALE, 1)));
  way.editor.change(80 + WHALE.length, 0, RABBIT);
  way.editor.change(60, 1, "");
  const text = pasted.slice(0, 60) + pasted.slice(61) + WHALE + RABBIT;
  for (const it of [other, way]) await it.comesTo("up to date", text);
  await goOn(await keptRun(other.room, RABBIT.length + 1 + without, 3), [other, way], text);
}

/** The other one, which is away when a letter of its paste is deleted, puts the paste in again: the letter is deleted again. */
async function deletesAgainBehindAJoin() {
  const { pasted, other, way } = await joinedBehindAPaste(await keptRun(await roomOf(WHALE, 1)));
  other.cutOff();
  await other.comesTo("offline");
  way.editor.change(60, 1, "");
  await way.comesTo("up to date");
  const kept = await keptRun(other.room, 71, 3);
  way.cut(kept);
  await way.comesTo("up to date", pasted.slice(0, 10) + WHALE);
  await goOn(kept, [other, way], pasted.slice(0, 60) + pasted.slice(61) + WHALE);
}

/** One loses what it typed behind a room's text, and another types the same there: a caret in what was typed since the room was renewed stays. */
async function losesWhatAnotherTypesToo() {
  const room = await keptRun(await roomOf(WHALE, 1));
  await typedBy(room, WHALE.length, " More was typed since.");
  const text = `${WHALE} More was typed since.`;
  const way = new Way(await keptRun(room, 0, 3));
  await way.comesTo("up to date", text);
  way.editor.change(text.length, 0, "..");
  await way.comesTo("up to date", `${text}..`);
  let caret = WHALE.length + 5;
  way.editor.session.addEventListener("changes", ({ detail }) => (caret = carried(caret, detail)));
  const kept = await keptRun(way.room, 2, 4);
  await typedBy(kept, 0, ">");
  await typedBy(kept, text.length + 1, "..");
  await goOn(kept, [way], `>${text}....`);
  assert.equal(caret, WHALE.length + 6);
}

/** A room is renewed by hand, twice, with texts of one length, and another joins between: what it typed is there once. */
async function isRenewedToOneLength() {
  const { pasted, other, way } = await joinedBehindAPaste(await renewedRun(await roomOf(WHALE, 1)));
  way.editor.change(80 + WHALE.length, 0, "!");
  for (const it of [other, way]) await it.comesTo("up to date", `${pasted}${WHALE}!`);
  way.cutOff();
  await way.comesTo("offline");
  other.editor.change(0, 81, "");
  await other.comesTo("up to date", `${WHALE.slice(1)}!`);
  await goOn(await renewedRun(other.room), [other, way], `${WHALE.slice(1)}!`);
}

/** A room is renewed to the length that it had when it was joined, where one deleted one of two letters alike: no other goes. */
async function isRenewedWithALetterLess(isPulled) {
  const text = `XX${WHALE}`;
  const way = new Way(await renewedRun(await roomOf(text, 1)));
  await way.comesTo("up to date", text);
  way.editor.change(0, 1, "");
  await way.comesTo("up to date", text.slice(1));
  if (isPulled) await typedBy(way.room, text.length - 1, "!");
  if (isPulled) await way.comesTo("up to date", `${text.slice(1)}!`);
  way.cutOff();
  await way.comesTo("offline");
  if (!isPulled) await typedBy(way.room, text.length - 1, "!");
  way.room = await renewedRun(way.room);
  way.isUp = true;
  await endsAs(way, `${text.slice(1)}!`);
}

/** A kill loses what one typed, another types in front, and the room is renewed, all while one is away: it comes again, at its place. */
async function isRenewedBehindALoss(renew) {
  const way = new Way(await roomOf(WHALE, 0));
  await way.comesTo("up to date", WHALE);
  const own = " My end of the text.";
  way.editor.change(WHALE.length, 0, own);
  await way.comesTo("up to date", WHALE + own);
  way.cutOff();
  await way.comesTo("offline");
  way.room = await keptRun(way.room, own.length);
  await typedBy(way.room, 0, "> ");
  way.room = await renew(way.room);
  way.isUp = true;
  await endsAs(way, `> ${WHALE}${own}`);
}

/** A kill loses a paste, and the room, of which few letters are left, is renewed by hand: they are there once. */
async function isRenewedWithAFewLetters() {
  const way = await begin("b", true, 0);
  for (const text of ["a", WHALE]) {
    way.editor.change(0, 0, text);
    await way.comesTo("up to date");
  }
  await goOn(await renewedRun(way.room, WHALE.length), [way], `${WHALE}ab`);
}

/**
 * While one is away whose text stands at so many places of a renewed room that is emptied, another puts its own in again, and the room is
 * renewed once more: the one's comes again. Where it stands at few places another may have deleted it: then it stays away.
 */
async function isEmptiedBetweenRenewals(places, comesAgain) {
  const [one, other] = await two("", WHALE);
  let text = WHALE;
  for (let n = 0; n < places; n += 1) {
    const at = 14 * n + 7;
    const put = SIGNS.slice(6 * n, 6 * n + 6);
    text = text.slice(0, at) + put + text.slice(at);
    one.editor.change(at, 0, put);
  }
  for (const way of [one, other]) await way.comesTo("up to date", text);
  await goOver(await renewedRun(one.room), [one, other], text);
  one.cutOff();
  await one.comesTo("offline");
  const empty = new Room(0);
  other.cut(empty);
  await other.comesTo("up to date", WHALE);
  await goOn(await renewedRun(empty), [one, other], comesAgain ? text : WHALE);
}

/**
 * A room is emptied, one puts its own in again, somebody types in it, and the room is renewed while two are away who had put in most of it.
 * Its log begins as the one that they know, and has less than a quarter of their text: nobody is asked, and theirs comes again.
 */
async function isEmptiedAndRenewedWithLittle() {
  const room = new Room(0);
  const ways = [new Way(room), new Way(room), new Way(room)];
  let text = "";
  for (const way of ways) await way.comesTo("up to date", text);
  for (const [n, put] of [WHALE, RABBIT, SIGNS].entries()) {
    ways[n].editor.change(text.length, 0, put);
    text += put;
    for (const way of ways) await way.comesTo("up to date", text);
  }
  const [one, ...others] = ways;
  for (const way of others) {
    way.cutOff();
    await way.comesTo("offline");
  }
  const empty = new Room(0);
  one.cut(empty);
  await one.comesTo("up to date", WHALE);
  await typedBy(empty, 8, "> ");
  const renewed = await renewedRun(empty);
  await goOver(renewed, [one], `${WHALE.slice(0, 8)}> ${WHALE.slice(8)}`);
  for (const [n, put] of [RABBIT, SIGNS].entries()) {
    others[n].cut(renewed);
    await until(() => one.editor.shown.includes(put), () => put);
    assert.ok(!others[n].states.includes("another text"), "nobody is asked");
  }
  const shown = await textOf(renewed);
  assert.equal(shown.length, text.length + 2);
  for (const way of ways) await way.comesTo("up to date", shown);
  await end(...ways);
}

/** A room without text is renewed, and somebody types there before two come back who show nothing: they aren't asked, and lose nothing. */
async function isRenewedEmptyAndTypedIn() {
  const ways = await two("hello ", "world");
  ways[1].editor.change(0, 11, "");
  for (const way of ways) await way.comesTo("up to date", "");
  ways[0].cutOff();
  await ways[0].comesTo("offline");
  ways[0].editor.change(0, 0, "mine ");
  const renewed = await anewRun(ways[0].room);
  await typedBy(renewed, 0, "again");
  await goOn(renewed, ways, "mine again");
}

/** A room without text is renewed, which leaves it no log: what was deleted stays away. */
async function isRenewedEmpty() {
  const ways = await two("hello ", "world");
  ways[1].editor.change(0, 11, "");
  for (const way of ways) await way.comesTo("up to date", "");
  await goOver(await anewRun(ways[0].room), ways, "");
  ways[0].editor.change(0, 0, "again");
  for (const way of ways) await way.comesTo("up to date", "again");
  await goOn(await anewRun(ways[0].room), ways, "again");
}

/** In place of a room that was joined there is an empty one: the user is asked. */
async function isEmptied() {
  const way = new Way(await roomOf(WHALE, 1));
  await way.comesTo("up to date", WHALE);
  way.cut(new Room(2));
  await way.comesTo("another text", WHALE);
  await end(way);
}

/** In place of a room whose text was joined there is another document, and what was typed since isn't there: the user is asked. */
async function isAnotherDocumentThanJoined() {
  const way = new Way(await roomOf(WHALE, 1));
  await way.comesTo("up to date", WHALE);
  way.editor.change(0, 0, SIGNS.slice(0, 9));
  await way.comesTo("up to date", SIGNS.slice(0, 9) + WHALE);
  const another = await renewedRun(await roomOf(RABBIT, 1));
  way.cut(another);
  await way.comesTo("another text", SIGNS.slice(0, 9) + WHALE);
  await end(way);
}

/**
 * A small room is renewed by hand, by the site that it had, of a text that was there some time ago, or of a later one: nothing comes twice.
 */
async function isRenewedAtItsBeginning(without, more) {
  const way = await begin("x", true, 0);
  way.editor.change(1, 0, WHALE);
  way.editor.change(0, 1, "");
  await way.comesTo("up to date", WHALE);
  way.editor.change(WHALE.length, 0, RABBIT);
  await way.comesTo("up to date", WHALE + RABBIT);
  way.cutOff();
  await way.comesTo("offline");
  if (more !== "") await typedBy(way.room, 0, more);
  way.room = await renewedRun(way.room, without);
  way.isUp = true;
  await endsAs(way, more + WHALE + RABBIT);
}

/** While one is away another types what one deleted, and the room is renewed: it stays, since nothing tells it from what was lost. */
async function typesWhatWasDeleted() {
  const way = await begin("one two three");
  way.editor.change(3, 4, "");
  await way.comesTo("up to date", "one three");
  way.cutOff();
  await way.comesTo("offline");
  await typedBy(way.room, 3, " two");
  await typedBy(way.room, 0, "> ");
  way.room = await renewedRun(way.room);
  way.isUp = true;
  await endsAs(way, "> one two three");
}

/** In place of a room there is another document of the same language, which isn't what became of its text: the user is asked. */
async function isAnotherDocument() {
  const way = await begin(WHALE);
  const another = await renewedRun(await roomOf(RABBIT, 1));
  way.cut(another);
  await way.joins(another);
  await way.comesTo("another text", WHALE);
  assert.equal(await textOf(another), RABBIT);
  await end(way);
}

/** Behind a kept restart there are 1,100 changes by others: what is typed, the caret and what is undone stand where they stood. */
async function isFarBehind() {
  const lines = Array.from({ length: 60 }, (_, n) => `this is line ${n} of a text\n`);
  const way = await begin(lines.join(""));
  way.cutOff();
  await way.comesTo("offline");
  const start = (n) => lines.slice(0, n).join("").length;
  const undo = new Undo();
  const change = (at, removed, text) => {
    undo.note({ at, removed, text }, way.editor.shown.slice(at, at + removed));
    way.editor.change(at, removed, text);
  };
  change(start(30), lines[30].length, "");
  change(start(50) - lines[30].length, 0, "MINE ");
  let caret = start(55) - lines[30].length + 5;
  way.editor.session.addEventListener("changes", ({ detail }) => {
    undo.follow(detail);
    caret = carried(caret, detail);
  });
  way.room = await keptRun(way.room);
  const { s, v } = await way.room.ask({ t: "join", u: 16 });
  for (let n = 1; n <= 55; n += 1) await way.room.ask({ t: "ins", s, n, v, k: start(n) - 1, x: "0123456789abcdefghij" });
  way.isUp = true;
  const put = (n) => (n < 55 ? "0123456789abcdefghij" : "");
  const wanted = lines.map((line, n) => (n === 30 ? put(n) : `${n === 50 ? "MINE " : ""}${line.slice(0, -1)}${put(n)}\n`));
  await way.comesTo("up to date", wanted.join(""));
  assert.equal(caret, wanted.slice(0, 55).join("").length);
  undo.turn(false, way.editor.session, (changes) => changes.forEach(({ at, removed, text }) => way.editor.change(at, removed, text)));
  await endsAs(way, wanted.join("").replace("MINE ", ""));
}

/** A text came, its answer was lost, and others deleted more than half of it. */
async function cameAndIsMostlyDeleted() {
  const way = await begin("Dear all, ");
  const isLost = way.loseOnce("answer", "ins");
  way.editor.change(10, 0, "hello");
  await isLost;
  way.room = await keptRun(way.room);
  await deletedBy(way.room, 10, 3);
  way.isUp = true;
  await endsAs(way, "Dear all, lo");
}

/** A deletion came, its answer was lost, and another types the same there: that stays. */
async function deletesWhatIsTypedAgain() {
  const way = await begin("abcdefgh");
  const isLost = way.loseOnce("answer", "del");
  way.editor.change(2, 1, "");
  await isLost;
  way.room = await keptRun(way.room);
  await typedBy(way.room, 2, "c");
  way.isUp = true;
  await endsAs(way, "abcdefgh");
}

/** Of an accepted text some edits were played when the line broke; the log has all of it, or lost the end. */
async function isPlayedInParts(without) {
  const way = await begin("text ");
  const told = "0123456789";
  way.loses = async ({ t }) => {
    const { document } = way.editor.session;
    if (t !== "pull" || !document.isWaiting) return "";
    await until(() => document.accepted !== null);
    const [from] = document.accepted;
    way.loses = ({ t: kind }) => (kind === "pull" ? "request" : "");
    way.isUp = false;
    return { r: "edits", from, es: [["i", 5, "0"], ["i", 6, "1"]] };
  };
  way.editor.change(5, 0, told);
  await until(() => !way.isUp);
  await way.comesTo("offline");
  way.loses = () => "";
  way.cut(await keptRun(way.room, without));
  await endsAs(way, `text ${told}`);
}

/** Of an accepted deletion nothing is left to play, since another deleted the same before; the line breaks behind the other's edit. */
async function isDeletedBefore() {
  const way = await begin("abc");
  way.loses = async ({ t }) => {
    const { document } = way.editor.session;
    if (t === "del") await deletedBy(way.room, 1, 1);
    if (t !== "pull" || !document.isWaiting) return "";
    await until(() => document.accepted !== null);
    way.loses = ({ t: kind }) => (kind === "pull" ? "request" : "");
    way.isUp = false;
    return { r: "edits", from: document.version, es: [["d", 1, 1]] };
  };
  way.editor.change(1, 1, "");
  await until(() => !way.isUp);
  await way.comesTo("offline");
  way.loses = () => "";
  way.cut(await keptRun(way.room, 0));
  await way.comesTo("up to date", "ac");
  way.editor.change(2, 0, ", typed on");
  await endsAs(way, "ac, typed on");
}

/** In the same run a submission is lost, and the answer to the `join` that follows a `leave`, while another deletes: nothing is guessed. */
async function knowsThatItLeft() {
  const way = await begin("abcdefgh", false);
  const isLost = way.loseOnce("request", "del", true);
  way.editor.change(5, 2, "");
  await isLost;
  await way.loseOnce("answer", "join");
  await deletedBy(way.room, 6, 2);
  way.isUp = true;
  await endsAs(way, "abcde");
  assert.ok(!way.states.includes("another text"), "it is the same run");
}

/** In a text a word is under way whose request is lost, and another types somewhere. */
async function losesAWord(text, [at, word], [place, theirs]) {
  const way = await begin(text);
  const isLost = way.loseOnce("request", "ins");
  way.editor.change(at, 0, word);
  await isLost;
  await typedBy(way.room, place, theirs);
  return way;
}

/** A word is under way to a run that is kept, and another types it too, behind a letter that is alike but wasn't there when it was sent. */
async function typesAWordBehindALikeLetter() {
  const way = await losesAWord("one two ", [8, "what "], [8, "is what "]);
  await goOn(await keptRun(way.room), [way], "one two what is what ");
}

/** A word didn't come, and another typed the same elsewhere before the room was renewed: both are there. */
async function typesAWordToo() {
  const way = await losesAWord("one two three four five six", [4, "the "], [24, "the "]);
  const renewed = await renewedRun(way.room);
  way.isUp = true;
  way.cut(renewed);
  await way.joins(renewed);
  await endsAs(way, "one the two three four five the six");
}

/** A word didn't come, and what another typed at its place has its letters in their order, when the room was renewed: both are there. */
async function typesMuchBesideAWord() {
  const way = await losesAWord("one two ", [8, "keeps "], [8, "like he has some pies "]);
  await goOn(await anewRun(way.room), [way], "one two keeps like he has some pies ");
}

/** A word came, another typed beside it, and deleted of it or typed a little in it, before the room was renewed: it is there once. */
async function typesBesideAWordThatCame(word, change, text) {
  const way = await begin("one two ");
  const isLost = way.loseOnce("answer", "ins");
  way.editor.change(8, 0, word);
  await isLost;
  await typedBy(way.room, 8, "what ");
  await change(way.room);
  await goOn(await anewRun(way.room), [way], text);
}

/** So is a letter or two that came, where others changed what stands on both sides of it. */
async function typesBetweenOthers() {
  const way = await begin("");
  const isLost = way.loseOnce("answer", "ins");
  way.editor.change(0, 0, "hi");
  await isLost;
  await typedBy(way.room, 0, "A");
  await typedBy(way.room, 3, "B");
  await goOn(await anewRun(way.room), [way], "AhiB");
}

/** A deletion of what one typed last came, others typed much, and the room was renewed: what it left of that is there once. */
async function deletesOfItsOwnBeforeMuchIsTyped() {
  const way = await begin("");
  way.editor.change(0, 0, "typed last");
  await way.comesTo("up to date", "typed last");
  const isLost = way.loseOnce("answer", "del");
  way.editor.change(5, 5, "");
  await isLost;
  let typed = "";
  for (let n = 0; n < 35; n += 1) {
    const text = SIGNS.slice(n, n + 64);
    await typedBy(way.room, 0, text);
    typed = text + typed;
  }
  await goOn(await anewRun(way.room), [way], `${typed}typed`);
}

/** A kill takes what one typed before a like word, which is being deleted, and the room is renewed: what was typed is put in again. */
async function losesATextBeforeADeletion() {
  const way = await begin("one help me three", false);
  way.editor.change(4, 0, "hello ");
  await way.comesTo("up to date", "one hello help me three");
  const isLost = way.loseOnce("request", "del");
  way.editor.change(10, 8, "");
  await isLost;
  const kept = await keptRun(way.room, 6);
  await typedBy(kept, 0, "zero ");
  await goOn(await anewRun(kept), [way], "zero one hello three");
}

/** A deletion came of one of two words that are alike, another typed, and the room was renewed: the other word stays. */
async function deletesOneOfTwo(at) {
  const way = await begin("one two two three", false);
  const isLost = way.loseOnce("answer", "del");
  way.editor.change(at, 4, "");
  await isLost;
  await typedBy(way.room, 0, "zero ");
  await goOn(await anewRun(way.room), [way], "zero one two three");
}

/** What was lost and is typed anew, some time after another deleted it, is wanted: it stays. */
async function keepsWhatIsTypedAnew() {
  const [one, other] = await two("Sum: ", "7 apples");
  one.editor.change(5, 1, "");
  for (const way of [one, other]) await way.comesTo("up to date", "Sum:  apples");
  const kept = await keptRun(one.room, 9);
  for (const way of [one, other]) way.cut(kept);
  for (const way of [one, other]) await way.joins(kept);
  for (const way of [one, other]) await way.comesTo("up to date", "Sum:  apples");
  const { now } = Date;
  Date.now = () => now() + 20_000;
  other.editor.change(5, 0, "7");
  await until(() => one.editor.shown.includes("7"));
  await until(() => !other.editor.session.isAhead);
  Date.now = now;
  assert.equal(await textOf(kept), "Sum: 7 apples");
  await end(one, other);
}

/** Another log that reads the same is known from then on: behind a line that breaks in its run the session of before is left. */
async function readsTheSame() {
  const way = await begin("hello world", false);
  const other = new Room(4);
  await typedBy(other, 0, "world");
  await typedBy(other, 0, "hello ");
  way.cut(other);
  await way.joins(other);
  await way.comesTo("up to date", "hello world");
  const { s } = await other.ask({ t: "join", u: 16 });
  way.states.length = 0;
  way.cut();
  await until(() => way.lines.at(-1).isOpen && way.lines.at(-1).asked.includes("pull"));
  await way.comesTo("up to date", "hello world");
  assert.equal((await other.ask({ t: "leave", s: s - 1 })).r, "no", "the session of before is still there");
  await end(way);
}

await Promise.all([
  losesItsEnd(3),
  losesItsEnd(8),
  losesItsEndBehindABridge(),
  losesItsEndWhileAThirdTypes(),
  losesItsFirstRun(),
  losesItsFirstRunToAnothersFirst(),
  losesAllBehindARenewal(renewedRun),
  losesAllBehindARenewal(anewRun),
  losesAllBehindARenewalAndComesLate(),
  losesItsFirstRunToOneThatBeginsAlike(),
  losesItsFirstRunAndMore(WHALE, " So it is.", true),
  losesItsFirstRunAndMore(WHALE, " So it is.", false),
  losesARunWhoseSiteComesAgain("hello", [5, 0, "!"], [{ t: "ins", k: 0, x: "!" }], "!hello!", false),
  losesARunWhoseSiteComesAgain("hello", [2, 1, ""], [{ t: "del", k: 0, c: 1 }], "elo", true),
  losesARunWhoseSiteComesAgain(SIGNS, [0, 192, ""], [208, 272, 336].map((k) => ({ t: "del", k, c: 64 })), SIGNS.slice(192, 208), true),
  losesDeletions(),
  losesWhatWasUnderWay(4),
  losesWhatWasUnderWay(2),
  losesWhatWasUnderWay(6),
  keepsWhatIsPending(),
]);
await Promise.all([
  isRenewed("hello ", "world", renewedRun),
  isRenewed("a", "b", renewedRun),
  isRenewed("hello ", "world", (room) => renewedRun(room, 3)),
  isRenewed("hello ", "world", anewRun),
  isRenewed("a", "b", anewRun),
  isRenewedEmpty(),
  isEmptiedBetweenRenewals(5, true),
  isEmptiedBetweenRenewals(3, false),
  isEmptiedAndRenewedWithLittle(),
  isRenewedEmptyAndTypedIn(),
  isRenewedWithAFewLetters(),
  isRenewedWhileMoreComes(),
  isRenewedTwice(),
  losesItsEndBehindAJoin(30),
  losesItsEndBehindAJoin(70),
  deletesAgainBehindAJoin(),
  losesWhatAnotherTypesToo(),
  isRenewedToOneLength(),
  isRenewedWithALetterLess(true),
  isRenewedWithALetterLess(false),
  isRenewedWithItsOwnElsewhere(),
  isRenewedBehindALoss(renewedRun),
  isRenewedBehindALoss(async (room) => anewRun(await anewRun(room))),
  losesItsEndBehindARenewal(""),
  losesItsEndBehindARenewal("Elsewhere "),
  losesMostBehindARenewal(),
  isRenewedTwiceWhileAway(WHALE.length),
  isRenewedTwiceWhileAway(WHALE.length + RABBIT.length),
  typesWhatWasDeleted(),
  isFarBehind(),
  isAnotherDocument(),
  isAnotherDocumentThanJoined(),
  isEmptied(),
  isRenewedAtItsBeginning(0, ""),
  isRenewedAtItsBeginning(RABBIT.length, ""),
  isRenewedAtItsBeginning(0, "Oh, "),
  cameAndIsMostlyDeleted(),
  deletesWhatIsTypedAgain(),
  isPlayedInParts(0),
  isPlayedInParts(3),
  isDeletedBefore(),
  knowsThatItLeft(),
  typesAWordToo(),
  typesAWordBehindALikeLetter(),
  typesMuchBesideAWord(),
  typesBesideAWordThatCame("I", () => {}, "one two what I"),
  typesBesideAWordThatCame("three four", (room) => deletedBy(room, 14, 4), "one two what t four"),
  typesBesideAWordThatCame("three four", (room) => typedBy(room, 16, "-"), "one two what thr-ee four"),
  typesBetweenOthers(),
  deletesOfItsOwnBeforeMuchIsTyped(),
  losesATextBeforeADeletion(),
  deletesOneOfTwo(3),
  deletesOneOfTwo(7),
  readsTheSame(),
]);
await keepsWhatIsTypedAnew();
console.log("tests/try_merging: logs that lost their end, renewed rooms, and what came of what was under way");
