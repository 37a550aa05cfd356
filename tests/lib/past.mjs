// What tests/try_merging plays with the history of a room: the texts of its versions are those that `rgatext text --version` prints, over
// logs that three sites typed at random, and each edit leads from one to the next. The one argument is the program.
import assert from "node:assert/strict";
import { spawnSync } from "node:child_process";
import { MOST } from "../../clients/js/document.js";
import { follow, History, historyOfFile } from "../../clients/js/history.js";
import { MemoryRoom } from "../../clients/js/memory_room.js";
import { played } from "../../clients/js/rgatext.js";
import { isInside } from "../../clients/js/text.js";
import { dice } from "./room.mjs";

const LOGS = 12;
const TURNS = 60;
const SIGNS = ["a", "b", "\n", "\r", "é", "\u{1F600}", "\0"];

/** A room at a site, where one session types at random in versions that it has seen. */
class Typist {
  constructor(site, roll) {
    Object.assign(this, { room: new MemoryRoom({ site }), roll, n: 0 });
    this.versions = [this.room.answer({ t: "join", u: 16 }).v];
    this.seen = 0;
  }

  pull() {
    for (let count = MOST; count === MOST; this.seen += count) {
      count = this.room.answer({ t: "pull", s: 1, have: this.seen, max: MOST }).es.length;
    }
    this.versions.push(this.seen);
  }

  /** A place of a text that is outside of pairs. */
  place(text) {
    const at = this.roll(text.length + 1);
    return isInside(text, at) ? at - 1 : at;
  }

  type() {
    const v = this.versions.at(-1 - this.roll(Math.min(3, this.versions.length)));
    const history = new History();
    history.add(this.room.log);
    const text = history.text(v);
    const [one, other] = [this.place(text), this.place(text)];
    const c = Math.min(MOST, Math.abs(one - other));
    const k = Math.min(one, other);
    const isDeletion = this.roll(3) === 0 && c > 0 && !isInside(text, k + c);
    const x = Array.from({ length: 1 + this.roll(6) }, () => SIGNS[this.roll(SIGNS.length)]).join("");
    const what = isDeletion ? { t: "del", k, c } : { t: "ins", k: one, x };
    assert.equal(this.room.answer({ s: 1, n: (this.n += 1), v, ...what }).r, "ok");
  }

  /** Takes in what another has. */
  meet(other) {
    for (const it of other.room.log) this.room.answer({ t: "put", ops: [it] });
  }
}

/** The log of three sites, as replies have it. */
function logOf(seed) {
  const roll = dice(seed);
  const typists = [0, 1, 2].map((site) => new Typist(site, roll));
  for (let turn = 0; turn < TURNS; turn += 1) {
    const typist = typists[roll(3)];
    if (roll(4) === 0) typist.meet(typists[roll(3)]);
    typist.pull();
    typist.type();
  }
  for (const it of typists.slice(1)) typists[0].meet(it);
  return typists[0].room;
}

/** What the program prints of a version, without the LF behind it. */
function printed(ops, version) {
  const input = JSON.stringify({ format: 2, ops });
  const { status, stdout } = spawnSync(process.argv[2], ["text", "--version", `${version}`], { input, encoding: "utf8" });
  assert.deepEqual([status, stdout.at(-1)], [0, "\n"]);
  return stdout.slice(0, -1);
}

let versions = 0;
for (let seed = 1; seed <= LOGS; seed += 1) {
  const room = logOf(seed);
  const history = new History();
  await follow(history, await room.connect());
  assert.equal(history.version, room.version);
  for (let version = 1; version <= history.version; version += 1) {
    assert.equal(played(history.text(version - 1), [history.change(version)]), history.text(version), `seed ${seed}, version ${version}`);
  }
  for (let version = history.version; version >= 0; version -= 29) {
    assert.equal(history.text(version), printed(room.log, version), `seed ${seed}, version ${version}`);
    versions += 1;
  }
  const lines = [];
  for (let from = 0; from < room.version; from += MOST) lines.push(JSON.stringify(room.answer({ t: "ops", after: from, max: MOST })));
  const kept = historyOfFile(`${lines.join("\n")}\n{"sha256":"0"}\n{"from":`);
  const opened = historyOfFile(JSON.stringify({ format: 2, ops: room.log }));
  for (const it of [kept, opened]) assert.equal(it.text(it.version), room.text);
}
const wrong = ["no log\n", '{"ops":1}\n', '{"from":1,"ops":[]}\n', "[]\n", "null", '{"ops":[null]}', '{"ops":[{"k":"i","s":0,"x":"a"}]}'];
for (const text of wrong) assert.throws(() => historyOfFile(text), SyntaxError);
for (const version of [-1, 1, 0.5, "x"]) assert.throws(() => new History().text(version), RangeError);
assert.throws(() => new History().add([{ c: [[0, 1]], k: "d", s: 0, t: [1, 0] }]), RangeError);
console.log(`tests/try_merging: ${versions} versions of ${LOGS} logs are those of the program, and each edit leads to the next`);
