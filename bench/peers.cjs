// Peers that the benchmark runs beside `rgatext lines`, over the same lines of JSON:
//   yjs      answers an editor's join, insertions and pulls over a Yjs document
//   json     reads each line and writes an answer of the right size, and keeps no document
// These two answer all lines of a block that was read with one write; with a second word "each" they write each answer by itself,
// before the next line is looked at, as `rgatext` does.
//   kept     plays the editor's insertions and tells how many bytes keep the document, with no answers
//   editors  plays the three editors' insertions on three Yjs documents in memory, with no answers
const mode = process.argv[2];
const each = process.argv[3] === "each";
const fs = require("fs");
const yjs = mode === "json" ? null : require("yjs");
const readline = require("readline");

const doc = yjs && new yjs.Doc();
const text = yjs && doc.getText();
const edits = [];

function answer(request) {
  switch (request.t) {
    case "join":
      return { r: "joined", s: 1, v: edits.length, x: yjs ? text.toString() : "" };
    case "ins": {
      const from = edits.length;
      if (yjs) text.insert(request.k, request.x);
      let place = request.k;
      for (const ch of request.x) edits.push(["i", place++, ch]);
      return { from, r: "ok", to: edits.length };
    }
    case "pull":
      return { es: edits.slice(request.have, request.have + request.max), from: request.have, r: "edits" };
  }
}

function write(text) {
  for (let left = Buffer.from(text); left.length > 0; ) left = left.subarray(fs.writeSync(1, left));
}

function serve() {
  let held = "";
  process.stdin.setEncoding("utf8");
  process.stdin.on("data", (block) => {
    const lines = (held + block).split("\n");
    held = lines.pop();
    let answers = "";
    for (const line of lines) {
      answers += JSON.stringify(answer(JSON.parse(line))) + "\n";
      if (!each) continue;
      write(answers);
      answers = "";
    }
    write(answers);
  });
}

async function keep() {
  for await (const line of readline.createInterface({ input: process.stdin })) answer(JSON.parse(line));
  console.log(yjs.encodeStateAsUpdate(doc).length);
}

async function play() {
  const requests = [];
  for await (const line of readline.createInterface({ input: process.stdin })) requests.push(JSON.parse(line));
  const docs = [0, 1, 2].map(() => new yjs.Doc());
  const texts = docs.map((it) => it.getText());
  const waiting = [[], [], []];
  docs.forEach((it, who) => it.on("update", (update, origin) => {
    if (origin === "peer") return;
    for (const other of [0, 1, 2]) if (other !== who) waiting[other].push(update);
  }));
  const begun = process.hrtime.bigint();
  for (const it of requests) {
    if (it.t === "ins") texts[it.s - 1].insert(Math.min(it.k, texts[it.s - 1].length), it.x);
    else if (it.t === "pull") for (const update of waiting[it.s - 1].splice(0)) yjs.applyUpdate(docs[it.s - 1], update, "peer");
  }
  for (const who of [0, 1, 2]) for (const update of waiting[who]) yjs.applyUpdate(docs[who], update, "peer");
  const seconds = Number(process.hrtime.bigint() - begun) / 1e9;
  if (texts[0].toString() !== texts[1].toString() || texts[0].toString() !== texts[2].toString()) process.exit(1);
  console.log(seconds);
}

if (mode === "editors") play();
else if (mode === "kept") keep();
else serve();
