// Edits a second at one document of a WebSocket server, and how soon one client's edit is seen by another.
//   server.cjs rgatext|yjs URL COUNT CLIENTS    so many clients put in COUNT characters together, at place 0
//   server.cjs rgatext|yjs URL COUNT seen       one client's COUNT edits, each awaited at another that polls at once
// An rgatext client keeps 64 pairs of an `ins` and a pull in flight; a Yjs client sends an update for each character.
const WebSocket = require("ws");
const [kind, url, countText, mode] = process.argv.slice(2);
const count = Number(countText);
const now = () => Number(process.hrtime.bigint()) / 1e9;

// A client of rgatext: a function that sends a request and gives the promise of its answer.
function connect() {
  return new Promise((ready) => {
    const waiting = [];
    const socket = new WebSocket(url, { perMessageDeflate: false });
    const ask = (request) => new Promise((answered) => (waiting.push(answered), socket.send(JSON.stringify(request))));
    socket.on("message", (data) => waiting.shift()(JSON.parse(data)));
    socket.on("open", async () => {
      await ask({ t: "open", room: "notes" });
      const { s, v } = await ask({ t: "join" });
      ready({ ask, s, v, n: 0, close: () => socket.close() });
    });
  });
}

// Puts characters in, with so many pairs in flight.
async function type(client, count, depth) {
  let sent = 0;
  const lane = async () => {
    while (sent++ < count) {
      const inserted = client.ask({ t: "ins", s: client.s, n: ++client.n, v: client.v, k: 0, x: "a" });
      const pulled = client.ask({ t: "pull", s: client.s, have: client.v, max: 64 });
      if ((await inserted).r !== "ok") throw new Error("refused");
      const { from, es } = await pulled;
      client.v = Math.max(client.v, from + es.length);
    }
  };
  await Promise.all(Array.from({ length: depth }, lane));
}

async function rgatext() {
  if (mode === "seen") {
    const [writer, reader] = [await connect(), await connect()];
    const times = [];
    for (let i = 0; i < count; i++) {
      const begun = now();
      const inserted = writer.ask({ t: "ins", s: writer.s, n: ++writer.n, v: writer.v, k: 0, x: "a" });
      for (;;) {
        const { es } = await reader.ask({ t: "pull", s: reader.s, have: reader.v, max: 64 });
        if (es.length > 0) {
          reader.v += es.length;
          break;
        }
      }
      times.push(now() - begun);
      await inserted;
    }
    return times.sort((a, b) => a - b)[count >> 1] * 1e6;
  }
  const clients = await Promise.all(Array.from({ length: Number(mode) }, connect));
  const begun = now();
  await Promise.all(clients.map((it) => type(it, Math.floor(count / clients.length), 64)));
  return count / (now() - begun);
}

async function yjs() {
  const Y = require("yjs");
  const { WebsocketProvider } = require("y-websocket");
  const open = () =>
    new Promise((ready) => {
      const doc = new Y.Doc();
      const provider = new WebsocketProvider(url, "notes" + process.pid, doc, { WebSocketPolyfill: WebSocket, disableBc: true });
      provider.once("synced", () => ready({ doc, text: doc.getText() }));
    });
  const reader = await open();
  const reached = (length) =>
    new Promise((done) => {
      const look = () => reader.text.length >= length && (reader.doc.off("update", look), done());
      reader.doc.on("update", look);
      look();
    });
  if (mode === "seen") {
    const writer = await open();
    const times = [];
    for (let i = 0; i < count; i++) {
      const begun = now();
      writer.text.insert(0, "a");
      await reached(i + 1);
      times.push(now() - begun);
    }
    return times.sort((a, b) => a - b)[count >> 1] * 1e6;
  }
  const writers = await Promise.all(Array.from({ length: Number(mode) }, open));
  const each = Math.floor(count / writers.length);
  const begun = now();
  // in rounds, so that what comes from the server is read meanwhile
  for (let i = 0; i < each; i += 64) {
    for (let k = i; k < Math.min(i + 64, each); k++) for (const it of writers) it.text.insert(0, "a");
    await new Promise(setImmediate);
  }
  await reached(each * writers.length);
  return (each * writers.length) / (now() - begun);
}

(kind === "rgatext" ? rgatext() : yjs()).then((figure) => {
  console.log(figure);
  process.exit(0);
});
