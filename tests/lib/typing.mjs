// Editors that type by sessions of a module like clients/js, for bin/soak_clients. The arguments are the module's folder and the
// address; a line of input tells what to do, and each line of output is what one did.
import { createInterface } from "node:readline";
import { moduleOf, Typist } from "./typist.mjs";

const [folder, address, words] = process.argv.slice(2);
const module = await moduleOf(folder);
const tell = (what) => console.log(JSON.stringify(what));
const open = () => module.open(address, "notes");
const typists = [];

async function close() {
  const closed = Promise.all(typists.map(({ session }) => session.close().catch(() => {})));
  await Promise.race([closed, new Promise((resolve) => setTimeout(resolve, 5_000))]);
  process.exit();
}

createInterface({ input: process.stdin })
  .on("line", (line) => {
    const { begin, further, clear, end, report, close: isOver } = JSON.parse(line);
    for (const it of begin ?? []) typists.push(new Typist({ module, open, tell, isOfWords: words === "words" }, it));
    for (const { who, text } of further ?? []) typists.find((it) => it.who === who).goOn(text);
    if (clear) typists[0].clear(...clear);
    for (const it of typists) {
      if (end) it.isTyping = false;
      if (report) it.tell({ report: it.report });
    }
    if (isOver) close();
  })
  .on("close", () => process.exit());
