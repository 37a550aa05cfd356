// What tests/try_types has checked by the module's declarations: a program as README.md tells how to write one.
import { Change, Ended, Full, GivenUp, open, Refused, Session } from "./rgatext.js";
import { bindCodeMirror } from "./codemirror.js";
import { Connection } from "./connection.js";
import { follow, History } from "./history.js";
import { MemoryRoom } from "./memory_room.js";
import { bindPage, bindStatus } from "./page.js";
import { bindTextarea } from "./textarea.js";
import { Undo } from "./undo.js";

const session: Session = open("ws://127.0.0.1:7878", "notes", { silence: 1_000, operations: 131_072 });
session.addEventListener("changes", ({ detail }) => detail.forEach(({ at, removed, text, to }: Change) => [at + removed, text.length, to]));
session.addEventListener("state", () => [session.state === "up to date", session.why.length, session.left / session.operations]);
const number: number | null = session.number;
const theirs: string | undefined = session.other?.text;
const lost: string[] = session.unsent.map(({ kind, text }) => `${kind} ${text}`);
await session.ready.catch((fault: Refused | Ended) => fault.message);
try {
  const made: Change = session.replace(0, 0, "Hello");
  new Undo().note(made, "");
} catch (fault) {
  if (fault instanceof Full) console.log(fault.left);
}
session.replaceAll([{ at: 3, removed: 1, text: "" }, { at: 0, removed: 0, text: "more" }]);
await session.sent().catch((fault: GivenUp) => fault.message);
const isSent: boolean = await session.close({ flush: 5_000 });

const area = document.querySelector("textarea")!;
const status = bindStatus(session, document.body, { name: "notes" });
const binding = bindTextarea(session, area, { onTrouble: (trouble) => status.trouble(trouble) });
binding.undo();
const replaced: string = binding.replaced;
const mayBeLost: boolean = session.mayBeLost;
session.isHeld = true;
bindCodeMirror(session, null).release();
bindPage(session).release();

const room = new MemoryRoom({ site: 1, operations: 100 });
const meets = ({ t }: { t: string }) => (t === "ins" ? "answer" : "") as "answer" | "";
const history = new History();
await follow(history, await room.connect({ delay: 20, meets }));
await follow(history, await Connection.open("ws://127.0.0.1:7878", "notes"));
console.log(number, theirs, lost, isSent, replaced, mayBeLost, history.text(history.version), history.change(1).at, room.restart(1).text);

// @ts-expect-error: a text is no place
session.insert("0", "x");
// @ts-expect-error: there is no such state
session.state === "connected";
// @ts-expect-error: there is no such option
open("ws://127.0.0.1:7878", "notes", { speed: 1 });
