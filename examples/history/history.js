// The past of a room: each of its versions by a slider, and where its edit was. Of a server's room, or of a kept file.
import { Connection } from "../../clients/js/connection.js";
import { Lost, Refused } from "../../clients/js/faults.js";
import { follow, History, historyOfFile } from "../../clients/js/history.js";
import { askWhere } from "../page.js";

/** Milliseconds between two steps of a play, and how many steps it has at most. */
const STEP = 50;
const STEPS = 400;

const element = (id) => document.getElementById(id);
const slider = element("version");
let history = new History();
let name = "";
let timer;

function tell(text, isTrouble = false) {
  element("state").textContent = text;
  element("state").classList.toggle("trouble", isTrouble);
}

const quoted = (text) => (text === "\n" ? "a line's end" : `“${text}”`);

/** The text of a version in parts: what stands before its edit, the edit, what stands behind, and what is said of it. */
function parts(version) {
  if (version === 0) return ["", "", "", "the empty text"];
  const { at, removed, text } = history.change(version);
  const before = history.text(version - 1);
  const edit = document.createElement(text === "" ? "del" : "mark");
  edit.textContent = text === "" ? before.slice(at, at + removed) : text;
  if (text !== "") return [before.slice(0, at), edit, before.slice(at), `${quoted(text)} put in at ${at}`];
  const what = removed === 0 ? "deleted what was gone" : `${quoted(edit.textContent)} deleted at ${at}`;
  return [before.slice(0, at), edit, before.slice(at + removed), what];
}

function show(version) {
  slider.value = version;
  const [before, edit, behind, what] = parts(version);
  element("text").replaceChildren(before, edit, behind);
  if (edit !== "") edit.scrollIntoView({ block: "nearest" });
  tell(`${name}: version ${version.toLocaleString("en")} of ${history.version.toLocaleString("en")}: ${what}`);
}

const shown = () => Number(slider.value);

/** Takes a history, and shows its newest version. */
function take(next, called) {
  stop();
  [history, name] = [next, called];
  slider.max = history.version;
  for (const it of [slider, ...document.querySelectorAll(".buttons button")]) it.disabled = false;
  show(history.version);
}

function stop() {
  clearInterval(timer);
  timer = undefined;
  element("play").textContent = "Play";
}

function play() {
  if (timer !== undefined) return stop();
  const step = Math.ceil(history.version / STEPS);
  if (shown() === history.version) show(0);
  element("play").textContent = "Stop";
  timer = setInterval(() => {
    show(Math.min(shown() + step, history.version));
    if (shown() === history.version) stop();
  }, STEP);
}

/** Opens a room of a server, or says why it can't be. */
async function openRoom(server, room) {
  let line = null;
  try {
    line = await Connection.open(server, room);
    const next = new History();
    await follow(next, line);
    take(next, room);
  } catch (fault) {
    const isAddress = fault instanceof SyntaxError || fault instanceof DOMException;
    if (isAddress) tell(`${server} is no address of a server: that is ws://HOST:PORT`, true);
    else if (fault instanceof Lost) tell(`no server answers at ${server}`, true);
    else if (fault instanceof Refused) tell(fault.message, true);
    else throw fault;
  } finally {
    line?.close();
  }
}

/** Opens a kept file, or says that it is none. */
async function openFile(file) {
  try {
    take(historyOfFile(await file.text()), file.name);
  } catch (fault) {
    if (!(fault instanceof SyntaxError || fault instanceof RangeError)) throw fault;
    tell(`${file.name} is no kept file and no snapshot: ${fault.message}`, true);
  }
}

slider.addEventListener("input", () => {
  stop();
  show(shown());
});
for (const [id, by] of [["back", -1], ["forth", 1]]) {
  element(id).addEventListener("click", () => show(Math.max(0, Math.min(history.version, shown() + by))));
}
element("play").addEventListener("click", play);
element("copy").addEventListener("click", async () => {
  try {
    await navigator.clipboard.writeText(history.text(shown()));
    tell(`copied version ${shown().toLocaleString("en")}`);
  } catch (fault) {
    tell(`the browser doesn't let the page copy: ${fault.message}`, true);
  }
});
element("file").addEventListener("change", ({ target }) => target.files.length > 0 && openFile(target.files[0]));
addEventListener("dragover", (event) => event.preventDefault());
addEventListener("drop", (event) => {
  event.preventDefault();
  if (event.dataTransfer.files.length > 0) openFile(event.dataTransfer.files[0]);
});
askWhere(openRoom);
