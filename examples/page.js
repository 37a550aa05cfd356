// What the pages have in common: a form with a server and a room, and a line that tells how the session stands.
import { bindPage, bindStatus } from "../clients/js/page.js";
import { open } from "../clients/js/rgatext.js";

const element = (id) => document.getElementById(id);

/** Says why the page can't be used. */
export function tellTrouble(trouble) {
  const line = Object.assign(document.createElement("p"), { className: "state trouble", textContent: trouble });
  element("status").replaceChildren(line);
}

/**
 * Asks where the room is by a form at the page's beginning, or by its address, as ?server=ws://127.0.0.1:7878&room=notes: `enter` is called
 * with the server and the room.
 */
export function askWhere(enter) {
  const form = Object.assign(document.createElement("form"), { id: "where" });
  const asked = new URLSearchParams(location.search);
  const fields = Object.entries({ server: "ws://127.0.0.1:7878", room: "notes" }).map(([id, usual]) => {
    const field = Object.assign(document.createElement("input"), { id, value: asked.get(id) ?? usual, spellcheck: false });
    const label = document.createElement("label");
    label.append(id === "server" ? "Server " : "Room ", field);
    form.append(label);
    return field;
  });
  const button = document.createElement("button");
  button.append("Open");
  form.append(button);
  document.body.prepend(form);
  const enters = () => enter(fields[0].value.trim(), fields[1].value);
  form.addEventListener("submit", (event) => {
    event.preventDefault();
    enters();
  });
  if (asked.has("room")) enters();
}

/** Opens the room that is asked for. `bind` binds a session to the page's editor, and gives the binding; it gets the options of one. */
export function openRooms(bind) {
  let session = null;
  let status = null;
  let bindings = [];

  askWhere((server, room) => {
    if (session?.mayBeLost && !confirm("Some of the text isn't in the room. Leave it?")) return;
    let next;
    try {
      next = open(server, room);
    } catch (fault) {
      if (!(fault instanceof TypeError)) throw fault;
      const trouble = `${server} can't be opened: ${fault.message}`;
      const goesOn = session !== null && !["refused", "closed"].includes(session.state);
      return goesOn ? status.trouble(trouble) : tellTrouble(trouble);
    }
    for (const it of bindings) it.release();
    session?.close();
    session = next;
    status = bindStatus(session, element("status"), { name: room });
    bindings = [status, bindPage(session), bind(session, { onTrouble: (trouble) => status.trouble(trouble) })];
  });
}
