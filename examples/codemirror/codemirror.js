// An editor of rgatext rooms in CodeMirror 5.
import { openRooms, tellTrouble } from "../page.js";
import { bindCodeMirror } from "../../clients/js/codemirror.js";

const { CodeMirror } = globalThis;
if (CodeMirror === undefined) {
  tellTrouble("lib isn't there: install libjs-codemirror, and link or copy /usr/share/javascript/codemirror to it");
} else {
  const editor = CodeMirror(document.getElementById("editor"), { lineWrapping: true, undoDepth: 0, readOnly: true });
  editor.getInputField().setAttribute("aria-label", "text of the room");
  openRooms((session, options) => bindCodeMirror(session, editor, options));
}
