// An editor of rgatext rooms on a text area.
import { openRooms } from "../page.js";
import { bindTextarea } from "../../clients/js/textarea.js";

const area = document.getElementById("text");
openRooms((session, options) => {
  area.disabled = false;
  area.focus();
  return bindTextarea(session, area, options);
});
