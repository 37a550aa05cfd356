/**
 * Keeps a text area in step with a session, with an undoing of the user's own changes alone. What the area had before is `replaced` of the
 * binding.
 * @param {import("./session.js").Session} session
 * @param {HTMLTextAreaElement} area
 * @param {import("./binding.js").BindingOptions} [options]
 * @returns {Binding}
 */
export function bindTextarea(session: import("./session.js").Session, area: HTMLTextAreaElement, options?: import("./binding.js").BindingOptions | undefined): Binding;
import { Binding } from "./binding.js";
