/**
 * Keeps an editor in step with a session. Its own history drops what others touch on the same line, so the user's steps are kept beside it,
 * and others' changes are none of them.
 * What the editor had before is `replaced` of the binding.
 * @param {import("./session.js").Session} session
 * @param {any} editor of CodeMirror 5
 * @param {import("./binding.js").BindingOptions} [options]
 * @returns {Binding}
 */
export function bindCodeMirror(session: import("./session.js").Session, editor: any, options?: import("./binding.js").BindingOptions | undefined): Binding;
import { Binding } from "./binding.js";
