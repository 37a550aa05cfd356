/** CodeMirror 5 over a session: what is typed goes to the room, and what others type comes into the editor. */
import { Binding } from "./binding.js";
import { carried } from "./changes.js";

/** Milliseconds for which what others put in has the class `others`. */
const SHOWN = 2_000;

/**
 * Keeps an editor in step with a session. Its own history drops what others touch on the same line, so the user's steps are kept beside it,
 * and others' changes are none of them.
 * What the editor had before is `replaced` of the binding.
 * @param {import("./session.js").Session} session
 * @param {any} editor of CodeMirror 5
 * @param {import("./binding.js").BindingOptions} [options]
 * @returns {Binding}
 */
export function bindCodeMirror(session, editor, options) {
  return new CodeMirrorBinding(session, editor, options);
}

class CodeMirrorBinding extends Binding {
  #editor;
  #isPlaying = false; // changes that the session knows
  #typedBefore = (_, change) => this.#isPlaying || this.#typed(change);
  #keys = {
    "Ctrl-Z": () => this.undo(),
    "Cmd-Z": () => this.undo(),
    "Shift-Ctrl-Z": () => this.redo(),
    "Shift-Cmd-Z": () => this.redo(),
    "Ctrl-Y": () => this.redo(),
  };

  constructor(session, editor, options) {
    super(session, editor.getValue(), options);
    this.#editor = editor;
    editor.setOption("lineSeparator", "\n"); // a CR of the room is kept
    this.#play(() => editor.setValue(session.text));
    editor.on("beforeChange", this.#typedBefore);
    editor.addKeyMap(this.#keys);
    this.begin({
      setReadOnly: (isReadOnly) => editor.setOption("readOnly", isReadOnly),
      follow: (changes) => this.#follow(changes),
      turn: (isRedo) => this.#turn(isRedo),
    });
  }

  release() {
    super.release();
    this.#editor.off("beforeChange", this.#typedBefore);
    this.#editor.removeKeyMap(this.#keys);
  }

  /** Plays changes that the session knows. */
  #play(make) {
    this.#isPlaying = true;
    try {
      this.#editor.operation(make);
    } finally {
      this.#isPlaying = false;
    }
  }

  #put(at, removed, text) {
    this.#editor.replaceRange(text, this.#editor.posFromIndex(at), this.#editor.posFromIndex(at + removed));
  }

  /** Tells the session what the user is about to change. */
  #typed(change) {
    const at = this.#editor.indexFromPos(change.from);
    const taken = this.#editor.getRange(change.from, change.to);
    const text = change.text.join("\n");
    const isMade = this.change(() => {
      const made = this.session.replace(at, taken.length, text);
      this.steps.note(made, taken);
      if (made.text !== text) change.update(change.from, change.to, made.text.split("\n")); // half a pair is none of the room's
    });
    if (!isMade) change.cancel();
  }

  /** Shows what others changed. The line of the caret stays where it is seen. */
  #follow(changes) {
    const editor = this.#editor;
    this.steps.follow(changes);
    const follow = (it) => carried(editor.indexFromPos(it), changes);
    const selected = editor.listSelections().map(({ anchor, head }) => [follow(anchor), follow(head)]);
    const { top } = editor.getScrollInfo();
    const heightToCaret = () => editor.heightAtLine(editor.getCursor().line, "local");
    const before = heightToCaret();
    this.#play(() => {
      for (const { at, removed, text, to = at } of changes) {
        this.#put(at, removed, "");
        this.#put(to, 0, text);
        this.#mark(to, text.length);
      }
      const places = selected.map(([anchor, head]) => ({ anchor: editor.posFromIndex(anchor), head: editor.posFromIndex(head) }));
      editor.setSelections(places, null, { scroll: false });
    });
    editor.scrollTo(null, top + heightToCaret() - before);
  }

  /** Marks what others put in, for a while. */
  #mark(at, units) {
    if (units === 0) return;
    const mark = this.#editor.markText(this.#editor.posFromIndex(at), this.#editor.posFromIndex(at + units), { className: "others" });
    setTimeout(() => mark.clear(), SHOWN);
  }

  #turn(isRedo) {
    if (this.#editor.getOption("readOnly")) return;
    const make = (changes) => {
      this.session.replaceAll(changes);
      for (const { at, removed, text } of changes) {
        this.#put(at, removed, text);
        this.#editor.setCursor(this.#editor.posFromIndex(at + text.length));
      }
    };
    this.change(() => this.#play(() => this.steps.turn(isRedo, this.session, make)));
  }
}
