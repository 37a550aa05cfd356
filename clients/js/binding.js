/** What the bindings of editors have in common. */
import { Ended, Full } from "./faults.js";
import { Undo } from "./undo.js";

/**
 * @typedef {import("./changes.js").Change} Change
 * @typedef {import("./session.js").Session} Session
 *
 * `onTrouble` gets a sentence where a change can't be made or is held back, and an empty text once that is over.
 * @typedef {{onTrouble?: (trouble: string) => void}} BindingOptions
 *
 * What is done with an editor: it is made read-only or not, shows others' changes, and undoes a step or does it again.
 * @typedef {{setReadOnly(isReadOnly: boolean): void, follow(changes: Change[]): void, turn(isRedo: boolean): void}} Editing
 */

export class Binding {
  #bound = new AbortController();
  /** @type {Editing} */
  #editing;

  /**
   * `replaced` is the editor's text of before.
   * @param {Session} session
   * @param {string} replaced
   * @param {BindingOptions} [options]
   */
  constructor(session, replaced, { onTrouble = () => {} } = {}) {
    this.session = session;
    this.steps = new Undo();
    /** The text that the editor had before it was bound, and has no more. */
    this.replaced = replaced;
    this.onTrouble = onTrouble;
  }

  /** Until when the editor and the session are listened to. */
  get signal() {
    return this.#bound.signal;
  }

  /**
   * Listens to the session from now on.
   * @param {Editing} editing
   */
  begin(editing) {
    const { session, signal } = this;
    this.#editing = editing;
    const setReadOnly = () => editing.setReadOnly(session.state === "refused" || session.state === "closed");
    session.addEventListener("changes", ({ detail }) => editing.follow(detail), { signal });
    session.addEventListener("state", setReadOnly, { signal });
    setReadOnly();
  }

  /** Undoes the user's last step. */
  undo() {
    this.#editing.turn(false);
  }

  /** Does again what was undone last. */
  redo() {
    this.#editing.turn(true);
  }

  /** Lets go of the editor and the session. */
  release() {
    this.#bound.abort();
  }

  /**
   * Makes a change, or says why it can't be made. Gives whether it was made.
   * @param {() => void} make
   */
  change(make) {
    try {
      make();
    } catch (fault) {
      if (!(fault instanceof Full || fault instanceof Ended)) throw fault;
      this.onTrouble(fault instanceof Full ? `${fault.message}: that didn't fit` : fault.message);
      return false;
    }
    this.onTrouble("");
    return true;
  }
}
