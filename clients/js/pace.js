/** How often a session asks: each request is one of those that a room takes in all. */
import { USUAL } from "./options.js";

export class Pace {
  isHidden = false;
  #options;
  #idle;
  #last = Date.now();

  constructor(options = USUAL) {
    this.#options = options;
    this.#idle = options.idle;
  }

  /** Something was done, here or by others. */
  hasNews() {
    this.#idle = this.#options.idle;
    this.#last = Date.now();
  }

  /** Milliseconds until news is asked for again. */
  next() {
    const { quiet, slowest, hidden } = this.#options;
    if (Date.now() - this.#last > quiet) this.#idle = Math.min(2 * this.#idle, slowest);
    return this.isHidden ? hidden : this.#idle;
  }
}
