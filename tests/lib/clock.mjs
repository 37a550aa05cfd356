// Time that passes only where nothing else is to be done: what waits for it, and what is thrown by dice, is the same in each run.
import { dice } from "./room.mjs";

/** Stands in for the time and the chance of this process from now on. */
export class Clock {
  now = 1_700_000_000_000;
  #timers = [];
  #count = 0;
  #calls = new Set(); // what is waited for outside: till it comes, time stands still

  constructor(seed) {
    const roll = dice(seed);
    Math.random = () => roll(2 ** 32) / 2 ** 32;
    Date.now = () => this.now;
    globalThis.setTimeout = (call, milliseconds = 0) => {
      const timer = { when: this.now + milliseconds, number: (this.#count += 1), call };
      this.#timers.push(timer);
      return timer;
    };
    globalThis.clearTimeout = (timer) => (this.#timers = this.#timers.filter((it) => it !== timer));
  }

  /** Time stands still until the promise has settled. */
  async during(promise) {
    this.#calls.add(promise);
    try {
      return await promise;
    } finally {
      this.#calls.delete(promise);
    }
  }

  /** Lets time pass until the promise has settled, and gives what comes of it. */
  async run(promise) {
    let isDone = false;
    promise.catch(() => {}).then(() => (isDone = true));
    for (;;) {
      await new Promise((resolve) => setImmediate(resolve)); // all that needs no time
      if (isDone) return promise;
      if (this.#calls.size > 0) await Promise.race(this.#calls).catch(() => {});
      else this.#next();
    }
  }

  /** Lets so much time pass at once. */
  pass(milliseconds) {
    const until = this.now + milliseconds;
    while (this.#timers.some(({ when }) => when <= until)) this.#next();
    this.now = until;
  }

  #next() {
    const isBefore = (one, other) => one.when < other.when || (one.when === other.when && one.number < other.number);
    const timer = this.#timers.reduce((first, it) => (isBefore(it, first) ? it : first));
    this.#timers.splice(this.#timers.indexOf(timer), 1);
    this.now = Math.max(this.now, timer.when);
    timer.call();
  }
}
