/** What may go wrong with a session, its line and its room. */

/** What the numbers of refusals mean that a session may come to. */
const REASONS = {
  4: "the server has no room of this name",
  6: "64 editors are there, and no more may join",
  12: "the room is full: it takes no more changes",
  13: "the room is at its end: it takes no more calls",
};

/** No answer came. The request may have been carried out. */
export class Lost extends Error {}

/** The server refused a request; `number` says why. */
export class Refused extends Error {
  constructor(number) {
    super(REASONS[number] ?? `the server refused a request with ${number}`);
    this.number = number;
  }
}

/** A change that doesn't fit into the room. Nothing of it was done. */
export class Full extends RangeError {
  constructor(left) {
    super(`the room takes ${left} more changes`);
    this.left = left;
  }
}

/** The session takes no change: it is closed, or the room takes nothing more. */
export class Ended extends Error {
  constructor(why) {
    super(`nothing can be changed${why === "" ? "" : `: ${why}`}`);
  }
}

/** What was done here won't be in the room: its user took the room's text in place of what was shown. */
export class GivenUp extends Error {
  constructor() {
    super("the room's text was taken, and what was shown is given up");
  }
}
