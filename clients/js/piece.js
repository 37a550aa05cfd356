/**
 * A piece: its text; whose it is; what becomes of it; and, where something of it is new, when that was made. Text that others put in and
 * the room lost stays where it stood, unseen, for when they put it in again.
 */

/** So many units of the room's text are one piece at most, unless they came as one. */
const LONG = 2_048;

export class Piece {
  constructor(text, owner, gone = null, order = 0, since = 0) {
    this.text = text;
    this.owner = owner; // "room", "new", "sent" or "lost"
    this.gone = gone; // null, "new" or "sent"; "others" of what they put in again, or delete again
    this.order = order;
    this.since = since; // the number of the wait for lost text in which it came, or 0
  }

  get isShown() {
    return this.gone === null;
  }

  get isRooms() {
    return this.owner === "room";
  }

  /** Whether something of it is to be sent, as soon as the room has it. */
  get isNew() {
    return this.owner === "new" || (this.gone === "new" && !this.isLost);
  }

  /** Whether the room isn't known to have what became of it here. */
  get isPending() {
    return this.isNew || this.owner === "sent" || this.gone === "sent";
  }

  get isLost() {
    return this.owner === "lost";
  }

  /** What is between two places, as a piece of its own. */
  part(start, end) {
    return new Piece(this.text.slice(start, end), this.owner, this.gone, this.order, this.since);
  }

  /** Takes what stands behind the place off, and gives it as a piece of its own. */
  cut(place) {
    const rest = this.part(place, this.text.length);
    this.text = this.text.slice(0, place);
    return rest;
  }

  /** Whether both are of one kind, so that they may be one piece. Two of the room's that are long stay two, since a cut copies a piece. */
  isLike(other) {
    const isShort = !this.isRooms || this.text.length + other.text.length <= LONG;
    return isShort && ["owner", "gone", "order", "since"].every((it) => this[it] === other[it]);
  }

  /**
   * The room lost it: what was put in here is new again, and what others put in stands unseen. Gives whether it is still there: it may have
   * been deleted since.
   */
  lose(isOwn) {
    if (isOwn ? !this.isShown : this.gone === "others") return false;
    this.owner = isOwn ? "new" : "lost";
    if (!isOwn) this.gone ??= "others";
    return true;
  }

  /** Takes in a piece of its kind that stands behind it. */
  join(next) {
    this.text += next.text;
  }
}
