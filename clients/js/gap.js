/**
 * A list of numbers, for many replacements near each other: a gap stands where the last one was, so that one costs as many steps as the
 * gap moves. The numbers are whole, of 32 bits.
 */

/** So many more than what is put in have room in a gap that is made wider. */
const ROOM = 1_024;

/** The units of a text, as a list takes them. */
export function unitsOf(text) {
  const units = new Int32Array(text.length);
  for (let n = 0; n < text.length; n += 1) units[n] = text.charCodeAt(n);
  return units;
}

export class Gap {
  #numbers;
  #start; // of the gap
  #end;

  /** @param {Int32Array} numbers */
  constructor(numbers) {
    this.#numbers = numbers;
    this.#start = this.#end = numbers.length;
  }

  get length() {
    return this.#numbers.length - (this.#end - this.#start);
  }

  /** All of the list, as numbers of their own. */
  get all() {
    const all = new Int32Array(this.length);
    all.set(this.#numbers.subarray(0, this.#start));
    all.set(this.#numbers.subarray(this.#end), this.#start);
    return all;
  }

  /** The number at a place. */
  at(place) {
    return this.#numbers[place < this.#start ? place : place + this.#end - this.#start];
  }

  /** Whether these are all of the list. */
  is(numbers) {
    if (numbers.length !== this.length) return false;
    const isEqual = (from, to, by) => {
      for (let n = from; n < to; n += 1) if (numbers[n] !== this.#numbers[n + by]) return false;
      return true;
    };
    return isEqual(0, this.#start, 0) && isEqual(this.#start, numbers.length, this.#end - this.#start);
  }

  /** Takes so many off at a place, puts others in there, and gives what was taken off. */
  replace(at, removed, put) {
    this.#move(at);
    const taken = this.#numbers.slice(this.#end, this.#end + removed);
    this.#end += removed;
    if (this.#end - this.#start < put.length) this.#widen(put.length);
    this.#numbers.set(put, this.#start);
    this.#start += put.length;
    return taken;
  }

  #move(at) {
    const width = this.#end - this.#start;
    if (at < this.#start) this.#numbers.copyWithin(at + width, at, this.#start);
    else this.#numbers.copyWithin(this.#start, this.#end, at + width);
    [this.#start, this.#end] = [at, at + width];
  }

  #widen(count) {
    const more = count + ROOM + this.length;
    const numbers = new Int32Array(this.#numbers.length + more);
    numbers.set(this.#numbers.subarray(0, this.#end));
    numbers.set(this.#numbers.subarray(this.#end), this.#end + more);
    this.#numbers = numbers;
    this.#end += more;
  }
}
