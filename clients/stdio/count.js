/**
 * How an editor counts places: in UTF-16 units, characters, or bytes of UTF-8. A surrogate that stands alone, as a byte that is no
 * UTF-8, is one of each.
 *
 * @typedef {(sign: number) => number} Count how many places a code point takes
 */

const isSurrogate = (sign) => sign >= 0xd800 && sign <= 0xdfff;

/** @type {Record<string, Count>} */
export const COUNTS = {
  units: (sign) => (sign > 0xffff ? 2 : 1),
  characters: () => 1,
  bytes: (sign) => (sign < 0x80 || isSurrogate(sign) ? 1 : sign < 0x800 ? 2 : sign < 0x10000 ? 3 : 4),
};

/**
 * Goes so many places on in a text from a UTF-16 unit, or to its end: the index of the unit there, and how many places are left. Less than
 * none are left where the place is inside of a character.
 * @param {string} text
 * @param {number} places
 * @param {Count} count
 */
export function gone(text, places, count, from = 0) {
  let [index, rest] = [from, places];
  while (rest > 0 && index < text.length) {
    const sign = text.codePointAt(index);
    rest -= count(sign);
    index += sign > 0xffff ? 2 : 1;
  }
  return { index, rest };
}

/**
 * Goes so many places back, as `gone` goes on.
 * @param {string} text
 * @param {number} places
 * @param {Count} count
 * @param {number} from
 */
export function goneBack(text, places, count, from) {
  let [index, rest] = [from, places];
  while (rest > 0 && index > 0) {
    index -= text.codePointAt(index - 2) > 0xffff ? 2 : 1;
    rest -= count(text.codePointAt(index));
  }
  return { index, rest };
}

/**
 * How many places a text takes.
 * @param {string} text
 * @param {Count} count
 */
export function size(text, count) {
  const most = Number.MAX_SAFE_INTEGER;
  return most - gone(text, most, count).rest;
}
