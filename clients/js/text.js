/**
 * Texts of UTF-16 units: where they may be cut, how many characters they have, and which change leads from one to another.
 * @typedef {import("./changes.js").Change} Change
 */

/** Whether the place of the text is inside of a pair of units. */
export function isInside(text, place) {
  return (text.charCodeAt(place - 1) & 0xfc00) === 0xd800 && (text.charCodeAt(place) & 0xfc00) === 0xdc00;
}

/** The first so many characters of a text. */
export function beginning(text, characters) {
  let end = 0;
  for (let n = 0; n < characters && end < text.length; n += 1) end += text.codePointAt(end) > 0xffff ? 2 : 1;
  return text.slice(0, end);
}

/** How many characters a text has. */
export function characters(text) {
  let count = 0;
  for (const _ of text) count += 1;
  return count;
}

/**
 * The one change that leads from a text to another. What both end with counts first in the last `behind` units, as behind a caret, then
 * what they begin with, and then what they end with. No end of it is inside of a pair.
 * @returns {Change}
 */
export function difference(from, to, behind = 0) {
  const most = Math.min(from.length, to.length);
  const isSameEnd = (end) => from[from.length - 1 - end] === to[to.length - 1 - end];
  let start = 0;
  let end = 0;
  while (end < Math.min(behind, most) && isSameEnd(end)) end += 1;
  while (start < most - end && from[start] === to[start]) start += 1;
  while (end < most - start && isSameEnd(end)) end += 1;
  if (isInside(from, start) || isInside(to, start)) start -= 1;
  if (isInside(from, from.length - end) || isInside(to, to.length - end)) end -= 1;
  return { at: start, removed: from.length - end - start, text: to.slice(start, to.length - end) };
}
