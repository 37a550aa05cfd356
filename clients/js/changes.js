/**
 * Changes of a text. All places count UTF-16 units, as JavaScript does.
 *
 * A change removes so many units at a place, and puts a text in there. Where it is a move, that is the text that it removes, and it is
 * put in at the place `to` of what is left.
 * @typedef {{at: number, removed: number, text: string, to?: number}} Change
 */

/**
 * The text that changes lead to.
 * @param {string} text
 * @param {Change[]} changes
 */
export function played(text, changes) {
  for (const { at, removed, text: put, to = at } of changes) {
    const left = text.slice(0, at) + text.slice(at + removed);
    text = left.slice(0, to) + put + left.slice(to);
  }
  return text;
}

/**
 * A place carried over changes of the text. At equality it stays before what is put in. With a text that moves it goes where it is
 * within it or right behind it, as a caret that has just typed it.
 * @param {number} place
 * @param {Change[]} changes
 */
export function carried(place, changes) {
  for (const { at, removed, text, to = at } of changes) {
    if (to !== at && at < place && place <= at + removed) {
      place += to - at;
    } else {
      if (place > at) place = Math.max(at, place - removed);
      if (place > to) place += text.length;
    }
  }
  return place;
}

/**
 * Where a unit of the text is after changes; null where one removed it.
 * @param {number} unit
 * @param {Change[]} changes
 */
export function carriedUnit(unit, changes) {
  for (const { at, removed, text, to = at } of changes) {
    const isWithin = at <= unit && unit < at + removed;
    if (isWithin && to === at) return null;
    if (isWithin) {
      unit += to - at;
    } else {
      if (unit >= at) unit -= removed;
      if (unit >= to) unit += text.length;
    }
  }
  return unit;
}

/** Adds a change, or lengthens the last one where it goes on there. */
export function add(changes, change) {
  const last = changes.at(-1) ?? { at: -1, removed: 0, text: "" };
  const isRemoval = last.text === "" && change.text === "";
  if (last.removed === 0 && change.removed === 0 && change.at === last.at + last.text.length) {
    last.text += change.text;
  } else if (isRemoval && (change.at === last.at || change.at + change.removed === last.at)) {
    last.at = change.at;
    last.removed += change.removed;
  } else {
    changes.push(change);
  }
}

/**
 * Changes in lists of those that go from the last place to the first, as changes of one text: each list may be played in one pass. A move
 * is alone.
 * @param {Change[]} changes
 */
export function runs(changes) {
  /** @type {Change[][]} */
  const found = [];
  for (const change of changes) {
    const last = found.at(-1)?.at(-1);
    const goesOn = last !== undefined && last.to === undefined && change.to === undefined && change.at + change.removed <= last.at;
    if (goesOn) found.at(-1).push(change);
    else found.push([change]);
  }
  return found;
}
