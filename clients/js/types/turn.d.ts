/**
 * Sends what was done before the turn began, each submission with a pull right behind it, and pulls on as long as there is more; but no
 * longer than until others have to see something. `mayGoOn` says whether the session is still to be served, and `tell` hands changes of
 * the shown text over. Whether there is more to pull.
 * @param {import("./document.js").Document} document
 * @param {import("./seat.js").Seat} seat
 * @param {() => boolean} mayGoOn
 * @param {(changes: import("./changes.js").Change[]) => void} tell
 */
export function turn(document: import("./document.js").Document, seat: import("./seat.js").Seat, mayGoOn: () => boolean, tell: (changes: import("./changes.js").Change[]) => void): Promise<boolean>;
