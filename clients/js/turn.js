/** One round of a session on its line. */
import { MOST } from "./document.js";

/**
 * Sends what was done before the turn began, each submission with a pull right behind it, and pulls on as long as there is more; but no
 * longer than until others have to see something. `mayGoOn` says whether the session is still to be served, and `tell` hands changes of
 * the shown text over. Whether there is more to pull.
 * @param {import("./document.js").Document} document
 * @param {import("./seat.js").Seat} seat
 * @param {() => boolean} mayGoOn
 * @param {(changes: import("./changes.js").Change[]) => void} tell
 */
export async function turn(document, seat, mayGoOn, tell) {
  const until = Date.now() + seat.options.typing;
  const before = document.order;
  const edits = [];
  try {
    for (;;) {
      const request = seat.submission(document, before);
      const asked = request === null ? null : seat.send(request);
      const pulled = seat.pull(document.version + edits.length);
      pulled.catch(() => {}); // an answer counts also where the pull behind it is lost
      if (asked !== null) await seat.answered(document, await asked);
      const more = seat.isUnanswered ? null : await seat.editsOf(await pulled); // which edits are its own isn't known
      if (more !== null) edits.push(...more);
      if (edits.length > 0) await seat.meet(document);
      const isMore = more === null || more.length === MOST;
      const hasCome = document.isWaiting && seat.hasCome(document.version + edits.length);
      const isEarly = mayGoOn() && Date.now() < until;
      if (isMore && !hasCome && isEarly) continue;
      tell(document.play(edits.splice(0)));
      if (hasCome && isEarly && document.hasNew(before)) continue;
      return isMore;
    }
  } finally {
    tell(document.play(edits)); // what was pulled counts also where the line was lost then
  }
}
