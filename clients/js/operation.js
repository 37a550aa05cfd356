/** What is an operation, as docs/EXCHANGE.md has it. */

export const isCount = (it) => Number.isInteger(it) && it >= 0 && it <= 0xffffffff;
export const isText = (it) => typeof it === "string" && it.isWellFormed();
const isPair = (it) => Array.isArray(it) && it.length === 2 && it.every(isCount);
const isPut = ({ k, p, x }) => (k === "i" || k === "r") && (p === null || isPair(p)) && isText(x);

/** Whether something is an operation or a run of them. */
export const isOperation = (it) =>
  isCount(it?.s) && Array.isArray(it.c) && it.c.every(isPair) && (it.k === "d" ? isPair(it.t) : isPut(it));
