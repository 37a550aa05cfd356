/** Lines of bytes, which end with LF alone. */
import { isUtf8 } from "node:buffer";

/**
 * The lines of a stream, each without its LF. The last one needs none if it has a byte.
 * @param {AsyncIterable<Buffer>} stream
 */
export async function* linesOf(stream) {
  let parts = [];
  for await (const block of stream) {
    let start = 0;
    for (let end = block.indexOf(10); end >= 0; end = block.indexOf(10, start)) {
      yield Buffer.concat([...parts, block.subarray(start, end)]);
      parts = [];
      start = end + 1;
    }
    parts.push(block.subarray(start));
  }
  const last = Buffer.concat(parts);
  if (last.length > 0) yield last;
}

/**
 * The text of a line in UTF-8. A byte that is none is half a pair: U+DC00 and its number.
 * @param {Buffer} line
 */
export function textOf(line) {
  if (isUtf8(line)) return line.toString();
  const signs = [];
  for (let at = 0; at < line.length; ) {
    const size = [1, 2, 3, 4].find((it) => isUtf8(line.subarray(at, at + it)));
    signs.push(size === undefined ? String.fromCharCode(0xdc00 + line[at]) : line.toString("utf8", at, at + size));
    at += size ?? 1;
  }
  return signs.join("");
}
