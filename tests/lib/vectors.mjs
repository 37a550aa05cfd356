// The cases of clients/vectors, for tests/lib/merging.mjs and tests/lib/standing.mjs.
import { readFileSync } from "node:fs";

/** The cases of a file. */
export const vectors = (name) => JSON.parse(readFileSync(new URL(`../../clients/vectors/${name}.json`, import.meta.url), "utf8")).cases;

/** A text, which may be told by its parts, each so often. */
export const whole = (text) => (typeof text === "string" ? text : text.map(([times, part]) => part.repeat(times)).join(""));
