// The time of a program that a trial has started with this module before its own: it passes by the trial's ticks alone, each told by its
// milliseconds, of which the next one comes once this was answered. So a busy machine misses none of the program's times. An answer tells
// how much of a processor the program has taken.
import { syncBuiltinESMExports } from "node:module";
import timers from "node:timers/promises";
import { Clock } from "./clock.mjs";

const clock = new Clock(1);
timers.setTimeout = (milliseconds, value) => new Promise((resolve) => setTimeout(() => resolve(value), milliseconds));
syncBuiltinESMExports();
process.on("message", (milliseconds) => {
  clock.pass(milliseconds);
  process.send(process.cpuUsage());
});
process.send(process.cpuUsage());
