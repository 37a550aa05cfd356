#!/usr/bin/env python3
"""Puts together again what can be had of a kept room's file that `rgatext serve --keep` doesn't open:

    python3 examples/mend.py rooms/notes.ops mended.ops

Where a digest differs since one bit has flipped, that bit is flipped back. A CR, or CR LF, ends a line as an LF does, and the last line may
lack its end. Of the lines that are parts of a log each operation is taken that may follow those before it: all of them in front of the
first damaged line, and behind it what doesn't build upon what is missing. They go to the new file, which isn't there yet; the old one stays
as it is. Where there is none nothing is made. What was put right or left out, and which lines are in doubt, is told on standard error. With
`--program` the new file is read by that program."""

import argparse
import collections
import hashlib
import json
import os
import pathlib
import re
import sys

from renew import MOST, PROGRAM, SITES, UNREADABLE, Unrenewed, digest_line, digested, kept_operations, run, snapshot

LIMIT = 131_072  # operations of a log
SEARCHED = 32_768  # bytes in which a flipped bit is looked for, at most
DIGEST = re.compile(rb'\{"sha256":"[0-9a-f]{64}"\}')
LINE_END = re.compile(rb"\r\n?")  # that was an LF: a kept line has no CR
LF, CR = b"\n\r"
KEYS = {"i": set("ckpsx"), "r": set("ckpsx"), "d": set("ckst")}
LENGTHS = {"i": range(1, 2), "r": range(2, MOST + 1), "d": range(1, 2)}

# What a byte may have been before one of its bits flipped. (An LF may stand for a CR.)
ONE_BIT_AWAY = {byte: {it ^ 1 << bit for it in (byte, CR if byte == LF else byte) for bit in range(8)} for byte in range(256)}

# The counts of a clock by their sites; no character where it deletes; the stamp that it stands behind or deletes, and its own.
Operation = collections.namedtuple("Operation", "site clock char place stamp")


def put_right(part, told, digest):
    """A part and the digest that is told of it and of what was hashed, as they were written, where that is but one bit away; else None."""
    whole = digest.copy()
    whole.update(part)
    line = digest_line(whole)
    if bin(int.from_bytes(line, "big") ^ int.from_bytes(told, "big")).count("1") <= 1:
        return part + line
    digest, part = digest.copy(), memoryview(part)
    for at in range(len(part) if len(part) <= SEARCHED else 0):
        for byte in ONE_BIT_AWAY[part[at]]:
            tried, byte = digest.copy(), bytes([byte])
            tried.update(byte)
            tried.update(part[at + 1 :])
            if digest_line(tried) == told:
                return b"".join((part[:at], byte, part[at + 1 :], told))
        digest.update(part[at : at + 1])
    return None


def restored(data):
    """The bytes, with the flipped bits put right that their digests tell of, and what there is to tell."""
    whole, told, digest = bytearray(), [], hashlib.sha256()
    for found in DIGEST.finditer(data):
        start = len(whole)
        piece = put_right(data[start : found.start()], found[0], digest)
        if piece is None:
            first, last = (1 + (whole + data[start:end]).count(b"\n") for end in (start + 1, found.start()))
            told.append(f"lines {first} to {last}: they aren't as they were written; of what follows no digest could be looked at")
            break
        whole += piece
        digest.update(piece)
        if not data.startswith(piece, start):
            at = next(at for at in range(start, len(whole)) if whole[at] != data[at])
            line = whole.count(LF, 0, at)
            told.append(f"line {1 + line}: a bit of its byte {at - whole.rfind(LF, 0, at) - 1} had flipped, and was put right")
    return bytes(whole) + data[len(whole) :], told


def number(told, least, most):
    """A number that is within these bounds."""
    if type(told) is not int or not least <= told <= most:
        raise ValueError
    return told


def stamp(told):
    """The stamp that an object names."""
    total, site = told
    return number(total, 1, LIMIT), number(site, 0, SITES - 1)


def operations_of(told):
    """The operations that an object stands for, one for each character of a run; none where it is no object of docs/EXCHANGE.md."""
    try:
        kind, site = told["k"], number(told["s"], 0, SITES - 1)
        clock = {number(at, 0, SITES - 1): number(count, 1, LIMIT) for at, count in told["c"]}
        place, chars = (told["t"], [None]) if kind == "d" else (told["p"], told["x"])
        if kind == "d" or place is not None:
            place = stamp(place)
        if kind != "d":
            chars.encode()  # half a pair is no text
        total = sum(clock.values())
        number(total + len(chars) - 1, 1, LIMIT)
        is_clock = site in clock and [at for at, _ in told["c"]] == sorted(clock)
        if set(told) != KEYS[kind] or len(chars) not in LENGTHS[kind] or not is_clock:
            return []
    except UNREADABLE:
        return []
    operations = []
    for n, char in enumerate(chars):
        operations.append(Operation(site, {**clock, site: clock[site] + n}, char, place, (total + n, site)))
        place = operations[-1].stamp
    return operations


class Log:
    """A lawful log."""

    def __init__(self):
        self.operations, self.counts, self.sums, self.stamps = [], collections.Counter(), collections.Counter(), set()

    def take(self, it):
        """Whether the operation may follow, as the program looks at it, and then it does."""
        is_next = it.clock[it.site] == self.counts[it.site] + 1 and it.stamp[0] > self.sums[it.site]
        is_known = all(self.counts[other] >= count for other, count in it.clock.items() if other != it.site)
        is_placed = it.place is None or it.place in self.stamps and (it.char is None or it.place < it.stamp)
        if len(self.operations) == LIMIT or not (is_next and is_known and is_placed):
            return False
        self.counts[it.site] += 1
        self.sums[it.site] = it.stamp[0]
        if it.char is not None:
            self.stamps.add(it.stamp)
        self.operations.append(it)
        return True

    def parts(self):
        """Its lines, packed as the program does it."""
        for begin in range(0, len(self.operations), MOST):
            objects, before = [], None
            for it in self.operations[begin : begin + MOST]:
                if before and follows(it, before):
                    objects[-1].update(k="r", x=objects[-1]["x"] + it.char)
                elif it.char is None:
                    objects.append({"c": [*it.clock.items()], "k": "d", "s": it.site, "t": it.place})
                else:
                    objects.append({"c": [*it.clock.items()], "k": "i", "p": it.place, "s": it.site, "x": it.char})
                before = it
            yield json.dumps({"from": begin, "ops": objects, "r": "ops"}, ensure_ascii=False, separators=(",", ":")).encode()


def follows(it, before):
    """Whether an operation is the insertion that the site of the one before makes next, directly behind that one's element."""
    is_insertion = it.char is not None and before.char is not None
    clock = {**before.clock, before.site: before.clock[before.site] + 1}
    return is_insertion and (it.site, it.place, it.clock) == (before.site, before.stamp, clock)


def mend(data):
    """The kept file of what can be had, and what there is to tell of it."""
    data, turned = LINE_END.subn(b"\n", data)
    data, told = restored(data)
    if turned:
        told.insert(0, f"ends of lines that were CR or CR LF, and were turned back into LF: {turned}")
    *lines, tail = data.split(b"\n")
    if tail:
        lines.append(tail)
        told.append(f"line {len(lines)}: it lacks its end")
    log, at, lost = Log(), 0, 0  # where the next part begins
    for line_number, line in enumerate(lines, 1):
        if DIGEST.fullmatch(line):
            continue
        try:
            part = json.loads(line.decode())
            objects = [operations_of(it) for it in part["ops"]]
        except UNREADABLE:
            told.append(f"line {line_number}: it is no line of a kept room")
            continue
        operations = [it for one in objects for it in one]
        left_out = objects.count([]) + sum(not log.take(it) for it in operations)
        lost += left_out
        if part != {"from": at, "ops": part["ops"], "r": "ops"}:
            told.append(f"line {line_number}: it doesn't go on where the line before it ends")
            at = part["from"] if type(part.get("from")) is int else at
        at += len(operations)
        if left_out:
            told.append(f"line {line_number}: {left_out} of its operations are none, or may not follow those that were taken")
    told.append(f"{len(log.operations)} operations were taken, {lost} left out")
    return digested(log.parts()), told


def put(data, file):
    """Puts bytes under a name that isn't there yet: all of them, or none."""
    beside = file.parent / f"{file.name}.{os.getpid()}"
    with open(beside, "xb") as made:
        try:
            made.write(data)
            made.flush()
            os.fsync(made.fileno())
            os.link(beside, file)
        finally:
            beside.unlink()


def main():
    words = argparse.ArgumentParser(description=__doc__, formatter_class=argparse.RawDescriptionHelpFormatter)
    words.add_argument("--program", metavar="PATH", default=PROGRAM, help="the program rgatext, unless it is that of this repository")
    words.add_argument("damaged", type=pathlib.Path, help="the file of a kept room")
    words.add_argument("mended", type=pathlib.Path, help="the new file, which isn't there yet")
    words = words.parse_args()
    try:
        data, told = mend(words.damaged.read_bytes())
        print("\n".join(f"mend.py: {it}" for it in told), file=sys.stderr)
        if not data:
            raise Unrenewed("no operation can be had")
        run(words.program, "text", given=snapshot(kept_operations(data)))
        put(data, words.mended)
    except (OSError, Unrenewed) as why:
        sys.exit(f"mend.py: {why}; nothing was made")


if __name__ == "__main__":
    main()
