#!/usr/bin/env python3
"""Makes of kept rooms the files of new documents with the same texts, for when their sites or their logs are used up:

    python3 examples/renew.py rooms fresh

Each `rooms/NAME.ops` is read as `rgatext serve --keep` leaves it, the program prints its text, a room takes that in, of the least site
that the old log has no operation of, and what `--keep` would have written of that room goes to `fresh/NAME.ops`. So the two logs have no
operation in common; but where the old one has operations of all 32 sites the new one is of site 0, which is told. The folder `fresh` is
there once all of them stand in it, or not at all. Of a file, in place of a folder, the new one is printed. With `--snapshot` it is the
snapshot that the file stands for, as `rgatext text` and `rgatext lines --resume` read it.

What is lost: old versions, deleted text, and who wrote what when. No server may have the folder meanwhile, and whoever has operations of
an old document can't bring them to the new one."""

import argparse
import contextlib
import fcntl
import hashlib
import json
import os
import pathlib
import re
import shutil
import subprocess
import sys

PROGRAM = pathlib.Path(__file__).resolve().parent.parent / "bin" / "rgatext"
NAME = re.compile("[a-z0-9-]{1,32}")  # of a room: `notes.1.ops` is an old document
SITES = 32
MOST = 64  # characters of an insertion, and operations of a line
LONGEST = 65_536  # bytes of a line
UNREADABLE = ValueError, KeyError, TypeError, AttributeError, RecursionError  # what is raised where a text isn't what it should be


class Unrenewed(Exception):
    """Why nothing was made."""


def run(program, *words, given):
    """What the program writes for this input."""
    try:
        told = subprocess.run([program, *words], input=given.encode(), capture_output=True)
    except OSError as why:
        raise Unrenewed(f"{program}: {why.strerror}") from None
    if told.returncode != 0:
        raise Unrenewed(told.stderr.decode(errors="replace").strip() or f"{program} ended with status {told.returncode}")
    return told.stdout.decode()


def digest_line(digest):
    """The line that tells the digest of all bytes before it."""
    return b'{"sha256":"%s"}' % digest.hexdigest().encode()


def digested(lines):
    """A kept file with these lines, each with the digest of all bytes before it behind it."""
    digest, data = hashlib.sha256(), bytearray()
    for line in lines:
        digest.update(line + b"\n")
        told = digest_line(digest)
        digest.update(told + b"\n")
        data += b"%s\n%s\n" % (line, told)
    return bytes(data)


def kept_operations(data):
    """The operations and runs that stand in a kept file, of which a line may tell the digest of all bytes before it. A last line that was
    cut short, inside a character perhaps, is left out, as the program does: where a whole line stands before it."""
    operations, digest = [], hashlib.sha256()
    whole, _, tail = data.rpartition(b"\n")
    if len(tail) > (LONGEST if whole else 0) or b"\r" in tail:
        raise Unrenewed(f"its last {len(tail)} bytes are no line that was cut short (examples/mend.py)")
    for number, line in enumerate(whole.split(b"\n") if whole else [], 1):
        if line != digest_line(digest):
            try:
                operations += json.loads(line)["ops"]
            except UNREADABLE:
                raise Unrenewed(f"line {number} is none of a kept room, or its digest differs (examples/mend.py)") from None
        digest.update(line + b"\n")
    return operations


def snapshot(operations):
    """The snapshot with these operations and runs."""
    return json.dumps({"format": 2, "ops": operations}, separators=(",", ":"))


def typed(text):
    """The requests by which a session types a text, each part behind those before it."""
    yield {"t": "join"}
    for n, at in enumerate(range(0, len(text), MOST), 1):
        yield {"t": "ins", "s": 1, "n": n, "v": at, "k": at, "x": text[at : at + MOST]}
        yield {"t": "pull", "s": 1, "have": at, "max": MOST}


def free_site(file, operations):
    """The least site of which a file has no operation. Where it has some of each it is 0, which is told."""
    if free := {*range(SITES)} - {it["s"] for it in operations}:
        return min(free)
    print(f"renew.py: {file}: its log has operations of all {SITES} sites: the new document is of site 0, as a part of it is", file=sys.stderr)
    return 0


def renewed(program, file):
    """The file that keeps a new document with the text of this one, typed by a site of which this one has no operation."""
    data = file.read_bytes()
    operations, cut = kept_operations(data), len(data.rpartition(b"\n")[2])
    if cut:
        print(f"renew.py: {file}: its last {cut} bytes are a line that was cut short, and were left out", file=sys.stderr)
    text = run(program, "text", given=snapshot(operations)).removesuffix("\n")
    requests = [*typed(text), *({"t": "ops", "after": at, "max": MOST} for at in range(0, len(text), MOST))]
    given, site = "".join(json.dumps(it) + "\n" for it in requests), free_site(file, operations)
    replies = run(program, "lines", "--site", str(site), given=given).split("\n")
    return digested(line.encode() for line in replies if line and json.loads(line)["r"] == "ops")


@contextlib.contextmanager
def told_of(file):
    """Tells of which file it is that nothing was made."""
    try:
        yield
    except OSError as why:
        raise Unrenewed(f"{file}: {why.strerror}") from None
    except Unrenewed as why:
        raise Unrenewed(f"{file}: {why}") from None


def locked(folder):
    """The file by which a folder is one's own while it is open, as it is a server's that keeps its rooms there."""
    path = folder / "rgatext.lock"
    with told_of(path):
        lock = open(path, "ab")
    try:
        fcntl.flock(lock, fcntl.LOCK_EX | fcntl.LOCK_NB)
    except BlockingIOError:
        raise Unrenewed(f"{folder}: a server keeps its rooms there") from None
    return lock


def renew_folder(program, old, new):
    """Makes a folder with a new document of each room of another one."""
    if os.path.lexists(new):
        raise Unrenewed(f"{new}: it is there already")
    files = sorted(it for it in old.glob("*.ops") if NAME.fullmatch(it.stem))
    if not files:
        raise Unrenewed(f"{old}: no kept room is there")
    made = new.with_name(f"{new.name}.{os.getpid()}")
    with locked(old):
        with told_of(made):
            made.mkdir()
        try:
            for file in files:
                with told_of(file):
                    fresh = renewed(program, file)
                with told_of(made / file.name), open(made / file.name, "xb") as written:
                    written.write(fresh)
                    written.flush()
                    os.fsync(written.fileno())
            made.rename(new)
        except BaseException:
            shutil.rmtree(made)
            raise


def main():
    told = argparse.ArgumentParser(description=__doc__, formatter_class=argparse.RawDescriptionHelpFormatter)
    told.add_argument("--program", metavar="PATH", default=PROGRAM, help="the program rgatext, unless it is that of this repository")
    told.add_argument("--snapshot", action="store_true", help="print the snapshot that a kept file stands for")
    told.add_argument("kept", type=pathlib.Path, help="a folder in which rooms are kept, or a file of one")
    told.add_argument("fresh", type=pathlib.Path, nargs="?", help="the folder of the new documents, which isn't there yet")
    words = told.parse_args()
    if words.snapshot and words.fresh:
        told.error("a snapshot is made of one file")
    try:
        if words.fresh:
            renew_folder(words.program, words.kept, words.fresh)
        else:
            with told_of(words.kept):
                if words.snapshot:
                    print(snapshot(kept_operations(words.kept.read_bytes())))
                else:
                    sys.stdout.buffer.write(renewed(words.program, words.kept))
    except Unrenewed as why:
        sys.exit(f"renew.py: {why}; nothing was made")


if __name__ == "__main__":
    main()
