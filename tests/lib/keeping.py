"""What tests/try_kept, tests/try_serving and tests/try_together have in common: servers that keep their rooms, what stands in their files,
and editors that type."""
import atexit
import hashlib
import json
import os
import pathlib
import random
import re
import resource
import signal
import subprocess
import tempfile
import threading
import time

import expecting
import verdict
from conversations import TOP
from expecting import JOIN, PROGRAM, opened
from plain_world import object_of, operation_of, packed
from refusing import library
from serving import free_port
from verdict import expect

BUILT = str(TOP / "crates" / "rgatext" / "out" / "rgatext")
EVERY = 1
LAST = "the last of {} connections is accepted: nobody listens any more"
RENEW = TOP / "examples" / "renew.py"
LEAVE, NO_SESSION = '{"t":"leave","s":99}', '{"n":5,"r":"no"}'
room = tempfile.TemporaryDirectory()
top = pathlib.Path(room.name)


def new_folder(name):
    """A folder for the rooms of a trial."""
    folder = top / name
    folder.mkdir()
    return folder


class Server:
    """A run of the server over a folder."""

    def __init__(self, folder, *words, rooms=("notes",), left_out=(), every=EVERY, most_bytes=None, stderr=subprocess.PIPE, **failing):
        port = free_port()
        words = ["--port", str(port), "--keep", str(folder), *(["--every", str(every)] if every else []), *words, *rooms, *left_out]
        self.folder = folder
        self.port = port
        self.run = subprocess.Popen(
            [BUILT if failing else PROGRAM, "serve", *words],
            env=environment(failing),
            stdin=subprocess.DEVNULL,
            stdout=subprocess.PIPE,
            stderr=stderr,
            preexec_fn=most_bytes and (lambda: limit(most_bytes)),
        )
        atexit.register(self.run.kill)  # (where a trial breaks off)
        expect("listening", self.run.stdout.readline(), f"listening {port}\n".encode())
        self.sites = self.told_sites(rooms)

    def told_sites(self, rooms):
        """The site of each room, in one line where it is the same for all."""
        if told := re.fullmatch(rb"site (\d+)\n", line := self.run.stdout.readline()):
            return dict.fromkeys(rooms, int(told[1]))
        lines = [line, *(self.run.stdout.readline() for _ in rooms[1:])]
        told = [re.fullmatch(rb"site (\S+) (\d+)\n", it) for it in lines]
        sites = {it[1].decode(): int(it[2]) for it in told if it}
        expect("a site for each room, which differ", (list(sites), len({*sites.values()}) > 1), (list(rooms), True))
        return sites

    @property
    def site(self):
        """That of its one room, or of all."""
        return min(self.sites.values())

    def peer(self, room="notes"):
        return opened(self.port, room)

    def text(self, room="notes"):
        return expecting.text(self.port, room)

    def kill(self):
        self.run.kill()
        _, self.told = self.run.communicate()

    def stop(self):
        """It is asked to end by the file for that: how long that took, the status, and what was printed and warned of."""
        begun = time.monotonic()
        (self.folder / "stop").touch()
        printed, told = self.run.communicate(timeout=60)
        return time.monotonic() - begun, self.run.returncode, printed, warned(told)

    def ends(self, title, *warnings):
        """It ends by itself with status 0, and warns of this."""
        printed, told = self.run.communicate(timeout=120)
        expect(title, (self.run.returncode, printed, warned(told)), (0, b"", list(warnings)))


def environment(failing):
    """Where the calls that are named so fail (tests/lib/refusing.c)."""
    return {**os.environ, "LD_PRELOAD": library(), **failing} if failing else None


def wait_for(title, holds, seconds=60):
    """Waits until something holds."""
    end = time.monotonic() + seconds
    while not (got := holds()) and time.monotonic() < end:
        time.sleep(0.02)
    expect(title, bool(got), True)
    return got


def warned(told):
    """What was warned of, without where in the program."""
    return [re.sub(r"^\[WARN  rgatext::\w+\] ", "", line) for line in told.decode().splitlines()]


def limit(most_bytes):
    """No file gets longer: a write that would fails, as on a full disk."""
    signal.signal(signal.SIGXFSZ, signal.SIG_IGN)
    resource.setrlimit(resource.RLIMIT_FSIZE, (most_bytes, resource.RLIM_INFINITY))


def unfolded(objects):
    """The operations that the objects of a reply to `ops` tell."""
    operations = []
    for it in objects:
        clock = [0] * 32
        for site, count in it["c"]:
            clock[site] = count
        place = it.get("t") or it.get("p")
        place = place and tuple(place)
        for char in it.get("x", [None]):
            operations.append(operation_of(it["s"], tuple(clock), "d" if it["k"] == "d" else "i", place, char))
            place = operations[-1].stamp
            clock[it["s"]] += 1
    return operations


def digest_line(digest):
    """The line that tells the SHA-256 of all bytes before it."""
    return f'{{"sha256":"{digest.hexdigest()}"}}'.encode()


def kept(file):
    """The operations that stand in a kept file, whose lines are parts of a log one after another, each of 1 to 64 operations, or the
    digest of all bytes before them."""
    operations, digest = [], hashlib.sha256()
    for line in file.read_bytes().split(b"\n")[:-1]:
        expected = digest_line(digest)
        digest.update(line + b"\n")
        told = json.loads(line)
        if "sha256" in told:
            expect("a digest", line, expected)
            continue
        part = unfolded(told["ops"])
        expect("a kept line", (sorted(told), told["r"], told["from"], 0 < len(part) <= 64), (["from", "ops", "r"], "ops", len(operations), True))
        operations += part
    return operations


class Editor(threading.Thread):
    """Types and deletes until the line ends, and notes when which version was accepted."""

    def __init__(self, server, seed):
        super().__init__(daemon=True)
        self.server, self.random, self.accepted = server, random.Random(seed), []
        self.start()

    def run(self):
        try:
            self.type(self.server.peer())
        except (OSError, EOFError, TypeError):  # (the server was killed)
            pass

    def type(self, peer):
        joined = json.loads(peer.ask(JOIN))
        s, n, version = joined["s"], 1, joined["v"]
        while True:
            asked = {"t": "ins", "s": s, "n": n, "v": version, "k": 0, "x": "typed "[: self.random.randint(1, 6)]}
            if self.random.random() < 0.3 and n > 1:
                asked = {"t": "del", "s": s, "n": n, "v": version, "k": 0, "c": 1}
            answer = json.loads(peer.ask(json.dumps(asked)))
            if answer["r"] == "ok":
                self.accepted.append((time.monotonic(), answer["to"]))
                n += 1
            news = json.loads(peer.ask(json.dumps({"t": "pull", "s": s, "have": version, "max": 64})))
            version += len(news["es"])
            time.sleep(self.random.random() / 50)


class Reader(threading.Thread):
    """Asks for the log's operations until the line ends."""

    def __init__(self, server, after):
        super().__init__(daemon=True)
        self.server, self.after, self.seen = server, after, []
        self.start()

    def run(self):
        try:
            peer = self.server.peer()
            after = self.after
            while True:
                told = json.loads(peer.ask(json.dumps({"t": "ops", "after": after, "max": 64})))
                part = unfolded(told["ops"])
                self.seen += part
                after += len(part)
                time.sleep(0 if part else 0.02)
        except (OSError, EOFError, TypeError):
            pass


def lines_of(operations):
    """A kept file with these operations, as the page tells its form."""
    text = ""
    for at in range(0, len(operations), 64):
        objects = [object_of(run) for run in packed(operations[at : at + 64])]
        text += json.dumps({"from": at, "ops": objects, "r": "ops"}, separators=(",", ":"), ensure_ascii=False) + "\n"
    return text


def typed_by(sites, each):
    """A log in which so many sites typed one after another, each some characters at the front, no two alike in a thousand."""
    operations, clock = [], [0] * 32
    for site in range(sites):
        for _ in range(each):
            clock[site] += 1
            operations.append(operation_of(site, tuple(clock), "i", None, chr(0x100 + len(operations) % 1_024)))
    return operations


def refused(title, folder, *words, told, rooms=("notes",), named=None, **failing):
    """A server that ends before it listens, with lines of these patterns on standard error, and changes no file."""
    before = {it: it.read_bytes() for it in folder.glob("*.ops") if it.is_file()} if folder.is_dir() else {}
    port = [] if "--port" in words else ["--port", str(free_port())]
    words = [*port, "--keep", str(folder) if named is None else named, *words, *rooms]
    words = [BUILT if failing else PROGRAM, "serve", *words]
    run = subprocess.run(words, env=environment(failing), stdin=subprocess.DEVNULL, capture_output=True, timeout=60)
    got = warned(run.stderr)
    is_as_told = len(got) == len(told) and all(re.fullmatch(wanted, it) for wanted, it in zip(told, got))
    expect(title, (run.returncode, run.stdout, is_as_told or got), (1, b"", True))
    expect(f"{title}: the files", {it: it.read_bytes() for it in before}, before)


def end(name):
    """Says whether all was as told, and ends."""
    room.cleanup()
    verdict.end(name)
