"""A kept room whose server is killed and started again, for bin/soak_clients: with what it kept, a backup, nothing, or renewed."""
import concurrent.futures
import contextlib
import json
import pathlib
import shutil
import subprocess
import sys
import time

from serving import WebSocket, framed, free_port

TOP = pathlib.Path(__file__).resolve().parents[2]
OPERATIONS = 131_072  # of a room
LAST_SITE = 28
MOST = 64  # characters of a submission
READ = '{"t":"read"}'
TRIES = 20


class Room:
    """A kept room, and the server that has it."""

    def __init__(self, work, program, every, lines, note, *words):
        self.work, self.program, self.every, self.lines, self.note, self.words = work, program, every, lines, note, words
        self.folder, self.backup, self.number, self.run, self.restarts = work / "rooms", work / "backup", 0, None, 0
        self.folder.mkdir()

    @property
    def file(self):
        return self.folder / "notes.ops"

    def start(self):
        port = free_port()
        every = [] if self.every == "disk" else ["--every", self.every]
        words = [self.program, "serve", "--port", str(port), "--keep", str(self.folder), *every, *self.words, "notes"]
        self.run = subprocess.Popen(words, stdin=subprocess.DEVNULL, stdout=subprocess.PIPE)
        if self.run.stdout.readline() != f"listening {port}\n".encode():
            sys.exit("the server doesn't start")
        self.site = int(self.run.stdout.readline().split()[1])
        self.lines.target = port
        self.note(f"a run begins, site {self.site}, {self.file.stat().st_size if self.file.exists() else 0} bytes")

    def kill(self):
        self.lines.target = None
        self.run.kill()
        self.run.wait()
        self.lines.cut()
        self.restarts += 1
        self.note("a kill")

    def restart(self, how, pause):
        """Kills the server, and starts it some seconds later with what it kept, or otherwise. Where hardly a site is left it is renewed."""
        self.kill()
        time.sleep(pause)
        how = "renew" if how == "kill" and self.site >= LAST_SITE else how
        {"renew": self.renew, "back": self.go_back, "empty": self.empty}.get(how, lambda: None)()
        self.note(f"restarted: {how}")
        self.start()

    def copy(self):
        """Copies what is kept, as a backup."""
        if self.file.exists():
            self.backup.mkdir(exist_ok=True)
            shutil.copy(self.file, self.backup)

    def go_back(self):
        if (self.backup / "notes.ops").exists():
            shutil.copy(self.backup / "notes.ops", self.folder)

    def renew(self):
        if not self.file.exists():
            return
        words = [sys.executable, "-B", str(TOP / "examples" / "renew.py"), "--program", self.program, str(self.file)]
        fresh = subprocess.run(words, stdout=subprocess.PIPE, check=True).stdout
        self.empty()
        self.file.write_bytes(fresh)

    def fill(self, left):
        """Gives the room a log in which so many operations have room, and no text."""
        count = (OPERATIONS - left) // 128 * 64
        typed = ([{"c": [[0, at + 1]], "k": "r", "p": [at, 0] if at else None, "s": 0, "x": "y" * 64}] for at in range(0, count, 64))
        deleted = ([{"c": [[0, count + at + n]], "k": "d", "s": 0, "t": [at + n, 0]} for n in range(1, 65)] for at in range(0, count, 64))
        lines = ({"from": 64 * at, "ops": ops, "r": "ops"} for at, ops in enumerate((*typed, *deleted)))
        self.file.write_text("".join(json.dumps(it, separators=(",", ":")) + "\n" for it in lines))

    def write(self, text):
        """Puts a text in, with no fault between: each part in front of the one behind it."""
        line = opened(self.lines.target)
        joined = json.loads(line.ask('{"t":"join"}'))
        for n, at in enumerate(reversed(range(0, len(text), MOST)), 1):
            line.ask(json.dumps({"t": "ins", "s": joined["s"], "n": n, "v": joined["v"], "k": 0, "x": text[at : at + MOST]}))
        line.ask(json.dumps({"t": "leave", "s": joined["s"]}))

    def wear(self):
        """Uses the room's calls up."""
        with concurrent.futures.ThreadPoolExecutor(8) as pool:
            for it in [pool.submit(worn, self.lines.target) for _ in range(8)]:
                it.result()

    def is_full(self):
        """Whether its log takes nothing more."""
        return json.loads(opened(self.lines.target).ask(READ))["v"] == OPERATIONS

    def empty(self):
        """Goes on in a folder of its own, where nothing is kept."""
        self.number += 1
        self.folder = self.work / f"rooms{self.number}"
        self.folder.mkdir()
        shutil.rmtree(self.backup, ignore_errors=True)

    def text(self):
        """What the room reads, with no fault between; asked again where it just begins anew."""
        for _ in range(TRIES):
            with contextlib.suppress(OSError, TypeError):  # no answer comes
                return json.loads(opened(self.lines.target).ask(READ))["x"]
            time.sleep(0.5)
        raise AssertionError("the room isn't there")


def opened(port):
    """A line to the room, with no fault between."""
    line = WebSocket(port)
    line.shake()
    line.ask('{"t":"open","room":"notes"}')
    return line


def worn(port):
    """Asks a room of the server at a port until it takes no more calls."""
    peer = opened(port)
    answer = ""
    while '"n":13' not in answer:
        peer.line.sendall(framed('{"t":"leave","s":4294967295}') * 1024)
        answer = [peer.receive()[1] for _ in range(1024)][-1]
