"""How the scripts that try a server judge it: the program, and clients that look whether they are answered."""
import atexit
import json
import re
import resource
import subprocess

import plain_world
from conversations import TOP
from serving import CLOSE, TEXT, WebSocket, framed, free_port
from verdict import expect

PROGRAM = str(TOP / "bin" / "rgatext")
JOIN, READ = '{"t":"join"}', '{"t":"read"}'


def build():
    """Builds the program where it isn't, so that no trial has to wait for it."""
    subprocess.run([PROGRAM, "--help"], check=True, stdout=subprocess.DEVNULL)


def no(number):
    """The reply of a request that is refused by this number."""
    return json.dumps(plain_world.no(number), separators=(",", ":"))


class Peer(WebSocket):
    """A client that looks whether its handshake, what it plays and its close are answered, and whether the line ends behind the close."""

    def __init__(self, port, shake=True):
        super().__init__(port)
        if shake:
            self.shake()

    def shake(self, pieces=1):
        expect("handshake", super().shake(pieces), b"HTTP/1.1 101 Switching Protocols")

    def open(self, room="notes"):
        """Opens a room. Raises EOFError where the line ends before it is answered, as it may where a run ends."""
        if (answer := self.ask('{"t":"open","room":"%s"}' % room)) is None:
            raise EOFError("the line ends before a room is opened")
        expect("open", answer, '{"r":"opened"}')

    def plays(self, title, given, wanted, flight=64):
        """Sends each line in a message, a flight of them before their answers are awaited, and looks for the first answer that isn't wanted."""
        for at in range(0, len(given), flight):
            part = given[at : at + flight]
            self.line.sendall(b"".join(map(framed, part)))
            for line, want in zip(part, wanted[at : at + flight], strict=True):
                if (got := self.receive()) != (TEXT, want):
                    return expect(f"{title}: {line}", got, (TEXT, want))

    def close(self, data=b"\x03\xe8"):
        self.send(data, CLOSE)
        frame = self.receive()
        expect("close", frame and frame[0], CLOSE)
        expect("the line's end behind a close", self.receive(), None)
        self.line.close()


def opened(port, room="notes"):
    """A client of a room of the server at this port."""
    peer = Peer(port)
    peer.open(room)
    return peer


def text(port, room="notes"):
    """What a room of the server at this port reads."""
    peer = opened(port, room)
    answer = json.loads(peer.ask(READ))
    peer.close()
    return answer["x"]


def serve(*words, files=None):
    """A server of these words, which may have so many open files."""
    port = free_port()
    run = subprocess.Popen(
        [PROGRAM, "serve", "--port", str(port), *words],
        stdin=subprocess.DEVNULL,
        stdout=subprocess.PIPE,
        stderr=subprocess.PIPE,
        preexec_fn=files and (lambda: resource.setrlimit(resource.RLIMIT_NOFILE, (files, files))),
    )
    atexit.register(run.kill)  # (where a test breaks off; one that has ended it leaves alone)
    expect("listening", run.stdout.readline(), f"listening {port}\n".encode())
    return run, port


def ends(title, run, faults):
    """The server ends by itself, and warns of each connection that ended with a fault and of nothing else."""
    printed, told = run.communicate(timeout=120)
    lines = "".join(rf"\[WARN  rgatext::host\] connection {number} fault {fault}\n" for number, fault in faults)
    is_as_told = re.fullmatch(lines, told.decode()) is not None
    expect(title, (run.returncode, printed, is_as_told or told), (0, b"", True))
