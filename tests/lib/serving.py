"""How the scripts that start a server speak with it, and what the system tells of it."""

import base64
import hashlib
import os
import pathlib
import re
import socket
import struct
import time

TEXT, BINARY, CLOSE, PING, PONG = 1, 2, 8, 9, 10


def free_port():
    """A port of 127.0.0.1 at which nobody listens just now."""
    with socket.socket() as it:
        it.bind(("127.0.0.1", 0))
        return it.getsockname()[1]


def handshake(path="/"):
    """The bytes by which a client opens a WebSocket (RFC 6455, section 4.1), with a key of its own."""
    key = base64.b64encode(os.urandom(16)).decode()
    return (
        f"GET {path} HTTP/1.1\r\nHost: 127.0.0.1\r\nUpgrade: websocket\r\nConnection: Upgrade\r\n"
        f"Sec-WebSocket-Key: {key}\r\nSec-WebSocket-Version: 13\r\n\r\n"
    ).encode()


def is_taken(asked, response):
    """Whether the response takes the handshake that was asked for (RFC 6455, section 4.1): its fields tell so, and the key was answered."""
    (key,) = re.findall(rb"Sec-WebSocket-Key: (\S+)", asked)
    wanted = base64.b64encode(hashlib.sha1(key + b"258EAFA5-E914-47DA-95CA-C5AB0DC85B11").digest())
    fields = (line.partition(b":") for line in response.split(b"\r\n")[1:])
    told = {name.lower(): value.strip() for name, _, value in fields}
    kinds = told.get(b"upgrade", b"").lower(), told.get(b"connection", b"").lower()
    return kinds == (b"websocket", b"upgrade") and told.get(b"sec-websocket-accept") == wanted


def framed(data, kind=TEXT, is_last=True):
    """The bytes of a client's frame."""
    data = data.encode() if isinstance(data, str) else data
    size = len(data)
    if size < 126:
        head = struct.pack("!BB", kind | 128 * is_last, 128 | size)
    elif size < 65536:
        head = struct.pack("!BBH", kind | 128 * is_last, 128 | 126, size)
    else:
        head = struct.pack("!BBQ", kind | 128 * is_last, 128 | 127, size)
    mask = os.urandom(4)
    whole = mask * (size // 4 + 1)
    return head + mask + (int.from_bytes(data, "big") ^ int.from_bytes(whole[:size], "big")).to_bytes(size, "big")


def unread(line):
    """Whether the system holds bytes that were sent over this line of loopback and that the other side hasn't read."""
    ends = ["%s:%04X" % (socket.inet_aton(host)[::-1].hex().upper(), port) for host, port in (line.getpeername(), line.getsockname())]
    lines = (it.split() for it in pathlib.Path("/proc/net/tcp").read_text().splitlines())
    return any(it[1:3] == ends and int(it[4].split(":")[1], 16) > 0 for it in lines)


class WebSocket:
    """A client's end of a line: the handshake and frames of RFC 6455, and nothing hidden."""

    def __init__(self, port):
        self.line = socket.create_connection(("127.0.0.1", port), timeout=60)
        self.line.setsockopt(socket.IPPROTO_TCP, socket.TCP_NODELAY, 1)
        self.held = b""

    def shake(self, pieces=1):
        """Asks for a WebSocket, in so many pieces: the first line of the response, or what is wrong with it."""
        asked = handshake()
        self.send_pieces(asked, pieces)
        while b"\r\n\r\n" not in self.held:
            self.read()
        head, self.held = self.held.split(b"\r\n\r\n", 1)
        return head.split(b"\r\n")[0] if is_taken(asked, head) else b"doesn't take the handshake: " + head

    def send_pieces(self, data, pieces):
        """Sends the bytes in so many pieces, each once the other side has read the one before."""
        for at in range(pieces):
            self.line.sendall(data[len(data) * at // pieces : len(data) * (at + 1) // pieces])
            while at + 1 < pieces and unread(self.line):
                time.sleep(0.0001)

    def read(self):
        block = self.line.recv(65536)
        if not block:
            raise EOFError
        self.held += block

    def take(self, count):
        while len(self.held) < count:
            self.read()
        taken, self.held = self.held[:count], self.held[count:]
        return taken

    def send(self, data, kind=TEXT, is_last=True):
        self.line.sendall(framed(data, kind, is_last))

    def receive(self):
        """The kind and the bytes of the next frame, which is whole and has no reserved bit; none at the end of the line."""
        try:
            first, size = self.take(2)
            if size == 126:
                (size,) = struct.unpack("!H", self.take(2))
            elif size == 127:
                (size,) = struct.unpack("!Q", self.take(8))
            return first ^ 128, self.take(size).decode(errors="surrogateescape")
        except (EOFError, ConnectionError):
            return None

    def ask(self, request, kind=TEXT):
        self.send(request, kind)
        answer = self.receive()
        return answer and answer[1]


def figure(process, key):
    """What the system tells of a process under this key, in KiB or as a count: `VmRSS` is the memory that it holds now, `VmHWM`
    the most that it held, `VmPeak` the most that it claimed, used or not, `Threads` its threads."""
    lines = pathlib.Path(f"/proc/{process.pid}/status").read_text().splitlines()
    return int(next(line for line in lines if line.startswith(key + ":")).split()[1])


def spent(process):
    """The processor time that a process has taken, in seconds."""
    fields = pathlib.Path(f"/proc/{process.pid}/stat").read_text().rsplit(")", 1)[1].split()
    return (int(fields[11]) + int(fields[12])) / os.sysconf("SC_CLK_TCK")
