"""typists.py PORT COUNT CLIENTS [FLIGHT]: edits a second at one room of `rgatext serve`, by clients that do as little as can be.

So many processes put in COUNT characters together at place 0, and each keeps FLIGHT pairs of an `ins` and a pull in flight, 64 unless
given. They write their frames by themselves and take an answer for one once they see its `r`. Alone a client knows the version that
the answer before will have sent it, and names it; of several each names the last one that it was told."""
import multiprocessing
import pathlib
import re
import socket
import struct
import sys
import time

sys.path.insert(0, str(pathlib.Path(__file__).resolve().parent.parent / "tests" / "lib"))
from serving import handshake

PORT, COUNT, CLIENTS, FLIGHT = map(int, [*sys.argv[1:], 64][:4])
EACH = COUNT // CLIENTS
NEWS = re.compile(rb'\{"es":([^{}]*),"from":(\d+),"r":"edits"\}')


def framed(text):
    """A short text message; its mask is zero, which leaves it as it is."""
    return struct.pack("!BB", 129, 128 | len(text)) + bytes(4) + text.encode()


def connect():
    line = socket.create_connection(("127.0.0.1", PORT), timeout=60)
    line.setsockopt(socket.IPPROTO_TCP, socket.TCP_NODELAY, 1)
    for request in (handshake(), framed('{"t":"open","room":"notes"}')):
        line.sendall(request)
        line.recv(4096)
    return line


def told(line, request):
    """The number at `v` of a short answer, and that at `s` if it has one."""
    line.sendall(framed(request))
    answer = line.recv(4096)
    return [int(found[1]) if (found := re.search(rb'"%c":(\d+)' % key, answer)) else None for key in b"vs"]


def pair(session, n, version):
    return framed(f'{{"t":"ins","s":{session},"n":{n},"v":{version},"k":0,"x":"a"}}') + framed(
        f'{{"t":"pull","s":{session},"have":{version},"max":64}}'
    )


def type_all(ready, times):
    line = connect()
    version, session = told(line, '{"t":"join"}')
    alone = [pair(session, n, n - 1) for n in range(1, EACH + 1)] if CLIENTS == 1 else None
    ready.wait()
    begun = time.perf_counter()
    sent = answers = 0
    held = b""
    while answers < 2 * EACH:
        until = min(EACH, answers // 2 + FLIGHT)
        if until > sent:
            line.sendall(b"".join(alone[sent:until] if alone else (pair(session, n, version) for n in range(sent + 1, until + 1))))
            sent = until
        block = line.recv(1 << 18)
        if not block or b'"r":"no"' in block:
            raise SystemExit("an edit was refused")
        block = held + block
        answers += block.count(b'"r":')
        if not alone and (last := block.rfind(b',"r":"edits"}')) >= 0:
            news = NEWS.match(block, block.rfind(b'{"es":', 0, last)) if b'{"es":' in block[:last] else None
            if news:
                version = max(version, int(news[2]) + news[1].count(b'["i"'))
        held = block[-3:]
    times.put((begun, time.perf_counter()))
    line.close()


ready, times = multiprocessing.Barrier(CLIENTS), multiprocessing.Queue()
typists = [multiprocessing.Process(target=type_all, args=(ready, times), daemon=True) for _ in range(CLIENTS)]
for it in typists:
    it.start()
told_times = [times.get(timeout=120) for _ in typists]
version, _ = told(connect(), '{"t":"join"}')
if version != EACH * CLIENTS:
    sys.exit(f"{version} edits, and not {EACH * CLIENTS}")
print(version / (max(end for _, end in told_times) - min(begun for begun, _ in told_times)))
