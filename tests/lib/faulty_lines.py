"""Lines between clients and a server of WebSockets that go wrong at random: requests and answers are lost with their line, the line
falls silent, an answer or a request comes late, which comes where its client has gone already, or memory is refused."""
import asyncio
import collections
import json
import random
import struct
import threading

from serving import CLOSE, TEXT

NO_MEMORY = b'{"n":26,"r":"no"}'
FAULTS = ("request", "answer", "silent", "late answer", "late request", "26")
SPARED = {"open": ("request",), "join": ("request", "late answer"), "leave": ("request",)}  # a lost answer would cost a session
SILENT = 10  # seconds


async def frame(reader):
    """The kind of the next frame, which is whole; its bytes as they came, and its data."""
    head = await reader.readexactly(2)
    size, is_masked = head[1] & 127, head[1] & 128
    if size > 125:
        head += await reader.readexactly(2 if size == 126 else 8)
        (size,) = struct.unpack("!H" if size == 126 else "!Q", head[2:])
    mask = await reader.readexactly(4) if is_masked else b""
    data = await reader.readexactly(size)
    raw = head + mask + data
    if mask:
        whole = mask * (size // 4 + 1)
        data = (int.from_bytes(data, "big") ^ int.from_bytes(whole[:size], "big")).to_bytes(size, "big")
    return head[0] & 15, raw, data


class FaultyLines:
    """Listens at `port`, and carries each line to the server at `target`, where one is there. Of the requests a share of `rate` meets a
    fault; `met` counts them."""

    def __init__(self, seed, rate):
        self.dice, self.rate, self.target = random.Random(seed), rate, None
        self.met = collections.Counter()
        self.lines = set()  # the two writers of each
        self.loop = asyncio.new_event_loop()
        server = self.loop.run_until_complete(asyncio.start_server(self.serve, "127.0.0.1", 0, limit=1 << 24))
        self.port = server.sockets[0].getsockname()[1]
        threading.Thread(target=self.loop.run_forever, daemon=True).start()

    def cut(self):
        """Ends all lines that are there."""
        self.loop.call_soon_threadsafe(lambda: [writer.transport.abort() for pair in self.lines for writer in pair])

    def fault(self, request):
        """What the request meets, if anything."""
        if self.dice.random() >= self.rate:
            return None
        fault = self.dice.choice(FAULTS)
        if fault not in SPARED.get(request["t"], FAULTS):
            return None
        self.met[fault] += 1
        return fault

    async def serve(self, reader, near):
        far = None
        try:
            if self.target is None:
                return
            far_reader, far = await asyncio.open_connection("127.0.0.1", self.target, limit=1 << 24)
            pair = near, far
            self.lines.add(pair)
            far.write(await reader.readuntil(b"\r\n\r\n"))
            near.write(await far_reader.readuntil(b"\r\n\r\n"))
            asked = asyncio.Queue()
            tasks = [asyncio.ensure_future(it) for it in (self.carry(reader, near, far, asked), self.answer(far_reader, near, asked))]
            await asyncio.wait(tasks, return_when=asyncio.FIRST_COMPLETED)
            for it in tasks:
                it.cancel()
            await asyncio.gather(*tasks, return_exceptions=True)
            self.lines.discard(pair)
        except (OSError, asyncio.IncompleteReadError):
            pass
        finally:
            for it in (near, far):
                if it:
                    it.transport.abort()

    async def carry(self, reader, near, far, asked):
        """Carries requests, until one cuts the line."""
        while True:
            kind, raw, data = await frame(reader)
            fault = self.fault(json.loads(data)) if kind == TEXT else None
            if fault == "request":
                return
            if fault == "late request":
                near.transport.abort()
                await asyncio.sleep(self.dice.random() * 1.5)
            if far.is_closing():
                return
            if fault != "26":
                far.write(raw)
            asked.put_nowait(fault)
            if fault == "late request":
                await asyncio.sleep(0.2)  # until the server has read it
                return
            if kind == CLOSE:
                await asyncio.sleep(0.2)
                return

    async def answer(self, reader, near, asked):
        """Carries the answers in their order, until one is lost."""
        while True:
            fault = await asked.get()
            if fault == "26":
                near.write(bytes([128 | TEXT, len(NO_MEMORY)]) + NO_MEMORY)
                continue
            _, raw, _ = await frame(reader)
            if fault == "answer":
                return
            if fault == "silent":
                await asyncio.sleep(SILENT)
                return
            if fault == "late answer":
                await asyncio.sleep(self.dice.random() * 2)
            if near.is_closing():
                return
            near.write(raw)
