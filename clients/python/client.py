#!/usr/bin/env python3
"""A session with an rgatext room, for authors of editors: Python 3 and its standard library.

A `Session` speaks through a function `ask`, which sends one request, an object of docs/PROTOCOL.md, and gives the reply
to it; it raises `Lost` where no answer came, whether or not the request arrived. Where it has a method `all`, that sends some
requests at one time, and gives their replies. `Pipe` is such a function over `rgatext lines`, and `Socket` one over
`rgatext serve`, by the library `websockets`. Run as a program, the file types what it reads into a new room and prints the
room's text.
"""
import contextlib
import gc
import json
import subprocess
import sys
import time

from log import MOST, Reading, is_of_run, operations
from past import PENDING, Deletion, Insertion, Past, play

FULL = 131_072  # operations of a room
LONGEST = 1  # seconds between two tries, at most


class Lost(Exception):
    """No answer came. What was asked for stays in `waiting`, and the session's next call sends it first: don't repeat it."""


class Full(Exception):
    """The room doesn't take as many changes. Nothing was sent."""


class Refused(Exception):
    """The room refused a request; `number` says why."""

    def __init__(self, number):
        super().__init__(f"refused {number}")
        self.number = number


class JoinAnew(Refused):
    """The room and this session no longer speak of one text, or it is another run of the server (5): call `join_anew`."""


def spelled(request):
    """A request as docs/PROTOCOL.md spells it: characters stand as themselves."""
    return json.dumps(request, ensure_ascii=False, separators=(",", ":"))


class Pipe:
    """Asks a program that answers each line of its input by one line."""

    def __init__(self, *words):
        self.child = subprocess.Popen(words, stdin=subprocess.PIPE, stdout=subprocess.PIPE)

    def __call__(self, request):
        self.child.stdin.write(spelled(request).encode() + b"\n")
        self.child.stdin.flush()
        if not (line := self.child.stdout.readline()):
            raise Lost
        return json.loads(line)

    def all(self, requests):
        return [self(it) for it in requests]

    def close(self):
        self.child.stdin.close()
        self.child.stdout.close()
        return self.child.wait()


class Socket:
    """Asks a room of a server, as Socket("ws://127.0.0.1:8000", "notes"). After a lost answer it connects anew, and counts that: a
    session then finds out whether it is the same run of the server."""

    def __init__(self, address, room):
        import asyncio
        import websockets

        self.run, self.wait, self.connect = asyncio.new_event_loop().run_until_complete, asyncio.wait_for, websockets.connect
        self.gone = (OSError, asyncio.TimeoutError, websockets.WebSocketException)
        self.address, self.room, self.line, self.lines = address, room, None, 0

    async def told(self, requests):
        for it in requests:
            await self.line.send(spelled(it))
        return [json.loads(await self.line.recv()) for _ in requests]

    async def answers(self, requests):
        if self.line is None:
            self.line = await self.connect(self.address, max_size=None, ping_interval=None)
            (reply,) = await self.told([{"t": "open", "room": self.room}])
            if reply["r"] == "no":
                await self.ended()
                raise Refused(reply["n"])
        replies = await self.told(requests)
        if any(it.get("n") == 25 for it in replies):  # this line's calls are used up: the next request connects again
            await self.ended()
        return replies

    async def ended(self, is_lost=False):
        """Ends the line, and waits until the library has done with it."""
        line, self.line = self.line, None
        if is_lost:
            line.transport.abort()
        await line.close()

    def __call__(self, request):
        (reply,) = self.all([request])
        return reply

    def all(self, requests):
        try:
            return self.run(self.wait(self.answers(requests), 60))
        except self.gone:
            if self.line:
                self.run(self.ended(is_lost=True))
            self.lines += 1
            raise Lost from None

    def close(self):
        if self.line:
            self.run(self.ended())


def carried(place, edits):
    """A caret's place in the text before the edits, as its place in the text after them: that of the same character,
    unless it was deleted."""
    for edit in edits:
        if edit[0] == "i" and edit[1] <= place:
            place += 1
        elif edit[0] == "d" and edit[1] < place:
            place -= 1
    return place


@contextlib.contextmanager
def uncollected():
    """Meanwhile Python looks for no cycles: there are none in what two long texts are compared by, and the look takes as long as that."""
    is_on = gc.isenabled()
    gc.disable()
    try:
        yield
    finally:
        if is_on:
            gc.enable()


class Session:
    """A session: the text and the version that it has, the number of its last accepted submission, and what is to be submitted."""

    def __init__(self, ask, tries=60, pause=0.01):
        self.ask = ask
        self.tries = tries  # how often a request is sent whose answer is lost
        self.pause = pause  # seconds before a request is sent again, at first; then each time twice as long
        self.waiting = []  # what was asked for and isn't in the text yet; a part of its first may be under way
        self.missing = []  # what another run of the server lacks of one's own
        self.before = []  # the text before the session joined anew
        self.played = []  # edits that no call gave yet
        self.session, self.version, self.text, self.lines, self.under_way = None, 0, [], None, None
        self.past = Past(0, [], [])
        self.join_anew()
        self.played = []

    def _begin(self, joined):
        self.session, self.version, self.text = joined["s"], joined["v"], list(joined["x"])
        self.lines = getattr(self.ask, "lines", 0)
        self.number, self.came, self.reached = 0, 0, 0  # the last accepted submission, and from and to which version it led
        self.under_way = None  # the submission whose edits weren't played yet
        self.is_full = False

    def _pauses(self):
        """So many tries, with pauses between that grow."""
        for at in range(self.tries):
            if at:
                time.sleep(min(self.pause * 2 ** (at - 1), LONGEST))
            yield

    def _ask(self, request):
        """The reply, a refusal too, asked for again where memory was refused or a line's calls are used up."""
        for _ in self._pauses():
            reply = self.ask(request)
            if reply.get("n") == 13 and reply["r"] == "no":
                raise Refused(13)
            if reply["r"] != "no" or reply["n"] not in (25, 26):
                return reply
        raise Lost

    def _ask_all(self, requests):
        """The replies to requests, each as it comes, asked for again as `_ask` does. They are sent at one time where the line can do so."""
        replies = self.ask.all(requests) if hasattr(self.ask, "all") else map(self.ask, requests)
        for request, reply in zip(requests, replies):
            yield self._ask(request) if reply.get("n") in (13, 25, 26) else reply

    def _answers(self, requests):
        """The replies, where none is refused, to requests that may be sent again: nothing is carried out twice."""
        replies = []
        for _ in self._pauses():
            try:
                if self.lines != getattr(self.ask, "lines", 0):
                    self._find_out()
                for it in self._ask_all(requests):
                    if it["r"] == "no":
                        self._refuse(it["n"])
                    replies.append(it)
            except Lost:
                if not replies:
                    continue
            rest = requests[len(replies) :]
            return replies + (self._answers(rest) if rest else [])
        raise Lost

    def _answer(self, request):
        (reply,) = self._answers([request])
        return reply

    @staticmethod
    def _refuse(number):
        raise JoinAnew(number) if number in (5, 7, 9, 22) else Refused(number)

    def _goes_on(self):
        """Whether the log goes on from the last that is known here."""
        last = self.past.log[-MOST:]
        return operations(self._ask_all, self.version - len(last), self.version) == last

    def _find_out(self):
        """On another line: whether the server is in the same run, where the last accepted submission has the answer that it had and the
        log begins as it did, or one was under way and has been accepted since. Else a new session is wanted, as docs/CLIENTS.md tells."""
        lines = getattr(self.ask, "lines", 0)
        again = lambda n: self._ask({"t": "ins", "s": self.session, "n": n, "v": 0, "k": 0, "x": ""})
        reply = again(self.number)
        is_same = (reply["r"], reply.get("from"), reply.get("to")) == ("ok", self.came, self.reached)
        if reply.get("n") == 7:
            reply = again(self.number + 1)
            if is_same := reply["r"] == "ok" and self._is_unanswered() and self.version <= reply["from"]:
                log = operations(self._ask_all, reply["from"], reply["to"])
                count = self.under_way.get("c") or len(self.under_way["x"])  # (a part is another's, in another run)
                is_same = self.past.came_at(log, 0, self.under_way) == count == reply["to"] - reply["from"]
            if self.number == 0 and reply.get("n") in (8, 10) and self._goes_on():
                self._leave_unused()
        if not (is_same and self._goes_on()):
            raise JoinAnew(5)
        self.lines = lines

    def _leave_unused(self):
        """Leaves a session that has submitted nothing: in another run it may be another client's, and no two may share one."""
        if self._ask({"t": "pull", "s": self.session, "have": self.version, "max": 1})["r"] == "edits":
            self._ask({"t": "leave", "s": self.session})

    def _is_unanswered(self):
        return self.under_way is not None and self.under_way["n"] > self.number

    def join_anew(self):
        """Joins, also another run of the server, and says whether its log goes on from what was pulled here: then what is waiting is
        submitted there. Else `missing` has what that run lacks of one's own, which `put_missing` submits, and `before` is the text of
        before. Where it raises call it again."""
        reading = Reading(self._ask_all, self.past.start, self.past.log)
        for _ in self._pauses():
            try:
                if self.session is not None and self.lines == getattr(self.ask, "lines", 0):
                    self._ask({"t": "leave", "s": self.session})  # on one line the run is the same
                if self.session is not None:
                    room = self._ask({"t": "read"})
                    log = reading.to(room["v"], room["x"])  # (a line that is lost behind `join` leaves a session in the room)
                joined = self._ask({"t": "join"})
                if joined["r"] == "no":
                    raise Refused(joined["n"])
                if self.session is None:
                    log = operations(self._ask_all, max(0, joined["v"] - MOST), joined["v"])
                    self.past = Past(joined["v"], joined["x"], log)
                    return self._begin(joined)
                log.take(operations(self._ask_all, len(log), joined["v"]))
                kept = self._kept(log)
            except Lost:
                continue
            with uncollected():
                return self._go_on(joined, log, *kept)
        raise Lost

    def _kept(self, log):
        """Up to which version another log is the one that is known here, if any; up to which of those that are remembered it has what was
        done, and its own version with that text, where it has one. Nothing where it is of a later version, and -1
        where it has nothing of what is remembered."""
        common = self.past.in_common(log)
        if common is not None:  # all that is remembered may be lost
            return (common, common, common) if common >= self.past.version else (common, self.past.version, None)
        kept = self.past.version_of(log.written)
        if kept is not None:
            return None, kept, len(log.written)
        return None, -1 if not log or is_of_run(self._ask, log[0].stamp[1], log) else None, None

    def _go_on(self, joined, log, common, kept, begin):
        self.before, self.waiting, self.missing = list(self.text), self.waiting + self.missing, []
        if begin == self.version == common:
            self._play_log(log)
            self._begin(joined)
            return True
        played = list(self.played)
        while self.waiting:
            for _ in range(len(self.waiting[0])):
                self.past.step(PENDING, self.waiting[0].edit(), True)
                self._play(self.waiting[0].edit(), True)
            self.waiting.pop(0)
        deletes = self.under_way is not None and self.under_way["t"] == "del"
        edits, self.missing = self.past.move(log, list(joined["x"]), common, kept, begin, deletes)
        self._begin(joined)
        self.played = played + edits
        return False

    def _play_log(self, log):
        """Plays what a log that goes on from here has, and what of it is under way as one's own."""
        if self.under_way:
            places = range(self.version, len(log)) if self._is_unanswered() else [self.came]
            before = [log[it - 1].stamp for it in log.shown(self.version)]
            came = ((it, it + self.past.came_at(log, it, self.under_way, before)) for it in places)
            self.came, self.reached = next((it for it in came if it[0] < it[1]), (0, 0))
        self.past.know(log)
        self._play_all(log.edits(self.version), log[self.version :])
        self.waiting = [it for it in self.waiting if len(it)]

    def leave(self):
        """Ends the session, where it is there and the run of the server is the same."""
        try:
            self._answer({"t": "leave", "s": self.session})
        except JoinAnew:
            pass  # 5: it was ended, or it may be another client's by now

    def _play(self, edit, is_own):
        """Plays an edit on the text, and on the places of what is to be submitted."""
        others = self.waiting + self.missing
        if is_own:
            others.pop(0).came(edit)
        for it in others:
            it.follow(edit, is_own)
        play(self.text, [edit])
        self.played.append(edit)

    def follow(self, reply):
        """Plays a reply, whenever and however often it comes, and gives the edits that it played. While it isn't known which edits are
        one's own it plays none."""
        if reply["r"] != "edits" or reply["from"] != self.version or self.under_way:
            return []
        self._play_pulled(reply["es"])
        return self._given()

    def _play_all(self, edits, operations):
        for edit, operation in zip(edits, operations):
            is_own = self.came <= self.version < self.reached
            self._play(edit, is_own)
            self.past.note(edit, is_own, operation)
            self.version += 1

    def _play_pulled(self, edits):
        self._play_all(edits, operations(self._answers, self.version, self.version + len(edits)))
        if not self._is_unanswered():
            self.under_way = None
            self.waiting = [it for it in self.waiting if len(it)]

    def _given(self):
        played, self.played = self.played, []
        return played

    def _pull(self):
        edits = []
        while True:
            more = self._answer({"t": "pull", "s": self.session, "have": self.version + len(edits), "max": MOST})["es"]
            edits += more
            if len(more) < MOST:
                return self._play_pulled(edits)

    def pull(self):
        """Submits what is waiting, as long as the room takes it, and brings the text up to the newest version. Gives the edits since
        those that a call gave last."""
        while True:
            if self.waiting and not self.is_full:
                self._submit()
            self._pull()
            if not self.waiting or self.is_full:
                return self._given()

    def _submit(self):
        """Submits the first part of what is waiting, or asks for the answer that wasn't seen."""
        self.under_way = self.under_way or {"s": self.session, "n": self.number + 1, "v": self.version, **self.waiting[0].request()}
        if not self._is_unanswered():
            return
        try:
            reply = self._answer(self.under_way)
        except Refused as refused:
            if not isinstance(refused, JoinAnew) and refused.number != 13:
                self.under_way, self.is_full = None, refused.number == 12
            raise
        if reply["from"] < self.reached:
            self._refuse(7)
        self.number, self.came, self.reached = self.number + 1, reply["from"], reply["to"]

    def _do(self, change):
        """Submits a change, where the room takes all of it. A long one's room is looked for in the version of now."""
        if not len(change):
            return self.pull()
        self.waiting.append(change)
        if len(change) > MOST and not self.under_way:
            self._pull()
        if self.version + sum(map(len, self.waiting)) > FULL:
            self.waiting.remove(change)
            raise Full
        return self.pull()

    def insert(self, place, text):
        """Puts a text in at a place, and gives the edits that were played, its own among them."""
        if not 0 <= place <= len(self.text):
            raise ValueError("beyond the text")
        text.encode()  # half a pair is no text
        return self._do(Insertion(place, text))

    def delete(self, place, count):
        """Deletes characters from a place on, and gives the edits that were played, its own among them."""
        if not 0 <= place <= place + count <= len(self.text):
            raise ValueError("beyond the text")
        return self._do(Deletion(range(place, place + count)))

    def put_missing(self):
        """Submits what another run of the server lacks of one's own."""
        self.waiting, self.missing = self.waiting + self.missing, []
        return self.pull()


if __name__ == "__main__":
    if len(sys.argv) < 2:
        sys.exit("usage: client.py PROGRAM WORD.. < text, as in: client.py bin/rgatext lines < text")
    pipe = Pipe(*sys.argv[1:])
    session = Session(pipe)
    session.insert(0, sys.stdin.read())
    session.pull()
    print("".join(session.text), end="")
    session.leave()
    sys.exit(pipe.close())
