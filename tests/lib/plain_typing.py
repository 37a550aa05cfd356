"""Editors of clients/python/client.py that type, a thread for each, for bin/soak_clients. The arguments are the port, and whether they
type words; a line of input tells what to do, and each line of output is what one did."""
import json
import pathlib
import random
import sys
import threading
import time
import traceback

sys.path.insert(0, str(pathlib.Path(__file__).resolve().parents[2] / "clients" / "python"))
from client import Full, JoinAnew, Lost, Refused, Session  # noqa: E402
from serving import WebSocket  # noqa: E402

SILENT = 3  # seconds until an answer is missed
telling = threading.Lock()  # so that lines of output stay whole


class Line:
    """A room of a server over a WebSocket, as a session asks it. A line that ends or is silent is lost."""

    def __init__(self, port):
        self.port, self.socket, self.lines = port, None, 0

    def __call__(self, request):
        (reply,) = self.all([request])
        return reply

    def all(self, requests):
        try:
            if self.socket is None:
                self.socket = WebSocket(self.port)
                self.socket.line.settimeout(SILENT)
                self.socket.shake()
                self.socket.ask('{"t":"open","room":"notes"}')
            for it in requests:
                self.socket.send(json.dumps(it))
            return [json.loads((self.socket.receive() or ["", ""])[1]) for _ in requests]
        except (OSError, EOFError, ValueError):
            if self.socket:
                self.socket.line.close()
            self.socket, self.lines = None, self.lines + 1
            raise Lost from None


class PlainTypist(threading.Thread):
    """Types and deletes at random. In another run of the server it puts in what that lacks of its own."""

    def __init__(self, port, is_of_words, who, text, quick=0, answer=None):
        super().__init__(daemon=True)
        self.port, self.is_of_words, self.who, self.text, self.quick = port, is_of_words, who, text, quick
        self.dice, self.used = random.Random(who), 0
        self.is_typing, self.is_open = True, True
        self.state = "joining"
        self.left = None  # since when it can't type
        self.start()

    def tell(self, **what):
        with telling:
            print(json.dumps({"who": self.who, **what}), flush=True)

    def run(self):
        try:
            self.serve(Line(self.port))
        except Exception:
            self.tell(fault=traceback.format_exc())

    def serve(self, line):
        while True:
            try:
                self.session = Session(line, tries=3)
                break
            except Lost:
                continue
        while self.is_open:
            time.sleep(self.dice.uniform(0.15, 0.45) if self.quick else self.dice.uniform(0.05, 0.35))
            self.turn(self.type if self.is_typing and self.state == "up to date" else self.session.pull)
        self.turn(self.session.leave)

    def turn(self, does):
        """Does something, and whatever it leads to."""
        begun = time.monotonic()
        self.try_to(does)
        if self.state != "up to date":
            self.left = self.left or begun
        elif self.left or time.monotonic() > begun + 1:
            self.tell(away=1_000 * (time.monotonic() - (self.left or begun)))
            self.left = None

    def try_to(self, does):
        try:
            does()
            self.state = "up to date"
        except JoinAnew:
            self.state = "joining"
            try:
                self.session.join_anew()
                self.session.put_missing()
                self.state = "up to date"
            except (Lost, Refused):
                pass
        except Lost:
            self.state = "offline"
        except (Full, Refused) as refused:
            self.state = f"refused: {refused}"

    def type(self):
        session, dice = self.session, self.dice
        if dice.random() < (1 / 3 if self.quick else 0.2) and session.text and not self.is_of_words:
            count = min(dice.randint(1, 2 * self.quick or 4), len(session.text))
            place = dice.randint(0, len(session.text) - count)
            taken = session.text[place : place + count]
            self.noted(lambda: session.delete(place, count), "", taken)
            return
        count = dice.randint(1, 2 * self.quick) if self.quick else dice.randint(65, 130) if dice.random() < 0.02 else dice.randint(1, 5)
        text = self.text[self.used : self.used + count]
        if not text:
            return
        place = dice.choice((len(session.text), dice.randint(0, len(session.text))))
        self.used += count
        left, right = session.text[max(0, place - 1) : place], session.text[place : place + 1]
        self.noted(lambda: session.insert(place, text), text, "", left, right)

    def noted(self, does, put, taken, left="", right=""):
        """Does something and tells it, whatever comes of it, but where nothing was sent."""
        is_full = False
        try:
            does()
        except Full:
            is_full = True
            raise
        finally:
            if not is_full:
                self.tell(put=put, taken="".join(taken), left="".join(left), right="".join(right))

    def report(self):
        session = getattr(self, "session", None)
        is_ahead = session is None or bool(session.waiting or session.missing)
        text = "".join(session.text) if session else ""
        return {"state": self.state, "text": text, "isAhead": is_ahead, "asked": 0, "differs": 0}

    def go_on(self, text):
        """Types again, another text."""
        self.text, self.used, self.is_typing = text, 0, True


def listen(port, is_of_words):
    """Does what the input tells, and ends with it."""
    typists = {}
    for line in sys.stdin:
        told = json.loads(line)
        for it in told.get("begin", ()):
            typists[it["who"]] = PlainTypist(port, is_of_words, **it)
        for it in told.get("further", ()):
            typists[it["who"]].go_on(it["text"])
        for it in typists.values():
            it.is_typing = it.is_typing and "end" not in told
            it.is_open = "close" not in told
            if "report" in told:
                it.tell(report=it.report())
        if "close" in told:
            break
    for it in typists.values():
        it.join(5)


if __name__ == "__main__":
    listen(int(sys.argv[1]), sys.argv[2] == "words")
