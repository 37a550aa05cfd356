"""Editors of clients/stdio that type, a program and a thread for each, for bin/soak_clients."""
import json
import os
import pathlib
import queue
import random
import subprocess
import threading
import time
import traceback

PROGRAM = pathlib.Path(__file__).resolve().parents[2] / "clients" / "stdio" / "rgatext-stdio.mjs"
ANSWER = 60  # seconds until an answer is missed

# How an editor may tell its changes: the keys that it sends. The third way is that of clients/neovim and clients/emacs.
WAYS = ("replace", "replace+more+caret", "whole+caret", "whole+more+caret")

# How an editor may count places: in so many bytes of an encoding
COUNTS = {"characters": ("utf-32-le", 4), "units": ("utf-16-le", 2), "bytes": ("utf-8", 1)}


class StdioTypist(threading.Thread):
    """Types and deletes at random in a text of its own, undoes and does again, and takes what others did some time after it was told of it.
    How it tells its changes, and how it counts places, it draws at first. Here they count characters, as Python's do."""

    def __init__(self, who, text, answer, port, tally, is_of_words):
        super().__init__(daemon=True)
        self.who, self.supply, self.answer, self.port, self.tally, self.is_of_words = who, text, answer, port, tally, is_of_words
        self.dice = random.Random(f"{who} {os.environ.get('STDIO_SEED')}")
        self.way, self.count = os.environ.get("STDIO_WAY") or self.dice.choice(WAYS), self.dice.choice(list(COUNTS))
        self.key, *self.beside = self.way.split("+")
        self.used, self.asked, self.differs, self.ended = 0, 0, 0, 0
        self.is_typing, self.is_open, self.fault, self.reports = True, True, "", queue.Queue()
        self.begin()
        self.start()

    def begin(self):
        self.text, self.caret, self.last, self.has_news, self.state, self.lines = "", 0, "", False, {"state": "joining"}, queue.Queue()
        words = ["node", "--experimental-websocket", "--no-warnings", str(PROGRAM), f"ws://127.0.0.1:{self.port}", "notes", self.count]
        self.program = subprocess.Popen(words, stdin=subprocess.PIPE, stdout=subprocess.PIPE)
        threading.Thread(target=self.listen, args=(self.program, self.lines), daemon=True).start()

    def listen(self, program, lines):
        for line in program.stdout:
            lines.put(json.loads(line))
        lines.put({"state": "over"})

    def say(self, **request):
        self.program.stdin.write(json.dumps(request).encode() + b"\n")
        self.program.stdin.flush()

    def hear(self, told):
        if "state" in told:
            if told["state"] == "another text" != self.state["state"]:
                self.asked += 1
            self.state = told
        elif "news" in told:
            self.has_news = True
        elif "wrong" in told:
            raise AssertionError(told["wrong"])
        elif "refused" not in told:
            return told
        return None

    def ask(self, key, **request):
        """What is answered under a key."""
        self.say(**request)
        while True:
            answer = self.hear(self.lines.get(timeout=ANSWER))
            if answer is not None:
                assert key in answer, answer
                return answer
            if self.state["state"] == "over":
                raise EOFError

    def places(self, text):
        """How many places a text takes."""
        encoding, width = COUNTS[self.count]
        return len(text.encode(encoding)) // width

    def characters(self, places):
        """How many characters of the shown text are before a place."""
        encoding, width = COUNTS[self.count]
        shown = self.text.encode(encoding)
        assert places * width <= len(shown), "a place is beyond the text"
        return len(shown[: places * width].decode(encoding))  # (which throws inside of a character)

    def play(self, changes):
        """Shows changes, and gives what they put in and took out."""
        put = taken = ""
        for place, removed, text in changes:
            at, end = self.characters(place), self.characters(place + removed)
            put, taken = put + text, taken + self.text[at:end]
            self.text = self.text[:at] + text + self.text[end:]
            if self.caret > at:
                self.caret = max(at, self.caret - (end - at))
                self.caret += len(text) * (self.caret > at)
        return put, taken

    def take(self):
        self.has_news = False
        self.play(self.ask("changes", take=True)["changes"])

    def change(self, at, removed, text, is_more=False):
        """A change of the shown text, told with its neighbours; it may be one of the same step as that before."""
        before, taken, behind = self.text[:at], self.text[at : at + removed], self.text[at + removed :]
        left, right = before[-1:], behind[:1]
        self.text, self.caret = before + text + behind, at + len(text)
        told = {"replace": [self.places(before), self.places(taken), text], "whole": self.text}
        beside = {"more": is_more, "caret": self.places(before + text)}
        self.say(**{self.key: told[self.key]}, **{it: beside[it] for it in self.beside})
        self.tally.note(self.who, put=text, taken=taken, left=left, right=right)

    def put(self):
        if self.dice.random() < 0.3:
            self.caret = self.dice.randint(0, len(self.text))
        count = self.dice.randint(65, 134) if self.dice.random() < 0.02 else self.dice.randint(1, 5)
        text, self.last = self.supply[self.used : self.used + count], ""
        for part in [text] if count > 5 or self.dice.random() < 0.5 else text:
            self.change(self.caret, 0, part, is_more=self.last != "")
            self.used += len(part)
            self.last += part

    def remove(self):
        if self.is_of_words:  # one's own alone, as backspaces: others' letters are alike
            last = self.last[-self.dice.randint(1, 3) :]
            if last and self.text[: self.caret].endswith(last):
                self.change(self.caret - len(last), len(last), "")
                self.last = self.last[: -len(last)]
            return
        for n in range(self.dice.randint(1, 3) if "more" in self.beside else 1):  # (a step at several places)
            at = max(0, self.caret - self.dice.randint(1, 4)) if self.dice.random() < 0.7 else self.dice.randrange(len(self.text) + 1)
            if at < len(self.text):
                self.change(at, min(self.dice.randint(1, 4), len(self.text) - at), "", is_more=n > 0)

    def turn(self):
        """Undoes a step, or does it again; what others did is taken before."""
        self.take()
        turned = self.ask("changes", **{self.dice.choice(("undo", "undo", "redo")): True})
        put, taken = self.play(turned["changes"])
        if "caret" in turned:
            self.caret = self.characters(turned["caret"])
        self.tally.note(self.who, put=put, taken=taken, left="", right="", undone=True)

    def run(self):
        try:
            while self.is_open:
                try:
                    self.serve()
                except (EOFError, OSError):
                    self.ended += self.is_open
                    if self.is_open:
                        self.begin()
        except Exception:  # (the soak tells it at the end)
            self.fault = traceback.format_exc()

    def serve(self):
        chosen = 0
        while self.is_open:
            while not self.lines.empty():
                self.hear(self.lines.get())
            state = self.state["state"]
            if state == "over":
                raise EOFError
            if state == "another text" and time.monotonic() > chosen + 1:
                chosen = time.monotonic()
                self.ask("chosen", choose=self.answer)
            if not self.reports.empty():
                self.report()
            if self.is_typing and state not in ("joining", "another text", "refused"):
                self.type()
            if self.has_news and self.dice.random() < 0.5:
                self.take()
            time.sleep(self.dice.uniform(0.05, 0.35))

    def type(self):
        does = self.dice.randrange(40)
        if does < 8:
            self.remove()
        elif does == 8 and not self.is_of_words:
            self.turn()
        else:
            self.put()

    def report(self):
        self.take()
        text, whole = self.text, self.ask("text", text=True)["text"]
        self.text = whole  # (what came between is in it)
        if not self.is_typing and text != whole and not self.has_news:
            self.differs += 1
        state, ahead = self.state["state"], self.state.get("ahead", False)
        self.reports.get()({"state": state, "text": whole, "isAhead": ahead, "asked": self.asked, "differs": self.differs})


class StdioTypists:
    """Editors of clients/stdio."""

    def __init__(self, texts, port, tally, is_of_words):
        self.reports, self.who = {}, [it["who"] for it in texts]
        self.typists = [StdioTypist(it["who"], it["text"], it["answer"], port, tally, is_of_words) for it in texts]
        print("editors of clients/stdio: " + ", ".join(f"{it.who} {it.way} in {it.count}" for it in self.typists), flush=True)

    @property
    def faults(self):
        return [(it.who, it.fault) for it in self.typists if it.fault]

    @property
    def ended(self):
        return sum(it.ended for it in self.typists)

    def report(self):
        """What each shows now."""
        self.reports.clear()
        for it in self.typists:
            it.reports.put(lambda told, who=it.who: self.reports.update({who: told}))
        end = time.monotonic() + 10
        while len(self.reports) < len(self.who) and time.monotonic() < end:
            time.sleep(0.02)
        return dict(self.reports)

    def end(self):
        for it in self.typists:
            it.is_typing = False

    def close(self):
        for it in self.typists:
            it.is_open = False
            it.join(10)
            it.program.stdin.close()
        for it in self.typists:
            try:
                it.program.wait(10)
            except subprocess.TimeoutExpired:
                it.program.kill()
