"""What tests/try_answered has its editors do, and what is owed to them."""
import itertools
import json
import random
import threading

from expecting import JOIN
from keeping import kept
from plain_world import elements
from verdict import expect

# Characters that no program takes apart, each typed once: more than four rooms take.
LETTERS = (chr(it) for it in itertools.chain(range(0x4E00, 0x9FA0), range(0x20000, 0x110000)))
lock = threading.Lock()


def letters(count):
    with lock:
        return "".join(next(LETTERS) for _ in range(count))


class Typist(threading.Thread):
    """Types and deletes in a room until the line ends, and notes what it typed, what it was told came of that, and what it was shown."""

    def __init__(self, server, room, seed, pause):
        super().__init__(daemon=True)
        self.server, self.room, self.random, self.pause = server, room, random.Random(seed), pause
        self.typed, self.shown, self.gone = set(), set(), set()
        self.answered, self.fault = 0, None
        self.start()

    def run(self):
        try:
            self.type(self.server.peer(self.room))
        except (OSError, EOFError):  # (the server has ended)
            pass
        except Exception as why:  # (which the trial tells)
            self.fault = why

    def ask(self, peer, **request):
        answer = peer.ask(json.dumps(request))
        if answer is None:
            raise EOFError
        return json.loads(answer)

    def type(self, peer):
        joined = self.ask(peer, **json.loads(JOIN))
        s, n, version, text = joined["s"], 1, joined["v"], list(joined["x"])
        self.shown |= {*text}
        while True:
            place = self.random.randint(0, len(text))
            if text and self.random.random() < 0.3:
                place = min(place, len(text) - 1)
                reply = self.ask(peer, t="del", s=s, n=n, v=version, k=place, c=1)
                done = {text[place]}, self.gone
            else:
                part = letters(self.random.randint(1, 4))
                self.typed |= {*part}
                reply = self.ask(peer, t="ins", s=s, n=n, v=version, k=place, x=part)
                done = {*part}, self.shown
            if reply["r"] == "ok":
                done[1].update(done[0])
                n += 1
                self.answered += 1
            news = self.ask(peer, t="pull", s=s, have=version, max=64)["es"]
            for kind, *edit in news:
                if kind == "i":
                    text.insert(edit[0], edit[1])
                    self.shown.add(edit[1])
                if kind == "d":
                    self.gone.add(text.pop(edit[0]))
            version += len(news)
            self.pause(self.random)


def owed(file, typists, typed):
    """Looks whether the file has all that it owes them: what was acknowledged or shown stands in it, and what was seen to be deleted is
    deleted in it; no letter stands in it twice, and none that nobody typed. The letters of its text."""
    log = kept(file)
    put_in = [char for _, char in elements(log)]
    deleted = {it.place for it in log if it.kind == "d"}
    text = [char for stamp, char in elements(log) if stamp not in deleted]
    expect("letters that stand in a file twice", len(put_in) - len({*put_in}), 0)
    expect("letters that nobody typed", {*put_in} - typed, set())
    for it in typists:
        expect("an editor's own fault", it.fault, None)
        expect("letters that were acknowledged or shown, and aren't kept", it.shown - {*put_in}, set())
        expect("letters that were seen to be deleted, and aren't", it.gone & {*text}, set())
    return text
