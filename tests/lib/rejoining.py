"""Plays the cases of clients/vectors/rejoining.json with clients/python/client.py and the program, for tests/try_client."""
from client import FULL, JoinAnew, Lost, Pipe, Session
from log import MOST, operations


def whole(text):
    """A text, which may be told by its parts, each so often."""
    return text if isinstance(text, str) else "".join(times * part for times, part in text)


def free_site(log):
    """The least site that a log lacks: a run takes it that goes on with it."""
    return min({*range(32)} - {it.stamp[1] for it in log})


class Player:
    """Plays a case of clients/vectors/rejoining.json with a session and the program."""

    def __init__(self, case, program):
        self.case, self.program, self.lines = case, program, 0
        self.room = self.run_at(0)
        self.writes(whole(case["text"]))
        self.lost = None  # what is lost with the line, then whether it is
        self.is_up, self.late, self.is_accepted, self.is_left = True, None, False, True
        self.session = Session(self, tries=1)

    def run_at(self, site):
        return Pipe(self.program, "lines", "--site", str(site))

    def __call__(self, request):
        """The session's line."""
        if not self.is_up:
            self.lines += 1
            raise Lost
        if self.late and request["t"] == "leave":
            self.late = self.room(self.late) and None
        if not self.is_left and request["t"] == "leave":
            self.is_left = self.room(request) is not None
            self.lines += 1
            raise Lost
        is_submission = request["t"] in ("ins", "del")
        if self.lost == "edits" and self.is_accepted and request["t"] == "pull" or self.lost not in ("edits", None) and is_submission:
            self.is_up, self.late, self.is_left = False, request if self.lost == "late" else None, self.lost != "leave"
            if self.lost == "answer":
                self.room(request)
            self.lines += 1
            raise Lost
        self.is_accepted = self.lost == "edits" and is_submission
        return self.room(request)

    def writes(self, text):
        """Another session, into an empty room."""
        for at in range(0, len(text), MOST):
            self.submits({"t": "ins", "k": at, "x": text[at : at + MOST]})

    def submits(self, request):
        """Another session, at the newest version."""
        joined = self.room({"t": "join"})
        self.room({"s": joined["s"], "n": 1, "v": joined["v"], **request})
        self.room({"t": "leave", "s": joined["s"]})

    def is_another(self, run):
        """Another run of the server."""
        before = self.room
        if run in ("renewed", "anew"):
            text = before({"t": "read"})["x"]
            self.room = self.run_at(free_site(operations(before.all, 0, FULL)) if run == "anew" else 0)
            self.writes(text)
            before.close()
            before, kept = self.room, len(text)
        else:
            kept = run["kept"]
        self.room = self.run_at(free_site(operations(before.all, 0, kept)))
        for after in range(0, kept, MOST):
            self.room({"t": "put", "ops": before({"t": "ops", "after": after, "max": min(MOST, kept - after)})["ops"]})
        before.close()

    def change(self, at, removed, text):
        try:
            if removed:
                self.session.delete(at, removed)
            if text:
                self.session.insert(at, text)
        except Lost:
            pass

    def is_as_told(self):
        for step in self.case["steps"]:
            if "local" in step:
                if self.is_up:
                    self.session.pull()
                self.lost = step.get("lost")
                self.change(**step["local"])
            if "other" in step:
                for n in range(step.get("times", 1)):
                    self.submits({**step["other"], "k": step["other"]["k"] + n * step.get("apart", 0)})
            if "run" in step:
                self.is_another(step["run"])
            if "back" in step:
                self.is_up, self.lost, self.session.tries = True, None, 2
                try:
                    self.session.pull()
                except JoinAnew:
                    self.session.join_anew()
                    self.session.put_missing()
        told = "".join(self.session.text), self.room({"t": "read"})["x"]
        self.room.close()
        text = whole(step["text"])
        is_so = told == (text, text) and self.is_left
        if not is_so:
            print(f"{self.case['name']}: {told}, and not {text}")
        return is_so
