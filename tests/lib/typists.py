"""Editors that type, each some of them in a process of its own, for bin/soak_clients and bin/soak_renewing."""
import json
import pathlib
import subprocess
import sys
import threading
import time

HERE = pathlib.Path(__file__).resolve().parent


def has_node():
    """Whether Node 20 or later is there."""
    try:
        return int(subprocess.run(["node", "--version"], capture_output=True, text=True).stdout[1:].split(".")[0]) >= 20
    except (OSError, ValueError):
        return False


def module_typists(texts, processes, port, tally, module, is_of_words):
    """Editors of a module like clients/js, in so many processes."""
    has_socket = "--experimental-websocket" in subprocess.run(["node", "--help"], capture_output=True, text=True).stdout
    words = ["node", *["--experimental-websocket"] * has_socket, "--no-warnings", str(HERE / "typing.mjs"), module]
    return apart(texts, processes, [*words, f"ws://127.0.0.1:{port}", kind(is_of_words)], tally)


def plain_typists(texts, processes, port, tally, is_of_words):
    """Editors of clients/python/client.py, in so many processes."""
    return apart(texts, processes, [sys.executable, "-B", str(HERE / "plain_typing.py"), str(port), kind(is_of_words)], tally)


def apart(texts, processes, words, tally):
    return [Typists(texts[n::processes], words, tally) for n in range(min(processes, len(texts)))]


def kind(is_of_words):
    return "words" if is_of_words else "unique"


class Typists:
    """Editors that a program has. It is told by a line of input what to do, and tells by one of output what one of them did."""

    def __init__(self, texts, words, tally):
        self.tally, self.reports, self.faults, self.ended = tally, {}, [], 0
        self.away = []  # until when, and how many seconds, each was away that is quick
        self.who = [it["who"] for it in texts]
        self.run = subprocess.Popen(words, stdin=subprocess.PIPE, stdout=subprocess.PIPE, text=True, encoding="utf-8")
        threading.Thread(target=self.listen, daemon=True).start()
        self.say(begin=texts)

    def say(self, **what):
        self.run.stdin.write(json.dumps(what) + "\n")
        self.run.stdin.flush()

    def listen(self):
        for line in self.run.stdout:
            told = json.loads(line)
            who = told.pop("who")
            if "report" in told:
                self.reports[who] = told["report"]
                continue
            if "fault" in told:
                self.faults.append((who, told["fault"]))
            elif "ended" in told:
                self.ended += 1
            elif "away" in told:
                self.away.append((time.monotonic(), told["away"] / 1_000))
            else:
                self.tally.note(who, **told)

    def report(self):
        """What each shows now."""
        self.reports.clear()
        self.say(report=True)
        end = time.monotonic() + 10
        while len(self.reports) < len(self.who) and time.monotonic() < end:
            time.sleep(0.02)
        return dict(self.reports)

    def go_on(self, texts):
        """Each types again, another text."""
        self.say(further=texts)

    def clear(self, at, count):
        """The first one takes so many units out, from a place on."""
        self.say(clear=[at, count])

    def end(self):
        self.say(end=True)

    def close(self):
        try:
            self.say(close=True)
            self.run.wait(10)
        except (OSError, subprocess.TimeoutExpired):  # (it may have ended)
            self.run.kill()
