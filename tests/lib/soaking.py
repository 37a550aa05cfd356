"""What bin/soak_clients and bin/soak_renewing ask of the editors that type, and how they tell what was typed."""
import collections
import json
import time


class Log:
    """A file for all that was typed and happened, with the seconds since it began; nothing is told where it has no name."""

    def __init__(self, name):
        self.file = open(name, "w", encoding="utf-8") if name else None
        self.began = time.monotonic()

    def note(self, text):
        if self.file:
            print(f"{time.monotonic() - self.began:7.2f} {text}", file=self.file, flush=True)

    def noted(self, call):
        """A call of a tally that is told in the log."""

        def does(who, **told):
            self.note(json.dumps({"who": who, **told}, ensure_ascii=False))
            call(who, **told)

        return does if self.file else call


def are_settled(groups):
    """Whether all are up to date, and have nothing that the room doesn't."""
    told = [it for group in groups for it in group.report().values()]
    return len(told) == sum(len(group.who) for group in groups) and all(it["state"] == "up to date" and not it["isAhead"] for it in told)


def until(is_so, seconds):
    """Waits until something is so, some seconds at most. Whether it is."""
    end = time.monotonic() + seconds
    while not (so := is_so()) and time.monotonic() < end:
        time.sleep(0.2)
    return so


def are_back(groups):
    """Whether none is away, or asked."""
    return all(it["state"] in ("up to date", "sending") for group in groups for it in group.report().values())


def agree(groups):
    """Whether all are settled, and show one text."""
    return are_settled(groups) and len({it["text"] for group in groups for it in group.reports.values()}) == 1


def amiss(groups):
    """How many are, by their last reports, not as they should be at an end; what faults they had is printed."""
    other = collections.Counter()
    for group in groups:
        for it in group.reports.values():
            other["shown otherwise than told"] += it["differs"]
            other["not settled"] += it["state"] != "up to date" or it["isAhead"]
        other["ended for good"] += group.ended
        other["faults of a client"] += len(group.faults)
        for who, fault in group.faults:
            print(f"editor {who}: {fault}", flush=True)
    return +other
