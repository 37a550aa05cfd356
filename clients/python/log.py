"""What a room's log tells, and how client.py reads it: of a long one neither what it knows nor the text that a renewed room began with."""
import bisect
import collections
import functools
import math

MOST = 64  # characters of a submission, edits of a pull, operations of a reply
AHEAD = 32  # requests that are sent at one time
DOUBLINGS, PARTS = 11, 16  # by which it is looked where a log is another than the one that is known

# A deletion has no character; `place` is the stamp that it deletes, or that an insertion stands behind.
Operation = collections.namedtuple("Operation", "stamp char place")


def unfolded(objects):
    """The operations that a reply to `ops` tells, one for each character."""
    operations = []
    for it in objects:
        total, place = sum(count for _, count in it["c"]), it["t"] if it["k"] == "d" else it["p"]
        for at, char in enumerate(it.get("x", [None])):
            operations.append(Operation((total + at, it["s"]), char, place and tuple(place)))
            place = operations[-1].stamp
    return operations


def told(ask, spans):
    """What replies to `ops` tell of spans of the log's numbers, each of `MOST` at most. `ask` sends the requests at one time."""
    replies = ask([{"t": "ops", "after": first, "max": end - first} for first, end in spans])
    return (it.get("ops", []) for it in replies)  # none at 23: it is shorter


def parts(ask, first, end):
    """A log's operations from a number on up to another, or where it ends, those of each reply as it comes."""
    for start in range(first, end, AHEAD * MOST):
        spans = [(at, min(end, at + MOST)) for at in range(start, min(end, start + AHEAD * MOST), MOST)]
        for (at, until), objects in zip(spans, told(ask, spans)):
            yield (part := unfolded(objects))
            if len(part) < until - at:
                return


def operations(ask, first, end):
    """A log's operations from a number on up to another, or where it ends."""
    return [it for part in parts(ask, first, end) for it in part]


def is_of_run(ask, site, log):
    """Whether a site is that of the server's run: a room of another one refuses this deletion since what it deletes isn't there."""
    sequence = 1 + sum(it.stamp[1] == site for it in log)
    deletion = {"c": [[site, sequence]], "k": "d", "s": site, "t": [sequence, site]}
    return ask({"t": "put", "ops": [deletion]})["os"][0] in (["no", 16], ["no", 17])


class Log(list):
    """A room's operations, from the first on. `take` alone puts them in. An element is told by the version that its operation led to, and 0
    is the beginning: `behind` tells which follows it in the order of the text, and `gone` the version in which it was deleted first."""

    def __init__(self):
        super().__init__()
        self.elements, self.behind, self.gone = {None: 0}, [0], [math.inf]

    def take(self, operations):
        """Takes some more. What is put in stands right behind its place, but for what came there with a greater stamp."""
        first = len(self) + 1
        self.extend(operations)
        self.behind += [0] * len(operations)
        self.gone += [math.inf] * len(operations)
        elements, behind, gone = self.elements, self.behind, self.gone
        for version, (stamp, char, place) in enumerate(operations, first):
            left = elements.get(place)
            if left is None:
                continue  # (a guess may lack it)
            if char is None:
                gone[left] = min(gone[left], version)
            elif elements.setdefault(stamp, version) == version:  # (a guess may have it twice)
                while (after := behind[left]) and self[after - 1][0] > stamp:
                    left = after
                behind[version], behind[left] = after, version
        for it in ("order", "places", "written"):  # they are worked out anew
            vars(self).pop(it, None)

    @functools.cached_property
    def order(self):
        """The elements in the order of the text, those that are gone too."""
        order, it = [], 0
        while it := self.behind[it]:
            order.append(it)
        return order

    @functools.cached_property
    def written(self):
        """The text as a renewed room's log begins with it: what one site put in, each character behind the one before."""
        text, before, site = [], None, self[0].stamp[1] if self else None
        for it in self:
            if it.stamp != (len(text) + 1, site) or it.char is None or it.place != before:
                break
            text.append(it.char)
            before = it.stamp
        return text

    def shown(self, version):
        """The elements of a version's text."""
        gone = self.gone
        return [it for it in self.order if it <= version < gone[it]]

    @functools.cached_property
    def places(self):
        """Where each element of its text stands."""
        return {it: at for at, it in enumerate(self.shown(len(self)))}

    def edits(self, version):
        """What the operations behind a version do to its text."""
        rank = {it: at for at, it in enumerate(self.order)}
        text = [rank[it] for it in self.shown(version)]
        for element, it in enumerate(self[version:], version + 1):
            own = rank[element if it.char is not None else self.elements[it.place]]
            at = bisect.bisect_left(text, own)
            if it.char is not None:
                text[at:at] = [own]
                yield ["i", at, it.char]
            elif text[at : at + 1] == [own]:
                del text[at]
                yield ["d", at]
            else:
                yield ["n"]


class Reading:
    """Reads a room's log, of which the operations from number `first` on may be known. How a long one begins is guessed by pieces of it,
    and held to the room's text. Where a line is lost what was read stays."""

    def __init__(self, ask, first, known):
        self.ask, self.first, self.known = ask, first, known
        self.log = Log()  # (a character that isn't known yet is empty)
        self.told = {}  # what was read for a guess, by spans
        self.pieces = {}  # of the text that the log begins with, by their places
        self.is_guessing = True

    def to(self, version, text):
        """The log up to a version, which has that text."""
        if operations(self.ask, max(0, len(self.log) - MOST), len(self.log)) != self.log[-MOST:]:
            self.log, self.told = Log(), {}  # another run has another one
        if self.is_guessing:
            if not self.log:
                self._begin(version)
            self._read_to(version)
            if self._fill(text):
                return self.log
            self.log, self.is_guessing = Log(), False
        self._read_to(version)
        return self.log

    def _read_to(self, end):
        for part in parts(self.ask, len(self.log), end):
            self.log.take(part)

    def _told(self, spans):
        """What a log has at these spans; what came of it before is not asked for again."""
        lacking = [it for it in spans if it not in self.told]
        for span, objects in zip(lacking, told(self.ask, lacking)):
            self.told[span] = objects
        return [self.told[it] for it in spans]

    def _begin(self, version):
        """Begins with what needn't be read."""
        self.pieces = {}
        same = self._same(version)
        if (self.first or not same) and version > AHEAD * MOST:
            self.log.take(self._skeleton(version))
        if same > len(self.log):
            self._read_to(self.first)
            self.log.take(self.known[len(self.log) - self.first : same - self.first])

    def _same(self, version):
        """Up to which number the log has what is known, as far as pieces of it tell: those of each part of it, and some nearer and nearer
        to its end."""
        count, same = len(self.known), 0
        backs = {0, *(count * n // PARTS for n in range(PARTS)), *(MOST << n for n in range(DOUBLINGS))}
        ends = sorted(self.first + count - back for back in backs if back < count)
        spans = [(max(self.first, it - MOST), it) for it in ends if it <= version]
        for (first, end), objects in zip(spans, self._told(spans)):
            if unfolded(objects) != self.known[first - self.first : end - self.first]:
                break
            same = end
        return same

    def _skeleton(self, version):
        """The operations by which a renewed room's log begins with a text, without their characters, which the room's text tells. Where one
        knows those of its site alone all before it are that site's: so the end is found by few pieces. Another site comes behind it."""
        start, end, site, behind = 0, version, None, []
        while start < end:
            step = max(MOST, -(-(end - start) // AHEAD))
            spans = [(at, min(end, at + MOST)) for at in range(start, end, step)]
            for (at, until), objects in zip(spans, self._told(spans)):
                self.pieces[at] = piece = piece_of(objects, at)
                if piece:
                    start, site = at + len(piece), objects[0]["s"]
                if at + len(piece) < until:
                    end, behind = at + len(piece), objects[bool(piece) :]
                    break
        stamps = [(at + 1, site) for at in range(end)]
        is_renewed = all(it["s"] != site for it in behind[:1])
        return [*zip(stamps, [""] * end, [None, *stamps])] if is_renewed else []

    def _fill(self, text):
        """Puts into the guess the characters that the text tells, and those that are gone, which are read. Whether it is right: it has the
        text, and the pieces."""
        log, shown = self.log, self.log.shown(len(self.log))
        if len(shown) != len(text):
            return False
        for version, char in zip(shown, text):
            if log[version - 1][1] == "":
                stamp, _, place = log[version - 1]
                log[version - 1] = Operation(stamp, char, place)
        lacking, starts = [at for at, it in enumerate(log) if it[1] == ""], []
        for at in lacking:
            if not starts or at >= starts[-1] + MOST:
                starts.append(at)
        for some in range(0, len(starts), AHEAD):
            spans = [(at, min(len(log), at + MOST)) for at in starts[some : some + AHEAD]]
            for (first, _), objects in zip(spans, told(self.ask, spans)):  # (what came stays in the log)
                for at, it in enumerate(unfolded(objects), first):
                    if it.char is not None and it[::2] == log[at][::2]:  # (else its character stays empty)
                        log[at] = it
        if any(log[at][1] == "" for at in lacking) or [log[it - 1].char for it in shown] != [*text]:
            return False
        return all([it.char for it in log[at : at + len(piece)]] == [*piece] for at, piece in self.pieces.items())


def piece_of(objects, at):
    """What a log has behind `at` operations of the text that it begins with, in one piece, as the first object tells it."""
    it = objects[0] if objects else {"k": "d"}
    is_next = it["k"] != "d" and it["c"] == [[it["s"], at + 1]] and it["p"] == ([at, it["s"]] if at else None)
    return it["x"] if is_next else ""
