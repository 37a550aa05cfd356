"""What a session of client.py remembers of its room: the text of some time ago, the edits since with whose they are, and the log's
operations. By these it finds in another run of the server what that lacks of one's own, and carries there what is to be submitted."""
import bisect
import collections
import difflib
import itertools

from log import MOST

REMEMBERED = 8_192  # edits, at least
PENDING = 1 << 32  # a version above all others
PIECE = 16  # characters that two don't put in at one time
COMPARED = 100_000  # pairs of characters, where two texts differ, that are looked at one by one, at most

Step = collections.namedtuple("Step", "version edit is_own stamp")  # the version that an edit led to; its operation's stamp, where that is known


def rows(edits):
    """Edits in rows that a text takes at one time: insertions, each behind the one before, or deletions at one place."""
    row, following = [], None
    for edit in edits:
        if row and edit[:2] != following:
            yield row
            row = []
        row.append(edit)
        following = ["i", edit[1] + 1] if edit[0] == "i" else edit[:2]
    if row:
        yield row


def play(text, edits):
    """Plays edits on a text, a list of characters."""
    for row in rows(edits):
        if row[0][0] == "i":
            at = row[0][1]
            text[at:at] = [it[2] for it in row]
        elif row[0][0] == "d":
            at = row[0][1]
            del text[at : at + len(row)]


class Insertion:
    """A text to be put in at a place of the session's text, right behind what stands before it."""

    def __init__(self, place, text):
        self.place, self.text = place, text

    def __len__(self):
        return len(self.text)

    def edit(self):
        """What its first character does to the text."""
        return ["i", self.place, self.text[0]]

    def request(self):
        """Its first part."""
        return {"t": "ins", "k": self.place, "x": self.text[:MOST]}

    def came(self, edit):
        """Its first character is in the text by this edit: the rest goes behind it."""
        self.place, self.text = edit[1] + 1, self.text[1:]

    def follow(self, edit, is_own):
        """Another edit: what others put in at its place stands behind it, and what oneself put in before it."""
        if edit[0] == "i" and edit[1] < self.place + is_own:
            self.place += 1
        elif edit[0] == "d" and edit[1] < self.place:
            self.place -= 1



class Deletion:
    """The places of the session's text whose characters are to be deleted."""

    def __init__(self, places):
        self.places = list(places)

    def __len__(self):
        return len(self.places)

    def edit(self):
        return ["d", self.places[0]]

    def request(self):
        first = self.places[0]
        count = next((at for at, it in enumerate(self.places[:MOST]) if it != first + at), min(MOST, len(self)))
        return {"t": "del", "k": first, "c": count}

    def came(self, edit):
        self.follow(edit, True)

    def follow(self, edit, _is_own):
        if edit[0] == "i":
            self.places = [it + (edit[1] <= it) for it in self.places]
        elif edit[0] == "d":
            self.places = [it - (edit[1] < it) for it in self.places if it != edit[1]]



class Element:
    """A character of the text, or one that was there and is gone."""

    __slots__ = "char put is_own stamp gone is_gone_here next place".split()

    def __init__(self, char, put=0, is_own=False, stamp=None):
        self.char, self.put, self.is_own, self.stamp = char, put, is_own, stamp
        self.gone, self.is_gone_here = None, False  # the version at which it was deleted, and whether by oneself
        self.next = None
        self.place = None  # in the other run's text, where it is there


def put_behind(left, elements):
    """Puts elements in, in their order, right behind another."""
    for it in reversed(elements):
        it.next, left.next = left.next, it


def those_at(elements, version):
    """Those of the elements that are in the text of a version."""
    return [it for it in elements if it.put <= version and (it.gone is None or it.gone > version)]


class Past:
    """`version` and `text` are those of some time ago, `own` tells of each character whether oneself put it in, `steps` lead on from there;
    `log` has the operations from number `start` on, up to the version of now: from number `first` on another run's are compared with
    them."""

    def __init__(self, version, text, log, own=None):
        self.version, self.text, self.steps = version, list(text), []
        self.own = own or [False] * len(self.text)
        self.start, self.log = version - len(log), list(log)
        self.first = max(self.start, version - MOST)

    @property
    def end(self):
        """The version of now."""
        return self.start + len(self.log)

    def note(self, edit, is_own, operation):
        """The text's next edit, and its operation."""
        self.log.append(operation)
        self.step(self.end, edit, is_own, operation.stamp)
        if len(self.steps) > 2 * REMEMBERED:
            old, self.steps = self.steps[:REMEMBERED], self.steps[REMEMBERED:]
            play(self.text, [it.edit for it in old])
            play(self.own, [[*it.edit[:2], it.is_own] for it in old])
            self.version = old[-1].version
            self.first = max(self.first, self.version - MOST)

    def know(self, log):
        """Takes the whole log, which goes on from here."""
        self.start, self.log = 0, log[: self.end]

    def elements(self):
        """All in their order, those that are gone too, and those of the text of now."""
        start, shown = Element(""), [Element(char, is_own=is_own) for char, is_own in zip(self.text, self.own)]
        put_behind(start, shown)
        steps = iter(self.steps)
        for row in rows(it.edit for it in self.steps):
            of_row = [*itertools.islice(steps, len(row))]
            if row[0][0] == "i":
                at = row[0][1]
                put = [Element(it.edit[2], it.version, it.is_own, it.stamp) for it in of_row]
                put_behind(shown[at - 1] if at else start, put)
                shown[at:at] = put
            elif row[0][0] == "d":
                at = row[0][1]
                for one, it in zip(shown[at : at + len(row)], of_row):
                    one.gone, one.is_gone_here = it.version, it.is_own
                del shown[at : at + len(row)]
        order, it = [], start
        while it := it.next:
            order.append(it)
        return order, shown

    def in_common(self, log):
        """Up to which version a log is the one that is known here; nothing where it isn't, or begins as that of a renewed room does."""
        here, there = self.log[self.first - self.start :], log[self.first : self.end]
        count, common = (found := alike_until(here, there)), self.first + found
        if count == 0 and here:
            return None
        sites = {it.stamp[1] for it in here[:count]}
        is_renewed = any(sites == {it.stamp[1]} == {log[0].stamp[1]} for it in there[count : count + 1])  # its text goes on otherwise
        if count < len(here) and common <= len(log.written):  # it may begin as the one of before
            is_renewed = is_renewed or self.is_own_in(log.written, common)
        return None if is_renewed else common

    def is_own_in(self, text, version):
        """Whether a text has most of what oneself put in behind a version."""
        _, now = self.elements()
        set_places(now, text)
        own = [it.place is not None for it in now if it.is_own and version < it.put < PENDING]
        return 2 * sum(own) > len(own)

    def came_at(self, log, at, request, before=None):
        """How many operations of another log, from its number `at` on, are what a request asked for in the text of now: all, or so many
        as that run had kept of them when it ended. `before` are the stamps of that text, where the whole log has told them."""
        wanted = list(request["x"]) if request["t"] == "ins" else [None] * request["c"]
        there = log[at : at + len(wanted)]
        count = next((n for n, (one, char) in enumerate(zip(there, wanted)) if one.char != char), len(there))
        end = log[at + count : at + count + 1]
        if count == 0 or count < len(wanted) and any(it.stamp[1] == there[0].stamp[1] for it in end):
            return 0
        known = () if before else {it.stamp for it in self.steps}
        before = before or [it.stamp for it in self.elements()[1]]
        fits = lambda place, stamp: place == stamp if stamp else place is not None and place not in known
        if request["t"] == "del":
            return count if all(fits(it.place, stamp) for it, stamp in zip(there[:count], before[request["k"] :])) else 0
        is_chain = all(it.place == one.stamp for one, it in zip(there[: count - 1], there[1:count]))
        return count if is_chain and (fits(there[0].place, before[request["k"] - 1]) if request["k"] else there[0].place is None) else 0

    def step(self, version, edit, is_own=False, stamp=None):
        self.steps.append(Step(version, edit, is_own, stamp))

    def version_of(self, text):
        """The last version, of those that are remembered, with a text; none where there is none."""
        now, found = list(self.text), self.version if self.text == text else None
        size, played = len(now), 0
        for at, it in enumerate(self.steps, 1):
            size += (it.edit[0] == "i") - (it.edit[0] == "d")
            if size == len(text):
                play(now, [it.edit for it in self.steps[played:at]])
                played = at
                if now == text:
                    found = it.version
        return found

    def move(self, log, text, common, kept, begin, deletes):
        """Goes over to another run's log and text, which is the one that is known here up to version `common`. What was done up to version
        `kept` it has, where that is known, and the same text at its own version `begin`, where it has that. `deletes`: a deletion is under
        way. Gives the edits that lead there from the text of now, without what is pending, and what is lacking there of one's own, with it."""
        order, _ = self.elements()
        now = those_at(order, PENDING - 1)
        until = kept
        if kept is None:
            place = set_left_places if deletes else set_places
            place(now, log.written)  # what came behind it the log tells
            sure = last_in_a_piece(now, self.version)
            own = [it.place is not None for it in now if it.is_own and it.put > sure and it.gone is None]
            if 2 * sum(own) < len(own):
                until = sure  # the room was written of a text before what was put in last, or before those that are remembered
                for it in order:
                    it.place = None
            else:
                set_pending(order, log.written)
        there = [] if until is None else those_at(order, until)
        if kept is None:
            set_places(there, log.written)
            carry_places(order, log)
        elif begin is None:
            set_places(there, text)
        else:
            for it, place in zip(there, map(log.places.get, log.shown(begin))):
                it.place = place
        lost = lacking(order, PENDING - 1 if until is None else until)
        edits = edits_to(now, text)
        if common is None or begin is None:
            own = [False] * len(text)
            for it in order:
                if it.is_own and it.place is not None:
                    own[it.place] = True
            self.__init__(len(log), text, log, own)
        else:
            self.steps, self.start, self.log = [it for it in self.steps if it.version <= common], 0, list(log)
            for at, edit in enumerate(log.edits(common), common):
                self.step(at + 1, edit, stamp=log[at].stamp)
        return edits, lost


def those_in(elements, text):
    """Those of the elements that are in a text, each with its place there."""
    pieces = in_common("".join([it.char for it in elements]), "".join(text))
    return [pair for at, to, count in pieces for pair in zip(elements[at : at + count], range(to, to + count))]


def set_places(elements, text):
    for it, place in those_in(elements, text):
        it.place = place


def set_left_places(elements, text):
    """The same for those that aren't being deleted; and for the others, where more is in the text with them: else they are gone."""
    left = those_in([it for it in elements if it.gone is None], text)
    for it, place in max(left, those_in(elements, text), key=len):
        it.place = place


def carry_places(elements, log):
    """Takes places in the text that a renewed room's log begins with over to its text of now. What was deleted between is gone."""
    places = log.places  # (of an element, which is told by the version that put it in)
    for it in elements:
        if it.place is not None:
            it.place = places.get(it.place + 1)
            if it.place is None and it.gone is None:
                it.gone = PENDING


def set_pending(order, text):
    """Finds in a text what is pending, between those elements that have a place there."""
    pending, start = [], 0
    for it in (*order, None):
        if it and it.place is None:
            if it.put == PENDING:
                pending.append(it)
            continue
        end = it.place if it else len(text)
        if pending:
            set_places(pending, text[start:end])
            for one in pending:
                one.place = None if one.place is None else start + one.place
            pending = []
        start = end + 1


def last_in_a_piece(elements, version):
    """Which version put in the last of what oneself did behind one that is surely in the text in which these elements are placed: in a piece
    there. That one, where nothing is."""
    piece = []
    for it in (*elements, None):
        is_there = it is not None and it.is_own and it.place is not None
        if piece and not (is_there and it.place == piece[-1].place + 1):
            if len(piece) >= PIECE:
                version = max(version, *(one.put for one in piece))
            piece = []
        if is_there:
            piece.append(it)
    return version


def lacking(order, version):
    """What isn't where these elements are placed of what oneself put in behind a version, and what is there that oneself deleted."""
    lost, back, place = [], [], 0
    for it in order:
        if it.place is not None:
            place = it.place + 1
            if it.is_gone_here:
                back.append(it.place)
        elif it.is_own and it.gone is None and it.put > version:
            if not lost or lost[-1].place != place:
                lost.append(Insertion(place, ""))
            lost[-1].text += it.char
    return lost + [Deletion(back)] * bool(back)


def alike_until(one, other):
    """How many elements with which two lists or texts begin are the same. Halves are compared, and not each by itself."""
    start, end = 0, min(len(one), len(other))
    while start < end:
        middle = (start + end + 1) // 2
        if one[start:middle] == other[start:middle]:
            start = middle
        else:
            end = middle - 1
    return start


def in_common(one, other, width=32):
    """What two texts have in common, in pieces: where each begins in both, and of how many characters it is. Looked for at their beginnings
    and ends, and between round each part of some characters that is once in both; parts of fewer and fewer characters are looked for."""
    start = alike_until(one, other)
    alike_end = alike_until(one[start:][::-1], other[start:][::-1])
    texts = one[start : len(one) - alike_end], other[start : len(other) - alike_end]
    inner = []
    if all(texts) and len(texts[0]) * len(texts[1]) <= COMPARED:
        inner = difflib.SequenceMatcher(None, *texts, autojunk=False).get_matching_blocks()
    elif all(texts) and width:
        before, marks = (0, 0), [*alike(*texts, width), tuple(map(len, texts))]
        ends = [n for n, (mark, following) in enumerate(zip(marks, marks[1:]), 1) if following != (mark[0] + 1, mark[1] + 1)]
        for first, end in zip([0, *ends], [*ends, len(marks)]):  # of a row of them
            at, to = marks[first]
            found = in_common(texts[0][before[0] : at], texts[1][before[1] : to], width // 2)
            inner += [(before[0] + a, before[1] + b, count) for a, b, count in found]
            inner.append((at, to, end - first - 1))
            before = marks[end - 1]
    inner = [(start + at, start + to, count) for at, to, count in inner]
    return [(0, 0, start), *inner, (len(one) - alike_end, len(other) - alike_end, alike_end)]


def alike(one, other, width):
    """The pairs of places of the parts of so many characters that are once in each of two texts, in the order of both: as many as can be."""
    parts = [one[at : at + width] for at in range(len(one) - width + 1)]
    places = dict(zip(parts, itertools.count()))
    if len(places) < len(parts):
        counts = collections.Counter(parts)
        places = {part: at for part, at in places.items() if counts[part] == 1}
    found = [places.get(other[to : to + width]) for to in range(len(other) - width + 1)]
    counts = collections.Counter(found)
    pairs = sorted((at, to) for to, at in enumerate(found) if at is not None and counts[at] == 1)
    if all(one[1] < other[1] for one, other in zip(pairs, pairs[1:])):
        return pairs
    ends, heads, before = [], [], {}  # the least place in `other` by which so many pairs may end, and those pairs
    for at, to in pairs:
        count = bisect.bisect_left(ends, to)
        ends[count : count + 1], heads[count : count + 1] = [to], [(at, to)]
        before[at, to] = heads[count - 1] if count else None
    chain, pair = [], heads[-1] if heads else None
    while pair:
        chain.append(pair)
        pair = before[pair]
    return chain[::-1]


def edits_to(elements, text):
    """The edits that lead from these elements' characters to a text in which `place` tells where they are."""
    edits, at = [], 0
    for it in elements:
        if it.place is None:
            edits.append(["d", at])
        else:
            while at < it.place:
                edits.append(["i", at, text[at]])
                at += 1
            at = it.place + 1
    return edits + [["i", n, text[n]] for n in range(at, len(text))]
