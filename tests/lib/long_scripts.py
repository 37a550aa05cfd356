"""Scripts that are too long to be written down, with the lines that are wanted of the program: those of random events and of
operations that are handed over or exchanged are answered by the plain world, those of a full log by what is known of a text that
was typed from its end on. And a random log."""
import collections
import itertools
import json
import random

from plain_world import LIMIT, MOST_HELD, SITES, Room, World, clock_of, edits_in_one_order, no, object_of, operation_of
from plain_world import packed, places, width

ALPHABET = "abcdefghijklmnopqrstuvwxyz"
CHARACTERS = ALPHABET + ' é\u20ac"\\' + 4 * "\U0001f600\U00010000\U0010ffff"


def compact(value):
    return json.dumps(value, separators=(",", ":"), sort_keys=True, ensure_ascii=False)


def put(*outcome):
    return {"os": [list(outcome)], "r": "put"}


class Script:
    """The lines of a script, and those that are wanted of the program."""

    def __init__(self):
        self.lines, self.wanted = [], []

    def call(self, site, reply, **request):
        self.event(f"call {site} {compact(request)}", reply)

    def event(self, line, reply):
        self.lines.append(line)
        self.wanted.append(compact(reply))

    def end(self, readings):
        self.wanted += [f"{site} {version} {compact(text)}" for site, version, text in readings]


class Played:
    """A script that grows event by event, each answered by the plain world. The first session of each site joins at once: at even
    sites it counts characters, at odd ones UTF-16 units."""

    def __init__(self, sites):
        self.script, self.world = Script(), World(sites)
        for site in range(sites):
            self.call(site, t="join", **({"u": 16} if site % 2 else {}))

    def call(self, site, **request):
        self.script.call(site, self.world.call(site, request), **request)

    def carry(self, source, n, target):
        self.script.event(f"carry {source} {n} {target}", self.world.carry(source, n, target))

    def fork(self, new, source, n):
        reply = self.world.fork(new, source, n)
        self.script.event(f"fork {new} {source} {n}", reply)
        if reply == {"r": "forked"}:
            self.call(new, t="join", **({"u": 16} if new % 2 else {}))

    def all_is_pulled(self):
        """The first session of each site pulls all: edits that show each version in the one order of all sites' elements."""
        rooms = self.world.rooms
        by_count = [dict(zip(rooms, edits_in_one_order([room.log for room in rooms.values()], units))) for units in (False, True)]
        for site, room in rooms.items():
            for have in range(room.sessions[1].first, len(room.log), 64):
                edits = by_count[site % 2][site][have : have + 64]
                self.script.call(site, {"es": edits, "from": have, "r": "edits"}, t="pull", s=1, have=have, max=64)


def random_event(dice, played):
    """One more event, which is mostly accepted."""
    rooms = played.world.rooms
    site = dice.choice([*rooms])
    room = rooms[site]
    kinds = {"ins": 28, "del": 10, "pull": 18, "carry": 35, "fork": 1, "join": 2, "leave": 1, "read": 2, "ops": 2}
    (kind,) = dice.choices([*kinds], kinds.values())
    if kind == "carry":
        return random_carry(dice, played, site)
    if kind == "fork":
        return played.fork(dice.randrange(10), site, dice.randint(0, len(room.log) + 1))
    if kind == "read":
        return played.call(site, t="read")
    if kind == "ops":
        return played.call(site, t="ops", after=dice.randint(0, len(room.log) + 1), max=dice.choice([*range(5), 64, 65]))
    if kind == "join":
        return played.call(site, t="join", **dice.choice([{}, {}, {"u": 16}, {"u": 16}, {"u": 8}]))
    s = dice.choice([*room.sessions])
    if kind == "leave":
        return played.call(site, t="leave", s=s if s > 1 else 99)
    session = room.sessions[s]
    some_version = dice.randint(session.first, session.sent)
    if kind == "pull":
        have = dice.choice([session.sent] * 8 + [some_version, session.sent + 1])
        return played.call(site, t="pull", s=s, have=have, max=dice.choice([64] * 8 + [dice.randint(0, 66)]))
    n = session.last + dice.choice([1] * 30 + [0, 2])
    v = dice.choice([session.sent] * 15 + [some_version] * 10 + [session.sent + 1])
    length = len(places(room.log[:v], session.units))
    if kind == "ins":
        size = dice.choice([1] * 20 + [2] * 10 + [3] * 10 + [0, 65])
        text = "".join(dice.choices(CHARACTERS, k=size))
        return played.call(site, t="ins", s=s, n=n, v=v, k=dice.randint(0, length + dice.choice([0] * 20 + [1])), x=text)
    k, c = dice.randint(0, length), dice.choice([1] * 9 + [2] * 4 + [3, 5, 8, 13, 64] + [0, 65])
    return played.call(site, t="del", s=s, n=n, v=v, k=min(k, max(0, length - c + dice.choice([0] * 20 + [1]))), c=c)


def random_carry(dice, played, target):
    """Half the time the first operation that the target lacks, else any one."""
    rooms = played.world.rooms
    source = dice.choice([*rooms] * 8 + [31])
    log = rooms[source].log if source in rooms else []
    there = set(rooms[target].log)
    lacking = [at for at, operation in enumerate(log) if operation not in there]
    if lacking and dice.random() < 0.5:
        return played.carry(source, lacking[0], target)
    return played.carry(source, dice.randint(0, len(log)), target)


def random_script(sites, events):
    """Random events at sites some of which fork, and then every site is carried every operation, some of them early, and is asked
    for what each of them did. Gives the script, and the texts that the sites then read by their definition."""
    dice = random.Random(15)
    played = Played(sites)
    for _ in range(events):
        random_event(dice, played)
    rooms = played.world.rooms
    own = [(operation.stamp, site, at) for site in rooms for at, operation in enumerate(rooms[site].log) if operation.site == site]
    own.sort()  # the sum of an operation is above those of all that it needs
    for target in rooms:
        for first in range(0, len(own), 40):
            window = own[first : first + 40]
            dice.shuffle(window)
            for _, source, at in window:
                played.carry(source, at, target)
    played.all_is_pulled()
    readings = played.world.readings()
    played.script.end(readings)
    return played.script, readings


def full_log():
    """Site 0 fills its log by runs of 64, each put in before all others. Site 1 is carried all of it, each run from its end
    on, and is full too; site 2 has two operations of its own, and no room for the last two."""
    script = Script()
    for site in range(3):
        script.call(site, {"r": "joined", "s": 1, "v": 0, "x": ""}, t="join")
    runs = [ALPHABET[i % 26] + ALPHABET[i // 26 % 26] * 62 + ALPHABET[i // 676] for i in range(LIMIT // 64)]
    for i, run in enumerate(runs):
        script.call(0, {"from": 64 * i, "r": "ok", "to": 64 * i + 64}, t="ins", s=1, n=i + 1, v=0, k=0, x=run)
    script.call(0, no(12), t="ins", s=1, n=len(runs) + 1, v=0, k=0, x="b")
    script.call(2, {"from": 0, "r": "ok", "to": 2}, t="ins", s=1, n=1, v=0, k=0, x="->")
    for first in range(0, LIMIT, 64):
        for at in range(first + 63, first, -1):
            script.event(f"carry 0 {at} 1", put("kept"))
        script.event(f"carry 0 {first} 1", put("took", 64, 0))
    for at in range(LIMIT - 2):
        script.event(f"carry 0 {at} 2", put("took", 1, 0))
    script.event(f"carry 0 {LIMIT - 2} 2", put("no", 12))
    script.event(f"carry 0 {LIMIT - 1} 2", put("kept"))
    script.event(f"carry 0 {LIMIT - 1} 1", put("again"))
    for target in (0, 1):
        script.event(f"carry 2 0 {target}", put("no", 12))
        script.event(f"carry 2 1 {target}", put("kept"))
        script.event(f"carry 2 1 {target}", put("again"))
    script.event(f"carry 0 {LIMIT} 1", no(23))
    script.event(f"fork 3 1 {LIMIT + 1}", no(23))
    script.event(f"fork 3 1 {LIMIT}", {"r": "forked"})
    full = "".join(reversed(runs))
    script.call(3, {"r": "joined", "s": 1, "v": LIMIT, "x": full}, t="join")
    script.call(3, no(12), t="ins", s=1, n=1, v=LIMIT, k=0, x="b")
    for site in (0, 1):
        edits = [["i", at, char] for at, char in enumerate(runs[0])]
        script.call(site, {"es": edits, "from": 0, "r": "edits"}, t="pull", s=1, have=0, max=64)
    # The arrow's first stamp, (1,2), is below those of the heads of all runs but the first, (1,0).
    beside = full[:62] + full[64:-64] + "->" + full[-64:]
    script.end([(0, LIMIT, full), (1, LIMIT, full), (2, LIMIT, beside), (3, LIMIT, full)])
    return script


def all_sites():
    """At each of 32 sites six characters, of 21 bytes, are put in, and carried to every other site, in any order."""
    dice = random.Random(32)
    played = Played(SITES)
    for site in range(SITES):
        played.call(site, t="ins", s=1, n=1, v=0, k=0, x="".join(dice.choices(CHARACTERS[-12:], k=5)) + ALPHABET[site % 26])
    carried = [(source, n, target) for source in range(SITES) for n in range(6) for target in range(SITES) if source != target]
    own = {site: room.log[:] for site, room in played.world.rooms.items()}
    dice.shuffle(carried)
    for source, n, target in carried:
        played.carry(source, played.world.rooms[source].log.index(own[source][n]), target)
    played.all_is_pulled()
    played.script.end(played.world.readings())
    return played.script


def all_sites_at_once():
    """Twice, each of 32 sites puts in a letter of its own, with a point behind it where its number is odd, at the beginning of the empty
    version; then each is carried what the others put in. The greater stamp stands first: the later round, in each the greater site."""
    script = Script()
    texts = [[chr(256 + 32 * at + site) + "." * (site % 2) for site in range(SITES)] for at in range(2)]
    for site in range(SITES):
        script.call(site, {"r": "joined", "s": 1, "v": 0, "x": ""}, t="join")
    for n, (before, of_all) in enumerate(zip((0, 48), texts), 1):
        for site, text in enumerate(of_all):
            script.call(site, {"from": before, "r": "ok", "to": before + len(text)}, t="ins", s=1, n=n, v=0, k=0, x=text)
        for source, target in itertools.permutations(range(SITES), 2):
            for at in range(len(of_all[source])):
                script.event(f"carry {source} {before + at} {target}", put("took", 1, 0))
    script.end([(site, 96, "".join(reversed(texts[0] + texts[1]))) for site in range(SITES)])
    return script


def many_sessions():
    """The 64 sessions that a room may have, of both counts in turn, put in, pull, delete what they put in (as many places, which are
    one or two characters), put in again, and leave for another one."""
    script, room = Script(), Room(0)
    ask = lambda **request: script.event(compact(request), room.answer(request))
    for s in range(1, 66):
        ask(t="join", **({"u": 16} if s % 2 else {}))
    for s in range(1, 65):
        ask(t="ins", s=s, n=1, v=0, k=0, x=CHARACTERS[-1 - s % 3] + ALPHABET[s % 26])
    for s in range(1, 65):
        for have in (0, 64):
            ask(t="pull", s=s, have=have, max=64)
        ask(t="del", s=s, n=2, v=2 * s, k=0, c=2)
        ask(t="ins", s=s, n=3, v=2 * s, k=0, x=ALPHABET[s % 26])
    for s in range(1, 65):
        ask(t="leave", s=s)
        ask(t="join", **({} if s % 2 else {"u": 16}))
    ask(t="read")
    return script


def runs_of_all_lengths():
    """Site 0 puts in runs of each length from 1 to 64, of characters of one to four bytes and of all of them, each at the head. It is
    asked for each run, for its beginning, and from the operation before it on. Gives the script, and the room."""
    script, room = Script(), Room(0)
    ask = lambda **request: script.event(compact(request), room.answer(request))
    ask(t="join")
    for n, (chars, size) in enumerate(itertools.product(("ab", "\u00e9\u00df", "\u20ac\u2028", "\U0001f600\U00010000", CHARACTERS), range(1, 65)), 1):
        first = len(room.log)
        ask(t="ins", s=1, n=n, v=0, k=0, x=(chars * 65)[n % len(chars) :][:size])
        for after, count in ((first, size), (first, 1 + size // 2), (max(0, first - 1), 64)):
            ask(t="ops", after=after, max=count)
    ask(t="read")
    return script, room


class Typed:
    """The text of a room that one session types, and what each version did to it, by arithmetic: in characters and in units."""

    def __init__(self):
        self.shown, self.pairs = [], 0  # the characters, and how many of them have two units
        self.edits = {False: [], True: []}

    def place(self, at, units):
        """The place of the character that is shown behind so many; the time is of those that are shown behind it."""
        return at + (units and self.pairs - sum(width(char, True) - 1 for char in self.shown[at:]))

    def insert(self, at, text):
        for units, edits in self.edits.items():
            widths = itertools.accumulate((width(char, units) for char in text), initial=self.place(at, units))
            edits += [["i", place, char] for place, char in zip(widths, text)]
        self.shown[at:at] = text
        self.pairs += sum(width(char, True) - 1 for char in text)

    def delete(self, at, count):
        for units, edits in self.edits.items():
            place = self.place(at, units)
            edits += [["d", place] + ([width(char, True)] if units else []) for char in self.shown[at : at + count]]
        self.pairs -= sum(width(char, True) - 1 for char in self.shown[at : at + count])
        del self.shown[at : at + count]

    def delete_again(self, count):
        for edits in self.edits.values():
            edits += [["n"]] * count

    def version(self):
        return len(self.edits[False])


def typed_full(units):
    """Session 1, which counts units or doesn't, types a log full, up to version 61,440 at the end of the text and from there on
    within some 200 characters of it: it puts in and deletes at 1 to 64 places at a time, now and then twice in one version, and
    pulls 1 to 64 edits at a time; meanwhile the text is read, and places are refused. Then it can only be read: session 2, which
    counts the other way, pulls all that was done."""
    dice, script, typed = random.Random(61), Script(), Typed()
    (put_in, deleted, pulled), n, sent = (itertools.cycle(range(1, 65)) for _ in range(3)), 1, 0
    ask = lambda reply, **request: script.event(compact(request), reply)
    place = lambda at: typed.place(at, units)
    text = lambda size: "".join(dice.choices(CHARACTERS, k=min(size, LIMIT - typed.version())))

    def pull(s, have, most, units):
        es = typed.edits[units][have : have + most]
        ask({"es": es, "from": have, "r": "edits"}, t="pull", s=s, have=have, max=most)
        return have + len(es)

    def submit(edit, *what, **asked):
        """A submission that names the version which was pulled, and what it does to the newest."""
        nonlocal n
        version = typed.version()
        edit(*what)
        ask({"from": version, "r": "ok", "to": typed.version()}, s=1, n=n, v=sent, **asked)
        n += 1

    def insert(at, text):
        submit(typed.insert, at, text, t="ins", k=place(at), x=text)

    def delete(at, size, again):
        """Deletes as many characters as have so many places (at least one), and may ask for the same once more."""
        ends = itertools.accumulate(width(char, units) for char in typed.shown[at : at + size])
        count = max(1, sum(end <= size for end in ends))
        asked = {"t": "del", "k": place(at), "c": place(at + count) - place(at)}
        submit(typed.delete, at, count, **asked)
        if again:
            submit(typed.delete_again, count, **asked)

    for s in (1, 2):
        ask({"r": "joined", "s": s, "v": 0, "x": ""}, t="join", **({"u": 16} if units == (s == 1) else {}))
    while typed.version() < 61_440:
        insert(len(typed.shown), text(64))
        sent = pull(1, sent, 64, units)
    run = {"c": [[0, 61_001]], "k": "r", "p": [61_000, 0], "s": 0, "x": "".join(typed.shown[61_000:61_064])}
    ask({"from": 61_000, "ops": [run], "r": "ops"}, t="ops", after=61_000, max=64)
    while typed.version() < LIMIT:
        what, at = dice.random(), len(typed.shown) - dice.randint(64, 128)
        if what < 0.4 and typed.version() + 256 < LIMIT:
            delete(at, next(deleted), what < 0.1)
        else:
            insert(at + dice.choice([0, 64]), text(next(put_in)))
        if what > 0.2 and dice.random() < 0.3 and typed.version() + 256 < LIMIT:  # in the same version, before that
            dice.choice([lambda: insert(at - dice.randint(0, 9), text(next(put_in))), lambda: delete(at - 64, next(deleted), False)])()
        while sent < typed.version():
            sent = pull(1, sent, next(pulled), units)
        if what > 0.98:
            ask({"r": "text", "v": sent, "x": "".join(typed.shown)}, t="read")
            end = place(len(typed.shown))
            ask(no(9), t="ins", s=1, n=n, v=sent, k=end + 1, x="a")
            ask(no(9), t="del", s=1, n=n, v=sent, k=end - 63, c=64)
            ask(no(8), t="ins", s=1, n=n, v=sent + 1, k=end, x="a")
            ask(no(22), t="pull", s=1, have=sent + 1, max=1)
            if units and typed.shown[at] > "\uffff":
                ask(no(9), t="ins", s=1, n=n, v=sent, k=place(at) + 1, x="a")
    ask(no(12), t="ins", s=1, n=n, v=sent, k=place(len(typed.shown)), x="a")
    ask(no(12), t="del", s=1, n=n, v=sent, k=0, c=1 + (units and typed.shown[0] > "\uffff"))
    for have in range(0, LIMIT, 64):
        pull(2, have, 64, not units)
    ask({"r": "joined", "s": 3, "v": LIMIT, "x": "".join(typed.shown)}, t="join")
    ask({"r": "text", "v": LIMIT, "x": "".join(typed.shown)}, t="read")
    return script


def typed_one_by_one(place):
    """A log that is typed full, each character by itself, at the place that is told for it, and pulled before the next: the lines, and
    those that are wanted."""
    given, wanted, text = ['{"t":"join"}'], ['{"r":"joined","s":1,"v":0,"x":""}'], bytearray()
    for n in range(LIMIT):
        k, char = place(n), ALPHABET[n * 7 % 26]
        text.insert(k, ord(char))
        given.append(f'{{"t":"ins","s":1,"n":{n + 1},"v":{n},"k":{k},"x":"{char}"}}\n{{"t":"pull","s":1,"have":{n},"max":64}}')
        wanted.append(f'{{"from":{n},"r":"ok","to":{n + 1}}}\n{{"es":[["i",{k},"{char}"]],"from":{n},"r":"edits"}}')
    return given + ['{"t":"read"}'], wanted + [compact({"r": "text", "v": LIMIT, "x": text.decode()})]


def forged(dice, room):
    """An operation that nobody made: of one of the sites 3 to 29, or the room's, with a number that is used, the next or a later one,
    and a deed at the head, at an element, or at what is none. Sites below 10 know of nothing, the others of all, or of something."""
    site = dice.choice([*range(3, 10)] * 3 + [*range(10, 30)] + [room.site] * 7)
    clock = [0] * SITES if site < 10 else dice.choice([clock_of(room.log), [*dice.choice(room.log + room.held).clock]])
    clock[site] = max(1, clock_of(room.log)[site] + dice.choice([0, 1, 1, 1, 2, 2, 3]))
    there = [it.stamp for it in room.log if it.kind == "i"]
    place = dice.choice([None, (dice.randint(1, 99), 30), there[-1], dice.choice(there), dice.choice(there)])
    if place and dice.random() < 0.3:
        return operation_of(site, tuple(clock), "d", place)
    return operation_of(site, tuple(clock), "i", place, dice.choice(CHARACTERS))


def altered(dice, operation):
    """Another operation with the same number: its clock counts one more of another site, or it is another insertion."""
    clock = [*operation.clock]
    clock[dice.choice([at for at in range(SITES) if at != operation.site])] += dice.randint(0, 1)
    return operation_of(operation.site, tuple(clock), "i", operation.place, dice.choice("XYZ"))


def flood(dice, room):
    """More insertions of site 30 than may wait, the first of them last; each at the head or behind one of the eight before it, but
    for the 700th, which stands behind what isn't there."""
    clock, log, there = clock_of(room.log), [], []
    for n in range(1, MOST_HELD + 20):
        clock[30] = n
        place = (1, 30) if n == 700 else dice.choice([None, *there[-8:]])
        log.append(operation_of(30, tuple(clock), "i", place, dice.choice(CHARACTERS)))
        there.append(log[-1].stamp)
    return [*log[1:], log[0]]


def handed_over(log):
    """A room of site 31, with a session of either count, is handed over a log of others, forty operations after forty: in their
    order, in the other one or in any, ten that came before once more, and twenty that were forged or altered, in puts of any size.
    It is typed in meanwhile, and asked for a part of its log and for edits. Then come more operations than may wait, before the one
    for which they wait, and at last it is asked for all. Gives the script, and which outcomes its operations had."""
    dice = random.Random(33)
    script, room, outcomes = Script(), Room(31), collections.Counter()
    ask = lambda **request: script.event(compact(request), room.answer(request))

    def hand_over(window):
        while window:
            size = dice.randint(1, 64)
            part, window = window[:size], window[size:]
            told = [room.put(operation) for operation in part]
            script.event(compact({"t": "put", "ops": [object_of(run) for run in packed(part)]}), {"os": told, "r": "put"})
            outcomes.update(it[1] if it[0] == "no" else it[0] for it in told)

    for counts in ({}, {"u": 16}):
        ask(t="join", **counts)
    have = 0
    for n, first in enumerate(range(0, len(log), 40), 1):
        ask(t="ins", s=1, n=n, v=have, k=0, x=dice.choice(CHARACTERS))
        window = log[first : first + 40]
        dice.choice([lambda: None, window.reverse, lambda: dice.shuffle(window)])()
        window += dice.sample(log[: first + 40], 10)
        for _ in range(20):
            known = room.log + room.held if first < 0.8 * len(log) else window
            fake = forged(dice, room) if dice.random() < 0.7 else altered(dice, dice.choice(known))
            window.insert(dice.randint(0, len(window)), fake)
        hand_over(window)
        ask(t="ops", after=dice.randint(0, len(room.log)), max=dice.randint(1, 64))
        for s in (1, 2):
            ask(t="pull", s=s, have=have, max=64)
        have = min(have + 64, len(room.log))
    hand_over(flood(dice, room))
    for after in range(0, len(room.log), 64):
        ask(t="ops", after=after, max=64)
    ask(t="read")
    outcomes.update(f"dropped by {why}" for why in room.dropped)
    return script, outcomes


def exchanged(count):
    """Three rooms that put in and delete so many characters in all and exchange what they have: each is asked for its log part by
    part by both others, where a part waits beside others, for as long as it happens to, and is then handed over, in its order or
    in any, and now and then once more. The rooms, and a script for each, at whose end all were handed over to all."""
    dice = random.Random(7)
    rooms = [Room(site) for site in range(3)]
    scripts = [Script() for _ in rooms]
    asked, waiting = collections.Counter(), [[] for _ in rooms]

    def ask(site, **request):
        scripts[site].event(compact(request), rooms[site].answer(request))

    def types(site):
        room = rooms[site]
        ask(site, t="join")
        asks = dict(s=room.next_session - 1, n=1, v=len(room.log))
        shown = len(places(room.log, False))
        if shown > 4 and dice.random() < 0.2:
            ask(site, t="del", k=dice.randint(0, shown - 4), c=dice.randint(1, 4), **asks)
        else:
            ask(site, t="ins", k=dice.randint(0, shown), x="".join(dice.choices(CHARACTERS, k=dice.randint(1, 12))), **asks)
        ask(site, t="leave", s=asks["s"])

    def fetch(source, target, most):
        after = asked[source, target]
        ask(source, t="ops", after=after, max=most)
        part = rooms[source].log[after : after + most]
        asked[source, target] += len(part)
        waiting[target] += [part] if part else []

    def hand_over(target):
        part = dice.choice(waiting[target])
        if dice.random() < 0.8:
            waiting[target].remove(part)
        if dice.random() < 0.5:
            part = dice.sample(part, len(part))
        request = {"t": "put", "ops": [object_of(run) for run in packed(part)]}
        scripts[target].event(compact(request), {"os": [rooms[target].put(operation) for operation in part], "r": "put"})

    pairs = [(source, target) for source in range(3) for target in range(3) if source != target]
    while sum(operation.site == room.site for room in rooms for operation in room.log) < count:
        types(dice.randrange(3))
        fetch(*dice.choice(pairs), dice.randint(1, 64))
        target = dice.randrange(3)
        if len(waiting[target]) > dice.randint(0, 8):
            hand_over(target)
    while any(waiting) or any(asked[source, target] < len(rooms[source].log) for source, target in pairs):
        for source, target in pairs:
            fetch(source, target, 64)
            if waiting[target]:
                hand_over(target)
    for site in range(3):
        ask(site, t="read")
    return rooms, scripts


def random_log(count):
    """A lawful log of so many operations of three sites, each of which mostly types behind its last character, and now and then
    hears of all that there is."""
    dice = random.Random(24)
    log, site = [], 0
    clocks, known, last = [[0] * 32 for _ in range(3)], [[] for _ in range(3)], [None] * 3
    for _ in range(count):
        if dice.random() < 0.1:
            site = dice.randrange(3)
        if log and dice.random() < 0.05:
            clocks[site] = [max(counts) for counts in zip(*(it.clock for it in log))]
            known[site] = [it.stamp for it in log if it.kind == "i"]
        clocks[site][site] += 1
        clock, what = tuple(clocks[site]), dice.random()
        if known[site] and what < 0.05:
            log.append(operation_of(site, clock, "d", dice.choice(known[site])))
            continue
        parent = dice.choice([None, *known[site]]) if what < 0.1 else last[site]
        log.append(operation_of(site, clock, "i", parent, dice.choice(CHARACTERS)))
        last[site] = log[-1].stamp
        known[site].append(last[site])
    return log
