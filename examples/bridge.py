#!/usr/bin/env python3
"""Keeps one room of several rgatext servers in step, by `ops` and `put` (docs/EXCHANGE.md).

    bridge.py [--merge] ws://127.0.0.1:7878 notes [redis://127.0.0.1:6379]
    bridge.py [--merge] --direct ws://127.0.0.1:7878 ws://127.0.0.1:7879 notes

The first runs beside each server: what its room has goes to a stream of the broker Redis, and what others put there comes to
the room. The second carries between two servers without a broker. The servers need different site numbers. Nothing is kept
here: a bridge may be started anew at any time, since what is there already isn't put again. Each poll is a call that the room
records, so an idle bridge polls once a second. A room that is full (12) takes no more, and what it has is carried on. It needs
the libraries `websockets` and, for the broker, `redis`.

Nothing is carried between two documents: where both have operations and none in common. So it is of a renewed room and an old stream:
delete the stream before the bridges begin (`redis-cli DEL rgatext:notes`). Where a room is renewed by hand whose log has operations of all
32 sites, the new one is of site 0, and can look like the old one's beginning. Two documents that are to become one are told by `--merge`.
"""
import collections
import json
import pathlib
import sys
import time
import urllib.parse

sys.path.insert(0, str(pathlib.Path(__file__).resolve().parent.parent / "clients" / "python"))
from client import Lost, Refused, Socket  # noqa: E402

MOST = 64  # operations of an `ops` or a `put`, a run counting as many as it has characters
MANY = 1_000  # operations that are read from a stream or put there at once
SITES = 32
OPERATIONS = 131_072  # of a room
SOON, LATE = 0.02, 1.0  # seconds between two polls
LATER = 30  # seconds before it is looked again whether two documents have become one
NOT_YET = 18  # too many wait for what hasn't come
OWN_SITE, OTHER = 16, 17  # an operation of the room's own site that its log doesn't have; another one has its number there
FULL = 12
NEVER = (19, 20, 21)  # a forged operation, or one of another life of the room
TAKEN = "has the site of another server's operations, or lost its own: start it anew, empty, with another --site, then the bridge"
MEANING = {
    4: "has no room of this name",
    13: "has recorded all the calls that its room takes: start it anew, with its text in a new room",
    OWN_SITE: TAKEN,
    OTHER: TAKEN,
}


class Said:
    """What was said on standard error, so that nothing is said again."""

    def __init__(self):
        self.hindrances, self.losses = set(), set()

    def hindered(self, what, why):
        """Tells once why nothing is carried, whatever the words, until all is in step again."""
        if what not in self.hindrances:
            print(f"{what} {why}", file=sys.stderr, flush=True)
        self.hindrances.add(what)

    def in_step(self):
        if self.hindrances:
            print("in step again", file=sys.stderr, flush=True)
        self.hindrances.clear()

    def lost(self, loss):
        """Tells once for all what isn't carried."""
        if loss not in self.losses:
            print(loss, file=sys.stderr, flush=True)
        self.losses.add(loss)


said = Said()


def unfolded(it):
    """The operations of an object: a run stands for an insertion for each of its characters, each behind the one before."""
    if it["k"] != "r":
        return [it]
    operations, clock, parent = [], dict(it["c"]), it["p"]
    for character in it["x"]:
        operations.append({"c": [list(pair) for pair in clock.items()], "k": "i", "p": parent, "s": it["s"], "x": character})
        parent = [sum(clock.values()), it["s"]]
        clock[it["s"]] += 1
    return operations


def identity(operation):
    """Its site, and its number among the operations of that site: no two operations have both."""
    return operation["s"], dict(operation["c"])[operation["s"]]


def spelled(operation):
    """The one text of an operation."""
    return json.dumps(operation, sort_keys=True)


class Room:
    """A server's room, and how much of its log was seen."""

    all = []

    def __init__(self, address, name):
        Room.all.append(self)
        self.address, self.name, self.title = address, name, f"the room {name} at {address}"
        self.socket = Socket(address, name)
        self.seen = 0
        self.known = {}  # the text of each operation that was seen, by its identity
        self.waiting = []  # what has to come again, since too many wait in the room
        self.has_more = self.is_full = False

    def stop(self, number):
        """Ends the bridge, and says why."""
        for it in Room.all:
            it.socket.close()
        sys.exit(f"{self.address} {MEANING.get(number, f'refused a request with {number}')} ({self.name})")

    def ask(self, request):
        try:
            reply = self.socket(request)
        except Lost:
            raise Lost(self.address, "is away") from None
        except Refused as why:  # of the room that is opened
            self.stop(why.number)
        if reply["r"] == "no" and reply["n"] in (25, 26):
            raise Lost(self.address, "has no memory for a request, or no call left for the connection")
        if reply["r"] == "no":
            self.stop(reply["n"])
        return reply

    def own_site(self):
        """The room's site, where it can be told: an operation of that which the log doesn't have is refused by 16. One that deletes what
        isn't there is refused for each other site, so nothing is changed."""
        counts = collections.Counter(site for site, _ in self.known)
        following = lambda site: {"c": [[site, min(counts[site] + 1, OPERATIONS)]], "k": "d", "s": site, "t": [OPERATIONS, site]}
        outcomes = self.ask({"t": "put", "ops": [following(site) for site in range(SITES)]})["os"]
        return outcomes.index(["no", OWN_SITE]) if ["no", OWN_SITE] in outcomes else None

    def news(self, pause=0):
        """The next operations of the log after a while, each by itself."""
        time.sleep(pause)
        objects = self.ask({"t": "ops", "after": self.seen, "max": MOST})["ops"]
        operations = [operation for it in objects for operation in unfolded(it)]
        self.seen += len(operations)
        self.has_more = len(operations) == MOST
        self.known.update((identity(it), spelled(it)) for it in operations)
        return operations

    def put(self, operations):
        """Puts what the room lacks there, behind some of what has to come again."""
        lacking, self.waiting = self.waiting[:MOST], self.waiting[MOST:]
        for it in operations:
            if identity(it) not in self.known:
                lacking.append(it)
            elif self.known[identity(it)] != spelled(it):
                self.stop(OTHER)
        for at in range(0, len(lacking), MOST):
            self.put_part(lacking[at : at + MOST])

    def put_part(self, operations):
        """Puts operations, at most 64."""
        if self.is_full:
            return
        outcomes = self.ask({"t": "put", "ops": operations})["os"]
        for operation, (outcome, *numbers) in zip(operations, outcomes):
            if outcome != "no":
                continue
            if numbers[0] == FULL:
                self.is_full, self.waiting = True, []
                return said.lost(f"{self.title} is full: nothing more is carried to it")
            if numbers[0] == NOT_YET:
                self.waiting.append(operation)
            elif numbers[0] in NEVER:
                said.lost(f"left out, refused {numbers[0]}: {json.dumps(operation)}")
            else:
                self.stop(numbers[0])

    def begin(self, operation):
        """Begins an empty room with another one's first operation."""
        self.put([operation])


class Stream:
    """The room's stream at the broker, read from its beginning. Of two operations with one identity the first counts."""

    waiting = ()

    def __init__(self, url, name):
        try:
            import redis
        except ImportError:
            sys.exit("the library redis isn't there: apt-get install python3-redis")
        try:
            self.broker = redis.Redis.from_url(url)
        except ValueError as why:
            sys.exit(f"{url} is no address of a broker, as redis://HOST:PORT is: {why}")
        self.key = f"rgatext:{name}"
        self.title = f"the broker's stream {self.key}"
        self.run = self.run_id()
        self.first, self.last = [], b"0-0"  # its first entry, once it is read, and the number of the last one that was read
        self.known = {}  # the text of each operation that was read, by its identity
        self.has_more = False

    def run_id(self):
        return self.broker.info("server")["run_id"]

    def own_site(self):
        """None: nothing is typed there."""

    def check(self):
        """A broker that was started anew may have lost what it had, and a stream that was deleted is another one."""
        if self.run_id() != self.run or self.first and self.broker.xrange(self.key, count=1) != self.first:
            raise Lost("the broker", "was started anew, or lost its stream")

    def news(self, pause=0):
        """The next operations that weren't read before, waiting a little where there are none."""
        found = self.broker.xread({self.key: self.last}, count=MANY, block=int(1000 * pause) or None)
        entries = found[0][1] if found else []
        if entries:
            self.first, self.last = self.first or entries[:1], entries[-1][0]
        self.has_more = len(entries) == MANY
        self.check()
        operations = []
        for _, fields in entries:
            operation = json.loads(fields[b"op"])
            if identity(operation) not in self.known:
                self.known[identity(operation)] = spelled(operation)
                operations.append(operation)
            elif self.known[identity(operation)] != spelled(operation):
                said.lost(f"left out: two servers put operations of site {operation['s']} to {self.title}")
        return operations

    def put(self, operations):
        """Puts what it lacks there, many at once."""
        lacking = [it for it in operations if identity(it) not in self.known]
        for at in range(0, len(lacking), MANY):
            self.check()
            sent = self.broker.pipeline(transaction=False)
            for it in lacking[at : at + MANY]:
                sent.xadd(self.key, {"op": json.dumps(it)})
            sent.execute()

    def begin(self, operation):
        """Begins an empty stream with a room's first operation. Of several bridges one does."""

        def put_alone(sent):
            count = sent.xlen(self.key)
            sent.multi()
            if count == 0:
                sent.xadd(self.key, {"op": json.dumps(operation)})

        self.broker.transaction(put_alone, self.key)


class Leave:
    """Whether two documents may become one: where it is told, or one of them was empty as both were in step last, so that it was typed
    since."""

    def __init__(self, is_told=False):
        self.is_told, self.was_empty = is_told, False


def hindrance(here, there, leave):
    """Why nothing may be carried: what both have in common differs, or there is nothing in common and both have operations. Where only some
    of it differs two servers of one document have one site."""
    common = here.known.keys() & there.known.keys()
    differing = {it for it in common if here.known[it] != there.known[it]}
    is_site_left = len({site for site, _ in here.known.keys() | there.known.keys()}) < SITES
    if differing and differing != common and is_site_left:
        here.stop(OTHER)
    if differing:
        mending = "begin one of them anew, empty and with another --site, or delete an old stream"
        return f"two documents, and both have operations of site {min(differing)[0]}: nothing is carried ({mending})"
    if here.known and there.known and not (common or leave.is_told or leave.was_empty):
        return "two documents: nothing is carried (--merge makes one of them)"
    return None


def begin_together(here, there, leave):
    """Reads both to their ends, and what comes while they are two documents, and carries what either lacks."""
    from_here, from_there, is_one = [], [], False
    while not is_one:
        from_there += there.news()
        from_here += here.news()
        if there.has_more or here.has_more:
            continue
        if (site := there.own_site()) is not None and site == here.own_site():
            here.stop(OWN_SITE)
        if why := hindrance(here, there, leave):
            said.hindered(f"{here.title} and {there.title}", f"are {why}")
            time.sleep(LATER)
        elif from_here and not from_there:
            there.begin(from_here[0])  # another bridge may have been first: look again
        else:
            is_one = True
    here.put(from_there)
    there.put(from_here)


def keep_in_step(here, there, leave):
    """Carries both ways, from the beginning."""
    begin_together(here, there, leave)
    pause = SOON
    while True:
        from_there = there.news(pause)
        here.put(from_there)
        if there.has_more:
            continue  # first what is there, or it would be put there twice
        from_here = here.news()
        there.put(from_here)
        if not (here.has_more or here.waiting or there.waiting):
            leave.was_empty = not (here.known and there.known)
            said.in_step()
        pause = SOON if from_there or from_here else min(2 * pause, LATE)


def check_address(address):
    """Ends the bridge where this is no address of a server."""
    try:
        parts = urllib.parse.urlsplit(address)
        if parts.scheme in ("ws", "wss") and parts.hostname and parts.port != 0:
            return
    except ValueError:
        pass
    sys.exit(f"{address} is no address of a server, as ws://HOST:PORT is")


def main():
    words = [it for it in sys.argv[1:] if it != "--merge"]
    leave = Leave(is_told=len(words) < len(sys.argv[1:]))
    if words[:1] == ["--direct"] and len(words) == 4:
        servers = words[1:3]
        run = lambda: keep_in_step(Room(servers[1], words[3]), Room(servers[0], words[3]), leave)
    elif len(words) in (2, 3) and not words[0].startswith("-"):
        servers, url = words[:1], words[2] if len(words) == 3 else "redis://127.0.0.1:6379"
        run = lambda: keep_in_step(Room(words[0], words[1]), Stream(url, words[1]), leave)
    else:
        sys.exit(__doc__)
    for it in servers:
        check_address(it)
    while True:  # from the beginning, whenever a server or the broker was away
        try:
            run()
        except ImportError as why:
            sys.exit(f"the library {why.name} isn't there: apt-get install python3-{why.name}")
        except Lost as why:
            said.hindered(*why.args)
        except OSError as why:
            said.hindered("the bridge", f"can't go on: {why}")
        except Exception as why:  # redis.ConnectionError is no OSError
            if type(why).__module__.split(".")[0] != "redis":
                raise
            said.hindered("the broker", f"is away: {why}")
        for it in Room.all:
            it.socket.close()
        Room.all.clear()
        time.sleep(LATE)


if __name__ == "__main__":
    main()
