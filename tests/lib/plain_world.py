"""A world by its definitions, in plain Python, for tests: what rooms of several sites answer to the events of a script,
and what they read at last.

Each answer is computed anew from the list of a room's operations: the order of the elements is the preorder of the tree
of insertions, a version is a beginning of the log, an edit is where the element stands before or after its operation.
Nothing is kept beside the log, what waits, and the sessions. The rules are those of docs/PROTOCOL.md,
docs/EXCHANGE.md and docs/SCRIPTS.md; the tree is that of Attiya and others (2016)."""
import bisect
import collections

SITES, LIMIT, MOST_HELD, MOST_SESSIONS = 32, 131_072, 1_024, 64
LONGEST_RUN = 64

# A clock has a count for each site. An insertion has a parent (None: the head) and a character, a deletion a target.
Operation = collections.namedtuple("Operation", "site clock kind place char stamp number")
Session = collections.namedtuple("Session", "first sent last kept units")


def operation_of(site, clock, kind, place, char=None):
    return Operation(site, clock, kind, place, char, (sum(clock), site), (site, clock[site]))


def elements(operations):
    """The insertions in their one order: the children of each parent by falling stamp, each followed at once by its own."""
    children = collections.defaultdict(list)
    for operation in operations:
        if operation.kind == "i":
            children[operation.place].append((operation.stamp, operation.char))
    for of_one_parent in children.values():
        of_one_parent.sort()
    order, waiting = [], list(children[None])
    while waiting:
        order.append(waiting.pop())
        waiting += children.get(order[-1][0], ())
    return order


def visible(operations):
    """The elements that aren't deleted."""
    deleted = {operation.place for operation in operations if operation.kind == "d"}
    return [element for element in elements(operations) if element[0] not in deleted]


def reading(operations):
    return "".join(char for _, char in visible(operations))


def width(char, units):
    """How many places a character takes: one, or as many as it has UTF-16 units."""
    return len(char.encode("utf-16-le")) // 2 if units else 1


def places(operations, units):
    """The visible elements as their places are counted: each once, or once for each of its UTF-16 units."""
    return [element for element in visible(operations) for _ in range(width(element[1], units))]


def is_inside(shown, k):
    """Whether a place stands between two units of one character."""
    return 0 < k < len(shown) and shown[k - 1] == shown[k]


def edit(log, i, units):
    """What operation i of a log does to its reading."""
    stamps = lambda version: [element[0] for element in places(log[:version], units)]
    if log[i].kind == "i":
        return ["i", stamps(i + 1).index(log[i].stamp), log[i].char]
    before = stamps(i)
    if log[i].place not in before:
        return ["n"]
    return ["d", before.index(log[i].place)] + ([before.count(log[i].place)] if units else [])


def edits_in_one_order(logs, units):
    """What each operation of each log does, by the strong list: each version of a log shows the elements that it has and doesn't
    delete in one order, that of the elements of all logs together."""
    union = set().union(*logs)
    assert len({operation.number for operation in union}) == len(union), "two operations have one number"
    rank = {stamp: at for at, (stamp, _) in enumerate(elements(union))}
    assert len(rank) == sum(operation.kind == "i" for operation in union), "an element isn't there, or stands twice"

    def edits(log):
        shown = []  # the ranks of what a version shows, rising: each once, or once for each of its units
        for operation in log:
            own = rank[operation.stamp if operation.kind == "i" else operation.place]
            at, end = bisect.bisect_left(shown, own), bisect.bisect_right(shown, own)
            if operation.kind == "i":
                shown[at:end] = [own] * width(operation.char, units)
                yield ["i", at, operation.char]
            else:
                del shown[at:end]
                yield ["n"] if at == end else ["d", at] + ([end - at] if units else [])

    return [list(edits(log)) for log in logs]


def clock_of(log):
    counts = collections.Counter(operation.site for operation in log)
    return [counts[site] for site in range(SITES)]


def is_ready(clock, operation):
    """Whether it is its site's next, and all that its clock counts is there."""
    own = operation.site
    return operation.clock[own] == clock[own] + 1 and all(operation.clock[at] <= clock[at] for at in range(SITES) if at != own)


def refusal(log, operation):
    """Why an operation that is ready may not follow the log, or None."""
    there = {other.stamp for other in log if other.kind == "i"}
    if any(other.site == operation.site and other.stamp >= operation.stamp for other in log):
        return 19
    if operation.place not in there and (operation.kind == "d" or operation.place is not None):
        return 20
    if operation.kind == "i" and operation.place is not None and operation.place >= operation.stamp:
        return 21
    return None


def follows(operation, before):
    """Whether it is the insertion that the site of the one before makes next, directly behind that one's element."""
    clock = [count + (site == before.site) for site, count in enumerate(before.clock)]
    next_one = operation_of(before.site, tuple(clock), "i", before.stamp, operation.char)
    return before.kind == "i" and operation == next_one


def packed(operations):
    """Operations as lists, from the left: each joins the list before it where it follows its last one and there is room."""
    runs = []
    for operation in operations:
        if runs and len(runs[-1]) < LONGEST_RUN and follows(operation, runs[-1][-1]):
            runs[-1].append(operation)
        else:
            runs.append([operation])
    return runs


def object_of(run):
    """An operation, or a run of insertions, as replies have it."""
    first = run[0]
    clock = [[site, count] for site, count in enumerate(first.clock) if count]
    where = list(first.place) if first.place else None
    if first.kind == "i":
        text = "".join(operation.char for operation in run)
        return {"c": clock, "k": "i" if len(run) == 1 else "r", "p": where, "s": first.site, "x": text}
    return {"c": clock, "k": "d", "s": first.site, "t": where}


class Room:
    """A site's log, what it holds back, and its sessions. And why operations that waited were dropped."""

    def __init__(self, site, log=()):
        self.site, self.log, self.held, self.dropped = site, list(log), [], []
        self.sessions, self.next_session = {}, 1

    def answer(self, request):
        try:
            return getattr(self, "answer_" + request["t"])(**{key: request[key] for key in request if key != "t"})
        except Refused as why:
            return no(why.number)

    def answer_join(self, **counts):
        if counts not in ({}, {"u": 16}):
            raise Refused(2)
        if len(self.sessions) == MOST_SESSIONS:
            raise Refused(6)
        version = len(self.log)
        self.sessions[self.next_session] = Session(version, version, 0, None, "u" in counts)
        self.next_session += 1
        return {"r": "joined", "s": self.next_session - 1, "v": version, "x": reading(self.log)}

    def answer_read(self):
        return {"r": "text", "v": len(self.log), "x": reading(self.log)}

    def answer_leave(self, s):
        self.session(s)
        del self.sessions[s]
        return {"r": "left"}

    def answer_ops(self, after, max):
        if after > len(self.log) or not 1 <= max <= 64:
            raise Refused(23)
        return {"from": after, "ops": [object_of(run) for run in packed(self.log[after : after + max])], "r": "ops"}

    def answer_pull(self, s, have, max):
        session = self.session(s)
        if not 1 <= max <= 64:
            raise Refused(11)
        if not session.first <= have <= session.sent:
            raise Refused(22)
        end = min(have + max, len(self.log))
        if end > session.sent:
            self.sessions[s] = session._replace(sent=end)
        return {"es": [edit(self.log, i, session.units) for i in range(have, end)], "from": have, "r": "edits"}

    def answer_ins(self, s, n, v, k, x):
        def asked():
            if not 1 <= len(x) <= 64:
                raise Refused(10)
            shown = places(self.log[:v], self.session(s).units)
            if k > len(shown) or is_inside(shown, k):
                raise Refused(9)
            parent = shown[k - 1][0] if k else None
            for clock, char in zip(self.clocks(len(x)), x):
                yield operation_of(self.site, clock, "i", parent, char)
                parent = (sum(clock), self.site)

        return self.submitted(s, n, v, asked())

    def answer_del(self, s, n, v, k, c):
        def asked():
            if not 1 <= c <= 64:
                raise Refused(11)
            shown = places(self.log[:v], self.session(s).units)
            if k + c > len(shown) or is_inside(shown, k) or is_inside(shown, k + c):
                raise Refused(9)
            targets = dict.fromkeys(shown[k : k + c])
            for clock, element in zip(self.clocks(len(targets)), targets):
                yield operation_of(self.site, clock, "d", element[0])

        return self.submitted(s, n, v, asked())

    def session(self, s):
        if s not in self.sessions:
            raise Refused(5)
        return self.sessions[s]

    def clocks(self, count):
        """The clocks of the site's next operations."""
        clock = clock_of(self.log)
        for _ in range(count):
            clock[self.site] += 1
            yield tuple(clock)

    def submitted(self, s, n, v, asked):
        session = self.session(s)
        if n == session.last >= 1:
            return session.kept
        if n != session.last + 1:
            raise Refused(7)
        if not session.first <= v <= session.sent:
            raise Refused(8)
        more = list(asked)
        version = len(self.log)
        if version + len(more) > LIMIT:
            raise Refused(12)
        self.log += more
        kept = {"from": version, "r": "ok", "to": len(self.log)}
        self.sessions[s] = session._replace(last=n, kept=kept)
        return kept

    def put(self, operation):
        """The answer to a put of one operation: what is ready is taken, and then what waited for it; what isn't, waits."""
        clock = clock_of(self.log)
        if operation.site == self.site and operation.clock[self.site] > clock[self.site]:
            return ["no", 16]
        for other in self.log + self.held:
            if other.number == operation.number:
                return ["again"] if other == operation else ["no", 17]
        if not is_ready(clock, operation):
            if len(self.held) == MOST_HELD:
                return ["no", 18]
            self.held.append(operation)
            return ["kept"]
        if len(self.log) == LIMIT:
            return ["no", 12]
        why = refusal(self.log, operation)
        if why:
            return ["no", why]
        self.log.append(operation)
        return ["took", *self.settle()]

    def settle(self):
        """How many were taken, the first one included, and how many dropped."""
        taken, dropped = 1, []
        while len(self.log) < LIMIT:
            clock = clock_of(self.log)
            ready = next((at for at, operation in enumerate(self.held) if is_ready(clock, operation)), None)
            if ready is None:
                break
            operation = self.held.pop(ready)
            why = refusal(self.log, operation)
            if why:
                dropped.append(why)
            else:
                self.log.append(operation)
                taken += 1
        self.dropped += dropped
        return taken, len(dropped)


class Refused(Exception):
    """A request that is refused by this number."""

    def __init__(self, why):
        self.number = why


def no(why):
    """The reply of a request that is refused by this number."""
    return {"n": why, "r": "no"}


class World:
    """Rooms of several sites."""

    def __init__(self, sites):
        self.rooms = {site: Room(site) for site in range(sites)}

    def call(self, site, request):
        if site not in self.rooms:
            return no(4)
        return self.rooms[site].answer(request)

    def carry(self, source, n, target):
        if source not in self.rooms or target not in self.rooms:
            return no(4)
        if n >= len(self.rooms[source].log):
            return no(23)
        return {"os": [self.rooms[target].put(self.rooms[source].log[n])], "r": "put"}

    def fork(self, new, source, n):
        if new in self.rooms:
            return no(27)
        if source not in self.rooms:
            return no(4)
        if n > len(self.rooms[source].log):
            return no(23)
        self.rooms[new] = Room(new, self.rooms[source].log[:n])
        return {"r": "forked"}

    def readings(self):
        """What is told of each site at the end: its number, its version and its text."""
        return [(site, len(self.rooms[site].log), reading(self.rooms[site].log)) for site in sorted(self.rooms)]
