"""Scripts of requests of each kind and length: in turns, by arithmetic, and in each way in which they may be spelled, answered by the
plain world."""
import itertools
import json

from long_scripts import Script, compact
from plain_world import SITES, Room, no, object_of, operation_of


def turns_of_all_lengths():
    """64 sessions, of both counts in turn, take turns at version after version, by arithmetic: each joins, and puts in, pulls, deletes and
    pulls as many characters as its number, is told what it put in, and reads; then as many letters of site 1 are handed over. The
    last one leaves. The keys stand in the order of the page."""
    script, version, letters = Script(), 0, 0
    ask = lambda reply, **request: script.event(json.dumps(request, separators=(",", ":"), ensure_ascii=False), reply)
    run = lambda clock, place, site, text: {"c": clock, "k": "r" if len(text) > 1 else "i", "p": place, "s": site, "x": text}
    for s in range(1, 65):
        units, typed, erased = s % 2 == 0, version + s, version + 2 * s
        ask({"r": "joined", "s": s, "v": version, "x": "x" * letters}, t="join", **({"u": 16} if units else {}))
        ask({"from": version, "r": "ok", "to": typed}, t="ins", s=s, n=1, v=version, k=0, x="\u00e9" * s)
        ask({"es": [["i", at, "\u00e9"] for at in range(s)], "from": version, "r": "edits"}, t="pull", s=s, have=version, max=s)
        ask({"from": typed, "r": "ok", "to": erased}, t="del", s=s, n=2, v=typed, k=0, c=s)
        ask({"es": [["d", 0, 1] if units else ["d", 0]] * s, "from": typed, "r": "edits"}, t="pull", s=s, have=typed, max=s)
        clock = [[0, version - letters + 1]] + ([[1, letters]] if letters else [])
        ask({"from": version, "ops": [run(clock, None, 0, "\u00e9" * s)], "r": "ops"}, t="ops", after=version, max=s)
        ask({"r": "text", "v": erased, "x": "x" * letters}, t="read")
        behind = [letters, 1] if letters else None
        ask({"os": [["took", 1, 0]] * s, "r": "put"}, t="put", ops=[run([[1, letters + 1]], behind, 1, "x" * s)])
        version, letters = erased + s, letters + s
    ask({"r": "left"}, t="leave", s=64)
    return script


def spelled(request):
    """The ways in which an object may be spelled: as on the page, the other way round with spaces, and with a key so often that nine
    members or more are there, of which the last stands."""
    members = [f"{json.dumps(key)}:{json.dumps(value, separators=(',', ':'), ensure_ascii=False)}" for key, value in request.items()]
    return ["{%s}" % ",".join(members), "{%s}" % " ,\t".join(reversed(members)), "{%s}" % ",".join(['"t":"dance"'] * 8 + members)]


def spelled_requests():
    """Requests of each kind, with texts of every length and as many operations as a put may have, each in the ways in which it may be
    spelled, the later ones with numbers of their own. A text that is too long is refused, as long as a request may be; what was put in
    and handed over is asked for."""
    script, room, letters = Script(), Room(0), []
    ask = lambda line, request: script.event(line, room.answer(request))

    def each(**request):
        for line in spelled(request):
            ask(line, request)

    for _ in range(4):
        each(t="join")
    each(t="join", u=16)
    for s in (13, 14, 15, 15, 14, 13):
        request = {"t": "leave", "s": s}
        ask(spelled(request)[s - 13], request)
    sizes = [("\u00e9", size) for size in (200, *range(67))] + [(char, size) for char in "a\U0001f600" for size in (64, 65, 66)]
    for char, size in [*sizes, ("a", 65_000), ("\U0001f600", 16_000)]:
        for way in range(3):
            request = {"t": "ins", "s": 9, "n": room.sessions[9].last + 1, "v": 0, "k": 0, "x": char * size}
            first = len(room.log)
            ask(spelled(request)[way], request)
            if len(room.log) > first:
                ask(compact(request := {"t": "ops", "after": first, "max": 64}), request)
    for size in range(1, 65):
        for way, is_run in itertools.product(range(3), (False, True)):
            first, own = len(room.log), len(letters)
            for number in range(own + 1, own + size + 1):
                clock = tuple(number * (site == 20) for site in range(SITES))
                letters.append(operation_of(20, clock, "i", letters[-1].stamp if letters else None, "\u00e9"))
            part = letters[own:]
            objects = [object_of(part)] if is_run else [object_of([it]) for it in part]
            room.log += part  # (each is ready: what a put does is tried elsewhere)
            script.event(spelled({"t": "put", "ops": objects})[way], {"os": [["took", 1, 0]] * size, "r": "put"})
            ask(compact(request := {"t": "ops", "after": first, "max": size}), request)
    each(t="ops", after=len(room.log) - 37, max=64)
    each(t="pull", s=12, have=0, max=1)
    each(t="pull", s=2 ** 32 - 1, have=70_000, max=0)
    each(t="del", s=12, n=3, v=100_000, k=2 ** 32 - 1, c=37)
    each(t="del", s=12, n=1, v=1, k=0, c=1)
    for way in range(3):
        ask(compact(request := {"t": "pull", "s": 12, "have": room.sessions[12].sent, "max": 64}), request)
        for kind in ({"t": "ins", "k": way + 3, "x": "\u00e9" * (way + 2)}, {"t": "del", "k": way + 5, "c": way + 2}):
            request = {"t": "", "s": 12, "n": room.sessions[12].last + 1, "v": room.sessions[12].sent, **kind}
            ask(spelled(request)[way], request)
    each(t="read")
    for line, why in (
        ("", 1),
        (r'{"t":"ins","s":9,"n":2,"v":70000,"k":5,"x":"\ud83d"}', 1),
        ("[]", 2),
        ('{"t":"del","s":12,"n":3,"v":100000,"k":4294967296,"c":37}', 2),
        ('{"t":""}', 3),
        ('{"t":"dance","ops":[{"c":[[20,1]]}]}', 3),
        ('{"t":"put","ops":[{"c":[[32,1]],"k":"i","p":null,"s":32,"x":"a"}]}', 14),
        ('{"t":"put","ops":[{"c":[[1,0]],"k":"i","p":null,"s":1,"x":"a"}]}', 15),
        ("\u00e9" * 32_769, 29),
    ):
        script.event(line, no(why))
    return script
