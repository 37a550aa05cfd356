"""Inputs for `rgatext lines`, always the same: each is a join and then requests whose versions and places are known
beforehand, since all of them insert."""
import json
import random

LETTERS = "abcdefghijklmnopqrstuvwxyz     "
PAIRS = "\U0001f600\U00010000\U0010ffff"  # each of two UTF-16 units


def request(**fields):
    return json.dumps(fields, separators=(",", ":"))


def one_editor(count, place, length, chars=LETTERS, **counts):
    """An editor that inserts until `count` characters stand, and pulls each insertion at once."""
    dice = random.Random(1)
    width = 2 if counts and chars is PAIRS else 1
    lines, version, number = [request(t="join", **counts)], 0, 1
    while version < count:
        size = min(length(dice), count - version)
        text = "".join(dice.choices(chars, k=size))
        lines.append(request(t="ins", s=1, n=number, v=version, k=width * place(dice, version), x=text))
        lines.append(request(t="pull", s=1, have=version, max=64))
        version += size
        number += 1
    return lines


def typing(count):
    """One character after the other, each behind the one before it."""
    return one_editor(count, lambda dice, version: version, lambda dice: 1)


def places(count, chars=LETTERS, **counts):
    """One character at a time, at random places, which are counted in UTF-16 units with u=16."""
    return one_editor(count, lambda dice, version: dice.randint(0, version), lambda dice: 1, chars, **counts)


def runs(count):
    """Runs of 1 to 64 characters, at random places."""
    return one_editor(count, lambda dice, version: dice.randint(0, version), lambda dice: dice.randint(1, 64))


def editors(count):
    """Three editors that insert single characters at random places of the version they have, and pull when they are some
    hundred versions behind, at most 500."""
    dice = random.Random(1)
    lines = [request(t="join")] * 3
    have, numbers = [0, 0, 0], [1, 1, 1]
    for version in range(count):
        who = dice.randrange(3)
        place, text = dice.randint(0, have[who]), dice.choice(LETTERS)
        lines.append(request(t="ins", s=who + 1, n=numbers[who], v=have[who], k=place, x=text))
        numbers[who] += 1
        for other in range(3):
            behind = version + 1 - have[other]
            if behind >= 500 or (behind >= 100 and dice.random() < 0.01):
                while have[other] <= version:
                    lines.append(request(t="pull", s=other + 1, have=have[other], max=64))
                    have[other] = min(have[other] + 64, version + 1)
    return lines


def reads(deletions, count):
    """Runs of 64 at random places, 69,760 characters in all, of which so many times 64 are then deleted, each deletion pulled at
    once, and then so many reads."""
    lines = one_editor(69_760, lambda dice, version: dice.randint(0, version), lambda dice: 64)
    dice = random.Random(2)
    for done in range(0, 64 * deletions, 64):
        place = dice.randint(0, 69_760 - done - 64)
        lines.append(request(t="del", s=1, n=1_091 + done // 64, v=69_760 + done, k=place, c=64))
        lines.append(request(t="pull", s=1, have=69_760 + done, max=64))
    return lines + [request(t="read")] * count


INPUTS = {"typing": typing, "places": places, "runs": runs, "editors": editors}
