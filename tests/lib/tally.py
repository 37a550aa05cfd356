"""What editors typed and took out, each character known by itself, beside the text that is there at the end."""
import collections

WORDS = "the room keeps what people type and nothing of it is lost when a server comes back after a while "


class Tally:
    """Of typing with no character twice. An undone step may put a character in again."""

    def __init__(self):
        self.owner = {}  # character -> who typed it
        self.touched = collections.defaultdict(list)  # character -> who took it out or put it in again, and which
        self.chains = []  # characters that were seen one behind another, where one typed

    def note(self, who, put, taken, left, right, undone=False):
        for it in taken:
            self.touched[it].append((who, "taken"))
        for it in put:
            if it in self.owner:
                self.touched[it].append((who, "put"))
            self.owner.setdefault(it, who)
        if put and not undone:
            self.chains.append([it for it in (left, *put, right) if it])

    @property
    def typed(self):
        return len(self.owner)

    def judge(self, text):
        """Lists of the characters that are wrong in a text, each by what is wrong. `displaced` has those that stand otherwise beside
        another's, which two may have typed at once; `unclear` is no fault: of those two took out or put in again, or they stand twice
        where another than who typed them put them in again by undoing, so that they are two people's text."""
        count = collections.Counter(text)
        wrong = {it: [] for it in ("lost", "doubled", "come back", "out of order", "displaced", "unclear")}
        for it in self.owner:
            touched = self.touched[it]
            is_taken = bool(touched) and touched[-1][1] == "taken"
            again = {who for who, what in touched if what == "put"}
            if again and len({who for who, _ in touched}) > 1:
                wrong["unclear"].append(it)
            elif count[it] > 1:
                wrong["unclear" if again - {self.owner[it]} else "doubled"].append(it)
            elif count[it] and is_taken:
                wrong["come back"].append(it)
            elif not count[it] and not is_taken:
                wrong["lost"].append(it)
        wrong["doubled"] += [it for it in count if it not in self.owner]  # nobody typed it
        place = {it: at for at, it in enumerate(text)}
        for chain in self.chains:
            there = [it for it in chain if count[it] == 1 and not any(what == "put" for _, what in self.touched[it])]
            for one, other in zip(there, there[1:]):
                if place[one] > place[other]:
                    wrong["out of order" if self.owner[one] == self.owner[other] else "displaced"].append(other)
        return wrong


class WordTally:
    """Of typing by words, whose letters are alike: who takes some out takes his own."""

    def __init__(self):
        self.put, self.taken, self.typed = collections.Counter(), collections.Counter(), 0

    def note(self, who, put, taken, left, right, undone=False):
        self.put.update(put)
        self.taken.update(taken)
        self.typed += len(put)

    def judge(self, text):
        wanted, count = self.put - self.taken, collections.Counter(text)
        return {"lost": list((wanted - count).elements()), "doubled": list((count - wanted).elements())}


def words(count, dice):
    """So many ordinary words, which dice choose."""
    return " ".join(dice.choice(WORDS.split()) for _ in range(count)) + " "


def uniques(who, of, count):
    """So many characters for one of some people, each of which is nobody else's and stands once."""
    return "".join(unique(who + of * at) for at in range(count))


def unique(number):
    """The character of a number: every fifth is a pair of UTF-16 units."""
    part, rest = divmod(number, 5)
    if rest == 4:
        return chr(0x20000 + part)
    at = 4 * part + rest
    return chr(0x3400 + at if at < 27_000 else 0xAC00 + at - 27_000 if at < 38_000 else 0xF0000 + at - 38_000)
