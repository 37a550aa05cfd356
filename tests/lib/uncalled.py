#!/usr/bin/env python3
"""Which public calls of the crates the program doesn't make: those to which no chain of calls leads from its `main`. `tests/lib/uncalled.py`
prints them as the rows of docs/ARCHITECTURE.md.

Whose method is called is told by the types in the sources: of a path its own, else that of what stands before the point (a parameter, a
field, what a call returns). Where they don't tell it, a call may be to each method of that name, with as many parameters, that the crate
sees. What a trait of others asks for is called by others."""
import collections
import pathlib
import re

TOP = pathlib.Path(__file__).resolve().parents[2]
WRAPPERS = {"Arc", "Box", "Option", "Result", "Vec"}
SAME = {"as_ref", "as_mut", "clone", "ok", "ok_or", "map_err", "unwrap_or_else"}  # calls that give what they are called of
PATH = r"((?:\w+(?:::<[^>]*>)?::)*)"

Function = collections.namedtuple("Function", "crate file owner trait name is_public types returned body")


def parts(text):
    """The parts between the commas that stand in no bracket."""
    found, depth, start = [], 0, 0
    for at, char in enumerate(text):
        depth += (char in "(<[{") - (char in ")]}" or char == ">" and text[at - 1] not in "-=")
        if char == "," and depth == 0:
            found.append(text[start:at])
            start = at + 1
    return [it.strip() for it in (*found, text[start:]) if it.strip()]


def end_of(text, at):
    """Where the bracket that opens at this place closes."""
    depth = 0
    for end in range(at, len(text)):
        depth += (text[end] in "([{") - (text[end] in ")]}")
        if depth == 0:
            return end
    return len(text)


def start_of(text, at):
    """Where the bracket that closes at this place opens."""
    depth = 0
    for start in range(at, -1, -1):
        depth += (text[start] in ")]}") - (text[start] in "([{")
        if depth == 0:
            return start
    return 0


def before(text, point):
    """The paths, calls and fields that stand before a point."""
    start = point
    while start > 0:
        if text[start - 1] in ")]":
            start = start_of(text, start - 1)
        elif re.match(r"[\w?.:]", text[start - 1]):
            start -= 1
        elif text[start] == "." and text[start - 1].isspace():  # (each call of a chain on a line of its own)
            start = len(text[:start].rstrip())
        else:
            break
    return text[start:point]


def type_in(told):
    """The type that a text tells, without what lends or wraps it: of `Result<&mut [Room], Refusal>` it is `Room`."""
    found = re.match(PATH + r"(\w+)(?:<(.*)>)?\]?$", re.sub(r"^(?:[&\[]|'\w+|mut\b|dyn\b|impl\b|\s)+", "", told), re.S)
    if not found:
        return None
    return type_in(parts(found[3])[0]) if found[2] in WRAPPERS and found[3] else found[2]


class Sources:
    """The functions of the crates, and the fields of their types."""

    def __init__(self):
        self.functions, self.fields, self.named = [], {}, collections.defaultdict(list)
        lines = (TOP / "crates.txt").read_text(encoding="utf-8")
        self.stands_on = {name: lower.split() for name, lower in re.findall(r"^(\w+)(?: [^:\n]*)?:(.*)$", lines, re.M)}
        for file in sorted(TOP.glob("crates/*/src/**/*.rt")):
            self.read(file)
        for it in self.functions:
            self.named[it.name].append(it)
        self.own_traits = {it.trait for it in self.functions if it.owner == it.trait}

    def read(self, file):
        text = re.sub(r'"(?:\\.|[^"\\])*"', '""', file.read_text(encoding="utf-8"))
        text = re.sub(r"//.*|^ *ghost .*(?:\n {8,}.*)*", "", text, flags=re.M)
        for name, inside in re.findall(r"^(?:pub(?:\(crate\))? )?(?:struct|enum) (\w+)[^{;\n]*\{\n(.*?)^\}", text, re.M | re.S):
            self.fields[name] = {key: type_in(told) for key, told in re.findall(r"^ +(?:pub(?:\(crate\))? )?(\w+): (.*),$", inside, re.M)}
        heads = [(0, None, None)]
        for found in re.finditer(rf"^impl(?:<[^{{]*?>)? {PATH}(\w+)(?:<[^{{]*?>)?(?: for {PATH}(\w+))?", text, re.M):
            heads.append((found.start(), found[4] or found[2], found[4] and found[2]))
        heads += [(found.start(), found[1], found[1]) for found in re.finditer(r"^(?:pub(?:\(crate\))? )?trait (\w+)", text, re.M)]
        for found in re.finditer(r"^( *)(pub )?(?:pub\(crate\) )?(?:const )?fn (\w+)(?:<[^(]*?>)?\(", text, re.M):
            _, owner, trait = max(it for it in heads if it[0] <= found.start()) if found[1] else heads[0]
            end = end_of(text, found.end() - 1)
            behind = re.match(r"\) -> ([^{;]*?)(?=\s*(?:\{|;|\n *(?:requires|ensures|where)\b))", text[end:])
            body = re.search(rf"^{found[1]}\{{\n|(?<= )\{{\n", text[end:], re.M)
            last = re.search(rf"^{found[1]}\}}", text[end:], re.M)
            inside = text[end + body.end() : end + last.start()] if body and last and body.start() < last.start() else ""
            types = {}
            for it in parts(text[found.end() : end]):
                name, _, told = it.partition(":")
                is_self = re.fullmatch(r"&?(?:'\w+ )?(?:mut )?self", name)
                types["self" if is_self else name.removeprefix("mut ")] = owner if is_self else type_in(told.strip())
            returned = behind and type_in(behind[1].replace("Self", owner or "Self"))
            self.functions.append(Function(file.parts[len(TOP.parts) + 1], file, owner, trait, found[3], bool(found[2]), types, returned, inside))

    def below(self, crate):
        """The crates that it sees, itself among them."""
        return {crate}.union(*(self.below(it) for it in self.stands_on.get(crate, ())))

    def returned(self, owner, name):
        """What a function returns, where all of this name and owner return one type."""
        types = {it.returned for it in self.named[name] if it.owner == (owner if owner and owner[0].isupper() else None)}
        return types.pop() if len(types) == 1 else None

    def type_of(self, told, function, known):
        """The type of what is told by a path, a call or a chain of them, or None."""
        told = re.sub(r"^(?:&|\*|mut\b|\s)+", "", told)
        head = re.match(PATH + r"(\w+)", told)
        if not head:
            return None
        owner, name, at = owner_in(head[1], function), head[2], head.end()
        if told[at : at + 1] == "(":
            now, at = self.returned(owner, name), end_of(told, at) + 1
        else:
            now = known[name] if name in known else name if name in self.fields else owner
        while now and told[at:]:
            if told[at] == "[":
                at = end_of(told, at) + 1
            link = re.match(r"\??(?:\s*\.(\w+))?", told[at:])
            at += link.end()
            if not link[0]:
                return now if told[at : at + 2] in ("", " {") else None
            if link[1] and told[at : at + 1] == "(":
                now, at = now if link[1] in SAME else self.returned(now, link[1]), end_of(told, at) + 1
            elif link[1]:
                now = self.fields.get(now, {}).get(link[1])
        return now

    def known(self, function):
        """The types of what a function names, as far as they are told."""
        known = dict(function.types)
        for name, told, value in re.findall(r"\blet (?:mut )?(\w+)(?:: ([^=;]*))? = ([^;]*?)(?: else \{[^;]*)?;", function.body):
            known[name] = type_in(told) if told else self.type_of(value, function, known)
        for name, inside in re.findall(r"\blet (\w+) \{([^}]*)\} = ", function.body):
            for it in parts(inside):
                field, _, given = it.partition(":")
                known[given.strip() or field] = self.fields.get(name, {}).get(field)
        for name, told in re.findall(r"\blet (?:Some|Ok)\((?:mut )?(\w+)\) = (.*?) (?:\{|else)", function.body):
            known[name] = self.type_of(told, function, known)
        return known

    def called(self, function):
        """The functions that a function may call."""
        known, below, body = self.known(function), self.below(function.crate), function.body
        for call in re.finditer(rf"(?<![\w.]){PATH}(\w+)\b", body):
            owner = owner_in(call[1], function)
            for it in self.named[call[2]]:
                is_of_parameter = it.trait and owner and len(owner) == 1
                if is_of_parameter or (it.owner == owner or owner and it.trait == owner) and (it.trait or it.crate in below):
                    yield it
        for call in re.finditer(r"\.(\w+)(?:::<[^(]*>)?\(", body):
            owner = self.type_of(before(body, call.start()), function, known)
            count = 1 + len(parts(body[call.end() : end_of(body, call.end() - 1)]))
            for it in self.named[call[1]]:
                is_alike = it.owner == owner if owner and len(owner) > 1 else len(it.types) == count
                if is_alike and "self" in it.types and (it.trait or it.crate in below):
                    yield it


def owner_in(path, function):
    """The type that a path ends with, or None: `Self` is that of the function, and a module is none."""
    last = re.sub(r"::<[^>]*>", "", path).split("::")[-2:][0]
    return function.owner if last == "Self" else last if last[:1].isupper() else None


def exported_names():
    """The names that each crate exports."""
    exported = {}
    for file in sorted(TOP.glob("crates/*/src/lib.rt")):
        found = re.findall(r"^pub use [\w:]*::(?:(\w+)|\{([^}]*)\});", file.read_text(encoding="utf-8"), re.M)
        exported[file.parts[len(TOP.parts) + 1]] = {name for it in found for name in re.findall(r"\w+", " ".join(it))}
    return exported


def rows():
    """The rows of a table: a crate, and its public calls that the program doesn't make; at last the crates of which it makes none. A law
    is no call."""
    sources = Sources()
    is_root = lambda it: it.crate == "rgatext" and it.name == "main" or it.trait and it.trait not in sources.own_traits
    waiting, reached = [it for it in sources.functions if is_root(it)], set()
    while waiting:
        if id(one := waiting.pop()) not in reached:
            reached.add(id(one))
            waiting += sources.called(one)
    found, unused = [], []
    for crate, exported in exported_names().items():
        calls = [it for it in sources.functions if it.crate == crate and it.is_public and (it.owner or it.name) in exported and it.file.stem != "laws"]
        of_owner = collections.defaultdict(list)
        for it in sorted((it for it in calls if id(it) not in reached), key=lambda it: (it.owner or "~", it.name)):
            of_owner[it.owner].append(it.name)
        told = []
        for owner, names in of_owner.items():
            them = names if not owner else [f"{owner}::{{{', '.join(names)}}}" if names[1:] else f"{owner}::{names[0]}"]
            told += [f"`{it}`" for it in them]
        if calls and not any(id(it) in reached for it in calls):
            unused.append(crate)
        elif told:
            found.append(f"| {crate} | {', '.join(told)} |")
    return [*found, f"| {', '.join(unused)} | all |"]


if __name__ == "__main__":
    print(*rows(), sep="\n")
