"""The definitions that the promises of docs/PROMISES.md rest on, each behind those that it uses."""
import functools
import pathlib
import re
import sys

TOP = pathlib.Path(__file__).resolve().parents[2]
PROMISES, BELIEVE = TOP / "docs/PROMISES.md", TOP / "docs/BELIEVE.md"
NAME = r"[^\W\d][\w'\-]*"
TABLE = "| | Promise | Lines | Files | Crates |\n|---|---|---|---|---|\n"
HEAD = """# The definitions of promise 1

All that must be believed for [editors converge](PROMISES.md#1-editors-converge), each behind what it uses: made by `bin/believe --write`, and held by the gate. [How to read a clause](PROMISES.md#how-to-read-a-clause) tells the signs. What isn't here is of the kit: numbers, lists, options.

"""


class Definition:
    """Lines of a file, and the definitions that they use: `uses` are such, or None where the kit has them."""

    def __init__(self, file, first, lines):
        self.file, self.first, self.lines = file, first, lines
        self.code = "\n".join(it for it in lines if not it.lstrip().startswith(("--", "///", "//")))


def blocks(lines):
    """Each run of lines without an empty one: the number of its first, and itself."""
    start = 0
    for at, line in enumerate([*lines, ""]):
        if not line.strip():
            if at > start:
                yield start, lines[start:at]
            start = at + 1


@functools.cache
def specs(module):
    """The definitions of a module of definitions by name, and what it imports: of each name the module and the name there."""
    file = TOP / "crates" / module[0] / "specs" / ("/".join(module[1:]) + ".antt")
    found, imported = {}, {}
    for first, lines in blocks(file.read_text(encoding="utf-8").splitlines()):
        for line in lines:
            if cited := re.fullmatch(r"(?:pub )?use Rattle\.(\w+)\.specs\.([\w.]+?)(?:\.\{(.*)\})?(?: as (\w+))?", line):
                of = (cited[1], *cited[2].split("."))
                for it in (cited[3] or "").split(", "):
                    there, _, here = it.partition(" as ")
                    imported[here or there] = (of, there)
            elif named := re.match(rf"(?:abbrev |unfoldable )?(?:pub )?(?:abbrev |record |data )*({NAME})\s*[:({{]", line):
                if not re.match(r"\s|--|use |pub (?:use|mod) ", line):
                    found.setdefault(named[1], Definition(file, first, lines))
    return found, imported


@functools.cache
def declared(crate, *path):
    """A type or a constant of a source file, with what is told of it."""
    *path, name = path
    file = TOP / "crates" / crate / "src" / ("/".join(path) + ".rt")
    lines = file.read_text(encoding="utf-8").splitlines()
    at = next((n for n, it in enumerate(lines) if re.match(rf"pub (?:enum|struct|const) {name}\b", it)), None)
    if at is None:
        return None
    end = at if lines[at].endswith(";") else next(n for n in range(at, len(lines)) if lines[n] == "}")
    while at and lines[at - 1].startswith(("///", "#[")):
        at -= 1
    return Definition(file, at, lines[at : end + 1])


def definition(module, name):
    """The one with this name, and the module that it stands in; None where it is the kit's or a type's part."""
    if not (TOP / "crates" / module[0]).is_dir():
        return None
    if "declared" in module:
        path = [it for it in module[2:] if it not in ("TheVariants", "TheConstants")]
        it = declared(module[0], *path, *[name] * ("TheConstants" in module))
        return it and (it, None)
    found, imported = specs(module)
    if name in found:
        return found[name], module
    return definition(*imported[name]) if name in imported else None


def uses(it, module):
    """The definitions that one of a module uses."""
    for word in dict.fromkeys(re.findall(NAME, it.code)) if module else ():
        if (used := definition(module, word)) and used[0] is not it:
            yield used


def reached(roots):
    """All definitions that some rest on, by file: files behind those that they use, and in each the definitions in their order."""
    seen, order = {}, []

    def visit(it, module):
        if it in seen:
            return
        seen[it] = set()
        for used in uses(it, module):
            seen[it].add(used[0].file)
            visit(*used)

    for root in roots:
        visit(*root)
    below = {}
    for it, files in seen.items():
        below.setdefault(it.file, {}).update(dict.fromkeys(sorted(files - {it.file})))

    def put(file, above):
        if file in order or file in above:
            return
        for it in below.get(file, ()):
            put(it, {*above, file})
        order.append(file)

    for root, _ in roots:
        put(root.file, set())
    return {file: sorted((it for it in seen if it.file == file), key=lambda it: it.first) for file in order}


def promises():
    """Of each promise its number, its heading, and the definitions that its page names."""
    text = PROMISES.read_text(encoding="utf-8")
    for number, heading, body in re.findall(r"^### (\d+)\. (.*)\n((?:(?!##).*\n?)*)", text, re.M):
        told = re.search(r"^- \*\*Definitions?\*\*: (.*)$", body, re.M)
        roots = []
        for names, crate, file in re.findall(r"((?:`[\w']+`(?:, | and )?)+) in `(\w+)/specs/([\w/]+)`", told[1] if told else ""):
            for name in re.findall(r"`([\w']+)`", names):
                module = (crate, *file.split("/"))
                if not (it := definition(module, name)):
                    sys.exit(f"docs/PROMISES.md: promise {number} names {name}, which isn't in {crate}/specs/{file}")
                roots.append(it)
        yield int(number), heading, roots


def place(file):
    return str(file.relative_to(TOP / "crates").with_suffix("" if file.suffix == ".antt" else file.suffix))


def size(files):
    return sum(len(it.lines) for them in files.values() for it in them)


def text_of(files):
    """The definitions as a page has them."""
    parts = []
    for file, them in files.items():
        body = "\n\n".join("\n".join(it.lines) for it in them)
        parts.append(f"## `{place(file)}`\n\n```{'rust' if file.suffix == '.rt' else ''}\n{body}\n```\n")
    return "\n".join(parts)


def row(number, heading, files):
    return f"| {number} | {heading} | {size(files):,} | {len(files)} | {len({place(it).split('/')[0] for it in files})} |\n"


def table():
    """What each promise reaches, and all of them together."""
    everything = [(number, heading, roots) for number, heading, roots in promises() if roots]
    rows = [row(number, heading, reached(roots)) for number, heading, roots in everything]
    return TABLE + "".join(rows) + row("", "all", reached([it for _, _, roots in everything for it in roots]))


def page():
    """The definitions of promise 1, with a link to those of each file."""
    files = reached(next(roots for number, _, roots in promises() if number == 1))
    links = " · ".join(f"[{place(it)}](#{re.sub('[^a-z_]', '', place(it).lower())})" for it in files)
    return HEAD + links + "\n\n" + text_of(files)


def with_table(text):
    """The page of promises with the table as it is."""
    return re.sub(r"^\| \| Promise \| Lines .*\n(?:\|.*\n)*", lambda _: table(), text, flags=re.M)
