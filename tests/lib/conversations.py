"""Reads conversations: those of the folder tests/conversations/, and the examples of the pages.

A conversation is lines of these kinds; all others are for the reader:

    # TITLE      begins one, with a run of the program (on a page each heading `##`)
    $ WORD ..    the words of its command line (lines, unless given)
    > LINE       a line of its input
    < LINE       a line that it must write
    ! N TEXT     its status, and what it must tell on standard error (0 and nothing, unless given)
"""

import dataclasses
import pathlib

TOP = pathlib.Path(__file__).resolve().parents[2]


@dataclasses.dataclass
class Conversation:
    title: str
    words: list
    given: list = dataclasses.field(default_factory=list)
    wanted: list = dataclasses.field(default_factory=list)
    status: int = 0
    told: str = ""


def of_file(path, heading="# ", words="lines"):
    """The conversations of a file, in their order."""
    found = []
    for line in path.read_text(encoding="utf-8").splitlines():
        if line.startswith(heading):
            found.append(Conversation(f"{path.name}, {line[len(heading):]}", [words]))
        elif found and (line[:2] == "> " or line == ">"):
            found[-1].given.append(line[2:])
        elif found and (line[:2] == "< " or line == "<"):
            found[-1].wanted.append(line[2:])
        elif found and line.startswith("$ "):
            found[-1].words = line[2:].split()
        elif found and line.startswith("! "):
            status, _, told = line[2:].partition(" ")
            found[-1].status, found[-1].told = int(status), told and told + "\n"
    return [it for it in found if it.given or it.wanted or it.status]


def all_of_them():
    """Every conversation of the repository."""
    requests = [it for page in ("PROTOCOL.md", "EXCHANGE.md") for it in of_file(TOP / "docs" / page, "## ")]
    pages = [*of_file(TOP / "README.md", "### "), *requests, *of_file(TOP / "docs" / "SCRIPTS.md", words="world")]
    return pages + [it for file in sorted((TOP / "tests" / "conversations").glob("*.txt")) for it in of_file(file)]


def lines(*texts):
    """The bytes of lines, each ended by LF."""
    return "".join(text + "\n" for text in texts).encode()
