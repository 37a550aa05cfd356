"""What tests/try_editors tries. The arguments are the program, what there is of "neovim emacs codemirror", and what is asked for: names of
cases, where not all are tried, and a file for a picture."""
import json
import os
import pathlib
import random
import signal
import subprocess
import sys
import tempfile
import threading
import time

from serving import WebSocket, free_port
from terminal_picture import terminal_html
from terminals import Emacs, Neovim

TOP = pathlib.Path(__file__).resolve().parents[2]
PROGRAM, KINDS, *ASKED = sys.argv[1:]
PICTURE = next((it for it in ASKED if it.endswith(".png")), "")
OPERATIONS = 131_072  # of a room


class Server:
    """A server that keeps its rooms, and may be killed and started anew at its port; or with empty ones, of another site."""

    def __init__(self, *rooms):
        self.rooms, self.port, self.folder = rooms, free_port(), work / "rooms"
        self.folder.mkdir()
        self.start()

    def start(self, site=None):
        how = ["--site", str(site)] if site else ["--keep", str(self.folder), "--every", "1"]
        words = [PROGRAM, "serve", "--port", str(self.port), *how, *self.rooms]
        self.child = subprocess.Popen(words, stdout=subprocess.PIPE)
        assert self.child.stdout.readline() == f"listening {self.port}\n".encode()

    def kill(self):
        self.child.kill()
        self.child.wait()


class Line:
    """A line to a room, by which another than the editors asks."""

    def __init__(self, room):
        self.socket = WebSocket(server.port)
        self.socket.shake()
        self.ask(t="open", room=room)

    def ask(self, **request):
        return json.loads(self.socket.ask(json.dumps(request)))

    def __enter__(self):
        return self

    def __exit__(self, *_):
        self.socket.line.close()


def room_text(room="notes"):
    with Line(room) as line:
        return line.ask(t="read")["x"]


def fill(room, text, size=64, pause=0):
    """Another puts a text in at the beginning, in parts of a size from the last one to the first, with pauses."""
    with Line(room) as line:
        joined = line.ask(t="join")
        starts = range(0, len(text), size)
        for n, at in enumerate(reversed(starts)):
            assert line.ask(t="ins", s=joined["s"], n=n + 1, v=joined["v"], k=0, x=text[at : at + size])["r"] == "ok"
            time.sleep(pause)
        line.ask(t="leave", s=joined["s"])


def until(is_so, what, seconds=30):
    end = time.monotonic() + seconds
    while not is_so():
        if time.monotonic() > end:
            told = "\n".join(f"{it.name}: {it.state}: {it.text[:200]!r} of {len(it.text)}" for it in editors)
            sys.exit("\n".join([f"it didn't come to that: {what}", told, *(it.screen for it in editors if it not in windows)]))
        time.sleep(0.1)


def same(what, wanted=None, seconds=30):
    """Waits until all show one text, which the room has."""

    def is_one():
        texts = {it.text for it in editors} | {room_text()}
        return len(texts) == 1 and (wanted is None or texts == {wanted})

    until(is_one, what if wanted is None else f"{what}: {wanted[:200]!r}", seconds)


def clear(what):
    terminals[0].clear()
    same(f"after {what}", "", 60)


def of(kind):
    return [it for it in terminals if isinstance(it, kind)]


def other_than(it):
    return next(other for other in terminals if other is not it)


def one_of_each(room):
    """An editor of each kind in a room of its own, one after the other."""
    for kind in {type(it): None for it in terminals}:
        it = kind(work, f"{room}{kind.__name__}", server.port, room)
        editors.append(it)
        until(lambda: it.state not in ("", "joining"), f"{it.name} has joined", 60)
        yield it
        editors.remove(it)
        it.quit()


def tries_page():
    """The conversation of clients/stdio/README.md, byte for byte, with a room in which another has typed a word."""
    fill("page", "world")
    folder = TOP / "clients" / "stdio"
    words = ["node", "--experimental-websocket", "--no-warnings", str(folder / "rgatext-stdio.mjs")]
    program = subprocess.Popen([*words, f"ws://127.0.0.1:{server.port}", "page"], stdin=subprocess.PIPE, stdout=subprocess.PIPE)
    lines = (folder / "README.md").read_text(encoding="utf-8").split("```")[1].strip().splitlines()
    for line in lines:
        if line.startswith("> "):
            program.stdin.write(line[2:].encode() + b"\n")
            program.stdin.flush()
        else:
            told = program.stdout.readline().decode()
            assert told == line[2:] + "\n", f"{told}, and not {line[2:]}"
    assert len(lines) > 5 and (program.stdout.read(), program.wait(10)) == (b"", 0)
    assert room_text("page") == "Hello, world"


def tries_typing():
    wanted = ""
    for it in terminals:
        it.put(f"{it.name} types é世😀", is_end=True)
        wanted += f"{it.name} types é世😀"
        same("what one types", wanted)
    for it in windows:
        it.select(0, 0)
        it.type("in a window ")
        wanted = "in a window " + wanted
        same("what one types in a window", wanted)
    clear("typing")


def tries_undo():
    """Each undoes its own alone, and does it again."""
    for mine, theirs in zip(terminals, terminals[1:] + terminals[:1]):
        mine.put("mine ")
        same("mine", "mine ")
        theirs.put("THEIRS ")
        same("theirs", "THEIRS mine ")
        mine.undo()
        same("mine is undone", "THEIRS ")
        mine.redo()
        same("and done again", "THEIRS mine ")
        theirs.undo()
        same("theirs is undone", "mine ")
        mine.undo()
        same("both are", "")
    for it in terminals:
        it.put("one ")
        it.put("two ")
        same("two steps", "two one ")
        it.undo("2")
        same("both are undone at once", "")
        it.redo()
        same("one is done again", "one ")
        it.undo_otherwise()
        same("and undone", "")


def tries_lines():
    """Lines are pasted and deleted; a text may end with an LF or without one."""
    for it in of(Neovim):
        it.put("one\rtwo\rthree")
        same("three lines", "one\ntwo\nthree")
        for keys, wanted in (
            ("ggyyP", "one\none\ntwo\nthree"),
            ("dd", "one\ntwo\nthree"),
            ("Gdd", "one\ntwo"),
            ("p", "one\ntwo\nthree"),
            ("o\x1b", "one\ntwo\nthree\n"),
            ("dd", "one\ntwo\nthree"),
            ("ggddGp", "two\nthree\none"),
            ("ggJ", "two three\none"),
            ("dG", ""),
            ("P", "two three\none\n"),
            ("Gdd", "two three\none"),
            ("ggVGd", ""),
        ):
            it.keys(keys)
            same(f"{it.name} {keys!r}", wanted)
        it.put("one\rtwo\rthree")
        it.do("set fileformat=dos")
        same("three lines", "one\ntwo\nthree")
        other_than(it).put("!", is_end=True)
        same("others' text where a copy's lines would end with CR LF", "one\ntwo\nthree!")
        it.keys("ggJ")
        same("what is done there", "one two\nthree!")
        it.do(f"write! {work}/copy")
        until(lambda: (work / "copy").read_bytes() == b"one two\r\nthree!", "a copy")
        it.do("set fileformat=unix")
        it.keys("ggdG")
        same("none", "")
        it.keys("i\r\r\x1b")
        same("two LFs", "\n\n")
        it.keys("ggdG")
        same("none", "")
    for it in of(Emacs):
        it.put("one\rtwo\rthree")
        same("three lines", "one\ntwo\nthree")
        for keys, wanted in (
            (["M-<", "C-k", "C-k"], "two\nthree"),
            (["C-y", "C-y"], "one\none\ntwo\nthree"),
            (["M->", "Enter"], "one\none\ntwo\nthree\n"),
            (["DC"], "one\none\ntwo\nthree\n"),
            (["BSpace", "BSpace"], "one\none\ntwo\nthre"),
            (["C-x", "h", "C-w"], ""),
            (["C-y"], "one\none\ntwo\nthre"),
            (["M-<", "C-Space", "M->", "C-w"], ""),
        ):
            it.keys(keys)
            same(f"{it.name} {keys}", wanted)


def tries_many_places():
    """A word is replaced at 2,000 places, and undone as one step."""
    text = "the cat the\n" * 1_000
    done = text.replace("the", "some")
    fill("many", text)
    for it in one_of_each("many"):
        for turn, wanted in ((it.replace, done), (it.undo, text)):
            began = time.monotonic()
            turn()
            until(lambda: it.text == wanted == room_text("many"), f"2,000 places: {turn.__name__}", 120)
            print(f"{it.name}: {turn.__name__} at 2,000 places: {time.monotonic() - began:.1f} s until the room has it")


def tries_wide():
    """Characters that are wide, combine or are composed of several, in folds and where only a part is shown."""
    for it in of(Neovim):
        it.put("世界\re\u0301x\r👩‍👩‍👧!\rend")
        same("wide text", "世界\ne\u0301x\n👩‍👩‍👧!\nend")
        it.keys("gg0x")
        same("a wide one is deleted", "界\ne\u0301x\n👩‍👩‍👧!\nend")
        it.keys("j0x")
        same("a composed one", "界\nx\n👩‍👩‍👧!\nend")
        it.do("set foldmethod=manual")
        it.do("2,3fold")
        other_than(it).put("above\r")
        same("text above a fold", "above\n界\nx\n👩‍👩‍👧!\nend")
        it.keys("3Gdd")
        same("a fold is deleted", "above\n界\nend")
        clear("wide text")
    for it in of(Emacs):
        it.put("世界\re\u0301x\rend")
        same("wide text", "世界\ne\u0301x\nend")
        it.keys(["M-<", "DC", "C-n", "C-a", "DC"])
        same("wide ones are deleted", "界\n\u0301x\nend")
        it.ask("(narrow-to-region 1 2)")
        other_than(it).put("!", is_end=True)
        same("text beyond what is shown", "界\n\u0301x\nend!")
        it.put("<")
        same("text within", "<界\n\u0301x\nend!")
        it.ask("(widen)")
        clear("wide text")


def tries_bytes():
    """CR and NUL are characters; what is no character becomes U+FFFD."""
    for it in of(Neovim):
        it.keys("i", ["C-v"], "x0d", ["C-v"], "x00", ["C-v"], "u00e9", ["Escape"])
        same("CR and NUL", "\r\0é")
        it.ask("setline(1, \"a\\xff\\xc3é\\xed\\xa0\\x80b\")")
        same("bytes that are no UTF-8", "a\ufffd\ufffdé\ufffd\ufffd\ufffdb")
        clear("bytes")
    for it in of(Emacs):
        it.keys(["C-q", "C-m", "C-q", "C-Space"], "é")
        same("CR and NUL", "\r\0é")
        it.ask('(insert "a" #x3fffff #xd800 "b")')
        until(lambda: it.text.count("\ufffd") == 2, "raw bytes and surrogates are none")
        same("bytes")
        clear("bytes")


def tries_untold_changes():
    """What Emacs changes and tells by no hook is in the room all the same, and is one step; so is what is typed in an indirect buffer."""
    for it in of(Emacs):
        other = other_than(it)
        it.put("one é")
        same("a text", "one é")
        time.sleep(1)  # (what is typed without a pause is one step)
        for does, wanted in (
            ("(encode-coding-region 1 (point-max) 'utf-8)", "one \ufffd\ufffd"),
            ("(decode-coding-region 1 (point-max) 'utf-8)", "one é"),
            ("(set-buffer-multibyte nil)", "one é"),
            ("(recode-region 1 (point-max) 'latin-1 'utf-8)", "one Ã©"),
            ("(let ((inhibit-modification-hooks t)) (insert \"x\"))", "one xé"),
            ("(let ((inhibit-modification-hooks t)) (subst-char-in-region 1 4 ?n ?N) (delete-char -1))", "oNeé"),
            ("(progn (let ((inhibit-modification-hooks t)) (upcase-region 1 4)) (insert \"y\"))", "ONE yé"),
        ):
            it.keys(["M-<", "C-e", "C-b", "M-:"], does, ["Enter"])
            same(does, wanted)
            if wanted != "one é":
                it.undo()
                same(f"{does} is undone", "one é")
        for opens in ("(clone-indirect-buffer \"clone\" t)", "(switch-to-buffer (make-indirect-buffer (current-buffer) \"plain\"))"):
            it.keys(["M-:"], opens, ["Enter"])
            it.keys(["C-x", "1"])
            it.put("typed ")
            same(opens, "typed one é")
            other.put("> ")
            same(f"{opens}, and others", "> typed one é")
            if "clone" in opens:
                it.undo()
                same("typed in a clone and undone", "> one é")
                it.redo()
                until(lambda: "(Fundamental up to date)" in it.screen, "a clone's mode line tells the state")
            it.keys(["C-x"], "k", ["Enter"])
            it.keys(["C-x"], f"b{it.buffer}", ["Enter"])
            other.undo()
            it.undo()
            same("undone", "one é")
        it.do("clone-buffer")
        it.put("copied ")
        it.undo()
        it.put("again ")
        it.choose("mine")
        until(lambda: "This is no room" in it.screen, "nothing is chosen where there is no room")
        it.keys(["C-x"], "k", ["Enter"])
        it.keys(["C-x"], f"b{it.buffer}", ["Enter"], ["C-x", "1"])
        it.put("typed ")
        same("a copy is no room, and the room goes on", "typed one é")
        clear("untold changes")


def tries_waiting():
    """While Neovim's user selects, sees what a command would do, searches, or has begun an operator, others' changes wait."""
    for it in of(Neovim):
        other = other_than(it)
        it.put("one two")
        same("a text", "one two")
        for keys in ("ggv$", ":%s/one/three", "/two", "ggd"):
            it.keys(keys)
            other.put("> ")
            time.sleep(3)
            wanted = room_text()
            assert wanted == "> one two" and it.text != wanted and "> " not in it.screen, it.screen
            it.keys(["Escape"])
            same("it comes", wanted)
            other.undo()
            same("undone", "one two")
        it.keys("gg0RXY")
        time.sleep(3)
        other.keys("gg0aZ", ["Escape"])
        time.sleep(3)
        it.keys(["BSpace", "BSpace", "Escape"])
        same("Backspace in Replace mode leaves what others put in", "oZne two")
        it.keys("gg0RXY", ["Escape"])
        same("what was typed over", "XYne two")
        it.keys("gg0aab")
        same("what is typed", "XabYne two")
        other.put(">> ")
        same("others' text before it", ">> XabYne two")
        it.keys(["C-u"], "c", ["Escape"])
        same("CTRL-U deletes what was typed", ">> XcYne two")
        it.keys("gg0iy")
        same("typed at the beginning", "y>> XcYne two")
        other.put("! ")
        same("others' text where one began", "! y>> XcYne two")
        it.keys("z", ["C-u", "Escape"])
        same("CTRL-U leaves it", "! >> XcYne two")
        other.undo()
        same("undone", ">> XcYne two")
        it.keys("gg$a!", ["C-u", "C-u"], "d", ["Escape"])
        same("and then the line before it", "d")
        for keys, wanted in (
            (["0Cab", ["C-u"], "c", ["Escape"], "."], "c"),
            (["0Cone", ["Escape"], "0RXY", ["C-u", "Escape"]], "one"),
            (["A", ["C-u", "C-u"], "  a", ["Enter"], "b", ["C-u"], "c", ["Escape"]], "  a\n  c"),
        ):
            it.keys(*keys)
            same(f"CTRL-U as ever: {keys}", wanted)
            it.keys("ggdG")
            same("none", "")
        it.keys("ione\rtwo", ["Escape"])
        same("two lines", "one\ntwo")
        it.keys("ggd")
        other.put("> \r")
        until(lambda: room_text() == "> \none\ntwo", "others' line")
        time.sleep(1)
        it.ask("execute('write')")  # as other plugins do when the terminal is left
        it.keys("d")
        same("what is written while an operator is begun takes nothing", "> \ntwo")
        for keys, typed, wanted in (
            (["Ix"], ">x \ntwo", "> \n>x \ntxwo"),
            (["Ax"], "> x\ntwo", "> \n> x\ntwxo"),
            (["cx"], ">x\nto", "> \n>x\ntxo"),
            ([["C-g"], "x"], ">x\nto", "> \n>x\ntxo"),
        ):
            it.keys("gg0l", ["C-v"], "j", *keys)
            other.put("> \r")
            time.sleep(3)
            assert it.text == typed, it.text
            it.keys(["Escape"])
            same(f"what is put in a block goes into its lines: {keys}", wanted)
            other.undo()
            it.undo()
            same("undone", "> \ntwo")
        it.keys("gg0")
        other.put("! \r")
        same("a line where the caret is", "! \n> \ntwo")
        it.keys("dd")
        same("the caret has stayed on its line", "! \ntwo")
        it.keys("GAab")
        other.put("> \r")
        same("others' line above what is typed", "> \n! \ntwoab")
        it.keys(["C-w"], "c", ["C-w"], "d", ["Escape"])
        same("CTRL-W deletes what was typed", "> \n! \ntwod")
        it.do("2,$d")
        same("one line", "> ")
        it.do("split | terminal")
        it.keys("i")
        other.put("in a terminal ")
        until(lambda: it.ask("getbufline(1, 1)[0]") == "in a terminal >", "others' text is seen beside a terminal")
        it.keys(["C-\\", "C-n"])
        other.put("Still ")
        until(lambda: it.ask("getbufline(1, 1)[0]") == "Still in a terminal >", "and beside its output")
        it.do("bwipeout! %")
        clear("waiting")


def tries_pasting():
    """What a terminal pastes between two letters, at once or in parts, is one text there, while another types in front of it."""
    typed = "".join(f"{n} " for n in range(60))
    pasted = "".join(f"{n} é世😀\n" for n in range(700))
    for it in one_of_each("pasted"):
        for pastes in (it.paste_at_once, it.paste_in_parts):
            rest = it.text
            it.put("<>")
            until(lambda: room_text("pasted") == f"<>{rest}", "two letters")
            it.keys("i" if isinstance(it, Neovim) else ["C-b"])
            other = threading.Thread(target=fill, args=("pasted", typed, 1, 0.01))
            other.start()
            time.sleep(0.5)
            pastes(pasted)
            other.join()
            if isinstance(it, Neovim):
                it.keys(["Escape"])
            wanted = f"{typed}<{pasted}>{rest}"
            until(lambda: it.text == wanted == room_text("pasted"), f"{it.name}: {pastes.__name__}: {wanted[:200]!r} of {len(wanted)}", 60)


def tries_mapping_that_asks():
    """While an `<expr>` mapping of Neovim asks for a key others' changes wait. What can't be shown stays in the room."""
    mapping = "inoremap <expr> <C-L> nr2char(getchar())"  # as `:help map-expression` has it
    for it in of(Neovim):
        other = other_than(it)
        it.do(mapping)
        it.put("one")
        same("a text", "one")
        it.keys("A", ["C-l"])
        other.put("> ")
        until(lambda: room_text() == "> one", "others' text")
        time.sleep(3)
        assert it.text == "one", it.screen
        it.keys("!", ["Escape"])
        same("others' text while a mapping asked", "> one!")
        clear("a mapping that asks")
    for it in one_of_each("ended"):
        if isinstance(it, Neovim):
            it.clear()
            it.put("one")
            it.do(f"{mapping} .. strpart(execute('RgatextUnsent'), 0, 0)")  # (it takes what is new)
            it.keys("A", ["C-l"])
            fill("ended", "> ")
            time.sleep(3)
            it.keys("!", ["Escape"])
            until(lambda: it.state == "closed: its program has ended", "it is given up")
            time.sleep(2)
            assert (room_text("ended"), it.text) == ("> one", "one!"), it.screen


def tries_waiting_in_commands():
    """While a command of Emacs or a search waits for its user others' changes wait: it may know places by their numbers. M-x knows none."""
    for it in of(Emacs):
        other = other_than(it)
        it.put("one two\rone two")
        same("two lines", "one two\none two")
        rectangle = ["M-<", *["C-f"] * 4, "C-Space", "C-n", *["C-f"] * 3, "C-x", "r", "t"]
        query = [["M-<", "M-%"], "two", ["Enter"], "six", ["Enter"]]
        for begins, ends, wanted, waits in (
            (query, ["!"], "> one six\none six", True),
            ([*query, ["C-r"]], [["C-M-c"], "!"], "> one six\none six", True),
            ([rectangle, "six"], [["Enter"]], "> one six\none six", True),
            ([["M-<", "M-x"]], [["C-g"]], "> one two\none two", False),
            ([["M-<", "C-s"], "two"], [["C-g"]], "> one two\none two", True),
        ):
            it.keys(*begins)
            other.put("> ")
            time.sleep(3)
            assert it.text.startswith("> ") != waits, f"{begins}: {it.text}"
            it.keys(*ends)
            same(f"{begins} and {ends}", wanted)
            other.undo()
            if "six" in wanted:
                it.undo()
            same("undone", "one two\none two")
        it.keys(["C-u", "C-\\"], "latin-1-prefix", ["Enter"], ["M-<"], "'")
        other.put(" <", is_end=True)
        time.sleep(3)
        it.keys("e", ["C-\\"])
        same("what an input method composes", "éone two\none two <")
        it.clear()
        it.keys(["M-:"], '(progn (define-global-abbrev "foo" "bar") (insert "foo") (expand-abbrev))', ["Enter"])
        same("an abbreviation", "bar")
        other.put("> ")
        same("others' text before it", "> bar")
        it.do("unexpand-abbrev")
        it.put("!", is_end=True)
        same("others' text stays", "> bar!")
        it.clear()
        for begins, ends, wanted in (
            (["C-y"], ["M-y"], "> one two"),
            (["C-u", "C-y"], ["M-y"], "> one two"),
            (["C-y", "M-<", "C-Space", "M-f"], ["C-w"], ">  four"),
            (["C-y", "M-<", "M-f", "C-Space", "M-<"], ["C-w"], ">  four"),
            (["C-y", "M-<", "C-s"], ["f", "Enter", "C-w"], "> our"),
            (["C-y", "M-<", "C-Space", "M-f", "M-x"], [*"kill-region", "Enter"], ">  four"),
            (["C-y", "M-<", "M-f", "C-Space", "M-<", "M-x"], [*"kill-region", "Enter"], ">  four"),
            (["C-y", "M-<"], ["M-d"], ">  four"),
        ):
            same("none", "")
            it.keys(["M-:"], '(progn (setq kill-ring nil) (kill-new "one two") (kill-new "three four"))', ["Enter"])
            it.keys(begins)
            until(lambda: room_text() == other.text == "three four", "what is yanked")
            other.put("> ")
            until(lambda: room_text().startswith("> "), "others' text")
            time.sleep(1)
            it.keys(ends)
            same(f"others' text at the beginning of the region of {begins} and {ends}", wanted)
            it.clear()
        clear("waiting in commands")


def tries_commands():
    """What is unsent is shown, a copy is saved as it is, and a room is opened anew."""
    for it in one_of_each("left"):
        it.clear()
        it.paste("a\nb\n")
        until(lambda: room_text("left") == "a\nb\n", "two lines")
        server.kill()
        until(lambda: it.state.startswith("offline"), f"{it.name} is told")
        it.put("unsent ")
        it.show_unsent()
        until(lambda: "put in: unsent" in it.screen, "what is unsent")
        it.save()
        until(lambda: "have all of it: offline" in it.screen, "saving waits, and says so")
        if isinstance(it, Neovim):
            it.stay()
            named = ((f"{command} {work}/other", "keeps its name") for command in ("saveas", "file"))
            away = f"write ws://127.0.0.1:{server.port}/many"
            for command, refuses in (("bdelete", "E89"), *named, (away, "only by its own buffer")):
                it.do(command)
                until(lambda: refuses in it.screen, f"{command} is refused")
                it.stay()
            it.do(f"set cpoptions+=+ | write! {work}/copy")
            it.do("quit")
            until(lambda: "E37" in it.screen, "it isn't left for a copy")
            it.stay()
        it.save()
        it.keys(it.gives_up, it.gives_up)
        time.sleep(6)
        assert it.state == "offline", f"a program that isn't late is given up: {it.state}"
        server.start()
        until(lambda: room_text("left") == "unsent a\nb\n" and it.state == "up to date", "it is sent", 60)
        if isinstance(it, Neovim):
            assert not (work / "other").exists(), "a room has another name"
            it.do(f"w! {work}/copy")
            until(lambda: (work / "copy").read_text() == "unsent a\nb\n", "a copy")
            program = program_of(it)
            os.kill(program, signal.SIGSTOP)
            it.do("edit!")
            until(lambda: it.text == "unsent a\nb\n" and it.state == "up to date", "opened anew")
            assert it.ask("line('.')") == "1", "it is shown from its beginning"
            os.kill(program, signal.SIGCONT)
            until(lambda: not pathlib.Path(f"/proc/{program}").exists(), "the program of before ends")
            time.sleep(0.5)
            assert it.state == "up to date", it.state
            told = it.ask("execute(['normal! gg0iwritten ', 'write']) .. &modified").strip()
            assert (told, room_text("left")) == ("0", "written unsent a\nb\n"), f"what is written isn't modified: {told}"
        else:
            it.do("text-mode")
            it.put("typed ")
            it.save()
            until(lambda: "the room has it" in it.screen, "it is saved")
            assert room_text("left") == "typed unsent a\nb\n", "another major mode"
        it.clear()
        until(lambda: room_text("left") == "", "none")
        time.sleep(2)  # it is kept: who has left puts nothing in again that a kill loses


WORDS = ("alpha", "Beta", "γάμμα", "世界", "😀", "e\u0301")
NEOVIM = "gg G j k w b $ 0 x dd p P J yy ~ D >> u 2u guu vjd yip dw xp . \x12 \x16jx ylp".split()
NEOVIM += ["i%\x1b", "o%\x1b", "A%\x1b", "O%\x1b", "cw%\x1b", "R%\x1b", "i%\r%\x1b", ":s/a/bb/ge\r", ":m0\r", ":t.\r", ":sort\r"]
EMACS = "C-n C-p C-f M-f M-b M-< M-> BSpace DC C-k C-y M-d C-t M-u M-c C-_ C-M-_ M-q Enter".split()


def types_at_random(it, seed):
    dice = random.Random(seed)
    for _ in range(60):
        if isinstance(it, Neovim):
            it.keys(dice.choice(NEOVIM).replace("%", dice.choice(WORDS)))
        elif isinstance(it, Emacs):
            it.keys(*([dice.choice(EMACS)] if dice.random() < 0.6 else dice.choice(WORDS)))
        else:
            it.type(dice.choice(WORDS[:4]))


def tries_random_typing():
    for seed in range(3):
        tasks = [threading.Thread(target=types_at_random, args=(it, 10 * seed + n)) for n, it in enumerate(editors)]
        for it in tasks:
            it.start()
        for it in tasks:
            it.join()
        for it in of(Neovim):
            it.keys(["Escape"])
        same("all that type at random", seconds=60)
        clear("random typing")


def tries_read_only():
    """What its user has made read-only stays so while others' changes come."""
    for it in terminals:
        it.put("one")
        same("a text", "one")
        it.turn_read_only()
        other_than(it).put("> ")
        same("others' text where nothing may be typed", "> one")
        it.put("no")
        it.undo()
        time.sleep(2)
        same("nothing is typed there", "> one")
        it.turn_read_only()
        it.put("yes ")
        same("and then it is", "yes > one")
        clear("what is read-only")


def tries_full_room():
    """What doesn't fit is taken back, and told; what fits is in the room. A full room is read-only."""
    lines = OPERATIONS // 64 - 1
    fill("full", ("x" * 63 + "\n") * lines)
    left, wanted = 64, ("x" * 63 + "\n") * lines
    for it in one_of_each("full"):
        until(lambda: it.text == wanted and f"takes {left} more" in it.state, "a room with few changes left")
        it.paste("y" * (left + 1))
        until(lambda: it.text == wanted and f"takes {left} more changes" in it.screen, "what doesn't fit is taken back, and told")
        it.paste("z" * 10)
        left, wanted = left - 10, "z" * 10 + wanted
        until(lambda: it.text == wanted == room_text("full"), "what fits is in the room")
    for it in one_of_each("full"):
        if left > 0:
            it.paste("z" * left)
        until(lambda: "refused: the room is full" in it.state, "the room is full")
        wanted, left = "z" * left + wanted, 0
        it.put("q")
        time.sleep(0.5)
        assert it.text == wanted == room_text("full"), "a full room is read-only"


def tries_server_that_ends():
    """What is typed while the server is away is sent once it is back. Who leaves a room that doesn't have all is asked."""
    terminals[0].put("before ")
    same("before", "before ")
    time.sleep(2)
    server.kill()
    for it in terminals:
        until(lambda: it.state.startswith("offline"), f"{it.name} is told")
        it.put("away ", is_end=True)
        it.ask_to_leave()
        until(lambda: it.refuses in it.screen, f"{it.name} asks")
        it.stay()
    server.start()
    same("what all typed meanwhile", "before " + "away " * len(terminals), 60)
    clear("a server that ends")


def tries_leaving():
    """Who ends its editor leaves the room, with all that was typed right before, and no session is left."""
    for n, it in enumerate(one_of_each("left")):
        it.put("last ")
        it.end()
        until(lambda: not it.is_there, "it ends")
        until(lambda: room_text("left") == "last " * (n + 1), "what was typed last is in the room")
        with Line("left") as line:
            number = line.ask(t="join")["s"]
            assert [line.ask(t="leave", s=s)["r"] for s in range(1, number + 1)] == ["no"] * (number - 1) + ["left"], "a session is left"


def program_of(it):
    """The number of the program between an editor and its room."""
    found = [it.pid]
    for pid in found:
        found += pathlib.Path(f"/proc/{pid}/task/{pid}/children").read_text().split()
    return int([pid for pid in found if b"rgatext-stdio" in pathlib.Path(f"/proc/{pid}/cmdline").read_bytes()][-1])


def tries_program_that_ends():
    """Where the program between is killed the text stays as it is, read-only, and who leaves what it hadn't read is asked."""
    for it in one_of_each("ended"):
        it.clear()
        it.put("kept ")
        until(lambda: room_text("ended") == "kept " and it.state == "up to date", "a text")
        program = program_of(it)
        os.kill(program, signal.SIGSTOP)
        it.put("lost ")
        until(lambda: it.text == "lost kept ", "more is typed")
        os.kill(program, signal.SIGKILL)
        until(lambda: it.state == "closed: its program has ended", f"{it.name} is told")
        it.ask_to_leave()
        until(lambda: it.refuses in it.screen, f"{it.name} asks")
        it.stay()
        it.put("no")
        time.sleep(0.5)
        assert (it.text, room_text("ended")) == ("lost kept ", "kept "), it.text
        it.show_unsent()
        until(lambda: "ended without a word" in it.screen, "nobody knows what is unsent")
        if isinstance(it, Neovim):
            it.do("edit!")
            until(lambda: (it.state, it.text) == ("up to date", "kept "), "it is opened again")
            it.put("and ")
            until(lambda: room_text("ended") == "and kept ", "it is typed in again")


def tries_program_that_ends_with_unsent_text():
    """What the program didn't send is shown once it has ended, and who leaves is asked, whatever the editor's own flag says."""
    for it in one_of_each("ended"):
        it.clear()
        until(lambda: room_text("ended") == "" and it.state == "up to date", "no text")
        server.kill()
        until(lambda: it.state.startswith("offline"), f"{it.name} is told")
        it.put("unsent ")
        if isinstance(it, Emacs):
            it.ask("(set-buffer-modified-p nil)")
            it.ask_to_leave()
            until(lambda: it.refuses in it.screen, f"{it.name} asks, though the buffer says that it isn't modified")
            it.stay()
            it.end()
            until(lambda: it.refuses in it.screen, f"{it.name} asks before it ends")
            it.stay()
        os.kill(program_of(it), signal.SIGTERM)
        until(lambda: it.state == "closed: its program has ended", f"{it.name} is told")
        it.show_unsent()
        until(lambda: "put in: unsent" in it.screen, "what is unsent")
        it.ask_to_leave()
        until(lambda: it.refuses in it.screen, f"{it.name} asks")
        it.stay()
        server.start()


def tries_program_that_is_slow():
    """An editor waits for the program as long as it is there, and says so; its user may give it up, and loses nothing."""
    for it in one_of_each("ended"):
        it.clear()
        it.put("slow ")
        until(lambda: room_text("ended") == "slow " and it.state == "up to date", "a text")
        program = program_of(it)
        os.kill(program, signal.SIGSTOP)
        it.undo()
        until(lambda: "waiting for its program" in it.screen, f"{it.name} says that it waits")
        os.kill(program, signal.SIGCONT)
        until(lambda: it.text == "" == room_text("ended") and it.state == "up to date", "it goes on")
        os.kill(program, signal.SIGSTOP)
        it.put("typed ")
        it.undo()
        until(lambda: "waiting for its program" in it.screen, f"{it.name} says it again")
        it.keys(it.gives_up)
        until(lambda: it.state == "closed: its program has ended", f"{it.name} has given it up")
        assert it.text == "typed ", it.text
        it.show_unsent()
        until(lambda: "is still ending" in it.screen, "the program may still tell what is unsent")
        it.stay()
        os.kill(program, signal.SIGCONT)
        until(lambda: not pathlib.Path(f"/proc/{program}").exists(), "it ends")
        it.show_unsent()
        until(lambda: "the room has all" in it.screen, "nothing is unsent")
        it.ask_to_leave()
        until(lambda: it.state == "", f"{it.name} is left without a question")


def tries_program_that_does_not_read():
    """An editor says that it waits, too, where its text is longer than what a pipe takes of it, and its user may give the program up."""
    fill("large", "世" * 70_000)
    for it in one_of_each("large"):
        text = room_text("large")
        until(lambda: it.text == text and it.state == "up to date", "a large text")
        program = program_of(it)
        os.kill(program, signal.SIGSTOP)
        it.put("x")
        it.keys(it.gives_up)
        it.undo()
        until(lambda: "waiting for its program" in it.screen, f"{it.name} says that it waits")
        os.kill(program, signal.SIGCONT)
        until(lambda: it.text == text == room_text("large") and it.state == "up to date", "it goes on", 60)
        os.kill(program, signal.SIGSTOP)
        if isinstance(it, Emacs):
            it.keys(["M-x"])  # (a minibuffer shows what it is told later)
            it.ask('(progn (goto-char 1) (insert "y"))')
            it.keys("rgatext-unsent", ["Enter"])
        else:
            it.put("y")
            it.show_unsent()
        until(lambda: "waiting for its program" in it.screen, f"{it.name} says it again")
        it.keys(it.gives_up)
        until(lambda: "is still ending" in it.screen, f"{it.name} has given it up, and does what was typed ahead")
        it.stay()
        until(lambda: it.state == "closed: its program has ended", f"{it.name} says so")
        assert it.text == "y" + text, f"{it.text[:9]} of {len(it.text)}"
        os.kill(program, signal.SIGCONT)
        until(lambda: not pathlib.Path(f"/proc/{program}").exists(), "it ends")
        it.ask_to_leave()
        if room_text("large") == text:
            until(lambda: it.refuses in it.screen, f"{it.name} asks, since the program didn't read all")
        else:
            until(lambda: it.state == "", f"{it.name} is left without a question")


def tries_another_text():
    """Where the room has another text the user chooses."""
    for it in one_of_each("another"):
        for site, whose in ((2, "mine"), (3, "theirs")):
            it.paste("here")
            until(lambda: room_text("another") == "here", "a text")
            program = program_of(it)
            os.kill(program, signal.SIGSTOP)  # (into an empty room it would put its text in again)
            server.kill()
            server.start(site)
            fill("another", "there")
            os.kill(program, signal.SIGCONT)
            until(lambda: it.state.startswith("another text"), "another text", 60)
            assert it.text == "here"
            it.show_unsent()
            until(lambda: "the room has another text" in it.screen, "it isn't said that the room has all")
            it.show_other()
            until(lambda: "there" in it.screen, "the other text is shown")
            it.choose(whose)
            wanted = {"mine": "here", "theirs": "there"}[whose]
            until(lambda: it.text == wanted == room_text("another") and it.state == "up to date", f"{whose} is taken", 60)
            it.clear()
            until(lambda: room_text("another") == "", "none")


def save_picture():
    """One of each editor, and the window, with a text that all of them typed."""
    shown = [of(Neovim)[0], of(Emacs)[0]]
    shown[0].put("One document in Neovim, Emacs and a page.\r", is_end=True)
    same("a line")
    shown[1].put("What each of them types shows in all: é, 世界, 😀.\r", is_end=True)
    same("another line")
    window = windows[0]
    end = len(window.text.encode("utf-16-le")) // 2
    window.select(end, end)
    window.type("And each undoes its own alone.")
    same("a picture")
    until(lambda: all(it.state == "up to date" for it in editors), "all is sent")

    def fit(width, height):
        more = window.run("return [outerWidth - innerWidth, outerHeight - innerHeight]")
        window.driver.set_window_size(width + more[0], height + more[1])

    fit(440, 296)
    for it in shown:
        it.run("resize-window", "-x", "80", "-y", "9")
    time.sleep(3)  # until no text is marked
    left = "".join(terminal_html(it.run("capture-pane", "-e", "-p").stdout) for it in shown)
    right = f'<img src="data:image/png;base64,{window.driver.get_screenshot_as_base64()}">'
    style = "body{margin:8px;background:#ddd;display:flex;gap:8px;align-items:flex-start}"
    style += "pre{margin:0 0 8px;font:13px/16px DejaVu Sans Mono}"
    page = f'<meta charset="utf-8"><style>{style}</style><div>{left}</div>{right}'
    (work / "picture.html").write_text(page, encoding="utf-8")
    window.driver.get(f"file://{work}/picture.html")
    fit(window.run("return Math.ceil(document.images[0].getBoundingClientRect().right)") + 8, 312)
    window.driver.save_screenshot(PICTURE)


attempts = (tries_page, tries_typing, tries_undo, tries_lines, tries_wide, tries_bytes, tries_untold_changes, tries_many_places)
attempts += (tries_random_typing, tries_waiting, tries_mapping_that_asks, tries_waiting_in_commands, tries_pasting, tries_read_only)
attempts += (tries_full_room, tries_leaving, tries_commands, tries_server_that_ends, tries_program_that_ends)
attempts += (tries_program_that_ends_with_unsent_text, tries_program_that_is_slow)
attempts += (tries_program_that_does_not_read, tries_another_text)
CASES = {it.__name__.removeprefix("tries_"): it for it in attempts}
asked = [it for it in ASKED if it != PICTURE] or CASES
if not set(asked) <= set(CASES):
    sys.exit(f"the cases are {' '.join(CASES)}")
if PICTURE and len(KINDS.split()) < 3:
    sys.exit("a picture shows Neovim, Emacs and CodeMirror, and not all of them are there")
work = pathlib.Path(tempfile.mkdtemp())
editors, windows, terminals = [], [], []
server = Server("notes", "page", "many", "full", "left", "ended", "large", "another", "pasted")
try:
    for kind in (Neovim, Emacs):
        for n in (1, 2) if kind.__name__.lower() in KINDS else ():
            terminals.append(kind(work, f"{kind.__name__}{n}", server.port))
            editors.append(terminals[-1])
            # (two Emacs that start at once may rename what is compiled away from each other)
            until(lambda: terminals[-1].state.startswith("up to date"), "it has joined", 60)
    if "codemirror" in KINDS:
        from windows import Mirror, serve_pages

        windows.append(Mirror(serve_pages(TOP), server.port))
        windows[0].name = "a window"
    editors += windows
    until(lambda: all(it.state.startswith("up to date") for it in editors), "all have joined", 60)
    for name in asked:
        began = time.monotonic()
        CASES[name]()
        print(f"{name}: {time.monotonic() - began:.0f} s", flush=True)
    if PICTURE:
        save_picture()
finally:
    for it in editors:
        it.quit()
    server.kill()
