"""What tests/try_editor_page tries. The arguments are the checkout and, if wanted, a folder for pictures."""

import functools
import json
import os
import pathlib
import random
import re
import shutil
import subprocess
import sys
import tempfile
import threading
import time

from client import Session, Socket
from selenium.webdriver.common.by import By
from selenium.webdriver.common.keys import Keys
from windows import AREA, ELSEWHERE, Bare, Cable, History, Mirror, Server, Walk, Window, serve_pages

top = sys.argv[1]
PROGRAM = os.environ.get("RGATEXT", top + "/bin/rgatext")
OPERATIONS = 131_072  # of a room
NODE = int(subprocess.run(["node", "-p", "parseInt(process.versions.node)"], capture_output=True, text=True, check=True).stdout)


def until(is_so, what, seconds=20):
    end = time.monotonic() + seconds
    while not is_so():
        if time.monotonic() > end:
            sys.exit(f"it didn't come to that: {what}: {[(len(it.text), it.text[:60], it.state) for it in windows]}")
        time.sleep(0.05)


def same(what, wanted=None, seconds=20):
    until(lambda: len({it.text for it in windows}) == 1 and (wanted is None or windows[0].text == wanted), what, seconds)


def clear(what):
    windows[0].run(f"{AREA}.focus(); {AREA}.select()")
    windows[0].type(Keys.BACKSPACE)
    same(f"after {what}", "")


def random_typing(window, seed):
    """Types words, at the end or at a random place, and deletes some characters."""
    dice = random.Random(seed)
    for _ in range(30):
        if dice.random() < 0.4:
            place = int(dice.random() * len(window.text))
            window.run(
                f"const a = {AREA}, k = Math.min(arguments[0], a.value.length), c = a.value.charCodeAt(k) & 0xfc00;"
                "const p = k > 0 && c === 0xdc00 ? k - 1 : k; a.setSelectionRange(p, p)",
                place,
            )
        window.type("".join(dice.choices("abcdefghijklmnop", k=dice.randint(1, 9))) + " ")
        if dice.random() < 0.3:
            place = window.selection[0]
            window.put("".join(dice.choices("\U0001f600\U0001f601\U00010000", k=dice.randint(1, 3))), place, place)
        if dice.random() < 0.3:
            window.type(Keys.BACKSPACE * dice.randint(1, 4))


def together(*tasks):
    threads = [threading.Thread(target=it) for it in tasks]
    for it in threads:
        it.start()
    for it in threads:
        it.join()


def tries_typing():
    together(*(functools.partial(random_typing, it, seed) for seed, it in enumerate(windows)))
    same("two that type at random")
    assert len(windows[0].text) > 200, windows[0].text
    clear("random typing")


def key_after(window, line, wanted):
    """How many seconds after it is typed a key of the window is in the room, which then has so many of it."""
    began = time.monotonic()
    window.type("w")
    until(lambda: line({"t": "read"})["x"].count("w") == wanted, "a key beside a paste", 60)
    return time.monotonic() - began


def in_seconds(most, began, is_so, what):
    """Waits until it is so, which may take so many seconds."""
    until(is_so, what, 4 * most)
    took = time.monotonic() - began
    assert took <= most, f"{what}: that took {took:.1f} s, and {most} are allowed"
    return took


def tries_pastes():
    """100,000 characters are in the room within ten seconds, and another's keys come half a second later than else at most."""
    both = [Window(PAGES, server.port, "pasted") for _ in range(2)]
    until(lambda: all(it.state == "up to date" for it in both), "both have joined")
    line = Socket(f"ws://127.0.0.1:{server.port}", "pasted")
    read = lambda: line({"t": "read"})["x"]
    alone = max(key_after(both[1], line, n) for n in (1, 2, 3))
    digits = ("0123456789" * 7 + "012345678\n") * 1_250
    began = time.monotonic()
    both[0].put(digits, 0, 0)
    beside = []
    while len(read()) < len(digits) and len(beside) < 5:
        beside.append(key_after(both[1], line, 4 + len(beside)))
    took = in_seconds(10, began, lambda: digits in read(), "a paste of 100,000 characters in one piece")
    assert beside and max(beside) <= alone + 0.5, f"a key took {max(beside, default=0):.2f} s beside a paste, and {alone:.2f} s without"
    until(lambda: both[0].text == both[1].text == read(), "both show the paste")
    began = time.monotonic()
    both[0].put("", 0, 30_000)
    in_seconds(4, began, lambda: len(read()) < 70_010, "a deletion of 30,000 characters, for more a room has no place")
    print(f"a paste of 100,000 characters took {took:.1f} s, a key beside it {max(beside):.2f} s, and one without {alone:.2f} s")
    line.close()
    for it in both:
        it.quit()


def tries_selection():
    windows[0].put("first line\nsecond line\n", 0, 0)
    same("two lines")
    windows[0].select(11, 17, "backward")
    windows[1].select(0, 0)
    windows[1].type("ahead ")
    same("a selection while another types before it")
    assert windows[0].selection == [17, 23, "backward"], windows[0].selection
    clear("a selection")


def tries_scroll():
    windows[0].put("line\n" * 200, 0, 0)
    same("200 lines")
    windows[0].select(500, 500)
    windows[0].run(f"{AREA}.scrollTop = 2000")
    before = windows[0].run(f"return {AREA}.scrollTop")
    windows[1].put("above\n" * 10, 0, 0)
    same("ten lines more above")
    moved = windows[0].run(f"return {AREA}.scrollTop") - before
    assert abs(moved - 240) < 3, f"the view moved by {moved} pixels in place of ten lines"
    clear("scrolling")


def tries_composition():
    windows[0].type("<>")
    same("brackets", "<>")
    windows[0].select(1, 1)
    windows[0].compose("ど")
    until(lambda: "not sent yet" in windows[0].told, "what is composed isn't sent yet", 1)
    assert windows[0].asks_before_leaving, "what is composed is left without a question"
    windows[0].commit("")
    until(lambda: windows[0].told == "notes: saved" and not windows[0].asks_before_leaving, "nothing is composed any more")
    same("what was composed is dropped", "<>")
    for composed, wanted in ((("に", "にほ", "にほん"), "日本"), (("´",), "é")):
        windows[0].compose(*composed)
        windows[1].select(0, 0)
        windows[1].type("z")
        time.sleep(2.5)
        windows[0].commit(wanted)
        until(lambda: wanted in windows[1].text, wanted)
    same("composition beside another typist", "zz<日本é>")
    windows[0].compose("に")
    until(lambda: "being composed" in windows[0].told, "what is composed for long is said to be held back")
    windows[0].commit("二")
    same("what was held back", "zz<日本é二>")
    assert windows[0].told == "notes: saved" or "not sent" in windows[0].told, windows[0].told
    clear("composition")


def tries_carriage_returns():
    """A text area shows CR as a sign, CodeMirror as it is, and both leave it in the room."""
    line = Socket(f"ws://127.0.0.1:{server.port}", "returns")
    session = line({"t": "join"})["s"]
    line({"t": "ins", "s": session, "n": 1, "v": 0, "k": 0, "x": "one\rtwo\r\nthree"})
    line({"t": "leave", "s": session})
    both = [Window(PAGES, server.port, "returns"), Mirror(PAGES, server.port, "returns")]
    until(lambda: [it.state for it in both] == ["up to date"] * 2, "both have joined")
    assert both[0].text == "one\u240dtwo\u240d\nthree" and both[1].text == "one\rtwo\r\nthree", [it.text for it in both]
    for it, end in ((both[0], 14), (both[1], 15)):
        it.select(end, end)
        it.type("!")
        until(lambda: len(both[0].text) == len(both[1].text) == end + 1, "both show it")
    until(lambda: line({"t": "read"})["x"] == "one\rtwo\r\nthree!!", "the room has its CRs")
    line.close()
    for it in both:
        it.quit()


def picture(window, name):
    if len(sys.argv) > 2:
        window.driver.save_screenshot(str(pathlib.Path(sys.argv[2], f"{name}.png")))


def widths(window, name):
    """The page at 1,200 and at 390 pixels: nothing of it scrolls sideways, and each field has a name. Its pictures are saved if wanted."""
    for width in (1_200, 390):
        window.resize(width)
        overflow = window.run("return document.documentElement.scrollWidth - document.documentElement.clientWidth")
        assert overflow <= 0, f"{name} at {width} pixels scrolls sideways by {overflow}"
        fields = "[...document.querySelectorAll('input, textarea')]"
        unnamed = window.run(f"return {fields}.filter((it) => !it.labels?.length && !it.ariaLabel).length")
        assert unnamed == 0, f"{unnamed} fields of {name} have no name"
        picture(window, f"{name}_{width}")


def tries_widths():
    """All pages as they are seen, with a long word, and while the user is asked."""
    windows[0].put("Two windows, one document.\nWhat each of them types shows at once in both.\n", 0, 0)
    same("two lines")
    until(lambda: windows[0].state == "up to date", "they are sent")
    picture(windows[0], "editor")
    windows[1].put("long" * 100, 0, 0)
    same("a long word")
    until(lambda: windows[0].state == "up to date", "it is sent")
    widths(windows[0], "editor")
    mirror, past = Mirror(PAGES, server.port, "notes"), History(PAGES, server.port, "notes")
    until(lambda: mirror.text == windows[0].text and past.text.endswith(windows[0].text[-50:]), "all show it")
    widths(mirror, "codemirror")
    widths(past, "history")
    past.quit()
    server.kill()
    server.start(site=3)
    until(lambda: all(it.state == "another text" for it in (*windows, mirror)), "an empty room", 30)
    widths(windows[0], "editor_asked")
    widths(mirror, "codemirror_asked")
    mirror.quit()
    for it in windows:
        it.resize(800)
    windows[0].click("mine")
    until(lambda: all(it.state == "up to date" for it in windows), "mine is put in, and the other has the same", 30)
    same("after the choice")
    clear("widths")


def tries_history():
    """Each version of a room is shown, with its edit, and so is a file that was kept."""
    line = Socket(f"ws://127.0.0.1:{server.port}", "past")
    session = line({"t": "join"})["s"]
    line({"t": "ins", "s": session, "n": 1, "v": 0, "k": 0, "x": "helo"})
    line({"t": "pull", "s": session, "have": 0, "max": 64})
    line({"t": "ins", "s": session, "n": 2, "v": 4, "k": 3, "x": "l"})
    line({"t": "del", "s": session, "n": 3, "v": 4, "k": 0, "c": 1})
    kept = line({"t": "ops", "after": 0, "max": 64})
    line({"t": "leave", "s": session})
    line.close()
    page = History(PAGES, server.port, "past")
    until(lambda: "version 6 of 6" in page.told, "the newest version")
    shown = {6: "<del>h</del>ello", 5: "hel<mark>l</mark>o", 4: "hel<mark>o</mark>", 1: "<mark>h</mark>", 0: ""}
    for version, text in shown.items():
        page.go(version)
        assert page.html == text, (version, page.html)
    page.go(5)
    assert page.copied() == "hello", page.copied()
    until(lambda: "copied version 5" in page.told, "the text of then is copied")
    page.press("play")
    until(lambda: "version 6 of 6" in page.told, "it plays to the end")
    with tempfile.NamedTemporaryFile("w", suffix=".ops") as file:
        file.write(json.dumps(kept) + "\n" + '{"cut')
        file.flush()
        page.choose(file.name)
        until(lambda: ".ops: version 6 of 6" in page.told, "a kept file")
    with tempfile.NamedTemporaryFile("w", suffix=".txt") as file:
        file.write("no log\n")
        file.flush()
        page.choose(file.name)
        until(lambda: "is no kept file" in page.told, "another file")
    page.drop("dropped.ops", json.dumps(kept) + "\n")
    until(lambda: "dropped.ops: version 6 of 6" in page.told, "a file that is dropped")
    wrong = ((server.port, "nowhere", "no room of this name"), (1, "past", "no server answers"), ("x", "past", "no address"))
    for port, room, told in wrong:
        page.open(port, room)
        until(lambda: told in page.told, told)
    page.quit()


def tries_long_history():
    """131,072 versions are open within two seconds, and a step of the slider takes 50 milliseconds at most."""
    fill("full", 0)
    page = History(PAGES, server.port, "past")
    opened = page.opens("full", "version 131,072 of 131,072")
    steps = sorted(min(page.timed(version) for _ in range(3)) for version in (1, 40_000, 65_536, 100_000, 131_071, 131_072))
    print(f"131,072 versions were open in {opened:.0f} ms, and a step of the slider took {steps[0]:.0f} to {steps[-1]:.0f} ms")
    assert opened <= 2_000 and steps[-1] <= 50, (opened, steps)
    page.quit()


def written(page, language):
    """The first example of a page in a language, for the room `walk` of the server."""
    (example,) = re.findall(f"```{language}\n(.*?)```", (pathlib.Path(top) / page).read_text(encoding="utf-8"), re.S)[:1]
    return example.replace("127.0.0.1:7878", f"127.0.0.1:{server.port}").replace('"notes"', '"walk"')


def tries_walk():
    """What README and the pages of the clients tell an author to write: a text area in ten lines, a script that sends and ends, and a
    chat."""
    with tempfile.TemporaryDirectory() as folder:
        module = pathlib.Path(shutil.copytree(f"{top}/clients/js", f"{folder}/clients/js"))
        (pathlib.Path(folder) / "index.html").write_text(written("README.md", "html"), encoding="utf-8")
        (module / "index.html").write_text(written("clients/js/README.md", "html"), encoding="utf-8")
        (module / "script.mjs").write_text(written("clients/js/README.md", "js"), encoding="utf-8")
        (module / "chat.py").write_text(written("clients/python/README.md", "python"), encoding="utf-8")
        pages = serve_pages(folder, Bare)
        window = Walk(f"{pages}/clients/js", server.port)
        until(lambda: window.told == "walk: saved", "the page's example")
        window.type("from the page\n")
        until(lambda: window.state == "up to date", "it is sent")
        front = Walk(pages, server.port)
        until(lambda: front.text == "from the page\n", "what README tells to write has the text")
        front.type("from README\n")
        until(lambda: front.run("return document.getElementById('status').textContent") == "up to date", "its line is sent")
        until(lambda: window.text == "from the page\nfrom README\n", "its line")
        front.quit()
        said = window.run("const { width, height } = document.querySelector('.said').getBoundingClientRect(); return [width, height]")
        assert said == [1, 1], f"what is read out isn't seen, without a style of the page: {said}"
        node = ["node", *(["--experimental-websocket"] if NODE < 22 else []), str(module / "script.mjs")]
        done = subprocess.run(node, capture_output=True, text=True, timeout=20)
        assert (done.returncode, done.stderr) == (0, "") or "ExperimentalWarning" in done.stderr, done
        until(lambda: window.text == "from the page\nfrom README\none more line\n", "the script's line")
        chat = [sys.executable, "-B", str(module / "chat.py"), f"ws://127.0.0.1:{server.port}", "walk"]
        environment = {**os.environ, "PYTHONPATH": f"{top}/clients/python"}
        pipes = {"stdin": subprocess.PIPE, "stdout": subprocess.PIPE, "text": True, "env": environment}
        chats = [subprocess.Popen(chat, **pipes) for _ in range(2)]
        chats[0].stdin.write("hello\n")
        chats[0].stdin.flush()
        until(lambda: window.text.endswith("line\nhello\n"), "the chat's line")
        time.sleep(1.5)
        told = [it.communicate()[0] for it in chats]
        assert told == ["from the page\nfrom README\none more line\nhello\n"] * 2 and all(it.returncode == 0 for it in chats), told
        window.quit()


def tries_text_of_before():
    """What an editor had before it is bound is replaced, and told."""
    files = ("textarea", "memory_room", "rgatext")
    replaced = windows[0].driver.execute_async_script(
        "const [files, done] = arguments; Promise.all(files.map((it) => import(`/clients/js/${it}.js`))).then((modules) => {"
        "const { bindTextarea, MemoryRoom, Session } = Object.assign({}, ...modules), room = new MemoryRoom();"
        "const session = new Session(() => room.connect()), area = document.createElement('textarea');"
        "area.value = 'a draft'; const binding = bindTextarea(session, area);"
        "session.close().then(() => done([binding.replaced, area.value])); })",
        files,
    )
    assert replaced == ["a draft", ""], replaced


def tries_bad_address_beside_a_room():
    """A bad address is told, and the room that is open goes on, and tells how it stands."""
    window = Window(PAGES, server.port, "walk")
    until(lambda: window.told == "walk: saved", "a room")
    field = window.driver.find_element(By.ID, "server")
    for address in ("nowhere", "ws://127.0.0.1:99999"):
        field.clear()
        field.send_keys(address)
        window.press_open()
        until(lambda: f"{address} can't be opened" in window.told, "a bad address is told")
        window.type("x")
        until(lambda: window.told == "walk: saved", "the room goes on")
    window.quit()


def tries_missing_lib():
    window = Window(serve_pages(top, Bare), server.port)
    window.driver.get(f"{window.pages}/examples/codemirror/")
    until(lambda: "lib isn't there" in window.told, "a missing lib is told")
    window.quit()


def tries_undo():
    undo, redo = Keys.CONTROL + "z", Keys.CONTROL + Keys.SHIFT + "z"
    windows[0].type("mine ")
    same("mine", "mine ")
    windows[1].select(2, 2)
    windows[1].type("THEIRS")
    same("theirs within", "miTHEIRSne ")
    windows[0].type(undo)
    same("undone", "THEIRS")
    windows[0].type(redo)
    same("done again", "miTHEIRSne ")
    for place in (11, 2):
        windows[0].select(place, place)
        windows[0].type(Keys.BACKSPACE * 2)
    same("two deletions", "THEIRSn")
    for wanted in ("miTHEIRSn", "miTHEIRSne "):
        windows[0].type(undo)
        same("a deletion undone", wanted)
    for wanted, keys in (("miTHEIRSn", redo), ("THEIRSn", Keys.CONTROL + "y")):
        windows[0].type(keys)
        same("a deletion done again", wanted)
    clear("undo")


def tries_cut_lines():
    for n in range(5):
        cable.cut(functools.partial(windows[0].type, str(n)))
    same("cut lines", "01234")
    probe = Session(Socket(f"ws://127.0.0.1:{server.port}", "notes"))
    assert probe.session == 3, f"cut lines cost sessions: the next one is {probe.session}"
    probe.leave()
    probe.ask.close()
    clear("cut lines")


def tries_another_run():
    windows[0].type("kept here")
    same("before the server is killed", "kept here")
    server.kill()
    windows[0].type("!")
    server.start(site=2)
    until(lambda: all(it.state == "another text" for it in windows), "an empty room", 30)
    assert windows[0].text == "kept here!" and windows[1].text == "kept here", [it.text for it in windows]
    own = windows[0].run("return document.querySelector('.own').innerHTML")
    assert own == "<mark>kept here!</mark>" and not windows[0].is_hidden("texts"), own
    windows[0].click("mine")
    until(lambda: windows[0].state == "up to date", "mine is put in")
    windows[1].click("theirs")
    same("another run", "kept here!")
    clear("another run")


def tries_refilled_run():
    windows[0].type("carried over")
    same("before the room is carried over", "carried over")
    line = Socket(f"ws://127.0.0.1:{server.port}", "notes")
    told = [line({"t": "ops", "after": at, "max": 64})["ops"] for at in range(0, line({"t": "read"})["v"], 64)]
    line.close()
    server.kill()
    server.start(site=1)
    until(lambda: all(it.state == "another text" for it in windows), "a room that nobody has refilled", 30)
    line = Socket(f"ws://127.0.0.1:{server.port}", "notes")
    for ops in told:
        line({"t": "put", "ops": ops})
    line.close()
    until(lambda: all(it.state == "up to date" for it in windows), "a room that was refilled", 30)
    windows[1].select(0, 0)
    windows[1].type("all ")
    same("a refilled run", "all carried over")
    clear("a refilled run")


def tries_kept_run():
    with tempfile.TemporaryDirectory() as folder:
        kept = Server(PROGRAM, "notes", folder=folder)
        both = [Window(PAGES, kept.port) for _ in range(2)]
        both[0].type("kept here")
        until(lambda: both[1].text == "kept here", "before the server is killed")
        time.sleep(2.5)
        kept.kill()
        both[0].type("!")
        kept.start()
        until(lambda: all((it.text, it.state) == ("kept here!", "up to date") for it in both), "a room that was kept", 30)
        both[1].select(0, 0)
        both[1].type("all ")
        until(lambda: all((it.text, it.state) == ("all kept here!", "up to date") for it in both), "a kept room goes on")
        for it in both:
            it.quit()
        kept.kill()


def tries_renewed_run():
    """A room begins anew while a text area and CodeMirror type in it, and another window reads: all go on, carets and undoing too. (It gains
    an operation by that, since a letter was deleted.)"""
    with tempfile.TemporaryDirectory() as folder:
        kept = Server(PROGRAM, "--renew", "notes", folder=folder)
        both = [Window(PAGES, kept.port), Mirror(PAGES, kept.port, "notes")]
        reader = Mirror(PAGES, kept.port, "notes")
        all_show = lambda text: all(it.text == text and it.state == "up to date" for it in (*both, reader))
        both[0].type("one three.")
        until(lambda: all_show("one three."), "before a letter is deleted that the room has")
        both[0].type(Keys.BACKSPACE)
        until(lambda: all_show("one three"), "before the room is renewed")
        both[1].select(4, 4)
        both[1].type("two ")
        until(lambda: all_show("one two three"), "both have typed")
        both[0].select(3, 3)
        pathlib.Path(folder, "renew").touch()
        old, typed = pathlib.Path(folder, "notes.1.ops"), []
        until(lambda: old.exists() or both[1].type("x") or typed.append("x"), "the room begins anew while somebody types", 30)
        until(lambda: all_show(both[0].text), "all go on in the new document", 30)
        assert both[0].text == f"one two {''.join(typed)}three", (both[0].text, len(typed))
        both[0].type("!")
        until(lambda: all_show("one! three") or both[1].type(Keys.CONTROL + "z"), "the caret, and undoing what one typed, are as before", 30)
        for it in (*both, reader):
            it.quit()
        kept.kill()


def tries_origins():
    """A server that keeps its rooms lets pages of this machine in, from each port and by each name, and those of another name where that is
    named."""
    elsewhere = PAGES.replace("127.0.0.1", ELSEWHERE)
    kept = Server(PROGRAM, "notes", folder=tempfile.mkdtemp())
    open_to = Server(PROGRAM, "--origin", elsewhere, "notes", folder=tempfile.mkdtemp())
    for page in (PAGES, PAGES.replace("127.0.0.1", "localhost"), serve_pages(top)):
        window = Window(page, kept.port)
        until(lambda: window.state == "up to date", f"a page of {page}")
        window.quit()
    for there, is_in in ((kept, False), (open_to, True)):
        window = Window(elsewhere, there.port)
        until(lambda: window.state == ("up to date" if is_in else "offline"), f"a page of {elsewhere}, {is_in}")
        window.quit()
        there.kill()


def tries_65_windows():
    line = Socket(f"ws://127.0.0.1:{server.port}", "notes")
    sessions = []
    while (joined := line({"t": "join"}))["r"] == "joined":
        sessions.append(joined["s"])
    third = Window(PAGES, server.port)
    until(lambda: "64" in third.told, "the 65th is told that the room is taken")
    line({"t": "leave", "s": sessions[0]})
    until(lambda: third.state == "up to date", "one has left", 30)
    third.quit()
    for it in sessions[1:]:
        line({"t": "leave", "s": it})
    line.close()


def tries_leaving():
    """Who leaves text that isn't in the room is asked before."""
    windows[0].type("sent")
    same("a text that is sent", "sent")
    until(lambda: windows[0].state == "up to date", "all is sent")
    assert not windows[0].asks_before_leaving, "it asks though all is sent"
    cable.hold()
    windows[0].type(" unsent")
    assert windows[0].asks_before_leaving, "it doesn't ask"
    windows[0].press_open()
    windows[0].driver.switch_to.alert.dismiss()
    assert windows[0].text == "sent unsent", windows[0].text
    windows[0].press_open()
    windows[0].driver.switch_to.alert.accept()
    assert windows[0].text == "", windows[0].text
    cable.end()
    until(lambda: all(it.state == "up to date" for it in windows), "it is opened anew")
    same("opened anew")
    clear("leaving")


def fill(room, left):
    """Puts lines in until the room takes so many more changes."""
    line = Socket(f"ws://127.0.0.1:{server.port}", room)
    joined = line({"t": "join"})
    version, number = joined["v"], 0
    while (missing := OPERATIONS - left - version) > 0:
        text = ("x" * 63 + "\n")[-missing:]
        version = line({"t": "ins", "s": joined["s"], "n": (number := number + 1), "v": joined["v"], "k": 0, "x": text})["to"]
    line({"t": "leave", "s": joined["s"]})
    line.close()


def tries_full_room():
    fill("full", 6_400)
    window = Window(PAGES, server.port, "full")
    windows.append(window)
    until(lambda: "95 % full and takes 6,400 more" in window.told, "a scarce room is told")
    window.put("y" * 6_401, 0, 0)
    until(lambda: "didn't fit" in window.told, "a paste that doesn't fit")
    assert "y" not in window.text, "it is shown as if it were in the room"
    window.put("z" * 6_000, 0, 0)
    fill("full", 3_000)
    until(lambda: "refused: the room is full" in window.told, "a room that gets full amid a paste", 60)
    line = Socket(f"ws://127.0.0.1:{server.port}", "full")
    sent = line({"t": "read"})["x"].count("z")
    line.close()
    lost = window.run("return document.querySelector('.lost').textContent")
    assert 0 < sent < 6_000 and lost == "put in: " + "z" * (6_000 - sent), (sent, len(lost))
    assert window.text.count("z") == 6_000 and window.run(f"return {AREA}.readOnly"), "what was pasted isn't kept"
    assert window.is_hidden("mine") and window.saved() == window.text, "what is shown can't be saved"
    windows.pop().quit()


def tries_bad_addresses():
    window = Window(PAGES, server.port, "nowhere")
    until(lambda: "no room of this name" in window.told, "a missing room")
    window.run("document.getElementById('server').value = 'nonsense'")
    window.press_open()
    until(lambda: "an address is ws://" in window.told, "a bad address")
    window.quit()


def tries_codemirror():
    both = [Mirror(PAGES, server.port, "mirror") for _ in range(2)]
    show = lambda text, what: until(lambda: all(it.text == text and it.state == "up to date" for it in both), what, 30)
    show("", "both have joined")
    both[0].type("mine")
    show("mine", "CodeMirror shows others' text")
    both[1].select(2, 2)
    both[1].type("X")
    show("miXne", "and the other way")
    both[0].type(Keys.CONTROL + "z")
    show("X", "an undo leaves others' text")
    both[0].type(Keys.CONTROL + Keys.SHIFT + "z")
    show("miXne", "done again")
    for place in (5, 2):
        both[0].select(place, place)
        both[0].type(Keys.BACKSPACE)
    show("mXn", "two deletions")
    for wanted in ("miXn", "miXne"):
        both[0].type(Keys.CONTROL + "z")
        show(wanted, "a deletion undone")
    both[0].run(f"{Mirror.EDITOR}.replaceRange('\\ud83d', {{line: 0, ch: 5}})")
    show("miXne\ufffd", "half a pair is none")
    server.kill()
    server.start()
    until(lambda: all(it.state == "another text" for it in both), "an empty room", 30)
    both[0].click("mine")
    show("miXne\ufffd", "another run")
    for it in both:
        it.quit()


def tries_codemirror_scroll():
    """The line of the caret stays where it is seen, whether others type above it or below."""
    both = [Mirror(PAGES, server.port, "scrolled") for _ in range(2)]
    both[0].put("line\n" * 200, 0, 0)
    until(lambda: both[1].text == both[0].text != "", "200 lines")
    caret = f"{Mirror.EDITOR}.cursorCoords(true, 'page').top"
    both[0].select(500, 500)
    both[0].run(f"const it = {Mirror.EDITOR}; it.scrollTo(null, it.heightAtLine(95, 'local'))")
    before = both[0].run(f"return {caret}")
    for text, place in (("above\n" * 10, 0), ("below\n" * 10, 900)):
        both[1].put(text, place, place)
        until(lambda: both[1].text == both[0].text, text)
        moved = both[0].run(f"return {caret}") - before
        assert abs(moved) < 3, f"the caret moved by {moved} pixels where others typed {text[:5]}"
    for it in both:
        it.quit()


def tries_codemirror_in_a_full_room():
    fill("scarce", 40)
    window = Mirror(PAGES, server.port, "scarce")
    until(lambda: "takes 40 more" in window.told, "a room with forty left")
    window.put("", 0, 30)
    until(lambda: window.state == "up to date" and "takes 10 more" in window.told, "a deletion of thirty")
    text = window.text
    for _ in range(2):
        window.type(Keys.CONTROL + "z")
        assert window.text == text and "takes 10 more" in window.told, "an undo that doesn't fit is begun"
    window.quit()


windows = []
PAGES = serve_pages(top)
server = Server(PROGRAM, "notes", "pasted", "full", "mirror", "scarce", "past", "returns", "walk", "scrolled")
cable = Cable(server.port)
try:
    windows = [Window(PAGES, cable.port), Window(PAGES, server.port)]
    until(lambda: all(it.state == "up to date" for it in windows), "both have joined")
    writing = (tries_typing, tries_selection, tries_scroll, tries_composition, tries_undo, tries_leaving)
    for attempt in (tries_cut_lines, *writing, tries_another_run, tries_refilled_run):
        attempt()
        print(attempt.__name__.removeprefix("tries_").replace("_", " "))
    rooms = (tries_kept_run, tries_renewed_run, tries_origins, tries_65_windows, tries_full_room, tries_bad_addresses)
    others = (tries_bad_address_beside_a_room, tries_missing_lib, tries_text_of_before)
    mirrors = (tries_carriage_returns, tries_codemirror, tries_codemirror_scroll, tries_codemirror_in_a_full_room)
    for attempt in (tries_walk, tries_widths, tries_history, *rooms, *others, *mirrors, tries_pastes, tries_long_history):
        attempt()
        print(attempt.__name__.removeprefix("tries_").replace("_", " "))
    print("tests/try_editor_page: all as it should be")
finally:
    for it in windows:
        it.quit()
    server.kill()
