"""What tests/try_editor_page looks at: windows of both pages, a server, and a line that may be cut."""

import functools
import http.server
import pathlib
import socket
import subprocess
import sys
import tempfile
import threading
import time

from serving import free_port
from selenium import webdriver
from selenium.webdriver.common.by import By

CODEMIRROR = "usr/share/javascript/codemirror"  # where Debian has it, below the root
ELSEWHERE = "pages.test"  # a name that the windows take for this machine's
AREA = "document.getElementById('text')"


class Handler(http.server.SimpleHTTPRequestHandler):
    """The checkout, where examples/codemirror/lib is Debian's."""

    def translate_path(self, path):
        head, _, rest = path.partition("/examples/codemirror/lib/")
        return str(pathlib.Path("/", CODEMIRROR, rest)) if rest and not head else super().translate_path(path)

    def log_message(self, *_):
        pass


class Bare(http.server.SimpleHTTPRequestHandler):
    """The folder as it is."""

    def log_message(self, *_):
        pass


def serve_pages(folder, handler=Handler):
    """Serves a folder at a port of this machine: the origin of its pages."""
    pages = http.server.ThreadingHTTPServer(("127.0.0.1", 0), functools.partial(handler, directory=str(folder)))
    threading.Thread(target=pages.serve_forever, daemon=True).start()
    return f"http://127.0.0.1:{pages.server_address[1]}"


class Server:
    """`rgatext serve`, which may be killed and started anew at the same port, and keeps its rooms in a folder if there is one."""

    def __init__(self, program, *rooms, folder=None):
        self.program, self.rooms, self.port, self.folder = program, rooms, free_port(), folder
        self.start()

    def start(self, site=0):
        how = ["--keep", self.folder, "--every", "1"] if self.folder else ["--site", str(site)]
        words = ["serve", "--port", str(self.port), *how, *self.rooms]
        self.child = subprocess.Popen([self.program, *words], stdout=subprocess.PIPE)
        assert self.child.stdout.readline() == f"listening {self.port}\n".encode()

    def kill(self):
        self.child.kill()
        self.child.wait()


class Cable:
    """A line to a port that may be cut. Where it holds, the next `ok` and all that is answered since never arrive."""

    def __init__(self, port):
        self.target, self.pairs, self.holds, self.held = port, [], False, b""
        self.listener = socket.create_server(("127.0.0.1", 0))
        self.port = self.listener.getsockname()[1]
        threading.Thread(target=self.accept, daemon=True).start()

    def accept(self):
        while True:
            near, _ = self.listener.accept()
            try:
                far = socket.create_connection(("127.0.0.1", self.target))
            except OSError:
                near.close()
                continue
            self.pairs.append((near, far))
            threading.Thread(target=self.carry, args=(near, far, False), daemon=True).start()
            threading.Thread(target=self.carry, args=(far, near, True), daemon=True).start()

    def carry(self, source, sink, is_answer):
        try:
            while data := source.recv(65536):
                if is_answer and self.holds and (self.held or b'"ok"' in data):
                    self.held += data
                else:
                    sink.sendall(data)
        except OSError:
            pass
        for it in (source, sink):
            it.close()

    def hold(self):
        self.holds, self.held = True, b""

    def cut(self, do):
        """Cuts once the answer to a submission is held that what is done leads to."""
        self.hold()
        do()
        end = time.monotonic() + 5
        while not self.held:
            if time.monotonic() > end:
                sys.exit("no submission was answered in five seconds")
            time.sleep(0.05)
        self.end()

    def end(self):
        for pair in self.pairs:
            for it in pair:
                try:
                    it.shutdown(socket.SHUT_RDWR)
                except OSError:
                    pass
        self.pairs.clear()
        self.holds = False


class Window:
    """A window with the page of examples/editor."""

    def __init__(self, pages, port, room="notes"):
        self.pages = pages
        options = webdriver.ChromeOptions()
        names = f"--host-resolver-rules=MAP {ELSEWHERE} 127.0.0.1"
        for word in ("--headless", "--no-sandbox", "--disable-gpu", "--window-size=800,720", names):
            options.add_argument(word)
        self.driver = webdriver.Chrome(options=options)
        self.open(port, room)

    def open(self, port, room):
        self.driver.get(f"{self.pages}/examples/editor/")
        for name, text in (("server", f"ws://127.0.0.1:{port}"), ("room", room)):
            field = self.driver.find_element(By.ID, name)
            field.clear()
            field.send_keys(text)
        self.press_open()

    def press_open(self):
        self.driver.find_element(By.TAG_NAME, "button").click()

    def run(self, script, *arguments):
        return self.driver.execute_script(script, *arguments)

    @property
    def area(self):
        return self.driver.find_element(By.ID, "text")

    @property
    def text(self):
        return self.run(f"return {AREA}.value")

    @property
    def state(self):
        """The session's."""
        return self.run("return document.querySelector('.state').dataset.state ?? ''")

    @property
    def told(self):
        """What the page says of it."""
        return self.run("return document.querySelector('.state').textContent")

    def type(self, *keys):
        self.area.send_keys(*keys)

    def select(self, start, end, direction="none"):
        self.run(f"{AREA}.focus(); {AREA}.setSelectionRange(...arguments)", start, end, direction)

    @property
    def selection(self):
        return self.run(f"return [{AREA}.selectionStart, {AREA}.selectionEnd, {AREA}.selectionDirection]")

    def put(self, text, start, end):
        """Puts a text in as a paste does."""
        self.run(f"{AREA}.setRangeText(...arguments, 'end'); {AREA}.dispatchEvent(new Event('input'))", text, start, end)

    def compose(self, *texts):
        for text in texts:
            self.driver.execute_cdp_cmd("Input.imeSetComposition", {"text": text, "selectionStart": len(text), "selectionEnd": len(text)})

    def commit(self, text):
        self.driver.execute_cdp_cmd("Input.insertText", {"text": text})

    def click(self, name):
        self.driver.find_element(By.CLASS_NAME, name).click()

    def is_hidden(self, name):
        return self.run("return document.querySelector(`.${arguments[0]}`).hidden", name)

    @property
    def asks_before_leaving(self):
        return self.run("const it = new Event('beforeunload', { cancelable: true }); dispatchEvent(it); return it.defaultPrevented")

    def saved(self):
        """What the button saves, or nothing where it isn't there yet."""
        with tempfile.TemporaryDirectory() as folder:
            self.driver.execute_cdp_cmd("Page.setDownloadBehavior", {"behavior": "allow", "downloadPath": folder})
            self.click("save")
            for _ in range(100):
                time.sleep(0.05)
                if (file := pathlib.Path(folder, "text.txt")).exists():
                    return file.read_text(encoding="utf-8")
        return None

    def resize(self, width):
        """Shows the page as wide as a screen of so many pixels."""
        screen = {"width": width, "height": 900, "deviceScaleFactor": 1, "mobile": False}
        self.driver.execute_cdp_cmd("Emulation.setDeviceMetricsOverride", screen)

    def quit(self):
        self.driver.quit()


class Mirror(Window):
    """A window with the page of examples/codemirror."""

    EDITOR = "document.querySelector('.CodeMirror').CodeMirror"

    def open(self, port, room):
        self.driver.get(f"{self.pages}/examples/codemirror/?server=ws://127.0.0.1:{port}&room={room}")
        self.run(f"{self.EDITOR}.focus()")

    @property
    def text(self):
        return self.run(f"return {self.EDITOR}.getValue()")

    def type(self, *keys):
        self.driver.switch_to.active_element.send_keys(*keys)

    def select(self, start, end):
        self.run(f"const it = {self.EDITOR}; it.setSelection(...[...arguments].map((place) => it.posFromIndex(place)))", start, end)

    def put(self, text, start, end):
        self.run(
            f"const it = {self.EDITOR}; it.replaceRange(arguments[0], it.posFromIndex(arguments[1]), it.posFromIndex(arguments[2]))",
            text,
            start,
            end,
        )


class Walk(Window):
    """A window with the page of a folder."""

    def open(self, port, room):
        self.driver.get(f"{self.pages}/")


class History(Window):
    """A window with the page of examples/history."""

    def open(self, port, room):
        self.driver.get(f"{self.pages}/examples/history/?server=ws://127.0.0.1:{port}&room={room}")

    @property
    def text(self):
        return self.run("return document.getElementById('text').textContent")

    @property
    def html(self):
        return self.run("return document.getElementById('text').innerHTML")

    def go(self, version):
        self.run("const it = document.getElementById('version'); it.value = arguments[0]; it.dispatchEvent(new Event('input'))", version)

    def opens(self, room, told):
        """Milliseconds until a room is open, and that is told of it."""
        return self.driver.execute_async_script(
            "const [room, told, done] = arguments, began = performance.now();"
            "document.getElementById('room').value = room; document.getElementById('where').requestSubmit();"
            "const look = () => document.getElementById('state').textContent.includes(told)"
            " ? done(performance.now() - began) : setTimeout(look, 5); look();",
            room,
            told,
        )

    def timed(self, version):
        """Milliseconds until a version is shown, laid out."""
        return self.run(
            "const it = document.getElementById('version'), began = performance.now(); it.value = arguments[0];"
            "it.dispatchEvent(new Event('input')); document.getElementById('text').offsetHeight; return performance.now() - began",
            version,
        )

    def press(self, name):
        self.driver.find_element(By.ID, name).click()

    def choose(self, name):
        self.driver.find_element(By.ID, "file").send_keys(name)

    def drop(self, name, text):
        self.run(
            "const data = new DataTransfer(); data.items.add(new File([arguments[1]], arguments[0]));"
            "dispatchEvent(new DragEvent('drop', { dataTransfer: data, cancelable: true }))",
            name,
            text,
        )

    def copied(self):
        """What the button copies."""
        self.driver.execute_cdp_cmd("Browser.grantPermissions", {"permissions": ["clipboardReadWrite", "clipboardSanitizedWrite"]})
        self.press("copy")
        return self.driver.execute_async_script("navigator.clipboard.readText().then(arguments[0], (it) => arguments[0](`${it}`))")
