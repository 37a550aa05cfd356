"""Editors in terminals of tmux, for tests/try_editors: what is typed are keys, and what each shows is asked of the editor."""
import json
import pathlib
import subprocess
import time

TOP = pathlib.Path(__file__).resolve().parents[2]


class Terminal:
    """A program in a terminal."""

    def __init__(self, work, name, command):
        self.work, self.name, self.tmux = work, name, ["tmux", "-f", "/dev/null", "-S", str(work / "tmux")]
        self.file = work / f"{name}.text"
        words = [*self.tmux, "new-session", "-d", "-s", name, "-x", "80", "-y", "20", "env", "TERM=tmux-256color", "LC_ALL=C.UTF-8"]
        subprocess.run([*words, *command], check=True)

    def run(self, *words):
        return subprocess.run([*self.tmux, *words, "-t", self.name], capture_output=True, text=True)

    def keys(self, *keys):
        """Types keys: a text as it is, and keys of tmux in lists."""
        for it in keys:
            words = ["send-keys", "-t", self.name, *([*it] if isinstance(it, list) else ["-l", "--", it])]
            subprocess.run([*self.tmux, *words], check=True)
            time.sleep(0.05)

    def paste_at_once(self, text):
        """Pastes as a terminal does: in brackets, and with CRs for LFs."""
        subprocess.run([*self.tmux, "load-buffer", "-"], input=text.encode(), check=True)
        self.run("paste-buffer", "-p")

    def paste_in_parts(self, text):
        """The same over a slow line."""
        keys = text.replace("\n", "\r")
        self.keys("\x1b[200~", *(keys[at : at + 300] for at in range(0, len(keys), 300)), "\x1b[201~")

    @property
    def screen(self):
        return self.run("capture-pane", "-p").stdout

    @property
    def is_there(self):
        return self.run("has-session").returncode == 0

    def asked(self, words):
        run = subprocess.run(words, stdin=subprocess.DEVNULL, stdout=subprocess.PIPE, stderr=subprocess.STDOUT, text=True, timeout=20)
        return run.stdout.strip()

    def read(self):
        return self.file.read_bytes().decode(errors="surrogateescape") if self.file.exists() else ""

    def quit(self):
        self.run("kill-session")


class Neovim(Terminal):
    """A room in Neovim. It is in normal mode between what is typed."""

    def __init__(self, work, name, port, room="notes"):
        self.socket = work / f"{name}.socket"
        path = f"set runtimepath^={TOP}/clients/neovim"
        super().__init__(work, name, ["nvim", "--clean", "--listen", str(self.socket), "--cmd", path, f"ws://127.0.0.1:{port}/{room}"])

    def ask(self, expression):
        if not self.socket.exists():
            return ""
        return self.asked(["nvim", "--headless", "--server", str(self.socket), "--remote-expr", expression])

    @property
    def text(self):
        self.ask(f"writefile(getline(1, '$'), '{self.file}', 'bS')")
        return self.read()

    @property
    def state(self):
        return self.ask("get(b:, 'rgatext', '')")

    def do(self, command):
        """Does a command of the command line."""
        self.keys(":" + command, ["Enter"])

    def put(self, text, is_end=False):
        """Types a text at the beginning, or at the end."""
        self.keys("GA" if is_end else "gg0i", text, ["Escape"])

    def undo(self, times=""):
        self.keys(f"{times}u")

    def undo_otherwise(self):
        self.keys("U")

    def redo(self):
        self.keys(["C-r"])

    def paste(self, text):
        """Puts a text in at the beginning, in one piece."""
        self.ask(f"setreg('a', {json.dumps(text)})")
        self.keys('gg0"aP')

    @property
    def pid(self):
        return self.ask("getpid()")

    def clear(self):
        self.do("%d _")

    def turn_read_only(self):
        """The user doesn't want the text to be changed, or does so again."""
        self.do("set modifiable!")

    def replace(self):
        self.do("%s/the/some/g")

    refuses = "E37"
    gives_up = ["C-c"]

    def show_unsent(self):
        self.do("RgatextUnsent")

    def show_other(self):
        self.do("RgatextOther")

    def save(self):
        self.do("write")

    def ask_to_leave(self):
        self.do("quit")

    def stay(self):
        self.keys(["Enter"])

    def end(self):
        self.do("wq")

    def choose(self, whose):
        self.do(f"Rgatext{whose.capitalize()}")


class Emacs(Terminal):
    """A room in Emacs."""

    def __init__(self, work, name, port, room="notes"):
        self.socket, self.buffer = work / f"{name}.socket", f"ws://127.0.0.1:{port}/{room}"
        start = f'(setq server-name "{self.socket}" ring-bell-function #\'ignore) (server-start)'
        # (a child that is stopped Emacs doesn't talk to: that is a shell, and the program is its child)
        shell = '(setq rgatext-node (append (list "sh" "-c" "node \\"$@\\"; exit" "sh") (cdr rgatext-node)))'
        began = f'(progn {start} {shell} (rgatext "ws://127.0.0.1:{port}" "{room}"))'
        super().__init__(work, name, ["emacs", "-nw", "-Q", "-l", str(TOP / "clients" / "emacs" / "rgatext.el"), "--eval", began])

    def ask(self, expression):
        return self.asked(["emacsclient", "-s", str(self.socket), "-e", f'(with-current-buffer "{self.buffer}" {expression})'])

    @property
    def text(self):
        save = f'(write-region 1 (1+ (buffer-size)) "{self.file}" nil 0)'
        self.ask(f"(save-restriction (widen) (let ((coding-system-for-write 'utf-8-unix)) {save}))")
        return self.read()

    @property
    def state(self):
        told = self.ask("(plist-get rgatext--told :words)")
        return json.loads(told) if told.startswith('"') else ""

    def do(self, command):
        """Does a command by its name."""
        self.keys(["M-x"], command, ["Enter"])

    def put(self, text, is_end=False):
        """Types a text at the beginning, or at the end."""
        self.keys(["M->" if is_end else "M-<"], text)

    def undo(self, times=""):
        self.keys(*([["C-u"], times] if times else []), ["C-_"])

    def undo_otherwise(self):
        self.keys(["C-x"], "u")

    def redo(self):
        self.keys(["C-M-_"])

    def paste(self, text):
        """Puts a text in at the beginning, in one piece."""
        self.ask(f"(kill-new {json.dumps(text)})")
        self.keys(["M-<", "C-y"])

    @property
    def pid(self):
        return self.ask("(emacs-pid)")

    def clear(self):
        if self.text != "":  # (an error would throw away the keys that follow)
            self.keys(["C-x"], "h", ["DC"])

    def turn_read_only(self):
        self.keys(["C-x", "C-q"])

    def replace(self):
        self.keys(["M-<", "M-%"], "the", ["Enter"], "some", ["Enter"], "!")

    refuses = "isn't in the room. Leave it?"
    gives_up = ["C-g"]

    def show_unsent(self):
        self.do("rgatext-unsent")

    def show_other(self):
        self.do("rgatext-other")

    def save(self):
        self.keys(["C-x", "C-s"])

    def ask_to_leave(self):
        self.keys(["C-x"], "k", ["Enter"])

    def stay(self):
        self.keys("no", ["Enter"])

    def end(self):
        self.keys(["C-x", "C-c"])

    def choose(self, whose):
        self.do({"mine": "rgatext-put-mine", "theirs": "rgatext-take-theirs"}[whose])
