"""A shell on a terminal in tmux, for `tools/live_check`: types, waits for what is expected, and reports differences."""
import os
import pathlib
import re
import subprocess
import time

ROOT = pathlib.Path(__file__).resolve().parent.parent
SIZE = (60, 12)
PATIENCE = 8
# What ./live and tmux need, whatever the locale and the terminal of the caller are.
ENVIRONMENT = {**os.environ, "LC_ALL": "C.UTF-8", "TERM": "xterm"}
MODES = ["cursor_x", "cursor_y", "alternate_on", "cursor_flag", "wrap_flag", "insert_flag", "origin_flag", "keypad_flag"]


class Tmux:
    """A shell on a terminal, in its own tmux server."""

    def __init__(self, folder):
        self.folder, self.socket = folder, f"live_check_{os.getpid()}"
        self.wrong, self.passed, self.marks = [], 0, 0
        shell = "env -u ENV PS1='ready> ' sh"
        self.call("-f", "/dev/null", "new-session", "-d", "-x", str(SIZE[0]), "-y", str(SIZE[1]), "-c", str(folder), shell)
        self.call("set", "-g", "status", "off")
        self.resize(*SIZE)
        self.until("the shell", lambda: self.screen() == "ready>")
        self.modes = re.sub(r"(cursor_[xy])=\d+", lambda found: f"{found[1]}={{{found[1][-1]}}}", self.query(MODES))
        self.lines = self.run("stty -a")

    def call(self, *arguments):
        return subprocess.run(["tmux", "-L", self.socket, *arguments], check=True, capture_output=True, encoding="utf-8", env=ENVIRONMENT).stdout

    def screen(self):
        return "\n".join(line.rstrip() for line in self.call("capture-pane", "-p").split("\n")).rstrip()

    def query(self, names):
        return self.call("display-message", "-p", " ".join(f"{name}=#{{{name}}}" for name in names)).strip()

    def keys(self, *names):
        self.call("send-keys", *names)

    def text(self, text):
        self.call("send-keys", "-l", text)

    def paste(self, text):
        """Pastes a text. It is between the bytes of a bracketed paste if the program has asked for them."""
        self.call("set-buffer", text)
        self.call("paste-buffer", "-p", "-d")

    def resize(self, width, height):
        """Resizes the terminal, and waits until it has the new size, which tmux sets a little later."""
        self.call("resize-window", "-x", str(width), "-y", str(height))
        terminal = os.open(self.query(["pane_tty"]).partition("=")[2], os.O_RDONLY | os.O_NOCTTY)
        end = time.monotonic() + PATIENCE
        while os.get_terminal_size(terminal) != (width, height) and time.monotonic() < end:
            time.sleep(0.05)
        os.close(terminal)

    def until(self, name, holds):
        """Waits until `holds` is true, and reports a failure if this takes too long."""
        end = time.monotonic() + PATIENCE
        while not holds():
            if time.monotonic() > end:
                self.wrong.append(name)
                print(f"{name}: expected, but did not happen; the screen:\n{self.screen()}\n{self.query(MODES)}", flush=True)
                return
            time.sleep(0.05)
        self.passed += 1

    def shows(self, name, *expected):
        self.until(name, lambda: all(text in self.screen() for text in expected))

    def run(self, line):
        """Runs a line in the shell, and returns its output, which goes to the file `out`."""
        self.marks += 1
        done = self.folder / f"done{self.marks}"
        self.text(f"{line} >out 2>&1; touch done{self.marks}")
        self.keys("Enter")
        self.until(line, done.exists)
        return (self.folder / "out").read_text(encoding="utf-8")

    def type(self, line):
        self.text(line)
        self.keys("Enter")

    def start(self, command, row="size", before="", after="", live="./live"):
        """Starts ./live below three rows of a screen. Its exit status goes to the file `status`."""
        (self.folder / "status").unlink(missing_ok=True)
        self.type("clear; seq 3")
        self.until("a screen of three rows", lambda: self.screen() == "1\n2\n3\nready>")
        self.job = f"{before}{live} {command}{after}"
        self.line = f"{self.job}; echo $? >status"
        self.type(self.line)
        self.shows(f"the start of {command}", row)

    def status(self):
        file = self.folder / "status"
        return file.read_text(encoding="utf-8").strip() if file.exists() else None

    def ended(self, name, status, *output):
        """Expects that the program has ended, and that the terminal is as before, with the given output."""
        self.restored(name, status, ["1", "2", "3", f"ready> {self.line}", *output])

    def ended_after_fg(self, name, status, *output):
        """Expects the same after `clear; fg; echo $? >status`. The shell then writes which job it continues."""
        self.restored(name, status, [self.job, *output])

    def restored(self, name, status, rows):
        """Expects an exit status, and that the terminal is as before, with these rows and the prompt on the screen."""
        if status is not None:
            self.until(f"{name}: status {status}", lambda: self.status() == str(status))
        rows = [*rows, "ready>"]
        modes = self.modes.format(x=7, y=len(rows) - 1)
        self.until(f"{name}: the screen", lambda: self.screen() == "\n".join(rows))
        self.until(f"{name}: the modes {modes}", lambda: self.query(MODES) == modes)
        self.until(f"{name}: no process left", lambda: self.left() == [])
        self.equal(f"{name}: stty -a", self.run("stty -a"), self.lines)

    def equal(self, name, found, expected):
        if found == expected:
            self.passed += 1
        else:
            self.wrong.append(name)
            print(f"{name}:\n{found}\nexpected:\n{expected}", flush=True)

    def running(self):
        """Returns the processes on this terminal except its shell: the number, the parent's and the command line of each."""
        terminal = self.query(["pane_tty"]).partition("=")[2].removeprefix("/dev/")
        found = subprocess.run(["ps", "-t", terminal, "-o", "pid=,ppid=,args="], capture_output=True, text=True).stdout.splitlines()
        return [tuple(line.split(None, 2)) for line in found if line.split(None, 2)[2] != "sh"]

    def left(self):
        return [command for *_, command in self.running()]

    def process(self, name):
        """Returns the number of the process whose command line contains a name, and its parent's does not.

        Subshells of ./live have its command line too. Their numbers are not always greater than its own."""
        named = {number: parent for number, parent, command in self.running() if name in command}
        return int(next(number for number, parent in named.items() if parent not in named))
