"""Real terminals that get bytes and report what they show: pyte, libvterm and tmux.

Each has a function that makes it, or returns None if its package is missing. A judge has two methods for a
cell: `shown` returns its symbol and its style, and `expected` what they should be for a pen, in the terms of
this terminal.
"""
import ctypes
import ctypes.util
import os
import pathlib
import re
import shutil
import subprocess
import sys
import tempfile
import time
import unicodedata

from page import BLANK, REST
from adversary import set_by

BOLD, DIM, ITALIC, UNDERLINED, SLOW, RAPID, REVERSED, HIDDEN, CROSSED = (1 << bit for bit in range(9))


def masked(marks, shown, slow_for_rapid=False):
    """Returns the modifiers that a terminal shows. It may show rapid blink as slow blink."""
    if slow_for_rapid and marks & (SLOW | RAPID):
        marks = marks & ~RAPID | SLOW
    return marks & shown


# ---- pyte


class Pyte:
    name = "pyte"
    NAMES = "default black red green brown blue magenta cyan white".split()

    def __init__(self, pyte):
        self.pyte = pyte

    def begin(self, size, junk, known_widths, seed):
        self.screen = self.pyte.Screen(*size)
        self.stream = self.pyte.ByteStream(self.screen)
        self.stream.feed(junk)

    def resize(self, size):
        self.screen.resize(size[1], size[0])

    def feed(self, data, is_cut):
        self.stream.feed(data)

    def end(self):
        pass

    def close(self):
        pass

    def color(self, color):
        """Returns the name in pyte. Bright colours have the names of the others, and the palette has red, green and blue."""
        if color[0] == "name":
            return self.NAMES[color[1] - 8 if color[1] > 8 else color[1]]
        return self.pyte.graphics.FG_BG_256[color[1]] if color[0] == "index" else "%02x%02x%02x" % color[1:]

    def expected(self, symbol, pen):
        """Returns what to expect. A bright colour is bold in pyte."""
        front, back, marks = pen
        bright = any(kind == "name" and value[0] > 8 for kind, *value in (front, back))
        marks |= BOLD if bright else 0
        return symbol, self.color(front), self.color(back), masked(marks, BOLD | ITALIC | UNDERLINED | REVERSED | CROSSED)

    def shown(self, column, row, step):
        cell = self.screen.buffer[row][column]
        bits = [cell.bold, cell.italics, cell.underscore, cell.reverse, cell.strikethrough]
        marks = sum(bit for bit, on in zip([BOLD, ITALIC, UNDERLINED, REVERSED, CROSSED], bits) if on)
        return cell.data, cell.fg, cell.bg, marks


def pyte():
    """Returns pyte. Debian's python3-pyte is where another Python does not look."""
    sys.path.append("/usr/lib/python3/dist-packages")
    try:
        import pyte as found
    except ImportError:
        return None
    finally:
        sys.path.pop()
    return Pyte(found)


# ---- libvterm


class Position(ctypes.Structure):
    _fields_ = [("row", ctypes.c_int), ("column", ctypes.c_int)]


class Cell(ctypes.Structure):
    """VTermScreenCell of libvterm 0.1 to 0.3, up to its colours."""
    _fields_ = [("chars", ctypes.c_uint32 * 6), ("width", ctypes.c_char), ("attributes", ctypes.c_uint32),
                ("front", ctypes.c_uint8 * 4), ("back", ctypes.c_uint8 * 4), ("spare", ctypes.c_uint8 * 32)]


class Vterm:
    name = "libvterm"

    def __init__(self, library):
        self.library, self.terminal = library, None
        for name in ("vterm_new", "vterm_obtain_screen", "vterm_obtain_state"):
            getattr(library, name).restype = ctypes.c_void_p

    def begin(self, size, junk, known_widths, seed):
        self.terminal = ctypes.c_void_p(self.library.vterm_new(size[1], size[0]))
        self.library.vterm_set_utf8(self.terminal, 1)
        self.screen = ctypes.c_void_p(self.library.vterm_obtain_screen(self.terminal))
        self.library.vterm_screen_reset(self.screen, 1)
        self.feed(junk, True)

    def resize(self, size):
        self.library.vterm_set_size(self.terminal, size[1], size[0])

    def feed(self, data, is_cut):
        self.library.vterm_input_write(self.terminal, data, ctypes.c_size_t(len(data)))

    def end(self):
        self.library.vterm_free(self.terminal)

    def close(self):
        pass

    def color(self, color):
        kind, *value = color
        return ("index", value[0] - 1) if kind == "name" and color != REST else color

    def expected(self, symbol, pen):
        front, back, marks = pen
        return symbol, self.color(front), self.color(back), masked(marks, BOLD | UNDERLINED | ITALIC | SLOW | REVERSED | CROSSED)

    def color_shown(self, color):
        if color[0] & 6:
            return REST
        return ("index", color[1]) if color[0] & 1 else ("rgb", *color[1:4])

    def shown(self, column, row, step):
        cell = Cell()
        self.library.vterm_screen_get_cell(self.screen, Position(row, column), ctypes.byref(cell))
        chars = "".join(chr(c) for c in cell.chars if 0 < c < 0x110000)
        bits = [(BOLD, 1), (UNDERLINED, 6), (ITALIC, 8), (SLOW, 16), (REVERSED, 32), (CROSSED, 64)]
        marks = sum(bit for bit, field in bits if cell.attributes & field)
        return chars or " ", self.color_shown(cell.front), self.color_shown(cell.back), marks


def vterm():
    for name in ("libvterm.so.0", ctypes.util.find_library("vterm")):
        try:
            return name and Vterm(ctypes.CDLL(name))
        except OSError:
            continue
    return None


# ---- tmux


class Tmux:
    name = "tmux"
    TOKEN = re.compile(r"\x1b\[([\d;]*)m|[\x0e\x0f]|(.)", re.S)

    def __init__(self):
        self.work = tempfile.TemporaryDirectory()
        self.pipe_name = pathlib.Path(self.work.name) / "pipe"
        os.mkfifo(self.pipe_name)
        self.count = 0
        environment = {**os.environ, "LC_ALL": "C.UTF-8", "TERM": "xterm-256color"}
        environment.pop("TMUX", None)
        self.environment = environment
        self.ask("new-session", "-d", "-x", "40", "-y", "10", f"stty raw -echo; exec cat {self.pipe_name}", ";", "set", "-g", "status", "off",
                 ";", "set", "-g", "window-size", "manual")
        self.pipe = open(self.pipe_name, "wb", buffering=0)
        self.widths = {}

    def ask(self, *arguments):
        command = ["tmux", "-u", "-S", f"{self.work.name}/socket", "-f", "/dev/null", *arguments]
        return subprocess.run(command, env=self.environment, capture_output=True, check=True).stdout.decode(errors="replace")

    def close(self):
        self.ask("kill-server")
        self.pipe.close()
        self.work.cleanup()

    def settled(self, *arguments):
        """Returns the answer of tmux after it has read everything that was written, which ends with a new title."""
        self.count += 1
        self.pipe.write(b"\x1b]2;read %d\x07" % self.count)
        for _ in range(2000):
            title, _, answer = self.ask("display-message", "-p", "#{pane_title}", ";", *arguments).partition("\n")
            if title == f"read {self.count}":
                return answer
            time.sleep(0.002)
        raise TimeoutError("tmux does not read on")

    def begin(self, size, junk, known_widths, seed):
        self.pipe.write(b"\x18\x1b\\")
        self.settled("send-keys", "-R")
        self.resize(size)
        self.pipe.write(junk)

    def resize(self, size):
        self.columns, self.height = size
        self.ask("resize-window", "-x", str(size[0]), "-y", str(size[1]))

    def feed(self, data, is_cut):
        self.pipe.write(data)
        self.rows = None

    def end(self):
        pass

    def try_widths(self, characters):
        """Measures the width that tmux gives to single characters, at the left edge of the screen."""
        for character in characters:
            self.pipe.write(b"\x1b[1;1H\x1b[2K" + character.encode())
            self.widths[character] = int(self.settled("display-message", "-p", "#{cursor_x}"))

    def read_row(self, line, pen):
        """Returns the cells of a row by column, and the pen after it. `pen` is the pen after the row before."""
        cells, column, joined = {}, 0, False
        for settings, character in self.TOKEN.findall(line):
            if not character:
                pen = self.pen_after(pen, settings)
                continue
            width = 0 if joined else self.widths.get(character, 1)
            if width == 0 and cells:
                last = max(cells)
                cells[last] = (cells[last][0] + character, *cells[last][1:])
            else:
                cells[column] = (character, *pen)
            column, joined = column + width, character == "\u200d"
        return cells, pen

    def pen_after(self, pen, settings):
        numbers = [int(n or 0) for n in settings.split(";")]
        while 0 in numbers[:1]:
            pen, numbers = (REST, REST, 0), numbers[1:]
        return set_by(pen, numbers)

    def expected(self, symbol, pen):
        return symbol, *pen[:2], masked(pen[2], 511, True)

    def shown(self, column, row, step):
        if self.rows is None:
            self.rows, pen = [], (REST, REST, 0)
            for line in self.settled("capture-pane", "-p", "-e", "-N").split("\n"):
                cells, pen = self.read_row(line, pen)
                self.rows.append(cells)
        return self.rows[row].get(column, BLANK)


def tmux(symbols):
    """Returns a tmux server for this test, with its widths for the characters of the symbols."""
    if not shutil.which("tmux"):
        return None
    judge = Tmux()
    judge.try_widths({c for text in symbols.widths for c in text if unicodedata.category(c) != "Cc" and c != " "})
    return judge
