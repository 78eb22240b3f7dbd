"""A terminal that does what the model of docs/TERMINAL.md says, and chooses at random what the model leaves unknown."""
import random
import re

from page import MENDING, REST, has_known_width

RESET = b"\x18\x1b\\\x1b[?2026l\x1b[?69l\x1b[?6l\x1b[4l\x1b[r\x1b(B\x0f\x1b[?7l"
MODES = {b"7": "autowrap", b"25": "visible", b"2026": "synchronized", b"2004": "bracketed"}
NUMBER = rb"(?:0|[1-9]\d*)"
COMMAND = re.compile(
    rb"(?P<reset>%b)|\x1b\[(?P<row>%b);(?P<column>%b)H|\x1b\[(?P<across>%b)G|\x1b\[0(?P<paint>(?:;%b)*)m|\x1b\[(?P<add>[1-9]\d*(?:;%b)*)m"
    rb"|\x1b\[\?(?P<mode>7|25|2026|2004)(?P<on>[hl])|(?P<text>[^\x00-\x1f\x7f]+)" % (re.escape(RESET), *[NUMBER] * 5))


def color_of(first, numbers, base):
    """Returns the colour that a parameter sets, with those after it that belong to it. These are removed from `numbers`.

    `base` is 30 for the foreground and 40 for the background.
    """
    if first == base + 9:
        return REST
    if first == base + 8:
        kind, count = {5: ("index", 1), 2: ("rgb", 3)}.get(numbers[0] if numbers else 0, (None, 0))
        value = numbers[1 : 1 + count]
        del numbers[: 1 + count]
        return (kind, *value) if kind and len(value) == count and max(value) < 256 else None
    if base <= first < base + 8:
        return ("name", 1 + first - base)
    if base + 60 <= first < base + 68:
        return ("name", 9 + first - base - 60)
    return None


def set_by(pen, numbers):
    """Returns a pen after some parameters, or None if one of them is not in the table of commands."""
    front, back, marks = pen
    numbers = list(numbers)
    while numbers:
        first = numbers.pop(0)
        foreground, background = color_of(first, numbers, 30), color_of(first, numbers, 40)
        if 1 <= first <= 9:
            marks |= 1 << (first - 1)
        elif foreground:
            front = foreground
        elif background:
            back = background
        else:
            return None
    return front, back, marks


def is_text(data):
    """Whether bytes are UTF-8 without C1 characters."""
    try:
        return not any("\x80" <= c <= "\x9f" for c in data.decode())
    except UnicodeDecodeError:
        return False


class Adversary:
    name = "adversary"

    def __init__(self, symbols):
        self.symbols = symbols
        self.errors = []

    def begin(self, size, junk, known_widths, seed):
        """Begins with any screen, and with a command that was cut short."""
        self.random, self.known_widths, self.knowing = random.Random(f"lots {seed}"), known_widths, {}
        self.skill = self.random.choice([0, 0.5, 0.5, 1])
        self.resize(size)

    def resize(self, size):
        self.columns, self.height = size
        self.cells = [[self.unknown() for _ in range(self.columns)] for _ in range(self.height)]
        self.forget_all()
        self.whole = self.random.random() < 0.5

    def end(self):
        pass

    def close(self):
        pass

    def error(self, *parts):
        self.errors.append(" ".join(map(str, parts)))

    def knows(self, symbol):
        if symbol not in self.knowing:
            self.knowing[symbol] = self.random.random() < self.skill
        return has_known_width(self.known_widths, symbol) or self.knowing[symbol]

    # ---- unknown cells

    def unknown(self):
        return ("?", self.random.random())

    def forget_row(self, row, part):
        self.cells[row] = [self.unknown() if self.random.random() < part else cell for cell in self.cells[row]]

    def forget_cells(self):
        self.cursor, part = None, self.random.choice([0.3, 0.7, 1])
        for row in range(self.height):
            self.forget_row(row, part)

    def forget_all(self):
        self.forget_cells()
        self.pen, self.modes_reset, self.whole = None, False, False
        self.modes = {name: self.random.random() < 0.5 for name in MODES.values()}

    def strange(self, symbol):
        """Prints a symbol that this terminal does not know.

    It takes any width up to its reach, and may join the cell at its left, shift its row, or make the row unknown.
    """
        (column, row), kind = self.cursor, self.random.randrange(4)
        for place in range(column, column + self.random.randint(0, self.symbols.reach(symbol))):
            self.cells[row][place] = self.unknown()
        if kind == 0 and column:
            self.cells[row][column - 1] = self.unknown()
        elif kind == 1:
            self.forget_row(row, self.random.choice([0.5, 1]))
        elif kind == 2:
            shift = self.random.choice([-1, 1])
            self.cells[row] = [self.cells[row][(place - shift) % self.columns] for place in range(self.columns)]
        self.cursor = None

    # ---- commands

    def cut(self, row, start, end):
        """If a symbol loses some of its columns, the others are kept, become blank or become unknown."""
        for place, cell in enumerate(self.cells[row]):
            if cell[0] != "?":
                begins = place - cell[2]
                if begins < end and start < begins + self.symbols.step(cell[0]):
                    self.cells[row][place] = self.random.choice([cell, (" ", self.pen, 0), self.unknown()])

    def print_symbol(self, symbol):
        if symbol not in self.symbols.widths:
            return self.error("prints", repr(symbol), "which is not a cell")
        if self.cursor is None or self.pen is None or not self.modes_reset:
            self.error("prints", repr(symbol), "while the cursor or the pen is unknown")
            return self.forget_cells()
        (column, row), step = self.cursor, self.symbols.step(symbol)
        if self.mending:
            self.mending = False
            if symbol != MENDING:
                self.error("uses", repr(symbol), "to mend a character that was cut")
        else:
            self.printed.append((row, column, symbol))
        if self.knows(symbol) and column + step <= self.columns:
            self.cut(row, column, column + step)
            for place in range(step):
                self.cells[row][column + place] = (symbol, self.pen, place)
            self.cursor = (column + step, row) if column + step < self.columns else None
        elif column + self.symbols.reach(symbol) <= self.columns:
            self.strange(symbol)
        else:
            self.error("prints", repr(symbol), "where its reach does not fit")
            self.forget_cells()

    def print_text(self, text):
        all_known = [has_known_width(self.known_widths, c) for c in text]
        for symbol in text if all(all_known) else [text]:
            self.print_symbol(symbol)

    def settings(self, pen, parameters):
        numbers = [int(n) for n in parameters.split(b";") if n]
        if parameters.count(b";") + 1 > 16:
            self.error("a sequence has more than 16 parameters:", parameters)
        found = set_by(pen, numbers)
        if found is None:
            self.error("a parameter is not in the table:", parameters)
        return found

    def obey(self, match):
        kind = match.lastgroup
        if not self.whole and kind != "reset":
            self.forget_all()
        elif kind == "reset":
            if not self.whole:
                self.forget_all()
            self.cursor, self.pen, self.modes_reset, self.whole = None, None, True, True
            self.mending = has_known_width(self.known_widths, MENDING)
            self.modes.update(autowrap=False, synchronized=False)
        elif kind == "column":
            column, row = int(match["column"]) - 1, int(match["row"]) - 1
            fits = self.modes_reset and 0 <= column < self.columns and 0 <= row < self.height
            self.cursor = (column, row) if fits else None
        elif kind == "across":
            column = int(match["across"]) - 1
            fits = self.modes_reset and self.cursor and 0 <= column < self.columns
            self.cursor = (column, self.cursor[1]) if fits else None
        elif kind == "paint":
            self.pen = self.settings((REST, REST, 0), match["paint"])
        elif kind == "add":
            self.pen = self.pen and self.settings(self.pen, match["add"])
        elif kind == "on":
            self.modes[MODES[match["mode"]]] = match["on"] == b"h"
        else:
            self.print_text(match["text"].decode())

    def feed(self, data, is_cut):
        self.printed, self.size_sent, self.mending, at, match = [], len(data), False, 0, None
        while at < len(data):
            match = COMMAND.match(data, at)
            if match is None or match["text"] and not is_text(match["text"]):
                break
            self.obey(match)
            at = match.end()
        if is_cut:
            self.whole = self.whole and at == len(data) and not (match and match["text"]) and self.random.random() < 0.5
            self.errors.clear()
        elif at < len(data):
            self.error("gets bytes that are not a command:", data[at : at + 30])

    # ---- judging

    def state(self):
        """Returns the cells, and whether no command is cut short, for the time before a frame."""
        return {"cells": [list(row) for row in self.cells], "whole": self.whole}

    def expected(self, symbol, pen):
        return symbol, pen

    def shown(self, column, row, step):
        cells = self.cells[row][column : column + step]
        right = all(cell[0] != "?" and cell == (*cells[0][:2], place) for place, cell in enumerate(cells))
        return cells[0][:2] if right and len(cells) == step else cells
