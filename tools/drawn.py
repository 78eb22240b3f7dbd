"""Reads the output of `tui_show` (docs/SCENE.md) for tools/colour.py and tools/picture: rows of cells, and style runs.

A row is cut into graphemes. A cell takes as many columns as its grapheme, at least one, as in the program. A
mark or a joiner that has a cell of its own may be taken for a part of the cell before it, and the row is then
too narrow. Such a row is cut into more cells, from its end on. The last cell takes all that is past the
width, or all columns that are left.
"""
import collections
import json

from graphemes import columns, graphemes

NAMES = ["black", "red", "green", "yellow", "blue", "magenta", "cyan", "gray"]
BRIGHT = ["darkgray", "lightred", "lightgreen", "lightyellow", "lightblue", "lightmagenta", "lightcyan", "white"]
# The bit of each modifier in a style run, from the lowest.
MODIFIERS = ["bold", "dim", "italic", "underlined", "slow_blink", "rapid_blink", "reversed", "hidden", "crossed_out"]


def step(symbol):
    """Returns the number of columns from a cell with this symbol to the next cell."""
    return max(columns(symbol), 1)


def finer(symbol, lacking):
    """Returns a symbol with its last characters in cells of their own, if that makes it wider by at most `lacking`."""
    for at in range(1, len(symbol)):
        found = [symbol[:at], *symbol[at:]]
        if 0 < sum(map(step, found)) - step(symbol) <= lacking:
            return found
    return [symbol]


def symbols(text, width):
    """Returns the symbols of the cells of a row."""
    found = graphemes(text)
    lacking = width - sum(map(step, found))
    for at in range(len(found) - 1, -1, -1):
        if lacking <= 0:
            break
        if len(found[at]) > 1:
            lacking += step(found[at])
            found[at:at + 1] = parts = finer(found[at], lacking - step(found[at]))
            lacking -= sum(map(step, parts))
    return found


def cells(text, width):
    """Returns the visible cells of a row: (column, number of columns, symbol). Together they are as wide as the row."""
    found, column = [], 0
    for symbol in symbols(text, width):
        if column >= width:
            found[-1] = (*found[-1][:2], found[-1][2] + symbol)
            continue
        found.append((column, min(step(symbol), width - column), symbol))
        column += found[-1][1]
    if found and column < width:
        found[-1] = (found[-1][0], width - found[-1][0], found[-1][2])
    return found


def scene_width(file):
    """Returns the width of the scene in a file."""
    with open(file, encoding="utf-8") as scene:
        return json.load(scene)["width"]


def program_of(file):
    """Returns the program that reads a file of examples/: NAME for NAME-input.json, else the one that draws scenes."""
    name = file.name.removesuffix("-input.json")
    return name if name != file.name else "scene"


def sheets(lines):
    """Cuts the lines of an output into parts that begin with a line `p`. Without such a line it is one part."""
    found = [[]]
    for line in lines:
        if line.startswith("p ") and found != [[]]:
            found.append([])
        found[-1].append(line)
    return found


def read(lines, width=None):
    """Returns the cells and the style runs (column, length, foreground, background, bits) of each row.

    Other lines are ignored. If no width is given, it is that of most rows.
    """
    texts, runs = [], {}
    for line in lines:
        if line.startswith("r "):
            texts.append(line[2:])
        elif line.startswith("s "):
            row, column, length, fg, bg, bits = line[2:].split(" ")
            runs.setdefault(int(row), []).append((int(column), int(length), fg, bg, int(bits)))
    if width is None:
        sums = collections.Counter(sum(map(step, graphemes(text))) for text in texts)
        width = sums.most_common(1)[0][0] if sums else 0
    return [(cells(text, width), runs.get(number, [])) for number, text in enumerate(texts)]


def styled(row, runs):
    """Yields the cells of a row, each with the colours and bits of its run, or None."""
    rest = collections.deque(runs)
    for column, width, symbol in row:
        while rest and rest[0][0] + rest[0][1] <= column:
            rest.popleft()
        yield column, width, symbol, rest[0][2:] if rest and rest[0][0] <= column else None
