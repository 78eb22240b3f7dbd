"""The last screen of a session, in the form in which `tui_pager` writes a screen.

It is the last full draw in the output of the session, read by the commands of docs/TERMINAL.md.
"""
import re

from drawn import step
from graphemes import graphemes

COMMAND = re.compile(rb"\x1b\[(\d+);(\d+)H|\x1b\[(\d+)G|\x1b\[([\d;]*)m|\x1b\[[?\d]*[hlr]|\x1b\(B|[\x0f\x18]|\x1b\\")
RESET = b"\x18\x1b\\"


def pieces(data):
    """Yields the commands in some bytes, and the symbols between them, in order."""
    at = 0
    while at < len(data):
        found = COMMAND.match(data, at)
        if found:
            yield found
            at = found.end()
        else:
            end = min(place for place in (*[data.find(byte, at) for byte in (b"\x1b", b"\x0f", b"\x18")], len(data)) if place >= at)
            yield from graphemes(data[at:end].decode())
            at = end


def last_screen(written, width, height):
    """Returns the last full draw on a screen of this size, as lines of an output: the rows, and the runs of reversed cells."""
    rows = [[" "] * width for _ in range(height)]
    marks = [[False] * width for _ in range(height)]
    column = row = 0
    reverse = False
    for piece in pieces(written[written.rindex(RESET) :]):
        if isinstance(piece, str):
            for place, part in enumerate([piece, *[""] * (step(piece) - 1)]):
                rows[row][column + place], marks[row][column + place] = part, reverse
            column += step(piece)
        elif piece[1]:
            row, column = int(piece[1]) - 1, int(piece[2]) - 1
        elif piece[3]:
            column = int(piece[3]) - 1
        elif piece[4] is not None:
            settings = piece[4].split(b";")
            reverse = b"7" in settings or reverse and b"0" not in settings
    return ["r " + "".join(cells) for cells in rows] + list(runs(marks))


def runs(marks):
    """Yields the style runs of reversed cells that have no other style."""
    for row, cells in enumerate(marks):
        for found in re.finditer("x+", "".join("x" if mark else " " for mark in cells)):
            yield f"s {row} {found.start()} {len(found[0])} reset reset 64"
