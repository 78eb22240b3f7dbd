#!/usr/bin/env python3
"""Shows the output of `tui_show` (docs/SCENE.md) in the terminal's own colours.

tools/colour.py [SCENE.json] < OUTPUT

The rows are as wide as the scene. Without SCENE.json, they are as wide as most of them are.
"""
import os
import sys

sys.dont_write_bytecode = True
from drawn import BRIGHT, MODIFIERS, NAMES, read, scene_width, styled


def colour_code(name, base):
    """Returns the parameters that set a colour. `base` is 30 for the foreground and 40 for the background."""
    if name == "reset":
        return []
    if name in NAMES:
        return [base + NAMES.index(name)]
    if name in BRIGHT:
        return [base + 60 + BRIGHT.index(name)]
    if name.startswith("#"):
        return [base + 8, 2] + [int(name[i:i + 2], 16) for i in (1, 3, 5)]
    return [base + 8, 5, int(name)]


def sequence(fg, bg, bits):
    """Returns the escape sequence of a style run. The modifiers are the parameters 1 to 9, in order."""
    codes = [1 + i for i in range(len(MODIFIERS)) if bits >> i & 1]
    codes += colour_code(fg, 30) + colour_code(bg, 40)
    return "\x1b[0;" + ";".join(map(str, codes)) + "m"


def painted(row, runs, placed):
    """Returns a row with the escape sequences of its runs.

    If `placed`, the column is set after each symbol whose width differs between terminals, such as an emoji.
    """
    out, current = [], ""
    for column, width, symbol, look in styled(row, runs):
        style = sequence(*look) if look else ""
        if style != current:
            out.append(style or "\x1b[0m")
            current = style
        out.append(symbol)
        if placed and (width > 1 or len(symbol) > 1):
            out.append(f"\x1b[{column + width + 1}G")
    return "".join(out) + ("\x1b[0m" if current else "")


def main():
    for stream in (sys.stdin, sys.stdout):
        stream.reconfigure(encoding="utf-8")
    width = scene_width(sys.argv[1]) if sys.argv[1:] else None
    for row, runs in read(sys.stdin.read().split("\n"), width):
        print(painted(row, runs, sys.stdout.isatty()))
    sys.stdout.flush()


try:
    main()
except OSError as error:
    if not isinstance(error, BrokenPipeError):
        print("show: cannot write to standard output", file=sys.stderr)
    # Python must not try to write the rest again when it exits.
    os.dup2(os.open(os.devnull, os.O_WRONLY), 1)
    sys.exit(7)
