"""Random frames for terminals, and the bytes that the writer sends for them."""
import random
import subprocess
import sys
import typing

from page import BLANK, COMMON, MENDING, REST, Symbols

NARROW = list("ab~Z é─█│Жñλ")
WIDE = list("世界水가コ、")
EDGES = [chr(end) for bounds in COMMON for end in bounds]
BESIDE = [chr(end) for first, last in COMMON for end in (first - 1, last + 1)]
UNCERTAIN = ["❤\ufe0f", "👩\u200d👩\u200d👧", "🇩🇪", "e\u0301", "\U0001fae9", "👍🏽", "☎", "▶", "\u3248", "\u4dc0", "🏽", "🇩", "\u1100\u1161",
         "©", "ﾊﾞ", "क्षि", "\u05d0", "a\u0301\u0327"]
BAD = ["\x1b[31m", "a\x07", "\u0301", "\u200b", "\x1b]0;t\x07", "\u009b31m", "\x7f", "", "a\u200d", "│\u200d", "世\u200d", "b\u0600", "\u1100",
       "가\u1100", "\x85", "\n", "\t", "\x9d0;t\x9c", "\u0600"]
PAIRS = [["a\u200d", "│"], ["│\u200d", "│"], ["\u1100", "가"], ["🏽", "👍"], ["🇩", "🇪"], ["a\u200d", "👧"], ["\u0600", "1"]]
LAST_COLUMNS = [["\u3248", "\u3248"], ["\u4dc0", "\u4dc0"], ["a", "\u3248"], ["a", "\u4dc0"], ["a", "世"], ["a", "e\u0301"], ["👍🏽", "│"], ["世", "│"]]
JUNK = [b"x", "世".encode(), b"\x1b[2;3r", b"\x1b[?6h", b"\x1b[4h", b"\x1b[31;7m", b"\r\n", b"\x1b(0", b"\x0e", b"\x1b[?69h\x1b[2;5s", b"\x1b[?25l",
        b"\x1b[3;3H", b"\x1b[?7h", b"\x1b[2J"]
JUNK_ENDS = [b"", b"", b"\x1b[1;", b"\x1b]0;ti", b"\x1b", "世".encode()[:2], "👍".encode()[:3], b"\x1b[38;2;1"]


class Output(typing.NamedTuple):
    depth: int
    known_widths: int
    synchronized: int
    # "keep", "hidden", or a column and a row.
    cursor: object


class Frame(typing.NamedTuple):
    is_full: bool
    # The columns and rows of the terminal; the column, row, width and height of the area.
    size: tuple
    area: tuple
    rows: list
    output: Output
    # The share of its bytes that is sent, or None for all.
    cut: typing.Optional[float] = None


def color(source):
    kind = source.random()
    if kind < 0.5:
        return REST
    if kind < 0.7:
        return ("name", source.randrange(17))
    if kind < 0.85:
        return ("index", source.choice([0, 7, 15, 16, 200, 231, 232, 255]))
    return ("rgb", *(source.choice([0, 1, 47, 48, 114, 115, 128, 200, 255]) for _ in range(3)))


def pen(source):
    kind = source.random()
    if kind < 0.4:
        return REST, REST, 0
    if kind < 0.5:
        lights = [("rgb", *(source.randrange(256) for _ in range(3))) for _ in range(2)]
        return (*lights, sum(1 << bit for bit in source.sample(range(9), source.randint(6, 9))))
    return color(source), color(source), source.choice([0, 0, 1, 2, 4, 8, 16, 32, 64, 128, 256, 5, 264])


def symbol(source, risk):
    kind = source.random()
    if kind < risk:
        return source.choice(source.choice([UNCERTAIN, UNCERTAIN, BAD, BESIDE]))
    return source.choice(source.choice([NARROW, NARROW, WIDE, EDGES, [" "]]))


def place_run(source, row, column, symbols):
    for offset, text in enumerate(symbols):
        if 0 <= column + offset < len(row):
            row[column + offset] = (text, *pen(source))


def drawn(source, width, height, risk):
    """Returns the rows of a new buffer."""
    rows = [[BLANK if source.random() < 0.2 else (symbol(source, risk), *pen(source)) for _ in range(width)] for _ in range(height)]
    for row in rows if risk else []:
        kind = source.random()
        if kind < 0.2:
            place_run(source, row, 0, source.choice(PAIRS))
        elif kind < 0.4:
            place_run(source, row, width - 2, source.choice(LAST_COLUMNS))
        elif kind < 0.6:
            place_run(source, row, source.randrange(width), source.choice(PAIRS))
    return rows


def changed(source, rows, risk):
    """Returns the rows after some changes, mostly of a few cells, sometimes of none or of many."""
    rows = [list(row) for row in rows]
    for _ in range(source.choice([0, 1, 1, 2, 4, 6, 30])):
        row = source.choice(rows)
        row[source.randrange(len(row))] = (symbol(source, risk), *pen(source))
    if source.random() < 0.2:
        row = source.choice(rows)
        place_run(source, row, source.choice([0, len(row) - 2]), source.choice(PAIRS + LAST_COLUMNS))
    return rows


def cursor(source, area):
    x, y, width, height = area
    return source.choice(["keep", "keep", "hidden", (x + source.randrange(width), y + source.randrange(height))])


def scene(seed):
    """Returns junk and frames.

    The frames are a full draw, changes, a frame that is cut, a full draw, then in another size a full draw
    and changes.
    """
    source = random.Random(seed)
    risk, depth, known_widths = source.choice([0, 0.1, 0.15, 0.4]), source.choice([0, 1, 2, 3, 3, 3]), source.choice([0, 1, 1, 1, 1])
    junk = b"".join(source.choice(JUNK) for _ in range(12)) + source.choice(JUNK_ENDS)
    frames = []

    def add(is_full, rows, size, area, cut=None):
        output = Output(depth, known_widths, source.randrange(2), cursor(source, area))
        frames.append(Frame(is_full, size, area, rows, output, cut))

    for whole in range(2):
        width, height = source.choice([(10, 4), (12, 3), (7, 5), (2, 2), (1, 1)] if whole else [(10, 4), (8, 3)])
        x, y = source.choice([(0, 0), (1, 1), (3, 2)])
        size, area = (max(x + width + source.choice([0, x]), 2), max(y + height + source.choice([0, 1]), 2)), (x, y, width, height)
        rows = drawn(source, width, height, risk)
        add(True, rows, size, area)
        for _ in range(1 if whole else 3):
            rows = changed(source, rows, risk)
            add(False, rows, size, area)
        if not whole:
            rows = changed(source, rows, risk)
            add(source.random() < 0.5, rows, size, area, source.random())
            add(True, rows, size, area)
    return junk, frames


# ---- the writer


class Program(typing.NamedTuple):
    """The command that runs tools/terminal/frames.rt.txt, and the folder to run it in."""
    command: list
    folder: object


def color_text(color):
    return " ".join(map(str, color))


def frame_lines(frame):
    """Yields the lines with which tools/terminal/frames.rt.txt makes the buffer of a frame and writes it."""
    x, y, width, height = frame.area
    yield f"frame {x} {y} {width} {height}"
    for row, cells in enumerate(frame.rows):
        for column, (text, front, back, marks) in enumerate(cells):
            codes = " ".join(str(ord(c)) for c in text)
            yield f"cell {x + column} {y + row} {color_text(front)} {color_text(back)} {marks} {codes}"
    at = frame.output.cursor
    cursor_text = at if isinstance(at, str) else f"at {at[0]} {at[1]}"
    yield f"{'full' if frame.is_full else 'changes'} {frame.output.depth} {frame.output.known_widths} {frame.output.synchronized} {cursor_text}"


def answers(program, lines):
    """Returns what the program writes for each line that it answers."""
    done = subprocess.run(program.command, cwd=program.folder, input="\n".join(lines).encode() + b"\n", capture_output=True)
    if done.returncode:
        sys.exit(f"terminals: {program.command} ends with status {done.returncode}: {done.stderr.decode()[-2000:]}")
    return done.stdout.split(b"\xff")[:-1]


def written(program, frames):
    """Returns the bytes of each frame."""
    texts = answers(program, [line for frame in frames for line in frame_lines(frame)])
    assert len(texts) == len(frames), "the number of texts is not that of frames"
    return texts


def symbols_by(program):
    """Returns Symbols with the widths that the program gives to all texts of frames."""
    texts = sorted({*NARROW, *WIDE, *EDGES, *BESIDE, *UNCERTAIN, *BAD, " ", MENDING, *(text for pair in PAIRS + LAST_COLUMNS for text in pair)})
    texts += sorted({c for text in texts for c in text} - set(texts))
    found = answers(program, [f"width {' '.join(str(ord(c)) for c in text)}" for text in texts])
    return Symbols(dict(zip(texts, map(int, found))))
