"""What must hold of the adversary after a frame, besides its cells of known width.

The rules are about rows in which it knows all symbols, the cursor, what is outside the area, and what is sent.
"""
from page import has_known_width, pen_of


def pieces_of(symbols, frame, row):
    return [(frame.area[0] + column, cell) for column, cell in symbols.pieces(frame.output.known_widths, frame.rows[row])]


def known_rows(judge, symbols, frame, row):
    """If the terminal knows all symbols of a row, it shows each of its cells."""
    pieces = pieces_of(symbols, frame, row)
    if all(judge.knows(cell[0]) for _, cell in pieces):
        for column, cell in pieces:
            shown = judge.shown(column, frame.area[1] + row, symbols.step(cell[0]))
            if shown != judge.expected(cell[0], pen_of(frame.output.depth, cell)):
                yield f"row {frame.area[1] + row} column {column} shows {shown}, though all symbols of the row are known"


def cursor_rule(judge, frame):
    expected = frame.output.cursor
    if expected == "hidden" and judge.modes["visible"]:
        yield "the cursor is not hidden"
    if isinstance(expected, tuple) and (judge.cursor != expected or not judge.modes["visible"]):
        yield f"the cursor is at {judge.cursor} and not shown at {expected}"
    if judge.modes["synchronized"] or not judge.modes_reset or not judge.whole:
        yield "the terminal is not ready"


def outside_rule(judge, frame, old_state):
    """Rows outside the area do not change, if nothing was cut short before."""
    x, y, width, height = frame.area
    for row, cells in enumerate(old_state["cells"]):
        if not y <= row < y + height and cells != judge.cells[row]:
            yield f"row {row} outside the area has changed"


def beside_rule(judge, symbols, frame, old_state, row):
    """In a row in which all symbols are known, complete symbols beside the area do not change."""
    x, y, width, _ = frame.area
    if not all(judge.knows(cell[0]) for _, cell in pieces_of(symbols, frame, row)):
        return
    before, now = old_state["cells"][y + row], judge.cells[y + row]
    for column, cell in enumerate(before):
        if cell[0] == "?" or cell[2]:
            continue
        end = column + symbols.step(cell[0])
        is_complete = before[column:end] == [(*cell[:2], place) for place in range(end - column)]
        if is_complete and (end <= x or x + width <= column) and now[column:end] != before[column:end]:
            yield f"row {y + row} column {column} beside the area has changed"


def sent_rule(judge, symbols, frame, before, row):
    """A full draw sends each cell once. Changes send all new cells.

    They send no other cells, if no symbol of uncertain width is added or removed.
    """
    sent = sorted((column, text) for line, column, text in judge.printed if line == frame.area[1] + row)
    now = pieces_of(symbols, frame, row)
    if len({column for column, _ in sent}) < len(sent):
        yield f"row {row} of the area: a cell is sent twice"
    if not {*sent} <= {(column, cell[0]) for column, cell in now}:
        yield f"row {row} of the area: something is sent that is not a cell of it"
    old = [] if frame.is_full else pieces_of(symbols, before, row)
    new, gone = [piece for piece in now if piece not in old], [piece for piece in old if piece not in now]
    fresh = {(column, cell[0]) for column, cell in new}
    if not fresh <= {*sent}:
        yield f"row {row} of the area: a new cell is not sent"
    calm = all(has_known_width(frame.output.known_widths, cell[0]) for _, cell in new + gone)
    if (calm or frame.is_full) and fresh != {*sent}:
        yield f"row {row} of the area: a cell is sent that is not new"


def quiet_rule(frame, before, sent):
    if not frame.is_full and before.rows == frame.rows and frame.output.cursor == "keep" and not frame.output.synchronized and sent:
        yield "equal buffers send bytes"


def violations(judge, symbols, frame, before, old_state):
    """Returns what is wrong after a frame was sent to the adversary. `before` is the frame that it showed before."""
    found = [*judge.errors, *cursor_rule(judge, frame), *quiet_rule(frame, before, judge.size_sent)]
    judge.errors.clear()
    if old_state["whole"]:
        found += outside_rule(judge, frame, old_state)
    for row in range(frame.area[3]):
        found += known_rows(judge, symbols, frame, row)
        found += sent_rule(judge, symbols, frame, before, row)
        if old_state["whole"]:
            found += beside_rule(judge, symbols, frame, old_state, row)
    return found
