"""Decodes the bytes of a terminal into events, and these into keys of a pager: an oracle for tools/sessions.py.

It follows the tables of docs/TERMINAL.md (*What a terminal sends*) and docs/PROGRAMS.md (*tui_browse*), and
is written in another way than the code. Events that a pager ignores are left out: seconds, unknown sequences,
and all that is in no table.
"""
import re

# A byte 0 interrupts nothing, so all are removed first. A sequence that is cut short ends before the byte
# that cuts it.
TYPED = re.compile(rb"""
    \x1b [\]PX^_] [^\x07\x1b]* (?: \x07 | \x1b\\ )?
  | \x1b\[\[ [\x20-\x7e]?
  | \x1b\[ (?P<numbers> [\x20-\x3f]* ) (?P<last> [\x40-\x7e]? )
  | \x1bO (?P<shifted> [\x20-\x7e]? )
  | \x1b [\x20-\x7e]
  | \x1b (?: [\xc2-\xdf][\x80-\xbf] | [\xe0-\xef][\x80-\xbf]{2} | [\xf0-\xf4][\x80-\xbf]{3} | [\x80-\xff] )
  | (?P<escape> \x1b )
  | (?P<text> [\x20-\x7e\x80-\xff]+ )
  | (?P<control> [\x01-\x1f\x7f] )
""", re.VERBOSE)
PASTED = re.compile(rb"""
    \x1b\[\[ [\x20-\x7e]?
  | \x1b\[ (?P<numbers> [\x20-\x3f]* ) (?P<last> [\x40-\x7e]? )
  | \x1b [\x20-\x7e]?
  | (?P<text> [^\x1b]+ )
""", re.VERBOSE)

CONTROLS = {8: "Backspace", 127: "Backspace", 9: "Tab", 10: "Enter", 13: "Enter"}
LETTERS = {"A": "Up", "B": "Down", "C": "Right", "D": "Left", "H": "Home", "F": "End"}
NUMBERED = {1: "Home", 7: "Home", 4: "End", 8: "End", 2: "Insert", 3: "Delete", 5: "PageUp", 6: "PageDown"}
SHIFT_ALT_CTRL = 7


def is_modified(numbers):
    """Whether the second number says that Shift, Alt or Ctrl is held down."""
    return bool((max(numbers[1], 1) - 1) & SHIFT_ALT_CTRL) if len(numbers) > 1 else False


def sequence(text, last):
    """Returns the event of a complete sequence, or None if it has no meaning here."""
    if not re.fullmatch(r"[\d;]*", text):
        return None
    numbers = [int(number or 0) for number in text.split(";")]
    if last == "t":
        return ("Resize", numbers[2], numbers[1]) if len(numbers) == 3 and numbers[0] == 8 and all(1 <= number <= 1000 for number in numbers[1:]) else None
    if last == "~" and numbers == [200]:
        return "PasteBegin"
    if len(numbers) > 2:
        return None
    event = NUMBERED.get(numbers[0]) if last == "~" else LETTERS.get(last) if numbers[0] < 2 else None
    return None if event in ("Up", "Down", "Left", "Right", "Home", "End") and is_modified(numbers) else event


def typed(found):
    """Returns the events of one piece outside a paste."""
    if found["text"] is not None:
        return list(found["text"].decode(errors="ignore"))
    if found["control"]:
        return [CONTROLS.get(found["control"][0], "Ctrl")]
    if found["last"]:
        return [sequence(found["numbers"].decode(), found["last"].decode())]
    if found["shifted"]:
        return [LETTERS.get(found["shifted"].decode())]
    return ["Esc"] if found["escape"] else []


def events_of(data):
    """Returns the events of bytes that come in full reads: characters, names of keys, and (`Resize`, columns, rows)."""
    data, at, pasting, events = data.replace(b"\0", b""), 0, False, []
    while at < len(data):
        found = (PASTED if pasting else TYPED).match(data, at)
        at = found.end()
        if not pasting:
            made = typed(found)
            pasting = made == ["PasteBegin"]
            events += made
        elif found["last"] == b"~" and re.fullmatch(rb"0*201", found["numbers"]):
            pasting = False
        elif found["text"] is not None:
            events += [character for character in found["text"].decode(errors="ignore") if character.isprintable()]
    return [event for event in events if event]


KEYS = {"j": "Down", "Down": "Down", "k": "Up", "Up": "Up", "PageDown": "PageDown", "PageUp": "PageUp", "Home": "First", "End": "Last",
        "J": "LineDown", "K": "LineUp"}
SCREENFULS = {" ": "LineDown", "Backspace": "LineUp"}


def pager_keys(data, width, height):
    """Returns the keys and sizes of `tui_pager` for the bytes that `tui_browse` reads on a screen of this size."""
    keys = []
    for event in events_of(data):
        if isinstance(event, tuple):
            if event[1] >= 12 and event[2] >= 5:
                width, height = event[1:]
                keys.append([width, height])
        elif event in KEYS:
            keys.append(KEYS[event])
        elif event in SCREENFULS:
            keys += [SCREENFULS[event]] * (height - 3)
    return keys
