"""The bytes with which a session on a terminal begins and ends, read from crates/tui_terminal/src/session.rt."""
import pathlib
import re

SOURCE = pathlib.Path(__file__).resolve().parent.parent / "crates/tui_terminal/src/session.rt"


def text_of(call):
    """Returns the text that a call writes."""
    written = re.search(rf'pub fn {call}<.*?b"((?:[^"\\]|\\.)*)"', SOURCE.read_text(encoding="utf-8"), re.DOTALL)[1]
    return written.encode().decode("unicode_escape")


ENTER, LEAVE = text_of("enter"), text_of("leave")
