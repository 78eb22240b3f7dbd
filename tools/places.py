"""A JSON reader that keeps the position of each value.

`read` returns the value of some bytes as the programs read it, or raises `Unreadable` with the position and
the reason. A value is a `Node`. The programs' own limits apply, such as 127 nested brackets.
"""
import difflib
import json
import math
import re

STRING = re.compile(r'"(?:[^"\\\x00-\x1f]|\\(?:["\\/bfnrt]|u[0-9a-fA-F]{4}))*"')
NUMBER = re.compile(r"-?(?:0|[1-9][0-9]*)(?:\.[0-9]+)?(?:[eE][+-]?[0-9]+)?")
WORD = re.compile(r"-?[^\W\d]\w*")
SPACE = re.compile(r"[ \t\n\r]*")
WORDS = {"true": True, "false": False, "null": None}
OTHERS = {"none": "null", "nil": "null", "undefined": "null", "yes": "true", "no": "false"}
DEEPEST = 127
CLOSING = {"{": "}", "[": "]"}


class NotJSON(Exception):
    def __init__(self, at, why):
        super().__init__(why)
        self.at, self.why = at, why


class Node:
    """A value and the offset at which it begins.

    `value` is a string, a number as it is written, True, False or None; for an array a list of Nodes; for an object a
    list of (key, offset of the key, Node).
    """

    def __init__(self, kind, value, at):
        self.kind, self.value, self.at = kind, value, at

    def get(self, key):
        """Returns the last member with a key, or None if there is none or this is not an object."""
        found = [member for name, _, member in self.value if name == key] if self.kind == "object" else []
        return found[-1] if found else None

    def is_null(self):
        return self.kind == "word" and self.value is None

    def whole(self):
        """Returns the value as a whole number, or None if it is not one."""
        return int(self.value) if self.kind == "number" and re.fullmatch(r"-?[0-9]+", self.value) and self.value != "-0" else None


def place(text, at):
    """Returns the line and the column of an offset, both counted from 1."""
    return f"line {text.count(chr(10), 0, at) + 1}, column {at - text.rfind(chr(10), 0, at)}"


class Reader:
    def __init__(self, text):
        self.text, self.at, self.opened = text, 0, []

    def skip_space(self):
        self.at = SPACE.match(self.text, self.at).end()
        if self.text.startswith(("//", "/*"), self.at):
            raise NotJSON(self.at, "a comment; JSON has none")

    def next(self):
        """Skips whitespace and returns the next character, or an empty string at the end."""
        self.skip_space()
        return self.text[self.at:self.at + 1]

    def describe_next(self):
        """Returns a description of what is at the current offset."""
        word = WORD.match(self.text, self.at)
        return f"the word {word[0]}" if word else self.text[self.at] if self.at < len(self.text) else "the end"

    def unclosed(self):
        """Returns the innermost open bracket, its position, and the bracket that closes it."""
        at = self.opened[-1]
        return self.text[at], place(self.text, at), CLOSING[self.text[at]]

    def fail(self, expected):
        """Raises `NotJSON`, since what is at the current offset is not what was expected."""
        if self.opened and self.at >= len(self.text):
            bracket, where, closing = self.unclosed()
            raise NotJSON(self.at, f"the input ends here, but the {bracket} at {where} has no {closing}")
        if self.opened and self.text[self.at] in "}]" and self.text[self.at] != CLOSING[self.text[self.opened[-1]]]:
            bracket, where, closing = self.unclosed()
            raise NotJSON(self.at, f"found {self.describe_next()}, but the {bracket} at {where} needs {closing}")
        raise NotJSON(self.at, f"expected {expected}, found {self.describe_next()}")

    def string(self):
        found = STRING.match(self.text, self.at)
        if not found:
            rest = re.compile(r'"(?:[^"\\\x00-\x1f]|\\(?:["\\/bfnrt]|u[0-9a-fA-F]{4}))*').match(self.text, self.at)
            end = self.text[rest.end():rest.end() + 1]
            if end == "\\":
                raise NotJSON(rest.end(), f"{self.text[rest.end():rest.end() + 2]} is not an escape; write a backslash as \\\\")
            if end and end != "\n":
                raise NotJSON(rest.end(), f"the control character U+{ord(end):04X} inside a string; write \\u{ord(end):04x}")
            raise NotJSON(self.at, "this string is not closed on its line" if end else "this string is not closed")
        text = found[0][1:-1]
        if "\\" in text:
            text = json.loads(found[0])
            if any("\ud800" <= c <= "\udfff" for c in text):
                raise NotJSON(self.at, "half of a surrogate pair")
        at, self.at = self.at, found.end()
        return Node("text", text, at)

    def number(self):
        at, found = self.at, NUMBER.match(self.text, self.at)
        end = found.end() if found else at + 1
        if not found or re.match(r"[0-9.eE+-]", self.text[end:end + 1]):
            written = re.compile(r"[-+.0-9eE]+").match(self.text, at)[0]
            raise NotJSON(at, f"{written} is not a JSON number")
        if math.isinf(float(found[0])):
            raise NotJSON(at, "the number is too large")
        self.at = end
        return Node("number", found[0], at)

    def word(self):
        found = WORD.match(self.text, self.at)
        if not found:
            self.fail("a value")
        word = found[0]
        if word in WORDS:
            self.at += len(word)
            return Node("word", WORDS[word], found.start())
        if word.lstrip("-") in ("NaN", "Infinity"):
            raise NotJSON(self.at, f"{word} is not JSON")
        near = [OTHERS[word.lower()]] if word.lower() in OTHERS else difflib.get_close_matches(word.lower(), WORDS, 1)
        raise NotJSON(self.at, f"expected a value, found the word {word}; " + (f"did you mean {near[0]}?" if near else "strings need double quotes"))

    def value(self):
        first = self.next()
        if first == '"':
            return self.string()
        if first and first in "-0123456789" and not self.text.startswith("-Infinity", self.at):
            return self.number()
        if first == "'":
            raise NotJSON(self.at, "strings need double quotes, not single quotes")
        if not first or first not in "{[":
            return self.word()
        if len(self.opened) == DEEPEST:
            raise NotJSON(self.at, f"more than {DEEPEST} nested brackets")
        return self.inside("object" if first == "{" else "array", self.member if first == "{" else self.value)

    def member(self):
        if self.next() == "'":
            raise NotJSON(self.at, "keys need double quotes, not single quotes")
        if self.next() != '"':
            self.fail("a key in double quotes")
        key = self.string()
        if self.next() != ":":
            self.fail(f"a colon after the key {json.dumps(key.value)}")
        self.at += 1
        return key.value, key.at, self.value()

    def inside(self, kind, one):
        """Reads an object or an array, whose members `one` reads."""
        at, closing, found = self.at, CLOSING[self.text[self.at]], []
        self.opened.append(at)
        self.at += 1
        while self.next() != closing or found:
            found.append(one())
            after = self.next()
            if after == closing:
                break
            if after != ",":
                self.fail(f"a comma or {closing}")
            comma = self.at
            self.at += 1
            if self.next() and self.next() in "]}":
                raise NotJSON(comma, f"a comma before {self.next()}; JSON allows none there")
        self.at += 1
        self.opened.pop()
        return Node(kind, found, at)


def read(data):
    """Returns the value of some bytes, and their text."""
    try:
        text = data.decode("utf-8")
    except UnicodeDecodeError as error:
        text = data[:error.start].decode("utf-8")
        raise Unreadable(f"{place(text, len(text))}: these bytes are not UTF-8") from None
    reader = Reader(text)
    try:
        if text.startswith("\ufeff"):
            raise NotJSON(0, "a byte order mark")
        if reader.next() == "":
            raise NotJSON(0, "the input is empty")
        value = reader.value()
        after = reader.next()
        if after:
            raise NotJSON(reader.at, f"{after} closes nothing" if after in "}]" else f"expected the end of the input, found {reader.describe_next()}")
    except NotJSON as error:
        raise Unreadable(f"{place(text, error.at)}: {error.why}") from None
    return value, text


class Unreadable(Exception):
    """The bytes are not JSON: the position and the reason."""
