"""Kinds of JSON values: what they are in words, and which keys of a value are read."""
import difflib
import json
import re

NEAR = 0.6
# An object of more fields is described without them.
FEW = 6


def suggestion(word, names):
    """Returns a question with the name nearest to a word, or an empty string if no name is near."""
    by_case = {name.lower(): name for name in names}
    found = difflib.get_close_matches(word.lower(), by_case, 1, NEAR)
    return f"; did you mean {json.dumps(by_case[found[0]])}?" if found else ""


def listed(names, last="or"):
    names = [f"`{name}`" for name in names]
    return names[0] if len(names) == 1 else ", ".join(names[:-1]) + f" {last} {names[-1]}"


def step(path, name):
    """Returns a path with one more step."""
    if isinstance(name, int):
        return f"{path}[{name}]"
    name = name if re.fullmatch(r"\w+", name) else json.dumps(name, ensure_ascii=False)
    return f"{path}.{name}" if path else name


class Kind:
    """A kind whose values have nothing inside. `json` has the JSON types that it accepts."""
    json = ()

    def words(self):
        """Returns what a value of this kind is, as the programs say it."""
        raise NotImplementedError

    def is_bounded(self):
        """Whether the kind is known by its bounds, which are compared by themselves."""
        return False

    def accepts(self, node):
        return node.kind in self.json

    def holds(self, node):
        """Whether an accepted value is of this kind, if another kind accepts it too."""
        return True

    def children(self, node):
        """Returns (step, kind, Node or None) for everything that is read inside a value, in order."""
        return []

    def known(self, node):
        """Returns the keys of an object that are read, or None if the value is no object or its keys are not known."""
        return None


class Number(Kind):
    json = ("number",)

    def __init__(self, low, high, noun="whole number"):
        self.low, self.high, self.noun = low, high, noun

    def words(self):
        if self.high in (2 ** 64 - 1, 2 ** 32 - 1):
            return f"a {self.noun} from {self.low}, below 2^{(self.high + 1).bit_length() - 1}"
        if self.high == 2 ** 31 - 1:
            return "a signed 32-bit whole number"
        return f"a {self.noun} from {self.low} to {self.high}"

    def is_bounded(self):
        return self.high not in (2 ** 64 - 1, 2 ** 31 - 1)


U16, U64 = Number(0, 65535), Number(0, 2 ** 64 - 1)


class Text(Kind):
    json = ("text",)

    def __init__(self, most=None, lines=True):
        self.most, self.lines = most, lines

    def words(self):
        return "a string"

    def is_bounded(self):
        return self.most is not None

    def left_out(self, text):
        """Returns the control characters of a string that are not shown."""
        if self.lines:
            text = text.replace("\r\n", "").replace("\n", "")
        return sorted({c for c in text if c < " " or "\x7f" <= c < "\xa0"})


class Symbol(Kind):
    json = ("text",)

    def words(self):
        return "a string of at most 32 bytes without control characters"


class Flag(Kind):
    json = ("word",)

    def words(self):
        return "true or false"

    def accepts(self, node):
        return node.kind == "word" and node.value is not None


class Null(Kind):
    def words(self):
        return "null"

    def accepts(self, node):
        return node.is_null()


class Names(Kind):
    json = ("text",)

    def __init__(self, names):
        self.names = names

    def words(self):
        return listed(self.names)

    def holds(self, node):
        return node.value in self.names


class Hex(Kind):
    json = ("text",)

    def words(self):
        return "`#` and six hexadecimal digits"

    def holds(self, node):
        return bool(re.fullmatch("#[0-9a-fA-F]{6}", node.value))


class Array(Kind):
    json = ("array",)

    def __init__(self, element, least, most, word):
        self.element, self.least, self.most, self.word = element, least, most, word

    def words(self):
        return "an array"

    def is_bounded(self):
        return self.most is not None

    def children(self, node):
        return [(at, self.element, value) for at, value in enumerate(node.value)]


class Tuple(Kind):
    """An array of values with labels. A share is two numbers, of which the first is at most the second."""
    json = ("array",)

    def __init__(self, labels, elements, share=False):
        self.labels, self.elements, self.share = labels, elements, share

    def words(self):
        if len(self.labels) == 2 and not self.share:
            return "an array of two values"
        each = self.elements[0].words().replace("a whole number", "whole numbers", 1)
        return f"`[{', '.join(self.labels)}]`, {each}" + ", the first at most the second, and the second not 0" * self.share

    def children(self, node):
        return [(at, kind, value) for at, (kind, value) in enumerate(zip(self.elements, node.value))]


class Object(Kind):
    """An object with fields, each of them (required, kind, condition).

    A condition is another field and its value: the field is read only with it. It is None for a field that is
    always read.
    """
    json = ("object",)

    def __init__(self, fields):
        self.fields = fields

    def required(self):
        return [name for name, (required, _, _) in self.fields.items() if required]

    def words(self):
        """Returns the fields that are required, or all if none is and there are few."""
        if self.required():
            return f"an object with {listed(self.required(), 'and')}"
        return "an object" + (f" with {listed(self.fields)}" if len(self.fields) <= FEW else "")

    def is_read(self, node, only):
        if not only:
            return True
        other = node.get(only[0])
        return other is not None and other.value == only[1]

    def children(self, node):
        return [(name, kind, node.get(name)) for name, (_, kind, only) in self.fields.items() if self.is_read(node, only)]

    def known(self, node):
        return {name for name, (_, _, only) in self.fields.items() if self.is_read(node, only)}


class Record(Object):
    """An object whose fields are tested one by one, so that the field is wrong and not the object."""

    def words(self):
        return "an object"
