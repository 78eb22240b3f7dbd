"""Kinds that are one of several kinds, the kinds of widgets, and remarks on what in a value is not read."""
from kinds import Array, Kind, Names, Number, Object, Text, Tuple, listed, suggestion, step


class Choice(Kind):
    """One of several kinds."""

    def __init__(self, kinds):
        self.kinds = kinds

    def words(self):
        each = [", ".join(f"`{name}`" for name in kind.names) if isinstance(kind, Names)
                else f"an array of {kind.word.lower()}s" if isinstance(kind, Array) else kind.words() for kind in self.kinds]
        return ", ".join(each[:-1]) + ", or " + each[-1]

    def of(self, node):
        """Returns the kind that a value is meant to have: the one that accepts it."""
        taking = [kind for kind in self.kinds if kind.accepts(node)]
        return next((kind for kind in taking if kind.holds(node)), taking[0] if len(taking) == 1 else None)

    def accepts(self, node):
        return self.of(node) is not None

    def children(self, node):
        return self.of(node).children(node)

    def known(self, node):
        kind = self.of(node)
        return kind.known(node) if kind else None


class Either(Choice):
    """One of several kinds. Another field decides which."""


class Keyed(Choice):
    """One kind for an object that has a certain key, and another kind for every other value."""

    def __init__(self, key, having, other, name):
        super().__init__([other, having])
        self.key, self.having, self.other, self.name = key, having, other, name

    def words(self):
        if isinstance(self.other, Object):
            return f"an object with {listed([*self.other.required(), self.key])}"
        return f"a {self.name.lower()}, or an object with `{self.key}`"

    def of(self, node):
        return self.having if node.get(self.key) is not None else self.other

    def accepts(self, node):
        return self.of(node).accepts(node)


class Width(Kind):
    """A number of columns, or an object of which the first known key counts."""

    def __init__(self, number, fields, most=None):
        self.number, self.fields = number, dict(fields)
        if most is not None:
            self.fields["percentage"] = (False, Number(0, most), None)

    def words(self):
        return f"{self.number.words()}, or an object with {listed(self.fields)}"

    def accepts(self, node):
        return node.kind == "number" or node.kind == "object" and any(node.get(name) for name in self.fields)

    def children(self, node):
        for name, (_, kind, _) in self.fields.items() if node.kind == "object" else []:
            if node.get(name):
                return [(name, kind, node.get(name))]
        return []

    def known(self, node):
        return {name for name, _, _ in self.children(node)} or set(self.fields) if node.kind == "object" else None


class Date(Tuple):
    """A day of the calendar."""

    def words(self):
        return f"`[{', '.join(self.labels)}]`, a day of the calendar"


class Size(Tuple):
    """A size that is within bounds."""

    def words(self):
        each = " and ".join(f"{kind.low} to {kind.high} {label}" for label, kind in zip(self.labels, self.elements))
        return f"`[{', '.join(self.labels)}]` of {each}"


class Item(Kind):
    """A widget with its fields. `fields` are those that every widget has: its area, or none."""
    json = ("object",)

    def __init__(self, widgets, fields):
        self.widgets, self.fields = widgets, fields
        self.widget = Names(list(widgets))

    def words(self):
        return "an object"

    def children(self, node):
        name = node.get("widget")
        own = self.widgets.get(name.value, {}) if name and name.kind == "text" else {}
        fields = {**self.fields, **own}
        return [("widget", self.widget, node.get("widget")), *((field, kind, node.get(field)) for field, (_, kind, _) in fields.items())]

    def known(self, node):
        name = node.get("widget")
        if not name or name.kind != "text" or name.value not in self.widgets:
            return None
        return {"widget", *self.fields, *self.widgets[name.value]}


class Named(Kind):
    """A kind by its name. The kind is looked up at each use, since it may be defined later."""

    def __init__(self, name, kinds):
        self.name, self.kinds = name, kinds

    def __getattribute__(self, name):
        if name in ("name", "kinds"):
            return super().__getattribute__(name)
        return getattr(self.kinds[self.name], name)


def remarks(kind, node, path):
    """Yields (offset, remark) for each key in a value that is not read or is given twice, and for each character left out."""
    while isinstance(kind, Choice):
        kind = kind.of(node)
        if kind is None:
            return
    if node.kind == "text" and isinstance(kind, Text):
        for c in kind.left_out(node.value):
            yield node.at, f"the control character U+{ord(c):04X} in {path} is left out"
    if node.kind == "object":
        known, seen = kind.known(node), set()
        for name, at, _ in node.value:
            if name in seen:
                yield at, f"{step(path, name)} is given twice; the last one counts"
            elif known is not None and name not in known and not (name == "about" and not path):
                yield at, f"{step(path, name)} is not read{suggestion(name, known)}"
            seen.add(name)
    if kind.accepts(node):
        for name, inner, inside in kind.children(node):
            if inside is not None and not inside.is_null():
                yield from remarks(inner, inside, step(path, name))
