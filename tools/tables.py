"""The kinds of values that the programs read, from the tables of docs/SCENE.md and docs/PROGRAMS.md."""
import pathlib
import re

from choices import Choice, Date, Either, Item, Keyed, Named, Size, Width
from kinds import U16, Array, Flag, Hex, Names, Null, Number, Object, Record, Symbol, Text, Tuple

ROOT = pathlib.Path(__file__).resolve().parent.parent
FIELD = re.compile(r"`(\w+)`(\*?)(?: \(((?:[^()]|\([^()]*\))*)\))?")


def number(text):
    return int(text.replace(",", ""))


class Tables:
    """The kinds of both pages, by name. `scene`, `pages`, `pager`, `panes` and `form` are the inputs of programs."""

    def __init__(self):
        self.kinds, self.widgets, self.raw_widgets, self.raw_kinds = {}, {}, {}, {}
        self.kinds["text"] = self.kinds["string"] = Text()
        self.read_scene()
        self.read_programs()

    # The text of a cell of a table.

    def named(self, word):
        """Returns the kind with a name, which may be in the plural."""
        for name in (word, re.sub("ies$", "y", word), re.sub("s$", "", word)):
            if name in self.kinds or name in self.raw_kinds:
                return Named(name, self.kinds)
        raise ValueError(f"no kind {word}")

    def sequence(self, phrase):
        """Returns the kind for `[..]` and the text after it."""
        labels = re.match(r"`\[(.*?)\]`,? ?(.*)", phrase)
        names, rest = labels[1].split(", "), labels[2]
        if "day of the calendar" in rest:
            return Date(names, [Number(-9999, 9999), Number(1, 12), Number(1, 31)])
        element = self.simple(rest.replace(", at most 1", ""))
        return Tuple(names, [element] * len(names), "at most 1" in rest)

    def simple(self, phrase):
        """Returns a kind without alternatives, or None."""
        found = re.search(r"numbers? from (\d+) to ([\d,]+)", phrase)
        if found:
            return Number(number(found[1]), number(found[2]))
        found = re.search(r"below 2\^(\d+)", phrase)
        if found:
            return Number(0, 2 ** int(found[1]) - 1)
        if "32 bits with a sign" in phrase:
            return Number(-2 ** 31, 2 ** 31 - 1)
        found = re.match(r"(?:a )?u(16|64)\b(?:, at most (\d+))?", phrase)
        if found:
            return Number(0, int(found[2]) if found[2] else 2 ** int(found[1]) - 1)
        return None

    def array(self, phrase):
        found = re.match(r"an array of (?:at most ([\d,]+) |(\d+) to (\d+) )?(`.*|\w+)(?:, each (.*)|, percentages at most (\d+))?", phrase)
        least, most = (int(found[2]), int(found[3])) if found[2] else (0, number(found[1]) if found[1] else None)
        word = "strings" if found[4] == "texts" else found[4]
        if word.startswith("`"):
            names = re.findall(r"`(\w+)`", phrase)
            return Array(Names(names), least, most, word)
        if found[6]:
            return Array(self.width(int(found[6])), least, most, word)
        return Array(self.kind(found[5]) if found[5] else self.named(word), least, most, word)

    def width(self, most=None):
        return Width(U16, self.raw_kinds["Width"], most)

    def kind(self, phrase):
        """Returns the kind that the text of a field describes. Text after a semicolon is ignored."""
        phrase = phrase.split(";")[0].strip()
        if phrase.startswith("an array of"):
            return self.array(phrase)
        if phrase.startswith("`["):
            return self.sequence(phrase)
        if phrase.startswith("`"):
            return Names(re.findall(r"`(\w+)`", phrase))
        if "the boolean" in phrase:
            inside = re.findall(r"the boolean `(\w+)`(, which is required)?", phrase)
            return Object({name: (bool(required), Flag(), None) for name, required in inside})
        if re.match(r"a (text|string) or a boolean\b", phrase):
            return Either([Text(), Flag()])
        if "a boolean" in phrase:
            return Flag()
        if phrase.startswith("the name of a key"):
            return self.kinds["key"]
        if phrase.startswith("the number of a leaf"):
            return self.leaf
        found = re.match(r"(?:a )?text of at most ([\d,]+) bytes", phrase)
        if found:
            return Text(number(found[1]))
        if re.match(r"a (text|string)\b", phrase):
            return Text()
        if "Width of docs/SCENE.md" in phrase:
            return self.width()
        if "item of docs/SCENE.md without `area`" in phrase:
            return self.kinds["bare item"]
        return self.simple(phrase) or self.named(re.match(r"(?:an? )?(\w+)", phrase)[1])

    def alternatives(self, phrase, fields):
        """Returns the kind that a row of the table of kinds describes."""
        keyed = re.search(r"has the key `(\w+)`; any other value is a (\w+)", phrase)
        having = Object(fields)
        if keyed:
            return Keyed(keyed[1], having, self.named(keyed[2]), keyed[2])
        if "first field of these says which" in phrase:
            return Width(U16, fields)
        if phrase.startswith("`["):
            return self.sequence(phrase)
        if phrase.startswith("a string of at most 32 bytes"):
            return Symbol()
        found = [Names(re.findall(r"`(\w+)`", phrase))] if re.match(r"`\w", phrase) else []
        if "six hexadecimal digits" in phrase:
            found += [Hex(), Number(0, 255, "number")]
        if re.match("a string", phrase):
            found.append(Text(lines="cut into lines" in phrase))
        if re.match(r"a u64|a whole number", phrase):
            found.append(self.simple(phrase))
        if "null" in phrase:
            found.append(Null())
        if "an array of" in phrase:
            found.append(self.array(re.search(r"an array of \w+", phrase)[0]))
        if "an object" in phrase:
            found.append(having)
        return Choice(found) if len(found) > 1 else found[0]

    # docs/SCENE.md.

    def described_fields(self, text):
        """Returns the fields in a cell of a table: name -> (required, description)."""
        fields, phrase = {}, ""
        for name, star, description in FIELD.findall(text):
            if description.startswith("as of a "):
                description = self.raw_widgets[description[len("as of a "):].replace(" ", "_")][name][1]
            default = {"block": "Block", "alignment": "alignment"}.get(name, "Style")
            phrase = phrase if description == "likewise" else description or default
            fields[name] = (star == "*", phrase)
        return fields

    def made(self, fields):
        out = {}
        for name, (required, phrase) in fields.items():
            only = re.search(r"required with the (\w+) `(\w+)`, and read with no other", phrase)
            out[name] = (required, self.kind(phrase), only and (only[1], only[2]))
        return out

    def read_scene(self):
        page = (ROOT / "docs/SCENE.md").read_text(encoding="utf-8")
        phrases = {}
        for line in page[page.index("## The input"):page.index("## The output")].split("\n"):
            row = [cell.strip() for cell in line.strip("|").split("|")] if line.startswith("| ") else []
            if len(row) == 2 and row[0] != "widget":
                name = re.match(r"\[`(\w+)`\]", row[0])
                self.raw_widgets[name[1] if name else row[0]] = self.described_fields(row[1])
            elif len(row) == 3 and row[0] != "kind":
                phrases[row[0]] = row[1]
                self.raw_kinds[row[0]] = self.described_fields(row[2])
        self.scene_kinds = list(phrases)
        self.raw_kinds["item"] = {}
        for name, phrase in phrases.items():
            self.raw_kinds[name] = self.made(self.raw_kinds[name])
            self.kinds[name] = self.alternatives(phrase, self.raw_kinds[name])
        for name, fields in self.raw_widgets.items():
            if name not in ("the scene", "each item"):
                self.widgets[name] = self.made(fields)
        area = {"area": self.raw_widgets["each item"]["area"]}
        self.kinds["item"] = Item(self.widgets, self.made(area))
        self.kinds["bare item"] = Item(self.widgets, {})
        self.kinds["scene"] = Record(self.made(self.raw_widgets["the scene"]))

    # docs/PROGRAMS.md.

    def read_programs(self):
        page = (ROOT / "docs/PROGRAMS.md").read_text(encoding="utf-8")
        self.leaf, self.inputs = Number(0, 255), {}
        for part in page.split("\n## ")[1:]:
            name = re.match(r"tui_(\w+):", part)
            if name:
                self.read_program(name[1], part)

    def read_program(self, name, part):
        """Reads the fields of an input and of the objects in it.

        A row has three cells. The first is `field`, or `field` of a kind.
        """
        rows = re.findall(r"^\| `(\w+)`(?: of an? (\w+))? \| (.*?) \| (yes|no)[^|]* \|$", part, re.M)
        owners = dict.fromkeys(owner for _, owner, _, _ in rows)
        self.raw_kinds.update({owner: {} for owner in owners if owner} | {"pane": {}, "key": {}})
        fields = {owner: {} for owner in owners}
        for field, owner, phrase, needed in rows:
            if "name of a key" in phrase:
                self.read_keys(part, fields[""])
            fields[owner][field] = (needed == "yes", self.kind(phrase), None)
        self.inputs[name] = [(field, kind) for inside in fields.values() for field, (_, kind, _) in inside.items()]
        for owner, inside in fields.items():
            self.kinds[owner or name] = Record(inside)
        if "leaf" in fields:
            self.kinds["pane"] = Keyed("parts", self.kinds["split"], self.kinds["leaf"], "leaf")

    def read_keys(self, part, fields):
        names = [name for row in re.findall(r"^\| (`.*?) \| [^|]* \|$", part, re.M) for name in re.findall(r"`([A-Z]\w+)`", row)]
        size = Size(["columns", "rows"], [fields["width"][1], fields["height"][1]])
        self.kinds["key"] = Choice([Names(names), size])
