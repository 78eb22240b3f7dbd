#!/usr/bin/env python3
"""Writes the inputs that docs/PERFORMANCE.md measures into a folder: tools/scenes.py FOLDER"""
import json
import pathlib
import random
import sys


def scene(width, height, items):
    return {"width": width, "height": height, "items": items}


def fill(symbol, area=(0, 0, 1000, 1000), **fields):
    return {"widget": "fill", "area": list(area), "symbol": symbol, **fields}


def words(length):
    """Returns a text of about `length` bytes, with words of 1 to 9 letters."""
    source = random.Random(4711)
    text = []
    while length > 0:
        word = "abcdefghi"[: source.randint(1, 9)]
        text.append(word)
        length -= len(word) + 1
    return " ".join(text)


def compounds(length):
    """Returns the text of `words`. In every third word, if it has more than 3 letters, the third letter is a hyphen."""
    each = words(length).split(" ")
    return " ".join(word[:2] + "-" + word[3:] if i % 3 == 0 and len(word) > 3 else word for i, word in enumerate(each))


def short_lines(length):
    """Returns the text of `words` in lines of five words."""
    each = words(length).split(" ")
    return "\n".join(" ".join(each[i : i + 5]) for i in range(0, len(each), 5))


def paragraph(text, area, **fields):
    return {"widget": "paragraph", "area": list(area), "text": text, **fields}


def styled():
    """Every second cell of 1000 by 1000 has a style: columns of fills, and wide characters without style in their second cells."""
    red = {"fg": "red"}
    columns = [fill("x", (2 * i, 0, 1, 1000), style=red) for i in range(254)]
    wide = {"lines": ["\u30b3" * 246 for _ in range(1000)], "style": red}
    return scene(1000, 1000, columns + [paragraph(wide, (508, 0, 492, 1000))])


ALL = ["top", "right", "bottom", "left"]


def block(area, **fields):
    return {"widget": "block", "area": list(area), "block": {"borders": ALL, **fields}}


def blocks():
    """250 rounded blocks of 60 by 20 with a title, placed over a screen of 200 by 60."""
    source = random.Random(4712)
    places = [(source.randint(0, 140), source.randint(0, 40), 60, 20) for _ in range(250)]
    return scene(200, 60, [block(place, border_type="Rounded", titles=["Title"]) for place in places])


def items(count):
    """Returns texts of about 50 bytes. Every third is an object with a style."""
    source = random.Random(4713)
    texts = ["".join(source.choice("abcdefghij ") for _ in range(source.randint(40, 60))) for _ in range(count)]
    return [{"text": text, "style": {"fg": "red"}} if i % 3 == 0 else text for i, text in enumerate(texts)]


def rolled(width, height):
    """A bordered list of 10,000 items, the last one selected."""
    frame = {"borders": ALL, "titles": ["List"]}
    return scene(width, height, [{"widget": "list", "area": [0, 0, width, height], "block": frame, "items": items(10_000), "selected": 9_999}])


def table(width, height):
    """A table of 5,000 rows of six cells, with a header, the last row selected."""
    source = random.Random(4714)
    cell = lambda: "".join(source.choice("abcdefghij") for _ in range(source.randint(10, 18)))
    rows = [[cell() for _ in range(6)] for _ in range(5_000)]
    head = ["one", "two", "three", "four", "five", "six"]
    return scene(width, height, [{"widget": "table", "area": [0, 0, width, height], "header": head, "rows": rows, "selected": 4_999}])


def gauges():
    """250 gauges over the whole screen, each a little fuller than the one before."""
    style = {"fg": "cyan", "bg": "black"}
    each = [{"widget": "gauge", "area": [0, 4 * k, 1000, 4], "ratio": [k, 250], "use_unicode": True, "gauge_style": style} for k in range(250)]
    return scene(1000, 1000, each)


def bars():
    source = random.Random(4715)
    values = [source.randint(0, 999) for _ in range(60_000)]
    return scene(200, 50, [{"widget": "bar_chart", "area": [0, 0, 200, 50], "groups": [values]}])


def spark():
    source = random.Random(4716)
    values = [source.randint(0, 999) for _ in range(100_000)]
    return scene(200, 50, [{"widget": "sparkline", "area": [0, 0, 200, 50], "data": values}])


def dashboard(x, y):
    """Seven widgets in 40 by 12 cells."""
    frame = lambda title: {"borders": ALL, "titles": [title]}
    names = [letter + ".txt" for letter in "abcdefghi"]
    text = "The quick brown fox jumps over the lazy dog and runs back home again."
    return [
        {"widget": "tabs", "area": [x, y, 40, 1], "titles": ["Files", "Search", "Log"], "selected": 1},
        {"widget": "list", "area": [x, y + 1, 14, 9], "block": frame("Files"), "items": names, "highlight_symbol": ">",
         "highlight_style": {"add": ["reversed"]}, "scroll_padding": 1, "selected": 7},
        {"widget": "paragraph", "area": [x + 14, y + 1, 26, 9], "block": frame("Text"), "text": text, "wrap": {"trim": True}},
        {"widget": "scrollbar", "area": [x + 39, y + 2, 1, 7], "begin_symbol": None, "end_symbol": None, "content_length": 9,
         "position": 2, "viewport_content_length": 7},
        {"widget": "gauge", "area": [x, y + 10, 40, 1], "ratio": [3, 4]},
        {"widget": "paragraph", "area": [x, y + 11, 40, 1], "text": "q quits", "alignment": "Right"},
        {"widget": "clear", "area": [x + 20, y + 5, 12, 3]},
    ]


def ignored():
    """One blank cell, and 1 MB of JSON that the schema ignores."""
    source = random.Random(4717)
    name = lambda: "".join(source.choice("abcdefghij") for _ in range(source.randint(6, 12)))
    more = [{"id": i, "name": name(), "size": source.randint(0, 99_999), "tags": [name(), name()]} for i in range(12_000)]
    return {**scene(1, 1, []), "more": more}


def wide_words(length):
    """Returns a text of about `length` bytes, with words of one to eight CJK characters.

    Every fourth word ends with two letters that have combining marks.
    """
    source = random.Random(4719)
    each = []
    while length > 0:
        word = "".join(chr(source.randint(0x4E00, 0x9FA5)) for _ in range(source.randint(1, 8)))
        each.append(word + "e\u0301o\u0308" if len(each) % 4 == 3 else word)
        length -= len(each[-1].encode()) + 1
    return " ".join(each)


def words_of(letters, length):
    """Returns a text of about `length` bytes, with words of one to nine of these letters."""
    source = random.Random(4720)
    each = []
    while length > 0:
        each.append("".join(source.choice(letters) for _ in range(source.randint(1, 9))))
        length -= len(each[-1].encode()) + 1
    return " ".join(each)


def many_tabs():
    """250 rows, each with a hundred tabs."""
    titles = [f"tab {i}" for i in range(100)]
    return scene(1000, 250, [{"widget": "tabs", "area": [0, y, 1000, 1], "titles": titles} for y in range(250)])


def stripes():
    """250 bold stripes of two columns, one every four columns, each with its own colours."""
    colour = lambda i: f"#{(i * 7919) % 0x1000000:06x}"
    style = lambda i: {"fg": colour(i), "bg": colour(i + 250), "add": ["bold"]}
    return scene(1000, 1000, [fill("x", (4 * i, 0, 2, 1000), style=style(i)) for i in range(250)])


def pager(width, height, entries, key):
    """The input of a pager with the same key 1,000 times.

    `entries` is the number of entries and the length of each body in bytes. A title has four bytes.
    """
    count, length = entries
    each = [{"title": f"e{i:03}", "body": words(length)[:length]} for i in range(count)]
    return {"width": width, "height": height, "entries": each, "keys": [key] * 1_000}


def pane_item(i):
    return {"widget": "paragraph", "text": f"pane {i}", "block": {"borders": ALL}, "style": {"fg": "cyan"}}


def grid(rows, changes):
    """16 panes of 60 by 60 in each row, and changes of one pane each."""
    row = lambda y: {"parts": [{"size": {"fill": 1}, "pane": {"item": pane_item(16 * y + x)}} for x in range(16)]}
    root = {"direction": "Vertical", "parts": [{"size": {"fill": 1}, "pane": row(y)} for y in range(rows)]}
    changed = [{"leaf": i % (16 * rows), "item": pane_item(i + 16 * rows)} for i in range(changes)]
    return {"width": 960, "height": 60 * rows, "root": root, "changes": changed}


def areas(rows, changes):
    """The same widgets as items of a scene. Each change is a Clear and the new widget."""
    area = lambda i: [60 * (i % 16), 60 * (i // 16), 60, 60]
    each = [{**pane_item(i), "area": area(i)} for i in range(16 * rows)]
    for i in range(changes):
        place = area(i % (16 * rows))
        each += [{"widget": "clear", "area": place}, {**pane_item(i + 16 * rows), "area": place}]
    return scene(960, 60 * rows, each)


def report(width, height, sizes, records):
    columns = [{"name": f"column {i}", "size": size} for i, size in enumerate(sizes)]
    return {"width": width, "height": height, "title": "Report", "columns": columns, "records": records}


def records(count):
    """Returns records of three texts, with 5 to 20, 10 to 80 and 5 to 30 letters, in words of 1 to 9 letters."""
    source = random.Random(4718)

    def text(length):
        each = []
        while length > 0:
            each.append("abcdefghi"[: source.randint(1, 9)])
            length -= len(each[-1]) + 1
        return " ".join(each)

    return [[text(source.randint(5, 20)), text(source.randint(10, 80)), text(source.randint(5, 30))] for _ in range(count)]


def letters(count):
    """`count` records with one word of 4,096 letters, each letter in a line of its own."""
    return report(3, 4, [1], [["abcdefghijklmnop" * 256] for _ in range(count)])


def newlines(count):
    """`count` records with 4,096 lines of one letter."""
    return report(3, 4, [1], [["a\n" * 4096] for _ in range(count)])


SCENES = {
    "ignored": ignored,
    "blank": lambda: scene(1000, 1000, []),
    "fill": lambda: scene(1000, 1000, [fill("x")]),
    "fill20": lambda: scene(1000, 1000, [fill("abcdefghijklmnopqrst"[i]) for i in range(20)]),
    "symbol31": lambda: scene(1000, 1000, [fill("e" + "\u0301" * 15)]),
    "paragraph": lambda: scene(200, 1000, [paragraph(words(500_000), (0, 0, 200, 1000), wrap={"trim": True})]),
    "lines": lambda: scene(200, 1000, [paragraph(short_lines(500_000), (0, 0, 200, 1000), wrap={"trim": True})]),
    "line20": lambda: scene(20, 10, [paragraph(words(1_000_000), (0, 0, 20, 10), wrap={"trim": True}, scroll=[65535, 0])]),
    "line1000": lambda: scene(1000, 10, [paragraph(words(1_000_000), (0, 0, 1000, 10), wrap={"trim": True}, scroll=[65535, 0])]),
    "unwrapped": lambda: scene(1000, 10, [paragraph(words(1_000_000), (0, 0, 1000, 10))]),
    "blanks": lambda: scene(20, 10, [paragraph(" " * 1_000_000, (0, 0, 20, 10), wrap={"trim": True})]),
    "hyphens": lambda: scene(200, 1000, [paragraph(compounds(500_000), (0, 0, 200, 1000), wrap={"trim": True, "hyphens": True})]),
    "pieces": lambda: scene(20, 10, [paragraph("ab-" * 333_333, (0, 0, 20, 10), wrap={"trim": True, "hyphens": True}, scroll=[65535, 0])]),
    "nowhere": lambda: scene(20, 10, [paragraph("a-" + "\u2060" * 300_000 + "-b", (0, 0, 20, 10), wrap={"trim": True, "hyphens": True})]),
    "styled": styled,
    "blocks": blocks,
    "list1000": lambda: rolled(200, 1000),
    "list20": lambda: rolled(40, 20),
    "table1000": lambda: table(200, 1000),
    "table40": lambda: table(200, 40),
    "gauges": gauges,
    "bars": bars,
    "spark": spark,
    "dashboard": lambda: scene(40, 12, dashboard(0, 0)),
    "dashboards": lambda: scene(240, 72, [item for i in range(36) for item in dashboard(40 * (i % 6), 12 * (i // 6))]),
    "pages": lambda: report(80, 60, [12, 45, {"fill": 1}], records(10_000)),
    "pages128": lambda: letters(128),
    "pages255": lambda: letters(255),
    "pages85": lambda: newlines(85),
    "cjk": lambda: scene(200, 1000, [paragraph(wide_words(300_000), (0, 0, 200, 1000), wrap={"trim": True})]),
    "accents": lambda: scene(200, 1000, [paragraph(words_of("abcdeéèöüñ", 300_000), (0, 0, 200, 1000), wrap={"trim": True})]),
    "cyrillic": lambda: scene(200, 1000, [paragraph(words_of("абвгдежзик", 300_000), (0, 0, 200, 1000), wrap={"trim": True})]),
    "tabs": many_tabs,
    "stripes": stripes,
    "pager80": lambda: pager(80, 24, (1_000, 1_000), "Down"),
    "pager200": lambda: pager(200, 100, (1_000, 1_000), "Down"),
    "pager_line": lambda: pager(80, 24, (1, 64_000), "LineDown"),
    "panes": lambda: grid(15, 0),
    "panes_changed": lambda: grid(4, 90),
    "areas": lambda: areas(15, 0),
    "areas_changed": lambda: areas(4, 90),
    "exact": lambda: scene(1000, 1000, [block((0, 0, 1000, 1000), merge_borders="Exact")]),
}


def main():
    folder = pathlib.Path(sys.argv[1])
    folder.mkdir(parents=True, exist_ok=True)
    for name, make in SCENES.items():
        (folder / (name + ".json")).write_text(json.dumps(make(), ensure_ascii=False), encoding="utf-8")


main()
