"""The graphemes of a text (UAX #29) and their widths, by the rules by which the program draws (docs/RULES.md).

The properties of characters are in tools/graphemes.txt. Python's own tables are of another version of Unicode.
"""
import bisect
import functools
import pathlib

ZWJ, KEYCAP, TEXT_STYLE, EMOJI_STYLE, WIDE_QUOTE = 0x200D, 0x20E3, 0xFE0E, 0xFE0F, 0xFE01


def read_ranges():
    """Returns the first and the last code points of the ranges of each property."""
    found, name = {}, None
    for line in (pathlib.Path(__file__).parent / "graphemes.txt").read_text(encoding="utf-8").split("\n"):
        for word in line.split(" ") if not line.startswith("#") else ():
            if word.endswith(":"):
                name = word[:-1]
                found[name] = ([], [])
            elif word:
                first, _, last = word.partition("-")
                found[name][0].append(int(first, 16))
                found[name][1].append(int(last or first, 16))
    return found


RANGES = read_ranges()


@functools.lru_cache(maxsize=None)
def names(code):
    """Returns the properties of a code point."""
    of = set()
    for name, (firsts, lasts) in RANGES.items():
        at = bisect.bisect_right(firsts, code) - 1
        if at >= 0 and code <= lasts[at]:
            of.add(name)
    if 0x1F1E6 <= code <= 0x1F1FF:
        of.add("indicator")
    if 0xAC00 <= code <= 0xD7A3:
        of.add("lead vowel" if (code - 0xAC00) % 28 == 0 else "lead vowel trail")
    return frozenset(of)


# What may follow in a Hangul syllable without a break.
SYLLABLE = {
    "lead": {"lead", "vowel", "lead vowel", "lead vowel trail"},
    "vowel": {"vowel", "trail"},
    "lead vowel": {"vowel", "trail"},
    "trail": {"trail"},
    "lead vowel trail": {"trail"},
}


def ends_in(before, name, passed):
    """Whether the code points end in one with a property, followed only by code points that `passed` accepts."""
    for code in reversed(before):
        if name in names(code):
            return True
        if not passed(code):
            return False
    return False


def joins(before, code):
    """Whether a code point belongs to the same grapheme as the code points before it."""
    last, this = names(before[-1]), names(code)
    if "control" in last or "control" in this:
        return False
    if any(SYLLABLE[name] & this for name in last if name in SYLLABLE):
        return True
    if code == ZWJ or this & {"extend", "spacing"} or "prepend" in last:
        return True
    if "consonant" in this and ends_in(before, "linker", lambda c: c == ZWJ or c != 0x200C and "extend" in names(c)):
        return True
    if "pictograph" in this and before[-1] == ZWJ:
        return ends_in(before[:-1], "pictograph", lambda c: "extend" in names(c))
    return "indicator" in this and len(before) % 2 == 1 and all("indicator" in names(c) for c in before)


def graphemes(text):
    """Returns the graphemes of a text without control characters."""
    found = []
    for character in text:
        code = ord(character)
        if found and (code >= 0x300 or found[-1][-1] >= 0x300) and joins(found[-1], code):
            found[-1].append(code)
        else:
            found.append([code])
    return ["".join(map(chr, codes)) for codes in found]


def alone(code):
    """Returns the width of a character by itself, in columns."""
    if code < 0x300:
        return 0 if code == 0xAD else 1
    of = names(code)
    if "wide" in of:
        return 2
    if "zero" in of or "extend" in of and "marks" not in of:
        return 0
    return 3 if code == 0x17D8 else 1


# The values of `after` for a joiner followed by an emoji. An emoji before such a joiner takes no columns of its own.
JOINED = ("joiner", "joined keycap")
# Vowels of Kirat Rai that are written together: (`after`, the vowel) -> (the columns that it adds, the next `after`).
KIRAT = {
    ("e", 0x16D63): (0, ""),
    ("e", 0x16D67): (0, "ai"),
    ("e", 0x16D68): (1, "e"),
    ("e", 0x16D69): (0, ""),
    ("ai", 0x16D63): (0, ""),
}


def followed(code, of):
    """Returns the `after` of the character before this one."""
    if 0x1F3FB <= code <= 0x1F3FF:
        return "tone"
    if code in (0x16D67, 0x16D68):
        return "e" if code == 0x16D67 else "ai"
    return "emoji" if "emoji" in of else "khmer" if 0x1780 <= code <= 0x17AF else ""


def joined(code, of, after):
    """Returns the columns that a character adds if it joins what follows, and the next `after`. Else returns None."""
    if code == ZWJ and after in ("emoji", "tone", "khmer"):
        return 0, "khmer" if after == "khmer" else "joiner"
    if after == "tone" and "toned" in of:
        return 0, "emoji"
    if after == "joiner":
        if code == KEYCAP:
            return 0, "joined keycap"
        if code == 0xE007F:
            return 0, "tags"
        if "indicator" in of:
            return 1, "indicator"
        return (0, followed(code, of)) if of & {"emoji"} or 0x1F3FB <= code <= 0x1F3FF else None
    if after == "indicator" and "indicator" in of:
        return -1, ""
    if after == "tags" and (0xE0030 <= code <= 0xE007A or code == 0x1F3F4):
        return 0, "emoji" if code == 0x1F3F4 else "tags"
    if after == "khmer" and code == 0x17D2:
        return -1, ""
    return KIRAT.get((after, code))


@functools.lru_cache(maxsize=None)
def columns(grapheme):
    """Returns the width of a grapheme in columns.

    It is read from its end, since what follows a character may take its columns away or change them. `after`
    says what follows the current character, and `style` which variation selector does.
    """
    total, after, style = 0, "", 0
    for code in reversed([ord(character) for character in grapheme]):
        of = names(code)
        if style == EMOJI_STYLE and "bases" in of:
            total, after, style = total + (0 if after in JOINED else 2), "emoji", 0
            continue
        if style == EMOJI_STYLE and after != "khmer":
            after = ""
        if code in (EMOJI_STYLE, TEXT_STYLE, WIDE_QUOTE):
            kept = after == "khmer" or code == EMOJI_STYLE and after in JOINED
            after, style = after if kept else "", code
            continue
        if style == TEXT_STYLE and {"bases", "emoji"} <= of and not 0x1F200 <= code <= 0x1F2FF:
            more, after = 1, ""
        elif style == WIDE_QUOTE and chr(code) in "‘’“”":
            more, after = 2, ""
        else:
            more, after = joined(code, of, after) or (alone(code), followed(code, of))
        total, style = max(total + more, 0), 0
    return total
