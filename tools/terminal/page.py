"""The definitions in crates/tui_terminal_model/specs about symbols, cells and colours, in Python."""

COMMON = [
    (0x20, 0x7E), (0xA1, 0xA8), (0xAA, 0xAC), (0xAF, 0x2FF), (0x370, 0x377), (0x37A, 0x37F), (0x384, 0x38A), (0x38C, 0x38C),
    (0x38E, 0x3A1), (0x3A3, 0x3FF), (0x400, 0x482), (0x48A, 0x52F), (0x2010, 0x2027), (0x2190, 0x2193), (0x219A, 0x21A8),
    (0x21AB, 0x21FF), (0x2500, 0x25A9), (0x25AC, 0x25B5), (0x25B7, 0x25BF), (0x25C1, 0x25FA), (0x25FF, 0x25FF), (0x2800, 0x28FF),
    (0x3001, 0x3029), (0x3041, 0x3096), (0x309B, 0x30FF), (0x4E00, 0x9FD5), (0xAC00, 0xD7A3), (0xFF01, 0xFF60), (0xFFE0, 0xFFE6)]
ASCII = COMMON[:1]
SKIN_TONES = [chr(c) for c in range(0x1F3FB, 0x1F400)]
JOINS_NEXT = [
    (0x200D, 0x200D), (0x1100, 0x115F), (0xA960, 0xA97C), (0x600, 0x605), (0x6DD, 0x6DD), (0x70F, 0x70F), (0x890, 0x891),
    (0x8E2, 0x8E2), (0xD4E, 0xD4E), (0x110BD, 0x110BD), (0x110CD, 0x110CD), (0x111C2, 0x111C3), (0x1193F, 0x1193F),
    (0x11941, 0x11941), (0x11A3A, 0x11A3A), (0x11A84, 0x11A89), (0x11D46, 0x11D46), (0x11F02, 0x11F02)]
# The first text after the modes are reset, if its width is known. It is written where the frame begins, and
# is not one of its cells.
MENDING = "À"
REST = ("name", 0)
BLANK = (" ", REST, REST, 0)
NAMED_LIGHTS = [
    (0, 0, 0), (205, 0, 0), (0, 205, 0), (205, 205, 0), (0, 0, 238), (205, 0, 205), (0, 205, 205), (229, 229, 229), (127, 127, 127),
    (255, 0, 0), (0, 255, 0), (255, 255, 0), (92, 92, 255), (255, 0, 255), (0, 255, 255), (255, 255, 255)]


def is_among(ranges, character):
    return any(first <= ord(character) <= last for first, last in ranges)


def has_known_width(known_widths, symbol):
    return len(symbol) == 1 and is_among(COMMON if known_widths else ASCII, symbol)


class Symbols:
    """Which symbols are sent. `widths` are the widths of the library, in columns, for each text that is needed."""

    def __init__(self, widths):
        self.widths = widths

    def step(self, symbol):
        return max(self.widths[symbol], 1)

    def reach(self, symbol):
        return sum(1 if ord(c) < 0x80 or self.widths[c] == 0 else 2 for c in symbol)

    def is_sendable(self, known_widths, room, symbol):
        if any(ord(c) < 0x20 or 0x7F <= ord(c) <= 0x9F for c in symbol) or self.step(symbol) > room:
            return False
        if has_known_width(known_widths, symbol):
            return True
        joins_nothing = symbol and self.widths[symbol[0]] > 0 and symbol[0] not in SKIN_TONES and not is_among(JOINS_NEXT, symbol[-1])
        return bool(joins_nothing) and self.reach(symbol) <= room

    def pieces(self, known_widths, cells):
        """Returns the visible cells of a row, each with its column, counted from 0."""
        shown, left, blank = [], 0, None
        for column, cell in enumerate(cells):
            room = len(cells) - column
            if left:
                left -= 1
                if blank:
                    shown.append((column, blank))
                continue
            sent = self.is_sendable(known_widths, room, cell[0])
            blank = None if sent else (" ", *cell[1:])
            left = min(self.step(cell[0]), room) - 1
            shown.append((column, blank or cell))
        return shown


# ---- colours


def distance(a, b):
    return sum((x - y) ** 2 for x, y in zip(a, b))


def level(value):
    return sum(value >= bound for bound in (48, 115, 155, 195, 235))


def light_of_level(number):
    return 55 + 40 * number if number else 0


def light_at(index):
    """Returns red, green and blue of a colour of the palette from 16 on."""
    if index >= 232:
        return (8 + 10 * (index - 232),) * 3
    cube = index - 16
    return tuple(light_of_level(n) for n in (cube // 36, cube // 6 % 6, cube % 6))


def nearest_name(light):
    return ("name", 1 + min(range(16), key=lambda n: distance(light, NAMED_LIGHTS[n])))


def nearest_in_palette(light):
    red, green, blue = map(level, light)
    return ("index", min([16 + 36 * red + 6 * green + blue, *range(232, 256)], key=lambda n: distance(light, light_at(n))))


def color_at(depth, color):
    kind, *value = color
    if depth == 0:
        return REST
    if depth == 2 and kind == "rgb":
        return nearest_in_palette(value)
    if depth == 1 and kind == "rgb":
        return nearest_name(value)
    if depth == 1 and kind == "index":
        return ("name", 1 + value[0]) if value[0] < 16 else nearest_name(light_at(value[0]))
    return color


def pen_of(depth, cell):
    """Returns the colours and the modifiers with which a cell is drawn. Each modifier is a bit."""
    return color_at(depth, cell[1]), color_at(depth, cell[2]), cell[3]
