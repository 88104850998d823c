#!/usr/bin/env python3
"""Writes test messages and what is expected of them: `python3 vectors.py [--seed N] [--counts] INPUT EXPECTED`."""

import argparse
import sys
from collections import Counter

from reference import (BEAM, BOOKS, BROKEN, CERTIFICATE, COLUMN, DYNAMIC, HELD, LIMITS, NONE, SHEETS, STATIC,
                       TYPES, WALL, ZONES, Beam, Broken, Column, Fault, Wall, carried_now, console_line, decode,
                       face_shear_sides, finding, findings, kind_of, message, verdict)

TOP = 2 ** 32 - 1
KINDS = (BEAM, COLUMN, WALL)
NAMES = {BEAM: "beam", COLUMN: "column", WALL: "wall"}

WORKED_BEAM = Beam(mark=1, zone=100, type=17, strength=140, width=350, depth=470, top_count=4, top_diameter=20,
                   bottom_count=3, bottom_diameter=16, stirrup_diameter=6, stirrup_spacing=200, shear=0,
                   shear_area=140_000, face_count=0, face_diameter=6)
WORKED_COLUMN = Column(mark=2, zone=100, type=17, strength=140, b=400, h=402, count=8, diameter=16, tension_count=4,
                       confined_spacing=100, normal_spacing=150)
WORKED_WALL = Wall(mark=3, zone=100, type=17, strength=140, storey=1, storeys=5, analysis=STATIC, thickness=200,
                   length=3_000, height=9_000, support=2_800, shear=600_000, axial=300_000, shear_area=480_000, layers=2,
                   vertical_diameter=10, vertical_spacing=200, vertical_count=32, horizontal_diameter=12,
                   horizontal_spacing=200)

# A sheet of each kind that gets its certificate in every zone and with every concrete type.
BASE = {
    BEAM: WORKED_BEAM._replace(bottom_count=2, bottom_diameter=20),
    COLUMN: WORKED_COLUMN,
    WALL: WORKED_WALL,
}

# The numbers that are moved to reach the turning point of each article, the most direct first.
MOVED = {
    BEAM: {
        1: ("depth", "width", "strength", "bottom_count"),
        2: ("depth", "width", "top_count"),
        3: ("depth", "strength", "width", "top_count"),
        4: ("top_count", "bottom_count", "zone", "bottom_diameter"),
        5: ("stirrup_spacing", "stirrup_spacing", "stirrup_diameter"),
        6: ("shear", "shear_area", "shear"),
        7: ("face_count", "top_count", "bottom_count", "face_diameter"),
    },
    COLUMN: {
        1: ("h", "b", "count"),
        2: ("h", "b", "count"),
        3: ("h", "b", "tension_count"),
        4: ("confined_spacing", "b", "h"),
        5: ("confined_spacing", "confined_spacing", "diameter"),
        6: ("confined_spacing",),
        7: ("normal_spacing", "b", "h", "zone"),
        8: ("normal_spacing",),
    },
    WALL: {
        1: ("thickness", "thickness", "zone"),
        2: ("support", "thickness", "zone"),
        3: ("vertical_spacing", "thickness", "layers"),
        4: ("vertical_spacing", "thickness", "vertical_diameter"),
        5: ("thickness", "vertical_diameter"),
        6: ("vertical_diameter",),
        7: ("layers",),
        8: ("vertical_spacing",),
        9: ("horizontal_spacing", "thickness", "layers"),
        10: ("thickness", "horizontal_diameter"),
        11: ("horizontal_spacing",),
        12: ("shear", "axial", "vertical_count", "storeys"),
        13: ("shear", "shear_area", "horizontal_spacing", "storeys", "thickness"),
    },
}

# The numbers that are moved to the point where an article begins to apply.
APPLIES = {
    (BEAM, 7): ("shear", "shear_area"),
    (WALL, 13): ("height", "length"),
}

# The numbers that stay as they are while a sheet wanders in search of a turning point.
PLACE = ("mark", "zone", "type")

ROUND = (5, 10, 50, 100, 600, 1_000, 7_500, 27_000, 60_000, 540_000, 2_700_000)


class Draw:
    """Whole numbers drawn from a seed (splitmix64), the same on every machine."""

    def __init__(self, seed):
        """The state is the seed."""
        self.state = seed % 2 ** 64

    def below(self, n):
        """A number from 0 to n − 1."""
        self.state = (self.state + 0x9E3779B97F4A7C15) % 2 ** 64
        z = self.state
        z = (z ^ (z >> 30)) * 0xBF58476D1CE4E5B9 % 2 ** 64
        z = (z ^ (z >> 27)) * 0x94D049BB133111EB % 2 ** 64
        return (z ^ (z >> 31)) % n

    def one(self, items):
        """One of a list, a range or some bytes."""
        return items[self.below(len(items))]

    def bytes(self, n):
        """So many bytes."""
        return bytes(self.below(256) for _ in range(n))


# ---------------------------------------------------------------------------------------------------------------------
# Drawing lawful sheets
# ---------------------------------------------------------------------------------------------------------------------

def near_value(draw, limit, value):
    """A lawful value a few steps from another."""
    index = limit.index(value) + draw.below(41) - 20
    return limit[min(max(index, 0), len(limit) - 1)]


def round_value(draw, limit):
    """A lawful value that is a multiple of a round number, or any if there is none."""
    step = draw.one(ROUND)
    value = step * draw.below(limit[-1] // step + 1)
    return value if value in limit else draw.one(limit)


def scaled_value(draw, limit):
    """A lawful value of a random size, so that small ones are not rare."""
    return limit[draw.below(min(len(limit), 2 ** (1 + draw.below(len(limit).bit_length()))))]


def extreme_value(draw, limit):
    """The low or the high limit, or one step within."""
    return limit[draw.one((0, -1, min(1, len(limit) - 1), -min(2, len(limit))))]


def drawn_value(draw, limit, value):
    """A lawful value: near another, round, of a random size, uniform or extreme."""
    way = draw.below(100)
    if way < 30:
        return near_value(draw, limit, value)
    if way < 60:
        return round_value(draw, limit)
    if way < 75:
        return scaled_value(draw, limit)
    if way < 92:
        return draw.one(limit)
    return extreme_value(draw, limit)


def altered(draw, sheet, fixed=()):
    """The sheet with one number, not a fixed one, drawn anew."""
    index = draw.below(len(sheet))
    name = sheet._fields[index]
    if name in fixed:
        return sheet
    return sheet._replace(**{name: drawn_value(draw, LIMITS[kind_of(sheet)][index], sheet[index])})


def judged(sheet):
    """The verdict on a sheet, a wall with its carried shear equal to its sheet's shear."""
    return verdict(sheet, carried_now(sheet))


def wandered(draw, sheet, steps, fixed=()):
    """The sheet after some alterations, each kept only if the sheet still gets its certificate."""
    for _ in range(steps):
        other = altered(draw, sheet, fixed)
        if judged(other) == CERTIFICATE:
            sheet = other
    return sheet


def any_sheet(draw, kind):
    """A lawful sheet with every number drawn on its own."""
    return SHEETS[kind](*[drawn_value(draw, limit, value) for limit, value in zip(LIMITS[kind], BASE[kind])])


# ---------------------------------------------------------------------------------------------------------------------
# Group a: the worked cases
# ---------------------------------------------------------------------------------------------------------------------

def encoded(sheet):
    """The message of a sheet."""
    return message(kind_of(sheet), sheet)


def worked_sheets():
    """The sheets of the worked findings."""
    beam = WORKED_BEAM
    yield beam
    yield beam._replace(zone=105)
    twenty = beam._replace(bottom_count=2, bottom_diameter=20)
    yield twenty
    yield twenty._replace(shear=406_191)
    yield twenty._replace(shear=406_192)
    yield twenty._replace(stirrup_spacing=201)
    yield WORKED_COLUMN
    yield WORKED_COLUMN._replace(h=403)
    wall = WORKED_WALL
    yield wall
    for analysis in (STATIC, DYNAMIC):
        for storeys in (20, 21, 22):
            yield wall._replace(storeys=storeys, analysis=analysis)
    yield wall._replace(length=800)
    yield wall._replace(length=801)
    yield wall._replace(shear=0)


def group_a(draw):
    """The worked cases and the sizes at which a message is refused unread."""
    for sheet in worked_sheets():
        yield encoded(sheet)
    yield b""
    yield encoded(WORKED_BEAM) + b"\0"
    for size in (256, 257, 300):
        for start in (b"", encoded(WORKED_WALL)):
            yield start + bytes(size - len(start))


# ---------------------------------------------------------------------------------------------------------------------
# Group b: the limits
# ---------------------------------------------------------------------------------------------------------------------

def edge_values(limit):
    """Bounds or listed values with their neighbours, 0 and 2^32 − 1, each once and in order."""
    marks = (limit[0], limit[-1]) if isinstance(limit, range) else limit
    values = {0, TOP} | {mark + step for mark in marks for step in (-1, 0, 1)}
    return sorted(value for value in values if 0 <= value <= TOP)


def group_b(draw):
    """Every number at and around its limits, the others as in the base sheet; then all low and all high."""
    for kind in KINDS:
        for index, limit in enumerate(LIMITS[kind]):
            for value in edge_values(limit):
                values = list(BASE[kind])
                values[index] = value
                yield message(kind, values)
        for end in (0, -1):
            yield message(kind, [limit[end] for limit in LIMITS[kind]])


# ---------------------------------------------------------------------------------------------------------------------
# Group c: the turning points
# ---------------------------------------------------------------------------------------------------------------------

def found(sheet, number):
    """What an article finds on a sheet, a wall with its carried shear equal to its sheet's shear."""
    return finding(sheet, carried_now(sheet), number)


def state(sheet, number):
    """Held, broken or does not apply."""
    return found(sheet, number).state


def moved(sheet, name, step):
    """The sheet with one number moved by one lawful step, or nothing at the end of its limit."""
    limit = LIMITS[kind_of(sheet)][sheet._fields.index(name)]
    index = limit.index(getattr(sheet, name)) + step
    return sheet._replace(**{name: limit[index]}) if 0 <= index < len(limit) else None


def turns(sheet, name, holds):
    """Pairs one step apart where a test that holds on the sheet ends to hold, towards either end of the limit."""
    limit = LIMITS[kind_of(sheet)][sheet._fields.index(name)]
    start = limit.index(getattr(sheet, name))
    pairs = []
    for end in (0, len(limit) - 1):
        good, bad = start, end
        if holds(sheet._replace(**{name: limit[bad]})):
            continue
        while abs(good - bad) > 1:
            middle = (good + bad) // 2
            if holds(sheet._replace(**{name: limit[middle]})):
                good = middle
            else:
                bad = middle
        pairs.append((sheet._replace(**{name: limit[good]}), sheet._replace(**{name: limit[bad]}), good - bad))
    return pairs


def worth(pair, number, equal):
    """How good a pair is: sides equal if that is wanted, and a verdict that turns on this article."""
    good, bad, _ = pair
    said = judged(bad)
    names = isinstance(said, Broken) and said.article == number
    sides = found(good, number)
    return (2 if equal and sides.left == sides.right else 0) + (1 if names and judged(good) == CERTIFICATE else 0)


def best_turn(draw, sheet, names, number, equal, tries):
    """The best pair, with the number moved, where an article goes from held to broken, sought from wandering sheets."""
    best, most = None, -1
    for _ in range(tries):
        sheet = wandered(draw, sheet, 4, PLACE)
        if state(sheet, number) != HELD:
            continue
        for name in names:
            for pair in turns(sheet, name, lambda other: state(other, number) == HELD):
                if state(pair[1], number) == BROKEN and worth(pair, number, equal) > most:
                    best, most = (name, pair), worth(pair, number, equal)
        if most == (3 if equal else 1):
            break
    return best


def loose_turn(draw, kind, name, number, tries):
    """A pair, with the number moved, on a sheet with every number drawn on its own."""
    for _ in range(tries):
        sheet = any_sheet(draw, kind)
        if state(sheet, number) != HELD:
            continue
        for pair in turns(sheet, name, lambda other: state(other, number) == HELD):
            if state(pair[1], number) == BROKEN:
                return name, pair
    return None


def placed(draw, kind, turn):
    """The base sheet with a random mark in the zone and with the concrete type of a turn, wandered some way."""
    sheet = BASE[kind]._replace(mark=1 + draw.below(65_535), zone=ZONES[turn % 4], type=TYPES[turn % 5])
    return wandered(draw, sheet, 20, PLACE)


def shown(turn, number):
    """The two sheets of a pair and, where the sides are equal, the sheet one step back."""
    name, (good, bad, step) = turn
    sides = found(good, number)
    back = moved(good, name, 1 if step > 0 else -1) if sides.left == sides.right else None
    return [sheet for sheet in (back, good, bad) if sheet]


def article_turns(draw, kind, number):
    """Twelve pairs for one article: five sought with equal sides, five that move each number in turn, two loose."""
    names = MOVED[kind][number]
    for turn in range(5):
        yield best_turn(draw, placed(draw, kind, turn), names, number, True, 6_000)
    for turn in range(5, 10):
        sheet = placed(draw, kind, turn)
        yield (best_turn(draw, sheet, [names[turn % len(names)]], number, False, 300)
               or best_turn(draw, sheet, names[:1], number, False, 300))
    for turn in range(10, 12):
        yield loose_turn(draw, kind, names[turn % len(names)], number, 4_000)


def zone_type_turns(draw):
    """Beam article 6 at its turning point in every zone with every concrete type."""
    for turn in range(20):
        yield best_turn(draw, placed(draw, BEAM, turn), ["shear"], 6, True, 1_000)


def on_the_edge(sheet):
    """Both sides of the test whether the last article applies are equal."""
    if kind_of(sheet) == BEAM:
        left, right = face_shear_sides(sheet)
        return left == right
    return sheet.height == 2 * sheet.length


def begins(draw, kind, number, name, turn):
    """A pair where an article begins to apply, with a sheet on the very edge if one is met."""
    sheet, best = placed(draw, kind, turn), None
    for _ in range(1_000):
        sheet = wandered(draw, sheet, 4, PLACE)
        applies = state(sheet, number) != NONE
        for pair in turns(sheet, name, lambda other: (state(other, number) != NONE) == applies):
            if any(map(on_the_edge, pair[:2])):
                return pair[:2]
            best = best or pair[:2]
    return best


def group_c(draw):
    """Every article at its turning point, and the points where articles begin to apply."""
    for kind in KINDS:
        for number in MOVED[kind]:
            for turn in filter(None, article_turns(draw, kind, number)):
                yield from map(encoded, shown(turn, number))
    for turn in filter(None, zone_type_turns(draw)):
        yield from map(encoded, shown(turn, 6))
    for (kind, number), names in APPLIES.items():
        for name in names:
            for turn in range(20):
                yield from map(encoded, begins(draw, kind, number, name, turn) or ())


# ---------------------------------------------------------------------------------------------------------------------
# Group d: the message format
# ---------------------------------------------------------------------------------------------------------------------

def split(text):
    """The fields of a lawful message."""
    return [text[:4]] + [text[at:at + 7] for at in range(4, len(text), 7)]


def with_field(fields, index, new):
    """The message with one field replaced."""
    return b"".join(fields[:index] + [new] + fields[index + 1:])


def swapped(fields, one, other):
    """The message with two fields changed about."""
    fields = list(fields)
    fields[one], fields[other] = fields[other], fields[one]
    return b"".join(fields)


def once(values):
    """The values in order, each once."""
    return list(dict.fromkeys(values))


def tags_and_lengths(fields):
    """Each tag and each length changed, the body unchanged."""
    for index, one in enumerate(fields):
        tag, length, body = one[0], len(one) - 3, one[3:]
        for other in once((tag - 1, tag + 1, 0, 255)):
            yield with_field(fields, index, bytes([other]) + one[1:])
        for other in once((0, length - 1, length + 1, 256 * length, 65_535)):
            yield with_field(fields, index, bytes([tag]) + other.to_bytes(2, "big") + body)


def swaps_and_repeats(draw, fields):
    """Neighbouring and some distant fields swapped, and each field repeated."""
    for index in range(len(fields) - 1):
        yield swapped(fields, index, index + 1)
    for _ in range(5):
        one = draw.below(len(fields) - 2)
        yield swapped(fields, one, one + 2 + draw.below(len(fields) - one - 2))
    for index, one in enumerate(fields):
        yield with_field(fields, index, one + one)


def group_d(draw):
    """The base message of each kind cut, lengthened and damaged in every field and every byte."""
    for kind in KINDS:
        text = encoded(BASE[kind])
        fields = split(text)
        for size in range(len(text)):
            yield text[:size]
        for size in (1, 2, 3, 8):
            yield text + bytes(size)
            yield text + draw.bytes(size)
        yield from tags_and_lengths(fields)
        for other in (0, 4, 255):
            yield with_field(fields, 0, fields[0][:3] + bytes([other]))
        for at in range(len(text)):
            yield text[:at] + bytes([(text[at] + 1 + draw.below(255)) % 256]) + text[at + 1:]
        yield from swaps_and_repeats(draw, fields)


# ---------------------------------------------------------------------------------------------------------------------
# Group e: random messages
# ---------------------------------------------------------------------------------------------------------------------

def random_sheet(draw, kind):
    """A lawful sheet: good all over, good but for a few numbers, or drawn number by number."""
    way = draw.below(100)
    if way >= 75:
        return any_sheet(draw, kind)
    base = BASE[kind]._replace(mark=1 + draw.below(65_535), zone=draw.one(ZONES), type=draw.one(TYPES))
    sheet = wandered(draw, base, 60)
    for _ in range(0 if way < 20 else 1 + draw.below(4)):
        sheet = altered(draw, sheet)
    return sheet


def damaged(draw, text):
    """A message with bytes changed, taken out, put in or cut off."""
    at = draw.below(len(text))
    way = draw.below(4)
    if way == 0:
        text = bytearray(text)
        for _ in range(1 + draw.below(3)):
            text[draw.below(len(text))] ^= 1 << draw.below(8)
        return bytes(text)
    if way == 1:
        return text[:at] + text[at + 1 + draw.below(8):]
    if way == 2:
        return text[:at] + draw.bytes(1 + draw.below(8)) + text[at:]
    return text[:at]


def group_e(draw):
    """2,000 random sheets, 500 damaged messages of them and 200 random byte strings."""
    texts = [encoded(random_sheet(draw, draw.one(KINDS))) for _ in range(2_000)]
    yield from texts
    for _ in range(500):
        yield damaged(draw, draw.one(texts))
    for _ in range(200):
        yield draw.bytes(draw.below(301))


# ---------------------------------------------------------------------------------------------------------------------
# The files
# ---------------------------------------------------------------------------------------------------------------------

GROUPS = (("a", group_a), ("b", group_b), ("c", group_c), ("d", group_d), ("e", group_e))


def expected_lines(text):
    """The console line and, for a sheet, the line of its findings."""
    lines = [console_line(text)]
    sheet = decode(text)
    if not isinstance(sheet, Fault):
        lines.append(" ".join("%s:%d:%d" % one for one in findings(sheet)))
    return lines


def outcome(text):
    """What a message is counted under: kind and article or certificate, or the number of the refusal."""
    line = console_line(text).split()
    if line[0] == "refused":
        return "refused " + line[1]
    return " ".join([NAMES[text[3]]] + line[:2])


def print_counts(groups):
    """How many messages each group has and how many have each outcome."""
    for name, texts in groups:
        print("group %s: %d messages" % (name, len(texts)))
    counts = Counter(outcome(text) for _, texts in groups for text in texts)
    for kind in KINDS:
        for said in ["certificate"] + ["broken %d" % (i + 1) for i in range(len(BOOKS[kind]))]:
            print("%s %s: %d" % (NAMES[kind], said, counts[NAMES[kind] + " " + said]))
    for number in ("I1", "I2", "I3", "I4", "I5", "S12"):
        print("refused %s: %d" % (number, counts["refused " + number]))


def write_lines(path, lines):
    """Every line ends with a line feed."""
    with open(path, "w", encoding="ascii", newline="\n") as out:
        out.writelines(line + "\n" for line in lines)


def main():
    """The messages of all groups go to INPUT, what is expected of them to EXPECTED."""
    parser = argparse.ArgumentParser(description="Writes test messages and what is expected of them.")
    parser.add_argument("--seed", type=int, default=1)
    parser.add_argument("--counts", action="store_true", help="print how many messages have each outcome")
    parser.add_argument("input")
    parser.add_argument("expected")
    options = parser.parse_args()
    draw = Draw(options.seed)
    groups = [(name, list(group(draw))) for name, group in GROUPS]
    texts = [text for _, some in groups for text in some]
    write_lines(options.input, [text.hex() for text in texts])
    write_lines(options.expected, [line for text in texts for line in expected_lines(text)])
    if options.counts:
        print_counts(groups)
    return 0


if __name__ == "__main__":
    sys.exit(main())
