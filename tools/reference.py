#!/usr/bin/env python3
"""Reference for sheets, messages, books and the console line, written from the pages in docs/ alone.

`python3 reference.py < message` prints the console line. Lengths are in mm, areas in mm², forces in N. All numbers are
whole numbers.
"""

import sys
from collections import namedtuple

# ---------------------------------------------------------------------------------------------------------------------
# Tables
# ---------------------------------------------------------------------------------------------------------------------

BEAM, COLUMN, WALL = 1, 2, 3
STATIC, DYNAMIC = 1, 2

BAR_AREA = {6: 28, 8: 50, 10: 79, 12: 113, 16: 201, 20: 314, 25: 491}
ROOT = {17: 4123, 21: 4582, 30: 5477, 38: 6164, 47: 6855}
ZONES = (100, 105, 115, 125)
DIAMETERS = tuple(BAR_AREA)
TYPES = tuple(ROOT)

MAX_MESSAGE = 256
MAX_CARRIED = 10_000_000
KIND_TAG, FIRST_TAG = 1, 16
KIND_LENGTH, NUMBER_LENGTH = 1, 4
HEAD = 3


def span(low, high):
    """A limit given by two bounds, both allowed."""
    return range(low, high + 1)


COMMON = (
    ("mark", span(1, 65_535)),
    ("zone", ZONES),
    ("type", TYPES),
    ("strength", span(100, 300)),
)

NUMBERS = {
    BEAM: COMMON + (
        ("width", span(100, 2_000)),
        ("depth", span(100, 2_000)),
        ("top_count", span(1, 100)),
        ("top_diameter", DIAMETERS),
        ("bottom_count", span(1, 100)),
        ("bottom_diameter", DIAMETERS),
        ("stirrup_diameter", DIAMETERS),
        ("stirrup_spacing", span(1, 500)),
        ("shear", span(0, 10_000_000)),
        ("shear_area", span(1, 5_000_000)),
        ("face_count", span(0, 20)),
        ("face_diameter", DIAMETERS),
    ),
    COLUMN: COMMON + (
        ("b", span(100, 2_000)),
        ("h", span(100, 2_000)),
        ("count", span(1, 100)),
        ("diameter", DIAMETERS),
        ("tension_count", span(1, 100)),
        ("confined_spacing", span(1, 500)),
        ("normal_spacing", span(1, 500)),
    ),
    WALL: COMMON + (
        ("storey", span(1, 40)),
        ("storeys", span(1, 40)),
        ("analysis", span(1, 2)),
        ("thickness", span(50, 600)),
        ("length", span(200, 20_000)),
        ("height", span(1_000, 200_000)),
        ("support", span(500, 20_000)),
        ("shear", span(0, 10_000_000)),
        ("axial", span(0, 100_000_000)),
        ("shear_area", span(1, 5_000_000)),
        ("layers", span(1, 4)),
        ("vertical_diameter", DIAMETERS),
        ("vertical_spacing", span(1, 500)),
        ("vertical_count", span(1, 2_000)),
        ("horizontal_diameter", DIAMETERS),
        ("horizontal_spacing", span(1, 500)),
    ),
}

LIMITS = {kind: tuple(limit for _, limit in numbers) for kind, numbers in NUMBERS.items()}

Beam = namedtuple("Beam", [name for name, _ in NUMBERS[BEAM]])
Column = namedtuple("Column", [name for name, _ in NUMBERS[COLUMN]])
Wall = namedtuple("Wall", [name for name, _ in NUMBERS[WALL]])
SHEETS = {BEAM: Beam, COLUMN: Column, WALL: Wall}

Fault = namedtuple("Fault", "number layer place")
Finding = namedtuple("Finding", "state left right")
Broken = namedtuple("Broken", "article left right")

HELD, BROKEN, NONE = "h", "b", "n"
DOES_NOT_APPLY = Finding(NONE, 0, 0)
CERTIFICATE = "certificate"

LAYER = {"I1": 1, "I2": 1, "I3": 1, "I4": 1, "I5": 2, "I6": 3, "S4": 3, "S12": 3}


def fault(number, place=0):
    """A refusal has a number, the layer of that number and a place."""
    return Fault(number, LAYER[number], place)


# ---------------------------------------------------------------------------------------------------------------------
# Sheets
# ---------------------------------------------------------------------------------------------------------------------

def kind_of(sheet):
    """1 beam, 2 column, 3 wall."""
    return {Beam: BEAM, Column: COLUMN, Wall: WALL}[type(sheet)]


def lawful_sheet(sheet):
    """Each number of the sheet is within its own limit."""
    return all(value in limit for value, limit in zip(sheet, LIMITS[kind_of(sheet)]))


def lawful_carried(sheet, carried):
    """A wall's carried shear q has 10 × q ≥ 7 × shear and q ≤ 10,000,000; another member has none."""
    if kind_of(sheet) != WALL:
        return True
    return 10 * carried >= 7 * sheet.shear and carried <= MAX_CARRIED


def carried_now(sheet):
    """A wall is judged with its carried shear equal to its sheet's shear."""
    return sheet.shear if kind_of(sheet) == WALL else 0


# ---------------------------------------------------------------------------------------------------------------------
# Messages
# ---------------------------------------------------------------------------------------------------------------------

def field(tag, body):
    """A field is a one-byte tag, a two-byte length and the body, high byte first."""
    return bytes([tag]) + len(body).to_bytes(2, "big") + body


def message(kind, values):
    """A message is the kind's field and then one field for each number, with tags 16, 17, 18 and so on."""
    fields = [field(KIND_TAG, bytes([kind]))]
    fields += [field(FIRST_TAG + i, value.to_bytes(NUMBER_LENGTH, "big")) for i, value in enumerate(values)]
    return b"".join(fields)


def encode(sheet, buffer):
    """The message is put at the front of the buffer and its length answered; a buffer too short is I6, unaltered."""
    text = message(kind_of(sheet), sheet)
    if len(buffer) < len(text):
        return fault("I6")
    buffer[:len(text)] = text
    return len(text)


def read_field(text, at, tag, length, limit):
    """The value of the field due at an offset, or its first fault: missing, cut short, tag, length, value."""
    if at == len(text):
        return None, fault("I3", at)
    if len(text) - at < HEAD:
        return None, fault("I2", at)
    found_length = int.from_bytes(text[at + 1:at + HEAD], "big")
    body = text[at + HEAD:at + HEAD + found_length]
    if len(body) < found_length:
        return None, fault("I2", at)
    if text[at] != tag:
        return None, fault("I3", at)
    if found_length != length:
        return None, fault("I4", at)
    value = int.from_bytes(body, "big")
    if value not in limit:
        return None, fault("I5", at)
    return value, None


def decode(text):
    """Any bytes read as a sheet or as their first fault: size, each due field in turn, bytes left over."""
    if not 1 <= len(text) <= MAX_MESSAGE:
        return fault("I1")
    kind, wrong = read_field(text, 0, KIND_TAG, KIND_LENGTH, span(BEAM, WALL))
    if wrong:
        return wrong
    at = HEAD + KIND_LENGTH
    values = []
    for i, limit in enumerate(LIMITS[kind]):
        value, wrong = read_field(text, at, FIRST_TAG + i, NUMBER_LENGTH, limit)
        if wrong:
            return wrong
        values.append(value)
        at += HEAD + NUMBER_LENGTH
    if at < len(text):
        return fault("I3", at)
    return SHEETS[kind](*values)


# ---------------------------------------------------------------------------------------------------------------------
# Findings
# ---------------------------------------------------------------------------------------------------------------------

def at_least(left, right):
    """Held when left ≥ right."""
    return Finding(HELD if left >= right else BROKEN, left, right)


def at_most(left, right):
    """Held when left ≤ right."""
    return Finding(HELD if left <= right else BROKEN, left, right)


# ---------------------------------------------------------------------------------------------------------------------
# Beam book
# ---------------------------------------------------------------------------------------------------------------------

def top_area(s):
    """At, the area of the top bars."""
    return s.top_count * BAR_AREA[s.top_diameter]


def bottom_area(s):
    """Ab, the area of the bottom bars."""
    return s.bottom_count * BAR_AREA[s.bottom_diameter]


def greater_area(s):
    """M, the greater of At and Ab."""
    return max(top_area(s), bottom_area(s))


def smaller_area(s):
    """m, the smaller of At and Ab."""
    return min(top_area(s), bottom_area(s))


def face_area(s):
    """F, the area of the face bars of one side."""
    return s.face_count * BAR_AREA[s.face_diameter]


def face_shear_sides(s):
    """13,500,000 × Q and k × Z × r × S, where k is 40 for concrete type 17 and 47 for any other."""
    k = 40 if s.type == 17 else 47
    return 13_500_000 * s.shear, k * s.zone * ROOT[s.type] * s.shear_area


def face_bars_needed(s):
    """13,500,000 × Q > k × Z × r × S."""
    left, right = face_shear_sides(s)
    return left > right


def beam_1(s):
    """5.6.1.3.2: 42,000 × m ≥ βR × b × d."""
    return at_least(42_000 * smaller_area(s), s.strength * s.width * s.depth)


def beam_2(s):
    """5.6.1.3.2: 40 × M ≤ b × d."""
    return at_most(40 * greater_area(s), s.width * s.depth)


def beam_3(s):
    """5.6.1.3.2: 42,000 × M × M ≤ (3 × M + 2 × m) × βR × b × d."""
    m, n = greater_area(s), smaller_area(s)
    return at_most(42_000 * m * m, (3 * m + 2 * n) * s.strength * s.width * s.depth)


def beam_4(s):
    """5.6.1.3.3: Ab × Z ≥ 50 × At."""
    return at_least(bottom_area(s) * s.zone, 50 * top_area(s))


def beam_5(s):
    """5.5.5: 400 × a ≥ 56 × s."""
    return at_least(400 * BAR_AREA[s.stirrup_diameter], 56 * s.stirrup_spacing)


def beam_6(s):
    """5.5.5 with 5.6.1.2: 13,500,000 × Q ≤ 95 × Z × r × S."""
    return at_most(13_500_000 * s.shear, 95 * s.zone * ROOT[s.type] * s.shear_area)


def beam_7(s):
    """5.6.1.5: F × Z ≥ 15 × M, where face bars are needed."""
    if not face_bars_needed(s):
        return DOES_NOT_APPLY
    return at_least(face_area(s) * s.zone, 15 * greater_area(s))


# ---------------------------------------------------------------------------------------------------------------------
# Column book
# ---------------------------------------------------------------------------------------------------------------------

def all_area(s):
    """A, the area of all bars."""
    return s.count * BAR_AREA[s.diameter]


def tension_area(s):
    """T, the area of the tension face's bars, of the same diameter."""
    return s.tension_count * BAR_AREA[s.diameter]


def smaller_side(s):
    """g, the smaller side."""
    return min(s.b, s.h)


def column_1(s):
    """5.6.2.4.1: 100 × A ≥ b × h."""
    return at_least(100 * all_area(s), s.b * s.h)


def column_2(s):
    """5.6.2.4.1: 100 × A ≤ 6 × b × h."""
    return at_most(100 * all_area(s), 6 * s.b * s.h)


def column_3(s):
    """5.6.2.4.1: 1,000 × T ≥ 4 × b × h."""
    return at_least(1_000 * tension_area(s), 4 * s.b * s.h)


def column_4(s):
    """5.6.2.5.3: 2 × c ≤ g."""
    return at_most(2 * s.confined_spacing, smaller_side(s))


def column_5(s):
    """5.6.2.5.3: c ≤ 9 × D."""
    return at_most(s.confined_spacing, 9 * s.diameter)


def column_6(s):
    """5.6.2.5.3: c ≤ 100."""
    return at_most(s.confined_spacing, 100)


def column_7(s):
    """5.6.2.6: 1,000 × e ≤ 6 × Z × g."""
    return at_most(1_000 * s.normal_spacing, 6 * s.zone * smaller_side(s))


def column_8(s):
    """5.6.2.6: e ≤ 200."""
    return at_most(s.normal_spacing, 200)


# ---------------------------------------------------------------------------------------------------------------------
# Wall book; q is the carried shear
# ---------------------------------------------------------------------------------------------------------------------

def shear_factor(s):
    """f: 1,250 for dynamic analysis, for static the smaller of 2,250 and 1,250 + 50 × (storeys − 1)."""
    if s.analysis == DYNAMIC:
        return 1_250
    return min(2_250, 1_250 + 50 * (s.storeys - 1))


def vertical_area(s):
    """V, the area of one vertical bar."""
    return BAR_AREA[s.vertical_diameter]


def horizontal_area(s):
    """H, the area of one horizontal bar."""
    return BAR_AREA[s.horizontal_diameter]


def wall_1(s, q):
    """6.4.1: w × Z ≥ 15,000."""
    return at_least(s.thickness * s.zone, 15_000)


def wall_2(s, q):
    """6.4.1: w × Z ≥ 5 × support distance."""
    return at_least(s.thickness * s.zone, 5 * s.support)


def wall_3(s, q):
    """6.7.1: 400 × L × V ≥ w × v."""
    return at_least(400 * s.layers * vertical_area(s), s.thickness * s.vertical_spacing)


def wall_4(s, q):
    """6.7.1: 20 × L × V ≤ w × v."""
    return at_most(20 * s.layers * vertical_area(s), s.thickness * s.vertical_spacing)


def wall_5(s, q):
    """6.7.2: 10 × vertical diameter ≤ w."""
    return at_most(10 * s.vertical_diameter, s.thickness)


def wall_6(s, q):
    """6.7.2: vertical diameter ≥ 8."""
    return at_least(s.vertical_diameter, 8)


def wall_7(s, q):
    """6.7.4: L ≥ 2."""
    return at_least(s.layers, 2)


def wall_8(s, q):
    """6.7.4: v ≤ 200."""
    return at_most(s.vertical_spacing, 200)


def wall_9(s, q):
    """6.8.1: 400 × L × H ≥ w × h."""
    return at_least(400 * s.layers * horizontal_area(s), s.thickness * s.horizontal_spacing)


def wall_10(s, q):
    """6.8.2: 10 × horizontal diameter ≤ w."""
    return at_most(10 * s.horizontal_diameter, s.thickness)


def wall_11(s, q):
    """6.8.3: h ≤ 200."""
    return at_most(s.horizontal_spacing, 200)


def wall_12(s, q):
    """6.6.4: 4,200,000 × count × V + 7,500 × N ≥ 13 × f × q."""
    return at_least(4_200_000 * s.vertical_count * vertical_area(s) + 7_500 * s.axial, 13 * shear_factor(s) * q)


def wall_13(s, q):
    """6.6.3.4.1: 420,000 × L × H × S ≥ f × q × w × h, where height ≥ 2 × length."""
    if s.height < 2 * s.length:
        return DOES_NOT_APPLY
    return at_least(420_000 * s.layers * horizontal_area(s) * s.shear_area,
                    shear_factor(s) * q * s.thickness * s.horizontal_spacing)


# ---------------------------------------------------------------------------------------------------------------------
# Books
# ---------------------------------------------------------------------------------------------------------------------

BOOKS = {
    BEAM: (beam_1, beam_2, beam_3, beam_4, beam_5, beam_6, beam_7),
    COLUMN: (column_1, column_2, column_3, column_4, column_5, column_6, column_7, column_8),
    WALL: (wall_1, wall_2, wall_3, wall_4, wall_5, wall_6, wall_7, wall_8, wall_9, wall_10, wall_11, wall_12, wall_13),
}


def taken(sheet):
    """A book takes every beam and column, and a wall whose length exceeds 4 × w."""
    return kind_of(sheet) != WALL or sheet.length > 4 * sheet.thickness


def finding(sheet, carried, number):
    """What an article finds, taken or not; number 0 and numbers past the count do not apply."""
    book = BOOKS[kind_of(sheet)]
    if not 1 <= number <= len(book):
        return DOES_NOT_APPLY
    article = book[number - 1]
    return article(sheet, carried) if kind_of(sheet) == WALL else article(sheet)


def findings(sheet):
    """The findings of the articles 0 to count + 1."""
    return [finding(sheet, carried_now(sheet), number) for number in range(len(BOOKS[kind_of(sheet)]) + 2)]


def verdict(sheet, carried):
    """S4 if unlawful, S12 if not taken, else the lowest broken article with both sides, else a certificate."""
    if not (lawful_sheet(sheet) and lawful_carried(sheet, carried)):
        return fault("S4")
    if not taken(sheet):
        return fault("S12")
    for number in range(1, len(BOOKS[kind_of(sheet)]) + 1):
        found = finding(sheet, carried, number)
        if found.state == BROKEN:
            return Broken(number, found.left, found.right)
    return CERTIFICATE


# ---------------------------------------------------------------------------------------------------------------------
# Console
# ---------------------------------------------------------------------------------------------------------------------

def answer(text):
    """The verdict on the sheet that a message carries, or the fault of the message."""
    sheet = decode(text)
    return sheet if isinstance(sheet, Fault) else verdict(sheet, carried_now(sheet))


def console_line(text):
    """`certificate`, `broken` article left right, or `refused` number layer place."""
    said = answer(text)
    if isinstance(said, Fault):
        return "refused %s %d %d" % said
    if isinstance(said, Broken):
        return "broken %d %d %d" % said
    return said


def main():
    """At most 257 bytes are read and one line printed; status 1 only where reading or writing fails."""
    try:
        text = sys.stdin.buffer.read(MAX_MESSAGE + 1)
        sys.stdout.write(console_line(text) + "\n")
        sys.stdout.flush()
    except OSError:
        return 1
    return 0


if __name__ == "__main__":
    sys.exit(main())
