"""What is given to the calls: fields, phases, hours, selections, bodies, sets of faults, records, pole offsets and sheets, drawn by a Chance."""

import struct
from functools import lru_cache
from itertools import cycle, islice, product
from math import inf, nan, nextafter

import tides as t
from chance import WORD, Chance

EDGE = t.FIELD_BOUND
U32 = (1 << 32) - 1
LEAST_32, LEAST_64 = -(1 << 31), -(1 << 63)
NONE = (0,) * 6
PLACES = [(n, m) for n in range(1, 13) for m in range(n + 1)]


def spoilt(entries, i, entry):
    """The list with one entry changed."""
    return [*entries[:i], entry, *entries[i + 1:]]


# --- Fields and phases ---

def entry(chance):
    return chance.one(0, EDGE, -EDGE, chance.between(-EDGE, EDGE), chance.between(-10**12, 10**12))


def varied_field(chance, N):
    """A field of entries that all differ."""
    return N, *([chance.between(-10**12, 10**12) for _ in range(t.size(N))] for _ in 'CS')


def any_field(chance, N):
    """A field of one entry throughout, but for a few of every size."""
    lists = []
    for _ in 'CS':
        entries = [entry(chance)] * t.size(N)
        for _ in range(chance.below(8)):
            entries[chance.below(len(entries))] = entry(chance)
        lists.append(entries)
    return N, *lists


def phase(chance):
    """A phase from anywhere in the turn, or one beside the edge of an eighth."""
    return chance.one(chance.below(1 << 32), chance.below(1 << 32), (chance.below(8) << 29) + chance.between(-2, 2) & U32)


def phases(chance):
    return tuple(phase(chance) for _ in range(6))


# --- Hours ---

# An hour is given by its steps from the start: all six phases, or an argument's number and an amount, or a record written by hand.
SET, MOVE, WRITE = range(3)
START, LAST = t.start_hour(), (U32,) * 6
MOST_32 = -1 - LEAST_32
AMOUNTS = 0, 1, -1, MOST_32, LEAST_32
EIGHTHS = [k << 29 for k in (-3, -2, -1, 1, 2, 3)]


def all_set(phases):
    return SET, *phases


def written(hour):
    return WRITE, *hour.phases, *hour.cosines, *hour.sines


set_again = lru_cache(9)(t.set_hour)     # many calls in a row have one hour


def hour_after(steps):
    """The record after the steps; one whose number names no argument changes nothing."""
    hour = START
    for kind, *numbers in steps:
        if kind == SET:
            hour = set_again(tuple(numbers))
        elif kind == WRITE:
            hour = t.Hour(*(tuple(numbers[a:b]) for a, b in ((0, 6), (6, 55), (55, 104))))
        elif numbers[0] < len(t.ARGUMENTS):
            hour = t.move_hour(hour, t.ARGUMENTS[numbers[0]], numbers[1])
    return hour


def in_32(amount):
    """The signed 32-bit number that differs from the amount by whole turns."""
    return (amount - LEAST_32) % t.TURN + LEAST_32


def amount(chance):
    anything = chance.between(LEAST_32, MOST_32)
    return chance.one(anything, anything, anything, chance.one(*AMOUNTS), chance.one(*EIGHTHS), chance.between(-99, 99))


def move(chance):
    return MOVE, chance.below(6), amount(chance)


def set_or_move(chance):
    """A step, one in five a set."""
    return all_set(phases(chance)) if chance.one_in(5) else move(chance)


def steps_to(chance, goal):
    """Steps that leave these phases: one set; or, one time in twelve, one or two moves of each argument, in any order, from the start or other
    phases."""
    if not chance.one_in(12):
        return [all_set(goal)]
    steps, now = chance.one(([], NONE), ([all_set(LAST)], LAST))
    left = list(range(6))
    while left:
        at = left.pop(chance.below(len(left)))
        first = amount(chance) if chance.one_in(3) else 0
        steps += [(MOVE, at, first)] * (first != 0) + [(MOVE, at, in_32(goal[at] - now[at] - first))]
    return steps


def value(chance):
    """A signed 32-bit number: any, at an end, or near zero or a whole wave."""
    anything = chance.between(LEAST_32, MOST_32)
    return chance.one(anything, anything, chance.one(LEAST_32, MOST_32), chance.one(-1, 0, 1) * t.UNIT + chance.between(-2, 2))


def values(chance):
    """49 of them: any, or one throughout but for a few."""
    if chance.one_in(2):
        return tuple(value(chance) for _ in range(49))
    every = [chance.one(0, LEAST_32, MOST_32, value(chance))] * 49
    for _ in range(chance.below(4)):
        every[chance.below(49)] = value(chance)
    return tuple(every)


def any_hour(chance):
    """A record written by hand: any values, or a reached record's with other phases or with a few values changed."""
    drawn, hour = t.Hour(phases(chance), values(chance), values(chance)), t.set_hour(phases(chance))
    few = lambda new, kept: tuple(a if chance.one_in(9) else b for a, b in zip(new, kept))
    return chance.one(
        drawn, drawn, hour._replace(phases=drawn.phases),
        hour._replace(cosines=few(drawn.cosines, hour.cosines), sines=few(drawn.sines, hour.sines)))


# --- Selections ---

LINES = range(49)
BANDS = [sum(1 << i for i in band) for band in (LINES[:26], LINES[26:47], LINES[47:])]      # diurnal, long period, semidiurnal
ABOVE = [1 << bit for bit in range(49, 64)]


def few_lines(chance):
    return sum(1 << i for i in chance.some(chance.below(5), LINES))


def accepted_selection(chance):
    """A selection of printed lines alone: any, few, all but few, some of one band, a band or all else, a profile or all else."""
    band, any_lines = chance.one(*BANDS), chance.word() & t.ALL_LINES
    return chance.one(any_lines, any_lines, few_lines(chance), t.ALL_LINES ^ few_lines(chance), band & any_lines,
                      chance.one(band, t.ALL_LINES ^ band), chance.one(t.ALL_LINES, t.MAJOR_LINES, t.ALL_LINES ^ t.MAJOR_LINES))


def lines_or_none(chance):
    """An accepted selection, one in four of no lines."""
    return 0 if chance.one_in(4) else accepted_selection(chance)


def selection(chance):
    """A selection, one in eight with bits above the printed lines: one, any of them or all."""
    every = sum(ABOVE)
    above = chance.one(chance.one(*ABOVE), chance.one(*ABOVE) | chance.word() & every, every)
    return accepted_selection(chance) | (above if chance.one_in(8) else 0)


# --- Bodies ---

def placed(kind, u, v, w, r):
    """A place of either kind, in a direction."""
    return (kind, u, v, w, r) if kind == t.DIRECTION else (kind, u * r, v * r, w * r, r)


def body(chance, ratio, low, high):
    return ratio, placed(chance.one(t.DIRECTION, t.RECTANGULAR), *chance.direction(), chance.real(low, high))


def moon(chance):
    return body(chance, 0.0123000371, 3.5e8, 4.1e8)


def sun(chance):
    return body(chance, 332946.0487, 1.47e11, 1.53e11)


def spoilt_body(one, at, value):
    """The body with one of ratio, x or u, y or v, z or w, r changed."""
    ratio, (kind, *floats) = one
    numbers = spoilt([ratio, *floats], at, value)
    return numbers[0], (kind, *numbers[1:])


GOOD = [(1e-3, placed(kind, 0.0, -0.6, 0.8, 4e8)) for kind in (t.DIRECTION, t.RECTANGULAR)]
AXES = [(1.0, 0.0, 0.0), (0.0, -1.0, 0.0), (0.0, 0.0, 1.0), (0.6, 0.0, 0.8), (-0.0, 0.6, -0.8), (0.6, -0.8, -0.0), (5e-324, 0.0, -1.0)]


def faulty_bodies():
    """Bodies with one fault each, after the number of the refusal: 3, 4 or 5."""
    threes = [spoilt_body(one, at, bad) for one in GOOD for at in range(5) for bad in (nan, -nan, inf, -inf)]
    distances = nextafter(1e8, 0), nextafter(1e12, inf), 0.0, -0.0, -4e8, 5e-324, 1.7e308
    ratios = 0.0, -0.0, -5e-324, -1.0, nextafter(1e6, inf), 1.7e308
    fours = [spoilt_body(one, 4, r) for one in GOOD for r in distances] + [spoilt_body(one, 0, ratio) for one in GOOD for ratio in ratios]
    fives = [spoilt_body(one, at, bad) for one in GOOD for at in (1, 2, 3) for bad in (1e160, -1.7e308, 0.5 * one[1][4], 1e-5 * one[1][4])]
    fives += [(1.0, (kind, *[huge] * 3, 1e9)) for kind in (t.DIRECTION, t.RECTANGULAR) for huge in (0.0, 1e154, 1.7e308, -1.7e308)]
    return [(number, one) for number, bodies in ((3, threes), (4, fours), (5, fives)) for one in bodies]


# --- Orders of the solid tide's refusals ---

SOLID_ORDER = 1, 2, 14, 3, 4, 5, 3, 4, 5, 6            # the Moon's 3, 4, 5 before the Sun's


def body_with(chance, numbers, heavy):
    """A body with one fault for each of the numbers 3, 4 and 5 asked for; a heavy one without a fault is for 6."""
    ratio, r = (1e6, 1e8) if heavy else (1e-3, 4e8)
    one = ratio, placed(chance.one(t.DIRECTION, t.RECTANGULAR), 0.0, -0.6, 0.8, r)
    faults = {3: (3, chance.one(nan, inf, -inf)), 4: chance.one((0, 0.0), (0, -1.0), (0, nextafter(1e6, inf)), (4, nextafter(1e8, 0))), 5: (1, 7e9)}
    for number in numbers:
        one = spoilt_body(one, *faults[number])
    return one


def field_with(chance, faults):
    """A field with these faults: 0 for refusal 1, 1 for refusal 2, with which the orders of refusals begin."""
    N, C, S = varied_field(chance, 4)
    if 1 in faults:
        C, S = chance.one((spoilt(C, 14, EDGE + 1), S), (C, spoilt(S, 14, -EDGE - 1)))
    if 0 in faults:
        N, C, S = chance.one((3, C, S), (61, C, S), (N, C[1:], S), (N, C, [0, *S]))
    return N, C, S


def solid_with(chance, faults):
    """A field, the Moon, the Sun and a selection with these faults, places in SOLID_ORDER in ascending order: the first one's number is due."""
    field = field_with(chance, faults)
    moon, sun = (body_with(chance, [SOLID_ORDER[i] for i in faults if i in own], 9 in faults) for own in (range(3, 6), range(6, 9)))
    return field, moon, sun, accepted_selection(chance) | (chance.one(*ABOVE) if 2 in faults else 0)


# --- Records of our own lines ---

RECORD_ENDS = [(0, 2)] + [(-13, 13)] * 5 + [(-100_000, 100_000)] * 2
WIDTHS = [(LEAST_32, -1 - LEAST_32)] * 6 + [(LEAST_64, -1 - LEAST_64)] * 2      # multipliers arrive in 32 bits, amplitudes in 64


def amplitude(chance):
    return chance.one(chance.between(-100_000, 100_000), chance.between(-100_000, 100_000), 100_000, -100_000, chance.between(-9, 9))


def record(chance):
    """Six multipliers, the in-phase and the out-of-phase amplitude, in their ranges."""
    others = (chance.one(chance.between(-13, 13), chance.between(-2, 2), 13, -13, 0) for _ in range(5))
    return chance.below(3), *others, amplitude(chance), amplitude(chance)


def records(chance, count):
    """So many records, in one list out of four with equal ones among them."""
    drawn = [record(chance) for _ in range(count)]
    if count > 1 and chance.one_in(4):
        for _ in range(chance.between(1, count)):
            drawn[chance.below(count)] = drawn[chance.below(count)]
    return drawn


def spoilt_record(one, at, value):
    return tuple(spoilt(one, at, value))


def record_faults():
    """Where a record is spoilt and by what, one fault of refusal 13 each: beyond either end, at the widths' ends, and what a narrower number cuts
    to a value in range."""
    for at, (low, high) in enumerate(RECORD_ENDS):
        least, most = WIDTHS[at]
        cut = [1 << 8, (1 << 8) + high, low - (1 << 8), 1 << 16, (1 << 16) + high, low - (1 << 16)]
        if at > 5:
            cut = [1 << 32, (1 << 32) + high, low - (1 << 32), 1 << 31, LEAST_32, 1 << 62]
        more = (13, -13, 14, -14) if at == 0 else ()
        for value in (low - 1, high + 1, low - 2, high + 2, least, most, least + 1, most - 1, *more, *cut):
            yield at, value


def faulty_records(chance, count):
    """So many records, and in each of them one fault or all of its eight numbers at the ends of their widths."""
    faults = [*record_faults()]
    return [tuple(chance.one(*ends) for ends in WIDTHS) if chance.one_in(4) else spoilt_record(record(chance), *chance.one(*faults))
            for _ in range(count)]


# --- Pole offsets ---

OFFSET_EDGE = 1_000_000          # micro-arcseconds

# Refusal 15: beside either end, the ends of 64 bits, what 32 bits cut to an offset in range, and one whose products are 0 in 64 bits.
FAR_OFFSETS = (
    OFFSET_EDGE + 1, -OFFSET_EDGE - 1, -1 - LEAST_64, LEAST_64, 1 << 32, (1 << 32) + 5, -(1 << 32) - 7, (1 << 32) + OFFSET_EDGE,
    -(1 << 32) - OFFSET_EDGE, 1 << 58)


def offset(chance):
    anywhere = chance.between(-OFFSET_EDGE, OFFSET_EDGE)
    return chance.one(anywhere, anywhere, anywhere, chance.between(-99, 99), chance.one(OFFSET_EDGE, -OFFSET_EDGE, 0))


def offsets(chance):
    """xp and yp in their range."""
    return offset(chance), offset(chance)


def faulty_offsets(chance):
    """xp and yp, one or both out of range."""
    far = lambda: chance.one(*FAR_OFFSETS, chance.one(1, -1) * chance.between(OFFSET_EDGE + 1, -1 - LEAST_64))
    return chance.one((far(), offset(chance)), (offset(chance), far()), (far(), far()))


# --- Sheets ---

def write_sheet(lines, rows, places):
    """The bytes of a sheet; nothing is tested, so faults can be written too."""
    data = struct.pack('<H', len(lines)) + b''.join(struct.pack('<6b', *line) for line in lines)
    data += struct.pack('<H', len(rows)) + b''.join(struct.pack(f'<{len(row)}i', *row) for row in rows)
    data += struct.pack('<H', len(places))
    for n, m, quads in places:
        data += bytes((n, m)) + b''.join(struct.pack('<4i', *quad) for quad in quads)
    return data


def row(chance, lines):
    """Admittances whose absolute values add to the whole 4,000,000, or to less."""
    cuts = sorted(chance.between(0, 4_000_000) for _ in range(lines - 1))
    ends = [*cuts, chance.one(4_000_000, chance.between(cuts[-1] if cuts else 0, 4_000_000))]
    return [chance.one(1, -1) * (b - a) for a, b in zip([0, *cuts], ends)]


def quad(chance, m, edge):
    count = lambda: chance.one(edge, -edge, chance.between(-edge, edge))
    return tuple(0 if m == 0 and i % 2 else count() for i in range(4))


def line(chance):
    return tuple(chance.one(chance.between(-13, 13), 13, -13, 0, 1) for _ in range(6))


def different_lines(chance, count):
    """So many lines, none twice. One that stands already is drawn again by a Chance of its own, so that what is drawn later stays the same."""
    drawn, again = [], Chance(chance.state ^ WORD)
    for _ in range(count):
        one = line(chance)
        while one in drawn:
            one = line(again)
        drawn.append(one)
    return drawn


def twinned(lines, i, j):
    """The lines with the one at j made the twin of the one at i."""
    return spoilt(lines, j, lines[i])


def sheet(chance, lines, tides, places, top=12):
    """Lines, rows and places that are right, the places of degree 1..top."""
    where = [place for place in PLACES if place[0] <= top]
    where = chance.some(min(places, len(where)), where)
    return (different_lines(chance, lines),
            [row(chance, lines) for _ in range(tides)],
            [(n, m, [quad(chance, m, chance.one(1 << 24, 1000, 1)) for _ in range(tides)]) for n, m in where])


# 128 lines that all differ: every multiplier is 13 or -13, but that the last one of the second 64 is 12 or -12.
FAR_LINES = [(*five, last) for last in (13, -13, 12, -12) for five in product((13, -13), repeat=5)]


def shaped_sheet(lines, tides, places):
    """The bytes of a sheet of these counts, in their ranges or not: its length is exact for them, its values are right where they can be."""
    where = [*PLACES, (13, 0), (13, 1)][:places]
    different = islice(cycle([(1, 0, 0, 0, 0, 0), *FAR_LINES]), lines)
    return write_sheet([*different], [[100] * lines] * tides, [(*place, [(1000, 0, -500, 0)] * tides) for place in where])


def wave_sheet():
    """The bytes of a sheet that gives, at C22 and S22, cosine and sine of the phase tau in their units: 16 tides of 4 times the wave, 2^24 each."""
    return write_sheet([(1, 0, 0, 0, 0, 0)], [[4_000_000]] * 16, [(2, 2, [(1 << 24, 0, 0, 1 << 24)] * 16)])


SMALL = (
    [(0,) * 6, (13, -13, 0, 0, 0, 1)],
    [[4_000_000, 0], [-2_000_000, 2_000_000], [1, -1]],
    [(1, 0, [(1 << 24, 0, -(1 << 24), 0)] * 3), (1, 1, [(1, 2, 3, 4)] * 3), (5, 0, [(0,) * 4] * 3)])


def faulty_sheets():
    """Sheets with one fault of refusal 8 each, every range just passed among them."""
    lines, rows, places = SMALL
    still, zero, beyond = [[0, 0]], [(0,) * 4], (1 << 24) + 1
    for i in range(6):
        for v in (14, -14, 127, -128):
            yield [lines[0], spoilt(lines[1], i, v)], rows, places
            yield [spoilt(lines[0], i, v), lines[1]], rows, []
    for bad in ([4_000_000, 1], [-2_000_000, 2_000_001], [0, -4_000_001], [LEAST_32, 0], [0, LEAST_32], [LEAST_32] * 2, [-1 - LEAST_32] * 2):
        yield lines, [bad], []
        yield lines, [*rows[:2], bad], places
    yield FAR_LINES[:4], [[LEAST_32] * 4], []                                   # adds to 0 in 32 bits, and in 33
    yield FAR_LINES, [[LEAST_32] * 128], []
    yield FAR_LINES, [[31_250] * 127 + [-31_251]], []
    for bad in ((0, 0), (0, 1), (13, 0), (13, 13), (255, 255), (2, 3), (1, 2), (12, 13), (128, 0), (2, 255)):
        yield lines, still, [(*bad, zero)]
        yield lines, still, [(1, 1, zero), (*bad, zero)]
    for one, two in (((2, 2), (2, 2)), ((2, 2), (2, 1)), ((3, 0), (2, 2)), ((12, 12), (1, 0)), ((4, 4), (4, 0))):
        yield lines, still, [(*one, zero), (*two, zero)]
        yield lines, still, [(1, 0, zero), (*one, zero), (*two, zero), (12, 12, zero)]
    for i in range(4):
        for v in (beyond, -beyond, LEAST_32, -1 - LEAST_32):
            yield lines, still, [(2, 2, [spoilt(zero[0], i, v)])]
            yield lines, still * 3, [(2, 1, zero * 3), (2, 2, zero * 2 + [spoilt(zero[0], i, v)])]
    for bad in ((0, 1, 0, 0), (0, 0, 0, -1), (0, -1, 0, 0), (0, 0, 0, 1), (0, 1 << 24, 0, 0)):
        yield lines, still, [(3, 0, [bad])]
        yield lines, still * 2, [(2, 2, zero * 2), (3, 0, zero + [bad]), (3, 1, zero * 2)]


# --- Orders of the ocean tide's refusals ---

OCEAN_ORDER = 1, 2, 7, 8, 16, 9


def ocean_with(chance, faults):
    """A field and the bytes of a sheet with these faults, places in OCEAN_ORDER in ascending order: the first one's number is due."""
    field = field_with(chance, faults)
    lines, rows, places = sheet(chance, chance.between(2, 6), chance.between(1, 3), chance.between(0, 4), 4)
    last, none = len(lines) - 1, [(0,) * 4] * len(rows)
    if 5 in faults:
        n = chance.between(5, 12)
        places = [*places, (n, chance.between(0, n), none)]
    if 4 in faults:
        lines = twinned(lines, *chance.one((0, 1), (0, last), (last - 1, last), chance.some(2, range(len(lines)))))
    if 3 in faults:                                                             # which leaves twins as they are
        at, far, again = chance.below(6), chance.one(14, -14, 127, -128), [(12, 12, none)] * 2
        lines, rows, places = chance.one(
            ([spoilt(one, at, far) for one in lines], rows, places),
            (lines, [*rows[1:], [4_000_001] + [0] * last], places),
            (lines, rows, [*places, *again]))
    data = write_sheet(lines, rows, places)
    if 2 in faults:
        data = chance.one(data[:-1], data + b'\0', data[:2 + 6 * len(lines)], data[:1] + b'\1' + data[2:])
    return field, data
