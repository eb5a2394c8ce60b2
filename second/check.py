"""Runs the cases of the description (01, and T-01, T-02 and T-04 to T-10 of 02) and its bounds on the second program; prints one line."""

import struct
from collections import Counter, defaultdict
from decimal import ROUND_HALF_UP, Decimal
from fractions import Fraction
from functools import lru_cache, reduce
from itertools import combinations, product
from math import atan2, ceil, cos, factorial, floor, hypot, inf, ldexp, nan, nextafter, pi, sin, sqrt, trunc
from operator import add, mul, neg, or_, xor
from unittest.mock import patch

import check_files
import given
import telling
import tides as t
import values
from chance import Chance
from given import NONE, U32, write_sheet

chance, ways = Chance(19960621), Chance(19960626)
counts = Counter()
worst = Counter()           # largest error seen, per kind
LOVES = (t.ELASTIC, t.ANELASTIC)
FRAMES = (t.FIGURE, t.MASS)
SYSTEMS = (t.TIDE_FREE, t.ZERO, t.MEAN)
ZEROS = 4, [0] * 15, [0] * 15


def expect(kind, got, wanted):
    counts[kind] += 1
    assert got == wanted, (kind, got, wanted)


def within(kind, error, bound, strict=False):
    worst[kind] = max(worst[kind], error)
    assert error < bound or (not strict and error == bound), (kind, float(error))


def random_phases():
    return given.phases(chance)


def reached(phases):
    """A record that is brought to these phases."""
    return given.hour_after(given.steps_to(ways, phases))


def random_field(N):
    return [given.entry(chance) for _ in range(t.size(N))], [given.entry(chance) for _ in range(t.size(N))]


def differences(before, after):
    return [b - a for a, b in zip(before, after, strict=True)]


def opposite(counts):
    return tuple(map(neg, counts))


def changes_of(five, N):
    """What the corrections to C20, C21, S21, C22, S22 change in C and in S of a field of degree N."""
    c20, c21, s21, c22, s22 = five
    rest = [0] * (t.size(N) - 6)
    return [0] * 3 + [c20, c21, c22] + rest, [0] * 4 + [s21, s22] + rest


# --- Nearest ---

HALF = Fraction(1, 2)


def away(value):
    """T-07's "halves go away from zero": of the two whole numbers beside a Fraction the nearer, of two as near the larger in size."""
    return min((floor(value), ceil(value)), key=lambda whole: (abs(whole - value), -abs(whole)))


def check_nearest(over, under):
    """A fraction: the one whole number that lies half a count away at most, and beyond it where it is a half; and the opposite for the opposite."""
    value = Fraction(over, under)
    near = [whole for whole in range(floor(value) - 2, floor(value) + 4)
            if abs(whole - value) < HALF or abs(whole - value) == HALF and abs(whole) > abs(value)]
    expect('nearest', [t.nearest(over, under)], near)
    expect('nearest', (t.nearest(value), away(value), t.nearest(-over, under), t.nearest(-value)), (*near * 2, -near[0], -near[0]))


def check_float(x):
    """A float and its negative, by the decimal module too: its name for halves away from zero is ROUND_HALF_UP."""
    count = int(Decimal(x).to_integral_value(ROUND_HALF_UP))
    expect('nearest', (t.nearest_float(x), t.nearest_float(-x), away(Fraction(x))), (count, -count, count))


def nearest_counts():
    """Fractions about every half with odd and even divisors, small ones and those of the roundings; floats at halves, beside them and near zero."""
    for under in range(1, 41):
        for over in range(-5 * under, 5 * under + 1):
            check_nearest(over, under)
    for under in (3, 7, 1000, 999, t.MILLION, t.MILLION + 1, 10**7, t.UNIT, t.UNIT - 1, t.EXACT_DENOMINATOR, 5**7, 2 * 5**7):
        for whole in (0, 1, 2, 3, *(chance.below(1 << chance.between(1, 60)) for _ in range(40))):
            for d in (-2, -1, 0, 1, 2):
                check_nearest((2 * whole + 1) * under // 2 + d, under)
            check_nearest((2 * whole + 1) * under, 2 * under)                   # a half for any divisor, not in lowest terms
    for _ in range(3000):
        check_nearest(chance.between(-(1 << 62), 1 << 62), chance.between(1, 1 << chance.between(0, 62)))
    wholes = [(1 << k) + d for k in range(1, 52) for d in (-1, 0, 1)] + [chance.below(1 << chance.between(1, 52)) for _ in range(1000)]
    for whole in (0, 1, 2, 3, (1 << 52) - 1, *wholes):
        half = whole + 0.5
        for x in (half, nextafter(half, 0.0), nextafter(half, inf), float(whole), nextafter(float(whole), inf), nextafter(float(whole), -inf)):
            check_float(x)
    for x in (0.0, 5e-324, 1e-310, ldexp(1.0, -1022), nextafter(ldexp(1.0, -1022), 0.0), 0.25, 0.3, 0.7, 0.75, 0.49999999999999994, 0.5):
        check_float(x)
    for _ in range(2000):
        check_float(struct.unpack('<d', struct.pack('<Q', chance.below(1 << 52)))[0])              # below the least that is normal
        check_float(chance.real(-1.0, 1.0) * 2.0**chance.between(-60, 52))


# --- The roundings, each by a rule of its own ---

FIVE = 'C20', 'C21', 'S21', 'C22', 'S22'
ROUNDINGS = (
    *product(['step one'], 'CS'), *product(['step two', 'own lines'], FIVE), *product(['pole tide'], LOVES, FIVE[1:3]),
    *product(['factor'], ('fcos', 'fsin')), *product(['ocean tide'], 'CS'))


def rounded_by(rule):
    """The program's functions that round, by their names and written anew: each rounding, one of ROUNDINGS, by the rule for it and a Fraction."""
    def each(name, which, sums, divisor):
        return tuple(rule((*name, one), Fraction(total) / divisor) for one, total in zip(which, sums, strict=True))

    def step_one_corrections(moon, sun, love, answer=t.step_one_corrections):
        number, _ = answer(moon, sun, love)
        corrections = []
        for (n, m), products in () if number else sorted(t.step_one_products(moon, sun, love).items()):
            dC, dS = each(['step one'], 'CS', products, 1) if m > 0 else (*each(['step one'], 'C', products[:1], 1), 0)
            corrections.append((n, m, dC - (t.PERMANENT[love] if (n, m) == (2, 0) else 0), dS))
        return number, corrections or None

    def step_two_corrections(hour, love, selection):
        return each(['step two'], FIVE, t.step_two_sums(hour, love, selection), 1 << 30)

    def own_line_corrections(records, phases):
        return each(['own lines'], FIVE, t.line_sums(records, phases, t.sine, t.cosine), 1 << 30)

    def pole_corrections(xp, yp, love):
        *sums, divisor = t.pole_sums(xp, yp, love)
        return each(['pole tide', love], FIVE[1:3], sums, divisor)

    def ocean_corrections(sheet, phases, frame):
        factors = [each(['factor'], ('fcos', 'fsin'), sums, 10**6) for sums in t.row_sums(sheet, phases, t.sine, t.cosine)]
        return [(n, m, *each(['ocean tide'], 'CS', sums, 1 << 30)) for n, m, *sums in t.place_sums(sheet, factors, frame)]

    return {one.__name__: one for one in (step_one_corrections, step_two_corrections, own_line_corrections, pole_corrections, ocean_corrections)}


def noting(met):
    """The functions anew by T-07's rule; into met go each rounding that is given an exact half, its sign, and whether its whole part is odd."""
    def rule(where, value):
        if value.denominator == 2:
            met.add((where, value > 0, trunc(value) % 2))
        return away(value)

    return rounded_by(rule)


def every_half(*names):
    """What noting puts into met where all roundings of these names are given halves of either sign, their whole part even and odd."""
    return {*product((where for where in ROUNDINGS if where[0] in names), (True, False), (0, 1))}


ANEW = rounded_by(lambda _, value: away(value))

# Rules for a Fraction that T-07 does not have.
WRONG_ROUNDINGS = (
    floor, ceil, trunc,
    lambda value: floor(value + HALF),                                          # halves up: away from zero only above zero
    lambda value: ceil(value - HALF),                                           # halves down: away from zero only below zero
    lambda value: ceil(value - HALF) if value > 0 else floor(value + HALF),     # halves toward zero
    round,                                                                      # halves to even
    lambda value: 2 * floor(value / 2) + 1 if value.denominator == 2 else round(value),     # halves to odd
    lambda value: round(value) if value < 0 else away(value),                   # to even only below zero
    lambda value: round(value) if value > 0 else away(value),                   # to even only above zero
    lambda value: trunc(value + HALF),                                          # half a count up, then cut
    lambda value: trunc(value - HALF),
    lambda value: away(Fraction(away(10 * value), 10)))                         # tenths first

# Those that only values within a count of zero tell, then those that only the first halves tell.
WRONG_NEAR_ZERO = (
    lambda value: away(abs(value)) * (1 if trunc(value) >= 0 else -1),          # the whole part's sign
    lambda value: away(value) or -(value < 0),                                  # the sign where the size is zero
    lambda value: away(value) or int(value > 0))
WRONG_FIRST_HALVES = (lambda value: 0 if value == HALF else away(value)), (lambda value: 0 if value == -HALF else away(value))

# Of floats: half a count added as a float.
WRONG_FLOATS = (lambda value: trunc(float(value) + (0.5 if value > 0 else -0.5))),


def wrong_roundings(where):
    """The wrong rules that some call can tell at a rounding. The least halves of the lines are 12.5, those of the pole tide 64.5 and 168.5; and the
    elastic pole tide is nowhere within a count of zero but at zero."""
    return (*WRONG_ROUNDINGS,
            *WRONG_NEAR_ZERO * (t.ELASTIC not in where),
            *WRONG_FIRST_HALVES * (where[0] in ('step one', 'factor', 'ocean tide')),
            *WRONG_FLOATS * (where[0] == 'step one'))


# --- Sheets ---

def check_ocean(sheet, phases, frame, N=60):
    """One sheet on one field: every entry after the call, and each correction against its exact sum."""
    data = write_sheet(*sheet)
    expect('sheet', t.sheet_test(data, N)[0], 0)
    read = t.sheet_test(data, N)[1]
    as_lists = lambda lines, rows, places: ([*map(list, lines)], [*map(list, rows)], places)
    expect('sheet', as_lists(*read), as_lists(*sheet))
    C, S = random_field(N)
    number, C2, S2 = t.ocean(N, C, S, data, phases, frame)
    expect('ocean', number, 0)
    moved = {}
    corrections, sums = t.ocean_corrections(read, phases, frame), t.ocean_exact(read, phases, frame)
    expect('ocean', corrections, ANEW['ocean_corrections'](read, phases, frame))
    for (n, m, dC, dS), (_, _, exactC, exactS) in zip(corrections, sums, strict=True):
        within('ocean', max(abs(dC - exactC), abs(dS - exactS)), 9)
        moved[t.index(n, m)] = dC, dS
        assert m > 0 or dS == 0
        assert not (frame == t.MASS and n == 1) or dC == dS == exactC == exactS == 0
    for i in range(t.size(N)):
        dC, dS = moved.get(i, (0, 0))
        assert C2[i] - C[i] == dC and S2[i] - S[i] == dS


def hard_sheet(phase):
    """One line, 32 tides and 90 places at full size, every sign set so that the errors of this phase pull one way."""
    errors = [(f(phase) - t.UNIT * g(phase)) for f, g in ((t.cosine, t.exact_cosine), (t.sine, t.exact_sine))]
    signs = [1 if error >= 0 else -1 for error in errors]
    rows, quads = [], []
    for _ in range(32):
        tries = [chance.between(3_999_000, 4_000_000) for _ in range(40)]
        drift = lambda a: sum(s * (t.nearest(a * f(phase), t.MILLION) - Fraction(a, t.MILLION) * t.UNIT * g(phase))
                              for s, f, g in zip(signs, (t.cosine, t.sine), (t.exact_cosine, t.exact_sine)))
        a = max(tries, key=drift)
        rows.append([a])
        quads.append((signs[0] << 24, signs[0] << 24, signs[1] << 24, signs[1] << 24))
    level = [(c, 0, d, 0) for c, _, d, _ in quads]
    return [(1, 0, 0, 0, 0, 0)], rows, [(n, m, quads if m else level) for n in range(1, 13) for m in range(n + 1)]


# --- The P cases and the other cases of 01 ---

def cases():
    k1 = (1, 1, 0, 0, 0, 0)
    expect('P', t.doodson_read(165555), (0, k1))                                                            # P1
    expect('P', t.doodson_write(k1), (0, 165555))
    expect('P', t.doodson_read(55565), (0, (0, 0, 0, 0, 1, 0)))                                             # P2
    expect('P', t.doodson_read(1_000_000), (10, None))                                                      # P3
    expect('P', [t.sine(k << 30) for k in range(4)], [0, 1 << 30, 0, -(1 << 30)])                           # P4
    expect('P', [t.nearest_float(x) for x in (2.5, -2.5, -0.0)], [3, -3, 0])                                # P5
    halves = [(0.49999999999999994, 0), (0.5, 1), (0.5000000000000001, 1), (1.5, 2), (5e-324, 0), (4503599627370495.5, 1 << 52)]
    for x, count in halves:
        expect('cases', (t.nearest_float(x), t.nearest_float(-x)), (count, -count))
    expect('P', t.nearest(Fraction(5, 2)), 3)
    expect('P', t.nearest(-5, 2), -3)
    expect('P', t.move_c20(0, t.TIDE_FREE, t.ZERO, t.ANELASTIC), (0, -4200675))                             # P6
    expect('P', t.move_c20(0, t.TIDE_FREE, t.MEAN, t.ANELASTIC), (0, -18114804))
    listing = b'model C20 C21 S21 C22 S22\nelastic 0 0 450700 -1500 0\nanelastic 10100 0 450100 -1500 0\n'
    expect('P', t.steptwo_program(bytes(24)), listing)                                                      # P7
    expect('P', t.step_two_corrections(t.set_hour((1 << 30, 0, 0, 0, 0, 0)), t.ANELASTIC, t.ALL_LINES), (10100, 450100, 0, 1500, 0))   # P8
    sheet = write_sheet([(2, 0, 0, 0, 0, 0)], [[1_000_000]], [(2, 2, [(1000, 0, 0, -500)])])                # P9
    expect('P', len(sheet), 34)
    for tau, wanted in ((0, (1000, 0)), (1 << 29, (0, -500))):
        number, C, S = t.ocean(4, [0] * 15, [0] * 15, sheet, (tau, 0, 0, 0, 0, 0), t.FIGURE)
        expect('P', (number, C[5], S[5]), (0, *wanted))
        expect('P', (any(C[:5] + C[6:]), any(S[:5] + S[6:])), (False, False))
    for data in (sheet[:33], sheet + b'\0'):
        expect('P', t.sheet_test(data, 4), (7, None))
    for size in (23, 25, 0, 48):
        expect('cases', t.steptwo_program(bytes(size)), b'refused\n')
    expect('cases', t.field_test(4, [0] * 15, [0] * 15), 0)
    for c, s in ((14, 15), (15, 14), (14, 14)):
        expect('cases', t.solid_tide(4, [7] * c, [8] * s, MOON, SUN, t.ELASTIC, given.START, t.ALL_LINES), (1, None, [7] * c, [8] * s))


# --- Doodson numbers and lines ---

def doodson():
    some = range(0, 1_000_000, 7)                                               # every digit in every place
    for number in some:
        refusal, multipliers = t.doodson_read(number)
        assert refusal == 0 and t.doodson_write(multipliers) == (0, number)
    counts['doodson'] += len(some)
    for place, (low, high) in enumerate([(0, 9)] + [(-5, 4)] * 5):
        for value in (low - 1, high + 1, -128, 127, -2**31, 2**31 - 1):
            expect('doodson', t.doodson_write([value if i == place else 0 for i in range(6)]), (10, None))
    for number in (1_000_000, 1_000_001, U32):
        expect('doodson', t.doodson_read(number), (10, None))
        expect('lines', t.find_line(number), (10, None))
    expect('lines', [len(t.DIURNAL), len(t.LONG_PERIOD), len(t.SEMIDIURNAL)], [26, 21, 2])
    for band, first in ((t.DIURNAL, 1), (t.LONG_PERIOD, 0), (t.SEMIDIURNAL, 2)):
        for number, _, _ in band:
            expect('lines', t.doodson_read(number)[1][0], first)
    printed = [number for number, _, _ in t.PRINTED]
    expect('lines', len(set(printed)), 49)
    for number in some:
        assert t.find_line(number) == (11, None) or number in printed
    for i, (number, one, two) in enumerate(t.PRINTED):
        expect('lines', t.find_line(number), (0, (i, one, two)))
    expect('lines', [t.find_line(n) for n in (165555, 55565, 255555)], [(0, (15, 4720, 4710)), (0, (26, 166, -67)), (0, (48, -12, -12))])
    expect('lines', [t.find_line(n) for n in (0, 165554, 999_999)], [(11, None)] * 3)


# --- Sine and cosine ---

def sines():
    """Answers the phase with the largest error of sine and cosine together, for the hard sheets."""
    edges = [((k << 29) + d) & U32 for k in range(8) for d in (-1, 0, 1)]
    hardest, most = 0, 0
    for phase in edges + [chance.below(1 << 32) for _ in range(20_000)]:
        both = 0
        for value, exact in ((t.sine(phase), t.exact_sine_numerator(phase)), (t.cosine(phase), t.exact_cosine_numerator(phase))):
            assert -t.UNIT <= value <= t.UNIT
            error = abs(value * t.EXACT_DENOMINATOR - t.UNIT * exact)
            assert error <= 2 * t.EXACT_DENOMINATOR
            worst['sine units'] = max(worst['sine units'], error / t.EXACT_DENOMINATOR)
            both += error
        if both > most:
            hardest, most = phase, both
        assert abs(t.sine(phase) / t.UNIT - sin(phase * 6.283185307179586 / 2**32)) < 3e-9
        assert abs(t.cosine(phase) / t.UNIT - cos(phase * 6.283185307179586 / 2**32)) < 3e-9
        counts['phases'] += 1
    for phase in edges:
        expect('phases', t.exact_sine(phase), Fraction(t.exact_sine_numerator(phase), t.EXACT_DENOMINATOR))
    r = Fraction(3141592653589793, 10**15) / 8                                                  # a = 2^28, an eighth's half
    expect('phases', t.exact_sine(1 << 28), sum((-1)**k * r**(2 * k + 1) / factorial(2 * k + 1) for k in range(6)))
    expect('phases', t.exact_cosine(1 << 28), sum((-1)**k * r**(2 * k) / factorial(2 * k) for k in range(7)))
    return hardest


def recipe(by_cosine, a, numbers):
    """S(a) or C(a) with the recipe's numbers as they are given: the angle's factor, the halves that x, y and g are rounded with, the 2 of the
    last rounding, then each divisor with the half that its step is rounded with."""
    factor, x_half, y_half, g_half, two, *steps = numbers
    x = (a * factor + x_half) >> 31
    y = (x * x + y_half) >> 32
    h = 1 << 32
    for d, half in zip(steps[::2], steps[1::2]):
        h = (1 << 32) - (y * h + half * d) // (d << 32)
    return ((h if by_cosine else (x * h + g_half) >> 32) + two) // 4


def wave_slips():
    """The recipe told from each with one number changed, by a stored phase: factor, divisors and the 2 by one, halves dropped or nearly doubled."""
    angles = [t.eighth_of(phase)[2] for phase in telling.WAVE_PHASES]
    for by_cosine, divisors in ((False, (110, 72, 42, 20, 6)), (True, (132, 90, 56, 30, 12, 2))):
        right = [13493037705, 1 << 30, 1 << 31, 1 << 31, 2, *(number for d in divisors for number in (d, 1 << 31))]
        answers = [recipe(by_cosine, a, right) for a in angles]
        expect('waves', answers, [t.sine(a + t.UNIT * by_cosine) for a in angles])
        slips = [(i, wrong) for i, number in enumerate(right)
                 for wrong in ((0, 2 * number - 1) if number in (1 << 30, 1 << 31) else (number - 1, number + 1))]
        # g is the sine's alone; and of all 2^29 angles none tells the rounding up of the cosine's first step
        unseen = [(3, 0), (3, (1 << 32) - 1), (6, (1 << 32) - 1)] if by_cosine else []
        for i, wrong in slips:
            told = answers != [recipe(by_cosine, a, [*right[:i], wrong, *right[i + 1:]]) for a in angles]
            expect('waves', told, (i, wrong) not in unseen)


# --- Fields, step two and permanent systems ---

def fields():
    for N in (0, 1, 3, 61, 62, 1 << 16, U32):
        for size in (0, 1, 15, t.size(60)):
            expect('fields', t.field_test(N, [1 << 62] * size, [0] * size), 1)
    for N in range(4, 61):
        C, S = random_field(N)
        expect('fields', t.field_test(N, C, S), 0)
        for bad in ((C[1:], S), (C, S + [0]), ([], S), (C + [1 << 63], S)):
            expect('fields', t.field_test(N, *bad), 1)
        for entry in ((1 << 60) + 1, -(1 << 60) - 1, (1 << 63) - 1, -(1 << 63)):
            spoilt = list(C)
            spoilt[chance.below(len(C))] = entry
            expect('fields', (t.field_test(N, spoilt, S), t.field_test(N, S, spoilt)), (2, 2))


def printed(love):
    """The model's printed lines as records, listed apart from the program's own."""
    diurnal = [(number, amplitudes[LOVES.index(love)], 0) for number, *amplitudes in t.DIURNAL]
    lines = diurnal + [(number, ip, 0) for number, ip, _ in t.SEMIDIURNAL] + [*t.LONG_PERIOD] * (love == t.ANELASTIC)
    return [(*t.doodson_read(number)[1], ip, op) for number, ip, op in lines]


def by_complex(records, phases):
    """The five from (ip + i*op) times e^(i*phase), as floats: C20 its real part, C21 - i*S21 is -i times it, C22 - i*S22 is it."""
    bands = [0j, 0j, 0j]
    for first, *others, ip, op in records:
        turns = sum(n * phase for n, phase in zip((first, *others), phases)) % 2**32 / 2**32
        bands[first] += 100 * complex(ip, op) * complex(cos(turns * 6.283185307179586), sin(turns * 6.283185307179586))
    zero, one, two = bands[0], -1j * bands[1], bands[2]
    return zero.real, one.real, -one.imag, two.real, -two.imag


# Table 6.2b of 001: real and imaginary part of each line's delta k, in 10^-5. The scan's -0.000018 of 75,355 is -0.00018, and the multipliers
# beside them mend the numbers that it has as 93,075, 597,565, 58,5564 and 757.
DELTA_K = {
    55565: (1347, -541), 55575: (1124, -488), 56554: (547, -349), 57555: (403, -315), 57565: (398, -313), 58554: (326, -296),
    63655: (101, -242), 65445: (80, -237), 65455: (80, -237), 65465: (79, -237), 65655: (77, -236), 73555: (-9, -216), 75355: (-18, -213),
    75555: (-19, -213), 75565: (-19, -213), 75575: (-19, -213), 83655: (-65, -202), 85455: (-71, -201), 85465: (-71, -201),
    93555: (-102, -193), 95355: (-106, -192)}


def over_part(amplitude, part):
    """The least and the most that A0*H can be, in 10^-8, where amplitude = A0*H*part and both are rounded to the whole numbers given."""
    corners = [Fraction(2 * amplitude + a, 2 * part + b) for a, b in product((-1, 1), repeat=2)]
    return min(corners), max(corners)


def table_6_2b():
    """ip is A0*H times the real part, op the same A0*H times the imaginary part; minus that fits only where ip is 0, which tells no sign."""
    expect('table 6.2b', [*DELTA_K], [number for number, _, _ in t.LONG_PERIOD])
    for number, ip, op in t.LONG_PERIOD:
        low, high = over_part(ip, DELTA_K[number][0])
        for sign, fits in ((1, True), (-1, ip == 0)):
            least, most = over_part(sign * op, DELTA_K[number][1])
            expect('table 6.2b', (number, sign, low <= most and least <= high), (number, sign, fits))


def step_two():
    for i in range(250):
        phases, N = random_phases(), 4 if i % 5 else chance.between(4, 60)
        hour = reached(phases)
        for love in LOVES:
            five = t.step_two_corrections(hour, love, t.ALL_LINES)
            for value, real in zip(five, by_complex(printed(love), phases), strict=True):
                within('step two by doubles', abs(value - real), 1, strict=True)
            check_solid(telling.pair(chance), love, hour, t.ALL_LINES, five, t.step_two_exact(phases, love, t.ALL_LINES), N)
            assert love == t.ANELASTIC or five[0] == 0
    for phases, c20 in telling.QUARTERS.items():
        expect('step two', [t.step_two_corrections(t.set_hour(phases), love, t.ALL_LINES)[0] for love in LOVES], [0, c20])
    for phases in telling.tie_phases():
        ties = 0
        for love in LOVES:
            sums = t.line_sums(t.printed_records(love), phases, t.sine, t.cosine)
            for value, total in zip(t.step_two_corrections(t.set_hour(phases), love, t.ALL_LINES), sums, strict=True):
                if total % t.UNIT == t.UNIT // 2:
                    expect('step two', (abs(value), value > 0), ((abs(total) >> 30) + 1, total > 0))        # the half's size goes up
                    ties += 1
        expect('step two', ties > 0, True)


def permanent():
    edge = 1 << 60
    for have, want, love in product(SYSTEMS, SYSTEMS, LOVES):
        for c20 in [0, edge, -edge, edge - 1] + [chance.between(-edge, edge) for _ in range(200)]:
            refusal, moved = t.move_c20(c20, have, want, love)
            expect('permanent', refusal, 0)
            back = t.move_c20(moved, want, have, love)
            expect('permanent', back, (0, c20) if abs(moved) <= edge else (2, None))
        for c20 in (edge + 1, -edge - 1, (1 << 63) - 1, -(1 << 63)):
            expect('permanent', t.move_c20(c20, have, want, love), (2, None))
    a0h0 = Fraction(44228, 10**12) * Fraction(-31460, 10**5) * 10**15
    of_love = ((t.PERMANENT[love], a0h0 * k20) for love, k20 in ((t.ELASTIC, Fraction(29525, 10**5)), (t.ANELASTIC, Fraction(30190, 10**5))))
    for count, value in ((t.MEAN_OVER_ZERO, a0h0), *of_love):
        expect('permanent', (t.nearest(value), abs(count - value) < HALF), (count, True))           # the nearest, and no half


# --- Choosing which lines are used ---

WAVES = (t.sine, t.cosine), (t.exact_sine_numerator, t.exact_cosine_numerator)


def line_waves(phases, sin, cos):
    """The sine and the cosine of each printed line, by the digits of its number."""
    for number, _, _ in t.PRINTED:
        first, *others = map(int, f'{number:06d}')
        phase = first * phases[0] + sum((digit - 5) * argument for digit, argument in zip(others, phases[1:], strict=True))
        yield sin(phase), cos(phase)


def line_parts(waves, love):
    """What each printed line alone gives the five by its sine and cosine, in counts times their unit: 01's rules, by its number's first digit."""
    parts, anelastic = [], love == t.ANELASTIC
    for (number, one, two), (sine, cosine) in zip(t.PRINTED, waves, strict=True):
        by_sine, by_cosine = (100 * (two if anelastic else one) * value for value in (sine, cosine))
        long_period = 100 * one * cosine - 100 * two * sine if anelastic else 0
        parts.append([(long_period, 0, 0, 0, 0), (0, by_sine, by_cosine, 0, 0), (0, 0, 0, by_cosine, -by_sine)][number // 100_000])
    return parts


def named_sums(parts, selection):
    """The five sums of the parts of the lines that the selection's binary digits name."""
    digits = f'{selection:b}'[::-1]
    return [sum(parts[i][which] for i, digit in enumerate(digits) if digit == '1') for which in range(5)]


def check_selections(chosen, phases, love, N=4):
    """Selections, each with some bodies on a field: each correction against the parts of the lines that its binary digits name, those of the recipe
    rounded once and the exact ones. Answers the fives."""
    parts, fives, hour = [line_parts(line_waves(phases, *wave), love) for wave in WAVES], [], reached(phases)
    for selection in chosen:
        sums, exact = (named_sums(part, selection) for part in parts)
        exact = tuple(Fraction(total, t.EXACT_DENOMINATOR) for total in exact)
        five = tuple(away(Fraction(total, 1 << 30)) for total in sums)
        expect('selections', (t.step_two_corrections(hour, love, selection), t.step_two_exact(phases, love, selection)), (five, exact))
        check_solid(telling.pair(chance), love, hour, selection, five, exact, N)
        fives.append(five)
    return fives


def hard_selections(phases, love):
    """For each of the five and each sign, the lines whose waves err with that sign there: no selection's sum lies further from its exact one."""
    kept, exact = (line_parts(line_waves(phases, *wave), love) for wave in WAVES)
    for which, sign in product(range(5), (1, -1)):
        errors = [sign * (a[which] * t.EXACT_DENOMINATOR - b[which] * t.UNIT) for a, b in zip(kept, exact, strict=True)]
        yield sum(1 << i for i, error in enumerate(errors) if error > 0)


# The lines of the second profile, read off 01.
MAJOR = [
    145545, 145555, 155655, 162556, 163555, 164556, 165545, 165555, 165565, 165575, 166554, 167555, 175455,
    55565, 56554, 57555, 65455, 75555, 75565, 85455, 255555]


def profiles():
    """All lines, and those whose anelastic amplitude has two digits or more; ten is in it, nine is not, by ip and by op."""
    numbers = lambda selection: [number for digit, (number, _, _) in zip(f'{selection:b}'[::-1], t.PRINTED) if digit == '1']
    expect('profiles', t.ALL_LINES, 2**49 - 1)
    expect('profiles', numbers(t.MAJOR_LINES), MAJOR)
    digits = lambda amplitude: len(str(abs(amplitude)))
    expect('profiles', [number for number, one, two in t.PRINTED if digits(two) > 1 or number < 100_000 and digits(one) > 1], MAJOR)
    two_amplitudes = (9, 9), (10, 0), (0, 10), (-9, -9), (-10, 9), (-9, -10), (0, 0), (11, -1)
    expect('profiles', t.at_least(10, [(*NONE, ip, op) for ip, op in two_amplitudes]), 0b10110110)


def selections(hardest):
    profiles()
    alone, every = [1 << i for i in range(49)], 2**49 - 1
    bands = [2**26 - 1, 2**47 - 2**26, 3 << 47]
    expect('selections', given.BANDS, bands)
    for love in LOVES:
        for chosen in (alone, [every ^ one for one in alone], [2**i - 1 for i in range(50)], [every + 1 - 2**i for i in range(50)]):
            check_selections(chosen, random_phases(), love)
        for N in (4, 5, 60):
            fives = check_selections([0, *bands, every, t.MAJOR_LINES], random_phases(), love, N)
            expect('selections', fives[0], (0,) * 5)
            expect('selections', tuple(map(sum, zip(*fives[1:4]))), fives[4])       # no two bands give to one of the five
        for _ in range(20):
            check_selections([given.accepted_selection(chance) for _ in range(12)], random_phases(), love, chance.between(4, 12))
        awkward = [NONE, (U32,) * 6, (hardest, 0, 0, 0, 0, 0), *(telling.at_s(hardest * k) for k in range(4)), telling.DAY_PHASES]
        awkward += [tuple((chance.below(8) << 29) + chance.between(-1, 1) & U32 for _ in range(6)) for _ in range(4)]
        for phases in (*awkward, *telling.tie_phases()):
            check_selections([*hard_selections(phases, love), chance.one(*alone), given.accepted_selection(chance)], phases, love)
    told_apart(alone)
    for selection, phases, five in telling.faint_lines():
        expect('selections', check_selections([selection], phases, t.ANELASTIC), [five])
        lines = check_selections([one for one in alone if one & selection], phases, t.ANELASTIC)
        expect('selections', {value % 100 for line in lines for value in line}, {0})       # alone, nothing by the small wave
    for (sin, cos), love, _ in product(WAVES, LOVES, range(25)):                # nothing rounded: disjoint selections add up
        phases, one, two = random_phases(), given.accepted_selection(chance), given.accepted_selection(chance)
        two &= ~one
        sums = [t.step_two_sums(t.worked_out(phases, sin, cos), love, selection) for selection in (one, two, one | two)]
        expect('selections', tuple(map(add, *sums[:2])), sums[2])
    # every selection's bound, from the table: two units of 2^-30 for each wave, and the rounding's half count
    for love, band in product(LOVES, range(3)):
        tenths = sum(abs(ip) + abs(op) for first, *_, ip, op in printed(love) if first == band)
        expect('selections', 100 * tenths * 2 < 1 << 29, True)
    selection_refusals(alone)


def told_apart(alone):
    """At LINE_PHASES any line that the model uses is told from none and from any other, whatever their signs; one that it does not adds nothing."""
    for love in LOVES:
        fives = check_selections(alone, telling.LINE_PHASES, love)
        unused = range(26, 47) if love == t.ELASTIC else ()
        expect('selections', {fives[i] for i in unused} - {(0,) * 5}, set())
        sizes = [(0,) * 5, *([*map(abs, five)] for i, five in enumerate(fives) if i not in unused)]
        apart = (max(abs(a - b) for a, b in zip(one, two)) for one, two in combinations(sizes, 2))
        expect('selections', min(apart) >= 10, True)


def selection_refusals(alone):
    """14 for each bit above 48, and nothing changed; 48 is the last bit that passes."""
    def answer(number, selection):
        N, love = chance.one(4, 4, 12), chance.one(*LOVES)
        C, S = random_field(N)
        got, lines, C2, S2 = t.solid_tide(N, C, S, *telling.pair(chance), love, reached(random_phases()), selection)
        expect('selections', (got, lines), (number, None) if number else (0, f'{selection:b}'.count('1')))
        assert number == 0 or (C2, S2) == (C, S)

    for selection in (0, 1, 1 << 48, 2**49 - 1, 2**49 - 2, t.MAJOR_LINES, *(given.accepted_selection(chance) for _ in range(20))):
        answer(0, selection)
    for bit in range(49, 64):
        for others in (0, 1, 1 << 48, 2**49 - 1, t.MAJOR_LINES, chance.one(*alone), given.accepted_selection(chance)):
            answer(14, 1 << bit | others)
    for selection in (2**49, 2**49 + 1, 2**64 - 1, 2**64 - 2**49, 2**63 - 1, *(chance.word() | 1 << chance.between(49, 63) for _ in range(40))):
        answer(14, selection)
    for _ in range(200):
        selection = given.selection(chance)
        expect('selections', t.selection_test(selection), 14 if any(selection & 1 << bit for bit in range(49, 64)) else 0)


# --- Tide lines of our own ---

def check_own(records, phases, N=4):
    """One list on one field: every entry after the call, and each correction against its exact sum. Answers the five."""
    five = t.own_line_corrections(records, phases)
    expect('own lines', five, ANEW['own_line_corrections'](records, phases))
    for value, exact in zip(five, t.own_lines_exact(records, phases), strict=True):
        within('own lines', abs(value - exact), 3)
    C, S = random_field(N)
    number, C2, S2 = t.own_lines(N, C, S, records, phases)
    expect('own lines', (number, differences(C, C2), differences(S, S2)), (0, *changes_of(five, N)))
    return five


def by_hand():
    """Records of one band at a phase whose waves are known; ip 3 and op 5 are 300 and 500 counts."""
    quarter, none = 1 << 30, (0, 0, 0, 0, 0)
    # C20: ip*cosine - op*sine; C21: ip*sine + op*cosine; S21: ip*cosine - op*sine; C22: ip*cosine - op*sine; S22: -ip*sine - op*cosine
    for phase, c20, c21, s21, c22, s22 in (
            (0 * quarter, 300, 500, 300, 300, -500),            # sine 0, cosine 1
            (1 * quarter, -500, 300, -500, -500, -300),         # sine 1, cosine 0
            (2 * quarter, -300, -500, -300, -300, 500),         # sine 0, cosine -1
            (3 * quarter, 500, -300, 500, 500, 300),            # sine -1, cosine 0
            (quarter // 2, -141, 566, -141, -141, -566),        # both 0.70710678: -141.42, 565.69
            (5 * quarter // 2, 141, -566, 141, 141, 566)):      # both -0.70710678
        three = [telling.in_band(band, 3, 5) for band in range(3)]
        for record, five in zip(three, ((c20, 0, 0, 0, 0), (0, c21, s21, 0, 0), (0, 0, 0, c22, s22)), strict=True):
            expect('own lines', check_own([record], telling.at_s(phase)), five)
        expect('own lines', check_own(three, telling.at_s(phase)), (c20, c21, s21, c22, s22))
    # ip alone, then op alone, at the sine 1 and at the cosine 1: 700 counts
    for band, ip_sine, op_sine, ip_cosine, op_cosine in (
            (0, none, (-700, 0, 0, 0, 0), (700, 0, 0, 0, 0), none),
            (1, (0, 700, 0, 0, 0), (0, 0, -700, 0, 0), (0, 0, 700, 0, 0), (0, 700, 0, 0, 0)),
            (2, (0, 0, 0, 0, -700), (0, 0, 0, -700, 0), (0, 0, 0, 700, 0), (0, 0, 0, 0, -700))):
        for phase, ip, op in ((quarter, ip_sine, op_sine), (0, ip_cosine, op_cosine)):
            expect('own lines', check_own([telling.in_band(band, 7, 0)], telling.at_s(phase)), ip)
            expect('own lines', check_own([telling.in_band(band, 0, 7)], telling.at_s(phase)), op)
    # the band is the first multiplier's, whatever the others are; this phase is first*tau, a quarter turn times it: sines 0, 1, 0
    for others in ((1, 1, 1, 1, 1), (2, 2, 2, 2, 2), (0, 0, 0, 0, 0), (13, -13, 5, 0, 1)):
        five = [check_own([(band, *others, 3, 5)], (quarter, 0, 0, 0, 0, 0)) for band in range(3)]
        expect('own lines', five, [(300, 0, 0, 0, 0), (0, 300, -500, 0, 0), (0, 0, 0, -300, 500)])
    # 2 and 2 at an eighth: 141.42 and 141.42 counts are 282.84
    for band, op, five in ((0, -2, (283, 0, 0, 0, 0)), (1, 2, (0, 283, 0, 0, 0)), (2, -2, (0, 0, 0, 283, 0)), (2, 2, (0, 0, 0, 0, -283))):
        expect('own lines', check_own([telling.in_band(band, 2, op)], telling.at_s(quarter // 2)), five)
    expect('own lines', check_own(telling.OWN_RECORDS, telling.DAY_PHASES), telling.OWN_FIVE)


def hard_records(band, phase, by_sine):
    """64 records at full size, and phases: every sign set so that the errors of this phase pull one way in the sum that takes ip by this wave."""
    sine_error, cosine_error = (f(phase) - t.UNIT * g(phase) for f, g in ((t.sine, t.exact_sine), (t.cosine, t.exact_cosine)))
    signs = [1 if error >= 0 else -1 for error in ((sine_error, cosine_error) if by_sine else (cosine_error, -sine_error))]
    record = lambda less: telling.in_band(band, *(sign * (t.AMPLITUDE_BOUND - less) for sign in signs))
    tried = lambda less: ([record(0)] * 63 + [record(less)], telling.at_s(phase))
    drift = lambda two: max(abs(value - exact) for value, exact in zip(t.own_line_corrections(*two), t.own_lines_exact(*two)))
    return max(map(tried, range(40)), key=drift)


def own_lines(hardest):
    by_hand()
    for N in (4, 5, 60):
        expect('own lines', check_own([], random_phases(), N), (0,) * 5)
    for i in range(600):
        records, phases = given.records(chance, chance.one(0, 1, 2, 3, chance.below(65), 64)), random_phases()
        five = check_own(records, phases, 4 if i % 5 else chance.between(4, 60))
        for value, real in zip(five, by_complex(records, phases), strict=True):
            within('own lines by doubles', abs(value - real), 3)
        expect('own lines', t.own_line_corrections(records[::-1], phases), five)
    for band, by_sine in product(range(3), (False, True)):
        for phase in (hardest, given.phase(chance)):
            check_own(*hard_records(band, phase, by_sine))
    for at, band in product(range(6), range(3)):                                # each multiplier with its own argument
        for n in range(-13, 14) if at else (band,):
            phases, multipliers = random_phases(), given.spoilt((band, 0, 0, 0, 0, 0), at, n)
            phase = n * phases[at] + (band * phases[0] if at else 0)
            expect('own lines', t.own_line_corrections([(*multipliers, 987, -654)], phases),
                   t.own_line_corrections([telling.in_band(band, 987, -654)], telling.at_s(phase)))
    for _ in range(100):                                                        # equal records count each
        phases, multipliers, count = random_phases(), given.record(chance)[:6], chance.between(2, 64)
        ip, op = (chance.between(-1562, 1562) for _ in range(2))
        expect('own lines', check_own([(*multipliers, ip, op)] * count, phases), check_own([(*multipliers, count * ip, count * op)], phases))
    for records, phases in telling.small_records():                             # 25.6 counts of one wave, 6399.95 of the other
        expect('own lines', {*map(abs, check_own(records, phases))} - {6400}, {0, 26})
    for records, phases in (*telling.own_line_ties(), *telling.band_ties()):
        sums = t.line_sums(records, phases, t.sine, t.cosine)
        for value, total in zip(check_own(records, phases), sums, strict=True):
            if total % t.UNIT == t.UNIT // 2:
                expect('own lines', (abs(value), value > 0), ((abs(total) >> 30) + 1, total > 0))           # the half's size goes up
    for (which, one), beside, _ in product(enumerate(telling.SUMS), (0, 1), range(8)):
        records, phases, total = telling.at_a_tie(chance, *one, beside)
        expect('own lines', abs(total) % (1 << 30) - (1 << 29), -4 if beside else 0)
        size = (abs(total) >> 30) + (not beside)                                # at the half it goes up, beside it down
        expect('own lines', check_own(records, phases)[which], size if total > 0 else -size)
    for love, _ in product(LOVES, range(60)):                                   # the printed lines, lent
        phases = random_phases()
        expect('own lines', check_own(printed(love), phases), t.step_two_corrections(t.set_hour(phases), love, t.ALL_LINES))
    own_line_refusals()


def own_line_refusals():
    """12 before 13, 1 and 2 before both; the ends of each range pass."""
    def refuse(number, records):
        expect('own lines', t.records_test(records), number)
        N = chance.one(4, 4, 12)
        C, S = random_field(N)
        phases = random_phases()
        expect('own lines', t.own_lines(N, C, S, records, phases), (number, C, S))
        expect('own lines', t.own_lines(N, C[1:], S, records, phases), (1, C[1:], S))
        expect('own lines', t.own_lines(3, C, S, records, phases), (1, C, S))
        spoilt = given.spoilt(C, chance.below(len(C)), chance.one((1 << 60) + 1, -(1 << 63)))
        expect('own lines', t.own_lines(N, spoilt, S, records, phases), (2, spoilt, S))
        expect('own lines', t.own_lines(N, S, spoilt, records, phases), (2, S, spoilt))

    good = lambda count: given.records(chance, count)
    for count in (1, 2, 3, 63, 64):
        check_own(good(count), random_phases())
    for count in (65, 66, 128, 200, 256, 320):
        refuse(12, good(count))
        refuse(12, given.faulty_records(chance, count))
    one = (1, 2, -3, 4, -5, 6, 700, -800)
    ends = [(at, value) for at, two in enumerate(given.RECORD_ENDS) for value in two]
    for at, value in (*ends, (0, 1)):
        check_own([given.spoilt_record(one, at, value)], random_phases())
        check_own([*good(63), given.spoilt_record(one, at, value)], random_phases())
    check_own([(2, 13, 13, 13, 13, 13, 100_000, 100_000), (0, -13, -13, -13, -13, -13, -100_000, -100_000)] * 32, random_phases())
    tried = [*given.record_faults()]
    asked = [(0, -1), (0, 3), (0, 13), (0, -13), *((at, n) for at in range(6) for n in (14, -14, -(1 << 31), (1 << 31) - 1)),
             *((at, a) for at in (6, 7) for a in (100_001, -100_001, -(1 << 63), (1 << 63) - 1))]
    expect('own lines', [fault for fault in asked if fault not in tried], [])
    for at, value in tried:
        bad = given.spoilt_record(one, at, value)
        refuse(13, [bad])
        refuse(13, given.spoilt(good(64), chance.one(0, 63, chance.below(64)), bad))
        refuse(12, given.spoilt(good(65), chance.one(0, 64, chance.below(65)), bad))
    for place in range(64):
        refuse(13, given.spoilt(good(64), place, given.faulty_records(chance, 1)[0]))
    for least_or_most in zip(*given.WIDTHS):
        refuse(13, [least_or_most])
        refuse(12, [least_or_most] * 65)
    refuse(13, given.faulty_records(chance, 64))


# --- Solid pole tide ---

# 001's a and b, in 10^-9 for an arcsecond, a count for a micro-arcsecond: C21 takes -a*(xp + b*yp), S21 a*(yp - b*xp). And its Love numbers.
POLE = {t.ELASTIC: (Fraction('1.290'), Fraction(0)), t.ANELASTIC: (Fraction('1.348'), Fraction('0.0112'))}
POLE_LOVE = {t.ELASTIC: 0.2977, t.ANELASTIC: 0.3111 - 0.0035j}


def pole_factors(a, b):
    """The factors of xp and yp, for C21 and for S21."""
    return (-a, -a * b), (-a * b, a)


def pole_exact(xp, yp, love):
    return [by_xp * xp + by_yp * yp for by_xp, by_yp in pole_factors(*POLE[love])]


def by_potential(xp, yp, love):
    """C21 and S21 in counts, as floats, from 001's potential: C21 - i*S21 is -W^2*R^3/(GM*sqrt(15)) times k*(xp + i*yp), in radians."""
    value = -7.292115e-5**2 * 6378136.3**3 / (3.986004415e14 * sqrt(15)) * POLE_LOVE[love] * complex(xp, yp) * pi / 648_000e6 * 1e15
    return value.real, -value.imag


def check_pole(xp, yp, love, N=4):
    """Offsets on one field: each correction against 001's decimals and its potential, and every entry after the call. Answers the two."""
    exact, two = pole_exact(xp, yp, love), t.pole_corrections(xp, yp, love)
    *sums, divisor = t.pole_sums(xp, yp, love)
    expect('pole tide', [Fraction(total, divisor) for total in sums], exact)
    expect('pole tide', two, tuple(map(away, exact)))
    for correction, value, real in zip(two, exact, by_potential(xp, yp, love), strict=True):
        within('pole tide', abs(correction - value), HALF)
        within('pole tide by the potential', abs(correction - real) / 10**6, 0.001)                 # the decimals' last digits, at full offsets
    expect('pole tide', t.pole_corrections(-yp, xp, love), (two[1], -two[0]))   # the pole a quarter turn further on
    expect('pole tide', t.pole_corrections(-xp, -yp, love), opposite(two))      # and half a turn: both offsets reversed
    C, S = random_field(N)
    number, C2, S2 = t.pole_tide(N, C, S, xp, yp, love)
    expect('pole tide', (number, differences(C, C2), differences(S, S2)), (0, *changes_of((0, *two, 0, 0), N)))
    return two


def are_halves(xp, yp, love):
    """Whether the program's C21 and its S21 are exact halves."""
    *sums, divisor = t.pole_sums(xp, yp, love)
    return [2 * total % (2 * divisor) == divisor for total in sums]


def pole_halves():
    """Exact halves are where telling.beside_halves says, not elsewhere: over a period of xp and yp, or of k and the other, and at any offsets."""
    for xp, yp in product(range(100), repeat=2):
        expect('pole tide', are_halves(xp, yp, t.ELASTIC), [xp % 100 == 50, yp % 100 == 50])
    for k, offset in product(range(250), repeat=2):
        assert are_halves(offset, 625 * k, t.ANELASTIC)[0] == (offset == (125 - 7 * k) % 250)
        assert are_halves(625 * k, offset, t.ANELASTIC)[1] == (offset == (125 + 7 * k) % 250)
    for _ in range(5000):
        xp, yp = given.offsets(chance)
        halves = [yp % 625 == 0 and (xp + 7 * yp // 625) % 250 == 125, xp % 625 == 0 and (yp - 7 * xp // 625) % 250 == 125]
        expect('pole tide', are_halves(xp, yp, t.ANELASTIC), halves)
    for (love, step), steps, _ in product(((t.ELASTIC, Fraction(1, 100)), (t.ANELASTIC, Fraction(1, 156250))), range(-2, 3), range(20)):
        pairs = telling.beside_halves(love, steps, *(chance.between(-999_000, 999_000) for _ in range(2)))
        for which, pair in enumerate(pairs):
            value = pole_exact(*pair, love)[which]
            expect('pole tide', value % 2, HALF + steps * step)
            goes_up = steps > 0 or steps == 0 and value > 0                     # a half below zero goes down
            expect('pole tide', check_pole(*pair, love)[which], floor(value) + goes_up)


def pole_by(rule, xp, yp, love):
    """T-05 on a field of zeros by a rule that can be changed: how the offsets are read, their ends, each formula's factors and rounding, and the
    places corrected, each a list, an index and the formula."""
    xp, yp = rule['read'](xp, yp)
    low_x, high_x, low_y, high_y = rule['ends']
    lists = [0] * 15, [0] * 15
    if not (low_x <= xp <= high_x and low_y <= yp <= high_y):
        return 15, *lists
    for which, at, formula in rule['places']:
        by_xp, by_yp = rule['factors', love, formula]
        lists[which][at] += rule['rounding', love, formula](by_xp * xp, by_yp * yp)
    return 0, *lists


# Of the anelastic formulas, which have two parts; the elastic ones are whole hundredths of one.
WRONG_ANELASTIC = lambda one, two: away(one) + away(two), lambda one, two: away(Fraction(away(10_000 * (one + two)), 10_000))


def pole_slips():
    """T-05 told by the stored calls from each rule with one piece changed."""
    cut = lambda offset: (offset + (1 << 31)) % (1 << 32) - (1 << 31)           # to 32 bits
    unsized = lambda offset: 0 if offset == -(1 << 63) else offset              # whose size is no 64-bit number
    right = {'read': lambda xp, yp: (xp, yp), 'ends': (-1_000_000, 1_000_000) * 2, 'places': [(0, 4, 0), (1, 4, 1)]}
    slips = [('read', read) for read in (
        lambda xp, yp: (yp, xp), lambda xp, yp: (cut(xp), yp), lambda xp, yp: (xp, cut(yp)),
        lambda xp, yp: (unsized(xp), yp), lambda xp, yp: (xp, unsized(yp)))]
    slips += [('ends', given.spoilt(right['ends'], i, wrong)) for i, end in enumerate(right['ends']) for wrong in (end - 1, end + 1, end * inf)]
    slips += [('places', places) for places in (
        [(1, 4, 0), (0, 4, 1)], [(0, 4, 0)], [(1, 4, 1)],                                               # C and S exchanged, one alone
        *(given.spoilt(right['places'], i, (i, at, i)) for i in range(2) for at in (2, 3, 5, 7)),       # another place
        *([*right['places'], (which, at, which)] for which in range(2) for at in (3, 5)))]              # another too, S20 among them
    for love, formula in product(LOVES, range(2)):
        a, b = POLE[love]
        by_xp, by_yp = factors = pole_factors(a, b)[formula]
        right['factors', love, formula], right['rounding', love, formula] = factors, lambda one, two: away(one + two)
        last_a, last_b = Fraction(1, 1000), Fraction(1, 10_000)
        decimals = (a + last_a, b), (a - last_a, b), (a, b + last_b), (a, b - last_b), (a, 10 * b), (a, b / 10), (a, 0), *POLE.values()
        wrong = [(by_yp, by_xp), (-by_xp, by_yp), (by_xp, -by_yp), (-by_xp, -by_yp), pole_factors(a, b)[1 - formula]]
        wrong += [pole_factors(*two)[formula] for two in decimals]
        slips += [(('factors', love, formula), pair) for pair in wrong if pair != factors]
        of_sum = tuple(lambda one, two, wrong=wrong: wrong(one + two) for wrong in WRONG_ROUNDINGS)
        slips += [(('rounding', love, formula), rounding) for rounding in of_sum + WRONG_ANELASTIC * (love == t.ANELASTIC)]
    calls = [*telling.pole_calls()]
    answers = [t.pole_tide(4, [0] * 15, [0] * 15, *call) for call in calls]
    expect('pole slips', [pole_by(right, *call) for call in calls], answers)
    for piece, wrong in slips:
        told = any(pole_by({**right, piece: wrong}, *call) != answer for call, answer in zip(calls, answers, strict=True))
        expect('pole slips', (piece, wrong, told), (piece, wrong, True))


def pole_tide():
    for love in LOVES:
        for N in (4, 5, 60):
            expect('pole tide', check_pole(0, 0, love, N), (0, 0))
        for xp, yp in (*product((-1_000_000, -1, 1, 1_000_000), repeat=2), *(given.offsets(chance) for _ in range(1000))):
            check_pole(xp, yp, love, chance.between(5, 60) if chance.one_in(50) else 4)
    pole_halves()
    pole_slips()
    offset_refusals()


def offset_refusals():
    """15 beyond either end of either offset, 1 and 2 before it, and nothing changed; the ends pass."""
    def answer(number, *offsets):
        N, love = chance.one(4, 4, 12), chance.one(*LOVES)
        C, S = random_field(N)
        call = lambda *field: t.pole_tide(*field, *offsets, love)
        got, C2, S2 = call(N, C, S)
        expect('pole tide', got, number)
        assert number == 0 or (C2, S2) == (C, S)
        expect('pole tide', call(N, C[1:], S), (1, C[1:], S))
        expect('pole tide', call(3, C, S), (1, C, S))
        spoilt = given.spoilt(C, chance.below(len(C)), chance.one((1 << 60) + 1, -(1 << 63)))
        expect('pole tide', (call(N, spoilt, S), call(N, S, spoilt)), ((2, spoilt, S), (2, S, spoilt)))

    for pair in (*product((-1_000_000, -999_999, 0, 999_999, 1_000_000), repeat=2), *(given.offsets(chance) for _ in range(100))):
        answer(0, *pair)
    asked = 1_000_001, -1_000_001, (1 << 63) - 1, -(1 << 63)
    expect('pole tide', [far for far in asked if far not in given.FAR_OFFSETS], [])
    for far, near in product(given.FAR_OFFSETS, (0, 1, 1_000_000, -1_000_000, *given.FAR_OFFSETS)):
        answer(15, far, near)
        answer(15, near, far)
    for _ in range(200):
        answer(15, *given.faulty_offsets(chance))
    rising = t.pole_tide(4, [1 << 60] * 15, [1 << 60] * 15, -1_000_000, 1_000_000, t.ELASTIC)       # an entry may leave the range of 2
    expect('pole tide', (rising[0], rising[1][4] > 1 << 60, rising[2][4] > 1 << 60), (0, True, True))
    expect('pole tide', t.pole_tide(4, *rising[1:], 0, 0, t.ELASTIC), (2, *rising[1:]))


# --- Ocean ---

def sheet_faults():
    """Faults set one at a time and in pairs; the lowest number answers."""
    lines, rows, places = given.SMALL
    good, zero = write_sheet(lines, rows, places), [(0,) * 4]

    def refuse(number, data, N=5):
        expect('sheet', t.sheet_test(data, N), (number, None))
        C, S = random_field(N)
        expect('sheet', t.ocean(N, C, S, data, random_phases(), chance.one(*FRAMES)), (number, C, S))

    expect('sheet', t.sheet_test(good, 5)[0], 0)
    for frame in FRAMES:
        check_ocean((lines, rows, places), random_phases(), frame, N=5)
        check_ocean((lines, rows, []), random_phases(), frame)
    refuse(9, good, N=4)
    for cut in range(len(good)):
        refuse(7, good[:cut])
    refuse(7, good + b'\0')
    refuse(7, good + good)
    counts_at = (0, 2 + 6 * 2, 4 + 6 * 2 + 4 * 6)
    for at, wrong in zip(counts_at, ((0, 129, 3, 65535), (0, 33, 2, 4, 65535), (91, 2, 4, 65535)), strict=True):
        for count in wrong:
            refuse(7, good[:at] + struct.pack('<H', count) + good[at + 2:])
    for shape in ((0, 1, 1), (129, 1, 0), (1, 0, 1), (1, 33, 1), (1, 1, 91), (129, 33, 91)):
        refuse(7, given.shaped_sheet(*shape), N=13)
    for lines_, rows_, places_ in given.faulty_sheets():
        data = write_sheet(lines_, rows_, places_)
        refuse(8, data, N=12)
        refuse(8, data, N=4)                                                    # 8 before 9
        refuse(7, data + b'\1')                                                 # 7 before 8
        refuse(7, data[:-1])
    for N in range(4, 13):
        data = write_sheet(lines, [[0, 0]], [(N, N, zero)])
        expect('sheet', t.sheet_test(data, N)[0], 0)
        if N > 4:
            refuse(9, data, N - 1)
    expect('sheet', t.ocean(3, [0] * 10, [0] * 10, b'', NONE, t.MASS), (1, [0] * 10, [0] * 10))
    expect('sheet', t.ocean(4, [1 << 61] * 15, [0] * 15, b'', NONE, t.MASS), (2, [1 << 61] * 15, [0] * 15))
    for _ in range(3000):
        data = bytearray(good)
        data[chance.below(len(data))] = chance.below(256)
        expect('sheet', t.sheet_test(bytes(data), 5)[0] in (0, 7, 8, 9), True)      # one byte makes no twins of SMALL's lines
        expect('sheet', t.sheet_test(chance.bytes(chance.below(120)), 5)[0] in (7, 8, 16, 9), True)


def ocean(hardest):
    for _ in range(1000):
        sheet = given.sheet(chance, chance.between(1, 6), chance.between(1, 4), chance.between(0, 6))
        check_ocean(sheet, random_phases(), chance.one(*FRAMES), N=chance.between(12, 16))
    for sizes in ((128, 32, 90), (1, 32, 90), (128, 1, 90), (40, 20, 90), (128, 32, 0)):
        for frame in FRAMES:
            check_ocean(given.sheet(chance, *sizes), random_phases(), frame)
    for frame in FRAMES:
        check_ocean(hard_sheet(hardest), (hardest, 0, 0, 0, 0, 0), frame)
    for _ in range(4):
        phase = given.phase(chance)
        check_ocean(hard_sheet(phase), (phase, 1, 2, 3, 4, 5), t.FIGURE)


# --- Twin lines in a sheet ---

def by_set(some):
    """Whether two of them are equal, by how many are left in a set."""
    return len({*map(tuple, some)}) < len(some)


def by_order(lines):
    """Whether two lines are equal, by the neighbours once they stand in order."""
    ordered = sorted(map(tuple, lines))
    return any(one == two for one, two in zip(ordered, ordered[1:]))


def check_twins(lines):
    """Lines with or without twins, by two other methods; and a sheet of them, with any rows and places, on a field. Answers whether there are twins."""
    twins = by_set(lines)
    expect('twins', (t.has_twins([*map(tuple, lines)]), by_order(lines)), (twins, twins))
    _, rows, places = given.sheet(chance, len(lines), chance.between(1, 3), chance.between(0, 4))
    data, N = write_sheet(lines, rows, places), chance.between(4, 12)
    number = 16 if twins else 9 if any(n > N for n, _, _ in places) else 0
    C, S = random_field(N)
    got, C2, S2 = t.ocean(N, C, S, data, random_phases(), chance.one(*FRAMES))
    expect('twins', (t.sheet_test(data, N)[0], got, t.sheet_test(data, 12)[0]), (number, number, 16 * twins))
    assert got == 0 or (C2, S2) == (C, S)
    return twins


def twins():
    """T-09's condition by other methods, at any two places; what else may be alike; and the order of the refusals."""
    for number, N, data in telling.twin_calls():
        expect('twins', t.sheet_test(data, N)[0], number)
    found = Counter()
    for _ in range(2000):                                                       # multipliers of two kinds: about one list in two has twins
        kinds = chance.between(-13, 13), chance.one(13, -13, 0)
        found[check_twins([tuple(chance.one(*kinds) for _ in range(6)) for _ in range(chance.between(1, 12))])] += 1
    expect('twins', min(found.values()) > 500, True)
    for count in (*range(2, 13), 128):
        lines = given.different_lines(chance, count)
        expect('twins', check_twins(lines), False)
        for two in combinations(range(count), 2):
            if count < 128 or two in telling.FAR_TWINS or chance.one_in(20):
                expect('twins', t.has_twins(given.twinned(lines, *two)), True)
    for _ in range(300):                                                        # one line more, and one multiplier of it changed
        lines = given.different_lines(chance, chance.one(1, 2, chance.between(3, 20)))
        one, at = chance.one(*lines), chance.between(0, len(lines))
        other = tuple(given.spoilt(one, chance.below(6), chance.between(-13, 13)))
        expect('twins', check_twins([*lines[:at], one, *lines[at:]]), True)
        expect('twins', check_twins([*lines[:at], other, *lines[at:]]), other in lines)
    for _ in range(200):                                                        # the lines in another order, with their admittances
        lines, rows, places = given.sheet(chance, chance.between(2, 9), chance.between(1, 3), chance.between(1, 4))
        lines = chance.one(lines, given.twinned(lines, *chance.some(2, range(len(lines)))))
        order = sorted(range(len(lines)), key=lambda _: chance.word())
        other = [lines[i] for i in order], [[row[i] for i in order] for row in rows], places
        call = random_phases(), chance.one(*FRAMES)
        answer, again = (t.ocean(12, [0] * 91, [0] * 91, write_sheet(*sheet), *call) for sheet in ((lines, rows, places), other))
        expect('twins', (answer[0], again), (16 * by_set(lines), answer))
    for _ in range(100):                                                        # rows, columns or tides alike; opposite, reversed and sorted lines
        lines, rows, places = given.sheet(chance, chance.between(2, 6), chance.between(2, 4), chance.between(2, 4))
        one = given.line(chance)
        alike = [*dict.fromkeys((one, opposite(one), one[::-1], tuple(sorted(one))))]
        for sheet in ((lines, [rows[0]] * len(rows), places), (lines, [[1] * len(lines)] * len(rows), places),
                      (lines, rows, [(n, m, [quads[0]] * len(rows)) for n, m, quads in places]),
                      (alike, [given.row(chance, len(alike)) for _ in rows], places)):
            check_ocean(sheet, random_phases(), chance.one(*FRAMES), N=12)
    ocean_orders()


def ocean_orders():
    """Every set of faults: the number that is first in the order is answered, and nothing changed."""
    expect('orders', given.OCEAN_ORDER, (1, 2, 7, 8, 16, 9))
    for some, _ in product(range(1 << 6), range(12)):
        faults = [i for i in range(6) if some >> i & 1]
        (N, C, S), data = given.ocean_with(chance, faults)
        number, C2, S2 = t.ocean(N, C, S, data, random_phases(), chance.one(*FRAMES))
        expect('orders', (number, by_set(lines_in(data)) or 4 not in faults), (given.OCEAN_ORDER[faults[0]] if faults else 0, True))
        assert not faults or (C2, S2) == (C, S)


def lines_in(data):
    """The lines that stand in a sheet's bytes by the low byte of their count, whatever follows; none where they are not all there."""
    end = 2 + 6 * (data[0] if data else 0)
    return [*struct.iter_unpack('<6b', data[2:end])] if len(data) >= end else []


TESTS_7, TESTS_8 = ('7 lines', '7 tides', '7 places', '7 length'), ('8 lines', '8 rows', '8 places', '8 order')


@lru_cache(None)
def sheet_faults_in(data):
    """The tests of 7 that any bytes do not pass, and where they pass all of them those of 8; then the sheet, or None."""
    word = lambda at: int.from_bytes(data[at:at + 2], 'little') if 2 <= at + 2 <= len(data) else -1
    lines = word(0)
    tides = word(2 + 6 * lines)
    places_at = 4 + 6 * lines + 4 * lines * tides
    places = word(places_at)
    passed = 1 <= lines <= 128, 1 <= tides <= 32, 0 <= places <= 90, len(data) == places_at + 2 + places * (2 + 16 * tides)
    number, sheet = t.read_sheet(data)
    expect('twin slips', 0 if all(passed) else 7, number)
    if sheet:
        lines, rows, places = sheet
        order = [two for *two, _ in places]
        passed += (
            all(abs(n) <= 13 for line in lines for n in line), all(sum(map(abs, row)) <= 4_000_000 for row in rows),
            all(t.place_fits(*place) for place in places), order == sorted(order) and not by_set(order))
    return {name for name, passes in zip(TESTS_7 + TESTS_8, passed) if not passes}, sheet


RIGHT_TWINS = {
    'order': ('1', '2', *TESTS_7, *TESTS_8, '16', '9'), 'pairs': lambda lines: combinations(range(len(lines)), 2), 'key': lambda line: line,
    'counts': lambda line, a, b, places, frame: True, 'found': lambda pairs: pairs > 0, 'more': lambda lines, rows, places: False, 'number': 16}


def twins_by(rule, data, sheet, frame):
    """T-09's condition by a rule that can be changed: which two lines are compared, what of a line, whether two that agree count, by the first one, the
    admittances of each, the places and the frame, and how many pairs do; and what else is taken for twins."""
    lines = lines_in(data)
    keys = [*map(rule['key'], lines)]
    agree = [(i, j) for i, j in rule['pairs'](lines) if keys[i] == keys[j]]
    if sheet is None:                                                           # a test of 7 comes later
        return rule['found'](len(agree))
    lines, rows, places = sheet
    of_line = [*zip(*rows)]
    pairs = sum(1 for i, j in agree if rule['counts'](lines[i], of_line[i], of_line[j], places, frame))
    return rule['found'](pairs) or rule['more'](lines, rows, places)


def ocean_number(rule, N, C, S, data, frame):
    """The number that the ocean tide is refused with, or 0, by a rule that can be changed: the order of the tests, 16's condition and its number."""
    failed, sheet = sheet_faults_in(data)
    tests = {
        '1': lambda: not 4 <= N <= 60 or {len(C), len(S)} != {t.size(N)}, '2': lambda: any(abs(entry) > 1 << 60 for entry in (*C, *S)),
        '16': lambda: twins_by(rule, data, sheet, frame), '16 places': lambda: by_set([two for *two, _ in sheet[2]]),
        '9': lambda: any(n > N for n, _, _ in sheet[2])}
    for name in rule['order']:
        if tests[name]() if name in tests else name in failed:
            return rule['number'] if name == '16' else int(name.split()[0])
    return 0


def order_slips():
    """16 never, and after 9; before any of the tests of 8, of 7, and before 2 and 1; and for twins among the places."""
    first, last = ('1', '2', *TESTS_7), (*TESTS_8, '9')
    yield *first, *last
    yield *first, *last, '16'
    for some in range(1, 1 << 4):
        before, later = ([name for i, name in enumerate(TESTS_8) if some >> i & 1 == which] for which in (0, 1))
        yield *first, *before, '16', *later, '9'
        yield *first, *before, '16', '9', *later
    for i in range(4):
        yield '1', '2', *TESTS_7[:i], '16', *TESTS_7[i:], *last
        yield '1', '2', *TESTS_7[:i], *TESTS_7[i + 1:], '16', TESTS_7[i], *last
    yield '1', '16', '2', *TESTS_7, *last
    yield '16', *first, *last
    yield *TESTS_7, *TESTS_8, '16', '1', '2', '9'
    yield *first, *TESTS_8[:3], '16 places', TESTS_8[3], '16', '9'


def pair_slips():
    """Which two lines are compared, by where they stand: none; neighbours or all others; the first or the last with others, or not at all; those of a
    half, by parity, or opposite each other; 128 as a signed byte; the first or last so many, near ones, those of a block; and all pairs but one.
    Then neighbours, once the lines stand in an order that some of their multipliers, or a number, give."""
    pairs = lambda count: combinations(range(count), 2)
    such = lambda does: lambda count: ((i, j) for i, j in pairs(count) if does(i, j, count))
    places = [
        lambda count: (), such(lambda i, j, count: j == i + 1), such(lambda i, j, count: j > i + 1), such(lambda i, j, count: j - i in (1, count - 1)),
        such(lambda i, j, count: i == 0), such(lambda i, j, count: j == count - 1), such(lambda i, j, count: i > 0),
        such(lambda i, j, count: j < count - 1), such(lambda i, j, count: i > 0 and j < count - 1), such(lambda i, j, count: i > 0 or j < count - 1),
        such(lambda i, j, count: i + j == count - 1), such(lambda i, j, count: i < count // 2 <= j), such(lambda i, j, count: not i < count // 2 <= j),
        such(lambda i, j, count: j < count // 2), such(lambda i, j, count: i >= count // 2), such(lambda i, j, count: (i + j) % 2),
        such(lambda i, j, count: (i + j) % 2 == 0), such(lambda i, j, count: j == i + 1 and i % 2 == 0), such(lambda i, j, count: count < 128)]
    for most in (1, 2, 3, 4, 5, 16, 31, 32, 63, 64, 65, 100, 126, 127):
        places += [such(lambda i, j, count, most=most: j < most), such(lambda i, j, count, most=most: i >= count - most),
                   such(lambda i, j, count, most=most: j - i < most), such(lambda i, j, count, most=most: i // most == j // most)]
    for left in (*((count, *two) for count in range(2, 6) for two in pairs(count)), *((128, *two) for two in telling.FAR_TWINS)):
        places.append(such(lambda i, j, count, left=left: (count, i, j) != left))
    yield from (lambda lines, does=does: does(len(lines)) for does in places)
    some_of = [lambda line, some=some: [line[i] for i in range(6) if some >> i & 1] for some in range(63)]
    for number in (*some_of, sum, sorted, lambda line: [*map(abs, line)], lambda line: sum(map(abs, line))):
        in_order = lambda lines, number=number: sorted(range(len(lines)), key=lambda i: number(lines[i]))
        yield lambda lines, in_order=in_order: zip(in_order(lines), in_order(lines)[1:])


def key_slips():
    """What is compared of a line: some of its multipliers; one of them without its sign or as a remainder; all of them without sign or order; and
    numbers made of the six that different lines share."""
    for some in range(63):
        yield lambda line, some=some: [line[i] for i in range(6) if some >> i & 1]
    for i in range(6):
        yield lambda line, i=i: given.spoilt(line, i, abs(line[i]))
        yield lambda line, i=i: given.spoilt(line, i, (line[i] > 0) - (line[i] < 0))
        for modulus in range(1, 27):                                            # fewer bits or digits than 27 numbers need
            yield lambda line, i=i, modulus=modulus: given.spoilt(line, i, line[i] % modulus)
        if i < 5:
            yield lambda line, i=i: (*line[:i], *sorted(line[i:i + 2]), *line[i + 2:])
    yield from (
        sorted, sum, max, min, lambda line: sorted(map(abs, line)), lambda line: [*map(abs, line)], lambda line: [n > 0 for n in line],
        lambda line: max(line, opposite(line)), lambda line: max(line, line[::-1]), lambda line: max(line[i:] + line[:i] for i in range(6)),
        lambda line: sum(map(abs, line)), lambda line: sum(n * n for n in line), lambda line: (sum(line), sum(n * n for n in line)),
        lambda line: sum(i * n for i, n in enumerate(line, 1)), lambda line: reduce(mul, line), lambda line: reduce(xor, line),
        lambda line: ''.join(map(str, line)), lambda line: ''.join(str(abs(n)) for n in line), lambda line: line[:(*line, 0).index(0)])
    for turn in (1, -1):                                                        # rising powers, then falling ones
        number = lambda line, radix, turn=turn: sum((n + 13) * radix**i for i, n in enumerate(line[::turn]))
        for radix in range(27):
            yield lambda line, radix=radix, number=number: number(line, radix)
        for radix, bits in product((27, 32), (8, 15, 16, 24, 28)):
            yield lambda line, radix=radix, bits=bits, number=number: number(line, radix) % (1 << bits)
        for modulus in (127, 128, 251, 256, 997, 1000, 1009, 1024, 4096):
            yield lambda line, modulus=modulus, number=number: number(line, 27) % modulus
        yield lambda line, number=number: struct.pack('<f', number(line, 27))
        yield lambda line, turn=turn: reduce(or_, (n << 8 * i for i, n in enumerate(line[::turn])))       # bytes put together with their signs
        for bits in range(5):
            yield lambda line, turn=turn, bits=bits: reduce(or_, (n + 13 << bits * i for i, n in enumerate(line[::turn])))


def kind_slips():
    """Which twins count, by their admittances, the tides, the places, the frame and their multipliers; how many pairs; what else is taken for twins,
    rows, admittances or coefficients that are equal, or lines at an end; and another number."""
    yield from product(['counts'], (
        lambda line, a, b, places, frame: a == b, lambda line, a, b, places, frame: a != b,
        lambda line, a, b, places, frame: a[0] == b[0], lambda line, a, b, places, frame: a[0] != b[0],
        lambda line, a, b, places, frame: a[-1] == b[-1], lambda line, a, b, places, frame: a[-1] != b[-1],
        lambda line, a, b, places, frame: a == opposite(b), lambda line, a, b, places, frame: a != opposite(b),
        lambda line, a, b, places, frame: any(a), lambda line, a, b, places, frame: any(b), lambda line, a, b, places, frame: any(a + b),
        lambda line, a, b, places, frame: len(a) == 1, lambda line, a, b, places, frame: len(a) > 1, lambda line, a, b, places, frame: len(a) < 32,
        lambda line, a, b, places, frame: places, lambda line, a, b, places, frame: not places, lambda line, a, b, places, frame: len(places) > 1,
        lambda line, a, b, places, frame: len(places) < 3, lambda line, a, b, places, frame: any(n > 1 for n, _, _ in places),
        lambda line, a, b, places, frame: not places or frame == t.FIGURE or any(n > 1 for n, _, _ in places),
        lambda line, a, b, places, frame: frame == t.FIGURE, lambda line, a, b, places, frame: frame == t.MASS,
        lambda line, a, b, places, frame: any(line), lambda line, a, b, places, frame: not any(line), lambda line, a, b, places, frame: all(line),
        lambda line, a, b, places, frame: max(line) < 13, lambda line, a, b, places, frame: min(line) > -13,
        lambda line, a, b, places, frame: min(line) < 0, lambda line, a, b, places, frame: max(line) > 0))
    yield from product(['found'], (lambda pairs: pairs == 1, lambda pairs: pairs > 1, lambda pairs: pairs % 2, lambda pairs: pairs in (1, 2)))
    yield from product(['more'], (
        lambda lines, rows, places: by_set(rows), lambda lines, rows, places: any(one == two for one, two in zip(rows, rows[1:])),
        lambda lines, rows, places: by_set([max(row, opposite(row)) for row in rows]), lambda lines, rows, places: by_set([*zip(*rows)]),
        lambda lines, rows, places: any(len({*row}) < len(row) for row in rows), lambda lines, rows, places: not all(map(any, rows)),
        lambda lines, rows, places: not all(map(any, zip(*rows))), lambda lines, rows, places: any(by_set(quads) for _, _, quads in places),
        lambda lines, rows, places: by_set([sum(quads, ()) for _, _, quads in places]), lambda lines, rows, places: not all(map(any, lines)),
        lambda lines, rows, places: (13,) * 6 in lines, lambda lines, rows, places: (-13,) * 6 in lines, lambda lines, rows, places: len(lines) == 128))
    yield from product(['number'], (0, 7, 8, 9, 15, 17))


def twin_slips():
    """T-09 told by the stored calls from each rule with one piece changed; and T-01's, by which "equal records are allowed", from those that refuse
    equal records, or equal multipliers, with 16."""
    answered = [(does, field, does(*field)[0]) for name, does, field in values.lent[::-1] if name == 'ocean_tide']

    def told(rule):
        with patch.object(t, 'ocean', lambda N, C, S, data, phases, frame: ocean_number(rule, N, C, S, data, frame)):
            return any(does(*field) != number for does, field, number in answered)

    for own_key in (lambda line: line, lambda line: sum(n * 27**i for i, n in enumerate(line)), lambda line: [n & 31 for n in line]):
        expect('twin slips', told({**RIGHT_TWINS, 'key': own_key}), False)      # no two lines share these
    slips = *product(['order'], order_slips()), *product(['pairs'], pair_slips()), *product(['key'], key_slips()), *kind_slips()
    for k, (piece, wrong) in enumerate(slips):
        expect('twin slips', (k, piece, wrong, told({**RIGHT_TWINS, piece: wrong})), (k, piece, wrong, True))
    own, test = [one for one in values.lent if one[0] == 'own_lines'], t.records_test
    for alike in (by_set, lambda records: by_set([six for *six, _, _ in records])):
        with patch.object(t, 'records_test', lambda records, alike=alike: test(records) or 16 * alike(records)):
            expect('twin slips', any(does(*field)[0] == 16 for _, does, field in own), True)


# --- Step one ---

MOON = (0.0123000371, (t.RECTANGULAR, 2.1e8, -2.6e8, 1.1e8, sqrt(2.1e8 * 2.1e8 + 2.6e8 * 2.6e8 + 1.1e8 * 1.1e8)))
SUN = (332946.0487, (t.DIRECTION, 0.6, 0.0, 0.8, 1.496e11))


def by_latitude(bodies, love):
    """Equations 1 to 4 of 001 straight from latitude and longitude, with (2b) for the normalization, in counts."""
    legendre = {
        (2, 0): lambda s, c: (3 * s * s - 1) / 2, (2, 1): lambda s, c: 3 * s * c, (2, 2): lambda s, c: 3 * c * c,
        (3, 0): lambda s, c: (5 * s**3 - 3 * s) / 2, (3, 1): lambda s, c: c * (15 * s * s - 3) / 2,
        (3, 2): lambda s, c: 15 * s * c * c, (3, 3): lambda s, c: 15 * c**3}
    answer = {}
    for (n, m), P in legendre.items():
        normal = sqrt(factorial(n - m) * (2 * n + 1) * (1 if m == 0 else 2) / factorial(n + m))
        tide = 0
        for ratio, place in bodies:
            u, v, w = t.direction(place)
            lon, s, c = atan2(v, u), w, hypot(u, v)
            size = ratio * (6378136.3 / place[4])**(n + 1) / (2 * n + 1)
            tide += size * normal * P(s, c) * complex(cos(m * lon), -sin(m * lon))
        answer[n, m] = complex(*t.K[love][n, m]) * tide * 1e15
        if n == 2:
            answer[4, m] = t.K_PLUS[love][m] * tide * 1e15
    return {place: (value.real, -value.imag) for place, value in answer.items()}


def step_one_values():
    for _ in range(1000):
        moon, sun = given.moon(chance), given.sun(chance)
        for love in LOVES:
            C, S = random_field(4)
            hour, selection = reached(random_phases()), chance.one(0, 0, given.few_lines(chance))
            number, lines, C2, S2 = t.solid_tide(4, C, S, moon, sun, love, hour, selection)
            expect('step one', (number, lines), (0, f'{selection:b}'.count('1')))
            named, (second_c, second_s) = by_latitude((moon, sun), love), changes_of(t.step_two_corrections(hour, love, selection), 4)
            for n in range(5):
                for m in range(n + 1):
                    i, (dC, dS) = t.index(n, m), named.get((n, m), (0, 0))
                    dC -= t.PERMANENT[love] if (n, m) == (2, 0) else 0
                    error = max(abs(C2[i] - C[i] - second_c[i] - dC), abs(S2[i] - S[i] - second_s[i] - dS))
                    within('step one', error, 0.501)                            # the rounding to counts, and float noise
                    assert m > 0 or S2[i] == S[i]
                    assert (n, m) in named or (C2[i], S2[i]) == (C[i], S[i])
    for (n, m), (over, under) in t.N_SQUARED.items():
        near = Fraction(t.NORMAL[n, m])
        step = Fraction(nextafter(t.NORMAL[n, m], inf)) - near
        expect('step one', (near - step / 2)**2 < Fraction(over, under) < (near + step / 2)**2, True)
        expect('step one', Fraction(over, under), Fraction(factorial(n - m) * (2 * n + 1) * (1 if m == 0 else 2), factorial(n + m)))
    for decimal in (t.RADIUS, *(part for love in LOVES for part in (*sum(t.K[love].values(), ()), *t.K_PLUS[love]))):
        off = abs(Fraction(repr(decimal)) - Fraction(decimal))
        expect('step one', 2 * off < Fraction(nextafter(abs(decimal), inf)) - Fraction(abs(decimal)), True)     # no half between two floats


def step_one_refusals():
    field = [5] * 15, [6] * 15

    def answer(number, moon, sun):
        got, lines, C, S = t.solid_tide(4, *field, moon, sun, chance.one(*LOVES), reached(random_phases()), given.accepted_selection(chance))
        expect('step one', got, number)
        assert got == 0 or (lines, C, S) == (None, *field)

    faults = given.faulty_bodies()
    for number, fault in faults:
        answer(number, fault, SUN)
        answer(number, MOON, fault)
        answer(number, fault, chance.one(*faults)[1])                           # a faulty Sun never comes before the Moon
        for before, call in ((1, (3, *field)), (2, (4, [1 << 62] * 15, field[1])), (14, (4, *field))):
            expect('step one', t.solid_tide(*call, fault, fault, t.ELASTIC, given.START, 1 << 49), (before, None, *call[1:]))
    for number, first, second in ((3, (0, -1.0), (3, nan)), (3, (4, 1.0), (1, inf)), (4, (4, 1.0), (1, 7.0))):
        answer(number, given.spoilt_body(given.spoilt_body(SUN, *first), *second), SUN)     # 3 before 4 before 5 of one body

    answer(0, MOON, SUN)
    for r, ratio in product((1e8, 1e12), (5e-324, 1e-300, 1.0)):                # bounds pass, and the tiniest ratio
        answer(0, (ratio, (t.DIRECTION, 0.0, 0.0, 1.0, r)), (ratio, (t.RECTANGULAR, -r, 0.0, -0.0, r)))
    answer(0, (1e6, (t.DIRECTION, 5e-324, 0.0, 1.0, 1e12)), SUN)
    for end, beyond in ((1.0 + t.TINY, 2.0), (1.0 - t.TINY, 0.0)):              # length one: the ends themselves pass
        answer(0, (1.0, (t.DIRECTION, *telling.at_length_one(chance, end), 1e9)), SUN)
        answer(5, (1.0, (t.DIRECTION, *telling.at_length_one(chance, nextafter(end, beyond)), 1e9)), SUN)
    for u, v, w in ((0.6, 0.0, 0.8), (0.0, 0.0, 1.0), (1.0, 0.0, 0.0), (0.0, -0.6, -0.8)):
        near = (1e6, (t.DIRECTION, u, v, w, 1e8))
        answer(6, near, SUN)
        answer(6, SUN, near)
        answer(5, near, given.spoilt_body(SUN, 3, 0.5))
    bound_of_six()


def bound_of_six():
    """Each coefficient of degree 2 at 2^52 and at -2^52, refused, and half a count inside, where it passes."""
    for coefficient, love, sign in product(telling.COEFFICIENTS[:5], LOVES, (1, -1)):
        for size, number in ((t.COUNT_BOUND, 6), (t.COUNT_BOUND - 0.5, 0)):
            bodies = telling.at_the_bound(chance, coefficient, love, sign * size)
            expect('step one', t.step_one_corrections(*bodies, love)[0], number)
            expect('step one', telling.product_of(coefficient, *bodies, love), sign * size)
            expect('step one', all(dS == 0 for (n, m), (_, dS) in t.step_one_products(*bodies, love).items() if m == 0), True)


# --- One call for the solid tide ---

def check_solid(bodies, love, hour, selection, five, exact, N=4):
    """The call on one field: how many lines the selection names by its binary digits, and every entry. Less step one's correction each change is
    the five's, and less than a count from the exact sum of the lines named."""
    number, corrections = t.step_one_corrections(*bodies, love)
    C, S = random_field(N)
    got, lines, C2, S2 = t.solid_tide(N, C, S, *bodies, love, hour, selection)
    expect('solid tide', (number, got, lines), (0, 0, f'{selection:b}'.count('1')))
    of_c, of_s = differences(C, C2), differences(S, S2)
    for n, m, dC, dS in corrections:
        of_c[t.index(n, m)] -= dC
        of_s[t.index(n, m)] -= dS
    expect('solid tide', (of_c, of_s), changes_of(five, N))
    for value, total in zip((of_c[3], of_c[4], of_s[4], of_c[5], of_s[5]), exact, strict=True):
        within('solid tide', abs(value - total), 1, strict=True)


def some_bodies(love):
    """Two bodies that pass: any, two with a product at a half, two with one half a count inside a bound of 6, or two at ends of 4's ranges."""
    edge = lambda: (chance.one(5e-324, 1e-9, 0.1), given.placed(t.DIRECTION, *chance.one(*given.AXES), chance.one(1e8, 1e12)))
    drawn = chance.one(
        lambda: telling.pair(chance),
        lambda: (given.sun(chance), given.moon(chance)),
        lambda: telling.at_a_half(chance, chance.one(*telling.COEFFICIENTS), love),
        lambda: telling.at_the_bound(chance, chance.one(*telling.COEFFICIENTS[:5]), love, chance.one(1, -1) * (t.COUNT_BOUND - 0.5)),
        lambda: (edge(), edge()))
    return drawn()


def some_call(love):
    """Bodies, the model, a reached hour and a selection, all accepted."""
    return *some_bodies(love), love, reached(random_phases()), given.lines_or_none(chance)


def steps_in_turn(N, C, S, moon, sun, love, hour, selection):
    """Step one on a field, then step two on what that leaves: (the number that a field test between them gives, C after both, S after both)."""
    C, S = t.added(C, S, t.step_one_corrections(moon, sun, love)[1])
    number = t.field_test(N, C, S)
    return number, *t.added(C, S, t.by_place(t.step_two_corrections(hour, love, selection)))


def solid_tide():
    """"The correction is the sum of the two, added once": as by the steps in turn, but that what step one alone leaves is not tested."""
    for i in range(500):
        *bodies, love, hour, selection = some_call(LOVES[i % 2])
        five, exact = t.step_two_corrections(hour, love, selection), t.step_two_exact(hour.phases, love, selection)
        check_solid(bodies, love, hour, selection, five, exact, 4 if i % 5 else chance.between(4, 60))
    in_turn = Counter()
    for i in range(400):
        call, N = some_call(LOVES[i % 2]), 4 if i % 5 else chance.between(4, 12)
        field = chance.one(given.varied_field(chance, N), (N, *random_field(N)))
        number, C, S = steps_in_turn(*field, *call)
        expect('solid tide', t.solid_tide(*field, *call), (0, f'{call[-1]:b}'.count('1'), C, S))
        again = t.field_test(N, C, S)
        expect('solid tide', t.solid_tide(N, C, S, *call)[0], again)
        in_turn[number, again] += 1
    expect('solid tide', min(in_turn[0, 0], in_turn[2, 2]) > 100, True)
    day_call = *telling.DAY_BODIES, t.ANELASTIC, t.set_hour(telling.DAY_PHASES), t.ALL_LINES
    N, C, S = telling.day_field()
    for number_in_turn, number in ((2, 0), (2, 0), (2, 2)):                     # out of the range by step one alone, then by both
        expect('solid tide', steps_in_turn(N, C, S, *day_call)[0], number_in_turn)
        got, _, C, S = t.solid_tide(N, C, S, *day_call)
        expect('solid tide', got, number)
    for i in range(200):
        *one, _, _ = some_call(LOVES[i % 2])
        field = 4, *random_field(4)
        alone = t.solid_tide(*field, *one, reached(random_phases()), 0)         # no lines named: step one alone
        expect('solid tide', alone, (0, 0, *t.added(*field[1:], t.step_one_corrections(*one)[1])))
        _, _, C, S = t.solid_tide(*field, *one, reached(random_phases()), given.accepted_selection(chance))
        expect('solid tide', (C[6:], S[6:]), (alone[2][6:], alone[3][6:]))      # degrees 3 and 4 are step one's
        expect('solid tide', [S[t.index(n, 0)] for n in range(5)], [field[2][t.index(n, 0)] for n in range(5)])
    solid_extremes()
    solid_orders()


def solid_extremes():
    """No sum leaves signed 64 bits: entry, step one and step two at their ends, of one sign, added up in any order."""
    expect('solid tide', [t.nearest_float(sign * (t.COUNT_BOUND - 0.5)) for sign in (1, -1)], [1 << 52, -(1 << 52)])
    most_one = (1 << 52) - min(t.PERMANENT.values())
    most_two = max(200 * sum(abs(ip) + abs(op) for first, *_, ip, op in printed(love) if first == band) for love in LOVES for band in range(3))
    expect('solid tide', (most_one < 1 << 53, most_two < 1 << 21, (1 << 60) + most_one + most_two < 1 << 61), (True, True, True))
    expect('solid tide', most_two << 30 < 1 << 63, True)                        # the sum that is rounded, and its products
    quarters = [t.set_hour(phases) for phases in product((0, 1 << 30, 1 << 31, 3 << 30), (0, 1 << 30, 1 << 31, 3 << 30), *[(0,)] * 4)]
    for (which, coefficient), love, sign in product(enumerate(telling.COEFFICIENTS[:5]), LOVES, (1, -1)):
        hours = *quarters, at_ends(which, sign, love)
        hour = max(hours, key=lambda one: sign * t.step_two_corrections(one, love, t.ALL_LINES)[which])
        bodies = telling.at_the_bound(chance, coefficient, love, sign * (t.COUNT_BOUND - 0.5))
        number, _, *lists = t.solid_tide(4, [sign << 60] * 15, [sign << 60] * 15, *bodies, love, hour, t.ALL_LINES)
        n, m, letter = coefficient
        permanent = t.PERMANENT[love] if m == 0 else 0
        entry = (sign << 60) + (sign << 52) - permanent + t.step_two_corrections(hour, love, t.ALL_LINES)[which]
        expect('solid tide', (number, lists['CS'.index(letter)][t.index(n, m)]), (0, entry))
        expect('solid tide', all(abs(one) < 1 << 61 for entries in lists for one in entries), True)


def at_ends(which, sign, love):
    """A record written by hand, each value at an end of its 32 bits, so that this one of the five is as far from zero as it can be, of this sign."""
    end = lambda factor: given.MOST_32 if sign * factor > 0 else given.LEAST_32
    by_sine, by_cosine = ([part[which] for part in line_parts([wave] * 49, love)] for wave in ((1, 0), (0, 1)))
    return t.Hour(NONE, tuple(map(end, by_cosine)), tuple(map(end, by_sine)))


def solid_orders():
    """Every set of faults: the number that is first in the order is answered, and nothing changed."""
    expect('orders', given.SOLID_ORDER, (1, 2, 14, 3, 4, 5, 3, 4, 5, 6))
    first_of = lambda faults, places: next((given.SOLID_ORDER[i] for i in places if i in faults), 0)
    for some, love in product(range(1 << 10), LOVES):
        faults = [i for i in range(10) if some >> i & 1]
        (N, C, S), moon, sun, selection = given.solid_with(chance, faults)
        each = t.field_test(N, C, S), t.selection_test(selection), t.body_test(moon), t.body_test(sun)
        expect('orders', each, tuple(first_of(faults, places) for places in (range(2), range(2, 3), range(3, 6), range(6, 9))))
        got, lines, C2, S2 = t.solid_tide(N, C, S, moon, sun, love, reached(random_phases()), selection)
        expect('orders', got, first_of(faults, range(10)))
        assert (lines, C2, S2) == (None, C, S) if faults else lines is not None


def day():
    """The worked day: its counts were made with doubles, apart from this program."""
    number, corrections = t.step_one_corrections(*telling.DAY_BODIES, t.ANELASTIC)
    expect('day', (number, {(n, m): both for n, m, *both in corrections if n == 2}), (0, telling.DAY_STEP_ONE))
    hour = t.set_hour(telling.DAY_PHASES)
    expect('day', t.step_two_corrections(hour, t.ANELASTIC, t.ALL_LINES), telling.DAY_STEP_TWO)
    number, lines, C, S = t.solid_tide(4, [0] * 15, [0] * 15, *telling.DAY_BODIES, t.ANELASTIC, hour, t.ALL_LINES)
    expect('day', (number, lines, C[3:6], S[3:6]), (0, 49, [90640, -3410551, 6229483], [0, 1284180, -4327943]))


# --- Sines kept with the hour ---

# Which printed lines have each argument, by the digits of their numbers.
HAS = [[digit != ('5' if at else '0') for digit in (f'{number:06d}'[at] for number, _, _ in t.PRINTED)] for at in range(6)]


@lru_cache(1 << 12)
def afresh(phases):
    """The record of these phases, its values by the digits of the lines' numbers."""
    sines, cosines = zip(*line_waves(phases, t.sine, t.cosine))
    return t.Hour(phases, cosines, sines)


def moved(hour, at, amount):
    return t.move_hour(hour, t.ARGUMENTS[at], amount)


def moved_by_digits(hour, at, amount):
    """The record after a move: the phase's 32 bits, the lines that have the argument afresh, all others as they were."""
    new = afresh(tuple(given.spoilt(hour.phases, at, (hour.phases[at] + amount) & U32)))
    pick = lambda of_new, of_held: tuple(a if has else b for has, a, b in zip(HAS[at], of_new, of_held, strict=True))
    return t.Hour(new.phases, pick(new.cosines, hour.cosines), pick(new.sines, hour.sines))


def hours_by_hand():
    """The start; and quarter turns, at which each wave is known."""
    one, none = 1 << 30, (0,) * 49
    expect('hours', t.ARGUMENTS, ('tau', 's', 'h', 'p', 'np', 'ps'))
    expect('hours', t.start_hour(), (NONE, (one,) * 49, none))
    k1, node, s2 = 15, 26, 48                                                   # tau + s, N', 2 tau
    lines = lambda hour: [(hour.cosines[i], hour.sines[i]) for i in (k1, node, s2)]
    for amount, sign in ((one, 1), (-one, -1)):
        for argument, wanted in (
                ('tau', [(0, sign * one), (one, 0), (-one, 0)]), ('s', [(0, sign * one), (one, 0), (one, 0)]),
                ('np', [(one, 0), (0, sign * one), (one, 0)]), ('h', [(one, 0)] * 3), ('p', [(one, 0)] * 3), ('ps', [(one, 0)] * 3)):
            hour = t.move_hour(t.start_hour(), argument, amount)
            expect('hours', (hour.phases, lines(hour)), (tuple(amount & U32 if name == argument else 0 for name in t.ARGUMENTS), wanted))
    expect('hours', [sum(has) for has in HAS], [28, 37, 19, 22, 17, 5])
    expect('hours', [any(of_line) for of_line in zip(*HAS, strict=True)], [True] * 49)


def hours():
    """"After any calls from the start, the kept values equal those worked out afresh from its phases"; and what a move does to any record."""
    hours_by_hand()
    for _ in range(80):                                                         # any calls from the start
        hour = t.start_hour()
        for kind, *numbers in (given.set_or_move(chance) for _ in range(chance.between(1, 40))):
            if kind == given.SET:
                phases, hour = numbers, t.set_hour(numbers)
            else:
                at, amount = numbers
                phases, hour = given.spoilt(hour.phases, at, (hour.phases[at] + amount) & U32), moved(hour, at, amount)
            expect('hours', hour, afresh(tuple(phases)))
    any_record = lambda: chance.one(given.any_hour, lambda chance: t.set_hour(given.phases(chance)))(chance)
    amounts = *given.AMOUNTS, *given.EIGHTHS, 2, -2
    for at, amount in product(range(6), amounts):                               # from the turn's ends, past them and beside them, and from anywhere
        for before in (0, U32, 1, -amount & U32, -amount - 1 & U32, 1 - amount & U32, given.phase(chance)):
            phases = given.spoilt(random_phases(), at, before)
            hour = moved(t.set_hour(phases), at, amount)
            expect('hours', hour, afresh(tuple(given.spoilt(phases, at, (before + amount) % 2**32))))
    for at, _ in product(range(6), range(60)):
        hour, a, b, other = any_record(), given.amount(chance), given.amount(chance), chance.below(6)
        expect('hours', moved(hour, at, a), moved_by_digits(hour, at, a))
        expect('hours', moved(moved(hour, at, a), at, b), moved(hour, at, given.in_32(a + b)))
        expect('hours', moved(moved(hour, at, a), at, given.in_32(-a)), moved(hour, at, 0))
        expect('hours', moved(moved(hour, at, a), other, b), moved(moved(hour, other, b), at, a))
        expect('hours', moved(t.set_hour(hour.phases), at, 0), t.set_hour(hour.phases))             # by nothing, on a reached record
        for each in range(6):                                                   # every line has an argument
            hour = moved(hour, each, 0)
        expect('hours', hour, t.set_hour(hour.phases))
    for _ in range(60):
        phases, steps = random_phases(), []
        while len(steps) < 2:                                                   # not by a set alone
            steps = given.steps_to(chance, phases)
        expect('hours', given.hour_after(steps), t.set_hour(phases))
    held, right, wrong = given.written(telling.HELD), (MOVE, 5, 1), (MOVE, 6, 1)                   # the last step's answer at the C boundary
    for steps, number in (([], 0), ([held], 0), ([wrong], 100), ([held, wrong], 100), ([wrong, right], 0), ([right, wrong], 100), ([wrong, held], 0)):
        right_ones = [step for step in steps if step != wrong]
        expect('hours', values.BOUNDARY['hour_answer'](steps), (number, given.hour_after(right_ones)))
    for steps in telling.wraps():                                               # each argument past the end, and past the start
        (_, *before), (_, at, up), (_, other, down) = steps
        expect('hours', (before[at] + up > U32, before[other] + down < 0), (True, True))
    values_held = {*telling.HELD.cosines, *telling.HELD.sines}
    for at, amount in ((0, 0), *enumerate(telling.HELD_AMOUNTS)):
        new = afresh(moved(telling.HELD, at, amount).phases)
        expect('hours', (len(values_held), values_held & {*new.cosines, *new.sines}), (98, set()))


def check_kept(hour, love, selection, N=4):
    """A call with any record: step one's corrections, and for step two "the same sum over the values it holds". Answers the five."""
    sums = named_sums(line_parts(zip(hour.sines, hour.cosines), love), selection)
    five = tuple(away(Fraction(total, 1 << 30)) for total in sums)
    bodies = telling.pair(chance)
    C, S = random_field(N)
    number, lines, C2, S2 = t.solid_tide(N, C, S, *bodies, love, hour, selection)
    _, _, C1, S1 = t.solid_tide(N, C, S, *bodies, love, given.START, 0)
    expect('kept values', (number, lines, differences(C1, C2), differences(S1, S2)), (0, f'{selection:b}'.count('1'), *changes_of(five, N)))
    expect('kept values', t.solid_tide(N, C, S, *bodies, love, hour._replace(phases=random_phases()), selection), (0, lines, C2, S2))
    expect('kept values', t.step_two_corrections(hour, love, selection), ANEW['step_two_corrections'](hour, love, selection))
    assert love == t.ANELASTIC or five[0] == 0
    return five


def kept_values():
    """Records written by hand: the values are read, whatever they are, and the phases are not."""
    most, least = given.MOST_32, given.LEAST_32
    # the tenths add up to 4507 and 4501, diurnal; ip 101 and op 145; -15
    for love, long_period, diurnal in ((t.ELASTIC, 0, 4507), (t.ANELASTIC, 101 - 145, 4501)):
        two = 200 * diurnal
        expect('kept values', check_kept(telling.throughout(least, least), love, t.ALL_LINES), (-200 * long_period, -two, -two, 3000, -3000))
        expect('kept values', check_kept(telling.throughout(most, most), love, t.ALL_LINES), (200 * long_period, two, two, -3000, 3000))
        expect('kept values', check_kept(telling.throughout(1 << 30, 0), love, t.ALL_LINES), t.step_two_corrections(given.START, love, t.ALL_LINES))
        expect('kept values', check_kept(telling.throughout(0, 0), love, t.ALL_LINES), (0,) * 5)
    for i, love in product(range(49), LOVES):
        hour, (number, one, two) = telling.one_line(i), t.PRINTED[i]
        used = {t.ELASTIC: (one, 0), t.ANELASTIC: (two, 0)}[love] if number > 100_000 else (one, two) if love == t.ANELASTIC else (0, 0)
        ip, op = (200 * tenths for tenths in used)                              # the cosine nearly 2, the sine -2
        five = [(ip + op, 0, 0, 0, 0), (0, -ip, ip, 0, 0), (0, 0, 0, ip, ip)][number // 100_000]
        for selection in (t.ALL_LINES, 1 << i, given.accepted_selection(chance) | 1 << i):
            expect('kept values', check_kept(hour, love, selection), five)
        expect('kept values', check_kept(hour, love, t.ALL_LINES ^ 1 << i), (0,) * 5)
    for which, sign, love in product(range(5), (1, -1), LOVES):
        check_kept(at_ends(which, sign, love), love, chance.one(t.ALL_LINES, t.MAJOR_LINES, given.accepted_selection(chance)))
    for i in range(400):
        check_kept(given.any_hour(chance), LOVES[i % 2], chance.one(t.ALL_LINES, given.lines_or_none(chance)), 4 if i % 5 else chance.between(4, 60))
    for i in range(100):                                                        # a value's sign reversed, all of them: each correction's too
        hour = given.any_hour(chance)
        hour = t.Hour(hour.phases, *(tuple(max(value, -most) for value in part) for part in hour[1:]))
        other = t.Hour(hour.phases, opposite(hour.cosines), opposite(hour.sines))
        call = LOVES[i % 2], given.accepted_selection(chance)
        expect('kept values', t.step_two_corrections(other, *call), opposite(t.step_two_corrections(hour, *call)))
    for i in range(60):                                                         # one hour for several fields
        hour, love, selection = given.any_hour(chance), LOVES[i % 2], given.accepted_selection(chance)
        expect('kept values', len({check_kept(hour, love, selection, N) for N in (4, 5, chance.between(4, 12), 4)}), 1)


def hour_by(rule, steps):
    """T-08's record after the steps by a rule that can be changed: the start; which argument a number names; the phases that a set or a move
    leaves, and from which it works the values out; the lines that get them; and what a line gets of the new pair and the one held."""
    hour = rule['start']
    for kind, *numbers in steps:
        if kind == given.WRITE:
            hour = t.Hour(*(tuple(numbers[first:end]) for first, end in ((0, 6), (6, 55), (55, 104))))
            continue
        call = tuple(numbers) if kind == given.SET else (rule['argument'](numbers[0]), numbers[1])
        if call[0] is None:
            continue
        phases = rule['phases', kind](hour.phases, call)
        new = afresh(rule['from'](hour.phases, phases))
        pairs = []
        for i, (pair, held) in enumerate(zip(zip(*new[1:]), zip(*hour[1:]), strict=True)):
            pairs.append(rule['values', kind](pair, held) if rule['lines', kind](i, hour.phases, call) else held)
        hour = t.Hour(phases, *zip(*pairs))
    return hour


SET, MOVE = given.SET, given.MOVE
RIGHT_HOUR = {
    'start': afresh(NONE), 'argument': lambda number: number if number < 6 else None, 'from': lambda held, new: new, 'read': lambda hour: hour,
    ('phases', SET): lambda held, new: new, ('lines', SET): lambda i, held, new: True, ('values', SET): lambda new, held: new,
    ('phases', MOVE): lambda held, call: tuple(given.spoilt(held, call[0], (held[call[0]] + call[1]) & U32)),
    ('lines', MOVE): lambda i, held, call: HAS[call[0]][i], ('values', MOVE): lambda new, held: new}
LINE_BANDS = [[number // 100_000 == first for number, _, _ in t.PRINTED] for first in range(3)]
OTHERS = [(at, other) for at, other in product(range(6), repeat=2) if at != other]


def start_slips():
    """Zeros kept, the two exchanged or equal, other phases, other signs; and one value another one. No tide shows a cosine where ip is 0."""
    zeros, ones, quarter = (0,) * 49, (1 << 30,) * 49, (1 << 30,) * 6
    for two in ((zeros, zeros), (zeros, ones), (ones, ones), (opposite(ones), zeros)):
        yield 'start', t.Hour(NONE, *two), True
    for wrong in (afresh(quarter), t.Hour(quarter, ones, zeros)):
        yield 'start', wrong, True
    for i in range(49):
        yield 'start', t.Hour(NONE, tuple(given.spoilt(ones, i, 0)), zeros), t.PRINTED[i][1] != 0
        yield 'start', t.Hour(NONE, ones, tuple(given.spoilt(zeros, i, 1 << 30))), True


def phase_slips():
    """Phases: one not replaced, added to, exchanged with the next; another one moved, all of them; and the amount read or added in another way. No
    tide shows a unit."""
    yield ('phases', SET), lambda held, new: held, True
    yield ('phases', SET), lambda held, new: new[::-1], True
    yield ('phases', SET), lambda held, new: tuple((one + two) & U32 for one, two in zip(held, new)), True
    for at in range(6):
        yield ('phases', SET), lambda held, new, at=at: tuple(given.spoilt(new, at, held[at])), True
        if at < 5:
            yield ('phases', SET), lambda held, new, at=at: (*new[:at], new[at + 1], new[at], *new[at + 2:]), True
    move = RIGHT_HOUR['phases', MOVE]
    yield ('phases', MOVE), lambda held, call: tuple((phase + call[1]) & U32 for phase in held), True
    for at, other in OTHERS:
        yield ('phases', MOVE), lambda held, call, at=at, other=other: move(held, (other, call[1]) if call[0] == at else call), True
    added = (
        lambda phase, amount: phase, lambda phase, amount: amount & U32, lambda phase, amount: phase - amount & U32,
        lambda phase, amount: phase + abs(amount) & U32, lambda phase, amount: phase + (amount & 0x7fffffff) & U32,
        lambda phase, amount: phase + (amount + (1 << 15) & 0xffff) - (1 << 15) & U32,                  # 16 bits of it
        lambda phase, amount: phase + amount & 0x7fffffff,
        lambda phase, amount: min(phase + (amount & U32), U32),                                         # taken as unsigned, clamped
        lambda phase, amount: min(phase + amount, U32) & U32, lambda phase, amount: max(phase + amount, 0) & U32,
        lambda phase, amount: min(max(phase + amount, 0), U32),
        lambda phase, amount: phase + (amount & U32), lambda phase, amount: phase + amount,             # not wrapped
        lambda phase, amount: phase + amount if 0 <= phase + amount <= U32 else phase)                  # not moved where it would wrap
    for at, wrong in product(range(6), added):                                  # of one argument alone
        yield ('phases', MOVE), lambda held, call, at=at, wrong=wrong: (
            tuple(given.spoilt(held, at, wrong(held[at], call[1]))) if call[0] == at else move(held, call)), wrong not in added[-3:-1]
    most, least = given.MOST_32, given.LEAST_32
    for end, instead, shown in ((least, 0, True), (most, 0, True), (least, -most, False), (1, 0, False), (-1, 0, False), (-1, 1, False)):
        yield ('phases', MOVE), lambda held, call, end=end, instead=instead: move(held, (call[0], instead) if call[1] == end else call), shown
    yield 'from', lambda held, new: held, True


def value_slips():
    """Values: lines left that should get new ones, one, those of a band or of an argument; lines that should not; and only the cosine or the sine,
    or one for the other."""
    has = RIGHT_HOUR['lines', MOVE]
    changed = lambda i, held, new: any(HAS[at][i] and held[at] != new[at] for at in range(6))
    for wrong in (lambda i, held, new: False, lambda i, held, new: held != new, changed,
                  *(lambda i, held, new, band=band: band[i] for band in (*LINE_BANDS, *HAS)),
                  *(lambda i, held, new, band=band: not band[i] for band in LINE_BANDS),
                  *(lambda i, held, new, left=left: i != left for left in range(49))):
        yield ('lines', SET), wrong, True
    multiplier = lambda i, call: t.MULTIPLIERS[i][call[0]]
    for wrong in (lambda i, held, call: False, lambda i, held, call: True, lambda i, held, call: not has(i, held, call),
                  lambda i, held, call: has(i, held, call) and call[1] != 0,
                  lambda i, held, call: multiplier(i, call) > 0, lambda i, held, call: multiplier(i, call) < 0,
                  lambda i, held, call: abs(multiplier(i, call)) == 1,
                  *(lambda i, held, call, band=band: has(i, held, call) and band[i] for band in LINE_BANDS),
                  *(lambda i, held, call, band=band: has(i, held, call) and not band[i] for band in LINE_BANDS),
                  *(lambda i, held, call, band=band: has(i, held, call) or band[i] for band in LINE_BANDS),
                  *(lambda i, held, call, two=two: has(i, held, [two[1]] if call[0] == two[0] else call) for two in OTHERS),
                  *(lambda i, held, call, one=one: has(i, held, call) != ((call[0], i) == one) for one in product(range(6), range(49)))):
        yield ('lines', MOVE), wrong, True
    for kind, wrong in product((SET, MOVE), (
            lambda new, held: (held[0], new[1]), lambda new, held: (new[0], held[1]), lambda new, held: new[::-1],
            lambda new, held: (new[0],) * 2, lambda new, held: (new[1],) * 2, lambda new, held: (new[0], -new[1]), lambda new, held: (-new[0], new[1]))):
        yield ('values', kind), wrong, True


def reading_slips():
    """What the solid tide reads: values of the phases instead, all, cosines or sines, a band's or a line's; another line's; and other numbers."""
    each = lambda does: lambda hour: t.Hour(hour.phases, *map(does, hour[1:]))
    of_line = lambda lines: lambda hour: t.Hour(hour.phases, *(
        tuple(new if one else held for one, new, held in zip(lines, *two)) for two in zip(afresh(hour.phases)[1:], hour[1:])))
    yield from (
        lambda hour: afresh(hour.phases),
        lambda hour: hour._replace(cosines=afresh(hour.phases).cosines), lambda hour: hour._replace(sines=afresh(hour.phases).sines),
        *(of_line(band) for band in LINE_BANDS), *(of_line([i == line for i in range(49)]) for line in range(49)),
        lambda hour: hour._replace(cosines=hour.sines, sines=hour.cosines),
        lambda hour: hour._replace(sines=hour.cosines), lambda hour: hour._replace(cosines=hour.sines),
        lambda hour: hour._replace(cosines=opposite(hour.cosines)), lambda hour: hour._replace(sines=opposite(hour.sines)),
        each(lambda values: values[1:] + values[:1]), each(lambda values: values[-1:] + values[:-1]),
        *(each(lambda values, i=i: (*values[:i], values[i + 1], values[i], *values[i + 2:])) for i in range(48)),
        each(lambda values: tuple(min(value, 1 << 30) for value in values)), each(lambda values: tuple(max(value, -1 << 30) for value in values)),
        each(lambda values: tuple(value & U32 for value in values)),
        # the sine's negative in 32 bits, and clamped there
        lambda hour: hour._replace(sines=tuple(1 << 31 if value == given.LEAST_32 else value for value in hour.sines)),
        lambda hour: hour._replace(sines=tuple(max(value, -given.MOST_32) for value in hour.sines)))


def argument_slips():
    """Which number names an argument, at the C boundary."""
    below_six = RIGHT_HOUR['argument']
    yield from (lambda number: number % 6, lambda number: min(number, 5), lambda number: 0 if number > 5 else number,
                lambda number: 0 if number == 6 else below_six(number), lambda number: None if number == 5 else below_six(number),
                lambda number: 0 if number >= 1 << 31 else below_six(number),
                *(lambda number, bits=bits: below_six(number % (1 << bits)) for bits in (3, 8, 16, 31)))


def hour_slips():
    """T-08 told by the stored calls from each rule with one piece changed: the record by the hours alone, and where it shows by the solid tides
    alone; what is read of it by the solid tides; and what a number names by the hours in words."""
    slips = [(piece, wrong, {'hours', 'tides'} if shown else {'hours'}) for piece, wrong, shown in (*start_slips(), *phase_slips(), *value_slips())]
    slips += [('read', wrong, {'tides'}) for wrong in reading_slips()] + [('argument', wrong, {'in words'}) for wrong in argument_slips()]
    hours, in_words = ([(steps, given.hour_after(steps)) for steps in stored] for stored in (values.hours, values.hours_in_words))
    answered = [(does, field, does(*field)) for name, does, field in values.lent[::-1] if name == 'solid_tide']
    accepted, corrections = [one for one in answered if one[2][0] == 0], t.step_two_corrections

    def told(rule):
        """Which calls answer another record, or leave another field, by the rule."""
        with patch.object(given, 'hour_after', lambda steps: hour_by(rule, steps)), \
                patch.object(t, 'step_two_corrections', lambda hour, *call: corrections(rule['read'](hour), *call)):
            other = lambda stored: any(given.hour_after(steps) != hour for steps, hour in stored)
            tides = any(does(*field) != answer for does, field, answer in accepted)
            return {name for name, differ in (('hours', other(hours)), ('in words', other(in_words)), ('tides', tides)) if differ}

    expect('hour slips', told(RIGHT_HOUR), set())
    for piece, wrong, by in slips:
        expect('hour slips', (piece, wrong, by - told({**RIGHT_HOUR, piece: wrong})), (piece, wrong, set()))


# --- Signs reversed ---

def reversed_lines():
    """Every amplitude of the tables reversed: each sum and correction of step two is, at halves too; and step two's part of the call."""
    tables = {name: tuple((number, -one, -two) for number, one, two in getattr(t, name)) for name in ('DIURNAL', 'LONG_PERIOD', 'SEMIDIURNAL')}
    tried = []
    for love, phases in product(LOVES, (*telling.tie_phases(), telling.DAY_PHASES, telling.LINE_PHASES, *(random_phases() for _ in range(40)))):
        chosen = t.ALL_LINES, t.MAJOR_LINES, *given.BANDS, 1 << chance.below(49), given.accepted_selection(chance), given.accepted_selection(chance)
        tried += [(t.set_hour(phases), love, selection) for selection in chosen]
    bodies, met = telling.pair(chance), set()
    alone = {love: t.solid_tide(*ZEROS, *bodies, love, given.START, 0)[2:] for love in LOVES}

    def answer(hour, love, selection):
        *_, C, S = t.solid_tide(*ZEROS, *bodies, love, hour, selection)
        sums = t.step_two_sums(hour, love, selection)
        return sums, t.step_two_corrections(hour, love, selection), *map(differences, alone[love], (C, S))

    before = [answer(*one) for one in tried]
    with patch.multiple(t, **tables):
        after = [answer(*one) for one in tried]
    for one, (sums, five, of_c, of_s), other in zip(tried, before, after, strict=True):
        expect('reversed lines', other, (opposite(sums), opposite(five), [*opposite(of_c)], [*opposite(of_s)]))
        expect('reversed lines', (five, of_c, of_s), (noting(met)['step_two_corrections'](*one), *changes_of(five, 4)))
    expect('reversed lines', every_half('step two') - met, set())


def reversed_records():
    """ip and op of every record reversed: each correction is, at halves too; and a list that is refused is refused with the same number."""
    ties = [*telling.own_line_ties(), *telling.band_ties(), *telling.small_records()]
    ties += [telling.at_a_tie(chance, *one, beside)[:2] for one, beside, _ in product(telling.SUMS, (0, 1), range(8))]
    reverse = lambda records: [(*six, -ip, -op) for *six, ip, op in records]
    met = set()
    for records, phases in (*ties, *((given.records(chance, chance.below(65)), random_phases()) for _ in range(300))):
        five = t.own_line_corrections(records, phases)
        expect('reversed records', five, noting(met)['own_line_corrections'](records, phases))
        expect('reversed records', t.own_line_corrections(reverse(records), phases), opposite(five))
        expect('reversed records', t.own_lines(*ZEROS, reverse(records), phases), (0, *changes_of(opposite(five), 4)))
    expect('reversed records', every_half('own lines') - met, set())
    for count in (1, 2, 64, 65, 200):
        records = given.faulty_records(chance, count)
        expect('reversed records', (t.records_test(records), t.records_test(reverse(records))), (12, 12) if count > 64 else (13, 13))


def reversed_sheet(lines, rows, places):
    """The sheet with the sign of every coefficient reversed, in 32 bits: -2^31 stays."""
    in_32 = lambda count: (count + (1 << 31)) % (1 << 32) - (1 << 31)
    return lines, rows, [(n, m, [tuple(in_32(-count) for count in quad) for quad in quads]) for n, m, quads in places]


def tied_sheet(full):
    """A sheet whose admittances are multiples of 500,000. At quarter turns about one correction in two is a half; at other phases about one factor
    in two, and where there are 32 tides of full size these show."""
    lines, rows, places = given.sheet(chance, chance.between(1, 6), 32 if full else chance.between(1, 4), chance.between(1, 8))
    rows = [[0] * len(lines) for _ in rows]
    for row, _ in product(rows, range(8)):
        row[chance.below(len(lines))] += chance.one(500_000, -500_000)
    sized = lambda count: chance.one(1, -1) << 24 if full and count else count
    return lines, rows, [(n, m, [tuple(map(sized, quad)) for quad in quads]) for n, m, quads in places]


def reversed_sheets():
    """Every coefficient reversed: each correction is, where either rounding is given halves too. With every admittance reversed likewise; with both
    none is. And a sheet that is refused is refused with the same number."""
    ties = [*telling.factor_ties((0, 1, 2, 3, 900, 901)), *telling.large_factor_ties(), *telling.correction_ties((1, 3)),
            *telling.beside_correction_ties(), *telling.tied_throughout()]
    tried = [(t.read_sheet(data)[1], phases) for data, phases in ties]
    tried += [(tied_sheet(i % 4 == 0), tuple(chance.below(4) << 30 for _ in range(6))) for i in range(80)]
    tried += [(tied_sheet(i % 2 == 0), random_phases()) for i in range(80)]
    tried += [(given.sheet(chance, chance.between(1, 6), chance.between(1, 4), chance.between(0, 8)), random_phases()) for _ in range(200)]
    met = set()
    for (sheet, phases), frame in product(tried, FRAMES):
        lines, rows, places = sheet
        other = lines, [[-admittance for admittance in row] for row in rows], places
        answers = [t.ocean(12, *[[0] * 91] * 2, write_sheet(*one), phases, frame) for one in (
            sheet, reversed_sheet(*sheet), other, reversed_sheet(*other))]
        number, C, S = answers[0]
        reverse = 0, [*opposite(C)], [*opposite(S)]
        expect('reversed sheets', (number, answers[1:]), (0, [reverse, reverse, answers[0]]))
        expect('reversed sheets', t.ocean_corrections(sheet, phases, frame), noting(met)['ocean_corrections'](sheet, phases, frame))
    expect('reversed sheets', every_half('factor', 'ocean tide') - met, set())
    numbers = Counter()
    lines, *rest = given.SMALL
    for sheet in (given.SMALL, (lines[:1] * 2, *rest), *given.faulty_sheets()):
        two = write_sheet(*sheet), write_sheet(*reversed_sheet(*sheet))
        for changed, N in product((lambda data: data, lambda data: data[:-1], lambda data: data + b'\0'), (4, 5, 12)):
            number, other = (t.sheet_test(changed(data), N)[0] for data in two)
            expect('reversed sheets', other, number)
            numbers[number] += 1
    expect('reversed sheets', sorted(numbers), [0, 7, 8, 9, 16])
    for i in range(4):                                                          # the one count that has no negative
        least = given.SMALL[0], [[0, 0]], [(2, 2, [tuple(given.spoilt((0,) * 4, i, -(1 << 31)))])]
        expect('reversed sheets', (reversed_sheet(*least), t.sheet_test(write_sheet(*least), 12)), (least, (8, None)))


def turned_bodies():
    """Both bodies one or two quarter turns further on, or beyond the equator: step one's corrections turn with them, at halves too. So every one but
    those of C20 and C40 is reversed by a turn."""
    met = set()
    turns = (lambda u, v, w: (-v, u, w)), (lambda u, v, w: (-u, -v, w)), (lambda u, v, w: (u, v, -w))
    tried = [(love, telling.at_a_half(chance, one, love)) for one, love, _ in product(telling.COEFFICIENTS, LOVES, range(8))]
    small = product(telling.COEFFICIENTS[:5], LOVES, telling.SMALL_HALVES)
    for love, bodies in (*tried, *((love, telling.at_a_small_half(chance, one, love, goal)) for one, love, goal in small)):
        number, corrections = t.step_one_corrections(*bodies, love)
        expect('turned bodies', (number, corrections), noting(met)['step_one_corrections'](*bodies, love))
        for k, turn in enumerate(turns):
            number, after = t.step_one_corrections(*((ratio, (kind, *turn(*axes), r)) for ratio, (kind, *axes, r) in bodies), love)
            wanted = []
            for n, m, dC, dS in corrections:
                if k < 2:                                                       # m times the turn
                    dC, dS = ((dC, dS), (-dS, dC), (-dC, -dS), (dS, -dC))[m * (k + 1) % 4]
                elif (n - m) % 2:
                    dC, dS = -dC, -dS
                wanted.append((n, m, dC, dS))
            expect('turned bodies', (number, after), (0, wanted))
    expect('turned bodies', every_half('step one') - met, set())


# --- Slips of a rounding ---

def rounding_slips():
    """The stored calls give every rounding halves of either sign, their whole part even and odd, and tell it from each with a wrong rule there; and
    both roundings of the ocean tide with one wrong rule."""
    answered = [(name, does, field, does(*field)) for name, does, field in values.lent]
    accepted = [one for one in answered if one[3][0] == 0]
    met, given_to = set(), defaultdict(set)

    def rule(where, value):
        given_to[where].add(value)
        return away(value)

    for functions in (noting(met), rounded_by(rule)):
        with patch.multiple(t, **functions):
            expect('rounding slips', [does(*field) == answer for _, does, field, answer in accepted], [True] * len(accepted))
    expect('rounding slips', every_half(*(where[0] for where in ROUNDINGS)) - met, set())
    sheets = [one for one in accepted if one[0] == 'ocean_tide']

    def tell(wrong, *names):
        """Whether an ocean tide differs where the roundings of these names are wrong."""
        with patch.multiple(t, **rounded_by(lambda where, value: wrong(value) if {*where} & {*names} else away(value))):
            return any(does(*field) != answer for _, does, field, answer in sheets)

    for where in ROUNDINGS:
        for wrong in wrong_roundings(where):                                    # a correction shows as it is, a factor by the corrections it gives
            told = tell(wrong, where[1]) if where[0] == 'factor' else any(wrong(value) != away(value) for value in given_to[where])
            expect('rounding slips', (where, wrong, told), (where, wrong, True))
    for wrong in WRONG_ROUNDINGS:
        expect('rounding slips', (wrong, tell(wrong, 'factor', 'ocean tide')), (wrong, True))


def main():
    cases()
    doodson()
    hardest = sines()
    wave_slips()
    fields()
    table_6_2b()
    step_two()
    permanent()
    selections(hardest)
    sheet_faults()
    ocean(hardest)
    twins()
    step_one_values()
    step_one_refusals()
    solid_tide()
    own_lines(hardest)
    pole_tide()
    hours()
    kept_values()
    day()
    nearest_counts()
    reversed_lines()
    reversed_records()
    reversed_sheets()
    turned_bodies()
    values.make()
    hour_slips()
    rounding_slips()
    twin_slips()
    check_files.check()
    counts.update(check_files.counts)
    seen = ', '.join(f'{kind} {count}' for kind, count in counts.items())
    errors = ', '.join(f'{kind} {float(error):.6f}' for kind, error in worst.items())
    print(f'ok: {seen}; largest errors: {errors}')


if __name__ == '__main__':
    main()
