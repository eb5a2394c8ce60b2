"""Inputs at which a slip of a rounding, of an order of operations, of a bound or of a comparison shows in an answer.

A slip in step one's order of operations moves a product by a last bit or two. The count of an ordinary product does not change by that; the count
of a product that is a whole number and a half, or the float next to such a one, does. A slip in which way halves go shows at exact halves
alone: every rounding meets them of either sign, their whole part even and odd (check.py holds the stored calls to that).
"""

from itertools import combinations, cycle, islice, permutations, product
from math import asin, floor, inf, nextafter, sqrt

import tides as t
from given import (
    FAR_LINES, FAR_OFFSETS, LAST, LEAST_32, MOST_32, MOVE, NONE, OFFSET_EDGE, PLACES, U32, all_set, in_32, placed, spoilt, twinned, write_sheet,
    written)

# --- Step one ---

COEFFICIENTS = [(n, m, letter) for n, m in [*t.NORMAL, (4, 0), (4, 1), (4, 2)] for letter in ('C', 'S')[:1 + (m > 0)]]


def near_meridian(u, v, w, which):
    """The direction, moved to where the cosine or the sine of the longitude, or the cosine of twice it, is small."""
    u, v = ((u / 256, v), (u, v / 256), (v + u / 256, v))[which]
    length = sqrt(u * u + v * v + w * w)
    return u / length, v / length, w / length


def pair(chance, which=None):
    """The Moon and the Sun, or two near bodies, whose parts of degree 3 are of one size; as they are, or of far less mass.

    One pair in four lies near one meridian, or all lie near the one asked for: there the small kI*Q or kI*P weighs as much as the other term.
    """
    directions = [chance.direction(), chance.direction()]
    if which is None and chance.one_in(4):
        which = chance.below(3)
    if which is not None:
        directions = [near_meridian(*direction, which) for direction in directions]
    near = chance.one_in(2)
    bodies = []
    for direction, ratio, low, high in zip(directions, (0.0123000371, 332946.0487), (3.5e8, 1.47e11), (4.1e8, 1.53e11)):
        r = chance.real(1e8, 4e8) if near else chance.real(low, high)
        bodies.append((chance.real(0.01, 1.0) if near else ratio, placed(chance.one(t.DIRECTION, t.RECTANGULAR), *direction, r)))
    return scaled(*bodies, chance.one(1.0, 1.0, 2.0**-8, 2.0**-16, 2.0**-24))


def scaled(moon, sun, factor):
    return (moon[0] * factor, moon[1]), (sun[0] * factor, sun[1])


def product_of(coefficient, moon, sun, love):
    n, m, letter = coefficient
    return t.step_one_products(moon, sun, love)[n, m]['CS'.index(letter)]


def moved_to(goal, coefficient, moon, sun, love):
    """The pair with its masses changed until the coefficient's product is the float goal, or None where a few steps do not reach it."""
    moon, sun = scaled(moon, sun, goal / product_of(coefficient, moon, sun, love))
    lighter = abs(product_of(coefficient, moon, sun, love)) > abs(goal)
    for _ in range(8):
        product = product_of(coefficient, moon, sun, love)
        if product == goal:
            return moon, sun
        if (abs(product) > abs(goal)) != lighter:
            return None
        moon = nextafter(moon[0], 0.0 if lighter else inf), moon[1]
    return None


def at_a_goal(chance, coefficient, love, goal_of, which=None):
    """A Moon and a Sun that pass and whose product is the float that goal_of makes of the product of a pair."""
    while True:
        moon, sun = pair(chance, which)
        found = moved_to(goal_of(product_of(coefficient, moon, sun, love)), coefficient, moon, sun, love)
        if found and not any(map(t.body_test, found)):
            return found


def at_a_half(chance, coefficient, love, which=None):
    """A Moon and a Sun whose product is a whole number and a half, of either sign, or in one case out of two the float next to it, nearer zero."""
    def goal_of(product):
        half = floor(product) + 0.5
        return chance.one(half, nextafter(half, 0.0))

    return at_a_goal(chance, coefficient, love, goal_of, which)


# Halves of either sign, their whole part even and odd, and the floats next to the first two, nearer zero: half a count more in size, added as
# floats, makes those 1 and -1.
SMALL_HALVES = 0.5, -0.5, 1.5, -1.5, nextafter(0.5, 0.0), nextafter(-0.5, 0.0)


def at_a_small_half(chance, coefficient, love, goal):
    """A Moon and a Sun whose product, of degree 2, is this one of SMALL_HALVES. (Some of them no masses reach in degrees 3 and 4.)"""
    return at_a_goal(chance, coefficient, love, lambda _: goal)


def at_the_bound(chance, coefficient, love, goal):
    """Two near bodies whose product is the float goal, beside 2^52 or -2^52, the products of all other coefficients being smaller."""
    while True:
        bodies = [(1.0, placed(chance.one(t.DIRECTION, t.RECTANGULAR), *chance.direction(), chance.real(1e8, 1.2e8))) for _ in 'MS']
        product = product_of(coefficient, *bodies, love)
        if (product > 0) != (goal > 0) or max(abs(x) for two in t.step_one_products(*bodies, love).values() for x in two) > abs(product):
            continue
        found = moved_to(goal, coefficient, *bodies, love)
        if found:
            return found


def at_length_one(chance, goal):
    """A direction whose (u*u + v*v) + w*w is the float goal, while the squares added in each other order give another sum."""
    while True:
        u, v, w = (x * sqrt(goal) for x in chance.direction())
        for _ in range(6):
            a, b, c = u * u, v * v, w * w
            total = (a + b) + c
            if total == goal and (a + c) + b != goal != (b + c) + a:
                return u, v, w
            w = nextafter(w, 2 * w if total < goal else 0.0)


# --- Sine, cosine and step two ---

def sine_phase(value):
    """A phase of the first two eighths whose sine is this many units, or None."""
    near = round(asin(value / 2**30) * 2**32 / 6.283185307179586)
    return next((near + d for d in range(-3, 4) if t.sine(near + d) == value), None)


def tie_phases():
    """Six phases at which the sum for S22, C22, C21, S21 or C20 is a whole number and a half, of either sign, its whole part even and odd, elastic
    and anelastic.

    300, 450700 and 450100 are 4 times an odd number, so that a sine or cosine of 2^27 times an odd number makes a tie.
    """
    for odd in (1, 3, 5, 7):
        at = sine_phase(odd << 27)
        if at is None:
            continue
        for angle in (at, -at):
            yield 0, -angle % t.TURN, 0, 0, 0, 0                        # 245,655 has the phase 2 tau - s + p, 255,555 the phase 2 tau
            yield 1 << 29, angle % t.TURN, 0, 0, 0, 0
            yield angle % t.TURN, 0, 0, 0, 0, 0                         # every diurnal line has the phase tau
            yield (t.UNIT - angle) % t.TURN, 0, 0, 0, 0, 0
    yield 0, 324511287, 0, 0, 0, 665749929                              # C20 anelastic: -1412.5, 9862.5, 7387.5 and -3387.5 counts
    yield 0, 1092373643, 0, 0, 0, 2519722585
    yield 0, 2398086026, 0, 0, 0, 220555754
    yield 0, 400137965, 0, 0, 0, 2909122905


# Phases at which every wave is 0, 1 or -1, and C20 there, anelastic, added up by hand. The tenths by the argument's multiplier:
# s a quarter turn: 0: 96, 1: -38, 2: -8, 3: 18, 4: 2; N' a quarter turn: -1: -2, 0: -71, 1: 39, 2: 1.
QUARTERS = {(0, 1 << 30, 0, 0, 0, 0): 7000, (0, 0, 0, 0, 1 << 30, 0): -3300}


# Each tells sine or cosine from the recipe with one divisor, constant or rounding changed (check.py holds them to that). Those that tell the
# first steps' roundings are some of very few: all 2^29 angles were tried.
WAVE_PHASES = (
    609463915, 608984082, 555382739, 2741960305, 267614066, 337360823, 338673687, 344220344, 469887812, 497543365, 499014564, 518311828,
    518478318, 530010508, 530120089, 530618170, 531885123, 534837871)


def wave_phases():
    """The phases above in each of the eight eighths: sine and cosine, either sign."""
    for phase in WAVE_PHASES:
        a = t.eighth_of(phase)[2]
        yield from ((e << 29) + (t.EIGHTH - a if e % 2 else a) & t.TURN - 1 for e in range(8))


# --- Choosing which lines are used ---

# In either model each line that it uses gives here, alone, five corrections of its own: the largest at least 10 counts, and of any two lines two
# at least 10 counts apart, whatever their signs.
LINE_PHASES = 3681209917, 2531394245, 571246955, 4280242467, 4140225098, 3048987116

FAINT_PHASE = 410140         # its sine is 0.0006


def faint_lines():
    """Selections and phases, and the five in the anelastic model. One of the waves is so small that no line alone gives half a count by it, in the
    sums C21, S21, C20 and S22; the lines named give more."""
    named = lambda chosen: sum(1 << i for i, (number, _, _) in enumerate(t.PRINTED) if number in chosen)
    below = named([number for number, _, amplitude in t.DIURNAL if -9 <= amplitude < 0])        # -30 tenths
    above = named([number for number, _, amplitude in t.DIURNAL if 0 < amplitude <= 9])         # 16
    by_s = named([63655, 75355, 75575, 83655, 93555, 95355])            # op times the multiplier of s: 35 tenths; ip: 0
    yield below, (FAINT_PHASE, 0, 0, 0, 0, 0), (0, -2, -3000, 0, 0)
    yield above, (FAINT_PHASE, 0, 0, 0, 0, 0), (0, 1, 1600, 0, 0)
    yield below, (t.UNIT - FAINT_PHASE, 0, 0, 0, 0, 0), (0, -3000, -2, 0, 0)
    yield above, (t.UNIT + FAINT_PHASE, 0, 0, 0, 0, 0), (0, 1600, -1, 0, 0)
    yield by_s, (0, FAINT_PHASE, 0, 0, 0, 0), (-2, 0, 0, 0, 0)
    yield named([245655, 255555]), (FAINT_PHASE // 3, 0, 0, 0, 0, 0), (0, 0, 0, -1500, 1)


def near_zero_lines():
    """Selections and phases: in the anelastic model C20, C21 and S22, then C20, S21 and C22, are -0.7, -0.3 and 0.3 counts."""
    named = sum(1 << i for i, (number, _, _) in enumerate(t.PRINTED) if number in (165555, 75575, 255555))
    angle = lambda counts, wanted: round(wanted / counts * t.TURN / 6.283185307179586)
    for wanted in (-0.7, -0.3, 0.3):                                    # of 471000 by tau + s, -200 by 2 s + 2 N', -1200 by 2 tau
        diurnal, long_period, semidiurnal = (angle(counts, wanted) for counts in (471000, 200, 1200))
        for tau, one in ((semidiurnal // 2, diurnal), ((t.UNIT + semidiurnal) // 2, t.UNIT - diurnal)):
            s = one - tau
            yield named, (tau % t.TURN, s % t.TURN, 0, 0, (-long_period // 2 - s) % t.TURN, 0)


# --- A day ---

# The Moon, the Sun and the phases of 2004 May 17, 0h; anelastic, step one gives the degree-2 counts below, step two the five after them.
DAY_BODIES = (
    (0.012300034, (t.RECTANGULAR, -355452275.2669934, 164619588.90359762, 78939894.915495992, 399596591.64279854)),
    (332946.048, (t.RECTANGULAR, -142729805997.8396, 2252600386.0736647, 50151303252.337364, 151301106891.4837)))
DAY_PHASES = 327043742, 329517021, 656638906, 3117674196, 3812369497, 3376471194
DAY_STEP_ONE = {(2, 0): [90693, 0], (2, 1): [-3837629, 950496], (2, 2): [6230270, -4328639]}
DAY_STEP_TWO = -53, 427078, 333684, -787, 696


def day_field():
    """A field that the day's step one alone would take out of the range of 2, at C21 below and at C22 above, and step two takes back into it."""
    C = [0] * 15
    C[4] = -t.FIELD_BOUND - DAY_STEP_ONE[2, 1][0] - 1000
    C[5] = t.FIELD_BOUND - DAY_STEP_ONE[2, 2][0] + 500
    return 4, C, [0] * 15


# --- Sines kept with the hour ---

# 98 signed 32-bit numbers far apart; and a record that has them beside phases of which none of them is a value, before a move or after it.
SPREAD = [in_32(0x9e3779b1 * k) for k in range(1, 99)]
HELD = t.Hour(LINE_PHASES, tuple(SPREAD[:49]), tuple(SPREAD[49:]))


def throughout(cosine, sine):
    """A record with the same values for every line."""
    return t.Hour(LINE_PHASES, (cosine,) * 49, (sine,) * 49)


BY_TURNS = t.Hour(LAST, *(tuple((LEAST_32, MOST_32)[(i + k) % 2] for i in range(49)) for k in range(2)))
EXTREMES = throughout(MOST_32, MOST_32), throughout(LEAST_32, LEAST_32), BY_TURNS

# At 137,455, 75,355 and 245,655 15/8 of a wave, which make each of the five a half in the anelastic model; and all others at an end.
AT_HALVES = t.Hour(LINE_PHASES, *(tuple(value if i in (2, 38, 47) else LEAST_32 for i in range(49)) for value in (15 << 27, -15 << 27)))

# By how much each argument of the record HELD is moved.
HELD_AMOUNTS = 0, 1, -1, MOST_32, LEAST_32, 1 << 30


def one_line(i):
    """A record whose values are zeros but for this line's."""
    return t.Hour(LINE_PHASES, *(tuple(spoilt([0] * 49, i, end)) for end in (MOST_32, LEAST_32)))


def wraps():
    """Steps that move each argument up past the turn's end, and the next one down past its start, by amounts of every size."""
    for at, (up, down) in enumerate(((1, -1), (MOST_32, LEAST_32), (1 << 30, -1 << 30), (1 << 29, -1 << 29), (1, LEAST_32), (MOST_32, -1))):
        other = (at + 1) % 6
        phases = spoilt(spoilt(LINE_PHASES, at, U32 - (up - 1) // 2), other, (-down - 1) // 2)
        yield [all_set(phases), (MOVE, at, up), (MOVE, other, down)]


def hour_steps():
    """Steps whose record tells T-08's rules of the start, of replacing and of moving from each with one piece changed (check.py holds them to
    that)."""
    yield []
    yield [all_set(LINE_PHASES)]
    yield [all_set(LAST), all_set(DAY_PHASES)]
    for at, amount in enumerate((1 << 29, -1 << 29, 1 << 30, -1 << 30, 3 << 29, -3 << 29)):
        yield [(MOVE, at, amount)]
    yield from wraps()
    yield [all_set(DAY_PHASES), *((MOVE, at, 0) for at in range(6))]
    yield [all_set(DAY_PHASES), (MOVE, 3, 2_000_000_000), (MOVE, 3, 1_999_999_999)]
    yield [all_set(DAY_PHASES), (MOVE, 3, in_32(3_999_999_999))]
    yield [all_set(DAY_PHASES), written(HELD)]
    yield [written(BY_TURNS)]
    for at, amount in enumerate(HELD_AMOUNTS):
        yield [written(HELD), (MOVE, at, amount)]
    yield [written(HELD), (MOVE, 5, 77), (MOVE, 2, -77)]
    yield [written(HELD), all_set(HELD.phases)]
    yield [written(HELD), all_set(spoilt(HELD.phases, 5, 0))]


def kept_calls():
    """Steps, the Love model and a selection: solid tides that tell the reading of the kept values, and the rules above, from each with one piece
    changed (check.py holds them to that)."""
    every_second = sum(1 << i for i in range(0, 49, 2))
    yield [], t.ANELASTIC, t.ALL_LINES
    for love in (t.ELASTIC, t.ANELASTIC):
        for hour in (HELD, t.Hour(DAY_PHASES, *t.set_hour(LINE_PHASES)[1:]), *EXTREMES):
            yield [written(hour)], love, t.ALL_LINES
    for hour in EXTREMES:
        yield [written(hour)], t.ANELASTIC, every_second
    yield [written(BY_TURNS)], t.ELASTIC, 0
    for i in (0, 26, 48):
        yield [written(one_line(i))], t.ANELASTIC, t.ALL_LINES
    yield [written(one_line(47))], t.ELASTIC, t.ALL_LINES ^ 1 << 47
    yield [written(AT_HALVES)], t.ANELASTIC, t.ALL_LINES
    for at, amount in enumerate(HELD_AMOUNTS):
        yield [written(HELD), (MOVE, at, amount)], t.ANELASTIC, t.ALL_LINES
    yield [written(HELD), all_set(HELD.phases)], t.ANELASTIC, t.ALL_LINES


# --- Tide lines of our own ---

def in_band(band, ip, op):
    """A record of the band whose phase is the argument s."""
    return band, 1, 0, 0, 0, 0, ip, op


def at_s(phase):
    return 0, phase % t.TURN, 0, 0, 0, 0


def own_line_ties():
    """Records and phases at which a sum is a whole number and a half: each of the five, by ip and by op, of either sign.

    100 is 4 times an odd number: a wave of 2^27 times an odd number makes a tie of an odd amplitude, one of 2^26 times an odd number a tie of two
    equal records, each of which has a quarter or three.
    """
    for count, value in ((1, 3 << 27), (1, 7 << 27), (2, 1 << 26), (2, 9 << 26)):
        at = sine_phase(value)
        for band, one, phase in product(range(3), ((1, 0), (0, 1), (-3, 0), (0, 99_999)), (at, -at, t.UNIT - at, t.UNIT + at)):
            records, phases = [in_band(band, *one)] * count, at_s(phase)
            if any(total % t.UNIT == t.UNIT // 2 for total in t.line_sums(records, phases, t.sine, t.cosine)):
                yield records, phases


def by_bands(phase, amplitudes):
    """Records and phases at which C20, C21 and C22, then S21 and S22, are minus each of the amplitudes times the sine of the phase."""
    for amplitude in amplitudes:
        yield [in_band(0, 0, amplitude), in_band(1, -amplitude, 0), in_band(2, 0, amplitude)], at_s(phase)
        yield [in_band(1, 0, amplitude), in_band(2, amplitude, 0)], at_s(phase)


def band_ties():
    """Each of the five a whole number and a half, of either sign, the whole part even and odd: 37.5 and 112.5 counts."""
    return by_bands(sine_phase(3 << 27), (1, -1, 3, -3))


def near_zero_records():
    """Each of the five within a count of zero: -0.47, 0.47 and -0.94 counts."""
    return by_bands(3212757, (1, -1, 2))


def at_a_tie(chance, band, by_sine, beside):
    """Two records of the band, phases, and the sum that takes ip by this wave: of either sign, a whole number and a half, or 4 units of 2^-30 less
    in size.

    A unit that a record's part loses before the whole sum is rounded shows. The sum is 100 times another one, which is made to be 2^27, or
    1/25 less in size, modulo 2^28.
    """
    modulus = 1 << 28
    above = chance.one_in(2)
    goal = ((1 << 27) - (beside if above else -beside)) * pow(25, -1, modulus)
    while True:
        phases = 0, chance.below(t.TURN), chance.below(t.TURN), 0, 0, 0
        (a, b), (c, d) = ((t.sine(at), t.cosine(at)) if by_sine else (t.cosine(at), -t.sine(at)) for at in phases[1:3])
        ip, op = chance.between(-100_000, 100_000), chance.between(-100_000, 100_000)
        part = ip * a + op * b
        if part % 2 == 0 or d % 2 == 0:
            continue
        for ip_2 in range(chance.between(-100_000, 90_000), 100_001):
            op_2 = ((goal - part - ip_2 * c) * pow(d, -1, modulus) + modulus // 2) % modulus - modulus // 2
            total = 100 * (part + ip_2 * c + op_2 * d)
            if abs(op_2) <= 100_000 and (total > 0) == above:
                return [(band, 1, 0, 0, 0, 0, ip, op), (band, 0, 1, 0, 0, 0, ip_2, op_2)], phases, -total if by_sine and band == 2 else total


SUMS = (0, False), (1, True), (1, False), (2, False), (2, True)         # C20, C21, S21, C22, S22: the band, and whether ip is by the sine


SMALL_PHASE = 2734268        # its sine is 0.004, the cosine a quarter turn before it too


def small_records():
    """64 equal records and phases: to one sum each record gives 0.4 counts, of either sign, and all of them 25.6."""
    for band, one, phase in product(range(3), ((1, 0), (0, 1), (-1, 0), (0, -1)), (SMALL_PHASE, t.UNIT - SMALL_PHASE)):
        if band > 0 or (one[1] == 0) == (phase != SMALL_PHASE):         # C20 takes ip by the cosine alone, op by the sine alone
            yield [in_band(band, *one)] * 64, at_s(phase)


# A record for each band, that of the diurnal one twice; at the phases of the day above they give these five, which were made with doubles too.
OWN_RECORDS = [(0, 2, 0, 0, 0, 0, 37, -12), (1, -1, 0, 0, 0, 0, -250, 31), (1, -1, 0, 0, 0, 0, -250, 31), (2, -1, 0, 1, 0, 0, 18, 45)]
OWN_FIVE = 3095, 6381, -49977, 4839, 277


# --- Ocean tide ---

def factor_tie(admittance, wave):
    """A sheet's bytes and phases: fsin of 15 tides, and fcos of 15 others, is to be the admittance times the wave over 10^6. C21 shows which way the
    first is rounded, S21 the second.

    Each unit of the factor is 15/64 of a count. One more tide makes the sum 7/64 more in size than a whole number and a half where the factor goes
    to the whole number next above in size, so 8/64 less where it goes to the one below.
    """
    at = sine_phase(wave)
    above = abs(admittance * wave) // t.MILLION + 1
    beside = (39 - 15 * above) % 64 * 2**24 // 1074                     # so many 64ths of a count, by a tide whose factor is 1074
    beside = -beside if admittance * wave < 0 else beside
    rows = [[admittance, 0, 0], [0, admittance, 0]] * 15 + [[0, 0, 1]]
    quads = [(0, 0, 1 << 24, 0), (0, 1 << 24, 0, 0)] * 15 + [(beside, beside, 0, 0)]
    lines = [(1, 0, 0, 0, 0, 0), (0, 1, 0, 0, 0, 0), (0, 0, 0, 0, 0, 0)]
    return write_sheet(lines, rows, [(2, 1, quads)]), (at % t.TURN, (at - t.UNIT) % t.TURN, 0, 0, 0, 0)


def factor_ties(wholes):
    """Sheets and phases at which a tide's factors are each of these whole numbers and a half, of either sign; then a millionth less in size."""
    for less, whole, sign in product((0, 1), wholes, (1, -1)):
        wave = sign * (whole * t.MILLION + 500_000 - less)
        if sine_phase(wave) is not None:
            yield factor_tie(1, wave)


def large_factor_ties():
    """As above, the factors 3.5 times an odd wave of nearly 2^30: halves above 2^31 in size, of either sign, their whole part even and odd."""
    odd = [wave for wave in range(1_073_000_001, 1_073_001_000, 2) if sine_phase(wave) is not None]
    for wave, admittance in product(odd[:4], (3_500_000, -3_500_000)):
        yield factor_tie(admittance, wave)


def correction_ties(counts):
    """Sheets and phases at which C21, S21, C22 and S22 are halves of these counts and of their negatives, by the cosine, then by the sine."""
    for by_sine, phase in ((0, 0), (1, t.UNIT)):
        for count in counts:
            one, two = ((0, 0, a, b) if by_sine else (a, b, 0, 0) for a, b in ((count, -count), (-count, count)))
            sheet = write_sheet([(1, 0, 0, 0, 0, 0)], [[500_000]], [(2, 1, [one]), (2, 2, [two])])
            yield sheet, (phase, 0, 0, 0, 0, 0)


def beside_correction_ties():
    """Sheets and phases at which C21 and S21 are one unit of 2^-30 less in size than a half, then one more, of either sign."""
    for (factor, count), sign in product(((233, 2304167), (177, 3033169)), (1, -1)):            # 2^29 - 1, 2^29 + 1
        sheet = write_sheet([(1, 0, 0, 0, 0, 0)], [[1]], [(2, 1, [(0, 0, sign * count, -sign * count)])])
        yield sheet, (sine_phase(factor * t.MILLION), 0, 0, 0, 0, 0)


def tied_throughout():
    """A sheet and phases, then with its coefficients reversed: all factors of 32 tides of full size are halves below zero, and C22 and S22 halves,
    below zero and then above it. With halves up, the first is two counts off."""
    for count in (1 << 24, -(1 << 24)):
        yield write_sheet([(1, 0, 0, 0, 0, 0)], [[-2_500_000]] * 32, [(2, 2, [(count,) * 4] * 32)]), (428289553, 0, 0, 0, 0, 0)


# --- Twin lines in a sheet ---

STAIRS = [tuple(n + k for n in (1, -2, 3, -4, 5, -6)) for k in range(5)]        # no two have the same multiplier at any of the six
FAR_TWINS = (0, 1), (0, 64), (0, 127), (1, 126), (63, 64), (126, 127)           # among 128 lines
THROUGHOUT = NONE, (13,) * 6, (-13,) * 6


def lined(lines, rows=None, places=((1, 1), (2, 2))):
    """The bytes of a sheet of these lines, rows and places; where no rows are given it has one, whose admittances all differ."""
    if rows is None:
        rows = [[(4_000_000 // len(lines) - i) * (-1)**i for i in range(len(lines))]]
    quad = lambda m: (1 << 24, 7_654_321 if m else 0, -9_876_543, -(1 << 24) if m else 0)
    return write_sheet(lines, rows, [(n, m, [quad(m)] * len(rows)) for n, m in places])


def twin_lists():
    """Lists of lines with twins: any two of 2 to 5 lines; three; two on either side of a line that is nearly theirs; two and two; the same number six
    times; and of 128 lines two, three and all."""
    for count in range(2, 6):
        for two in combinations(range(count), 2):
            yield twinned(STAIRS[:count], *two)
    one, another, third, *_ = STAIRS
    yield [one] * 3
    yield [one, another, one, third, one]
    for between in (*(spoilt(one, i, one[i] + 1) for i in range(6)), one[::-1], [-n for n in one]):
        yield [one, between, one]
    yield [one, another, another, one]
    yield [one, another, one, another]
    for line in THROUGHOUT:
        yield [line] * 2
    for two in FAR_TWINS:
        yield twinned(FAR_LINES, *two)
    yield twinned(twinned(FAR_LINES, 0, 63), 0, 127)
    yield [FAR_LINES[0]] * 128


def shared_radix(i):
    """27 lines that differ in the multipliers i and i + 1 alone. For each radix below 27 the first line and one other have the same sum of multipliers
    times its rising powers."""
    lines = [(13, 0), *((13 - radix, 1) for radix in range(1, 27))]
    return [tuple(spoilt(spoilt(NONE, i, a), i + 1, b)) for a, b in lines]


def shared_bits(bits):
    """Two lines whose sums of multipliers times the rising powers of 27 lie 2^bits apart."""
    digits = [(1 << bits) // 27**i % 27 for i in range(6)]
    return [tuple(d - d // 2 for d in digits), tuple(-(d // 2) for d in digits)]


def look_alikes():
    """Lists of lines that all differ: one alone; two that differ in one multiplier, by one and by 26, and 27 by any amount; the same multipliers with
    other signs, in another order, or written one after another; numbers made of the six that are the same; and 128 of them."""
    one = STAIRS[0]
    for line in THROUGHOUT:
        yield [line]
    for i in range(6):
        yield [one, spoilt(one, i, one[i] + 1)]
        yield [spoilt(one, i, -13), spoilt(one, i, 13)]
        yield [spoilt(NONE, i, n) for n in range(-13, 14)]
    for other in ([-n for n in one], [abs(n) for n in one], one[::-1], (*one[1:], one[0])):
        yield [one, other]
    for i in range(5):
        yield [one, (*one[:i], one[i + 1], one[i], *one[i + 2:])]
    yield [(1, 11, 0, 0, 0, 0), (11, 1, 0, 0, 0, 0)]
    for shared in (*map(shared_radix, range(5)), [line for bits in (8, 16, 24, 28) for line in shared_bits(bits)]):
        yield shared
        yield [line[::-1] for line in shared]
    yield FAR_LINES
    yield [*islice(permutations(range(-2, 4)), 128)]


def with_count(data, at, count):
    """The bytes of a sheet with a section's count changed."""
    return data[:at] + count.to_bytes(2, 'little') + data[at + 2:]


def twin_calls():
    """The number due, a field's degree and the bytes of a sheet: twins and look-alikes; both with other admittances and places; and beside faults of 9,
    8 and 7. They tell T-09's rule from each with one piece changed (check.py holds them to that)."""
    for lines in twin_lists():
        yield 16, 4, lined(lines)
    for lines in look_alikes():
        yield 0, 4, lined(lines)
    one, another, third, *_ = STAIRS
    twins, apart, a, b = [one, one], [one, another], 1_234_567, -765_432
    for rows in ([[a, a]], [[a, -a]], [[0, 0]], [[a, 0]], [[0, b]], [[a, a], [a, b]], [[a, b], [b, b]], [[a, b]] * 2, [[a, a], [b, b]], [[0, 0]] * 32):
        yield 16, 4, lined(twins, rows)
    for rows in ([[a, b]] * 2, [[a, b], [b, a], [a, b]], [[a, a]], [[a, a], [b, b]], [[a, b], [-a, -b]], [[0, 0]] * 2, [[1, 2]] * 32):
        yield 0, 4, lined(apart, rows)
    for places in ([], [(1, 0)], [(1, 1)], [(4, 4)], [place for place in PLACES if place[0] < 5]):
        yield 16, 4, lined(twins, places=places)
        yield 0, 4, lined(apart, places=places)
    yield 16, 4, lined(twinned(FAR_LINES, 0, 127), places=[])
    yield 16, 4, write_sheet([(2, 0, 0, 0, 0, 0)] * 2, [[500_000] * 2], [(2, 2, [(1000, 0, 0, -500)])])         # P9's line in two halves
    for N, places in ((4, [(5, 0)]), (4, [(2, 2), (12, 12)]), (11, [(2, 2), (12, 0)])):
        yield 9, N, lined(apart, places=places)
        yield 16, N, lined(twins, places=places)
        yield 16, N, lined([one, another, third, one], places=places)
        yield 16, 12, lined(twins, places=places)
    for line in (spoilt(one, 5, 14), (-128,) * 6):
        yield 8, 4, lined([line] * 2)
        yield 8, 4, lined([one, one, line])
        yield 8, 4, lined([line, another, another])
    for rows in ([[4_000_000, 1]], [[a, a], [b, 4_000_000]], [[LEAST_32, LEAST_32]]):
        yield 8, 4, lined(twins, rows)
    for count in (4, 128):                                                      # adds to 0 in 32 bits
        yield 8, 4, lined([NONE] * count, [[LEAST_32] * count], [])
    for places in ([(2, 2), (2, 2)], [(2, 1), (2, 2), (2, 1)], [(3, 0), (2, 2)], [(0, 0)], [(13, 0)], [(2, 3)], [(1, 1), (12, 13)], [(5, 0), (5, 0)]):
        yield 8, 4, lined(twins, places=places)
    yield 8, 4, lined(apart, places=[(2, 2), (2, 2)])
    for m, quad in ((2, ((1 << 24) + 1, 0, 0, 0)), (2, (0, 0, 0, -(1 << 24) - 1)), (0, (0, 1, 0, 0)), (0, (0, 0, 0, -1))):
        yield 8, 4, write_sheet(twins, [[a, b]] * 2, [(1, 1, [(0,) * 4] * 2), (2, m, [(0,) * 4, quad])])
    sheet = lined([one, another, one])                                          # its counts stand at 0, 20 and 34
    for data in (sheet[:-1], sheet + b'\0', sheet[:20], sheet[:22], sheet[:36], with_count(sheet, 0, 256 + 3), with_count(sheet, 20, 0),
                 with_count(sheet, 20, 33), with_count(sheet, 34, 1), with_count(sheet, 34, 91)):
        yield 7, 4, data
    for lines, rows in (([one] * 129, None), ([*FAR_LINES, FAR_LINES[0]], None), (twins, []), (twins, [[a, b]] * 33)):
        yield 7, 4, lined(lines, rows)
    yield 7, 4, lined(twins, places=[*PLACES, (13, 0)])
    yield 7, 4, lined([spoilt(one, 5, 14)] * 2, places=[(5, 0), (5, 0)])[:-1]


# --- Solid pole tide ---

def beside_halves(love, steps, xp, yp):
    """Offsets, by the next above these, at which C21 is an even number and a half and so many steps of its fraction more; then those for S21.

    In lowest terms C21 is -129*xp/100 elastic, -337*(625*xp + 7*yp)/156250 anelastic; S21 at xp, yp is C21 at -yp, xp. So each of the four has
    exact halves: elastic where xp, for S21 yp, is 50 modulo 100; anelastic where 625*xp + 7*yp is an odd multiple of 5^7, that is where yp is
    625*k and xp is 125 - 7*k modulo 250, and for S21 where xp is 625*k and yp is 125 + 7*k modulo 250.
    """
    above = lambda offset, rest, modulus: offset + (rest - offset) % modulus
    if love == t.ELASTIC:
        xp = above(xp, -(50 + steps) * pow(129, -1, 200), 200)
    else:
        total = -(78125 + steps) * pow(337, -1, 312500)                 # 625*xp + 7*yp, modulo 312500
        yp = above(yp, total * pow(7, -1, 625), 625)
        xp = above(xp, (total - 7 * yp) // 625, 500)
    return (xp, yp), (yp, -xp)


POLE_OFFSETS = (46_000, 294_000), (-123_457, 345_678), (-7, -11), (0, 0)       # the angles that 001 begins with, any, and small ones
HALVES_NEAR = (0, 123_456, 654_321), (0, -789_123, 321_987), (-1, -234_567, -567_891), (1, 876_543, -543_219)      # steps, xp, yp


def each_way(xp, yp):
    """The offsets, and those with both signs reversed. A half of beside_halves has an even whole part above zero and an odd one below; reversed,
    the other way about."""
    return (xp, yp), (-xp, -yp)


def pole_calls():
    """xp, yp and the Love model: near zero, those above, the ends, each formula at halves, each way, and a step nearer zero; then refused ones.

    They tell T-05's rule from each with one number, sign, rounding, end or place changed (check.py holds them to that).
    """
    for one in (20, -20, 40):                                           # -0.3, 0.3 and -0.6 counts
        yield 0, one, t.ANELASTIC
        yield one, 0, t.ANELASTIC
    for love in (t.ELASTIC, t.ANELASTIC):
        halves = [pair for steps_near in HALVES_NEAR[:2] for one in beside_halves(love, *steps_near) for pair in each_way(*one)]
        beside = [pair for steps_near in HALVES_NEAR[2:] for pair in beside_halves(love, *steps_near)]
        for pair in (*POLE_OFFSETS, *product((OFFSET_EDGE, -OFFSET_EDGE), repeat=2), *halves, *beside):
            yield *pair, love
    for far, love in zip(FAR_OFFSETS, cycle((t.ELASTIC, t.ANELASTIC))):
        yield far, 12_345, love
        yield 12_345, far, love
