"""Tide corrections to a gravity field: a second program, written from the description (01, and T-01, T-02 and T-04 to T-09 of 02) alone.

Coefficients are whole counts of 10^-15. Every call that can refuse answers the refusal number first, 0 where it accepts.
Whole numbers and Fractions throughout; floats (IEEE binary64) only in step one.
"""

import struct
from collections import namedtuple
from fractions import Fraction
from itertools import combinations
from math import factorial, isfinite, isqrt, ldexp

ELASTIC, ANELASTIC = 'elastic', 'anelastic'
RECTANGULAR, DIRECTION = 'rectangular', 'direction'
FIGURE, MASS = 'figure', 'mass'                          # frames: centre of figure, centre of mass
TIDE_FREE, ZERO, MEAN = 'tide-free', 'zero', 'mean'      # permanent systems

TURN = 1 << 32
EIGHTH = 1 << 29
UNIT = 1 << 30           # sines and cosines are kept in units of 1/UNIT
FIELD_BOUND = 1 << 60
MILLION = 1_000_000


# --- Units and the field ---

def nearest(value, divisor=1):
    """'Units and the field', by 'Halves away from zero' (02, T-07): the whole number nearest value/divisor, where "halves go away from zero".

    Of whole numbers or Fractions; the divisor is above 0. The size is rounded, its half up; the sign is the value's.
    """
    nearest_size = (2 * abs(value) + divisor) // (2 * divisor)
    return nearest_size if value > 0 else -nearest_size


def nearest_float(x):
    """'Step one', last rule: the nearest count of a finite float's exact value; negative zero gives 0."""
    return nearest(Fraction(x))


def size(N):
    """'Units and the field': entries in each list of a field of degree N."""
    return (N + 1) * (N + 2) // 2


def index(n, m):
    """'Units and the field': where place (n,m) stands in a list."""
    return n * (n + 1) // 2 + m


def field_test(N, C, S):
    """'Refusal numbers' 1, then 2, of a field with any N and lists of any length."""
    if not 4 <= N <= 60 or len(C) != size(N) or len(S) != size(N):
        return 1
    if not all(-FIELD_BOUND <= entry <= FIELD_BOUND for entry in (*C, *S)):
        return 2
    return 0


def added(C, S, corrections):
    """New lists with each (n, m, dC, dS) added; S(n,0) is never changed."""
    C, S = list(C), list(S)
    for n, m, dC, dS in corrections:
        C[index(n, m)] += dC
        if m > 0:
            S[index(n, m)] += dS
    return C, S


def by_place(five):
    """The corrections to C20, C21, S21, C22, S22, each (n, m, dC, dS)."""
    c20, c21, s21, c22, s22 = five
    return [(2, 0, c20, 0), (2, 1, c21, s21), (2, 2, c22, s22)]


# --- Doodson numbers and the printed lines ---

# Number, elastic, anelastic: C21 takes the sine, S21 the cosine. Amplitudes are 100 counts.
DIURNAL = (
    (135645, -1, -1), (135655, -7, -7), (137455, -1, -1), (145545, -12, -13), (145555, -66, -67), (153655, 1, 1),
    (155455, 4, 4), (155655, 13, 13), (155665, 2, 3), (157455, 3, 3), (162556, -19, -19), (163545, 5, 5),
    (163555, -433, -432), (164556, 20, 20), (165545, -88, -88), (165555, 4720, 4710), (165565, 683, 682),
    (165575, -16, -16), (166554, -208, -204), (167555, -50, -50), (173655, -5, -5), (175455, -21, -21),
    (175465, -4, -4), (183555, -2, -2), (185555, -7, -6), (185565, -4, -4))

# Number, in phase, out of phase, anelastic only: for C20, "with the table's numbers kept" (02, T-02).
LONG_PERIOD = (
    (55565, 166, -67), (55575, -1, 1), (56554, -12, 8), (57555, -55, 43), (57565, 1, -1), (58554, -3, 2),
    (63655, -3, 7), (65445, 1, -2), (65455, -12, 37), (65465, 1, -2), (65655, 1, -2), (73555, 0, 6), (75355, 0, 3),
    (75555, 6, 63), (75565, 2, 26), (75575, 0, 2), (83655, 1, 2), (85455, 4, 11), (85465, 2, 5), (93555, 1, 2),
    (95355, 1, 1))

# Number, the one amplitude twice, both models: C22 takes the cosine, S22 minus the sine.
SEMIDIURNAL = ((245655, -3, -3), (255555, -12, -12))

PRINTED = DIURNAL + LONG_PERIOD + SEMIDIURNAL


def doodson_read(number):
    """'Doodson numbers': (0, six multipliers), or (10, None)."""
    if not 0 <= number <= 999_999:
        return 10, None
    first, *others = map(int, f'{number:06d}')
    return 0, (first, *(digit - 5 for digit in others))


def doodson_write(multipliers):
    """'Doodson numbers', back: (0, number), or (10, None) where a digit cannot write a multiplier."""
    first, *others = multipliers
    number = 0
    for digit in (first, *(n + 5 for n in others)):
        if not 0 <= digit <= 9:
            return 10, None
        number = 10 * number + digit
    return 0, number


def find_line(number):
    """'Doodson numbers', printed line: (0, (index, amplitude, amplitude)), or (10, None) before (11, None)."""
    refusal, _ = doodson_read(number)
    if refusal:
        return refusal, None
    for place, (printed, one, two) in enumerate(PRINTED):
        if printed == number:
            return 0, (place, one, two)
    return 11, None


# --- Phase, sine and cosine ---

def phase_of(multipliers, phases):
    """'Phase, sine and cosine': the phase of a line, modulo a turn."""
    return sum(n * argument for n, argument in zip(multipliers, phases, strict=True)) % TURN


def eighth_of(phase):
    """'Phase, sine and cosine': sign, whether the cosine series serves, and a, for the sine of a phase."""
    e, b = divmod(phase % TURN, EIGHTH)
    a = EIGHTH - b if e % 2 else b
    return (1 if e < 4 else -1), e % 4 in (1, 2), a


def nested(y, divisors):
    """The recipe's h, from the innermost divisor outwards."""
    h = TURN
    for d in divisors:
        h = TURN - (y * h + (d << 31)) // (d << 32)
    return h


def sine(phase):
    """'Phase, sine and cosine': the whole-number recipe, in units of 1/2^30."""
    sign, by_cosine, a = eighth_of(phase)
    x = (a * 13493037705 + (1 << 30)) >> 31
    y = (x * x + (1 << 31)) >> 32
    if by_cosine:
        value = nested(y, (132, 90, 56, 30, 12, 2))
    else:
        value = (x * nested(y, (110, 72, 42, 20, 6)) + (1 << 31)) >> 32
    return sign * ((value + 2) // 4)


def cosine(phase):
    """'Phase, sine and cosine': the sine a quarter turn further on."""
    return sine(phase + UNIT)


# The exact counterpart: r = a*PI/SCALE, and every term of either series is whole over EXACT_DENOMINATOR.
PI = 3141592653589793
SCALE = 10**15 * (1 << 31)
EXACT_DENOMINATOR = SCALE**12 * factorial(12)
TERMS = [(-1)**(j // 2) * PI**j * SCALE**(12 - j) * (factorial(12) // factorial(j)) for j in range(13)]


def exact_sine_numerator(phase):
    """'Exact counterpart', over EXACT_DENOMINATOR: odd powers through 11 for the sine, even through 12 for the cosine."""
    sign, by_cosine, a = eighth_of(phase)
    return sign * sum(TERMS[j] * a**j for j in range(0 if by_cosine else 1, 13, 2))


def exact_cosine_numerator(phase):
    """'Exact counterpart', over EXACT_DENOMINATOR: the sine a quarter turn further on."""
    return exact_sine_numerator(phase + UNIT)


def exact_sine(phase):
    """'Exact counterpart' as a Fraction, NOT times 2^30."""
    return Fraction(exact_sine_numerator(phase), EXACT_DENOMINATOR)


def exact_cosine(phase):
    """'Exact counterpart' as a Fraction, NOT times 2^30."""
    return Fraction(exact_cosine_numerator(phase), EXACT_DENOMINATOR)


# --- Sines kept with the hour (02, T-08) ---

ARGUMENTS = 'tau', 's', 'h', 'p', 'np', 'ps'             # in the phases' order; np is N'
MULTIPLIERS = [doodson_read(number)[1] for number, _, _ in PRINTED]

# "Six phases and beside them the values for the printed lines", a cosine and a sine for each in 01's order.
Hour = namedtuple('Hour', 'phases cosines sines')


def worked_out(phases, sin, cos):
    """'Sines kept with the hour': a record of these phases, its values "those worked out afresh from its phases"."""
    turned = [phase_of(multipliers, phases) for multipliers in MULTIPLIERS]
    return Hour(tuple(phases), tuple(map(cos, turned)), tuple(map(sin, turned)))


def set_hour(phases):
    """'Sines kept with the hour', "replace all phases": every value is worked out afresh, whatever the record held."""
    return worked_out(phases, sine, cosine)


def start_hour():
    """'Sines kept with the hour': the record that "starts from all phases zero"."""
    return set_hour((0,) * 6)


def move_hour(hour, argument, amount):
    """'Sines kept with the hour', "move one, given by name, by a signed 32-bit amount, wrapping".

    The values of the lines that have the argument are worked out afresh from the new phases. Those of all other lines stay what the record
    holds, whatever it holds.
    """
    at = ARGUMENTS.index(argument)
    phases, cosines, sines = map(list, hour)
    phases[at] = (phases[at] + amount) % TURN
    for i, multipliers in enumerate(MULTIPLIERS):
        if multipliers[at] != 0:
            phase = phase_of(multipliers, phases)
            cosines[i], sines[i] = cosine(phase), sine(phase)
    return Hour(tuple(phases), tuple(cosines), tuple(sines))


# --- Step two, and the choice of its lines (02, T-04) ---

def printed_records(love):
    """'Step two': every printed line in 01's order: six multipliers, the model's in-phase and out-of-phase amplitude.

    The second is 0 outside the long period; in it both are 0 for the elastic model ("anelastic only").
    """
    amplitudes = [({ELASTIC: elastic, ANELASTIC: anelastic}[love], 0) for _, elastic, anelastic in DIURNAL]
    amplitudes += [(ip, op) if love == ANELASTIC else (0, 0) for _, ip, op in LONG_PERIOD]
    amplitudes += [(amplitude, 0) for _, amplitude, _ in SEMIDIURNAL]
    return [(*multipliers, *two) for multipliers, two in zip(MULTIPLIERS, amplitudes, strict=True)]


def band_sums(records, cosines, sines):
    """'Step two', 'Tide lines of our own': the five sums C20, C21, S21, C22, S22 in counts times the unit of the values, one of each for every
    record; nothing rounded."""
    c20 = c21 = s21 = c22 = s22 = 0
    for (first, *_, ip, op), cosine_of, sine_of in zip(records, cosines, sines, strict=True):
        by_cosine = 100 * ip * cosine_of - 100 * op * sine_of
        by_sine = 100 * ip * sine_of + 100 * op * cosine_of
        if first == 0:
            c20 += by_cosine
        elif first == 1:
            c21 += by_sine
            s21 += by_cosine
        else:
            c22 += by_cosine
            s22 -= by_sine
    return c20, c21, s21, c22, s22


def line_sums(records, phases, sin, cos):
    """'Tide lines of our own': band_sums of the values that each record's phase has."""
    turned = [phase_of(multipliers, phases) for *multipliers, _, _ in records]
    return band_sums(records, [*map(cos, turned)], [*map(sin, turned)])


def at_least(tenths, records):
    """'Choosing which lines are used': the records whose "amplitude (either of ip and op)" is at least so many tenths "in absolute value"."""
    return sum(1 << i for i, (*_, ip, op) in enumerate(records) if abs(ip) >= tenths or abs(op) >= tenths)


# The two profiles: "all lines, and those whose anelastic amplitude [..] is at least ten tenths".
ALL_LINES = (1 << len(PRINTED)) - 1
MAJOR_LINES = at_least(10, printed_records(ANELASTIC))


def named_lines(selection):
    """'Choosing which lines are used': the indices of the lines named, as "bit i stands for line i, in 01's order"."""
    return [i for i in range(len(PRINTED)) if selection >> i & 1]


def selection_test(selection):
    """'Choosing which lines are used', refusal 14: "a bit above 48" in an unsigned number."""
    return 14 if selection > ALL_LINES else 0


def step_two_sums(hour, love, selection):
    """'Choosing which lines are used', 'Sines kept with the hour': of "the lines named there only" the "sum over the values it holds"."""
    named = named_lines(selection)
    return band_sums(*([one[i] for i in named] for one in (printed_records(love), hour.cosines, hour.sines)))


def step_two_corrections(hour, love, selection):
    """'Step two': the corrections to C20, C21, S21, C22, S22 in counts, each rounded once."""
    return tuple(nearest(total, UNIT) for total in step_two_sums(hour, love, selection))


def step_two_exact(phases, love, selection):
    """'Step two' by the exact counterpart, over values worked out from the phases: the five sums as Fractions, in counts."""
    sums = step_two_sums(worked_out(phases, exact_sine_numerator, exact_cosine_numerator), love, selection)
    return tuple(Fraction(total, EXACT_DENOMINATOR) for total in sums)


def steptwo_program(data):
    """'Cases': the whole output of the program steptwo for the bytes of its input; it "keeps using all lines"."""
    if len(data) != 24:
        return b'refused\n'
    hour = set_hour(struct.unpack('<6I', data))
    rows = [('model', 'C20', 'C21', 'S21', 'C22', 'S22')]
    rows += [(love, *step_two_corrections(hour, love, ALL_LINES)) for love in (ELASTIC, ANELASTIC)]
    return ''.join(' '.join(map(str, row)) + '\n' for row in rows).encode('ascii')


# --- Tide lines of our own (02, T-01) ---

MOST_RECORDS = 64
AMPLITUDE_BOUND = 100_000        # tenths of 10^-12, 100 counts each


def record_fits(record):
    """'Tide lines of our own': the six multipliers and the two amplitudes of one record in their ranges."""
    first, *others, ip, op = record
    return (0 <= first <= 2
            and all(-13 <= n <= 13 for n in others)
            and all(abs(amplitude) <= AMPLITUDE_BOUND for amplitude in (ip, op)))


def records_test(records):
    """'Refusal numbers' 12, then 13, of any records: six multipliers, the in-phase and the out-of-phase amplitude."""
    if len(records) > MOST_RECORDS:
        return 12
    if not all(map(record_fits, records)):
        return 13
    return 0


def own_line_corrections(records, phases):
    """'Tide lines of our own': the corrections to C20, C21, S21, C22, S22 in counts, each rounded once."""
    return tuple(nearest(total, UNIT) for total in line_sums(records, phases, sine, cosine))


def own_lines_exact(records, phases):
    """'Tide lines of our own' by the exact counterpart: the five sums as Fractions, in counts."""
    sums = line_sums(records, phases, exact_sine_numerator, exact_cosine_numerator)
    return tuple(Fraction(total, EXACT_DENOMINATOR) for total in sums)


def own_lines(N, C, S, records, phases):
    """'Tide lines of our own' on a field: (number, C after, S after); refusals 1, 2, 12, 13."""
    refusal = field_test(N, C, S) or records_test(records)
    if refusal:
        return refusal, list(C), list(S)
    return 0, *added(C, S, by_place(own_line_corrections(records, phases)))


# --- Solid pole tide (02, T-05) ---

OFFSET_BOUND = MILLION           # micro-arcseconds


def offsets_test(xp, yp):
    """'Solid pole tide', refusal 15: an offset that is not "within ±1,000,000"."""
    return 0 if all(abs(offset) <= OFFSET_BOUND for offset in (xp, yp)) else 15


def pole_sums(xp, yp, love):
    """'Solid pole tide': what C21 and S21 take, each with its sign, and the divisor that makes either counts; nothing rounded."""
    if love == ELASTIC:
        return -1290 * xp, 1290 * yp, 1000
    return -1348 * (10000 * xp + 112 * yp), 1348 * (10000 * yp - 112 * xp), 10**7


def pole_corrections(xp, yp, love):
    """'Solid pole tide': the corrections to C21, S21 in counts, "one rounding each"."""
    *sums, divisor = pole_sums(xp, yp, love)
    return tuple(nearest(total, divisor) for total in sums)


def pole_tide(N, C, S, xp, yp, love):
    """'Solid pole tide' on a field: (number, C after, S after); refusals 1, 2, 15."""
    refusal = field_test(N, C, S) or offsets_test(xp, yp)
    if refusal:
        return refusal, list(C), list(S)
    return 0, *added(C, S, [(2, 1, *pole_corrections(xp, yp, love))])


# --- Model sheet and ocean tide ---

def section_count(data, at, low, high):
    """A section's 16-bit count, or None where it is missing or outside its range."""
    count = int.from_bytes(data[at:at + 2], 'little')
    return count if at + 2 <= len(data) and low <= count <= high else None


def sheet_sections(data):
    """'Model sheet', layout: counts of lines, tides and places with where each section's values start, or None for 7."""
    lines = section_count(data, 0, 1, 128)
    if lines is None:
        return None
    rows_at = 2 + 6 * lines + 2
    tides = section_count(data, rows_at - 2, 1, 32)
    if tides is None:
        return None
    places_at = rows_at + 4 * lines * tides + 2
    places = section_count(data, places_at - 2, 0, 90)
    if places is None or len(data) != places_at + places * (2 + 16 * tides):
        return None
    return (lines, 2), (tides, rows_at), (places, places_at)


def read_sheet(data):
    """'Model sheet': (0, (lines, rows, places)) with values untested, or (7, None).

    A line is six multipliers, a row one admittance per line, a place (n, m, quads), a quad C cos, S cos, C sin, S sin.
    """
    sections = sheet_sections(data)
    if sections is None:
        return 7, None
    (n_lines, lines_at), (n_tides, rows_at), (n_places, places_at) = sections
    lines = [struct.unpack_from('<6b', data, lines_at + 6 * i) for i in range(n_lines)]
    rows = [struct.unpack_from(f'<{n_lines}i', data, rows_at + 4 * n_lines * k) for k in range(n_tides)]
    places = []
    for i in range(n_places):
        n, m, *counts = struct.unpack_from(f'<2B{4 * n_tides}i', data, places_at + i * (2 + 16 * n_tides))
        places.append((n, m, [tuple(counts[k:k + 4]) for k in range(0, 4 * n_tides, 4)]))
    return 0, (lines, rows, places)


def place_fits(n, m, quads):
    """'Model sheet': degree, order and counts of one place in their ranges, the S counts zero at order 0."""
    return (1 <= n <= 12 and m <= n
            and all(abs(count) <= 1 << 24 for quad in quads for count in quad)
            and (m > 0 or all(quad[1] == quad[3] == 0 for quad in quads)))


def values_fit(sheet):
    """'Refusal numbers' 8: whether every value, row total and the order of the places is right."""
    lines, rows, places = sheet
    order = [(n, m) for n, m, _ in places]
    return (all(-13 <= n <= 13 for line in lines for n in line)
            and all(sum(map(abs, row)) <= 4 * MILLION for row in rows)
            and all(place_fits(*place) for place in places)
            and all(before < after for before, after in zip(order, order[1:])))


def has_twins(lines):
    """'Twin lines in a sheet' (02, T-09): whether two of the lines, "wherever the two rows stand", have "the same six multipliers".

    It is the "one condition" that "what 01 says of acceptance gains". Rows of admittances may be equal.
    """
    return any(one == two for one, two in combinations(lines, 2))


def sheet_test(data, N):
    """'Refusal numbers' 7, 8, 16, 9 of any bytes, for a field of degree N: (number, sheet or None). T-09's 16 is "after 8 and before 9"."""
    refusal, sheet = read_sheet(data)
    if refusal:
        return 7, None
    if not values_fit(sheet):
        return 8, None
    if has_twins(sheet[0]):
        return 16, None
    if any(n > N for n, _, _ in sheet[2]):
        return 9, None
    return 0, sheet


def row_sums(sheet, phases, sin, cos):
    """'Ocean tide': per tide the sums of admittance*cosine and admittance*sine, nothing rounded."""
    lines, rows, _ = sheet
    turned = [phase_of(line, phases) for line in lines]
    cosines, sines = [cos(phase) for phase in turned], [sin(phase) for phase in turned]
    return [tuple(sum(a * f for a, f in zip(row, values)) for values in (cosines, sines)) for row in rows]


def place_sums(sheet, factors, frame):
    """'Ocean tide': per place (n, m, sum for C, sum for S) over the tides, nothing rounded; degree 1 zero in MASS."""
    sums = []
    for n, m, quads in sheet[2]:
        c = s = 0
        if not (frame == MASS and n == 1):
            for (fcos, fsin), (ccos, scos, csin, ssin) in zip(factors, quads):
                c += fcos * ccos + fsin * csin
                s += fcos * scos + fsin * ssin
        sums.append((n, m, c, s))
    return sums


def ocean_corrections(sheet, phases, frame):
    """'Ocean tide': per place (n, m, dC, dS) in counts, fcos and fsin rounded once each and the sum over tides once."""
    factors = [(nearest(c, MILLION), nearest(s, MILLION)) for c, s in row_sums(sheet, phases, sine, cosine)]
    return [(n, m, nearest(c, UNIT), nearest(s, UNIT)) for n, m, c, s in place_sums(sheet, factors, frame)]


def ocean_exact(sheet, phases, frame):
    """'Ocean tide' by the exact counterpart: per place (n, m, dC, dS), the sums as Fractions, in counts."""
    factors = row_sums(sheet, phases, exact_sine_numerator, exact_cosine_numerator)
    below = EXACT_DENOMINATOR * MILLION
    return [(n, m, Fraction(c, below), Fraction(s, below)) for n, m, c, s in place_sums(sheet, factors, frame)]


def ocean(N, C, S, data, phases, frame):
    """'Ocean tide' on a field, from the bytes of a sheet: (number, C after, S after); refusals 1, 2, 7, 8, 16, 9."""
    refusal = field_test(N, C, S)
    if not refusal:
        refusal, sheet = sheet_test(data, N)
    if refusal:
        return refusal, list(C), list(S)
    return 0, *added(C, S, ocean_corrections(sheet, phases, frame))


# --- Permanent systems ---

PERMANENT = {ELASTIC: -4108147, ANELASTIC: -4200675}
MEAN_OVER_ZERO = -13914129


def above_tide_free(system, love):
    """'Permanent systems': what a C20 in this system has over the tide-free one."""
    return {TIDE_FREE: 0, ZERO: PERMANENT[love], MEAN: PERMANENT[love] + MEAN_OVER_ZERO}[system]


def move_c20(c20, have, want, love):
    """'Permanent systems': (0, the moved C20), or (2, None)."""
    if not -FIELD_BOUND <= c20 <= FIELD_BOUND:
        return 2, None
    return 0, c20 - above_tide_free(have, love) + above_tide_free(want, love)


# --- Step one: floats, one rounding per operation ---

RADIUS = 6378136.3
TINY = ldexp(1.0, -40)
COUNT_BOUND = ldexp(1.0, 52)

# (real, imaginary) per (n,m); an elastic k and every degree-3 k has imaginary part 0.
DEGREE_3 = {(3, 0): (0.093, 0.0), (3, 1): (0.093, 0.0), (3, 2): (0.093, 0.0), (3, 3): (0.094, 0.0)}
K = {
    ELASTIC: {(2, 0): (0.29525, 0.0), (2, 1): (0.29470, 0.0), (2, 2): (0.29801, 0.0), **DEGREE_3},
    ANELASTIC: {(2, 0): (0.30190, 0.0), (2, 1): (0.29830, -0.00144), (2, 2): (0.30102, -0.00130), **DEGREE_3},
}
K_PLUS = {ELASTIC: (-0.00087, -0.00079, -0.00057), ANELASTIC: (-0.00089, -0.00080, -0.00057)}

# Whether refusal 6 also looks at the unused dS of order 0. That dS is always a zero (Q and kI are), so nothing hangs on it.
TEST_UNUSED_DS = False


def root(over, under):
    """'Step one', N squared: the f64 nearest the root of over/under, by comparing whole-number squares."""
    shift = 0
    while isqrt((over << 2 * shift) // under) < 1 << 52:
        shift += 1
    below = isqrt((over << 2 * shift) // under)      # the root times 2^shift, cut: 53 bits
    if (2 * below + 1)**2 * under < over << 2 * shift + 2:
        below += 1
    return ldexp(below, -shift)


N_SQUARED = {(2, 0): (5, 1), (2, 1): (5, 3), (2, 2): (5, 12), (3, 0): (7, 1), (3, 1): (7, 6), (3, 2): (7, 60), (3, 3): (7, 360)}
NORMAL = {place: root(*squared) for place, squared in N_SQUARED.items()}


def direction(place):
    """'Step one': u, v, w of a place of either kind."""
    kind, one, two, three, r = place
    if kind == RECTANGULAR:
        return one / r, two / r, three / r
    assert kind == DIRECTION
    return one, two, three


def body_test(body):
    """'Refusal numbers' 3, 4, 5, of one body: a mass ratio and a place of any floats."""
    ratio, place = body
    r = place[4]
    if not all(map(isfinite, (ratio, *place[1:]))):
        return 3
    if not (1e8 <= r <= 1e12 and 0.0 < ratio <= 1e6):
        return 4
    u, v, w = direction(place)
    if not -TINY <= ((u * u + v * v) + w * w) - 1.0 <= TINY:
        return 5
    return 0


def powers(u, v):
    """'Step one': the pairs E(m), F(m) for m = 0..3."""
    pairs = [(1.0, 0.0)]
    for _ in range(3):
        E, F = pairs[-1]
        pairs.append((u * E - v * F, u * F + v * E))
    return pairs


def legendre(w):
    """'Step one': the seven L."""
    w2 = w * w
    return {
        (2, 0): (3.0 * w2 - 1.0) / 2.0, (2, 1): 3.0 * w, (2, 2): 3.0,
        (3, 0): ((5.0 * w2 - 3.0) * w) / 2.0, (3, 1): (15.0 * w2 - 3.0) / 2.0, (3, 2): 15.0 * w, (3, 3): 15.0,
    }


def body_parts(body):
    """'Step one': P and Q of one body per (n,m), before the division."""
    ratio, place = body
    u, v, w = direction(place)
    q = RADIUS / place[4]
    q3 = (q * q) * q
    q4 = q3 * q
    W = {2: ratio * q3, 3: ratio * q4}
    L, pairs = legendre(w), powers(u, v)
    parts = {}
    for n, m in NORMAL:
        t = (NORMAL[n, m] * L[n, m]) * W[n]
        E, F = pairs[m]
        parts[n, m] = t * E, t * F
    return parts


def step_one_products(moon, sun, love):
    """'Step one': per (n,m) the floats dC*10^15 and dS*10^15, before refusal 6 and the permanent part."""
    of_moon, of_sun = body_parts(moon), body_parts(sun)
    products = {}
    for n, m in NORMAL:
        below = {2: 5.0, 3: 7.0}[n]
        P, Q = ((a + b) / below for a, b in zip(of_moon[n, m], of_sun[n, m]))
        kR, kI = K[love][n, m]
        products[n, m] = (kR * P + kI * Q) * 1e15, (kR * Q - kI * P) * 1e15
        if n == 2:
            k_plus = K_PLUS[love][m]
            products[4, m] = (k_plus * P) * 1e15, (k_plus * Q) * 1e15
    return products


def countable(m, dC, dS):
    """'Refusal numbers' 6, of one (n,m): strictly between the bounds, which no infinity and no NaN is."""
    tested = (dC, dS) if m > 0 or TEST_UNUSED_DS else (dC,)
    return all(-COUNT_BOUND < product < COUNT_BOUND for product in tested)


def step_one_corrections(moon, sun, love):
    """'Step one': (0, [(n, m, dC, dS)]) in counts, C20 less its permanent part, or (3, 4, 5 or 6, None)."""
    refusal = body_test(moon) or body_test(sun)
    if refusal:
        return refusal, None
    products = step_one_products(moon, sun, love)
    if not all(countable(m, dC, dS) for (_, m), (dC, dS) in products.items()):
        return 6, None
    corrections = []
    for (n, m), (dC, dS) in sorted(products.items()):
        permanent = PERMANENT[love] if (n, m) == (2, 0) else 0
        corrections.append((n, m, nearest_float(dC) - permanent, nearest_float(dS) if m > 0 else 0))
    return 0, corrections


# --- One call for the solid tide (02, T-06), which "takes this record in place of bare phases" (T-08) ---

def solid_corrections(moon, sun, love, hour, selection):
    """'One call for the solid tide': (0, [(n, m, dC, dS)]), at each place "the sum of the two" steps, or (3, 4, 5 or 6, None)."""
    refusal, corrections = step_one_corrections(moon, sun, love)
    if refusal:
        return refusal, None
    second = {(n, m): two for n, m, *two in by_place(step_two_corrections(hour, love, selection))}
    sums = []
    for n, m, dC, dS in corrections:
        more_c, more_s = second.get((n, m), (0, 0))
        sums.append((n, m, dC + more_c, dS + more_s))
    return 0, sums


def solid_tide(N, C, S, moon, sun, love, hour, selection):
    """'One call for the solid tide' on a field: (number, "how many lines the selection names" or None, C after, S after).

    It "reads the kept values" of the hour, any record, and not its phases. "Refusals: 1, 2, 14, then the Moon's 3, 4, 5, the Sun's, and 6"; "where a
    call is refused nothing of either step is added".
    """
    refusal = field_test(N, C, S) or selection_test(selection)
    if not refusal:
        refusal, corrections = solid_corrections(moon, sun, love, hour, selection)
    if refusal:
        return refusal, None, list(C), list(S)
    return 0, len(named_lines(selection)), *added(C, S, corrections)
