"""Makes the cases that the program `run` runs the unit's calls on, and the lines that it must print, from tides.py alone; and cases for the C
boundary.

python3 values.py           writes stdin and stdout of crates/run, and tests/boundary/stored.txt
python3 values.py --check   makes them anew; exits 1 with one line where a stored file differs

Numbers stand little-endian. The input begins with the number of its cases, in 32 bits. A case is a byte for the call, and what it takes; a call
over a field takes first the degree, the lengths of both lists, and their entries. A line is the refusal's number, or 0 and the values
answered; of a call over a field, every entry of both lists as they are afterwards follows.
An hour is the number of its steps, in 32 bits, and the steps, from the start: a byte 0 and six phases, which are set; a byte 1, a byte for the
argument, 0..5, and a signed amount in 32 bits, by which it is moved; or a byte 2, six phases, 49 cosines and 49 sines, a record written by
hand. The call 7 takes an hour alone and answers its six phases, cosines and sines; the call 4 takes one in place of phases.
The cases of own_lines, and some of hours, stand in the words that tests/boundary/values.py writes for the C boundary; each call over a field has
one of its own.
These are more than a thousand cases, which show each call at its edges. tests/boundary/values.py holds the calls to thousands, made when it runs.
"""

import struct
import sys
from collections import Counter
from itertools import combinations, cycle, product
from math import ldexp, nextafter
from pathlib import Path
from runpy import run_path

import given
import telling
import tides as t
from chance import Chance
from given import EDGE, GOOD, LEAST_32, LEAST_64, NONE, SMALL, U32, placed, spoilt, spoilt_body, write_sheet

ROOT = Path(__file__).resolve().parent.parent
BOUNDARY = run_path(str(ROOT / 'tests' / 'boundary' / 'values.py'))
chance, ways = Chance(19960622), Chance(19960624)

LOVES = t.ELASTIC, t.ANELASTIC
FRAMES = t.FIGURE, t.MASS
SYSTEMS = t.TIDE_FREE, t.ZERO, t.MEAN
KINDS = t.RECTANGULAR, t.DIRECTION
BEYOND = EDGE, EDGE + 1, -EDGE, -EDGE - 1, LEAST_64, -1 - LEAST_64

cases, lines, worded, tally = [], [], [], Counter()
lent = []                # every call over a field: its name, what it does to a field, and the field
hours, hours_in_words = [], []                   # the steps of every hour asked for


def case(kind, call, data, number, values):
    cases.append(bytes((kind,)) + data)
    lines.append(' '.join(map(str, (number, *values))))
    tally[call, number] += 1


# --- Calls that lend no field ---

def read(number):
    refusal, multipliers = t.doodson_read(number)
    case(0, 'multipliers_of', struct.pack('<I', number), refusal, multipliers or ())


def written(multipliers):
    refusal, number = t.doodson_write(multipliers)
    case(1, 'number_of', struct.pack('<6i', *multipliers), refusal, () if refusal else (number,))


def sought(number):
    refusal, line = t.find_line(number)
    case(2, 'find_line', struct.pack('<I', number), refusal, line or ())


def moved(c20, have, want, love):
    refusal, after = t.move_c20(c20, have, want, love)
    choices = bytes((SYSTEMS.index(have), SYSTEMS.index(want), LOVES.index(love)))
    case(3, 'move_c20', struct.pack('<q', c20) + choices, refusal, () if refusal else (after,))


def numbers():
    for number in (0, 9, 555_555, 999_999, 1_000_000, 1 << 31, U32, *(chance.below(1_000_000) for _ in range(8))):
        read(number)
        sought(number)
    for number, _, _ in t.PRINTED:
        sought(number)
        written(t.doodson_read(number)[1])
    for number in (135_644, 255_556, 1_165_555):
        sought(number)
    for place, (low, high) in enumerate([(0, 9)] + [(-5, 4)] * 5):
        for value in (low - 1, low, high, high + 1, low + 256, *((-(1 << 31), (1 << 31) - 1) if place == 3 else ())):
            written(tuple(spoilt(NONE, place, value)))
    for have, want, love in product(SYSTEMS, SYSTEMS, LOVES):
        moved(chance.one(0, -484165143790, chance.between(-EDGE, EDGE)), have, want, love)
    for c20 in BEYOND:
        moved(c20, t.TIDE_FREE, t.MEAN, t.ANELASTIC)


# --- Hours ---

STEPS = {given.SET: '<B6I', given.MOVE: '<BBi', given.WRITE: '<B6I98i'}


def hour_bytes(steps):
    return struct.pack('<I', len(steps)) + b''.join(struct.pack(STEPS[step[0]], *step) for step in steps)


def hour(steps):
    case(7, 'hour', hour_bytes(steps), 0, (value for part in given.hour_after(steps) for value in part))
    hours.append(steps)


# --- Calls over a field ---

def over_field(N, C, S, call):
    """A call is its byte, its name, its own bytes, and what it does to a field. Answers the field afterwards."""
    kind, name, data, does = call
    number, *values, after_c, after_s = does(N, C, S)
    lists = struct.pack('<III', N, len(C), len(S)) + struct.pack(f'<{len(C) + len(S)}q', *C, *S)
    case(kind, name, lists + data, number, (*(() if number else values), *after_c, *after_s))
    lent.append((name, does, (N, C, S)))
    return N, after_c, after_s


def body_bytes(body):
    ratio, (kind, *floats) = body
    return struct.pack('<dB4d', ratio, KINDS.index(kind), *floats)


def solid_tide(moon, sun, love, steps, selection):
    data = bytes((LOVES.index(love),)) + body_bytes(moon) + body_bytes(sun) + hour_bytes(steps) + struct.pack('<Q', selection)
    return 4, 'solid_tide', data, lambda N, C, S: t.solid_tide(N, C, S, moon, sun, love, given.hour_after(steps), selection)


def at_phases(moon, sun, love, phases, selection):
    """The solid tide of an hour that is brought to these phases."""
    return solid_tide(moon, sun, love, given.steps_to(ways, phases), selection)


def by_bodies(moon, sun, love):
    """The solid tide of these bodies, with any phases and lines."""
    return at_phases(moon, sun, love, given.phases(chance), given.lines_or_none(chance))


def by_lines(phases, love, selection=t.ALL_LINES):
    """The solid tide of these lines, with any bodies that pass."""
    return at_phases(*telling.pair(chance), love, phases, selection)


def ocean_tide(sheet, phases, frame):
    data = bytes((FRAMES.index(frame),)) + struct.pack('<6I', *phases) + struct.pack('<I', len(sheet)) + sheet
    return 5, 'ocean_tide', data, lambda N, C, S: t.ocean(N, C, S, sheet, phases, frame)


def pole_tide(xp, yp, love):
    data = bytes((LOVES.index(love),)) + struct.pack('<2q', xp, yp)
    return 6, 'pole_tide', data, lambda N, C, S: t.pole_tide(N, C, S, xp, yp, love)


ZEROS = 4, [0] * 15, [0] * 15


def field_edges(call):
    """Refusals 1 and 2, 1 before 2, and a field whose entries stand at the range's ends."""
    for N in (0, 3, 61, U32):
        over_field(N, [5] * 15, [6] * 15, call)
    for c, s in ((14, 15), (15, 14), (16, 15), (15, 16), (0, 0), (21, 21)):
        over_field(4, [EDGE + 1] * c, [6] * s, call)
    fine = [7] * 15
    for entry in BEYOND:
        over_field(4, spoilt(fine, chance.below(15), entry), fine, call)
        over_field(4, fine, spoilt(fine, chance.below(15), entry), call)
    for N in (5, 17):
        over_field(*given.varied_field(chance, N), call)
    over_field(*over_field(*given.varied_field(chance, 4), call), call)         # a second call adds as the first did


def fields_first(call):
    """1 and 2 before the number that the call is refused with on any other field."""
    for N, c in ((3, 15), (61, 15), (4, 14)):
        over_field(N, [5] * c, [6] * 15, call)
    for entry in (EDGE + 1, LEAST_64):
        over_field(4, spoilt(ZEROS[1], chance.below(15), entry), ZEROS[2], call)
        over_field(4, ZEROS[1], spoilt(ZEROS[2], chance.below(15), entry), call)


def bodies():
    """Refusals 3, 4 and 5 of either body and their order, the last floats that pass, and refusal 6."""
    faults = [body for _, body in given.faulty_bodies()[::3]]
    for i, bad in enumerate(faults):
        over_field(*ZEROS, by_bodies(bad, chance.one(*GOOD, faults[-1 - i]), LOVES[i % 2]))
        over_field(*ZEROS, by_bodies(GOOD[0], bad, LOVES[i // 2 % 2]))
    far = 1e-3, (t.DIRECTION, 0.0, -0.6, 0.8, 1e12)
    for at, value in ((4, 1e8), (4, 1e12), (0, 5e-324), (0, 1e6)):
        over_field(*ZEROS, by_bodies(spoilt_body(far, at, value), GOOD[0], t.ANELASTIC))
    half = ldexp(1.0, -41)
    for at, edge in product((1, 2, 3), (1.0 + half, 1.0 - half, -1.0 - half)):
        for value in (edge, nextafter(edge, 2 * edge if abs(edge) > 1 else 0.0)):
            over_field(*ZEROS, by_bodies(spoilt_body((1.0, (t.DIRECTION, 0.0, 0.0, 0.0, 1e9)), at, value), GOOD[1], t.ELASTIC))
    for i in range(6):                                                          # the last ratio whose corrections stay below 2^52, and the next
        axis, love = chance.direction(), LOVES[i % 2]
        heavy = lambda ratio: (ratio, placed(KINDS[i // 2 % 2], *axis, 1e8))
        for ratio in last_passing(lambda ratio: t.step_one_corrections(heavy(ratio), GOOD[0], love)[0] == 0, 1.0, 1e6):
            over_field(*ZEROS, by_bodies(heavy(ratio), GOOD[0], love))
            over_field(*ZEROS, at_phases(heavy(ratio), GOOD[0], love, given.phases(chance), t.ALL_LINES))
        over_field(*ZEROS, by_bodies(heavy(1e6), spoilt_body(GOOD[0], 1, 7.0), love))


def last_passing(passes, low, high):
    """The neighbouring floats between low, which passes, and high, which does not, at which passing ends."""
    assert passes(low) and not passes(high)
    while nextafter(low, high) != high:
        middle = (low + high) / 2
        low, high = (middle, high) if passes(middle) else (low, middle)
    return low, high


def orders():
    """Any two faults of the solid tide, and all from any one on: the number that is first in its order."""
    for faults in (*combinations(range(10), 2), *combinations(range(10), 2), *(range(first, 10) for first in range(10))):
        field, moon, sun, selection = given.solid_with(chance, faults)
        over_field(*field, at_phases(moon, sun, chance.one(*LOVES), given.phases(chance), selection))


def solid():
    any_call = lambda love: by_bodies(given.moon(chance), given.sun(chance), love)
    field_edges(by_lines(given.phases(chance), t.ANELASTIC))
    bodies()
    orders()
    for i in range(60):
        over_field(*chance.one(ZEROS, given.varied_field(chance, 4)), any_call(LOVES[i % 2]))
    for i, coefficient in enumerate(telling.COEFFICIENTS):
        over_field(*ZEROS, by_bodies(*telling.at_a_half(chance, coefficient, LOVES[i % 2]), LOVES[i % 2]))
    for letter in 'CS':
        coefficients = cycle(one for one in telling.COEFFICIENTS[:5] if one[2] == letter)
        for i, (goal, coefficient) in enumerate(zip(telling.SMALL_HALVES, coefficients)):
            over_field(*ZEROS, by_bodies(*telling.at_a_small_half(chance, coefficient, LOVES[i % 2], goal), LOVES[i % 2]))
    for love in LOVES:
        for phases in (NONE, (1 << 30, 0, 0, 0, 0, 0), (U32,) * 6, *telling.tie_phases(), *telling.QUARTERS):
            over_field(*ZEROS, by_lines(phases, love))
        over_field(*ZEROS, at_phases(*telling.DAY_BODIES, love, telling.DAY_PHASES, t.ALL_LINES))
    for place, k in product(range(6), range(8)):                                # each argument beside an edge of the eighths
        over_field(*ZEROS, by_lines(tuple(spoilt(NONE, place, (k << 29) + chance.between(-1, 1) & U32)), LOVES[k % 2]))
    over_field(*given.varied_field(chance, 60), any_call(t.ANELASTIC))
    beyond_the_range()


def beyond_the_range():
    """Fields that step one alone would take out of the range, accepted; lent again, refused with 2 once the sum of both has left it."""
    for edge in (EDGE, -EDGE):
        call = by_lines(given.phases(chance), t.ELASTIC)
        over_field(*over_field(4, [edge] * 15, [edge] * 15, call), call)
    field, call = telling.day_field(), at_phases(*telling.DAY_BODIES, t.ANELASTIC, telling.DAY_PHASES, t.ALL_LINES)
    for _ in range(3):
        field = over_field(*field, call)


def sheet_refusals():
    """7, 8 and 9, and 7 before 8 before 9, of sheets without twins."""
    small, zero = write_sheet(*SMALL), [(0,) * 4]
    call = lambda sheet: ocean_tide(sheet, given.phases(chance), chance.one(*FRAMES))
    refuse = lambda sheet, N=5: over_field(N, [1] * t.size(N), [2] * t.size(N), call(sheet))
    for cut in (0, 1, 2, 3, 13, 14, 15, 40, 41, 42, 43, len(small) - 1):
        refuse(small[:cut])
    refuse(small + b'\0')
    for at, counts in zip((0, 14, 40), ((0, 1, 3, 129, 65535), (0, 2, 4, 33, 65535), (0, 2, 4, 91, 65535))):
        for count in counts:
            refuse(small[:at] + struct.pack('<H', count) + small[at + 2:])
    for counts in ((0, 1, 0), (129, 1, 0), (1, 0, 0), (1, 33, 0), (1, 1, 91), (128, 1, 1), (1, 32, 1), (1, 1, 90)):
        refuse(given.shaped_sheet(*counts), 12)
    for sheet in list(given.faulty_sheets())[::3]:
        refuse(write_sheet(*sheet), 4)
    bad = write_sheet(*sheet)
    refuse(bad[:-1])
    for N in (4, 5, 11, 12):
        refuse(write_sheet(SMALL[0], [[0, 0]], [(2, 2, zero), (N, 0, zero)]), N)
        refuse(write_sheet(SMALL[0], [[0, 0]], [(2, 2, zero), (N, N, zero)]), max(4, N - 1))
    over_field(3, *ZEROS[1:], call(bad[:-1]))
    over_field(4, [EDGE + 1] * 15, [0] * 15, call(bad))


def ocean():
    nine = write_sheet([(2, 0, 0, 0, 0, 0)], [[1_000_000]], [(2, 2, [(1000, 0, 0, -500)])])
    for tau, frame in product((0, 1 << 29), FRAMES):
        over_field(*ZEROS, ocean_tide(nine, (tau, 0, 0, 0, 0, 0), frame))
    for sheet in (nine[:33], nine + b'\0'):
        over_field(*ZEROS, ocean_tide(sheet, NONE, t.FIGURE))
    field_edges(ocean_tide(nine, given.phases(chance), t.FIGURE))
    sheet_refusals()
    any_sheet = lambda *counts: write_sheet(*given.sheet(chance, *counts))
    for i in range(24):
        top = chance.one(4, 4, 6)
        sheet = any_sheet(chance.between(1, 5), chance.between(1, 3), chance.between(0, 5), top)
        over_field(*given.varied_field(chance, top), ocean_tide(sheet, given.phases(chance), FRAMES[i % 2]))
    for frame in FRAMES:                                                        # degree 1 beside other degrees
        over_field(*given.varied_field(chance, 4), ocean_tide(any_sheet(2, 2, 14, 4), given.phases(chance), frame))
    ties = *telling.factor_ties((0, 1)), *telling.correction_ties((1, 3)), *telling.beside_correction_ties(), *telling.tied_throughout()
    for frame, (sheet, phases) in zip(cycle(FRAMES), ties):
        over_field(*ZEROS, ocean_tide(sheet, phases, frame))
    for phase in (*((k << 29) + d & U32 for k in range(8) for d in (-1, 0, 1)), *telling.WAVE_PHASES):
        _, C, S = over_field(*ZEROS, ocean_tide(given.wave_sheet(), (phase, 0, 0, 0, 0, 0), t.FIGURE))
        assert (C[5], S[5]) == (t.cosine(phase), t.sine(phase))
    over_field(*given.varied_field(chance, 12), ocean_tide(any_sheet(128, 2, 90), given.phases(chance), t.FIGURE))
    over_field(*given.varied_field(chance, 60), ocean_tide(any_sheet(128, 32, 90), given.phases(chance), t.MASS))


# --- As words ---

def in_words(case):
    worded.extend(' '.join(map(str, words)) for words in BOUNDARY['words'](case))


# --- Tide lines of our own, in words ---

def own_lines(N, C, S, records, phases):
    in_words(((N, C, S), [BOUNDARY['own_lines'](records, phases)]))
    does = lambda N, C, S: t.own_lines(N, C, S, records, phases)
    tally['own_lines', does(N, C, S)[0]] += 1
    lent.append(('own_lines', does, (N, C, S)))


def own():
    """Each band at the quarters of a turn, a list of every kind, the ends of each range, and 12, 13 and their order."""
    quarter, good = 1 << 30, (1, 2, -3, 4, -5, 6, 700, -800)
    varied = lambda: given.varied_field(chance, 4)
    own_lines(*ZEROS, telling.OWN_RECORDS, telling.DAY_PHASES)
    own_lines(*varied(), [], given.phases(chance))
    for k in range(4):
        own_lines(*ZEROS, [telling.in_band(band, 3, 5) for band in range(3)], telling.at_s(k * quarter))
    for band in range(3):
        own_lines(*ZEROS, [telling.in_band(band, 3, 5)], telling.at_s(quarter // 2))
        own_lines(*varied(), [telling.in_band(band, 3, 5)] * 2, given.phases(chance))
    ties, small = list(telling.own_line_ties())[::33], list(telling.small_records())[3::6]
    for records, phases in (*ties, *telling.band_ties(), *small, *telling.near_zero_records()):
        own_lines(*ZEROS, records, phases)
    for one in telling.SUMS:
        own_lines(*ZEROS, *telling.at_a_tie(chance, *one, 0)[:2])
    for low_or_high in zip(*given.RECORD_ENDS):
        own_lines(*varied(), [low_or_high], given.phases(chance))
    for at, value in ((0, -1), (0, 3), (3, 14), (5, -14), (6, 100_001), (7, -100_001), (0, 256), (1, 1 << 16), (2, LEAST_32),
                      (6, 1 << 32), (7, LEAST_64)):
        own_lines(*varied(), [good, given.spoilt_record(good, at, value)], given.phases(chance))
    for least_or_most in zip(*given.WIDTHS):
        own_lines(*varied(), [least_or_most], given.phases(chance))
    for count in (64, 65):
        own_lines(*given.varied_field(chance, 12), given.records(chance, count), given.phases(chance))
        own_lines(*given.varied_field(chance, 12), [*given.records(chance, count - 1), least_or_most], given.phases(chance))
    for bad in ([least_or_most], [good] * 65):
        own_lines(3, *ZEROS[1:], bad, NONE)
        own_lines(4, spoilt(ZEROS[1], chance.below(15), EDGE + 1), ZEROS[2], bad, NONE)


# --- Choosing which lines are used ---

def selections():
    """Each line alone, two at a border and all but those, each band, none, the profiles, small lines together; 14, and 1 and 2 before it."""
    varied = lambda: given.varied_field(chance, 4)
    at_lines = lambda selection, love: over_field(*ZEROS, by_lines(telling.LINE_PHASES, love, selection))
    for i in given.LINES:
        at_lines(1 << i, t.ANELASTIC if 1 << i & given.BANDS[1] else LOVES[i % 2])
    for i in (26, 27, 37, 46):                                                  # counted, and adds nothing
        over_field(*varied(), by_lines(given.phases(chance), t.ELASTIC, 1 << i))
    for i, j in ((0, 48), (25, 26), (31, 32), (46, 47)):
        at_lines(1 << i | 1 << j, t.ANELASTIC)
        at_lines(t.ALL_LINES ^ (1 << i | 1 << j), chance.one(*LOVES))
    for selection, love in product((0, *given.BANDS, t.ALL_LINES, t.MAJOR_LINES), LOVES):
        over_field(*varied(), by_lines(given.phases(chance), love, selection))
    for selection, phases in (*(two for *two, _ in telling.faint_lines()), *telling.near_zero_lines()):
        over_field(*ZEROS, by_lines(phases, t.ANELASTIC, selection))
    for i in range(10):
        over_field(*varied(), by_lines(given.phases(chance), LOVES[i % 2], given.accepted_selection(chance)))
    call = by_lines(telling.LINE_PHASES, t.ANELASTIC, t.ALL_LINES ^ t.MAJOR_LINES)
    over_field(*over_field(*ZEROS, call), call)
    over = by_lines(given.phases(chance), t.ANELASTIC, t.MAJOR_LINES | 1 << 49)
    for selection in (*given.ABOVE, 1 << 49 | 1, 1 << 63 | t.ALL_LINES, (1 << 64) - 1, (1 << 64) - (1 << 49)):
        over_field(*ZEROS, by_lines(telling.LINE_PHASES, chance.one(*LOVES), selection))
    over_field(*varied(), over)
    fields_first(over)


# --- Solid pole tide ---

def pole():
    """Offsets that tell slips, the ends and one beyond among them; 15, and 1 and 2 before it; a result out of the field's range, lent again."""
    field_edges(pole_tide(*telling.POLE_OFFSETS[1], t.ANELASTIC))
    for one in telling.pole_calls():
        over_field(*chance.one(ZEROS, given.varied_field(chance, 4)), pole_tide(*one))
    fields_first(pole_tide(*given.faulty_offsets(chance), t.ELASTIC))
    rising = pole_tide(-given.OFFSET_EDGE, given.OFFSET_EDGE, t.ELASTIC)        # both corrections are above 0
    over_field(*over_field(4, [EDGE] * 15, [EDGE] * 15, rising), rising)
    over_field(*given.varied_field(chance, 60), pole_tide(*given.offsets(chance), t.ANELASTIC))


# --- Sines kept with the hour ---

def hour_in_words(steps):
    in_words(('hour', steps))
    hours_in_words.append(steps)
    tally['hour', BOUNDARY['hour_answer'](steps)[0]] += 1


def kept():
    """Hours that tell slips, and two long ways; then solid tides of such hours, one hour for several fields, and refused ones.

    In words, numbers that name no argument: last, and before other steps.
    """
    move, held = given.MOVE, given.written(telling.HELD)
    for steps in telling.hour_steps():
        hour(steps)
    way = lambda first, then: [*(given.set_or_move(chance) for _ in range(first)), *(given.move(chance) for _ in range(then))]
    hour(way(20, 20))
    hour([*way(4, 2), given.written(given.any_hour(chance)), *way(0, 4)])
    for steps, love, selection in telling.kept_calls():
        over_field(*ZEROS, solid_tide(*telling.pair(chance), love, steps, selection))
    call = solid_tide(*telling.pair(chance), t.ANELASTIC, way(4, 8), t.ALL_LINES)
    for N in (4, 5, 4):
        after = over_field(*given.varied_field(chance, N), call)
    over_field(*after, call)
    over_field(*ZEROS, solid_tide(*telling.pair(chance), t.ELASTIC, [held], 1 << 49))
    for tried in ([6], [U32], [256, 0], [(1 << 16) + 1, 5], [2, (1 << 31) + 3]):
        hour_in_words([held, *((move, number, 1 << 29) for number in tried)])
    hour_in_words([])
    hour_in_words([given.all_set(telling.DAY_PHASES), *((move, at, LEAST_32 + at) for at in range(6))])
    for steps in ([given.all_set(telling.DAY_PHASES), (move, 6, 1)], [held, (move, 1 << 8, 1), (move, 4, -1)]):
        in_words((ZEROS, [BOUNDARY['solid_tide'](*telling.DAY_BODIES, steps, t.ALL_LINES, 1)]))
        tally['solid_tide', 0] += 1


# --- Twin lines in a sheet ---

def twins():
    """Sheets that tell slips, and one of each kind in both frames and twice in a row; 1 and 2 before 16; and any two faults of the ocean tide, and all
    from any one on: the number that is first in its order."""
    call = lambda sheet, frame: ocean_tide(sheet, given.phases(chance), frame)
    for (_, N, sheet), frame in zip(telling.twin_calls(), cycle(FRAMES)):
        over_field(*given.varied_field(chance, N), call(sheet, frame))
    for sheet, frame in product((telling.lined([telling.STAIRS[0]] * 2), telling.lined(telling.STAIRS)), FRAMES):
        one = call(sheet, frame)
        over_field(*over_field(*given.varied_field(chance, 4), one), one)
    fields_first(call(telling.lined(given.twinned(telling.STAIRS, 1, 3)), t.FIGURE))
    for faults in (*combinations(range(6), 2), *(range(first, 6) for first in range(6))):
        field, sheet = given.ocean_with(chance, faults)
        over_field(*field, call(sheet, chance.one(*FRAMES)))


def make():
    """Every case, in the order in which it is stored."""
    for part in (numbers, solid, ocean, own, selections, pole, kept, twins):
        part()


def main():
    make()
    in_lines = lambda texts: ''.join(text + '\n' for text in texts).encode('ascii')
    files = {'crates/run/stdin': struct.pack('<I', len(cases)) + b''.join(cases), 'crates/run/stdout': in_lines(lines),
             'tests/boundary/stored.txt': in_lines(worded)}
    for name, data in files.items():
        path = ROOT / name
        if sys.argv[1:] != ['--check']:
            path.write_bytes(data)
        elif not path.is_file() or path.read_bytes() != data:
            print(f'{name} differs from what second/values.py makes')
            sys.exit(1)
    by_number = ', '.join(f'{call} {number}: {count}' for (call, number), count in sorted(tally.items()))
    calls = sum(not line.startswith('field ') for line in worded)
    print(f'stored cases: {len(cases)} for run, {calls} as words; by call and number: {by_number}')


if __name__ == '__main__':
    main()
