"""Writes calls and the second program's answers to them, as words, for values.c: `python3 values.py > FILE`.

`field`, a degree and two lists lend a field; the calls after it are made on it in turn. A call is its name, what is given (floats as their bits,
records and bytes after how many there are), the number answered, where that is 0 the results, and on a field for each list the entries changed. All
other entries must stay as they were.

An hour is how many steps there are and the steps, from the start: `0` and six phases, which are set; `1`, an argument's number and the amount it
is moved by, or any other number, which is answered by 100 and changes nothing; `2`, six phases, 49 cosines and 49 sines, a record written by
hand. `solid_tide` takes one in place of phases. `hour` has one, the number that its last step answers, 0 where there is none, and always the six
phases, 49 cosines and 49 sines that the record has in the end.

`file` and its bytes lend a file; `file_head` and `read_field` after it are made on it. Of `read_field` the lengths of two lists are given, and where
the number is 0 the results are the head's four and both lists, which must stay as they were where it is not.
"""

import struct
import sys
from collections import Counter
from itertools import combinations, product
from math import inf, ldexp, nextafter
from pathlib import Path

sys.path.insert(0, str(Path(__file__).resolve().parents[2] / 'second'))
import check_files
import field_files as ff
import files
import given as g
import telling
import tides as t
from chance import Chance

LOVES = (t.ELASTIC, t.ANELASTIC)
FRAMES = (t.FIGURE, t.MASS)
SYSTEMS = (t.TIDE_FREE, t.ZERO, t.MEAN)
KINDS = (t.RECTANGULAR, t.DIRECTION)
PROFILES = {'all_lines': t.ALL_LINES, 'major_lines': t.MAJOR_LINES}
NO_SUCH_CHOICE = 100
NO_CHOICES = (3, 255, 256, 1 << 31, (1 << 31) + 1, g.U32)
ZEROS = 4, [0] * 15, [0] * 15
HALVES = 120             # Moons and Suns for each coefficient and Love model

chance, ways = Chance(19960621), Chance(19960625)


# --- Calls: what is given, by the numbers that C uses for the choices ---

def solid_tide(moon, sun, steps, selection, love):
    return 'solid_tide', love, *((KINDS.index(kind), ratio, *floats) for ratio, (kind, *floats) in (moon, sun)), steps, selection


def at_phases(moon, sun, phases, selection, love):
    """The solid tide of an hour that is brought to these phases, one time in 16 with a number that names no argument among its steps."""
    steps = g.steps_to(ways, phases)
    if ways.one_in(16):
        steps.insert(ways.below(len(steps) + 1), no_argument(ways))
    return solid_tide(moon, sun, steps, selection, love)


def by_bodies(moon, sun, love):
    """The solid tide of these bodies, with any phases and lines."""
    return at_phases(moon, sun, g.phases(chance), g.lines_or_none(chance), love)


def by_lines(phases, love, selection=t.ALL_LINES):
    """The solid tide of these lines, with any bodies that pass."""
    return at_phases(*telling.pair(chance), phases, selection, love)


def ocean_tide(data, phases, frame):
    return 'ocean_tide', frame, phases, data


def own_lines(records, phases):
    return 'own_lines', records, phases


def pole_tide(xp, yp, love):
    return 'pole_tide', love, xp, yp


def write_field(constant, radius, room, system):
    return 'write_field', system, constant, radius, room


def either(call, *args):
    """The call with either Love model or frame."""
    return [call(*args, 0), call(*args, 1)]


# --- The second program's answers ---

def named(cases, number):
    return cases[number] if number < len(cases) else None


def hour_answer(steps):
    """The number that the last step answers, and the record."""
    refused = steps and steps[-1][0] == g.MOVE and named(t.ARGUMENTS, steps[-1][1]) is None
    return NO_SUCH_CHOICE if refused else 0, g.hour_after(steps)


def on_field(call, N, C, S):
    """(number, results if there are any, C after, S after) of a call on a field."""
    name, *args = call
    if name == 'own_lines':
        return t.own_lines(N, C, S, *args)
    choice, *rest = args
    if name == 'solid_tide':
        *bodies, steps, selection = rest
        love, kinds = named(LOVES, choice), [named(KINDS, one[0]) for one in bodies]
        if love and all(kinds):
            moon, sun = ((ratio, (kind, *floats)) for kind, (_, ratio, *floats) in zip(kinds, bodies))
            return t.solid_tide(N, C, S, moon, sun, love, g.hour_after(steps), selection)
    elif name == 'pole_tide':
        if named(LOVES, choice):
            return t.pole_tide(N, C, S, *rest, named(LOVES, choice))
    elif name == 'write_field':
        if named(SYSTEMS, choice):
            answer = files.write_file(N, C, S, *rest[:2], choice, rest[2])
            return (answer, C, S) if isinstance(answer, int) else (0, *in_hex(answer), C, S)
    elif named(FRAMES, choice):
        return t.ocean(N, C, S, rest[1], rest[0], named(FRAMES, choice))
    return NO_SUCH_CHOICE, C, S


def alone(name, *args):
    """The number and the results of a call without a field."""
    if name == 'move_c20':
        c20, have, want, love = args
        choices = named(SYSTEMS, have), named(SYSTEMS, want), named(LOVES, love)
        number, moved = t.move_c20(c20, *choices) if all(choices) else (NO_SUCH_CHOICE, None)
        return number, (moved,)
    if name == 'number_of':
        number, written = t.doodson_write(args)
        return number, (written,)
    if name in PROFILES:
        return 0, (PROFILES[name],)
    return {'multipliers_of': t.doodson_read, 'find_line': t.find_line}[name](*args)


def file_head(data):
    """The number, and max_degree, gravity constant, radius and system where it is 0: no lists fit a length of 0, which is told after all else."""
    number = files.read_file(data, 0, 0)
    if number != 1:
        return (number,)
    top, constant, radius, system, _ = files.parsed(data)
    return 0, top, constant, radius, files.SYSTEMS.index(system)


def read_field(data, *lengths):
    answer = files.read_file(data, *lengths)
    if isinstance(answer, int):
        return (answer,)
    *head, C, S = answer
    return 0, *head, *listed(C), *listed(S)


# --- As words ---

def listed(entries):
    """A list: its length, the entry that most places have, and the others, each after its index."""
    most = Counter(entries).most_common(1)[0][0] if entries else 0
    others = [(i, entry) for i, entry in enumerate(entries) if entry != most]
    return len(entries), most, len(others), *(word for other in others for word in other)


def changes(before, after):
    assert len(before) == len(after)
    changed = [(i, new) for i, (old, new) in enumerate(zip(before, after)) if old != new]
    return len(changed), *(word for change in changed for word in change)


def in_hex(data):
    return len(data), data.hex() or '-'


def bits(x):
    return struct.unpack('<Q', struct.pack('<d', x))[0]


def hour_words(steps):
    return len(steps), *(word for step in steps for word in step)


def given_words(call):
    name, *args = call
    if name == 'own_lines':
        records, phases = args
        return name, len(records), *(word for record in records for word in record), *phases
    choice, *rest = args
    if name == 'solid_tide':
        *bodies, steps, selection = rest
        return name, choice, *(word for kind, *floats in bodies for word in (kind, *map(bits, floats))), *hour_words(steps), selection
    if name in ('pole_tide', 'write_field'):
        return call
    return name, choice, *rest[0], *in_hex(rest[1])


def words(case):
    """The lines of a case: a field and calls on it, or one call without a field."""
    if case[0] == 'hour':
        number, hour = hour_answer(case[1])
        yield 'hour', *hour_words(case[1]), number, *(word for part in hour for word in part)
        return
    if case[0] == 'file':
        yield 'file', *in_hex(case[1])
        yield 'file_head', *file_head(case[1])
        yield from (('read_field', *lengths, *read_field(case[1], *lengths)) for lengths in case[2])
        return
    if isinstance(case[0], str):
        number, results = alone(*case)
        yield *case, number, *(() if number else results)
        return
    (N, C, S), calls = case
    yield 'field', N, *listed(C), *listed(S)
    for call in calls:
        number, *results, C2, S2 = on_field(call, N, C, S)
        yield *given_words(call), number, *(() if number else results), *changes(C, C2), *changes(S, S2)
        C, S = C2, S2


# --- Calls without a field ---

def numbers():
    edges = [0, 1, 9, 10, 99_999, 100_000, 555_555, 999_998, 999_999, 1_000_000, 1_000_001, 1_165_555, (1 << 31) - 1, 1 << 31, g.U32]
    near = [number + d for number, _, _ in t.PRINTED for d in (0, -1, 1, -10, 10, -100, 100, 100_000, 1_000_000)]
    for number in edges + near + [chance.below(1_000_000) for _ in range(300)] + [chance.below(1 << 32) for _ in range(30)]:
        yield 'multipliers_of', number
        yield 'find_line', number
    for number, _, _ in t.PRINTED:
        yield 'number_of', *t.doodson_read(number)[1]
    lowest, highest = (0, -5, -5, -5, -5, -5), (9, 4, 4, 4, 4, 4)
    for start in (lowest, highest, g.NONE):
        yield 'number_of', *start
        for place, value in product(range(6), (-6, -5, -1, 0, 4, 5, 9, 10, 256, g.LEAST_32, -1 - g.LEAST_32)):
            yield 'number_of', *g.spoilt(start, place, value)
    for _ in range(300):
        yield 'number_of', *map(chance.between, lowest, highest)
        yield 'number_of', *(chance.between(low - chance.one_in(9), high + chance.one_in(9)) for low, high in zip(lowest, highest))
    ends = [sign * (g.EDGE + d) for sign in (1, -1) for d in (-1, 0, 1)]
    for have, want, love in product(range(3), range(3), range(2)):
        for c20 in (0, 1, -484165143790, *ends, g.LEAST_64, -1 - g.LEAST_64, chance.between(-g.EDGE, g.EDGE)):
            yield 'move_c20', c20, have, want, love
            number, (moved,) = alone('move_c20', c20, have, want, love)
            if number == 0:
                yield 'move_c20', moved, want, have, love               # and back
    for c20, bad in product((0, g.EDGE + 1), NO_CHOICES):
        yield 'move_c20', c20, bad, 0, 0
        yield 'move_c20', c20, 0, bad, 1
        yield 'move_c20', c20, 2, 1, bad
        yield 'move_c20', c20, 1, 2, 2


# --- Fields ---

def fields(call):
    """Refusals 1 and 2 before all others, for a call; the entries at the range's ends pass."""
    for N in (0, 1, 2, 3, 61, 62, 1 << 16, 1 << 31, g.U32):
        for size in sorted({0, 10, 15, t.size(60), t.size(N) if N < 63 else 0}):
            yield (N, [5] * size, [6] * size), [call]
    for N in (4, 5, 59, 60):
        size = t.size(N)
        for c, s in [*product((size - 1, size, size + 1), repeat=2), (0, 0), (size, 0), (0, size), *((t.size(N + d),) * 2 for d in (-1, 1))]:
            yield (N, [5] * c, [6] * s), [call]
        yield (N, [g.EDGE + 1] * size, [0] * (size - 1)), [call]        # 1 before 2
        fine = [7] * size
        for entry in (g.EDGE, g.EDGE + 1, -g.EDGE, -g.EDGE - 1, g.LEAST_64, -1 - g.LEAST_64):
            for i in (0, size - 1, 3, chance.below(size)):
                yield (N, g.spoilt(fine, i, entry), fine), [call, call]
                yield (N, fine, g.spoilt(fine, i, entry)), [call, call]
    for N in range(4, 61):
        yield g.any_field(chance, N), [call, call]                      # and again on its own result


def some_fields(call):
    """A few of the fields above, for a call that may be refused with a number after 2."""
    for N in (0, 3, 61, 1 << 31, g.U32):
        yield (N, *ZEROS[1:]), [call]
    for c, s in ((14, 15), (15, 16), (0, 0), (91, 91)):
        yield (4, [5] * c, [6] * s), [call]
    for entry in (g.EDGE, g.EDGE + 1, -g.EDGE - 1, g.LEAST_64, -1 - g.LEAST_64):
        yield (4, g.spoilt(ZEROS[1], chance.below(15), entry), ZEROS[2]), [call, call]
        yield (12, [3] * 91, g.spoilt([4] * 91, chance.below(91), entry)), [call, call]


def choices(call):
    """100 before all others, for a call with a choice."""
    name, choice, *rest = call
    for bad in (2, *NO_CHOICES):
        wrong = name, bad, *rest
        yield ZEROS, [wrong, call, wrong]
        yield (3, *ZEROS[1:]), [wrong]
        yield (4, [g.EDGE + 1] * 15, [0] * 15), [wrong]


# --- Solid tide: bodies ---

def some_love():
    return chance.below(2)


def bodies():
    """Refusals 3, 4 and 5 of either body, the Moon's before the Sun's, the lowest of one body; and 100 before all others."""
    faults = g.faulty_bodies()
    field = g.varied_field(chance, 4)
    for number, fault in faults:
        assert t.body_test(fault) == number
        other, good = chance.one(*faults)[1], chance.one(*g.GOOD)
        yield field, [*either(by_bodies, fault, good), *either(by_bodies, good, fault), by_bodies(fault, other, 0), by_bodies(other, fault, 1)]
    for one in g.GOOD:
        for first, second in (((0, -1.0), (3, inf)), ((4, 1.0), (1, inf)), ((4, inf), (0, inf)), ((4, 1.0), (1, 7e9)), ((0, 0.0), (2, 7e9))):
            worse = g.spoilt_body(g.spoilt_body(one, *first), *second)
            yield field, [by_bodies(worse, one, 0), by_bodies(one, worse, 1), by_bodies(worse, worse, 1)]
    for number, fault in faults[::9]:
        for bad in (2, *NO_CHOICES):
            name, love, moon, sun, *rest = at_phases(fault, fault, g.phases(chance), g.selection(chance), some_love())
            lent = chance.one(field, (3, *field[1:]), (4, g.spoilt(field[1], chance.below(15), g.EDGE + 1), field[2]))
            yield lent, [(name, love, (bad, *moon[1:]), sun, *rest), (name, love, moon, (bad, *sun[1:]), *rest)]


def sets_of_faults(order):
    """Every set of places in a call's order of refusals, those of two more often."""
    return (some for count in (2, 2, 2, 2, *range(1, len(order) + 1)) for some in combinations(range(len(order)), count))


def orders():
    """Every set of faults of the solid tide: the number that is first in its order."""
    for faults in sets_of_faults(g.SOLID_ORDER):
        field, moon, sun, selection = g.solid_with(chance, faults)
        yield field, [at_phases(moon, sun, g.phases(chance), selection, some_love())]


def body_edges():
    """The last floats that pass 4 and 5 and the next beyond, for either body."""
    for r, ratio, axis, kind in product((1e8, nextafter(1e8, inf), nextafter(1e12, 0), 1e12), (5e-324, 1e-310, 0.1), g.AXES[:3], KINDS):
        one = ratio, g.placed(kind, *axis, r)
        yield ZEROS, [by_bodies(one, g.GOOD[0], some_love()), by_bodies(g.GOOD[1], one, some_love())]
    for ratio, kind in product((nextafter(1e6, 0), 1e6, nextafter(1e6, inf)), KINDS):
        one = ratio, g.placed(kind, *g.AXES[3], 1e12)
        yield ZEROS, [*either(by_bodies, one, g.GOOD[1]), *either(by_bodies, g.GOOD[0], one)]
    for axis, kind in product(g.AXES, KINDS):
        one = 0.5, g.placed(kind, *axis, 1e9)
        yield ZEROS, [*either(by_bodies, one, g.GOOD[0]), *either(by_bodies, g.GOOD[1], one), *either(by_bodies, one, one)]
    high, low = 1.0 + ldexp(1.0, -40), 1.0 - ldexp(1.0, -40)
    for goal in (high, nextafter(high, 2), nextafter(high, 0), low, nextafter(low, 0), nextafter(low, 2)):
        for i in range(24):                                             # r a power of two, so that x/r gives the direction back
            one = 0.01, g.placed(KINDS[i % 2], *telling.at_length_one(chance, goal), ldexp(1.0, chance.between(27, 39)))
            assert t.body_test(one) == (0 if low <= goal <= high else 5)
            yield ZEROS, [by_bodies(one, g.GOOD[0], some_love()), by_bodies(g.GOOD[1], one, some_love())]
    for at, size, sign in product((1, 2, 3), (1.0 + ldexp(1.0, -41), 1.0 - ldexp(1.0, -41)), (1, -1)):
        for x in (size, nextafter(size, 2), nextafter(size, 0)):
            one = g.spoilt_body((1.0, (t.DIRECTION, 0.0, 0.0, 0.0, 1e9)), at, sign * x)
            yield ZEROS, [by_bodies(one, g.GOOD[0], some_love()), by_bodies(g.GOOD[0], one, some_love())]


def bounds_of_six():
    """Every coefficient of degree 2 at 2^52 and at -2^52, refused, and half a count inside, where it passes; and 3, 4, 5 before 6."""
    for coefficient, love, sign, _ in product(telling.COEFFICIENTS[:5], LOVES, (1, -1), range(4)):
        for size in (t.COUNT_BOUND, t.COUNT_BOUND - 0.5):
            moon, sun = telling.at_the_bound(chance, coefficient, love, sign * size)
            yield ZEROS, [by_bodies(moon, sun, LOVES.index(love)), by_bodies(sun, moon, LOVES.index(love))]
    for axis in g.AXES:
        heavy = 1e6, g.placed(t.DIRECTION, *axis, 1e8)
        for other in (g.GOOD[0], g.spoilt_body(g.GOOD[0], 1, 7.0), g.spoilt_body(g.GOOD[1], 0, 0.0), heavy, g.sun(chance)):
            yield ZEROS, [*either(by_bodies, heavy, other), *either(by_bodies, other, heavy)]


def at_a_half(coefficient, love, which=None):
    return at_phases(*telling.at_a_half(chance, coefficient, LOVES[love], which), g.phases(chance), g.few_lines(chance), love)


def at_a_small_half(coefficient, love, goal):
    return at_phases(*telling.at_a_small_half(chance, coefficient, LOVES[love], goal), g.phases(chance), 0, love)


def halves():
    """Counts of step one at a half of either sign, for each coefficient and Love model, beside few lines; then those next to zero. Twelve calls on a
    field."""
    for coefficient, love in product(telling.COEFFICIENTS, range(2)):
        yield from in_row([at_a_half(coefficient, love) for _ in range(HALVES)], 12, ZEROS)
    small = product(telling.COEFFICIENTS[:5], range(2), telling.SMALL_HALVES)
    yield from in_row([at_a_small_half(*one) for one in small], 12, ZEROS)
    for coefficient, which in zip(telling.COEFFICIENTS[1:5], (0, 1, 2, 0)):     # C21, S21, C22, S22 where the rounding of kI*Q or kI*P shows
        yield ZEROS, [at_a_half(coefficient, 1, which) for _ in range(HALVES)]


def ordinary_bodies():
    for _ in range(150):
        moon, sun = g.moon(chance), g.sun(chance)
        yield g.varied_field(chance, chance.between(4, 12)), [*either(by_bodies, moon, sun), *either(by_bodies, sun, moon)]
    moon, sun = g.moon(chance), g.sun(chance)
    for N in (4, 5, 17, 60):                                            # on its own result, and refused with 2 where that left the range
        yield (N, [g.EDGE] * t.size(N), [-g.EDGE] * t.size(N)), either(by_bodies, moon, sun) * 2
        yield g.any_field(chance, N), either(by_bodies, moon, sun) * 2


# --- Solid tide: lines ---

def lines():
    yield ZEROS, either(by_lines, g.NONE) + either(by_lines, (1 << 30, 0, 0, 0, 0, 0)) + either(by_lines, (g.U32,) * 6)
    for place, k, d in product(range(6), range(8), (-1, 0, 1)):         # each argument at the edges of the eighths
        yield ZEROS, either(by_lines, tuple(g.spoilt(g.NONE, place, (k << 29) + d & g.U32)))
    for place in range(6):                                              # each argument alone
        yield ZEROS, [call for _ in range(8) for call in either(by_lines, tuple(g.spoilt(g.NONE, place, chance.below(1 << 32))))]
    for phases in telling.tie_phases():
        yield ZEROS, either(by_lines, phases)
    for _ in range(200):
        yield g.varied_field(chance, chance.between(4, 8)), either(by_lines, g.phases(chance))
    for N in (4, 5, 17, 60):
        calls = either(by_lines, g.phases(chance))
        yield (N, [g.EDGE] * t.size(N), [-g.EDGE] * t.size(N)), calls * 2
        yield g.any_field(chance, N), calls * 2


def both_models(phases, selection):
    return [by_lines(phases, love, selection) for love in range(2)]


def some_lines(selection):
    return by_lines(g.phases(chance), some_love(), selection)


def selections():
    """Each line alone and all but it, two at a time, the bands, the profiles and none, lines at ties and small ones together; and any, in rows."""
    yield from zip(PROFILES)
    yield from selections_refused()
    at_lines = lambda *chosen: [call for selection in chosen for call in both_models(telling.LINE_PHASES, selection)]
    yield ZEROS, at_lines(0, t.ALL_LINES, t.MAJOR_LINES, *g.BANDS)
    for i in g.LINES:
        one = 1 << i
        yield ZEROS, at_lines(one) + [call for phases in (g.NONE, telling.DAY_PHASES, g.phases(chance)) for call in both_models(phases, one)]
        yield ZEROS, at_lines(t.ALL_LINES ^ one, (one << 1) - 1, t.ALL_LINES ^ one - 1)         # all but it, those up to it, those from it on
        yield g.varied_field(chance, chance.between(4, 8)), both_models(g.phases(chance), one | 1 << chance.below(49))
    odd = [i for i, (number, one, two) in enumerate(t.PRINTED) if number > 100_000 and one % 2 and two % 2]
    for phases in telling.tie_phases():                                 # one or three odd amplitudes are at a tie at many of them
        yield ZEROS, [call for count in (1, 3) for call in both_models(phases, sum(1 << i for i in chance.some(count, odd)))]
    for selection, phases in (*(two for *two, _ in telling.faint_lines()), *telling.near_zero_lines()):
        yield ZEROS, both_models(phases, selection)
    for selection, _ in product((0, t.ALL_LINES, t.MAJOR_LINES, t.ALL_LINES ^ t.MAJOR_LINES, *g.BANDS), range(6)):
        yield g.any_field(chance, chance.between(4, 10)), both_models(g.phases(chance), selection)
    for _ in range(150):
        phases, chosen = g.phases(chance), [g.selection(chance) for _ in range(4)]
        yield g.varied_field(chance, chance.between(4, 8)), [by_lines(phases, some_love(), selection) for selection in (*chosen, chosen[0])]
    for _ in range(30):                                                 # other calls between them
        calls = [some_lines(g.selection(chance)) for _ in range(3)]
        between = some_pole(g.offsets(chance)), some_own(g.records(chance, chance.below(9)))
        yield g.varied_field(chance, 4), [calls[0], between[0], calls[1], between[1], calls[2]]
    for N in (4, 5, 17, 60):                                            # on its own result, and refused with 2 where that left the range
        calls = [some_lines(g.accepted_selection(chance)), some_lines(0), some_lines(g.accepted_selection(chance) | 1 << 49)]
        yield (N, [g.EDGE] * t.size(N), [-g.EDGE] * t.size(N)), calls
        yield (N, [-g.EDGE] * t.size(N), [g.EDGE] * t.size(N)), calls
        yield g.any_field(chance, N), calls


def selections_refused():
    """14 for each bit above 48, alone and beside others, between calls that pass; and 100, 1 and 2 before it."""
    fields = [g.varied_field(chance, N) for N in (4, 5, 12)]
    most = (1 << 64) - 1
    for i, bit in enumerate(g.ABOVE):
        beside = [0, 1, 1 << 48, t.MAJOR_LINES, t.ALL_LINES, g.accepted_selection(chance)]
        yield fields[i % 3], [call for others in beside for call in (some_lines(bit | others), some_lines(others))]
    for selection in (most, most ^ t.ALL_LINES, most ^ 1, most ^ 1 << 48, most ^ 1 << 49, 1 << 49, 1 << 49 | 1 << 48, 3 << 49):
        yield fields[0], [*both_models(g.phases(chance), selection), some_lines(1 << 48)]
    for selection in (0, 1 << 48, t.ALL_LINES, t.MAJOR_LINES, *g.ABOVE[::7], g.ABOVE[0] | t.ALL_LINES, most):
        call = some_lines(selection)
        yield from choices(call)
        yield from some_fields(call)


# --- Hours ---

NO_ARGUMENTS = (6, 7, 8, 15, 255, 256, 257, 261, 1 << 16, (1 << 16) + 5, 1 << 31, (1 << 31) + 3, g.U32 - 1, g.U32)


def no_argument(chance):
    """A move whose number names no argument."""
    return g.MOVE, chance.one(*NO_ARGUMENTS, chance.between(6, g.U32)), g.amount(chance)


def any_step(chance):
    """A step of any kind, most of them accepted moves."""
    step = chance.one(g.set_or_move, g.move, g.move, g.move, no_argument, lambda chance: g.written(g.any_hour(chance)))
    return step(chance)


def a_way(chance, most):
    """Up to so many steps of any kind."""
    return [any_step(chance) for _ in range(chance.between(1, most))]


def before(chance):
    """Steps to a record of any kind: none, a set, some sets and moves, a record written by hand."""
    return chance.one([], [g.all_set(g.phases(chance))], [g.set_or_move(chance) for _ in range(4)], [g.written(g.any_hour(chance))])


def moved_each():
    """Each argument moved: by amounts at the ends and by eighths, from anywhere, and past the turn's end and start, to it and one beside it."""
    for at, amount in product(range(6), (*g.AMOUNTS, *g.EIGHTHS, 2, -2, 1 << 30 | 1, chance.between(g.LEAST_32, g.MOST_32))):
        yield [(g.MOVE, at, amount)]
        yield [*before(chance), (g.MOVE, at, amount)]
        yield [g.all_set(g.phases(chance)), (g.MOVE, at, amount), (g.MOVE, at, amount)]
        for beyond in (-1, 0, 1):                                       # the phase that the amount takes there
            yield [g.all_set(g.spoilt(g.phases(chance), at, beyond - amount & g.U32)), (g.MOVE, at, amount)]


def held_and_moved():
    """Records written by hand: alone, each argument of them moved, set again to their phases or to them with one changed, and moved after."""
    for hour in (telling.HELD, *telling.EXTREMES, *(g.any_hour(chance) for _ in range(12))):
        held = g.written(hour)
        yield [held]
        yield [*before(chance), held]
        for at in range(6):
            yield [held, (g.MOVE, at, 0)]
            yield [held, (g.MOVE, at, g.amount(chance))]
            yield [held, g.all_set(g.spoilt(hour.phases, at, g.phase(chance)))]
        yield [held, g.all_set(hour.phases)]
        yield [held, g.move(chance), g.move(chance), g.move(chance)]
        yield [held, g.all_set(g.phases(chance)), g.move(chance)]


def in_parts():
    """Moved by two amounts, and by their sum; by nothing; each argument in any order; and all the way by moves, and set."""
    for _ in range(60):
        start, at = before(chance), chance.below(6)
        a, b = g.amount(chance), g.amount(chance)
        yield [*start, (g.MOVE, at, a), (g.MOVE, at, b)]
        yield [*start, (g.MOVE, at, g.in_32(a + b))]
        yield [*start, (g.MOVE, at, a), (g.MOVE, at, g.in_32(-a))]
    for _ in range(30):
        phases = g.phases(chance)
        moves = [(g.MOVE, at, g.in_32(phase)) for at, phase in enumerate(phases)]
        yield moves
        yield moves[::-1]
        yield [g.all_set(phases), *((g.MOVE, at, 0) for at in range(6))]


def hours():
    """Hours alone: those that tell slips, each move, numbers that name no argument, and ways of every kind and length."""
    for steps in (*telling.hour_steps(), *moved_each(), *held_and_moved(), *in_parts()):
        yield 'hour', steps
    for number in NO_ARGUMENTS:
        for start in ([], before(chance), [g.written(telling.HELD)]):
            wrong = g.MOVE, number, g.amount(chance)
            yield 'hour', [*start, wrong]
            yield 'hour', [*start, wrong, g.move(chance)]
            yield 'hour', [*start, g.move(chance), wrong, wrong]
    for _ in range(150):
        yield 'hour', [g.all_set(g.phases(chance)) for _ in range(chance.between(1, 3))]
        yield 'hour', [g.set_or_move(chance) for _ in range(chance.between(1, 9))]
        yield 'hour', a_way(chance, 9)
    for _ in range(10):
        yield 'hour', [g.set_or_move(chance) for _ in range(100)]
        yield 'hour', [g.all_set(g.phases(chance)), *(g.move(chance) for _ in range(60))]
        yield 'hour', a_way(chance, 60)


def of_hour(steps, love, selection=t.ALL_LINES):
    """The solid tide of this hour, with any bodies that pass."""
    return solid_tide(*telling.pair(chance), steps, selection, love)


def hours_used():
    """Solid tides of hours that tell slips, of each line alone and of any other record; moved before use; one hour for several fields; refused."""
    yield from in_row([of_hour(steps, LOVES.index(love), selection) for steps, love, selection in telling.kept_calls()], 9, ZEROS)
    for i, hour in product(g.LINES, (telling.one_line, lambda i: t.Hour(g.NONE, *(tuple(g.spoilt([0] * 49, i, g.value(chance))) for _ in 'cs')))):
        steps = [g.written(hour(i))]
        yield ZEROS, [of_hour(steps, love, selection) for love in range(2) for selection in (t.ALL_LINES, t.ALL_LINES ^ 1 << i, 1 << i)]
    for hour, selection in product((*telling.EXTREMES, telling.throughout(g.MOST_32, g.LEAST_32), telling.throughout(g.LEAST_32, g.MOST_32)),
                                   (t.ALL_LINES, t.MAJOR_LINES, *g.BANDS, 0, g.few_lines(chance))):
        yield ZEROS, either(lambda love: of_hour([g.written(hour)], love, selection))
    for at, _ in product(range(6), range(12)):
        hour = g.any_hour(chance)
        steps = [g.written(hour), (g.MOVE, at, g.amount(chance))]
        yield ZEROS, [of_hour(steps[:1], 1), of_hour(steps, 1), of_hour(steps, 0), of_hour([*steps, g.all_set(hour.phases)], 1)]
    for _ in range(120):
        steps, field = a_way(chance, 6), chance.one(g.varied_field, g.any_field)(chance, chance.between(4, 8))
        yield field, [of_hour(steps, some_love(), g.selection(chance)), of_hour(steps, some_love())]
    for _ in range(20):
        call = of_hour(a_way(chance, 9), some_love(), g.accepted_selection(chance))
        for N in (4, 5, 4, chance.between(4, 14)):
            yield g.any_field(chance, N), [call]
        yield g.varied_field(chance, 4), [call, some_pole(g.offsets(chance)), call]
    for faults in (some for count in (1, 2) for some in combinations(range(10), count)):
        field, moon, sun, selection = g.solid_with(chance, faults)
        yield field, [solid_tide(moon, sun, [g.written(g.any_hour(chance))], selection, some_love())]
    call = of_hour([g.written(telling.HELD)], 1)
    yield from choices(call)
    yield from some_fields(call)
    for N in (4, 5, 17, 60):                                            # on its own result, and refused with 2 where that left the range
        calls = [of_hour([g.written(hour)], some_love()) for hour in telling.EXTREMES[:2]]
        yield (N, [g.EDGE] * t.size(N), [-g.EDGE] * t.size(N)), calls
        yield (N, [-g.EDGE] * t.size(N), [g.EDGE] * t.size(N)), calls[::-1]


# --- Tide lines of our own ---

def some_own(records):
    return own_lines(records, g.phases(chance))


def in_row(calls, count, *fields):
    """The calls, so many in a row on each field in turn."""
    for i in range(0, len(calls), count):
        yield fields[i // count % len(fields)], calls[i:i + count]


def records_refused():
    """12 and 13, 12 before 13, and 1 and 2 before both; the last values that pass, between refused calls too."""
    fields = [g.varied_field(chance, N) for N in (4, 5, 12)]
    good = g.record(chance)
    ends = [g.spoilt_record(good, at, value) for at, two in enumerate(g.RECORD_ENDS) for value in two]
    yield from in_row([some_own([one]) for one in ends], 4, *fields)
    yield fields[0], [some_own(ends), some_own([*ends, *ends, *ends, *ends])]
    faults = [g.spoilt_record(good, *fault) for fault in g.record_faults()]
    faults += [*zip(*g.WIDTHS), *zip(*([most, least] for least, most in g.WIDTHS))]
    for i, bad in enumerate(faults):
        count = chance.between(2, 9) if i % 3 else 65
        among = g.spoilt(g.records(chance, count), chance.one(0, count - 1, chance.below(count)), bad)
        yield fields[i % 3], [some_own([bad]), some_own([good]), some_own(among)]
    for place in range(0, 64, 7):
        yield fields[0], [some_own(g.spoilt(g.records(chance, 64), place, chance.one(*faults)))]
    for count in (63, 64, 65, 66, 128, 200):
        right, wrong = g.records(chance, count), g.faulty_records(chance, count)
        yield fields[0], [some_own(right), some_own(wrong), some_own(g.spoilt(right, chance.one(0, count - 1), wrong[0])), some_own(right)]
    for records in ([], [good], faults[:1], faults[-1:], [good] * 65, g.faulty_records(chance, 65), g.faulty_records(chance, 200)):
        yield from some_fields(some_own(records))


def own_waves():
    """Records alone: each band at the quarters and eighths of a turn, each multiplier at each argument, sums at a tie, and sums of small records."""
    for band, one in product(range(3), ((3, 5), (7, 0), (0, 7))):
        phases = [telling.at_s((k << 29) + d) for k in range(8) for d in (-1, 0, 1)]
        yield from in_row([own_lines([telling.in_band(band, *one)], at) for at in phases], 12, ZEROS)
    for band, place in product(range(3), range(1, 6)):
        records = [(*g.spoilt((band, *g.NONE[1:]), place, n), 98_765, -4321) for n in range(-13, 14)]
        yield from in_row([some_own([one]) for one in records], 9, ZEROS)
    for records, phases in (*telling.own_line_ties(), *telling.band_ties(), *telling.small_records(), *telling.near_zero_records()):
        yield ZEROS, [own_lines(records, phases)]
    for one, beside in product(telling.SUMS, (0, 1)):
        yield ZEROS, [own_lines(*telling.at_a_tie(chance, *one, beside)[:2]) for _ in range(4)]
    yield ZEROS, [own_lines(telling.OWN_RECORDS, telling.DAY_PHASES), by_lines(telling.DAY_PHASES, 1)]


def own_lists():
    """Lists of every length, equal records among them, on fields of every kind; and many calls on one field, others between them."""
    for count in range(65):
        records = g.records(chance, count)
        yield g.varied_field(chance, chance.between(4, 12)), [some_own(records), some_own(records[::-1])]
    for _ in range(40):
        one, phases = g.record(chance), g.phases(chance)
        calls = [own_lines([one] * count, phases) for count in (1, 2, chance.between(3, 64))]
        yield g.any_field(chance, chance.between(4, 14)), [*calls, own_lines([], phases)]
    for _ in range(20):
        call = lambda: some_own(chance.one(g.records(chance, chance.below(9)), g.records(chance, chance.below(9)), g.faulty_records(chance, 3)))
        yield g.varied_field(chance, 4), [call(), by_lines(g.phases(chance), chance.below(2)), call(), call(), call()]
    for N in (4, 5, 17, 60):                                            # on its own result, and refused with 2 where that left the range
        calls = [some_own(g.records(chance, 64)), some_own([]), some_own(g.faulty_records(chance, 1))]
        yield (N, [g.EDGE] * t.size(N), [-g.EDGE] * t.size(N)), calls
        yield (N, [-g.EDGE] * t.size(N), [g.EDGE] * t.size(N)), calls
        yield g.any_field(chance, N), calls


# --- Solid pole tide ---

def some_pole(offsets):
    return pole_tide(*offsets, some_love())


def offsets_refused():
    """15 for either offset and for both, between calls that pass; and 100, 1 and 2 before it."""
    fields = [g.varied_field(chance, N) for N in (4, 5, 12)]
    far = [pair for one in g.FAR_OFFSETS for pair in ((one, g.offset(chance)), (g.offset(chance), one), (one, one))]
    for i, pair in enumerate(far + [g.faulty_offsets(chance) for _ in range(30)]):
        yield fields[i % 3], [*either(pole_tide, *pair), some_pole(g.offsets(chance)), some_pole(pair)]
    for pair in ((g.OFFSET_EDGE, -g.OFFSET_EDGE), *(g.faulty_offsets(chance) for _ in range(4))):
        yield from choices(some_pole(pair))
        yield from some_fields(some_pole(pair))


def offsets_alone():
    """Offsets that tell slips, small ones, one alone at every power of two, and each formula at halves and some steps beside them, each way."""
    yield from in_row([pole_tide(xp, yp, LOVES.index(love)) for xp, yp, love in telling.pole_calls()], 9, ZEROS, g.varied_field(chance, 4))
    one_alone = [pair for k in range(2, 20) for one in (1 << k, -1 << k) for pair in ((one, 0), (0, one))]
    yield from in_row([call for pair in [*product(range(-3, 4), repeat=2), *one_alone] for call in either(pole_tide, *pair)], 18, ZEROS)
    near = lambda: chance.between(-g.OFFSET_EDGE, g.OFFSET_EDGE - 625)
    for love, steps in product(range(2), (-5, -2, -1, 0, 0, 0, 1, 2)):
        beside = [pair for _ in range(8) for pair in telling.beside_halves(LOVES[love], steps, near(), near())]
        yield ZEROS, [pole_tide(*one, love) for pair in beside for one in telling.each_way(*pair)]


def pole_offsets():
    """Offsets of every kind, on fields of every kind; and many calls on one field, others between them."""
    for _ in range(80):
        yield g.varied_field(chance, chance.between(4, 12)), either(pole_tide, *g.offsets(chance))
        yield g.any_field(chance, chance.between(4, 14)), [some_pole(g.offsets(chance)), some_pole(g.offsets(chance))]
    for _ in range(20):
        call = lambda: some_pole(g.faulty_offsets(chance) if chance.one_in(5) else g.offsets(chance))
        between = [some_lines(g.selection(chance)), some_own(g.records(chance, chance.below(9))),
                   some_ocean(g.write_sheet(*g.sheet(chance, 2, 2, 4, 4)))]
        yield g.varied_field(chance, chance.between(4, 6)), [one for other in between for one in (call(), call(), other)] + [call()]
    for N in (4, 5, 17, 60):                                            # on its own result, and refused with 2 where that left the range
        for edge in (g.EDGE, -g.EDGE):
            calls = [some_pole(g.offsets(chance)), some_pole((0, 0)), some_pole(g.faulty_offsets(chance))]
            yield (N, [edge] * t.size(N), [-edge] * t.size(N)), calls
            yield (N, [edge] * t.size(N), [edge] * t.size(N)), calls
        yield g.any_field(chance, N), calls


# --- Ocean tide ---

def some_ocean(data):
    return ocean_tide(data, g.phases(chance), chance.below(2))


def layouts():
    """Refusal 7: every short length, some long ones, counts changed, and counts at their ends with the length that is exact for them."""
    good = g.write_sheet(*g.SMALL)
    field = g.varied_field(chance, 5)
    yield field, [some_ocean(good), some_ocean(good[:-1]), some_ocean(good)]
    yield field, [some_ocean(good[:cut]) for cut in range(len(good))]
    yield field, [some_ocean(good + longer) for longer in (b'\0', b'\xff', good)]
    for at, count in product((0, 14, 40), (0, 1, 2, 3, 4, 32, 33, 90, 91, 128, 129, 258, 259, 65535)):
        yield field, [some_ocean(good[:at] + struct.pack('<H', count) + good[at + 2:])]
    wide = g.varied_field(chance, 13)
    shapes = [*product((0, 1, 128, 129), (0, 1, 32, 33), (0, 1)), *product((1, 2), (1, 3), (90, 91, 92))]
    for shape in [*shapes, (128, 32, 90), (129, 33, 91), (256, 1, 1), (1, 256, 0)]:
        yield wide, [some_ocean(g.shaped_sheet(*shape))]
    for count, _ in product((0, 1, 2, 10, 20, 40, 80, 120), range(6)):
        yield field, [some_ocean(chance.bytes(count))]
    for _ in range(200):                                                # one byte changed
        at = chance.below(len(good))
        yield field, [some_ocean(good[:at] + chance.bytes(1) + good[at + 1:])]


def sheet_values():
    """Refusals 8 and 9, with 7 before 8, 8 before 9, and 100, 1 and 2 before all of them."""
    fields = {N: g.varied_field(chance, N) for N in range(4, 13)}
    for sheet in g.faulty_sheets():
        data = g.write_sheet(*sheet)
        yield fields[12], [some_ocean(data), some_ocean(data + b'\1'), some_ocean(data[:-1])]
        yield fields[4], [some_ocean(data)]
    rows, zero = [[0, 0]], [(0,) * 4]
    for N in range(4, 13):
        deep = g.write_sheet(g.SMALL[0], rows, [(2, 3, zero), (12, 12, zero)])
        yield fields[N], [some_ocean(deep), some_ocean(deep[:-1])]
        for n, m in product(range(1, 13), (0, 1)):
            yield fields[N], [some_ocean(g.write_sheet(g.SMALL[0], [[1000, 7]], [(n, m, [(5, 0, 6, 0)])]))]
            yield fields[N], [some_ocean(g.write_sheet(g.SMALL[0], [[1000, 7]], [(1, 0, [(3, 0, 4, 0)]), (n, n, [(1 << 20,) * 4])]))]
    for data in (b'', g.write_sheet(*g.SMALL), g.write_sheet([(14,) * 6], [[0]], [])):
        yield (3, *ZEROS[1:]), [some_ocean(data)]
        yield (4, [0] * 15, [0] * 14 + [-g.EDGE - 1]), [some_ocean(data)]
        yield ZEROS, [('ocean_tide', bad, g.NONE, data) for bad in (2, *NO_CHOICES)]


def synthesis():
    """Sheets of every kind, on fields of every kind, in both frames."""
    for _ in range(250):
        top = chance.one(2, 4, 6, 12)
        data = g.write_sheet(*g.sheet(chance, chance.between(1, 6), chance.between(1, 4), chance.between(0, 8), top))
        calls = either(ocean_tide, data, g.phases(chance))
        yield g.varied_field(chance, max(4, chance.between(top - chance.one_in(8), 14))), calls * (1 + chance.one_in(4))
        yield g.any_field(chance, chance.between(4, 14)), calls
    for sizes in ((128, 1, 90), (40, 2, 90), (128, 32, 0), (1, 32, 2), (128, 4, 10), (128, 32, 90)):
        yield g.any_field(chance, 60), either(ocean_tide, g.write_sheet(*g.sheet(chance, *sizes)), g.phases(chance))
    two = [(1, 0, 0, 0, 0, 0), (-13, 0, 0, 0, 0, 13)]
    data = g.write_sheet(two, [[1_000_000, 3_000_000]], [(3, 3, [(1 << 24, 1, -1, -(1 << 24))])])
    for k, d in product(range(8), (-1, 0, 1)):                          # the edges of the eighths
        yield ZEROS, either(ocean_tide, data, ((k << 29) + d & g.U32, 0, 0, 0, 0, k << 29))
    for place, multiplier in product(range(6), range(-13, 14)):         # each multiplier at each argument
        data = g.write_sheet([g.spoilt(g.NONE, place, multiplier)], [[1_000_000]], [(2, 1, [(1 << 24, 0, 0, 1 << 24)])])
        yield ZEROS, [ocean_tide(data, g.phases(chance), 0)]
    for admittance, phase in product((500_000, -500_000, 1_500_000, -2_500_000), (5, 6, 7, 0, 1 << 30, 1 << 31, 3 << 30)):     # ties
        data = g.write_sheet([(1, 0, 0, 0, 0, 0)], [[admittance]], [(2, 1, [(1 << 24, 1, 3, 1 << 24)]), (2, 2, [(1, 3, -1, -3)])])
        yield ZEROS, [ocean_tide(data, (phase, 0, 0, 0, 0, 0), 0)]


def ocean_ties():
    """Both roundings of the ocean tide at halves of either sign and a unit beside them: that of the sums over lines, then that of the sums over
    tides."""
    factors = *telling.factor_ties((0, 1, 2, 3, 5, 6, 21, 22, 23, 500, 900, 901, 1072)), *telling.large_factor_ties()
    corrections = *telling.correction_ties((1, 3, 5, 255, 257, (1 << 24) - 1, (1 << 24) - 3)), *telling.beside_correction_ties()
    for data, phases in (*factors, *corrections, *telling.tied_throughout()):
        yield ZEROS, either(ocean_tide, data, phases)


def waves():
    """Sine and cosine in their units, at the eighths' edges and at phases that tell slips of the recipe."""
    edges = [(k << 29) + d & g.U32 for k in range(8) for d in (-2, -1, 0, 1, 2)]
    for phase in edges + [*telling.wave_phases()] + [chance.below(1 << 32) for _ in range(300)]:
        call = ocean_tide(g.wave_sheet(), (phase, 0, 0, 0, 0, 0), 0)
        number, C, S = on_field(call, *ZEROS)
        assert (number, C[5], S[5]) == (0, t.cosine(phase), t.sine(phase))
        yield ZEROS, [call]


# --- Twin lines in a sheet ---

def twin_lines():
    """Sheets that tell slips, in both frames; 100, 1 and 2 before 16, and every set of faults of the ocean tide: the number that is first in its order."""
    for _, N, data in telling.twin_calls():
        yield g.varied_field(chance, N), either(ocean_tide, data, g.phases(chance))
    for lines in (g.FAR_LINES[:2], g.FAR_LINES):
        call = some_ocean(telling.lined(g.twinned(lines, 0, len(lines) - 1)))
        yield from choices(call)
        yield from some_fields(call)
    for faults in sets_of_faults(g.OCEAN_ORDER):
        field, data = g.ocean_with(chance, faults)
        yield field, [some_ocean(data)]


def where_twins_stand():
    """Twins at any two of few lines, and of many lines at neighbours and at either end and any other; nearly twins and none between them: at whole eights of
    lines and one more or less. Then in sheets of every size, other calls between them."""
    for count in (2, 3, 7, 8, 9, 15, 16, 17, 64, 127, 128):
        last = count - 1
        pairs = [(i, j) for i, j in combinations(range(count), 2) if count < 20 or i == 0 or j in (i + 1, last)]
        for lines in (g.FAR_LINES[:count], g.different_lines(chance, count)):
            calls = [some_ocean(telling.lined(g.twinned(lines, *pair))) for pair in pairs]
            for at, (i, j) in product(range(6), ((0, last), (last - 1, last))):
                off = g.spoilt(lines[i], at, lines[i][at] + (1 if lines[i][at] < 0 else -1))
                calls.insert(chance.below(len(calls) + 1), some_ocean(telling.lined(g.spoilt(lines, j, off))))
            yield from in_row([some_ocean(telling.lined(lines)), *calls, some_ocean(telling.lined(lines[::-1]))], 40, g.varied_field(chance, 4))
    for _ in range(60):
        lines, *rest = g.sheet(chance, chance.between(2, 12), chance.between(1, 4), chance.between(0, 8), 4)
        twins = g.twinned(lines, *chance.some(2, range(len(lines))))
        calls = [some_ocean(g.write_sheet(some, *rest)) for some in (lines, twins, lines)]
        yield g.varied_field(chance, chance.between(4, 14)), [calls[0], some_lines(g.selection(chance)), calls[1], some_own(g.records(chance, 3)), calls[2]]
    for sizes, pair in (((128, 32, 90), (0, 127)), ((128, 32, 90), (126, 127)), ((128, 1, 90), (63, 64)), ((2, 32, 90), (0, 1)), ((2, 32, 0), (0, 1))):
        lines, *rest = g.sheet(chance, *sizes)
        yield g.any_field(chance, chance.one(11, 12, 60)), [some_ocean(g.write_sheet(some, *rest)) for some in (g.twinned(lines, *pair), lines)]


# --- Files: writing ---

TENS = [10**k + d for k in range(20) for d in (-1, 0, 1)]
ENTRIES = [sign * size for size in (*(ten for ten in TENS if ten < g.EDGE), 600, g.EDGE - 1, g.EDGE) for sign in (1, -1)]
UNSIGNED = *TENS[:-1], 398600441500000, 6378136300, 1 << 32, (1 << 63) - 1, 1 << 63, (1 << 64) - 1
WRITE_ORDER = NO_SUCH_CHOICE, 1, 2, 21


def some_write(room):
    return write_field(chance.one(*UNSIGNED), chance.one(*UNSIGNED), room, chance.below(3))


def in_lists(N, entries):
    """Fields of degree N that have these entries in turn, C from their start and S from their end."""
    step = t.size(N)
    for i in range(0, len(entries), step):
        C = (entries[i:i + step] + entries)[:step]
        yield N, C, C[::-1]


def write_with(faults):
    """A field and a writing that has the faults at these places of the order."""
    N = chance.between(4, 9)
    C, S = ([chance.one(*ENTRIES) for _ in range(t.size(N))] for _ in 'cs')
    bad = chance.one(g.EDGE + 1, -g.EDGE - 1, g.LEAST_64, -1 - g.LEAST_64)
    if 2 in faults:
        C, S = chance.one((g.spoilt(C, chance.below(len(C)), bad), S), (C, g.spoilt(S, chance.below(len(S)), bad)))
    if 1 in faults:
        N, C, S = chance.one((3, C, S), (N + 1, C, S), (N, C[1:], S), (N, C, [*S, 0]), (g.U32, C, S))
    fit = files.file_bytes(min(N, 60))
    _, system, constant, radius, _ = some_write(0)
    room = chance.one(fit - 1, fit - 54, 0, chance.below(fit)) if 3 in faults else chance.one(fit, fit + 1, fit + 54, 130_000)
    return (N, C, S), write_field(constant, radius, room, chance.one(3, *NO_CHOICES) if 0 in faults else system)


def written():
    """The text that was written by hand; every degree once; entries, the constant and the radius at every power of ten and beside it; outputs of every
    length; and every set of faults."""
    yield (4, check_files.WRITTEN_C, check_files.WRITTEN_S), [write_field(398600441500000, 6378136300, 1300, 2)]
    for N in range(4, 61):
        fit = files.file_bytes(N)
        yield g.any_field(chance, N), [some_write(fit - 1), some_write(chance.one(fit, fit, fit + 1, fit + 999)), some_write(0)]
    for N in range(4, 10):
        for field in in_lists(N, ENTRIES):
            yield field, [some_write(files.file_bytes(N))]
    for one, system in product(UNSIGNED, range(3)):
        yield (4, *([chance.one(*ENTRIES) for _ in range(15)] for _ in 'cs')), [
            write_field(one, chance.one(*UNSIGNED), 1296, system), write_field(chance.one(*UNSIGNED), one, 1296 + chance.below(3), system)]
    for room in (*range(0, 1400, 54), *range(1290, 1303), 140_000):
        yield ZEROS, [some_write(room), some_write(1296)]
    call = some_write(102_600)
    yield from some_fields(call)
    yield from choices(call)
    for faults in sets_of_faults(WRITE_ORDER):
        field, call = write_with(faults)
        yield field, [call]


# --- Files: reading ---

def as_file(case, *more):
    """A file read into lists of the lengths that it has, and of others; what is due by how it was made must be what the second program answers."""
    data, length_c, length_s, due = case
    assert due in (None, files.read_file(data, length_c, length_s))
    return 'file', data, [(length_c, length_s), *more]


def faulty_files():
    """Every set of faults, and every fault of 17 alone and with one more."""
    for numbers in sets_of_faults(ff.ORDER):
        yield from (ff.with_faults(chance, [ff.ORDER[i] for i in numbers]) for _ in range(4))
    for fault in ff.FAULTS[17]:
        yield from (ff.with_faults(chance, (17, *others), fault) for others in ((), (), (18,), (19,), (20,), (1,)))


def with_each_byte():
    """Each byte where a blank, a sign, a dot, an exponent's mark and the end of a number or a word may stand."""
    for at in (b'gfc?2 0 1 0', b'gfc 2 0 ?1 0', b'gfc 2 0 1?5 0', b'gfc 2 0 1e?5 0', b'gfc 2 0 5?e-16 0', b'gfc 2? 0 1 0', b'gfc 2 0 1 0 x?x'):
        for byte in range(256):
            yield ff.Case(check_files.text().replace(b'ONE', b'?') + at.replace(b'?', bytes((byte,))), 15, 15, None)


def read():
    """Files made by hand, at the edges of the rules, with faults and of any kind; every degree read again after it was written; and nearly nothing."""
    for case in (*check_files.hand_cases(), *with_each_byte(), *ff.edge_files(chance), *faulty_files()):
        yield as_file(case)
    for _ in range(1000):
        yield as_file(ff.any_file(chance), ff.wrong_lengths(chance, 15), (15, 15))
    for N in range(4, 61):
        C, S = ([chance.one(*ENTRIES) for _ in range(t.size(N))] for _ in 'cs')
        constant, radius, system = chance.one(*UNSIGNED), chance.one(*UNSIGNED), chance.below(3)
        text = files.write_file(N, C, S, constant, radius, system, 102_600)
        yield as_file(ff.Case(text, t.size(N), t.size(N), (N, constant, radius, system, C, S)), (t.size(N - 1), t.size(N)))
    for data in (b'', b'\n', b' ', b'\r\n\t', b'end_of_head', b'end_of_head\n', b'\0', b'gfc 0 0 0 0'):
        yield as_file(ff.Case(data, 15, 15, 17), (0, 0))


# --- Cases of the description, and a day ---

def printed():
    nine = g.write_sheet([(2, 0, 0, 0, 0, 0)], [[1_000_000]], [(2, 2, [(1000, 0, 0, -500)])])
    for tau, data in product((0, 1 << 29), (nine, nine[:33], nine + b'\0')):
        yield ZEROS, either(ocean_tide, data, (tau, 0, 0, 0, 0, 0))
    day = either(at_phases, *telling.DAY_BODIES, telling.DAY_PHASES, t.ALL_LINES)
    yield ZEROS, day
    yield telling.day_field(), day[1:] * 3                              # out of the range by step one alone, then by both, then refused


def cases():
    """Every case, the calls that tell most before the others."""
    yield from printed()
    yield from numbers()
    low = g.write_sheet(*g.SMALL[:2], g.SMALL[2][:2])                   # its places of degree 1 alone
    for call in (at_phases(*g.GOOD, (1, 2, 3, 4, 5, 6), t.ALL_LINES, 1), ocean_tide(low, (6, 5, 4, 3, 2, 1), 0)):
        yield from fields(call)
        yield from choices(call)
    for part in (bodies, orders, body_edges, bounds_of_six, ordinary_bodies, halves, lines, layouts, sheet_values, synthesis, ocean_ties, waves):
        yield from part()
    yield from fields(own_lines(telling.OWN_RECORDS, (1, 2, 3, 4, 5, 6)))
    for part in (records_refused, own_waves, own_lists, selections):
        yield from part()
    pole = pole_tide(*telling.POLE_OFFSETS[1], 1)
    yield from fields(pole)
    yield from choices(pole)
    for part in (offsets_refused, offsets_alone, pole_offsets, hours, hours_used, twin_lines, where_twins_stand, written, read):
        yield from part()


def main():
    for case in cases():
        for line in words(case):
            print(' '.join(map(str, line)))


if __name__ == '__main__':
    main()
