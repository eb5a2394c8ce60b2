"""The Python module at its edges: refusals raised with their words and nothing changed, numbers that C cannot hold, both kinds of list.
PYTHONPATH names the folder share/surfgimlet of an installed unit."""
import sys
from array import array
from ctypes import ArgumentError

import surfgimlet as unit

ZERO = unit.Phases(0, 0, 0, 0, 0, 0)
DAY = unit.Phases(327043742, 329517021, 656638906, 3117674196, 3812369497, 3376471194)
START = unit.start_hour()
LINE = unit.OwnLine(1, 1, 0, 0, 0, 0, 3, 5)
MOON = unit.rectangular(0.0123, 3e8, -2e8, 1e8)
SUN = unit.rectangular(332946, 1e11, 1.1e11, 3e10)
# what the two raise, anelastic, as the second program has it; and C22 of the elastic model
BODIES = ([0, 0, 0, -506485, 3768761, 2287483, -12903, -11534, 6746, -5034, 13877, -10092, -4304, 0, 0],
          [0, 0, 0, 0, -1171829, -3316535, 0, 7669, -16181, -25599, 0, 3191, 6299, 0, 0])
ELASTIC_C22 = 2250388
HEAD = 4, 398600441500000, 6378136300, unit.MEAN_TIDE
# a field in this head, zeros but for four entries, as the second program writes it: the header, and the lines of (2,0), (2,1) and (4,4)
WRITTEN = (
    b'product_type                            gravity_field\n'
    b'modelname                                  surfgimlet\n'
    b'earth_gravity_constant                398600441500000\n'
    b'radius                                    6378136.300\n'
    b'max_degree                                          4\n'
    b'errors                                             no\n'
    b'norm                                 fully_normalized\n'
    b'tide_system                                 mean_tide\n'
    b'end_of_head =========================================\n',
    b'gfc  2  0    -0.000484165371736     0.000000000000000\n'
    b'gfc  2  1     0.000000000000000     0.000000000000007\n',
    b'gfc  4  4  1152.921504606846976 -1152.921504606846976\n')
TWINS = bytes((2, 0, *(2, 1, 0, 0, 0, 7) * 2, 1, 0, *[0] * 8, 0, 0))       # two lines, one tide, no place
faults = []


def raised(call, *given):
    try:
        return call(*given)
    except unit.Refused as refused:
        assert unit.WORDS[refused.number] in str(refused)
        return refused.number
    except (OverflowError, TypeError, ValueError, ArgumentError) as other:
        return type(other)


def expect(what, got, wanted):
    if got != wanted:
        faults.append(f'{what}: {got}, and not {wanted}')


def field(value=0):
    return [value] * 15, [value] * 15


def solid(c, s, moon=MOON, sun=SUN, love=unit.ANELASTIC, hour=START, selection=1):
    """The solid tide on a field of degree 4."""
    return raised(unit.solid_tide, 4, c, s, moon, sun, love, hour, selection)


def hours():
    """Start, set and move; what is refused and what the calls cannot hold; and what is written by hand."""
    expect('the start', (bytes(START), START.cosines[:], START.sines[:]), (bytes(unit.set_hour(ZERO)), [2 ** 30] * 49, [0] * 49))
    day, moved = unit.set_hour(DAY), START
    for argument, phase in zip((unit.TAU, unit.S, unit.H, unit.P, unit.NP, unit.PS), DAY):
        moved = unit.move_hour(moved, argument, phase - (phase >> 31 << 32))
    expect('the hour moved to', bytes(moved), bytes(day))
    expect('its phases', [getattr(day.phases, name) for name in DAY._fields], list(DAY))
    for amount in (2 ** 31 - 1, -2 ** 31, 1):
        moved = unit.move_hour(moved, unit.NP, amount)
    expect('the hour moved back', bytes(moved), bytes(day))
    expect('a set of six phases', bytes(unit.set_hour(list(DAY))), bytes(day))
    expect('an argument 6', raised(unit.move_hour, day, 6, 1), 100)
    expect('an argument below 0', raised(unit.move_hour, day, -1, 1), OverflowError)
    expect('an amount of 2^31', raised(unit.move_hour, day, unit.S, 2 ** 31), OverflowError)
    expect('an amount below -2^31', raised(unit.move_hour, day, unit.S, -2 ** 31 - 1), OverflowError)
    expect('half a unit', raised(unit.move_hour, day, unit.S, 0.5), TypeError)
    expect('a phase below 0', raised(unit.set_hour, ZERO._replace(np=-1)), OverflowError)
    expect('a phase of a turn', raised(unit.set_hour, ZERO._replace(ps=2 ** 32)), OverflowError)
    expect('the hour given', bytes(day), bytes(unit.set_hour(DAY)))
    day.cosines[15] = -2 ** 31
    c, s = field()
    expect('what is written by hand', (solid(c, s, hour=day, selection=1 << 15), s[4]), (1, BODIES[1][4] - 942000))
    kept = unit.move_hour(day, unit.PS, 1)
    expect('a line without the argument', kept.cosines[15], -2 ** 31)
    expect('one with it', kept.cosines[10], unit.set_hour(DAY._replace(ps=DAY.ps + 1)).cosines[10])


def files():
    """A field written and read back, lists of both kinds; what is refused and what the calls cannot hold."""
    c, s = field()
    c[3], s[4], c[14], s[14] = -484165371736, 7, 2 ** 60, -2 ** 60
    text = unit.write_field(4, c, s, *HEAD[1:])
    expect('the text', (text[:486], text[648:756], text[-54:]), WRITTEN)
    expect('its length', (len(text), unit.file_bytes(4), unit.file_bytes(60)), (1296, 1296, 102600))
    expect('the text of arrays', unit.write_field(4, array('q', c), array('q', s), *HEAD[1:]), text)
    for what, data in (
            ('the text', text), ('a bytearray', bytearray(text)), ('a view', memoryview(text)), ('CR LF', text.replace(b'\n', b'\r\n')),
            ('a decimal at a half', text.replace(b'0.000000000000007', b'\t+.65D-14')), ('131,072 bytes', text.ljust(131072)),
            ('a place without a line', text.replace(b'gfc  3  1     0.000000000000000     0.000000000000000\n', b''))):
        expect(f'the head of {what}', raised(unit.file_head, data), HEAD)
        read = unit.read_field(data)
        expect(f'the field of {what}', (read[:4], list(read.c), list(read.s)), (HEAD, c, s))
    expect('the text of what was read', unit.write_field(read.degree, read.c, read.s, read.constant, read.radius, read.system), text)
    for head, *lists in (((4, 2 ** 64 - 1, 2 ** 64 - 1, 0), c, s), ((60, 0, 0, 1), [0] * 1891, array('q', [1] * 1891))):
        expect(f'the head {head}', raised(unit.file_head, unit.write_field(head[0], *lists, *head[1:])), head)
    for what, data, wanted in (
            ('no file', b'', 17), ('a cut file', text[:-30], 17), ('131,073 bytes', text.ljust(131073), 17), ('a byte 255', text + b'\xff', 17),
            ('twin places', text + text[-54:], 18), ('a degree 61', text.replace(b'degree                                          4', b'degree 61'), 19),
            ('1152.9215046068469765', text.replace(b' 1152.921504606846976 ', b' 1152.9215046068469765 '), 19),
            ('no system', text.replace(b'tide_system', b'tide-system'), 20), ('a system Mean_tide', text.replace(b'mean_tide', b'Mean_tide'), 20),
            ('words', text.decode(), TypeError), ('no bytes', None, TypeError)):
        expect(f'the head of {what}', raised(unit.file_head, data), wanted)
        expect(f'the field of {what}', raised(unit.read_field, data), wanted)
    expect('a degree 3', raised(unit.write_field, 3, c[:10], s[:10], *HEAD[1:]), 1)
    expect('a degree 2^32 - 1', raised(unit.write_field, 2 ** 32 - 1, c, s, *HEAD[1:]), 1)
    expect('a list too long', raised(unit.write_field, 4, c, s + [0], *HEAD[1:]), 1)
    expect('an entry of 2^60 + 1', raised(unit.write_field, 4, *field(2 ** 60 + 1), *HEAD[1:]), 2)
    expect('a system 3', raised(unit.write_field, 3, c, s, 0, 0, 3), 100)
    expect('one list written twice', raised(unit.write_field, 4, c, c, 0, 0, 0), ValueError)
    expect('a degree of 2^32', raised(unit.write_field, 2 ** 32 + 4, c, s, 0, 0, 0), OverflowError)
    expect('a constant below 0', raised(unit.write_field, 4, c, s, -1, 0, 0), OverflowError)
    expect('a radius of 2^64', raised(unit.write_field, 4, c, s, 0, 2 ** 64, 0), OverflowError)
    expect('a radius in metres', raised(unit.write_field, 4, c, s, 0, 6378136.3, 0), TypeError)
    expect('a system of 2^32', raised(unit.write_field, 4, c, s, 0, 0, 2 ** 32), OverflowError)


def main():
    hours()
    files()
    for kind in (list, lambda entries: array('q', entries)):
        c, s = map(kind, field())
        expect('no lines', solid(c, s, selection=0), 0)
        once = list(c), list(s)
        expect('what the bodies raise', once, BODIES)
        expect('all lines', solid(c, s, selection=unit.all_lines()), 49)
        lines = [[now - 2 * one for now, one in zip(both, before)] for both, before in zip((c, s), once)]
        expect('what they add', (lines[0][3:6], lines[1][4:6], sum(map(abs, sum(lines, [])))), ([10100, 0, -1500], [450100, 0], 461700))
        c, s = map(kind, field())
        expect('the semidiurnal lines', (solid(c, s, love=unit.ELASTIC, selection=3 << 47), c[5]), (2, ELASTIC_C22 - 1500))
        c, s = map(kind, field())
        expect('own lines', (raised(unit.own_lines, 4, c, s, [LINE, (1, 0, 0, 0, 0, 0, 0, -1)], ZERO), c[4], s[4]), (None, 400, 300))
        expect('none of them', (raised(unit.own_lines, 4, c, s, [], ZERO), c[4], s[4]), (None, 400, 300))
        expect('pole tide', (raised(unit.pole_tide, 4, c, s, 10 ** 6, -50, unit.ELASTIC), c[4], s[4]), (None, -1289600, 235))
        kept = list(c), list(s)
        expect('a pole beyond an arcsecond', raised(unit.pole_tide, 4, c, s, 0, -10 ** 6 - 1, unit.ANELASTIC), 15)
        expect('a pole at -2^63', raised(unit.pole_tide, 4, c, s, -2 ** 63, 0, unit.ANELASTIC), 15)
        expect('a pole at 2^64', raised(unit.pole_tide, 4, c, s, 2 ** 64, 0, unit.ANELASTIC), OverflowError)
        expect('a pole in arcseconds', raised(unit.pole_tide, 4, c, s, 0.1, 0.2, unit.ANELASTIC), TypeError)
        expect('65 own lines', raised(unit.own_lines, 4, c, s, [LINE] * 65, ZERO), 12)
        expect('64 of them, the last at fault', raised(unit.own_lines, 4, c, s, [LINE] * 63 + [LINE._replace(tau=3)], ZERO), 13)
        expect('a sheet of nothing', raised(unit.ocean_tide, 4, c, s, b'', ZERO, unit.CENTRE_OF_MASS), 7)
        expect('twin lines', raised(unit.ocean_tide, 4, c, s, TWINS, ZERO, unit.CENTRE_OF_MASS), 16)
        expect('their order changed', raised(unit.ocean_tide, 4, c, s, TWINS[:8] + TWINS[13:7:-1] + TWINS[14:], ZERO, unit.CENTRE_OF_MASS), None)
        expect('a Moon in kilometres', solid(c, s, moon=unit.rectangular(0.0123, 3e5, -2e5, 1e5)), 4)
        expect('a Sun without a place', solid(c, s, sun=SUN._replace(x=float('nan'))), 3)
        expect('the Moon before the Sun', solid(c, s, moon=MOON._replace(x=0.0), sun=SUN._replace(r=0.0)), 5)
        expect('a heavy Moon', solid(c, s, moon=unit.rectangular(1e6, 6e7, 0.0, 8e7)), 6)
        expect('a Love model 2', solid(c, s, love=2), 100)
        expect('a Sun of kind 2', solid(c, s, sun=SUN._replace(kind=2)), 100)
        expect('phases in place of an hour', solid(c, s, hour=ZERO), ArgumentError)
        expect('bit 49', solid(c, s, selection=1 << 49), 14)
        expect('bit 49 before the Moon', solid(c, s, moon=MOON._replace(x=0.0), selection=1 << 49), 14)
        expect('a selection below 0', solid(c, s, selection=-1), OverflowError)
        expect('a selection of 2^64', solid(c, s, selection=2 ** 64), OverflowError)
        expect('one list twice', solid(c, c), ValueError)
        expect('the lists', (list(c), list(s)), kept)
    expect('no lists', solid([], []), 1)
    expect('2^60 + 1', solid(*field(2 ** 60 + 1)), 2)
    expect('2^64', solid(*field(2 ** 64)), OverflowError)
    expect('a fraction', solid(*field(0.5)), TypeError)
    expect('the lines of the profiles', (solid(*field(), love=unit.ELASTIC, selection=unit.major_lines()), unit.all_lines()), (21, 2 ** 49 - 1))
    expect('a move of 2^63', raised(unit.move_c20, 2 ** 63, unit.ZERO_TIDE, unit.MEAN_TIDE, unit.ELASTIC), OverflowError)
    expect('2^32 + 165555', raised(unit.multipliers_of, 2 ** 32 + 165555), OverflowError)
    expect('a million', raised(unit.find_line, 10 ** 6), 10)
    expect('multipliers', raised(unit.number_of, (1, 5, 0, 0, 0, 0)), 10)
    expect('five of them', raised(unit.number_of, (1, 1, 0, 0, 0)), ValueError)
    expect('a multiplier of 2^32', raised(unit.number_of, (2 ** 32, 0, 0, 0, 0, 0)), OverflowError)
    for name, value, wanted in (
            ('tau', 2, None), ('ps', -13, None), ('ip', 100000, None), ('tau', -1, 13), ('ps', -2 ** 31, 13), ('op', -2 ** 63, 13), ('ip', 100001, 13),
            ('ps', -2 ** 31 - 1, OverflowError), ('s', 2 ** 32, OverflowError), ('op', -2 ** 63 - 1, OverflowError), ('ip', 2 ** 64, OverflowError),
            ('h', 0.5, TypeError), ('ip', 1.0, TypeError)):
        expect(f'{name} {value}', raised(unit.own_lines, 4, *field(), [LINE, LINE._replace(**{name: value})], ZERO), wanted)
    expect('seven numbers of one', raised(unit.own_lines, 4, *field(), [LINE[1:]], ZERO), ValueError)
    expect('nine', raised(unit.own_lines, 4, *field(), [(1, *LINE)], ZERO), ValueError)
    expect('one number of one', raised(unit.own_lines, 4, *field(), [(1,)], ZERO), ValueError)
    print('\n'.join(faults) or 'python: refusals are raised, and what is refused changes nothing')
    return bool(faults)


if __name__ == '__main__':
    sys.exit(main())
