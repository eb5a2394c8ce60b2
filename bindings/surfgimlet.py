"""Surfgimlet for Python: every call of include/surfgimlet.h over the shared object, refusals as exceptions.

The header says what each call is given, answers and refuses. C and S are lists of whole numbers, or array('q'), which saves two copies; an accepted
call corrects them in place, and a refused one raises Refused and leaves them. A number that the call's C type cannot hold raises OverflowError.
The library is the one beside this file's folder (PREFIX/lib), or the one that SURFGIMLET_LIBRARY names.
"""
import ctypes
import math
import operator
import os
import pathlib
from array import array
from collections import namedtuple
from ctypes import POINTER, byref, c_double, c_int32, c_int64, c_size_t, c_uint8, c_uint32, c_uint64

VERSION = 4002000
ELASTIC, ANELASTIC = 0, 1
CENTRE_OF_FIGURE, CENTRE_OF_MASS = 0, 1
TIDE_FREE, ZERO_TIDE, MEAN_TIDE = 0, 1, 2
RECTANGULAR, DIRECTION = 0, 1
TAU, S, H, P, NP, PS = 0, 1, 2, 3, 4, 5

WORDS = {
    0: "accepted",
    1: "the degree is outside 4..60, or a list has another length",
    2: "an entry of the field, or the C20 to move, is outside -2^60..2^60",
    3: "a number of a body's place, or its mass ratio, is not finite",
    4: "a body's distance is outside 10^8..10^12 m, or its mass ratio is not above 0 and at most 10^6",
    5: "a body's direction is not of length one: its square differs from 1 by more than 2^-40",
    6: "a step-one correction, before the permanent part, is not strictly between -2^52 and 2^52 counts",
    7: "the sheet has a section's count outside its range, or another length",
    8: "the sheet has a value or a row's total out of range, an S not zero at order 0, or places not ascending",
    9: "the sheet has a place of degree above the field's",
    10: "the Doodson number is above 999,999, or none can write the multipliers",
    11: "no printed line has the Doodson number",
    12: "the list of own lines has more than 64 records",
    13: "an own line has a multiplier outside -13..13, a first one not 0, 1 or 2, or an amplitude beyond 100,000",
    14: "the selection has a bit above 48, which stands for no line",
    15: "a pole offset is outside -1,000,000..1,000,000 micro-arcseconds",
    16: "two lines of the sheet have the same six multipliers",
    17: "the file is malformed, or an entry of its header is missing or repeated",
    18: "two lines of the file have the same place",
    19: "the file's degree or a value is out of range",
    20: "the file names no known tide system",
    21: "the output is too small",
    100: "a choice, a body's kind or an argument is none of its numbers",
}

# np is N' = -Omega
Phases = namedtuple('Phases', 'tau s h p np ps')
# the mass in Earth masses; x, y, z and the distance r in metres, or x, y, z of length one
Body = namedtuple('Body', 'kind ratio x y z r')
# six multipliers, and the amplitudes in phase and out of phase in tenths of 10^-12
OwnLine = namedtuple('OwnLine', 'tau s h p np ps ip op')
Line = namedtuple('Line', 'index first second')
# of a gravity field file: the gravity constant in m3/s2, the radius in millimetres, the tide system by its number; both lists as array('q')
FileHead = namedtuple('FileHead', 'degree constant radius system')
FieldFile = namedtuple('FieldFile', 'degree constant radius system c s')


class Refused(ValueError):
    """A call was refused, and changed nothing: number is its answer."""

    def __init__(self, number):
        super().__init__(f'refused with {number}: {WORDS.get(number, "no answer of this unit")}')
        self.number = number


def rectangular(ratio, x, y, z):
    """A body at x, y, z in metres, its distance worked out from them."""
    return Body(RECTANGULAR, ratio, x, y, z, math.sqrt(x * x + y * y + z * z))


class _Phases(ctypes.Structure):
    _fields_ = [(name, c_uint32) for name in Phases._fields]


class Hour(ctypes.Structure):
    """Six phases, and the cosines and sines of the 49 printed lines at them, in units of 2^-30, as start_hour, set_hour and move_hour make it. What is
    written into it by hand ctypes cuts to 32 bits."""
    _fields_ = [('phases', _Phases), ('cosines', c_int32 * 49), ('sines', c_int32 * 49)]


class _Body(ctypes.Structure):
    _fields_ = [('kind', c_uint32)] + [(name, c_double) for name in Body._fields[1:]]


class _OwnLine(ctypes.Structure):
    _fields_ = [(name, c_int32) for name in OwnLine._fields[:6]] + [(name, c_int64) for name in OwnLine._fields[6:]]


def _library():
    beside = pathlib.Path(__file__).resolve().parents[2] / 'lib' / 'libsurfgimlet.so'
    library = ctypes.CDLL(os.environ.get('SURFGIMLET_LIBRARY') or str(beside))
    lists = [c_uint32, POINTER(c_int64), c_size_t, POINTER(c_int64), c_size_t]
    text, head = [POINTER(c_uint8), c_size_t], [POINTER(c_uint32), POINTER(c_uint64), POINTER(c_uint64), POINTER(c_uint32)]
    for name, given in (
            ('version', []),
            ('solid_tide', lists + [_Body, _Body, c_uint32, Hour, c_uint64, POINTER(c_uint32)]),
            ('own_lines', lists + [POINTER(_OwnLine), c_size_t, _Phases]),
            ('pole_tide', lists + [c_int64, c_int64, c_uint32]),
            ('ocean_tide', lists + [POINTER(c_uint8), c_size_t, _Phases, c_uint32]),
            ('move_c20', [c_int64, c_uint32, c_uint32, c_uint32, POINTER(c_int64)]),
            ('multipliers_of', [c_uint32, POINTER(c_int32)]),
            ('number_of', [POINTER(c_int32), POINTER(c_uint32)]),
            ('find_line', [c_uint32, POINTER(c_size_t), POINTER(c_int64), POINTER(c_int64)]),
            ('write_field', lists + [c_uint64, c_uint64, c_uint32, POINTER(c_uint8), c_size_t, POINTER(c_size_t)]),
            ('read_field', text + lists[1:] + head),
            ('file_head', text + head)):
        call = getattr(library, 'surfgimlet_' + name)
        call.argtypes, call.restype = given, c_uint32
    for name in ('all_lines', 'major_lines'):
        call = getattr(library, 'surfgimlet_' + name)
        call.argtypes, call.restype = [], c_uint64
    for name, given in (('start_hour', []), ('set_hour', [_Phases]), ('move_hour', [Hour, c_uint32, c_int32, POINTER(c_uint32)])):
        call = getattr(library, 'surfgimlet_' + name)
        call.argtypes, call.restype = given, Hour
    return library


_unit = _library()


def _accepted(number):
    if number != 0:
        raise Refused(number)


def _unsigned(value, bits):
    # ctypes itself would take 2^32 + 165555 for 165555
    if not 0 <= operator.index(value) < 2 ** bits:
        raise OverflowError(f'{value} is not in 0..2^{bits}-1')
    return value


def _u32(value):
    return _unsigned(value, 32)


def _phases(phases):
    return _Phases(*map(_u32, phases))


def _body(body):
    return _Body(_u32(body[0]), *body[1:])


def _own_line(line):
    *multipliers, ip, op = line
    if len(multipliers) != 6:
        raise ValueError('six multipliers and two amplitudes are wanted')
    return _OwnLine(*array('i', multipliers), *array('q', (ip, op)))


def _lent(c, s):
    if c is s:
        raise ValueError('C and S are one list')
    return [l if isinstance(l, array) and l.typecode == 'q' else array('q', l) for l in (c, s)]


def _handed(lent):
    return [part for l in lent for part in ((c_int64 * len(l)).from_buffer(l), len(l))]


def _over_field(call, n, c, s, *given):
    lent = _lent(c, s)
    _accepted(call(_u32(n), *_handed(lent), *given))
    for own, corrected in zip((c, s), lent):
        if own is not corrected:
            own[:] = corrected


def _bytes(data):
    return (c_uint8 * len(data)).from_buffer_copy(data), len(data)


def version():
    return _unit.surfgimlet_version()


def start_hour():
    """The Hour of all phases zero."""
    return _unit.surfgimlet_start_hour()


def set_hour(phases):
    """The Hour of these phases, for any number of fields."""
    return _unit.surfgimlet_set_hour(_phases(phases))


def move_hour(hour, argument, amount):
    """An Hour with one phase moved, TAU to PS, by a signed 32-bit amount; the one given stays."""
    answer = c_uint32()
    moved = _unit.surfgimlet_move_hour(hour, _u32(argument), array('i', [amount])[0], byref(answer))
    _accepted(answer.value)
    return moved


def solid_tide(n, c, s, moon, sun, love_model, hour, selection):
    """Bit i of the selection names line i; answers how many lines are named."""
    lines = c_uint32()
    given = _body(moon), _body(sun), _u32(love_model), hour, _unsigned(selection, 64)
    _over_field(_unit.surfgimlet_solid_tide, n, c, s, *given, byref(lines))
    return lines.value


def all_lines():
    """The selection of all 49 lines."""
    return _unit.surfgimlet_all_lines()


def major_lines():
    """The selection of the lines that have an anelastic amplitude of at least ten tenths of 10^-12."""
    return _unit.surfgimlet_major_lines()


def own_lines(n, c, s, lines, phases):
    """The lines are OwnLines, or tuples of eight."""
    given = [_own_line(line) for line in lines]
    _over_field(_unit.surfgimlet_own_lines, n, c, s, (_OwnLine * len(given))(*given), len(given), _phases(phases))


def pole_tide(n, c, s, xp, yp, love_model):
    """xp and yp are the pole's offsets from its mean in whole micro-arcseconds, yp towards 90 degrees west."""
    _over_field(_unit.surfgimlet_pole_tide, n, c, s, *array('q', (xp, yp)), _u32(love_model))


def ocean_tide(n, c, s, sheet, phases, frame):
    _over_field(_unit.surfgimlet_ocean_tide, n, c, s, *_bytes(sheet), _phases(phases), _u32(frame))


def move_c20(c20, from_system, to_system, love_model):
    given, moved = array('q', [c20])[0], c_int64()
    _accepted(_unit.surfgimlet_move_c20(given, _u32(from_system), _u32(to_system), _u32(love_model), byref(moved)))
    return moved.value


def multipliers_of(number):
    multipliers = (c_int32 * 6)()
    _accepted(_unit.surfgimlet_multipliers_of(_u32(number), multipliers))
    return tuple(multipliers)


def number_of(multipliers):
    given, number = array('i', multipliers), c_uint32()
    if len(given) != 6:
        raise ValueError('six multipliers are wanted')
    _accepted(_unit.surfgimlet_number_of((c_int32 * 6)(*given), byref(number)))
    return number.value


def find_line(number):
    index, first, second = c_size_t(), c_int64(), c_int64()
    _accepted(_unit.surfgimlet_find_line(_u32(number), byref(index), byref(first), byref(second)))
    return Line(index.value, first.value, second.value)


def file_bytes(n):
    """How many bytes write_field makes of a field of degree n."""
    return 54 * (9 + (n + 1) * (n + 2) // 2)


def write_field(n, c, s, constant, radius, system):
    """The bytes of a gravity field file; the gravity constant in m3/s2, the radius in millimetres, the tide system of C20."""
    out, written = (c_uint8 * file_bytes(min(_u32(n), 60)))(), c_size_t()
    given = _unsigned(constant, 64), _unsigned(radius, 64), _u32(system)
    _accepted(_unit.surfgimlet_write_field(n, *_handed(_lent(c, s)), *given, out, len(out), byref(written)))
    return bytes(out)[:written.value]


def _read(call, data, *lists):
    head = c_uint32(), c_uint64(), c_uint64(), c_uint32()
    _accepted(call(*_bytes(data), *lists, *map(byref, head)))
    return FileHead(*(part.value for part in head))


def file_head(data):
    """What a gravity field file's header says; the data lines are tested as read_field tests them."""
    return _read(_unit.surfgimlet_file_head, data)


def read_field(data):
    """A gravity field file's header and field, 0 where no line has a place."""
    n = file_head(data).degree
    lent = [array('q', bytes(8 * ((n + 1) * (n + 2) // 2))) for _ in 'CS']
    return FieldFile(*_read(_unit.surfgimlet_read_field, data, *_handed(lent)), *lent)
