"""Turns a table that a person can type (as examples/ocean.txt) into a model sheet's bytes, and back:

    python3 sheet.py bytes TABLE SHEET        python3 sheet.py table SHEET TABLE

Decimals are taken exactly and rounded once to the nearest millionth or count, a half away from zero. Places are put in order. Whether the sheet keeps the
unit's limits is for the unit to say: `ocean_tide` answers 7, 8, 16 or 9.
"""
import math
import struct
import sys
from fractions import Fraction


def nearest(text, unit):
    value = Fraction(text) * unit
    size = math.floor(abs(value) + Fraction(1, 2))
    return size if value > 0 else -size


def multipliers(words):
    """Six multipliers, or those of one Doodson number: six digits, or five where the first is 0, with or without a comma or a point."""
    if len(words) == 6:
        return tuple(map(int, words))
    number, = words
    digits = number.replace(',', '').replace('.', '').zfill(6)
    if len(digits) != 6 or not (digits.isascii() and digits.isdigit()):
        raise ValueError(f'{number} is no Doodson number')
    return (int(digits[0]), *(int(digit) - 5 for digit in digits[1:]))


def doodson(line):
    """The Doodson number, or where none writes them the six multipliers."""
    digits = (line[0], *(n + 5 for n in line[1:]))
    if not all(0 <= digit <= 9 for digit in digits):
        return ' '.join(map(str, line))
    return '{}{}{}.{}{}{}'.format(*digits)


class Table:
    def __init__(self):
        self.lines, self.tides, self.places = {}, {}, {}

    def take(self, kind, *words):
        if kind == 'line':
            name, *rest = words
            new(self.lines, name, multipliers(rest))
        elif kind == 'tide':
            name, *rest = words
            row = {}
            if len(rest) % 2:
                raise ValueError('a line or an admittance is missing')
            for line, admittance in zip(rest[::2], rest[1::2]):
                new(row, known(self.lines, line), nearest(admittance, 10 ** 6))
            new(self.tides, name, row)
        elif kind == 'place':
            degree, order, tide, *counts = words
            if len(counts) != 4:
                raise ValueError('four coefficients are wanted: C cos, S cos, C sin, S sin')
            place = self.places.setdefault((int(degree), int(order)), {})
            new(place, known(self.tides, tide), tuple(nearest(count, 10 ** 15) for count in counts))
        else:
            raise ValueError(f'{kind} is none of line, tide, place')

    def as_bytes(self):
        parts = [struct.pack('<H', len(self.lines))]
        parts += [struct.pack('<6b', *line) for line in self.lines.values()]
        parts += [struct.pack('<H', len(self.tides))]
        parts += [struct.pack('<i', row.get(line, 0)) for row in self.tides.values() for line in self.lines]
        parts += [struct.pack('<H', len(self.places))]
        for (degree, order), counts in sorted(self.places.items()):
            parts += [struct.pack('<BB', degree, order)]
            parts += [struct.pack('<4i', *counts.get(tide, (0, 0, 0, 0))) for tide in self.tides]
        return b''.join(parts)


def new(known_ones, name, value):
    if name in known_ones:
        raise ValueError(f'{name} comes twice')
    known_ones[name] = value


def known(known_ones, name):
    if name not in known_ones:
        raise ValueError(f'nothing above is named {name}')
    return name


def bytes_of(text):
    table = Table()
    for number, row in enumerate(text.splitlines(), 1):
        words = row.partition('#')[0].split()
        try:
            if words:
                table.take(*words)
        except (TypeError, ValueError, ZeroDivisionError) as fault:
            raise SystemExit(f'row {number}: {fault}')
    try:
        return table.as_bytes()
    except struct.error as fault:
        raise SystemExit(f'a number is beyond what its bytes hold: {fault}')


def table_of(sheet):
    at = 0

    def take(form):
        nonlocal at
        values = struct.unpack_from('<' + form, sheet, at)
        at += struct.calcsize('<' + form)
        return values

    rows = []
    try:
        lines = [take('6b') for _ in range(*take('H'))]
        rows += [f'line {f} {doodson(line)}' for f, line in enumerate(lines, 1)]
        tides = range(1, 1 + take('H')[0])
        for k in tides:
            row = take(f'{len(lines)}i')
            rows += [' '.join([f'tide {k}', *(f'{f} {admittance}e-6' for f, admittance in enumerate(row, 1) if admittance)])]
        for _ in range(*take('H')):
            degree, order = take('BB')
            counts = [(k, take('4i')) for k in tides]
            said = [(k, four) for k, four in counts if any(four)] or counts[:1]
            rows += [f'place {degree} {order} {k} ' + ' '.join(f'{count}e-15' for count in four) for k, four in said]
    except struct.error:
        raise SystemExit('the sheet ends too early')
    if at != len(sheet):
        raise SystemExit(f'{len(sheet) - at} bytes come after the sheet')
    return '\n'.join(rows) + '\n'


def main():
    if len(sys.argv) != 4 or sys.argv[1] not in ('bytes', 'table'):
        raise SystemExit(__doc__)
    way, given, made = sys.argv[1:]
    with open(given, 'rb') as file:
        content = file.read()
    result = bytes_of(content.decode()) if way == 'bytes' else table_of(content).encode()
    with open(made, 'wb') as file:
        file.write(result)


if __name__ == '__main__':
    main()
