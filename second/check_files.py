"""Runs cases worked out by hand from T-10 and its rules, made files and slips on files.py; prints one line. check.py runs them too."""

from collections import Counter
from decimal import ROUND_HALF_UP, Context
from itertools import combinations, permutations
from pathlib import Path
from types import ModuleType

import field_files as given
import files
from chance import Chance
from tides import size

chance = Chance(19960630)
counts = Counter()
met = Counter()          # made files, by kind and outcome
EDGE = 1 << 60


def expect(kind, got, wanted):
    counts[kind] += 1
    assert got == wanted, (kind, repr(got)[:3000], repr(wanted)[:3000])


# --- Cases of reading, worked out by hand ---

HEADER = {
    'product_type': 'product_type gravity_field',
    'modelname': 'modelname ONE',
    'constant': 'earth_gravity_constant 398600441500000',
    'radius': 'radius 6378136.3',
    'max_degree': 'max_degree 4',
    'errors': 'errors no',
    'norm': 'norm fully_normalized',
    'tide_system': 'tide_system zero_tide'}


def text(*data, before=(), behind=(), end='end_of_head', **changed):
    """A file of these data lines; its header with lines before and behind it, with entries changed, or left out where None is given."""
    entries = [line for line in {**HEADER, **changed}.values() if line is not None]
    return '\n'.join([*before, *entries, *behind, end, *data, '']).encode('latin-1')


def field(C=(), S=(), top=4, constant=398600441500000, radius=6378136300, system=1):
    """The answer: counts by their indices, all others zero."""
    lists = [[dict(given).get(i, 0) for i in range((top + 1) * (top + 2) // 2)] for given in (C, S)]
    return top, constant, radius, system, *lists


def in_text():
    """'Text': lines, blanks, words and the most bytes."""
    two = text('gfc 2 0 -0.001 0', 'gfc 4 4 0 2e-15')
    due = field({3: -10**12}, {14: 2})
    yield due, two
    for end in (b'\r\n', b'\r', b'\n\r', b'\n\n', b'\r\r\n', b'\n \t \n', b' \t\r\t\n\t'):
        yield due, two.replace(b'\n', end)
    for blank in (b'\t', b'  ', b' \t', b'\t \t'):
        yield due, two.replace(b' ', blank)
        yield due, blank + two.replace(b'\n', blank + b'\n' + blank)
    yield due, two[:-1]                                                         # the last line without its end
    yield due, two[:-1] + b' '
    yield field(), text()[:-1]                                                  # end_of_head is the last line
    yield 17, two.replace(b'end_of_head\n', b'')
    for byte in (0, 1, 11, 12, 28, 29, 30, 31, 127, 128, 133, 160, 255):        # belong to words
        one = bytes((byte,))
        yield 17, text(f'gfc{chr(byte)}2 0 1 0')
        yield 17, text(f'gfc 2{chr(byte)} 0 1 0')
        yield 17, text(f'gfc 2 0 {chr(byte)}1 0')
        yield 17, text('gfc 2 0 0 0', chr(byte))                                # a line with a word
        yield field(), text(before=[chr(byte)], behind=[chr(byte) + 'max_degree 9', 'radius' + chr(byte) + '9'])
        yield field({3: 10**15}), text(f'gfc 2 0 1 0 {chr(byte)} x{chr(byte)}x')
        yield due, two.replace(b'ONE', one)
    many = 131_072 - len(two)
    for more, number in ((many, due), (many + 1, 17)):
        yield number, two + b' ' * more
        yield number, two + b'\n' * more
        yield number, b'\r' * more + two
        yield number, b'#' * (more - 1) + b'\n' + two
        yield number, two[:-1] + b' x ' + b'y' * (more - 3) + b'\n'
    for repeated in (text('gfc 2 0 1 0', 'gfc 2 0 1 0'), text(max_degree='max_degree 61'), text(tide_system=None)):
        yield 17, repeated + b'\n' * (131_073 - len(repeated))
    yield 17, b''
    yield 17, b'\n \t\r'


def in_header():
    """'Header': where it begins and ends, which lines are entries, how often they stand, and their values."""
    yield 17, text(end='')
    for end in ('end_of_header', 'end_of_hea', 'End_of_head', 'END_OF_HEAD', 'end_of_head=', '=end_of_head', 'x end_of_head', 'end of head'):
        yield 17, text(end=end)
    for end in ('end_of_head ====', '  end_of_head', '\tend_of_head max_degree 9', 'end_of_head end_of_head'):
        yield field(), text(end=end)
    yield 17, text('end_of_head')
    yield 17, text('begin_of_head')
    yield 17, text('max_degree 4')
    comment = ['max_degree 9', 'radius', 'radius x', 'product_type x', 'norm unnormalized', 'tide_system x', 'gravity_constant 1', 'norm']
    for begin in ('begin_of_head', ' begin_of_head ====', '\tbegin_of_head begin_of_head'):
        yield field(), text(before=[*comment, begin])
    for begin in ('Begin_of_head', 'begin_of_header', 'x begin_of_head', 'begin_of_head='):
        yield 17, text(before=['radius 1', begin])                              # no comment, so the radius stands twice
        yield field(), text(before=['begin_of_head', begin])
    yield 17, text(before=['begin_of_head', 'begin_of_head'])
    yield 17, text(before=['begin_of_head'], behind=['begin_of_head'])
    yield 17, text(behind=['begin_of_head'])                                    # all required ones are comment
    yield 17, text(before=['max_degree 4', 'begin_of_head'], max_degree=None)
    yield 20, text(before=['tide_system zero_tide', 'begin_of_head'], tide_system=None)
    yield 17, text(before=['end_of_head', 'begin_of_head'])                     # the first end_of_head counts
    for name, missing in (('product_type', 17), ('modelname', field()), ('constant', 17), ('radius', 17), ('max_degree', 17), ('errors', field()),
                          ('norm', field()), ('tide_system', 20)):
        line = HEADER[name]
        keyword, value = line.split()
        yield missing, text(**{name: None})
        for other in (keyword.upper(), keyword.capitalize(), keyword + 's', keyword[:-1], keyword + ':', 'x' + keyword, f'x {keyword}'):
            yield missing, text(**{name: f'{other} {value}'})
            yield field(), text(behind=[f'{other} 9'])                          # every other line is passed over
        yield 17, text(behind=[line])                                           # the values agree
        yield 17, text(behind=[f'{keyword} 9'])
        yield 17, text(before=[f'{keyword} 9'])
        yield 17, text(behind=[keyword])
        yield 17, text(**{name: keyword})                                       # no value
        yield 17, text(**{name: f'  {keyword}\t '})
        yield field(), text(**{name: f'\t{line}  9 {line}'})                    # words after the value
        yield field(), text(before=[line, keyword, 'begin_of_head'])
    also = 'gravity_constant 398600441500000'
    yield field(), text(constant=also)
    yield 17, text(behind=[also])
    yield 17, text(constant=also, behind=[also])
    yield 17, text(constant=also, behind=['earth_gravity_constant 398600441500000'])
    yield 17, text(behind=['gravity_constant'])
    yield 17, text(constant='gravity_constant')
    for line in ('gfc 2 0 1 0', 'key L M C S sigma C sigma S', 'generating_institute', 'max_degree_ 5', '4', 'gfct', '\xff'):
        yield field(), text(before=[line], behind=[line, line])
    for value in ('gravity_fields', 'gravity_fiel', 'Gravity_field', 'gravity', 'topography', 'gravity_field;'):
        yield 17, text(product_type=f'product_type {value}')
    for value in ('unnormalized', 'fully_normalised', 'fully_normalize', 'fully_normalized_', 'Fully_normalized', 'none'):
        yield 17, text(norm=f'norm {value}')
    for value in ('x', 'no', 'formal', '\x00', 'end_of_head', 'surfgimlet'):
        yield field(), text(modelname=f'modelname {value}', errors=f'errors {value}')
    for system, value in enumerate(('tide_free', 'zero_tide', 'mean_tide')):
        yield field(system=system), text(tide_system=f'tide_system {value}')
    for value in ('unknown', 'Tide_free', 'TIDE_FREE', 'tide-free', 'tide_fre', 'tide_free_', 'free', 'zero', 'mean', 'mean_tides', 'free_tide', '0'):
        yield 20, text(tide_system=f'tide_system {value}')


def in_degree():
    """'Header', max_degree: a whole number, or 17; outside 4..60, 19."""
    for word in ('+4', '-4', '4.', '.4', '4.0', '4e0', '0x4', '4,', 'four', '4_0', '\xb2', '4-', ' x 4', '-0'):
        yield 17, text(max_degree=f'max_degree {word}')
    for word in ('4', '04', '0' * 30 + '4', '0' * 100_000 + '4'):
        yield field(), text(max_degree=f'max_degree {word}')
    for word in ('0', '00', '1', '2', '3', '61', '061', '100', '256', '260', '2190', '65540', '4294967296', '4294967300', '4294967356',
                 '18446744073709551616', '18446744073709551620', '18446744073709551676', '340282366920938463463374607431768211460', '4' * 100_000):
        yield 19, text(max_degree=f'max_degree {word}')
    for top, fit in ((5, 21), (59, 1830), (60, 1891)):
        yield field(top=top), text(max_degree=f'max_degree {top}'), fit, fit
    yield field({1890: 1}, {1890: 2}, top=60), text('gfc 60 60 1e-15 2e-15', max_degree='max_degree 60'), 1891, 1891


def in_constants():
    """'Header', the gravity constant and the radius: a decimal, or 17; the nearest whole m3/s2 and millimetre, below 0 or 2^64 or more, 17."""
    most = (1 << 64) - 1
    of_constant = (
        ('0.3986004415E+15', 398600441500000), ('3.986004415D14', 398600441500000), ('398600.4415e9', 398600441500000), ('0', 0), ('-0', 0),
        ('-0.0e7', 0),
        ('-0.4', 0), ('-.4999999999999999999999999999999999999999', 0), ('-0.5', 17), ('-5e-1', 17), ('-1', 17), ('0.5', 1), ('1.5', 2), ('2.5', 3),
        ('0.4999999999999999999999999999999999999999', 0), ('7.4999999999999999999999999999999999999999', 7), ('+7', 7), ('7.5', 8),
        ('18446744073709551615', most), ('18446744073709551614.5', most), ('18446744073709551615.4', most),
        ('18446744073709551615.4999999999999999999999999999999999999999', most), ('18446744073709551615.5', 17), ('18446744073709551616', 17),
        ('18446744073709551617', 17), ('1e19', 10**19), ('1.9e19', 17), ('9e19', 17), ('1e20', 17), ('1e-20', 0), ('36893488147419103232', 17),
        ('340282366920938463463374607431768211457', 17), ('1e999999999999', 17), ('-1e999999999999', 17), ('1e-999999999999', 0), ('-1e-999999999999',
        0),
        ('0e999999999999', 0), ('1e18446744073709551616', 17), ('1e-18446744073709551616', 0), ('0' * 90_000 + '7', 7),
        ('7' + '0' * 90_000 + 'e-90000', 7))
    for word, count in of_constant:
        yield field(constant=count) if count != 17 else 17, text(constant=f'earth_gravity_constant {word}')
        yield field(constant=count) if count != 17 else 17, text(constant=f'gravity_constant {word}')
    of_radius = (
        ('0.6378136300E+07', 6378136300), ('6378136.3', 6378136300), ('6.37813646D6', 6378136460), ('6378136.0004', 6378136000), ('6378136.0005',
        6378136001),
        ('6378136.00049999999999999999999999999999999999999999', 6378136000), ('0.0025', 3), ('0.0004', 0), ('0.0005', 1), ('-0.0004', 0), ('-0.0005',
        17),
        ('-0.00049999999999999999999999999999999999999999', 0), ('-0.001', 17), ('18446744073709551.615', most), ('18446744073709551.6154', most),
        ('18446744073709551.61549999999999999999999999999999999999999999', most), ('18446744073709551.6155', 17), ('18446744073709551.616', 17),
        ('1e16', 10**19), ('1e17', 17), ('1e999999999999', 17), ('-1e999999999999', 17), ('1e-999999999999', 0), ('0', 0))
    for word, count in of_radius:
        yield field(radius=count) if count != 17 else 17, text(radius=f'radius {word}')
    for word in NO_DECIMAL:
        yield 17, text(constant=f'gravity_constant {word}')
        yield 17, text(radius=f'radius {word}')


NO_DECIMAL = (
    '+', '-', '.', '+.', '-.', 'e', 'e5', '.e5', '+e5', 'E', '1e', '1e+', '1D-', '1.2.3', '1..', '..1', '1.2.', '1e5.', '1e.5', '1e5.0', '1ee5',
    '1ed5',
    '1e5e5', '1E5D5', '--1', '+-1', '-+1', '1-', '1+', '1-1', '1e--5', '1e+-5', '1e5-', '1f5', '1q5', '1^5', '1*10', '0x10', 'nan', 'NaN', 'inf',
    '-inf',
    '1_0', '1,0', '1;', '\xb9', '1\xa0', '(1)', '1/2', 'x', 'd0', '1x')


def in_numbers():
    """'Numbers', by C of (2,0) and S of (2,1): the forms that a decimal may have, those that it may not, and how it is rounded."""
    nines, zeros = '9' * 39, '0' * 39
    accepted = (
        ('1', 10**15), ('+1', 10**15), ('-1', -10**15), ('1.', 10**15), ('-1.', -10**15), ('.5', 5 * 10**14), ('+.5', 5 * 10**14), ('5.e-1',
        5 * 10**14),
        ('.5d0', 5 * 10**14), ('1E+0', 10**15), ('1e2', 10**17), ('1E2', 10**17), ('1d2', 10**17), ('1D2', 10**17), ('1D+02', 10**17), ('100e-02',
        10**15),
        ('0001.5000', 15 * 10**14), ('-0.484165143790815D-03', -484165143791), ('0.484165143790485E-03', 484165143790), ('4.84165143790500E-04',
        484165143791),
        ('0', 0), ('-0', 0), ('+0.', 0), ('-.0', 0), ('0e0', 0), ('0D-5', 0), ('1e-15', 1), ('-1e-15', -1), ('0.000000000000001', 1),
        ('-0.000000000000600', -600),
        ('5e-16', 1), ('-5e-16', -1), ('0.5e-15', 1), ('1.5e-15', 2), ('-1.5e-15', -2), ('2.5e-15', 3), ('-2.5e-15', -3), ('3.5e-15', 4), ('-3.5e-15',
        -4),
        ('4.9e-16', 0), ('-4.9e-16', 0), ('5.1e-16', 1), ('9e-16', 1), ('9e-17', 0), ('-9e-17', 0), ('1.4e-15', 1), ('1.6e-15', 2), ('-1.4e-15', -1),
        (f'0.4{nines}e-15', 0), (f'-0.4{nines}e-15', 0), (f'0.5{zeros}1e-15', 1), (f'1.4{nines}e-15', 1), (f'-1.4{nines}e-15', -1),
        (f'2.5{zeros}1e-15', 3),
        (f'-2.5{zeros}1e-15', -3), (f'2.4{nines}e-15', 2), (f'0.{"9" * 40}e-15', 1), (f'0.0000000000000024{nines}', 2), ('0.45e-15', 0), ('0.445e-15',
        0),
        ('1152.921504606846976', EDGE), ('-1152.921504606846976', -EDGE), ('1152.9215046068469764', EDGE), ('-1152.9215046068469764', -EDGE),
        (f'1152.9215046068469764{nines}', EDGE), (f'-1152.9215046068469764{nines}', -EDGE), ('1152.9215046068469755', EDGE),
        ('1.152921504606846976e3', EDGE),
        ('1152921504606846976e-15', EDGE), ('0.0001152921504606846976e+7', EDGE),
        ('0e999999999999', 0), ('-0.000e999999999999', 0), ('1e-999999999999', 0), ('-1e-999999999999', 0), ('0e-18446744073709551617', 0),
        ('1e-18446744073709551617', 0), ('1e-18446744073709551601', 0), ('1e-4294967311', 0), ('1e-' + '9' * 1000, 0), ('1e-' + '0' * 1000 + '15', 1),
        ('1e+' + '0' * 1000, 10**15), ('1' + '0' * 9_999 + 'e-10014', 1), ('0.' + '0' * 99_999 + '1e99985', 1), ('0' * 100_000 + '1e-15', 1),
        ('0.4' + '9' * 100_000 + 'e-15', 0), ('0.5' + '0' * 9_999 + 'e-15', 1), ('-6.5' + '0' * 9_999 + '1e-15', -7), ('6.4' + '9' * 9_999 + 'e-15',
        6),
        ('.' + '0' * 100_000 + '5e99985', 1), ('.' + '0' * 100_000 + '4' + '9' * 99 + 'e99985', 0))
    refused = (
        '1152.921504606846977', '-1152.921504606846977', '1152.9215046068469765', '-1152.9215046068469765', f'1152.9215046068469765{zeros}1', '1153',
        '-1153',
        '2305.843009213693952', '9223.372036854775807', '9223.372036854775808', '-9223.372036854775808', '18446.744073709551616',
        '-18446.744073709551617',
        '36893.488147419103233', '340282366920938463463374.607431768211457', '1e4', '-1e5', '1e5', '9e5', '1e15', '1e30', '1e999999999999',
        '-1e999999999999', '1e18446744073709551616', '1e18446744073709551601', '1e4294967296', '1e' + '9' * 1000, '1' + '0' * 100_000,
        '-' + '9' * 99_999)
    for word, count in accepted:
        yield field({3: count}), text(f'gfc 2 0 {word} 0')
        yield field(S={4: count}), text(f'gfc 2 1 0 {word}')
    for word in refused:
        yield 19, text(f'gfc 2 0 {word} 0')
        yield 19, text(f'gfc 2 1 0 {word}')
    for word in (*NO_DECIMAL, '1e5' + '0' * 100_000 + 'x', '0' * 100_000 + 'x', '.' + '0' * 100_000 + '.'):
        yield 17, text(f'gfc 2 0 {word} 0')
        yield 17, text(f'gfc 2 1 0 {word}')


def in_data():
    """'Data': the words of a line, its place, its coefficients; what is missing is zero."""
    one = field({3: 10**15}, {3: -2})
    yield one, text('gfc 2 0 1 -2e-15')                                         # S at order 0 too
    yield one, text('gfc 2 0 1 -2e-15 0.1 0.1')
    yield one, text('gfc 2 0 1 -2e-15 x nan 1e 5')
    yield one, text('gfc 2 0 1 -2e-15 gfc gfc')
    yield one, text('gfc 02 000 1 -2e-15')
    yield one, text('gfc ' + '0' * 50_000 + '2 ' + '0' * 50_000 + ' 1 -2e-15')
    line = ['gfc', '2', '0', *'111111111']
    for count in (1, 2, 3, 4, 6, 8, 10, 11, 12):
        yield 17, text(' '.join(line[:count]))
    for first in ('gfct', 'trnd', 'dot', 'acos', 'asin', 'GFC', 'Gfc', 'gf', 'gfc2', 'gfcc', '#', '#gfc', 'key', '2'):
        yield 17, text(f'{first} 2 0 1 -2e-15')
        yield 17, text('gfc 2 0 1 -2e-15', f'{first} 3 0 1 1')
    yield 17, text('gfct 2 0 1 1 0 0 20050101')
    yield 17, text('comment')
    for word in ('+2', '-2', '2.', '2.0', '2e0', 'x', '2,', '-0', '\xb2', '0x2', '2_2', '1-'):
        yield 17, text(f'gfc {word} 0 1 1')
        yield 17, text(f'gfc 4 {word} 1 1')
    for m, due in ((0, 6), (1, 7), (2, 8), (3, 9), (4, None), (5, None), (10**20, None)):
        yield field({due: 10**15}, {due: 1}) if due else 17, text(f'gfc 3 {m} 1 1e-15')
    for n, m, at in ((0, 0, 0), (1, 0, 1), (1, 1, 2), (2, 2, 5), (4, 0, 10), (4, 4, 14)):
        yield field({at: 7}, {at: -8}), text(f'gfc {n} {m} 7e-15 -8e-15')
    for n in ('5', '05', '60', '61', '2190', '260', '4294967298', '18446744073709551618', '9' * 1000):
        yield 17, text(f'gfc {n} 0 1 1')
        yield 17, text(f'gfc {n} 0 0 0')
    for m in ('3', '256', '258', '4294967296', '18446744073709551616', '18446744073709551617', '9' * 1000):
        yield 17, text(f'gfc 2 {m} 0 0')
    for top, inside, outside in (('3', '3', '4'), ('0', '0', '1'), ('61', '61', '62'), ('70', '60', '71'), ('2190', '2190', '2191'),
                                 ('4294967300', '4294967300', '4294967301'), ('18446744073709551620', '18446744073709551620',
                                 '18446744073709551621')):
        yield 19, text(f'gfc {inside} 0 1 1', max_degree=f'max_degree {top}')
        yield 17, text(f'gfc {outside} 0 1 1', max_degree=f'max_degree {top}')  # also where max_degree is outside 4..60
    whole = [f'gfc {n} {m} {n}e-15 -{m}e-15' for n in range(5) for m in range(n + 1)]
    degrees, orders = [0, 1, 1, 2, 2, 2, 3, 3, 3, 3, 4, 4, 4, 4, 4], [0, 0, -1, 0, -1, -2, 0, -1, -2, -3, 0, -1, -2, -3, -4]
    yield (4, 398600441500000, 6378136300, 1, degrees, orders), text(*whole)
    yield (4, 398600441500000, 6378136300, 1, degrees, orders), text(*whole[::-1])
    yield (4, 398600441500000, 6378136300, 1, [0, *degrees[1:]], orders), text(*whole[1:])


def in_repeats():
    """'Data', refusal 18."""
    for one, two in (('gfc 2 0 1 1', 'gfc 2 0 1 1'), ('gfc 2 0 1 1', 'gfc 2 0 2 2'), ('gfc 2 0 0 0', 'gfc 2 0 1 1'), ('gfc 2 0 0 0', 'gfc 2 0 0 0'),
                     ('gfc 2 0 1 1', 'gfc 02 00 1 1'), ('gfc 2 1 1 1', 'gfc 2 1 0 0 0 0'), ('gfc 0 0 1 0', 'gfc 0 0 1 0'), ('gfc 4 4 1 1',
                     'gfc 4 4 1 1')):
        yield 18, text(one, two)
        yield 18, text(one, 'gfc 3 3 1 1', two)
        yield 18, text('gfc 3 0 1 1', one, 'gfc 3 3 1 1', two, 'gfc 1 1 0 0')
    yield 18, text('gfc 2 0 1 1', 'gfc 2 0 1 1', 'gfc 2 0 1 1')
    yield field({3: 1, 4: 2, 6: 3, 2: 4}), text('gfc 2 0 1e-15 0', 'gfc 2 1 2e-15 0', 'gfc 3 0 3e-15 0', 'gfc 1 1 4e-15 0')      # no two alike
    for top, n in (('61', '61'), ('70', '65'), ('2190', '2190'), ('4294967300', '4294967298'), ('18446744073709551620', '18446744073709551618')):
        yield 18, text(f'gfc {n} 0 1 1', f'gfc {n} 0 1 1', max_degree=f'max_degree {top}')
        yield 18, text(f'gfc {n} {n} 0 0', f'gfc 0{n} 0{n} 0 0', max_degree=f'max_degree {top}')
        yield 19, text(f'gfc {n} 0 1 1', f'gfc {n} {n} 1 1', max_degree=f'max_degree {top}')
    yield 19, text('gfc 2 0 1 1', 'gfc 4294967298 0 1 1', max_degree='max_degree 4294967300')        # alike in 32 bits
    yield 19, text('gfc 2 0 1 1', 'gfc 18446744073709551618 0 1 1', max_degree='max_degree 18446744073709551620')                # and in 64
    yield 19, text('gfc 61 0 1 1', 'gfc 60 61 1 1'.replace('60 61', '60 60'), max_degree='max_degree 61')


def in_order():
    """'Answers of reading': 17, 18, 19, 20, then 1, each looking at the whole file."""
    twice, far, no_system = ['gfc 2 0 1 1', 'gfc 2 0 1 1'], 'gfc 3 0 1153 0', {'tide_system': None}
    for bad in ('gfc 3 0 x 0', 'gfc 5 0 1 1', 'gfc 2 3 1 1', 'gfct 2 0 1 1', 'gfc 2 0 1'):
        yield 17, text(*twice, bad)
        yield 17, text(bad, *twice)
        yield 17, text(far, bad)
        yield 17, text(bad, far)
        yield 17, text(bad, **no_system)
        yield 17, text(bad), 14, 14
        yield 17, text(*twice, far, bad, **no_system), 0, 0
    yield 17, text(*twice, constant='gravity_constant -1')
    yield 17, text(far, constant='gravity_constant 18446744073709551616')
    yield 17, text(radius='radius -1', **no_system)
    yield 17, text(max_degree='max_degree 61', norm='norm unnormalized')
    yield 17, text(max_degree='max_degree 61', product_type='product_type x')
    yield 17, text(tide_system='tide_system')
    yield 17, text(tide_system='tide_system x', behind=['tide_system zero_tide'])
    yield 18, text(far, *twice)
    yield 18, text(*twice, far)
    yield 18, text('gfc 2 0 1153 0', 'gfc 2 0 0 0')
    yield 18, text(*twice, max_degree='max_degree 61')
    yield 18, text(*twice, max_degree='max_degree 3')
    yield 18, text(*twice, **no_system)
    yield 18, text(*twice), 14, 14
    yield 19, text(far, **no_system)
    yield 19, text(far, tide_system='tide_system x')
    yield 19, text(max_degree='max_degree 61', **no_system)
    yield 19, text('gfc 3 0 1 1', max_degree='max_degree 3', **no_system)
    yield 19, text(far), 14, 15
    yield 19, text(far, 'gfc 4 0 0 0')
    yield 19, text('gfc 4 0 0 0', far)
    yield 19, text('gfc 4 0 0 0', far, 'gfc 0 0 0 0')
    yield 19, text('gfc 2 0 0 -1153')                                           # S at order 0
    yield 19, text('gfc 61 0 1153 0', max_degree='max_degree 61')
    yield 20, text(**no_system), 15, 14
    yield 20, text(tide_system='tide_system x'), 0, 0
    for two in ((14, 15), (15, 14), (14, 14), (16, 15), (15, 16), (16, 16), (0, 0), (0, 15), (15, 0), (21, 21), (1891, 1891), (14, 16), (16, 14)):
        yield 1, text('gfc 2 0 1 1'), *two
    yield 1, text(max_degree='max_degree 60'), 15, 15
    yield 1, text(max_degree='max_degree 60'), 1891, 1890
    yield 1, text(max_degree='max_degree 5')


def hand_cases():
    """The answer due, a file, and the lengths of the lists where they are not both 15."""
    for part in (in_text, in_header, in_degree, in_constants, in_numbers, in_data, in_repeats, in_order):
        for due, data, *lengths in part():
            yield given.Case(data, *(lengths or (15, 15)), due)


# --- Cases of writing, worked out by hand ---

WRITTEN = b'''\
product_type                            gravity_field
modelname                                  surfgimlet
earth_gravity_constant                398600441500000
radius                                    6378136.300
max_degree                                          4
errors                                             no
norm                                 fully_normalized
tide_system                                 mean_tide
end_of_head =========================================
gfc  0  0     1.000000000000000     0.000000000000000
gfc  1  0     0.000000000000000     0.000000000000001
gfc  1  1    -0.000000000000001     0.999999999999999
gfc  2  0    -0.000484165143791     0.000000000000000
gfc  2  1    -0.000000000000600    -0.999999999999999
gfc  2  2     0.000002439383573    -0.000001400273704
gfc  3  0  1152.921504606846976 -1152.921504606846976
gfc  3  1 -1152.921504606846976  1152.921504606846976
gfc  3  2  1152.921504606846975 -1152.921504606846975
gfc  3  3    -1.000000000000000    10.000000000000000
gfc  4  0   100.000000000000000  -100.000000000000000
gfc  4  1     0.000000000000010    -0.000000000000010
gfc  4  2     0.100000000000000    -0.100000000000000
gfc  4  3     1.000000000000001    -1.000000000000001
gfc  4  4     0.123456789012345    -9.876543210987654
'''
ONE = 10**15
WRITTEN_C = [ONE, 0, -1, -484165143791, -600, 2439383573, EDGE, -EDGE, EDGE - 1, -ONE, 100 * ONE, 10, ONE // 10, ONE + 1, 123456789012345]
WRITTEN_S = [0, 1, ONE - 1, 0, 1 - ONE, -1400273704, -EDGE, EDGE, 1 - EDGE, 10 * ONE, -100 * ONE, -10, -ONE // 10, -1 - ONE, -9876543210987654]


def written_entries(write):
    """The lines of the gravity constant, the radius and the system in what is written."""
    most = (1 << 64) - 1
    for constant, radius, one, two in ((0, 0, '0', '0.000'), (1, 1, '1', '0.001'), (9, 10, '9', '0.010'), (10**15, 999, '1' + '0' * 15, '0.999'),
                                       (most, most, '18446744073709551615', '18446744073709551.615'), (1, 1000, '1', '1.000'), (1, 12005, '1',
                                       '12.005')):
        lines = write(4, [0] * 15, [0] * 15, constant, radius, 0, 1296).split(b'\n')
        yield lines[2], b'earth_gravity_constant' + b' ' * (31 - len(one)) + one.encode()
        yield lines[3], b'radius' + b' ' * (47 - len(two)) + two.encode()
    for system, line in enumerate((b'tide_system                                 tide_free', b'tide_system                                 zero_tide',
                                   b'tide_system                                 mean_tide')):
        yield write(4, [0] * 15, [0] * 15, 1, 1, system, 1296).split(b'\n')[7], line
    lines = write(60, [0] * 1891, [0] * 1890 + [1], 1, 1, 0, 102_600).split(b'\n')
    yield lines[4], b'max_degree                                         60'
    yield lines[9 + 55], b'gfc 10  0     0.000000000000000     0.000000000000000'
    yield lines[9 + 1890:], [b'gfc 60 60     0.000000000000000     0.000000000000001', b'']


def writing(of):
    """What is written or refused by a module's write_file, and what is due."""
    write = of.write_file
    good = 4, WRITTEN_C, WRITTEN_S, 398600441500000, 6378136300, 2
    for room in (1296, 1297, 5000, 1 << 64):
        yield write(*good, room), WRITTEN
    for room in (1295, 1242, 1, 0):
        yield write(*good, room), 21
    for N, length in ((4, 1296), (5, 1620), (60, 102_600)):
        yield of.file_bytes(N), length
        yield len(write(N, *[[0] * size(N)] * 2, 0, 0, 0, length)), length
        yield write(N, *[[0] * size(N)] * 2, 0, 0, 0, length - 1), 21
    zeros, rest = [0] * 15, (1, 1, 0)
    for N, C, S in ((3, [0] * 10, [0] * 10), (61, [0] * 1953, [0] * 1953), (0, [0], [0]), (5, zeros, zeros), (1 << 32 | 4, zeros, zeros),
                    (4, [], []), (4, zeros[1:], zeros), (4, zeros, zeros[1:]), (4, [0, *zeros], zeros), (4, zeros, [0, *zeros]),
                    (4, zeros[1:], [0, *zeros])):
        for room in (0, 1 << 20):
            yield write(N, C, S, *rest, room), 1
    for entry in (EDGE + 1, -EDGE - 1, (1 << 63) - 1, -(1 << 63)):
        for room in (0, 1 << 20):
            for at in (0, 7, 14):
                yield write(4, [*zeros[:at], entry, *zeros[at + 1:]], zeros, *rest, room), 2
                yield write(4, zeros, [*zeros[:at], entry, *zeros[at + 1:]], *rest, room), 2
        yield write(4, [entry] * 15, [entry] * 14, *rest, 0), 1
    yield from written_entries(write)


def by_hand():
    for case in hand_cases():
        expect('files read by hand', (case.data[:999], files.read_file(*case[:3])), (case.data[:999], case.due))
    for got, due in writing(files):
        expect('files written by hand', got, due)


# --- Reading what was written ---

def round_trips():
    """Every degree, system and form of lines; entries at the range's ends, about zero, and any."""
    most = (1 << 64) - 1
    some = EDGE, -EDGE, EDGE - 1, 1 - EDGE, 0, 1, -1
    for N in range(4, 61):
        any_list = lambda: [chance.one(*some, chance.between(-EDGE, EDGE)) for _ in range(size(N))]
        for lists in ([[EDGE] * size(N), [-EDGE] * size(N)], [[-EDGE] * size(N), [EDGE] * size(N)], [any_list(), any_list()]):
            constant, radius = (chance.one(0, most, chance.below(1 << 64)) for _ in 'cr')
            field = N, *lists, constant, radius, chance.below(3)
            data = files.write_file(*field, files.file_bytes(N))
            expect('file round trips', (len(data), {len(line) for line in data.split(b'\n')[:-1]}), (files.file_bytes(N), {53}))
            answer = N, *field[3:], *lists
            for form in (data, data[:-1], data.replace(b'\n', b'\r\n'), data.replace(b'  ', b'\t')):
                expect('file round trips', files.read_file(form, size(N), size(N)), answer)
            expect('file round trips', files.read_file(data, size(N) - 1, size(N)), 1)


# --- Numbers, by the decimal module ---

EXACT = Context(prec=999, Emin=-9999, Emax=9999)


def check_decimal(word, places):
    """Against the decimal module, whose name for halves away from zero is ROUND_HALF_UP; from 10^20 on only the size and the sign."""
    value = EXACT.create_decimal(word.replace('d', 'e').replace('D', 'e')).scaleb(places, EXACT)
    count = files.nearest_decimal(word.encode(), places)
    if abs(value) < 10**20:
        expect('decimals', count, int(value.to_integral_value(ROUND_HALF_UP, EXACT)))
    else:
        expect('decimals', (abs(count) >= 10**20, count > 0), (True, value > 0))


def decimals():
    for _ in range(20_000):
        places = chance.one(0, 3, 15)
        number = chance.one(given.coefficient, given.beyond, lambda chance: given.unsigned(chance, places),
                            lambda chance: given.no_unsigned(chance, places))(chance)
        check_decimal(given.spelled(chance, number._replace(power=max(-300, min(300, number.power)))), places)


# --- Made files ---

def outcome(answer):
    """A refusal's number, or 0 for an answer of the form that is due."""
    if isinstance(answer, int):
        return answer
    top, constant, radius, system, C, S = answer
    assert 4 <= top <= 60 and len(C) == len(S) == size(top) and system in (0, 1, 2)
    assert 0 <= min(constant, radius) <= max(constant, radius) < 1 << 64 and all(-EDGE <= count <= EDGE for count in (*C, *S))
    return 0


def check_made(kind, case):
    got = files.read_file(*case[:3])
    expect(kind, (case.data[:2000], outcome(got) in (0, *given.ORDER)), (case.data[:2000], True))
    if case.due is not None:
        expect(kind, (case.data[:2000], got), (case.data[:2000], case.due))
    met[kind, outcome(got)] += 1


def made():
    """Files at the edges, with each fault and any set of faults, with each byte of a good file changed, and any."""
    for case in given.edge_files(chance):
        check_made('file edges', case)
    for fault in given.FAULTS[17]:
        for _ in range(40):
            check_made('file faults', given.with_faults(chance, [17], fault))
    for numbers in (some for count in range(6) for some in combinations(given.ORDER, count)):
        for _ in range(40):
            check_made('file faults', given.with_faults(chance, numbers))
    for style in (given.FREE, given.EGM96, given.EGM2008):
        for _ in range(2):
            sketch = given.Sketch(chance, style, 4, given.places_to(4))
            for case in given.changed_bytes(chance, given.fitting(chance, sketch)):
                check_made('file bytes changed', case)
    for _ in range(3000):
        check_made('any files', given.any_file(chance))
    for kind in ('file faults', 'file bytes changed', 'any files'):
        expect(kind, [number for number in (0, *given.ORDER) if not met[kind, number]], [])


# --- Slips ---

def refused(condition, number):
    return f'    if {condition}:\n        return {number}\n'


# The tests of read_file, and the two halves of the one of 19.
TESTS = {18: 'repeated(lines)', 19: 'not 4 <= top <= 60 or not in_range(lines)', 20: 'system not in SYSTEMS',
         1: 'length_c != size(top) or length_s != size(top)'}
DEGREE, VALUES = refused('not 4 <= top <= 60', 19), refused('not in_range(lines)', 19)


def tests(*numbers):
    return ''.join(refused(TESTS[number], number) for number in numbers)


# Pieces that stand once in files.py, and what a slip puts in their place. A case that is worked out by hand tells each.
READING_SLIPS = (
    # Text
    (r"line.replace(b'\t', b' ').split(b' ')", "line.split(b' ')", r"line.split(b'\t')", 'line.split()', r"line.replace(b'\t', b'').split(b' ')",
     r"line.replace(b'\t', b' ').replace(b'\0', b' ').split(b' ')", r"line.replace(b'\t', b' ').replace(b'\xa0', b' ').split(b' ')"),
    (r"data.replace(b'\r', b'\n').split(b'\n')", r"data.split(b'\n')", r"data.split(b'\r\n')", r"data.replace(b'\r', b'').split(b'\n')",
     r"data.replace(b'\r', b' ').split(b'\n')", r"data.replace(b'\r', b'\n').split(b'\n')[:-1]",
     r"data.replace(b'\r', b'\n').replace(b'\f', b'\n').split(b'\n')",
     "[line.encode('latin-1') for line in data.decode('latin-1').splitlines()]"),
    ("must(len(data) <= MOST_BYTES)", 'must(len(data) < MOST_BYTES)', 'must(len(data) <= MOST_BYTES + 1)', 'must(len(data.strip()) <= MOST_BYTES)',
     'must(len(data) < 128_000)', 'pass'),
    # Numbers
    ('must(word.isdigit())', "must(word.lstrip(b'+').isdigit())", "must(word.lstrip(b'-').isdigit())",
     "must(word.rstrip(b'.').isdigit()); word = word.rstrip(b'.')",
     'must(word.isdigit() and len(word) < 19)', "must(word.isdigit() and (word[:1] != b'0' or word == b'0'))", 'pass'),
    ('return int(word)\n', 'return int(word) % (1 << 8)\n', 'return int(word) % (1 << 32)\n', 'return int(word) % (1 << 64)\n',
     'return int(word, 8)\n',
     'return min(int(word), (1 << 32) - 1)\n', 'return min(int(word), (1 << 64) - 1)\n'),
    ("rb'([+-]?)(", "rb'(-?)(", "rb'([+-]*)(", "rb'([+-])(", "rb'([+]?)("),
    (r"([0-9]*)(?:\.([0-9]*))?", r"([0-9]+)(?:\.([0-9]*))?", r"([0-9]*)(?:\.([0-9]+))?", r"([0-9]*)(?:\.([0-9]*))", r"([0-9]*)(?:[.,]([0-9]*))?",
     r"([0-9]*)(?:\.+([0-9]*))?", r"([0-9_]*)(?:\.([0-9]*))?"),
    ('[EeDd]', '[Ee]', '[Dd]', '[ED]', '[ed]', '[eDd]', '[EDd]', '[Eed]', '[EeD]', '[EeDdFf]', '[EeDdQq]', '[EeDd]+'),
    ('([+-]?[0-9]+))?', '([+-]?[0-9]*))?', '([+-][0-9]+))?', '(-?[0-9]+))?', '([+]?[0-9]+))?', '([0-9]+))?', '([+-]?[0-9]{1,2}))?',
     '([+-]?[0-9]{1,18}))?',
     '([+-]*?[0-9]+))?', '([+-]?[0-9]+))'),
    ('DECIMAL.fullmatch', 'DECIMAL.match'),
    ('must(before + behind)', 'must(before)', 'must(behind)', 'pass'),
    (".lstrip(b'0')", ''),
    ("int(exponent or b'0') - len(behind) + places", "int(exponent or b'0') + places", "int(exponent or b'0') - len(behind)", "places - len(behind)",
     "int(exponent or b'0') - len(behind) + 15", "abs(int(exponent or b'0')) - len(behind) + places", "-int(exponent or b'0') - len(behind) + places",
     "(int(exponent or b'0') + (1 << 31)) % (1 << 32) - (1 << 31) - len(behind) + places",
     "(int(exponent or b'0') + (1 << 63)) % (1 << 64) - (1 << 63) - len(behind) + places",
     "max(-9999, min(9999, int(exponent or b'0'))) - len(behind) + places"),
    ('not digits or len(digits) + power < 0', 'not digits or len(digits) + power <= 0', 'not digits or power < -40', 'not digits or power < 0',
     'len(digits) + power < 0'),
    ('len(digits) + power > LARGE', 'len(digits) + power > 19', 'power > 15', 'len(digits) > LARGE or power > LARGE'),
    ('count = 10**LARGE', 'count = 0', 'count = 10**19', 'count = int(digits)'),
    ('int(digits) * 10**power', 'int(digits)', '10**power', 'int(digits) * 10**power % (1 << 64)', 'int(float(digits) * 10.0**power)'),
    ('count = nearest(int(digits), 10**-power)',
     'count = int(digits) // 10**-power', 'count = -(-int(digits) // 10**-power)',                              # cut, away
     'count = (2 * int(digits) + 10**-power - 1) // (2 * 10**-power)',                                          # halves toward zero
     "count = (2 * int(digits) + 10**-power - (sign == b'-')) // (2 * 10**-power)",                             # halves up
     "count = (2 * int(digits) + 10**-power - (sign != b'-')) // (2 * 10**-power)",                             # halves down
     'count = nearest(nearest(10 * int(digits), 10**-power), 10)',                                              # rounded twice
     'more = max(0, len(digits) - 38); count = nearest(nearest(int(digits), 10**more) * 10**more, 10**-power)',  # of 38 digits
     'even = (2 * int(digits) + 10**-power) // (2 * 10**-power); count = even - (even % 2 and 2 * (even * 10**-power - int(digits)) == 10**-power)',
     'count = int(float(int(digits[:300])) * 10.0**(power + len(digits[300:])) + 0.5)'),
    ("-count if sign == b'-' else count", 'count', "-count if sign == b'-' and power else count", "-count if sign != b'+' else count"),
    # Header
    ("ALSO = {b'gravity_constant': b'earth_gravity_constant'}", 'ALSO = {}', "ALSO = {b'gravity_constant': b'radius'}",
     "ALSO = {b'gravity_constant': b'earth_gravity_constant', b'Radius': b'radius'}"),
    ("REQUIRED = b'product_type', b'earth_gravity_constant', b'radius', b'max_degree'",
     "REQUIRED = b'product_type', b'earth_gravity_constant', b'radius', b'max_degree', b'modelname'",
     "REQUIRED = b'product_type', b'earth_gravity_constant', b'radius', b'max_degree', b'errors'",
     "REQUIRED = b'product_type', b'earth_gravity_constant', b'radius', b'max_degree', b'norm'",
     "REQUIRED = b'product_type', b'earth_gravity_constant', b'radius', b'max_degree', b'tide_system'"),
    ("KNOWN = *REQUIRED, b'modelname', b'errors', b'norm', b'tide_system'", "KNOWN = *REQUIRED, b'errors', b'norm', b'tide_system'",
     "KNOWN = *REQUIRED, b'modelname', b'norm', b'tide_system'", "KNOWN = *REQUIRED, b'modelname', b'errors', b'tide_system'",
     "KNOWN = *REQUIRED, b'modelname', b'errors', b'norm'", "KNOWN = *REQUIRED, b'modelname', b'errors', b'norm', b'tide_system', b'key'",
     "KNOWN = *REQUIRED, b'modelname', b'errors', b'norm', b'tide_system', b'generating_institute'"),
    ('firsts = [words[0] for words in rows]', 'firsts = [words[0][:11] for words in rows]', 'firsts = [words[0].lower() for words in rows]',
     "firsts = [b'end_of_head' if b'end_of_head' in words else words[0] for words in rows]", "firsts = [words[0].strip(b'=') for words in rows]",
     "firsts = [words[0] if len(words) < 2 else b'' for words in rows]"),
    ("must(b'end_of_head' in firsts)", "firsts.append(b'end_of_head')"),
    ("end = firsts.index(b'end_of_head')", "end = len(firsts) - 1 - firsts[::-1].index(b'end_of_head')"),
    ('return rows[:end], rows[end + 1:]', 'return rows[:end], rows[end:]', 'return rows[:end], rows[end + 2:]'),
    ("if words[0] == b'begin_of_head'", "if b'begin_of_head' in words", "if words[0].lower() == b'begin_of_head'",
     "if words[0].startswith(b'begin_of_head')",
     "if words == [b'begin_of_head']", 'if False'),
    ('must(len(begins) < 2)', 'begins = begins[:1]', 'begins = begins[-1:]', 'must(len(begins) < 3)', 'must(begins != [0, 1])', 'must(begins)'),
    ('header[begins[0] + 1:] if begins else header', 'header', 'header[begins[0] + 2:] if begins else header',
     'header[:begins[0]] if begins else header',
     'header[begins[0] + 1:] if begins else []'),
    ('entry = ALSO.get(keyword, keyword)', 'entry = ALSO.get(keyword, keyword).lower()', "entry = ALSO.get(keyword, keyword).rstrip(b':')",
     'entry = next((one for one in (*ALSO, *KNOWN) if keyword.startswith(one)), keyword); entry = ALSO.get(entry, entry)',
     'entry = next((one for one in KNOWN if one.startswith(keyword)), ALSO.get(keyword, keyword))'),
    ('must(entry not in values)', 'pass', 'must(values.get(entry) in (None, *others[:1]))', 'must(entry not in values or entry not in REQUIRED)',
     "must(entry not in values or entry == b'tide_system')", "must(keyword not in values); values[keyword] = b''",
     "must(entry not in values or keyword == b'gravity_constant')"),
    ('            must(others)\n', '            if not others: continue\n', "            others = others or [b'']\n",
     *(f"            must(others or entry == b'{one}'); others = others or [b'fully_normalized']\n" for one in ('modelname', 'errors', 'norm',
     'tide_system'))),
    ('values[entry] = others[0]', 'values[entry] = others[-1]', "values[entry] = b' '.join(others)",
     'values.setdefault(entry, others[len(others) // 2])'),
    ('must(0 <= count <= MOST_U64)', 'must(-1 <= count <= MOST_U64)', 'must(0 < count <= MOST_U64)', 'must(0 <= count < MOST_U64)',
     'must(0 <= count <= MOST_U64 + 1)', 'must(0 <= count <= MOST_U64 >> 1)', 'must(count <= MOST_U64)', 'must(0 <= count)',
     "must(0 <= count <= MOST_U64 and word[:1] != b'-')", 'count %= 1 << 64'),
    ('must(all(entry in values for entry in REQUIRED))',
     *(f"must(all(entry in values for entry in REQUIRED if entry != b'{one}')); values.setdefault(b'{one}', b'{value}')"
       for one, value in (('product_type', 'gravity_field'), ('earth_gravity_constant', '0'), ('radius', '0'), ('max_degree', '4')))),
    ("must(values[b'product_type'] == b'gravity_field')", 'pass', "must(values[b'product_type'].startswith(b'gravity_field'))",
     "must(values[b'product_type'].lower() == b'gravity_field')", "must(b'gravity_field'.startswith(values[b'product_type']))"),
    ("must(values.get(b'norm', b'fully_normalized') == b'fully_normalized')", 'pass', "must(values.get(b'norm') == b'fully_normalized')",
     "must(values.get(b'norm', b'fully_normalized').startswith(b'fully_normalized'))", "must(values.get(b'norm') != b'unnormalized')",
     "must(values.get(b'norm', b'fully_normalized').lower() == b'fully_normalized')",
     "must(b'fully_normalized'.startswith(values.get(b'norm', b'')))"),
    ("whole_number(values[b'max_degree'])", "nearest_decimal(values[b'max_degree'], 0)", "whole_number(values[b'max_degree'][:5])"),
    ("unsigned(values[b'earth_gravity_constant'], 0)", "unsigned(values[b'earth_gravity_constant'], 3)", "unsigned(values[b'radius'], 0)"),
    ("unsigned(values[b'radius'], 3)", "unsigned(values[b'radius'], 0)", "unsigned(values[b'radius'], 2)", "1000 * unsigned(values[b'radius'], 0)",
     "unsigned(values[b'earth_gravity_constant'], 3)"),
    ("values.get(b'tide_system')", "values[b'tide_system']", "values.get(b'tide_system', b'tide_free')", "values.get(b'tide_system', b'zero_tide')",
     "values.get(b'tide_system', b'').lower()"),
    # Data
    ("must(words[0] == b'gfc')", 'pass', "must(words[0].lower() == b'gfc')", "must(words[0].startswith(b'gfc'))",
     "must(words[0] in (b'gfc', b'gfct'))",
     "must(words[0] in (b'gfc', b'dot'))", "must(b'gfc'.startswith(words[0]))", "must(words[0].strip(b'#') == b'gfc')"),
    ('must(len(words) in (5, 7, 9))', 'must(len(words) >= 5)', 'must(len(words) in (5, 7))', 'must(len(words) in (5, 9))',
     'must(len(words) in (7, 9))',
     'must(5 <= len(words) <= 9)', 'must(len(words) in (5, 6, 7, 9))', 'must(len(words) in (5, 7, 8, 9))', 'must(len(words) % 2)',
     "must(len(words) in (4, 5, 7, 9)); words += [b'0'] * (len(words) == 4)", 'must(len(words) in (5, 7, 9, 10))',
     'must(len(words) in (5, 7, 9)); [nearest_decimal(word, 0) for word in words[5:]]'),
    ('n, m = whole_number(words[1]), whole_number(words[2])', 'm, n = whole_number(words[1]), whole_number(words[2])',
     'n, m = nearest_decimal(words[1], 0), whole_number(words[2])', 'n, m = whole_number(words[1]), nearest_decimal(words[2], 0)',
     'n, m = whole_number(words[1]), whole_number(words[1])'),
    ('must(m <= n <= top)', 'must(m <= n)', 'must(n <= top); m = min(m, n)', 'must(m < n <= top)', 'must(m <= n < top)',
     'must(m <= n <= min(top, 60))',
     'must(m <= n <= max(top, 60))', 'must(m <= n <= max(top, 4))', 'must(m <= top and n <= top)', 'must(not 4 <= top <= 60 or m <= n <= top)',
     'must(m <= n <= top % (1 << 64))', 'must(m <= n <= top % (1 << 32))', 'must(m % (1 << 32) <= n <= top)', 'must(m % (1 << 64) <= n <= top)',
     'must(m <= n); must(n % (1 << 64) <= top)', 'must(m <= n <= top or n > 60)'),
    ('nearest_decimal(words[3], 15), nearest_decimal(words[4], 15)', 'nearest_decimal(words[4], 15), nearest_decimal(words[3], 15)',
     'nearest_decimal(words[3], 15), nearest_decimal(words[3], 15)', 'nearest_decimal(words[3], 14), nearest_decimal(words[4], 15)',
     'nearest_decimal(words[3], 15), nearest_decimal(words[4], 12)', 'nearest_decimal(words[3], 15), nearest_decimal(words[4], 15) if m else 0',
     'nearest_decimal(words[3], 15), nearest_decimal(words[-1], 15)'),
    ('len({(n, m) for n, m, _, _ in lines}) < len(lines)', 'False', 'len(set(lines)) < len(lines)', 'len({n for n, m, _, _ in lines}) < len(lines)',
     'len({m for n, m, _, _ in lines}) < len(lines)', 'len({(n, m) for n, m, _, _ in lines if n <= 60}) < sum(n <= 60 for n, _, _, _ in lines)',
     'len({(n % (1 << 32), m) for n, m, _, _ in lines}) < len(lines)', 'len({(n % (1 << 64), m) for n, m, _, _ in lines}) < len(lines)',
     'any(one[:2] == two[:2] for one, two in zip(lines, lines[1:]))', 'len({n + m for n, m, _, _ in lines}) < len(lines)',
     'len({(n, m) for n, m, c, s in lines if c or s}) < sum(c or s != 0 for _, _, c, s in lines)',
     'len({(n, m) for n, m, _, _ in lines}) < len(lines) - 1'),
    ('abs(count) <= FIELD_BOUND for _, _, *counts in lines for count in counts',
     'abs(count) < FIELD_BOUND for _, _, *counts in lines for count in counts',
     '-FIELD_BOUND <= count < FIELD_BOUND for _, _, *counts in lines for count in counts',
     '-FIELD_BOUND < count <= FIELD_BOUND for _, _, *counts in lines for count in counts',
     'abs(count) <= FIELD_BOUND + 1 for _, _, *counts in lines for count in counts',
     'count <= FIELD_BOUND for _, _, *counts in lines for count in counts', 'count >= -FIELD_BOUND for _, _, *counts in lines for count in counts',
     'abs(count) <= FIELD_BOUND for _, _, count, _ in lines', 'abs(count) <= FIELD_BOUND for _, _, _, count in lines', 'True for _ in lines',
     'abs(count) <= FIELD_BOUND for _, _, *counts in lines[:1] for count in counts',
     'abs(count) <= FIELD_BOUND for _, _, *counts in lines[-1:] for count in counts',
     'abs(count) <= FIELD_BOUND for _, m, c, s in lines for count in (c, s * (m > 0))'),
    # Answers of reading
    (tests(18, 19, 20, 1), *(tests(*others) for others in permutations((18, 19, 20, 1)) if others != (18, 19, 20, 1)),
     *(tests(*three) for three in combinations((18, 19, 20, 1), 3)),
     DEGREE + tests(18, 19, 20, 1), VALUES + tests(18, 19, 20, 1), tests(18) + DEGREE + tests(20, 19, 1), tests(18) + VALUES + tests(20, 19, 1)),
    ('if not 4 <= top <= 60 or', 'if not 3 <= top <= 60 or', 'if not 5 <= top <= 60 or', 'if not 4 <= top <= 59 or', 'if not 4 <= top <= 61 or',
     'if not 4 <= top or', 'if not top <= 60 or', 'if not 4 <= top % (1 << 32) <= 60 or', 'if not 4 <= top % (1 << 64) <= 60 or'),
    ('        return 17\n', '        return 18\n'),
    ('return 20', 'return 17 if system is None else 20'),
    ('length_c != size(top) or length_s != size(top)', 'length_c != size(top) and length_s != size(top)', 'length_c != size(top)',
     'length_s != size(top)',
     'length_c < size(top) or length_s < size(top)', 'length_c > size(top) or length_s > size(top)', 'length_c + length_s != 2 * size(top)',
     'length_c != length_s'),
    ('C, S = [0] * size(top), [0] * size(top)', 'C, S = [1] * size(top), [0] * size(top)', 'C, S = [0] * size(top), [1] * size(top)',
     'C = S = [0] * size(top)',
     'C, S = [1] + [0] * (size(top) - 1), [0] * size(top)'),
    ('C[index(n, m)], S[index(n, m)] = c, s', 'C[index(n, m)], S[index(n, m)] = s, c', 'C[index(n, m)], S[index(n, m)] = c, s * (m > 0)',
     'C[index(n, n - m)], S[index(n, n - m)] = c, s', 'C[index(n, m)] = c', 'C[index(n, m)], S[index(n, m)] = c, abs(s)'),
    ('return top, constant, radius, SYSTEMS.index(system), C, S', 'return top, radius, constant, SYSTEMS.index(system), C, S',
     'return top, constant, radius, 2 - SYSTEMS.index(system), C, S', 'return top, constant, radius, 1, C, S',
     'return top, constant, radius, SYSTEMS.index(system), S, C'),
    ("SYSTEMS = b'tide_free', b'zero_tide', b'mean_tide'", "SYSTEMS = b'tide_free', b'mean_tide', b'zero_tide'",
     "SYSTEMS = b'tide_free', b'zero_tide'",
     "SYSTEMS = b'tide_free', b'zero_tide', b'mean_tide', b'unknown'"))

WRITING_SLIPS = (
    ('return 54 * (9 + (N + 1) * (N + 2) // 2)', 'return 53 * (9 + (N + 1) * (N + 2) // 2)', 'return 54 * (8 + (N + 1) * (N + 2) // 2)',
     'return 54 * (9 + N * (N + 1) // 2)', 'return 102_600'),
    ('divmod(abs(count), 10**places)', 'divmod(count, 10**places)'),
    ('"-" if count < 0 else ""', '"-" if count <= 0 else ""', '""', '"-" if whole and count < 0 else ""'),
    ('{whole}.', '{whole or ""}.', '{whole:4}.'),
    ('{part:0{places}d}', '{part}', '{part:{places}d}', '{part // 10:0{places - 1}d}'),
    ('    refusal = field_test(N, C, S)\n', '    refusal = 21 if room < file_bytes(N) else field_test(N, C, S)\n', '    refusal = 0\n',
     '    refusal = 1 if len(C) != size(N) or len(S) != size(N) else 0\n', '    refusal = field_test(N, C, C)\n',
     '    refusal = field_test(N, S, S)\n',
     '    refusal = 2 if any(abs(one) > FIELD_BOUND for one in (*C, *S)) else field_test(N, C, S)\n'),
    ('room < file_bytes(N)', 'room <= file_bytes(N)', 'room < file_bytes(N) - 1', 'False', 'room < file_bytes(60)'),
    ("'modelname': 'surfgimlet'", "'modelname': 'Surfgimlet'", "'model': 'surfgimlet'"),
    ("'earth_gravity_constant': constant", "'gravity_constant': constant", "'earth_gravity_constant': radius",
     "'earth_gravity_constant': f'{constant}.'"),
    ('fixed(radius, 3)', 'radius', 'fixed(constant, 3)', 'fixed(radius, 4)', "fixed(radius, 3).rstrip('0')"),
    ("'max_degree': N", "'max_degree': 4", "'max_degree': len(C)"),
    ("'errors': 'no', 'norm': 'fully_normalized'", "'norm': 'fully_normalized', 'errors': 'no'", "'errors': 'none', 'norm': 'fully_normalized'"),
    ('SYSTEMS[system].decode()', "'tide_free'", 'SYSTEMS[2 - system].decode()', 'SYSTEMS[min(system, 1)].decode()',
     'SYSTEMS[max(system, 1)].decode()'),
    ('.rjust(53 - len(keyword))', '.rjust(52 - len(keyword))', '.rjust(30)'),
    ("'end_of_head ' + 41 * '='", "'end_of_head ' + 40 * '='", "'end_of_head' + 42 * '='", "'end_of_head ' + 41 * '-'"),
    ('for m in range(n + 1):', 'for m in range(n, -1, -1):', 'for m in range(n):'),
    ("f'gfc{n:3}{m:3}{c:>22}{s:>22}'", "f'gfc{n:3}{m:3}{s:>22}{c:>22}'", "f'gfc{m:3}{n:3}{c:>22}{s:>22}'", "f'gfc{n:4}{m:3}{c:>21}{s:>22}'",
     "f'gfc{n:03}{m:3}{c:>22}{s:>22}'", "f'gfc{n:3}{m:3}{c:<22}{s:<22}'"),
    ("line + '\\n' for line", "line + '\\r\\n' for line", "line for line"))


def slipped(source):
    """A module as files.py is with this source."""
    module = ModuleType('slipped')
    exec(compile(source, 'slipped', 'exec'), module.__dict__)
    return module


def misread(module, cases):
    return any(module.read_file(*case[:3]) != case.due for case in cases)


def miswritten(module):
    return any(got != due for got, due in writing(module))


def told(wrong, source, *cases):
    """Whether a case differs, or a call fails."""
    module = slipped(source)
    try:
        return wrong(module, *cases)
    except (ArithmeticError, IndexError, KeyError, ValueError, AttributeError):
        return True


def slips():
    source = Path(files.__file__).read_text(encoding='ascii')
    cases = sorted(hand_cases(), key=lambda case: len(case.data))
    for pieces, *how in ((READING_SLIPS, misread, cases), (WRITING_SLIPS, miswritten)):
        expect('file slips', told(how[0], source, *how[1:]), False)
        for piece, *wrongs in pieces:
            expect('file slips', (piece, source.count(piece)), (piece, 1))
            for wrong in wrongs:
                expect('file slips', (piece, wrong, told(how[0], source.replace(piece, wrong), *how[1:])), (piece, wrong, True))


def check():
    by_hand()
    round_trips()
    decimals()
    made()
    slips()


def main():
    check()
    seen = ', '.join(f'{kind} {count}' for kind, count in counts.items())
    numbers = ', '.join(f'{kind} {number}: {count}' for (kind, number), count in sorted(met.items()))
    print(f'ok: {seen}; files by kind and number: {numbers}')


if __name__ == '__main__':
    main()
