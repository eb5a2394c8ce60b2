"""Gravity field files: a second program, written from the description (01, T-10 of 02, and the rules that settle what T-10 leaves open) alone.

A call answers its refusal's number, or what it is asked for. A decimal is taken exactly, by whole numbers throughout.
"""

import re
import sys

from tides import FIELD_BOUND, field_test, index, nearest, size

if hasattr(sys, 'set_int_max_str_digits'):
    sys.set_int_max_str_digits(0)        # a number may be nearly as long as its file

MOST_BYTES = 131_072
MOST_U64 = (1 << 64) - 1
SYSTEMS = b'tide_free', b'zero_tide', b'mean_tide'       # by their numbers 0, 1, 2


class Malformed(Exception):
    """Refusal 17."""


def must(holds):
    if not holds:
        raise Malformed


# --- Text ---

def words_of(line):
    """'Text': "a word is a longest run of other bytes" than space and tab, control bytes and those above 126 among them."""
    return [word for word in line.replace(b'\t', b' ').split(b' ') if word]


def rows_of(data):
    """'Text': the words of each line that has one, as LF and CR "each end a line" and "the last line may lack its end"."""
    return [words for words in map(words_of, data.replace(b'\r', b'\n').split(b'\n')) if words]


# --- Numbers ---

DECIMAL = re.compile(rb'([+-]?)([0-9]*)(?:\.([0-9]*))?(?:[EeDd]([+-]?[0-9]+))?')
LARGE = 20               # 10^20 is above every number that a file may hold


def whole_number(word):
    """'Numbers': "one or more digits and nothing else"."""
    must(word.isdigit())
    return int(word)


def nearest_decimal(word, places):
    """'Numbers': the whole number nearest a decimal times 10^places, "rounded once, to nearest, halves away from zero".

    10^20, with the sign, stands for every value of at least that size: no power of ten larger than the word is long is ever formed.
    """
    match = DECIMAL.fullmatch(word)
    must(match)
    sign, before, behind, exponent = match.groups(b'')
    must(before + behind)
    digits = (before + behind).lstrip(b'0')
    power = int(exponent or b'0') - len(behind) + places             # the value's size is digits * 10^power
    if not digits or len(digits) + power < 0:                        # below 1/10
        count = 0
    elif len(digits) + power > LARGE:
        count = 10**LARGE
    elif power >= 0:
        count = int(digits) * 10**power
    else:
        count = nearest(int(digits), 10**-power)
    return -count if sign == b'-' else count


# --- Header ---

ALSO = {b'gravity_constant': b'earth_gravity_constant'}
REQUIRED = b'product_type', b'earth_gravity_constant', b'radius', b'max_degree'
KNOWN = *REQUIRED, b'modelname', b'errors', b'norm', b'tide_system'


def parted(rows):
    """'Header', 'Data': the rows before the first that begins with end_of_head, and those after it."""
    firsts = [words[0] for words in rows]
    must(b'end_of_head' in firsts)
    end = firsts.index(b'end_of_head')
    return rows[:end], rows[end + 1:]


def without_comment(header):
    """'Header': the rows after begin_of_head, where one has it; "two such lines: 17"."""
    begins = [i for i, words in enumerate(header) if words[0] == b'begin_of_head']
    must(len(begins) < 2)
    return header[begins[0] + 1:] if begins else header


def entries_of(header):
    """'Header': the value of each known entry, its second word; "a known entry stands at most once" and "has a value"."""
    values = {}
    for keyword, *others in without_comment(header):
        entry = ALSO.get(keyword, keyword)
        if entry in KNOWN:
            must(entry not in values)
            must(others)
            values[entry] = others[0]
    return values


def unsigned(word, places):
    """'Header': the gravity constant or the radius, "where that is below 0 or 2^64 or more, 17"."""
    count = nearest_decimal(word, places)
    must(0 <= count <= MOST_U64)
    return count


def header_of(rows):
    """'Header': max_degree, gravity constant in m3/s2, radius in millimetres, and the tide system's word, None where it is absent."""
    values = entries_of(rows)
    must(all(entry in values for entry in REQUIRED))
    must(values[b'product_type'] == b'gravity_field')
    must(values.get(b'norm', b'fully_normalized') == b'fully_normalized')
    top = whole_number(values[b'max_degree'])
    return top, unsigned(values[b'earth_gravity_constant'], 0), unsigned(values[b'radius'], 3), values.get(b'tide_system')


# --- Data ---

def line_of(words, top):
    """'Data': degree, order and the counts of C and S of a line in a file of this max_degree; the error columns are "passed over unread"."""
    must(words[0] == b'gfc')
    must(len(words) in (5, 7, 9))
    n, m = whole_number(words[1]), whole_number(words[2])
    must(m <= n <= top)
    return n, m, nearest_decimal(words[3], 15), nearest_decimal(words[4], 15)


def parsed(data):
    """All that refusal 17 looks at: what header_of answers, and the lines."""
    must(len(data) <= MOST_BYTES)
    header, rows = parted(rows_of(data))
    top, *others = header_of(header)
    return top, *others, [line_of(words, top) for words in rows]


def repeated(lines):
    """'Data', refusal 18: "two data lines with the same L and the same M as numbers", "whatever their degree"."""
    return len({(n, m) for n, m, _, _ in lines}) < len(lines)


def in_range(lines):
    return all(abs(count) <= FIELD_BOUND for _, _, *counts in lines for count in counts)


# --- The calls ---

def read_file(data, length_c, length_s):
    """'Answers of reading', for lent lists of these lengths: max_degree, gravity constant, radius in millimetres, the system's number, C and S; or
    of the refusals 17, 18, 19, 20 and 1 the first in this order that the whole file gives."""
    try:
        top, constant, radius, system, lines = parsed(data)
    except Malformed:
        return 17
    if repeated(lines):
        return 18
    if not 4 <= top <= 60 or not in_range(lines):
        return 19
    if system not in SYSTEMS:
        return 20
    if length_c != size(top) or length_s != size(top):
        return 1
    C, S = [0] * size(top), [0] * size(top)
    for n, m, c, s in lines:
        C[index(n, m)], S[index(n, m)] = c, s
    return top, constant, radius, SYSTEMS.index(system), C, S


def file_bytes(N):
    """'Writing': the length of the text of a field of degree N."""
    return 54 * (9 + (N + 1) * (N + 2) // 2)


def fixed(count, places):
    """'Writing': a count of 10^-places with "the whole part (one digit at least), a dot", and so many decimals."""
    whole, part = divmod(abs(count), 10**places)
    return f'{"-" if count < 0 else ""}{whole}.{part:0{places}d}'


def write_file(N, C, S, constant, radius, system, room):
    """'Writing', into an output of so many bytes: the text, or the refusal, 1, 2 or 21. The system is 0, 1 or 2."""
    refusal = field_test(N, C, S)
    if refusal or room < file_bytes(N):
        return refusal or 21
    entries = {
        'product_type': 'gravity_field', 'modelname': 'surfgimlet', 'earth_gravity_constant': constant, 'radius': fixed(radius, 3),
        'max_degree': N, 'errors': 'no', 'norm': 'fully_normalized', 'tide_system': SYSTEMS[system].decode()}
    lines = [keyword + str(value).rjust(53 - len(keyword)) for keyword, value in entries.items()]
    lines.append('end_of_head ' + 41 * '=')
    for n in range(N + 1):
        for m in range(n + 1):
            c, s = (fixed(one[index(n, m)], 15) for one in (C, S))
            lines.append(f'gfc{n:3}{m:3}{c:>22}{s:>22}')
    return ''.join(line + '\n' for line in lines).encode('ascii')
