"""Gravity field files for tests, drawn by a Chance: in the styles in which they are published, at the edges of T-10's rules, and with faults.

A case is a file's bytes, the lengths of the two lent lists, and the answer due: a refusal's number, or what files.read_file answers. It is known from
how the file was made, and no reader is asked; only where bytes of a file are changed at random it is None.
"""

from collections import namedtuple

from chance import WORD
from tides import FIELD_BOUND, index, size

Case = namedtuple('Case', 'data length_c length_s due')
CONSTANT = 'earth_gravity_constant', 'gravity_constant'
KNOWN = 'product_type', 'modelname', *CONSTANT, 'radius', 'max_degree', 'errors', 'norm', 'tide_system'
MOST_BYTES = 131_072
SYSTEMS = 'tide_free', 'zero_tide', 'mean_tide'
ORDER = 17, 18, 19, 20, 1


# --- Decimals ---

# The value is sign * digits * 10^power; count is the whole number nearest it in the unit that it is read in, None where it is beyond every range.
Decimal = namedtuple('Decimal', 'sign digits power count')


def rounded(digits, power):
    """The whole number nearest digits * 10^power, by the first digit that is cut."""
    if power >= 0:
        return int(digits) * 10**power
    digits = digits.rjust(1 - power, '0')
    return int(digits[:power]) + (digits[power] >= '5')


def decimal(sign, digits, power, places=15):
    return Decimal(sign, digits, power, sign * rounded(digits, power + places))


def cut_at(sign, count, tail, places=15):
    """The count and these digits behind it."""
    return decimal(sign, f'{count}{tail}', -places - len(tail), places)


LOW_TAILS = '', '0', '4', '49', '4' + '9' * 39, '0' * 39 + '1'           # to the count itself
HIGH_TAILS = '5', '5' + '0' * 39, '5' + '0' * 39 + '1', '51', '9' * 40   # a half or more: to the next
FAR = 10**12 - 1, (1 << 32) + 15, (1 << 64) - 15, 1 << 64, 10**40        # exponents that no power is formed of


def coefficient(chance):
    """A decimal whose count is in the range: of every size, zeros, halves, those beside them, the range's ends, and exponents beyond all use."""
    sign, tail, far = chance.one(1, -1), chance.one(*LOW_TAILS, *HIGH_TAILS), chance.one(*FAR)
    count = chance.one(0, 1, 2, chance.below(10**chance.between(1, 18)))
    kind = chance.below(12)
    if kind == 0:
        return Decimal(sign, '0' * chance.between(1, 20), chance.one(0, 9, -9, far, -far), 0)
    if kind == 1:
        return Decimal(sign, chance.one('1', '9', '9' * 40), -far, 0)
    if kind == 2:
        return cut_at(sign, FIELD_BOUND, chance.one(*LOW_TAILS))
    if kind == 3:
        return cut_at(sign, FIELD_BOUND - 1, tail)
    if kind < 8:
        return cut_at(sign, count, tail)
    return decimal(sign, str(chance.between(1, 10**15)), chance.between(-24, -16))


def beyond(chance):
    """A decimal whose count is out of the range."""
    sign, far = chance.one(1, -1), chance.one(*FAR)
    return chance.one(
        cut_at(sign, FIELD_BOUND, chance.one(*HIGH_TAILS)), cut_at(sign, FIELD_BOUND + 1, chance.one(*LOW_TAILS)), decimal(sign, '1153', 0),
        *(cut_at(sign, 1 << bits, '') for bits in (61, 63, 64)), cut_at(sign, (1 << 64) + 1, ''), decimal(sign, '1', 40),
        Decimal(sign, '1', far, None), Decimal(sign, '0' * 30 + '9' * 40, far, None))


def unsigned(chance, places):
    """A decimal above -1/2 and below 2^64 - 1/2 at its scale."""
    sign, count = chance.one((1, WORD), (1, chance.below(1 << chance.between(1, 64))), (1, 0), (-1, 0))
    few = decimal(1, str(chance.below(18)), chance.between(0, 18) - places, places)
    return chance.one(few, cut_at(sign, count, chance.one(*LOW_TAILS), places), cut_at(sign, count, chance.one(*LOW_TAILS), places))


def no_unsigned(chance, places):
    sign, count, tails = chance.one((1, WORD, HIGH_TAILS), (1, WORD + 1, LOW_TAILS), (-1, 0, HIGH_TAILS), (-1, 1, LOW_TAILS))
    return chance.one(cut_at(sign, count, chance.one(*tails), places), cut_at(1, chance.between(WORD + 1, 1 << 66), '', places),
                      *(Decimal(sign, '3', chance.one(*FAR), None) for sign in (1, -1)))


def signed(chance, decimal):
    """The sign as a decimal may have it."""
    return '-' if decimal.sign < 0 else chance.one('', '', '+')


def with_exponent(chance, number):
    return chance.one(*'EeDd') + ('-' if number < 0 else chance.one('', '+')) + '0' * chance.below(3) + str(abs(number))


def spelled(chance, decimal):
    """A decimal in any form that it may have: zeros before and behind, the dot anywhere or none, and the exponent that fits."""
    zeros = chance.below(3)
    digits, power = '0' * chance.below(3) + decimal.digits + '0' * zeros, decimal.power - zeros
    at = len(digits) + power                                             # where the dot stands when there is no exponent
    if 0 <= at <= len(digits) and chance.one_in(3):
        exponent = ''
    else:
        at = chance.below(len(digits) + 1)
        exponent = with_exponent(chance, power + len(digits) - at)
    dot = '' if at == len(digits) and chance.one_in(2) else '.'
    return signed(chance, decimal) + digits[:at] + dot + digits[at:] + exponent


NO_WHOLE = '+2', '-2', '-0', '2.', '2.0', '2e0', '0x2', '2,', 'x', '2_0', '\xb2', '1-1'
NO_DECIMAL = (
    'x', '+', '-', '.', '+.', 'e5', '.e5', '-D0', '1e', '1e+', '1d-', '1.2.3', '1..2', '1e5.', '1e1.0', '1ee5', '1e5e5', '--1', '+-1', '1-', '1+1',
    '1f5', '1q5', '0x1', 'nan', 'inf', '1_0', '1,0', '1e--5', '1e5x', '\xb9', '1\xa0', '\x001', '1\x0b', '\x0c1', "'1'")


# --- Styles ---

def lead_zero(mark):
    """0.484165143790815D-03, with this letter."""
    def form(chance, decimal):
        exponent = decimal.power + len(decimal.digits)
        return f'{"-" if decimal.sign < 0 else ""}0.{decimal.digits}{mark}{exponent:+03}'

    return form


def lead_digit(mark):
    """4.84165143790815E-04, with this letter."""
    def form(chance, decimal):
        exponent = decimal.power + len(decimal.digits) - 1
        return f'{"-" if decimal.sign < 0 else ""}{decimal.digits[0]}.{decimal.digits[1:]}{mark}{exponent:+03}'

    return form


def significant(digits):
    """A coefficient of so many digits, of the size that the degrees above 2 have."""
    return lambda chance: decimal(chance.one(1, -1), str(chance.between(1, 10**digits)), -digits - chance.between(3, 12))


def sigmas(form, digits):
    """Two error columns in this form, of so many digits."""
    return lambda chance: [form(chance, decimal(1, str(chance.between(1, 10**digits)), -digits - 10)) for _ in 'CS']


def any_words(chance):
    return [chance.one('x', '0.1D-9', 'gfc', '-', '\xff', '9' * 99) for _ in range(2 * chance.below(3))]


def in_columns(*widths):
    """The words at the ends of columns, wider where a word does not fit."""
    return lambda chance, words: words[0] + ''.join(' ' + word.rjust(width) for word, width in zip(words[1:], [*widths, *[12] * 9]))


def with_any_blanks(chance, words):
    """The words between spaces and tabs, now and then with lines before them that have no word."""
    gaps = [chance.one(' ', ' ', '\t', '  ', ' \t ', '\t\t') for _ in words]
    ends = [chance.one('', '', '', gap) for gap in gaps[:2]]
    lines = chance.one(*[''] * 20, '\n', '\r', '\n \t\n', '\r\n\t\r\n')
    return lines + ends[0] + ''.join(word + gap for word, gap in zip(words, gaps)).rstrip(' \t') + ends[-1]


def header(model, constant, radius, errors, *others):
    return [['product_type', 'gravity_field'], ['modelname', model], ['earth_gravity_constant', constant], ['radius', radius], ['max_degree', ''],
            ['errors', errors], ['norm', 'fully_normalized'], ['tide_system', ''], *map(str.split, others)]


# The lines before begin_of_head, the header's words, the width of a keyword, the radius in millimetres; then what draws a coefficient, what writes
# it, what draws the words behind S, and what sets a line down.
Style = namedtuple('Style', 'comment header keyword radius number form errors layout')
KEY = 'key L M C S sigma C sigma S'
EGM96 = Style(
    ['EGM96, a joint geopotential model', '', 'max_degree and radius stand below', 'radius 1', 'product_type none', 'tide_system unknown'],
    header('EGM96', '0.3986004415E+15', '0.6378136300E+07', 'formal'), 25, 6378136300,
    significant(12), lead_zero('E'), sigmas(lead_zero('E'), 8), in_columns(4, 4, 19, 19, 14, 14))
EGM2008 = Style(
    [], header('EGM2008', '0.3986004415D+15', '0.63781363D+07', 'calibrated', KEY), 27, 6378136300,
    significant(15), lead_zero('D'), sigmas(lead_zero('D'), 10), in_columns(4, 4, 24, 24, 18, 18))
GGM05S = Style(
    [], [['generating_institute', 'CSR'], *header('GGM05S', '3.986004415E+14', '6378136.3', 'calibrated', KEY)], 22, 6378136300,
    significant(13), lead_digit('E'), sigmas(lead_digit('E'), 11), in_columns(5, 4, 20, 20, 17, 17))
EIGEN_6C4 = Style(
    ['A model', '', '  gfc 2 0 1.0 0.0', '\tan indented line', 'norm unnormalized', 'radius', 'norm'],
    header('EIGEN-6C4', '0.3986004415E+15', '0.6378136460E+07', 'formal', 'url none', KEY), 27, 6378136460,
    significant(12), lead_zero('e'), sigmas(lead_zero('e'), 5), in_columns(5, 4, 19, 19, 11, 11))
BARE = EIGEN_6C4._replace(errors=lambda chance: [], layout=in_columns(2, 2, 19, 19))         # without errors 60 degrees fit
FREE = Style(
    [], header('surfgimlet', '398600441500000', '6378136.300', 'no'), 1, 6378136300,
    coefficient, spelled, any_words, with_any_blanks)
PUBLISHED = EGM96, EGM2008, GGM05S, EIGEN_6C4
NO_ENTRIES = (                                                           # header lines that are passed over
    'max_degrees 9', 'max_degre 9', 'Max_degree 9', 'radiu x', 'Radius 1', 'radius: 1', 'RADIUS', 'Norm x', 'norms', 'gfc 2 0 1 0', 'key',
    'key L M C S', 'generating_institute x', 'earth_gravity', 'gravity_constants 1', 'x begin_of_head', 'begin_of_header', 'Begin_of_head',
    'x end_of_head', 'end_of_heads', 'tide_systems', 'product_type_ x', 'modelname2', 'error', '#', '\xff', '\x00', '\x0cmax_degree 9')


# --- Files before they are written ---

def places_to(top):
    return [(n, m) for n in range(top + 1) for m in range(n + 1)]


class Sketch:
    """The words of a file, how they are set down, and what is due."""

    def __init__(self, chance, style, top, places):
        self.style, self.top, self.system = style, top, chance.below(3)
        self.constant, self.radius = 398600441500000, style.radius
        self.begins = [[*style.comment, 'begin_of_head ' + '=' * 40]] if style.comment or chance.one_in(4) else []
        self.header = [list(words) for words in style.header]
        self.end = ['end_of_head', *chance.one([], ['=' * 53], ['max_degree', '9'])]
        self.counts, self.lines = {}, []
        for n, m in places:
            two = [style.number(chance) for _ in 'CS']
            self.counts[n, m] = [one.count for one in two]
            self.lines.append(['gfc', str(n), str(m), *(style.form(chance, one) for one in two), *style.errors(chance)])
        self.ending, self.closed = chance.one('\n', '\n', '\r\n', '\r'), not chance.one_in(4)
        self.set('max_degree', str(top))
        self.set('tide_system', SYSTEMS[self.system])
        if style is FREE:
            self.vary_header(chance)

    def vary_header(self, chance):
        """Any gravity constant and radius by either keyword, words after the values, and lines that are passed over."""
        for keyword, places in (('constant', 0), ('radius', 3)):
            drawn = unsigned(chance, places)
            self.set(keyword, spelled(chance, drawn))
            setattr(self, keyword, drawn.count)
        if chance.one_in(2):
            self.entry('constant')[0] = 'gravity_constant'
        for words in self.header:
            words += chance.one([], [], ['x'], ['4', '0', words[0]])
        for _ in range(chance.below(6)):
            inserted(chance, self.header, chance.one(*NO_ENTRIES).split(' '))

    def entry(self, keyword):
        """The words of an entry, the gravity constant's by either keyword."""
        return next(words for words in self.header if words[0] in (CONSTANT if keyword == 'constant' else [keyword]))

    def set(self, keyword, value):
        self.entry(keyword)[1:2] = [value]

    def known(self):
        return [words for words in self.header if words[0] in KNOWN]

    def text(self, chance):
        entries = [' '.join([words[0].ljust(self.style.keyword), *words[1:]]) for words in self.header]
        lines = [self.style.layout(chance, words) for words in self.lines]
        begins = [line for begin in self.begins for line in begin]
        text = self.ending.join([*begins, *entries, ' '.join(self.end), *lines])
        return (text + self.ending * self.closed).encode('latin-1')

    def answer(self):
        C, S = [0] * size(self.top), [0] * size(self.top)
        for (n, m), (c, s) in self.counts.items():
            C[index(n, m)], S[index(n, m)] = c, s
        return self.top, self.constant, self.radius, self.system, C, S


def fitting(chance, sketch, due=None):
    """The case of a sketch whose lent lists fit; where nothing else is due, its answer."""
    return Case(sketch.text(chance), size(sketch.top), size(sketch.top), sketch.answer() if due is None else due)


def published(chance, style, top, missing=0):
    """A file as published, cut to a degree, so many of its places missing."""
    places = places_to(top)
    return fitting(chance, Sketch(chance, style, top, chance.some(len(places) - missing, places)))


def free_sketch(chance, top=None):
    """Any decimals in any form, in any order of lines; (0,0) and at most 30 places more."""
    top = chance.one(4, 5, 60, chance.between(4, 60)) if top is None else top
    places = [(0, 0), *chance.some(chance.below(min(31, size(top))), places_to(top)[1:])]
    return Sketch(chance, FREE, top, shuffled(chance, places))


def shuffled(chance, options):
    left = list(options)
    return [left.pop(chance.below(len(left))) for _ in options]


def good_sketch(chance):
    """A sketch of any style, not long."""
    style, top = chance.one(FREE, BARE, *PUBLISHED), chance.between(4, 8)
    return free_sketch(chance) if style is FREE else Sketch(chance, style, top, places_to(top))


# --- Faults ---

REQUIRED = 'product_type', 'constant', 'radius', 'max_degree'
HIGH_DEGREES = 61, 64, 360, 2190, 1 << 16, (1 << 32) + 4, (1 << 64) + 4, (1 << 64) + 60, 10**40


def any_line(chance, sketch):
    return chance.one(*sketch.lines)


def inserted(chance, entries, entry):
    entries.insert(chance.below(len(entries) + 1), entry)


def no_end(chance, sketch):
    sketch.end[:1] = chance.one([], ['end_of_header'], ['End_of_head'], ['end_of_head='], ['x', 'end_of_head'])


def begun_twice(chance, sketch):
    begin = ['begin_of_head', *chance.one([], ['='])]
    if sketch.begins and chance.one_in(2):
        sketch.begins.insert(0, [' '.join(begin)])
    else:
        sketch.begins = sketch.begins or [['begin_of_head']]
        inserted(chance, sketch.header, begin)


def entry_missing(chance, sketch):
    entry = sketch.entry(chance.one(*REQUIRED))
    if sketch.begins and chance.one_in(2):
        sketch.begins[0].insert(0, ' '.join(entry))
    sketch.header.remove(entry)


def entry_repeated(chance, sketch):
    """With its value or another; the gravity constant by either keyword."""
    keyword, *values = chance.one(*sketch.known())
    if keyword in CONSTANT:
        keyword = chance.one(*CONSTANT)
    inserted(chance, sketch.header, [keyword, *chance.one(values, ['7'], ['gravity_field'])])


def value_missing(chance, sketch):
    del chance.one(*sketch.known())[1:]


def other_product(chance, sketch):
    sketch.set('product_type', chance.one('gravity_field_', 'gravity_fiel', 'Gravity_field', 'topography', 'fully_normalized', 'gravity field'))


def other_norm(chance, sketch):
    sketch.set('norm', chance.one('unnormalized', 'fully_normalised', 'fully', 'Fully_normalized', 'fully_normalized,', 'none'))


def no_whole_degree(chance, sketch):
    sketch.set('max_degree', chance.one(*NO_WHOLE))


def no_decimal_header(chance, sketch):
    sketch.set(chance.one('constant', 'radius'), chance.one(*NO_DECIMAL))


def constant_beyond(chance, sketch):
    sketch.set('constant', spelled(chance, no_unsigned(chance, 0)))


def radius_beyond(chance, sketch):
    sketch.set('radius', spelled(chance, no_unsigned(chance, 3)))


def other_line(chance, sketch):
    """A line of another kind: time-variable, a comment, one of the header."""
    line = any_line(chance, sketch)
    whole = chance.one(['#', 'x'], ['end_of_head'], ['begin_of_head'], ['max_degree', '4'], ['\x0c'], ['\x00'], ['\xa0'])
    first = chance.one('gfct', 'trnd', 'dot', 'acos', 'asin', 'GFC', 'gfc,', '#gfc', '\xa0gfc', 'gf')
    inserted(chance, sketch.lines, chance.one(whole, [first, *line[1:]]))


def other_count(chance, sketch):
    """A line of 1 to 4, 6, 8 or 10 words."""
    line = any_line(chance, sketch)
    line[:] = [*line[:5], *['0'] * 5][:chance.one(1, 2, 3, 4, 6, 8, 10)]


def no_whole_place(chance, sketch):
    any_line(chance, sketch)[chance.one(1, 2)] = chance.one(*NO_WHOLE)


def order_above(chance, sketch):
    line = any_line(chance, sketch)
    line[2] = str(int(line[1]) + chance.one(1, 1, 1 << 8, 1 << 32, 1 << 64))


def degree_above(chance, sketch):
    """A degree above max_degree, whatever that is."""
    any_line(chance, sketch)[1] = str(int(sketch.entry('max_degree')[1]) + chance.one(1, 1, 1 << 8, 1 << 32, 1 << 64))


def no_decimal(chance, sketch):
    any_line(chance, sketch)[chance.one(3, 4)] = chance.one(*NO_DECIMAL)


def too_long(chance, sketch):
    """By blanks or a word that would be passed over, on a line of the header or behind end_of_head."""
    many = chance.one(' ', '#') * MOST_BYTES
    if chance.one_in(2):
        sketch.end.append(many)
    else:
        inserted(chance, sketch.header, [many])


def repeated(chance, sketch):
    """A second line of a place, its degree and order as other words too."""
    line = list(any_line(chance, sketch))
    for at in (1, 2):
        line[at] = '0' * chance.one(0, 0, 1, 30) + line[at]
    line[3:5] = chance.one(line[3:5], line[3:5], ['0', '0'], ['0.5', '-0.5'])
    inserted(chance, sketch.lines, line)


def repeated_high(chance, sketch):
    """A second line of a place above degree 60, in a file of such a degree."""
    top = chance.one(*HIGH_DEGREES)
    sketch.set('max_degree', str(top))
    n = chance.one(top, top, chance.between(61, top))
    for _ in 'ab':
        inserted(chance, sketch.lines, ['gfc', str(n), chance.one(*'0', '00'), '0', chance.one('0', '1')])


def high_degree(chance, sketch):
    sketch.set('max_degree', str(chance.one(*HIGH_DEGREES)))


def low_degree(chance, sketch):
    """Below 4, with the lines that there may be then."""
    top = chance.below(4)
    sketch.set('max_degree', str(top))
    sketch.lines[:] = [line for line in sketch.lines if int(line[1]) <= top]


def value_beyond(chance, sketch):
    any_line(chance, sketch)[chance.one(3, 4)] = spelled(chance, beyond(chance))


def no_system(chance, sketch):
    sketch.header.remove(sketch.entry('tide_system'))


def other_system(chance, sketch):
    sketch.set('tide_system', chance.one('unknown', 'tide_fre', 'tide_free_', 'Tide_free', 'tide-free', 'zero', 'mean_tides', '0', 'zero_tide,'))


# By their numbers, in the order in which they are planted: one of 17 last, since a second one could undo it.
FAULTS = {
    20: (no_system, other_system),
    19: (high_degree, low_degree, value_beyond),
    18: (repeated, repeated_high),
    17: (no_end, begun_twice, entry_missing, entry_repeated, value_missing, other_product, other_norm, no_whole_degree, no_decimal_header,
         constant_beyond, radius_beyond, other_line, other_count, no_whole_place, order_above, degree_above, no_decimal, too_long)}


def wrong_lengths(chance, fit):
    """Two lengths, not both of them the one that fits."""
    wrong = chance.one(0, fit - 1, fit + 1, 1891, chance.below(2000))
    wrong += wrong == fit
    return chance.one((wrong, fit), (fit, wrong), (wrong, wrong), (fit - 1, fit + 1))


def with_faults(chance, numbers, seventeen=None):
    """A file of any style with a fault of each of these numbers; of 17 this one, where it is given."""
    sketch = good_sketch(chance)
    lengths = [size(sketch.top)] * 2
    for number, faults in FAULTS.items():
        if number in numbers:
            (seventeen if number == 17 and seventeen else chance.one(*faults))(chance, sketch)
    if 1 in numbers:
        lengths = wrong_lengths(chance, size(sketch.top))
    due = next((number for number in ORDER if number in numbers), None)
    return Case(sketch.text(chance), *lengths, sketch.answer() if due is None else due)


# --- Edges ---

LEAST_AND_MOST = (                                                       # of the gravity constant; a thousandth of each, of the radius
    ('0', 0), ('-0', 0), ('-0.4', 0), ('-0.4' + '9' * 40, 0), ('-0.5', 17), ('-1', 17), ('0.5', 1), ('1.5', 2), ('2.5', 3), ('2.4' + '9' * 40, 2),
    ('18446744073709551615', WORD), ('18446744073709551614.5', WORD), ('18446744073709551615.4' + '9' * 40, WORD), ('18446744073709551615.5', 17),
    ('18446744073709551616', 17), ('100000000000000000000', 17), ('99999999999999999999', 17), ('-18446744073709551616', 17))


def constants(chance):
    """The gravity constant and the radius at the ends of their range and at halves."""
    for text, count in LEAST_AND_MOST:
        for keyword, spelling in (('constant', text), ('constant', f'{text}D+0'), ('radius', f'{text}e-3'), ('radius', f'{text}E-00003')):
            sketch = good_sketch(chance)
            sketch.set(keyword, spelling)
            setattr(sketch, keyword, count)
            yield fitting(chance, sketch, 17 if count == 17 else None)


def keywords(chance):
    """Each entry missing, twice, by both keywords of the gravity constant, without a value, and under a keyword that only begins or ends like it."""
    for i, (keyword, value) in enumerate(header('x', '1', '2', 'no')):
        missing = {'tide_system': 20, 'modelname': None, 'errors': None, 'norm': None}.get(keyword, 17)
        for words in ([], [keyword + 's', value], [keyword[:-1], value], [keyword.upper(), value], ['x', keyword, value], [f'"{keyword}"', value]):
            yield with_words(chance, i, [words], missing)
        same = Sketch(chance, BARE, 4, []).header[i][1]
        for other in ([keyword, value], [keyword, same], [keyword]):
            yield with_words(chance, i, [None, other], 17)
        yield with_words(chance, i, [[keyword]], 17)
    for one, two in (('gravity_constant', 'earth_gravity_constant'), ('gravity_constant', 'gravity_constant')):
        yield with_words(chance, 2, [[one, '398600441500000'], [two, '398600441500000']], 17)


def with_words(chance, i, lines, due):
    """A file whose header has these lines in place of its i-th; None stands for the line itself."""
    sketch = Sketch(chance, BARE, 4, places_to(4))
    sketch.header[i:i + 1] = [words if words is not None else sketch.header[i] for words in lines if words != []]
    return fitting(chance, sketch, due)


def forms(chance):
    """Every word that is no whole number or no decimal, wherever one stands."""
    for word in NO_WHOLE:
        yield with_words(chance, 4, [['max_degree', word]], 17)
        yield from (with_word(chance, at, word) for at in (1, 2))
    for word in NO_DECIMAL:
        yield with_words(chance, 2, [['earth_gravity_constant', word]], 17)
        yield with_words(chance, 3, [['radius', word]], 17)
        yield from (with_word(chance, at, word) for at in (3, 4))


def with_word(chance, at, word):
    """A file one of whose data lines has a word that is refused with 17."""
    sketch = free_sketch(chance)
    any_line(chance, sketch)[at] = word
    return fitting(chance, sketch, 17)


def degrees(chance):
    """Every degree from 0 to 66 and far ones, some lines at the degree itself."""
    for top in (*range(67), *HIGH_DEGREES, *(1 << bits for bits in (8, 31, 32, 63, 64))):
        sketch = Sketch(chance, FREE, top, sorted({(0, 0), (top, 0), (top, top)}))
        yield fitting(chance, sketch) if 4 <= top <= 60 else Case(sketch.text(chance), 15, 15, 19)


def filled(chance, data, goal):
    """A good file's bytes made so many: by blanks and line ends before or behind, a line that is passed over, or words behind end_of_head."""
    more = goal - len(data)
    blanks = lambda count: bytes(chance.one(*b'  \t\n\r') for _ in range(count))
    at = data.rindex(b'end_of_head') + 11
    return chance.one(
        data + b' ' * more, data + b'\n' * more, data + blanks(99) + b'\t' * (more - 99), b'\r' * more + data, blanks(99) + b' ' * (more - 99) + data,
        b'#' * (more - 1) + b'\n' + data, data[:at] + b' ' + b'=' * (more - 1) + data[at:])


def lengths(chance):
    """Good files of exactly as many bytes as there may be, and of one more."""
    for _ in range(12):
        case = fitting(chance, good_sketch(chance))
        yield case._replace(data=filled(chance, case.data, MOST_BYTES))
        yield case._replace(data=filled(chance, case.data, MOST_BYTES + 1), due=17)


def long_numbers(chance):
    """Decimals and whole numbers of thousands of digits, among them halves and those beside them by their last digit alone."""
    for many, tail, sign in ((count, tail, sign) for count in (40, 4300, 60_000) for tail in '159' for sign in (1, -1)):
        sketch = Sketch(chance, BARE, 4, places_to(4))
        numbers = [cut_at(sign, 41, '5' + '0' * many + tail), cut_at(-sign, 41, '4' + '9' * many + tail)]
        sketch.lines[3][3:5] = [spelled(chance, number) for number in numbers]
        sketch.counts[2, 0] = [number.count for number in numbers]
        yield fitting(chance, sketch)
    for keyword in ('constant', 'radius', 'max_degree'):
        sketch = Sketch(chance, BARE, 4, places_to(4))
        sketch.set(keyword, '0' * 50_000 + sketch.entry(keyword)[1])
        yield fitting(chance, sketch)


def styles(chance):
    """Each style at small degrees and at the largest that fits, whole and with places missing; and published files that are not cut: of degree 2190
    refused with 19, and with 17 where a line is beyond the degree or the file too long."""
    for style, most in ((EGM96, 40), (EGM2008, 38), (GGM05S, 40), (EIGEN_6C4, 45), (BARE, 60)):
        for top, missing in ((4, 0), (4, 15), (5, 3), (most, 0), (most, 30)):
            yield published(chance, style, top, missing)
        sketch = Sketch(chance, style, 2190, places_to(6))
        yield Case(sketch.text(chance), 15, 15, 19)
        sketch.set('max_degree', '5')
        yield Case(sketch.text(chance), 21, 21, 17)
    sketch = Sketch(chance, EGM2008, 60, places_to(60))
    yield fitting(chance, sketch, 17)


def edge_files(chance):
    for part in (styles, constants, keywords, forms, degrees, lengths, long_numbers):
        yield from part(chance)


# --- Files of any kind ---

TELLING = b' \t\n\r0123456789+-.EeDdgfcx_\x00\x0b\x0c\x1c\x7f\x80\x85\xa0\xff'


def changed_byte(chance, byte):
    """Another byte, most often one that has a meaning in a file or is taken for one."""
    other = chance.one(*TELLING, *(chance.below(256) for _ in range(8)))
    return other if other != byte else byte ^ 1 << chance.below(8)


def with_byte_changed(chance, data, at):
    return data[:at] + bytes((changed_byte(chance, data[at]),)) + data[at + 1:]


def changed_bytes(chance, case):
    """The case's file with each of its bytes changed in turn."""
    for at in range(len(case.data)):
        yield case._replace(data=with_byte_changed(chance, case.data, at), due=None)


def disturbed(chance, case):
    """The case's file with a few bytes changed, or a stretch of it left out, doubled or moved."""
    data = case.data
    a, b, c = sorted(chance.below(len(data) + 1) for _ in 'abc')
    if chance.one_in(2):
        for _ in range(chance.between(1, 3)):
            data = with_byte_changed(chance, data, chance.below(len(data)))
    else:
        data = chance.one(data[:a], data[a:], data[:a] + data[b:], data[:b] + data[a:], data[:a] + data[b:c] + data[a:b] + data[c:])
    return case._replace(data=data, due=None)


def any_file(chance):
    """A good file, one with faults of any numbers, or one that is disturbed."""
    case = with_faults(chance, chance.some(chance.one(0, 0, 1, 1, 2, 3), ORDER))
    return disturbed(chance, case) if chance.one_in(3) else case
