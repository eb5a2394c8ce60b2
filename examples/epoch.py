"""Every call but those of files, at one epoch, 2004-05-17 0h: `python3 epoch.py SHEET <epoch.txt`. The input is six phases, then of the Moon and of
the Sun the mass ratio, x, y, z and r, then how many own lines there are, and of each the six multipliers, ip and op, then the pole's offsets xp and
yp, which are not that day's. The corrections are gathered in zeros of degree 12; a processor adds 1e-15 times each to its own coefficients."""
import sys

import surfgimlet as unit

DEGREE = 12
PLACES = [(n, m) for n in range(DEGREE + 1) for m in range(n + 1)]


def added(name, before, after):
    """Prints what a call has added."""
    print(name)
    for (n, m), *entries in zip(PLACES, *before, *after):
        for letter, old, new in (('C', entries[0], entries[2]), ('S', entries[1], entries[3])):
            if new != old:
                print(f'{letter}({n},{m}) {new - old:+}')


def main():
    with open(sys.argv[1], 'rb') as file:
        sheet = file.read()
    words = sys.stdin.read().split()
    phases = unit.Phases(*map(int, words[:6]))
    moon, sun = (unit.Body(unit.RECTANGULAR, *map(float, words[at:at + 5])) for at in (6, 11))
    lines = [unit.OwnLine(*map(int, words[at:at + 8])) for at in range(17, 17 + 8 * int(words[16]), 8)]
    xp, yp = map(int, words[17 + 8 * len(lines):])
    love = unit.ANELASTIC

    if unit.version() != unit.VERSION:
        raise SystemExit('library and module are of two versions')
    print('version', unit.version())

    # the solid tide wants a zero-tide C20: a tide-free one, made with this Love model's k20, is moved once, before the first epoch
    print('C20 zero-tide', unit.move_c20(-484165000000000, unit.TIDE_FREE, unit.ZERO_TIDE, love))

    # made once for the epoch, and used for any number of fields; a number that is no phase raises OverflowError here
    hour = unit.set_hour(phases)

    c, s = [0] * len(PLACES), [0] * len(PLACES)
    for name, call in (
            # what the Moon and the Sun raise, and the lines of a laser operator's selection; an altimeter operator's may be unit.major_lines()
            ('solid tide', lambda: unit.solid_tide(DEGREE, c, s, moon, sun, love, hour, unit.all_lines())),
            ('own lines', lambda: unit.own_lines(DEGREE, c, s, lines, phases)),
            ('pole tide', lambda: unit.pole_tide(DEGREE, c, s, xp, yp, love)),
            ('ocean tide', lambda: unit.ocean_tide(DEGREE, c, s, sheet, phases, unit.CENTRE_OF_MASS))):
        before = c[:], s[:]
        named = call()
        added(name, before, (c, s))
        if named is not None:
            print('lines named', named)

    # K1 is 165,555; a printed line by its number, and a number that none has
    multipliers = unit.multipliers_of(165555)
    number = unit.number_of(multipliers)
    print(number, 'is', *multipliers)
    line = unit.find_line(number)
    print(f'line {line.index} amplitudes {line.first} {line.second}')
    print(f'cosine {hour.cosines[line.index]} sine {hour.sines[line.index]} at this hour')
    hour = unit.move_hour(unit.start_hour(), unit.S, 1 << 30)
    print(f'cosine {hour.cosines[line.index]} sine {hour.sines[line.index]} from the start, s moved by a quarter turn')
    try:
        unit.find_line(265555)
    except unit.Refused as refused:
        print(f'265555: {unit.WORDS[refused.number]}')


if __name__ == '__main__':
    main()
