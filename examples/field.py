"""A gravity field file corrected at one epoch, 2004-05-17 0h, and written back: `python3 field.py field.gfc OUT`. The phases, the Moon, the Sun and the
pole's offsets, which are not that day's, are those of epoch.txt."""
import pathlib
import sys

import surfgimlet as unit

LOVE = unit.ANELASTIC
PHASES = unit.Phases(327043742, 329517021, 656638906, 3117674196, 3812369497, 3376471194)
MOON = unit.Body(unit.RECTANGULAR, 0.012300034, -355452275.2669934, 164619588.90359762, 78939894.915495992, 399596591.64279854)
SUN = unit.Body(unit.RECTANGULAR, 332946.048, -142729805997.8396, 2252600386.0736647, 50151303252.337364, 151301106891.4837)
XP, YP = -118250, 156400


def main():
    given, corrected = map(pathlib.Path, sys.argv[1:])
    if unit.version() != unit.VERSION:
        raise SystemExit('library and module are of two versions')

    # a file that is refused raises here, as any call does, and no file is written
    degree, constant, radius, system, c, s = unit.read_field(given.read_bytes())

    # the solid tide wants a zero-tide C20, which stands at [3]; a tide-free one is to have been made with this Love model's k20
    c[3] = unit.move_c20(c[3], system, unit.ZERO_TIDE, LOVE)

    # what the Moon and the Sun raise, with all lines, and what the pole's motion raises
    unit.solid_tide(degree, c, s, MOON, SUN, LOVE, unit.set_hour(PHASES), unit.all_lines())
    unit.pole_tide(degree, c, s, XP, YP, LOVE)

    # the field of this epoch, zero-tide now, with the constant and the radius that it came with
    corrected.write_bytes(unit.write_field(degree, c, s, constant, radius, unit.ZERO_TIDE))


if __name__ == '__main__':
    main()
