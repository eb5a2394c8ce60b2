"""What examples/field.* make of examples/field.gfc at the epoch of examples/epoch.txt, by the second program: `python3 example.py > FILE`."""

import sys
from pathlib import Path

import files
import tides as t

EXAMPLES = Path(__file__).resolve().parent.parent / 'examples'
LOVE = t.ANELASTIC


def epoch():
    """Six phases, the Moon, the Sun, and the pole's offsets."""
    phases, moon, sun, *_, pole = (EXAMPLES / 'epoch.txt').read_text(encoding='utf-8').splitlines()
    bodies = ((ratio, (t.RECTANGULAR, *place)) for ratio, *place in (map(float, body.split()) for body in (moon, sun)))
    return [int(phase) for phase in phases.split()], *bodies, *map(int, pole.split())


def accepted(number, *results):
    assert number == 0, f'refused with {number}'
    return results


def main():
    phases, moon, sun, xp, yp = epoch()
    N, constant, radius, system, C, S = files.read_file((EXAMPLES / 'field.gfc').read_bytes(), 28, 28)
    C[3], = accepted(*t.move_c20(C[3], (t.TIDE_FREE, t.ZERO, t.MEAN)[system], t.ZERO, LOVE))
    _, C, S = accepted(*t.solid_tide(N, C, S, moon, sun, LOVE, t.set_hour(phases), t.ALL_LINES))
    C, S = accepted(*t.pole_tide(N, C, S, xp, yp, LOVE))
    sys.stdout.buffer.write(files.write_file(N, C, S, constant, radius, 1, files.file_bytes(N)))


if __name__ == '__main__':
    main()
