"""Runs the built program `run` at a terminal, whose input may go on after its end, and holds its answer to the second program's. A number of 64 bits is
read as two of 32, and the input's end fills the half that it cuts short with zeros: the next half begins with what comes after. Run it where
crates/run/out/run is built.
"""

import os
import platform
import struct
import subprocess
import sys
import termios
from pathlib import Path

ROOT = Path(__file__).resolve().parent.parent
sys.path.insert(0, str(ROOT / 'second'))

import tides

PROGRAM = ([] if platform.machine() == 'x86_64' else ['qemu-x86_64', '-L', '/usr/x86_64-linux-gnu']) + [str(ROOT / 'crates' / 'run' / 'out' / 'run')]
END = b'\x04'                # typed after bytes it hands them on, and alone it is the input's end
C20 = 0x2211


def typed():
    """One case, a C20 moved from tide-free to zero, anelastic: the end stands within the C20's low half."""
    yield struct.pack('<I', 1) + b'\x03'
    yield struct.pack('<H', C20)
    yield b''
    yield struct.pack('<I', 0) + bytes((0, 1, 1))


def terminal():
    """Both ends of a terminal that hands on every byte but END as it is."""
    near, far = os.openpty()
    attributes = termios.tcgetattr(far)
    attributes[0] = attributes[1] = 0
    attributes[3] = termios.ICANON
    none = bytes([os.fpathconf(far, 'PC_VDISABLE')])
    attributes[6] = [none if isinstance(character, bytes) else character for character in attributes[6]]
    attributes[6][termios.VEOF] = END
    termios.tcsetattr(far, termios.TCSANOW, attributes)
    return near, far


def main():
    near, far = terminal()
    for part in typed():
        os.write(near, part + END)
    done = subprocess.run(PROGRAM, stdin=far, stdout=subprocess.PIPE, timeout=60)
    number, moved = tides.move_c20(C20, tides.TIDE_FREE, tides.ZERO, tides.ANELASTIC)
    wanted = f'{number} {moved}\n'.encode()
    if done.returncode != 0 or done.stdout != wanted:
        sys.exit(f'run: at a terminal status {done.returncode} and {done.stdout!r}, not {wanted!r}')
    print('run: at a terminal, the input going on after its end, as the second program')


if __name__ == '__main__':
    main()
