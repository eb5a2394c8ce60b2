"""Runs the built program `steptwo` on standard inputs of other lengths and phases than its stored one, and holds what it writes to the second program's
text, byte for byte. Output that cannot be written must be told. Run it where crates/steptwo/out/steptwo is built.
"""

import os
import platform
import struct
import subprocess
import sys
from pathlib import Path

ROOT = Path(__file__).resolve().parent.parent
sys.path.insert(0, str(ROOT / 'second'))

import tides
from chance import Chance

PROGRAM = ([] if platform.machine() == 'x86_64' else ['qemu-x86_64', '-L', '/usr/x86_64-linux-gnu']) + [str(ROOT / 'crates' / 'steptwo' / 'out' / 'steptwo')]
LENGTHS = 0, 1, 23, 24, 25, 48
PHASES = 300


def inputs():
    chance = Chance(1996)
    for length in LENGTHS:
        yield bytes(length)
        yield chance.bytes(length)
    yield struct.pack('<6I', 1 << 30, 0, 0, 0, 0, 0)
    for _ in range(PHASES):
        yield chance.bytes(24)


def unwritten():
    """Outputs that cannot be written and are not told, by the status or on standard error: a full device, and a pipe that nobody reads, the signal for
    that ignored or not."""
    reading, writing = os.pipe()
    os.close(reading)
    with open('/dev/full', 'wb') as full, os.fdopen(writing, 'wb') as pipe:
        for what, output, signals in (('a full device', full, True), ('a closed pipe', pipe, True), ('a closed pipe, no signal', pipe, False)):
            done = subprocess.run(PROGRAM, input=bytes(24), stdout=output, stderr=subprocess.PIPE, restore_signals=signals)
            if done.returncode == 0 and not done.stderr:
                yield f'{what}: status 0, and nothing on standard error'


def main():
    faults = []
    given = list(inputs())
    for data in given:
        done = subprocess.run(PROGRAM, input=data, stdout=subprocess.PIPE)
        if done.returncode != 0 or done.stdout != tides.steptwo_program(data):
            faults.append(f'{len(data)} bytes {data.hex()}: status {done.returncode}, {done.stdout!r}')
    faults += unwritten()
    print('\n'.join(faults) if faults else f'steptwo: as the second program on {len(given)} inputs; output that cannot be written is told')
    sys.exit(bool(faults))


if __name__ == '__main__':
    main()
