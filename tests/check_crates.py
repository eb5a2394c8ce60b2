"""crates.txt says of each crate which others it stands on: those that its files name, and no more. Exits 1 with a line for each that differs."""

import re
import shutil
import sys
from pathlib import Path

ROOT = Path(__file__).resolve().parent.parent
RT = shutil.which('rt')
KIT = {path.stem for path in Path(RT).resolve().parent.parent.glob('rlibs/*.rlib')} - {'core', 'std', 'std_alloc', 'std_collections', 'std_heap', 'std_io'}


def listed():
    """crate: those that it lists."""
    lines = (line.split('#')[0] for line in (ROOT / 'crates.txt').read_text(encoding='utf-8').splitlines())
    return {name.split()[0]: set(others.split()) for name, others in (line.split(':') for line in lines if line.strip())}


def named(crate):
    """Every word that stands where a crate's name can stand."""
    found = set()
    for path in (ROOT / 'crates' / crate).rglob('*'):
        if path.suffix in ('.rt', '.antt'):
            text = re.sub(r'^\s*(//|--).*', '', path.read_text(encoding='utf-8'), flags=re.M)
            found |= set(re.findall(r'Rattle\.(\w+)\.(?:specs|proofs)\b', text))
            if path.suffix == '.rt':
                found |= set(re.findall(r'(?<!::)\b(\w+)::', text))
    return found


def main():
    crates = listed()
    faults = []
    for crate, others in crates.items():
        needed = named(crate) & (set(crates) | KIT) - {crate}
        faults += [f'crates.txt: {crate} does not list {other}, which its files name' for other in sorted(needed - others)]
        faults += [f'crates.txt: {crate} lists {other}, which no file of it names' for other in sorted(others - needed)]
    print('\n'.join(faults) if faults else f'crates: {len(crates)}, each listing what its files name')
    sys.exit(bool(faults))


if __name__ == '__main__':
    main()
