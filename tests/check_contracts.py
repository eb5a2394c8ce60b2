"""Every public call of the unit, of the C boundary and of the listing has a contract that says something of all of it, and asks nothing.

A call has an `ensures` and no `requires`; its `ensures` names the answer, every parameter, and every lent list or number as it is on return. The
C header declares the boundary's calls and no other. Exits 1 with a line for each fault. What a contract says of these names is the prover's to hold
and a reader's to judge.
"""

import re
import sys
from pathlib import Path

ROOT = Path(__file__).resolve().parent.parent
CRATES = 'surfgimlet', 'boundary', 'listing'
HEAD = re.compile(r'^pub (?:extern "C" )?fn (\w+)\((.*?)\)(?: -> ([^\n{]+?))?\n?(?: *(.*?))??^\{', re.M | re.S)


def calls(crate):
    """(name, parameters, type of the answer, clauses) of each public function."""
    for path in sorted((ROOT / 'crates' / crate / 'src').rglob('*.rt')):
        text = path.read_text(encoding='utf-8')
        found = HEAD.findall(text)
        assert len(found) == len(re.findall(r'^\s*pub (?:extern "C" )?fn', text, re.M)), f'{path}: a public function is not laid out as expected'
        yield from found


def parameters(text):
    """(name, type) of each parameter."""
    return re.findall(r'(\w+): ([^,]+(?:\[[^\]]*\])?)', text)


def faults(name, given, answer, clauses):
    if re.search(r'\brequires\b', clauses):
        yield 'has a requires'
    ensured = re.search(r'\bensures\b(.*)', clauses, re.S)
    if not ensured:
        yield 'has no ensures'
        return
    if answer and not re.search(r'\bresult\b', ensured[1]):
        yield 'has an ensures that says nothing of the answer'
    for parameter, kind in parameters(given):
        if not re.search(rf'\b{parameter}\b', ensured[1]):
            yield f'has an ensures that does not name {parameter}'
        elif kind.startswith('&mut') and not re.search(rf'\b{parameter}\.new\b', ensured[1]):
            yield f'has an ensures that does not say what {parameter} is on return'


def main():
    found = {crate: list(calls(crate)) for crate in CRATES}
    lines = [f'{crate}::{call[0]} {fault}' for crate in CRATES for call in found[crate] for fault in faults(*call)]
    lines += [f'{crate} has no public function' for crate in CRATES if not found[crate]]
    header = (ROOT / 'include' / 'surfgimlet.h').read_text(encoding='utf-8')
    declared = set(re.findall(r'^(?!static)[\w\s*]*?\b(surfgimlet_\w+)\([^;{]*\)[^;{]*;', header, re.M))
    exported = {call[0] for call in found['boundary']}
    lines += [f'include/surfgimlet.h and the boundary differ in {name}' for name in sorted(declared ^ exported)]
    print('\n'.join(lines) if lines else f'contracts: {sum(map(len, found.values()))} public calls, each with a whole contract; the header has the boundary\'s {len(exported)}')
    sys.exit(bool(lines))


if __name__ == '__main__':
    main()
