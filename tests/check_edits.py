"""Reads what `rt ci` or `rt must-fail` said of each must-fail edit, and says which were not refused at a fact.

    rt ci 2>&1 | tee said; python3 tests/check_edits.py said [CRATE..]

The toolchain counts an edit as refused where the crate is no longer proved, whatever the reason. It shows something only where a fact no longer
holds: what the prover refuses first is no unknown name, no error in a file of definitions, and nothing that a proof names of the code's old shape.
Exits 1 with a line for each edit that shows nothing or of which nothing is said. It also names the edits that show less: refused first in a file of
laws, or only by a limit of the prover.
"""

import re
import sys
from pathlib import Path

ROOT = Path(__file__).resolve().parent.parent
TOLD = re.compile(r'^rt: must-fail (\w+)/([\w.-]+)\.edit: (.*)')
REFUSED = 'refused, as it must be'
FIRST = re.compile(r'^(?:note: )?(?:\./)?(\S+?):\d+:\d+: (?:error(?:\[[\w-]+\])?: )?(.*)')
OPEN = 'it is not proved that', '`search` found no proof'     # of a goal of the code
SHAPE = {
    'only because a proof file names what the edit took away': 'the proof names what the code no longer has',
    'that can be named from here': 'the proof names what the code no longer has',
    'is not in scope': 'an unknown name',
    'exports no such name': 'an unknown name',
}


def folders(edit):
    """Which of src, specs and proofs the edit changes."""
    return {line[6:].split('/')[0] for line in edit.read_text(encoding='utf-8').splitlines() if line.startswith('file: ')}


def judged(edit, told):
    """Why the edit shows nothing, or None; and why it shows little, or None."""
    if told is None:
        return 'nothing is said of it', None
    if not told.startswith(REFUSED):
        return told[:160], None
    if 'proofs' in folders(edit):
        return 'it changes a proof', None
    fault = next((why for words, why in SHAPE.items() if words in told), None)
    if fault:
        return f'{fault}: {told[len(REFUSED):160]}', None
    if 'only by a limit of the prover' in told:
        return None, 'only by a limit of the prover'
    first = FIRST.match(told[len(REFUSED) + 2:])
    if not first:
        return 'nothing is named that was refused', None
    path = Path(first[1])
    if path.parts[0] != 'proofs' and not any(words in first[2] for words in OPEN):
        return f'an error in {path}, not at a fact: {first[2][:100]}', None
    return None, 'in a file of laws' if path.parent == Path('proofs') else None


def main():
    said = dict(((crate, name), text) for crate, name, text in map(re.Match.groups, filter(None, map(TOLD.match, Path(sys.argv[1]).read_text(encoding='utf-8', errors='replace').splitlines()))))
    edits = sorted((ROOT / 'crates').glob('*/must-fail/*.edit'))
    wanted = set(sys.argv[2:])               # crates; all where none is named
    edits = [edit for edit in edits if not wanted or edit.parts[-3] in wanted]
    faults, little = [], {}
    for edit in edits:
        name = edit.parts[-3], edit.stem
        fault, less = judged(edit, said.get(name))
        if fault:
            faults.append(f'{"/".join(name)}: {fault}')
        elif less:
            little.setdefault(less, []).append('/'.join(name))
    print('\n'.join(faults) if faults else f'edits: all {len(edits)} are refused at a fact')
    for less, names in little.items():
        print(f'  of these first refused {less}: {", ".join(names)}')
    code = sum('src' in folders(edit) for edit in edits)
    print(f'  {code} change the code, {len(edits) - code} a definition or a stated value alone')
    sys.exit(bool(faults) or not edits)


if __name__ == '__main__':
    main()
