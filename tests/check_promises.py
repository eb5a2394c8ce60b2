"""Holds docs/PROMISES.md to the files: each name in its tables exists, and each must-fail edit is cited there; and docs/DECISIONS.md names each edit
that changes a definition and not the code.

A name stands in backquotes: `x.specs.Y`, `x.proofs.Y` and `x.specs.Y.name`; `x::f`, `x::T` of a type and `x::T::f` of a function in an `impl` of it;
`x/slip`. A bare name belongs to what stands before it in
its cell: to the module, the crate or the edit's crate named last. Where the cell names none, it is a crate or is declared in some specs file.
`..end` stands for every name with that end. Exits 1 with a line for each name that is not there and each edit that is not cited.
"""

import re
import sys
from pathlib import Path

ROOT = Path(__file__).resolve().parent.parent
CRATES = ROOT / 'crates'
WORDS = {'requires', 'ensures'}      # of the language

NAME = r"[^\s:(){}.;=]+"
DECLARED = re.compile(rf'^\s*(?:(?:unfoldable |pub )*(?:abbrev|record|data) (?:pub )?({NAME})|(?:unfoldable |pub )*({NAME}(?: {NAME})*) :\s)', re.M)
FUNCTION = re.compile(r'\bfn (\w+)')
TYPE = re.compile(r'^(?:pub )?(?:struct|enum|trait) (\w+)', re.M)


def declared(path):
    """The names that a file of definitions or laws declares."""
    return {name for found in DECLARED.findall(path.read_text(encoding='utf-8')) for name in ' '.join(found).split()}


def functions(crate):
    """The functions of a crate, its methods and types among them."""
    texts = [path.read_text(encoding='utf-8') for path in (CRATES / crate / 'src').rglob('*.rt')]
    return {name for text in texts for pattern in (FUNCTION, TYPE) for name in pattern.findall(text)}


def methods(crate, kind):
    """The functions in the blocks `impl KIND` of a crate."""
    texts = [path.read_text(encoding='utf-8') for path in (CRATES / crate / 'src').rglob('*.rt')]
    blocks = [block for text in texts for block in re.findall(rf'^impl(?:<[^>]*>)? {kind}\b[^\n]*\n(.*?)^}}', text, re.M | re.S)]
    return {name for block in blocks for name in FUNCTION.findall(block)}


def edits():
    return {f'{path.parts[-3]}/{path.stem}' for path in CRATES.glob('*/must-fail/*.edit')}


def of_a_definition():
    """The edits that change no file of the code."""
    for path in sorted(CRATES.glob('*/must-fail/*.edit')):
        if not re.search(r'^file: src/', path.read_text(encoding='utf-8'), re.M):
            yield f'{path.parts[-3]}/{path.stem}'


def module(name):
    """The file of x.specs.Y.., and what is left of the name after it; None where no file has it."""
    parts = name.split('.')
    for end in (len(parts), len(parts) - 1):
        path = CRATES.joinpath(*parts[:end])
        if path.with_suffix('.antt').is_file():
            return path.with_suffix('.antt'), parts[end:]
        if end == len(parts) and path.is_dir():
            return path, []
    return None


class Cell:
    """Resolves the names of one cell in their order."""

    def __init__(self, everything, all_edits):
        self.everything, self.all_edits = everything, all_edits
        self.names, self.crate, self.edit_crate, self.cited = None, None, None, set()

    def found(self, name):
        if name in WORDS:
            return True
        if name.startswith('..'):
            return any(other.endswith(name[2:]) for other in self.everything)
        if re.fullmatch(r'\w+/\w+', name):
            self.edit_crate = name.split('/')[0]
            self.cited.add(name)
            return name in self.all_edits
        if re.fullmatch(r'\w+(::\w+){1,2}', name):
            crate, *parts = name.split('::')
            self.crate = crate
            if not (CRATES / crate).is_dir() or parts[0] not in functions(crate):
                return False
            return len(parts) == 1 or parts[1] in methods(crate, parts[0])
        if re.match(r'\w+\.(specs|proofs)\b', name):
            there = module(name)
            if there is None:
                return False
            path, rest = there
            self.names = declared(path) if path.is_file() else set().union(*map(declared, path.rglob('*.antt')))
            return all(part in self.names for part in rest)
        return self.bare(name)

    def bare(self, name):
        edit = f'{self.edit_crate}/{name}'
        if edit in self.all_edits:
            self.cited.add(edit)
            return True
        if self.edit_crate:
            return False
        if self.names is None and self.crate is None:
            return (CRATES / name).is_dir() or name in self.everything
        return (name in (self.names or ()) or self.crate is not None and name in functions(self.crate) or (CRATES / name).is_dir())


def main():
    text = (ROOT / 'docs' / 'PROMISES.md').read_text(encoding='utf-8')
    everything = set().union(*map(declared, [*CRATES.glob('*/specs/**/*.antt'), *CRATES.glob('*/proofs/*.antt')]))
    all_edits, cited, faults, names = edits(), set(), [], 0
    for number, line in enumerate(text.splitlines(), 1):
        if not line.startswith('|'):
            continue
        for text_of_cell in line.split('|'):
            cell = Cell(everything, all_edits)
            for name in re.findall(r'`([^`]+)`', text_of_cell):
                names += 1
                if not cell.found(name):
                    faults.append(f'docs/PROMISES.md:{number}: `{name}` is not in the files')
            cited |= cell.cited
    faults += [f'crates/{edit.replace("/", "/must-fail/")}.edit is not cited in docs/PROMISES.md' for edit in sorted(all_edits - cited)]
    told = set(re.findall(r'`(?:\w+/)?(\w+)`', (ROOT / 'docs' / 'DECISIONS.md').read_text(encoding='utf-8')))
    faults += [f'docs/DECISIONS.md does not name `{edit}`, which changes a definition' for edit in of_a_definition() if edit.split('/')[1] not in told]
    if names == 0:
        faults.append('docs/PROMISES.md has no table with names')
    print('\n'.join(faults) if faults else f'promises: {names} names exist, {len(all_edits)} edits are cited')
    sys.exit(bool(faults))


if __name__ == '__main__':
    main()
