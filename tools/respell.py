#!/usr/bin/env python3
"""Brings the repository's own definitions and lemmas to snake case, once, after port.py has turned the rest.

    python3 tools/respell.py        at the top of the repository, on what port.py left

A word that specs/ or a file of lemmas defines is turned where it is in camel case (`halfUp`), or in dashes (`sum-next`): to `half_up` and `sum_next`. A
definition that is a statement is a type, and gets a capital. A word stays as it is where a library has it too, where a proof of a function names a step
by it (Rattle's own names have dashes), and where its new name is another word already. Every file that names a word is turned with it: code only in
clauses, ghost imports and comments, must-fail edits, and the papers where they quote a word.
"""

import re
from pathlib import Path

ROOT = Path(__file__).resolve().parent.parent
TOKEN = re.compile(r"[A-Za-z_][\w'-]*")
DEFINED = re.compile(r"(?m)^[ \t]*(?:(?:abbrev|unfoldable|pub)[ \t]+)*([a-z][\w'-]*)[ \t]*:(?=\s)")
STATEMENTS = {'lessThanOneCount', 'atMostNineCounts', 'withinThreeCounts', 'withinHalfACount', 'byAmplitudes'}
# two words that would fall together: the lemma on a definition gets the ending that std gives such a lemma
FIRST = {
    ('demands', 'all_lines'): 'all_lines_lem', ('icgem_data', 'all_lines'): 'lines_all', ('icgem_header', 'all_there'): 'all_there_lem',
    ('icgem_header', 'no_key'): 'no_key_lem', ('icgem_return', 'is_digit'): 'is_digit_lem', ('reversal', 'digits_of'): 'digits_of_lem',
    ('reversal', 'in_place'): 'in_place_lem',
}


def snake(word):
    word = re.sub(r'(?<=[a-z0-9])(?=[A-Z])|(?<=[A-Z])(?=[A-Z][a-z])', '_', word)
    return word.replace('-', '_').lower()


def in_folder(path):
    """Whether path is of the proof of one function."""
    parts = path.relative_to(ROOT / 'crates').parts
    return parts[1] == 'proofs' and len(parts) > 3


def main():
    sources = sorted((ROOT / 'crates').rglob('*.antt'))
    texts = {p: p.read_text(encoding='utf-8') for p in sources}
    code = {p: p.read_text(encoding='utf-8') for p in sorted((ROOT / 'crates').rglob('*.rt'))}

    for (crate, old), new in FIRST.items():
        for p in texts:
            if p.relative_to(ROOT / 'crates').parts[:2] == (crate, 'proofs'):
                texts[p] = TOKEN.sub(lambda m: new if m.group() == old else m.group(), texts[p])

    defined, steps, foreign, tokens = set(), set(), set(), set()
    for p, text in texts.items():
        (steps if in_folder(p) else defined).update(DEFINED.findall(text))
        tokens.update(TOKEN.findall(text))
        for module, names in re.findall(r'(?m)^use ([^\s{]+)\.\{([^}]*)\}', text):
            if not re.match(r'Rattle\.(?!std\b)', module):
                foreign.update(re.findall(r"[^\s,]+", re.sub(r'\S+ as ', '', names)))
    steps = {w for w in steps if '-' in w}
    turned = {}
    for word in sorted(defined):
        new = word[0].upper() + word[1:] if word in STATEMENTS else snake(word)
        if new == word or word in foreign or new in foreign or word in steps:
            continue
        if new in tokens and word not in STATEMENTS:
            kept = new in defined
            print(f'left: {word}: {new} is another word' if kept else f'look: {word}: {new} is named elsewhere')
            if kept:
                continue
        turned[word] = new
    for word in [w for w in turned if '-' in w and any(turned[w] == turned[v] for v in turned if v != w and ('-' not in v or v < w))]:
        print(f'left: {word}: {turned.pop(word)} is another word')

    def respell(text):
        return TOKEN.sub(lambda m: turned.get(m.group(), m.group()), text)

    for p, text in texts.items():
        p.write_text(respell(text), encoding='utf-8')
    for p, text in code.items():
        lines = [line if '"' in line else respell(line) for line in text.split('\n')]
        p.write_text('\n'.join(lines), encoding='utf-8')
    for p in sorted((ROOT / 'crates').glob('*/must-fail/*.edit')):
        text = p.read_text(encoding='utf-8')
        if re.search(r'(?m)^file: (specs|proofs)/', text):
            p.write_text(respell(text), encoding='utf-8')
    for p in [ROOT / 'README.md', *sorted((ROOT / 'docs').glob('*.md'))]:
        text = p.read_text(encoding='utf-8')
        p.write_text(re.sub(r'`[^`\n]*`', lambda m: respell(m.group()), text), encoding='utf-8')
    print(f'{len(turned)} words turned')


if __name__ == '__main__':
    main()
