"""What the papers say, held to the repository: the files they name, README's floors, the version; and the tables of docs/RULES.md, held to
second/tides.py."""
import pathlib
import re
import sys

ROOT = pathlib.Path(__file__).resolve().parent.parent
sys.path.insert(0, str(ROOT / 'second'))
sys.dont_write_bytecode = True
import tides  # noqa: E402

NAMED = re.compile(r'(?<![\w/.*-])(?:crates(?!/x/)|docs|include|bindings|examples|second|tests|bench|\.ci)/[\w/.-]*\w')


def read(name):
    return (ROOT / name).read_text(encoding='utf-8')


def files():
    papers = ['README.md', *(f'docs/{path.name}' for path in sorted((ROOT / 'docs').glob('*.md'))), 'include/surfgimlet.h']
    for paper in papers:
        for name in sorted(set(NAMED.findall(read(paper)))):
            if not (ROOT / name).exists():
                yield f'{paper} names {name}, which is not there'


def floors():
    table = read('README.md').partition('| Floor | Crates |')[2].partition('\n\n')[0]
    at = {crate: floor for floor, row in enumerate(table.splitlines()) for crate in re.findall(r'`(\w+)`', row)}
    needs = dict(re.findall(r'^(\w+)(?: staticlib)?:(.*)$', read('crates.txt'), re.M))
    for crate in sorted(at.keys() ^ needs.keys()):
        yield f'README.md, crates.txt: {crate} stands in one of them only'
    for crate, below in needs.items():
        for other in below.split():
            if at.get(other, 0) > at.get(crate, 0):
                yield f'README.md has {other} below {crate}, which needs it'


def lines():
    printed = re.findall(r'(\d+),(\d{3}) (-?\d+)(?:/(-?\d+))?(?=;| \|)', read('docs/RULES.md'))
    if [(int(a + b), int(first), int(second or first)) for a, b, first, second in printed] != list(tides.PRINTED):
        yield 'docs/RULES.md: its lines are not the 49 of second/tides.py'
    major = re.search(r'at least ten tenths in\s+absolute\s+value: ([\d,;\s]+)\.', read('docs/RULES.md'))
    wanted = [tides.PRINTED[i][0] for i in tides.named_lines(tides.MAJOR_LINES)]
    if not major or [int(number.replace(',', '')) for number in major[1].split(';')] != wanted:
        yield 'docs/RULES.md: its lines of at least ten tenths are not those of second/tides.py'


def constants():
    text = read('docs/RULES.md')
    for love in (tides.ELASTIC, tides.ANELASTIC):
        row = re.search(rf'^\| {love} \|(.*)\|$', text, re.M)[1]
        degree_2, degree_3 = ([part for m in range(n + 1) for part in tides.K[love][n, m] if part] for n in (2, 3))
        wanted = [*map(abs, degree_2), *tides.K_PLUS[love], *(degree_3 if love == tides.ELASTIC else ())]
        if [float(number) for number in re.findall(r'-?0\.\d+', row)] != wanted:
            yield f'docs/RULES.md: its {love} Love numbers are not those of second/tides.py'
    parts = [number for row in re.findall(r'^\| (?:zero|mean)-tide less .*$', text, re.M) for number in re.findall(r'-\d{7,}', row)]
    if [int(number) for number in parts] != [*tides.PERMANENT.values(), tides.MEAN_OVER_ZERO, tides.MEAN_OVER_ZERO]:
        yield 'docs/RULES.md: its permanent parts are not those of second/tides.py'
    if f'R = {tides.RADIUS} m' not in text:
        yield 'docs/RULES.md: its R is not that of second/tides.py'


def version():
    number = int(re.search(r'#define SURFGIMLET_VERSION (\d+)\n', read('include/surfgimlet.h'))[1])
    words = f'{number // 1000000}.{number // 1000 % 1000}.{number % 1000}'
    newest = re.search(r'^## (\S+)', read('docs/CHANGES.md'), re.M)[1]
    if newest != words:
        yield f'docs/CHANGES.md begins with {newest}, the header has {words}'


def main():
    faults = [*files(), *floors(), *lines(), *constants(), *version()]
    print('\n'.join(faults) or 'papers: the files, floors, tables and version they name are right')
    return bool(faults)


if __name__ == '__main__':
    sys.exit(main())
