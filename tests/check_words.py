"""A refusal's words and each call's order of refusals stand in README's tables; header, Fortran module and Python module must have the same."""
import pathlib
import re
import sys

ROOT = pathlib.Path(__file__).resolve().parent.parent


def read(name):
    return (ROOT / name).read_text(encoding='utf-8')


def in_readme():
    table = read('README.md').partition('| No. | Refused because |')[2].partition('\n\n')[0]
    return {int(number): words for number, words in re.findall(r'^\| (\d+) \| (.+?) \|', table, re.M)}


def in_header():
    text = read('include/surfgimlet.h')
    numbers = {name: int(number) for name, number in re.findall(r'#define (SURFGIMLET_\w+) (\d+)u\b', text)}
    return {numbers[name]: words for name, words in re.findall(r'case (SURFGIMLET_\w+): return "(.*)";', text)}


def in_fortran():
    return {int(number): words for number, words in re.findall(r'case \((\d+)\); words = "(.*)"', read('bindings/surfgimlet.f90'))}


def in_python():
    return {int(number): words for number, words in re.findall(r'^    (\d+): "(.*)",$', read('bindings/surfgimlet.py'), re.M)}


def orders():
    """(call, README's order, the header's) of each call; the header has 100 first where a call takes a choice."""
    table = dict(re.findall(r'^\| `(\w+)` \|.*\| ([^|]*) \|$', read('README.md').partition('| Call | Given |')[2].partition('\n\n')[0], re.M))
    header = dict((call, order) for order, call in re.findall(r'Refused: ([^*]*?) \*/\nSURFGIMLET_ANSWER \w+ surfgimlet_(\w+)', read('include/surfgimlet.h')))
    for call in sorted(table.keys() | header.keys()):
        in_table, in_header = (re.findall(r'\d+', order.get(call, '')) for order in (table, header))
        yield call, in_table, in_header[1:] if in_header[:1] == ['100'] else in_header


def main():
    wanted = {0: 'accepted', **in_readme()}
    faults = [] if len(wanted) > 1 else ['README.md: its table of refusals is not found']
    for name, words in (('include/surfgimlet.h', in_header()), ('bindings/surfgimlet.f90', in_fortran()), ('bindings/surfgimlet.py', in_python())):
        for number in sorted(wanted.keys() | words.keys()):
            if wanted.get(number) != words.get(number):
                faults.append(f'{name}: {number} is "{words.get(number)}", in README.md "{wanted.get(number)}"')
    faults += [f'{call}: README.md has the order {ours}, the header {theirs}' for call, ours, theirs in orders() if ours != theirs]
    print('\n'.join(faults) or f'words: {len(wanted)} answers and the order of each call, the same in README, header, Fortran and Python')
    return bool(faults)


if __name__ == '__main__':
    sys.exit(main())
