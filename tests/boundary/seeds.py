"""Writes good gravity field files, each as its length and its bytes, for files.c to change: `python3 seeds.py > FILE`."""

import sys
from pathlib import Path

sys.path.insert(0, str(Path(__file__).resolve().parents[2] / 'second'))
import field_files as ff
from chance import Chance

chance = Chance(19960701)


def seeds():
    """Every style at small degrees, some of them with places missing, and once at a large one; and files of any decimals in any form."""
    for style in (*ff.PUBLISHED, ff.BARE):
        for top in (4, 5, 6, 8):
            yield ff.published(chance, style, top, chance.one(0, 3))
        yield ff.published(chance, style, 38)
    for _ in range(60):
        yield ff.fitting(chance, ff.free_sketch(chance))


for case in seeds():
    print(len(case.data), case.data.hex())
