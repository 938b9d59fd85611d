#!/usr/bin/env python3
"""Compares the built parser of modules with a search that is written straight from its definition.

usage: bench/grammar/compare_modules.py [COUNT] [SEED] [PROGRAM]      (100,000 texts and seed 1 where they aren't given)

PROGRAM is what `reader.py` makes. Where it isn't given, it is made in a temporary folder. The texts come from
`module_texts.py`, each within a height of 1 to 4. The program answers all of them at once, and
`definition_of_modules.py` each by itself.
"""

import multiprocessing
import random
import sys

sys.dont_write_bytecode = True

import compare
import definition_of_modules
import module_texts

FORMS_LEFT_OUT = ("deferred-size", "string-name", "re-export", "alias")


def case(place_and_seed):
    """The text of this number."""
    place, seed = place_and_seed
    return module_texts.case(random.Random(f"{seed} {place}"), place)


def cases(count, seed):
    """So many texts. A search goes along with the making of some, so they are made side by side."""
    with multiprocessing.Pool() as pool:
        return pool.map(case, [(place, seed) for place in range(count)], 500)


def kind_of(told, _):
    """Under which name an answer is counted."""
    kind, *more = told.split(" ")
    if kind == "left":
        return f"left out {more[1]}" if more[1] in FORMS_LEFT_OUT else "left-out word"
    return kind


if __name__ == "__main__":
    compare.run("modules", cases, definition_of_modules.readings, kind_of)
