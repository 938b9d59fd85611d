#!/usr/bin/env python3
"""Runs the built parser of modules on made inputs, and prints processor time and peak memory.

usage: bench/grammar/speed_modules.py [PROGRAM]

PROGRAM is what `reader.py` makes. Where it isn't given, it is made in a temporary folder. Tests nothing but the
answers. Beside the time of lexing and parsing stands that of lexing alone.
"""

import sys

sys.dont_write_bytecode = True

import speed

FRONT = "mdl 1.6;\n"
FUNCTION = ("export float shade_{:05}(float x, float y = 1.5, uniform color tint = color(0.5)) varying\n"
            "    = math::lerp(x * y + 0.25, base::gray(tint, gain: 2.0) - y / 2.0, x < y ? 0.5 : -x) * (1.0 - x * x)"
            " - tint.r * .5;\n")


def inputs():
    """For each input what speed.py wants: of the two sizes one is below 1 MB, and one below 4 MB."""
    yield "functions", (FRONT, FUNCTION, "", ""), (5000, 20000), "tree"
    yield "fields of a struct", (FRONT + "struct s {", "float f{:06} = 1.;", "\n", "};"), (50000, 200000), "tree"
    yield "values of an enum", (FRONT + "enum e {", "v{:07}", ",\n", "};"), (100000, 400000), "tree"
    yield "arguments", (FRONT + "material m() = f(", "a{:06}", ",", ");"), (131000, 524000), "tree"


if __name__ == "__main__":
    speed.run(["time-module", "words"], inputs())
