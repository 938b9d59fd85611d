#!/usr/bin/env python3
"""Runs `check` of the built program on the modules of speed_modules.py, and prints wall time, processor time and peak
memory. Tests nothing but the answers.

usage: bench/grammar/check_modules.py [PROGRAM]      (PROGRAM is crates/mdl_cli/out/mdl_cli where it isn't given)
"""

import sys

sys.dont_write_bytecode = True

import speed
import speed_modules
from packages import ok, show_all


def shape(text):
    """Makes the module of so many pieces."""
    def make(root, count):
        speed.make(f"{root}/m.mdl", text, count)
        return [root, "::m"], ok(1)
    return make


if __name__ == "__main__":
    show_all("pieces", [(name, shape(text), counts) for name, text, counts, _ in speed_modules.inputs()])
