#!/usr/bin/env python3
"""Makes the program of bench/grammar/reader.txt around the parsers of expressions and modules, and prints its path.

usage: bench/grammar/reader.py FOLDER

The folder is empty, or isn't there yet. The scripts that compare and measure take the program, and make one where none
is given.
"""

import os
import sys

sys.dont_write_bytecode = True

HERE = os.path.dirname(os.path.abspath(__file__))
sys.path.insert(0, os.path.dirname(HERE))

import program

CRATES = ("case_table", "mdl_lexer", "mdl_syntax", "expression_grammar", "module_grammar", "mdl_grammar")
# by the crate and the module that have them, the parser within any height, and the one that is public
PARSERS = (("expression_grammar", "parse", "parse_within", "parse_expr"),
           ("mdl_grammar", "modules", "parse_module_within", "parse_module"))


def build(folder):
    """The program, from copies of the crates in which the parsers within any height are public."""
    program.copy_crates(folder, CRATES)
    for crate, module, within, parser in PARSERS:
        program.edit(folder, f"{crate}/src/{module}.rt", f"\nfn {within}(", f"\npub fn {within}(")
        program.edit(folder, f"{crate}/src/lib.rt", f"pub use {module}::{parser};",
                     f"pub use {module}::{{{parser}, {within}}};")
    main, *modules = (os.path.join(HERE, f"{name}.txt") for name in ("reader", "told_expressions", "told_modules"))
    return program.build(folder, "grammar_reader", [*reversed(CRATES)], main,
                         modules)


def main():
    """Makes it in the folder that is given."""
    if len(sys.argv) != 2:
        sys.exit("usage: bench/grammar/reader.py FOLDER")
    os.makedirs(sys.argv[1], exist_ok=True)
    print(build(sys.argv[1]))


if __name__ == "__main__":
    main()
