#!/usr/bin/env python3
"""Compares the rows of the crate scope_tests with the definitions, as `definition.py` has them.

usage: bench/scopes/check_rows.py

Each row is a set of modules and its fault, or a set of modules and what some names find in it, and the crate's tests
compare both with what scope_core answers. Here they are compared with what the definitions give. Nothing is built. The
script prints each row that the definitions don't give, and how many rows there are, and ends with 1 where one differs.
Rows whose modules aren't all written in the row are left out.
"""

import os
import re
import sys

sys.dont_write_bytecode = True

import definition
from texts import TOP, files_of, read_name

SET = re.compile(r'^(m=.*) # ::m # (.*)$', re.MULTILINE)
LOOKS = re.compile(r'\(\s*"(m=[^"]*)",\s*"([^"]*)",?\s*\)')


def rows():
    """The rows of both tests."""
    with open(os.path.join(TOP, "crates", "scope_tests", "src", "scope_tests.rt"), encoding="utf-8") as file:
        text = file.read()
    sets, looks = text.split("fn names_that_are_looked_for")
    return SET.findall(sets), LOOKS.findall(looks)


def main():
    """Compares them."""
    sets, looks = rows()
    compared = left_out = wrong = 0
    for written, fault in sets:
        answer = definition.told(files_of(written))
        if answer is None:
            left_out += 1
            continue
        compared += 1
        if answer[0] != fault:
            wrong += 1
            print(f"{written}\n  the test wants {fault}, the definitions give {answer[0]}")
    names = 0
    for written, wanted in looks:
        fault, world, standing = definition.told(files_of(written))
        for look in wanted.split(";"):
            name, finds = look.split("=")
            given = definition.look(world, standing, 0, read_name(name)) if fault == "ok" else fault
            names += 1
            if given != finds:
                wrong += 1
                print(f"{written}: {name}\n  the test wants {finds}, the definitions give {given}")
    print(f"{compared} sets and {names} names compared, {left_out} sets left out; {wrong} differ")
    sys.exit(1 if wrong else 0)


if __name__ == "__main__":
    main()
