#!/usr/bin/env python3
"""Runs `check` of the built program on modules with many declarations, and prints wall time,
processor time and peak memory. Tests nothing but the answers.

usage: bench/declarations.py [PROGRAM]      (PROGRAM is crates/mdl_cli/out/mdl_cli where it isn't given)
"""

import sys

sys.dont_write_bytecode = True

from packages import ok, refused, show_all

SIZES = (12500, 25000, 50000, 100000)
PARTS = 4
OTHERS = (250, 500, 1000, 2000)
FEWER = (1250, 2500, 5000, 10000)


def put(root, name, lines):
    """The module of this name in the package without a name."""
    with open(f"{root}/{name}.mdl", "w", encoding="utf-8") as file:
        file.write("mdl 1.6;\n")
        file.writelines(f"{line}\n" for line in lines)


def alone(root, lines):
    """A module that imports none."""
    put(root, "m", lines)
    return [root, "::m"], ok(1)


# ---- the shapes. Each makes modules under a root, and gives the words behind `check` and what is wanted

def functions(root, count):
    return alone(root, (f"int f{own}(int a)=a;" for own in range(count)))


def overloads(root, count):
    """Functions of one name, whose types of parameters differ."""
    return alone(root, (f"int f(int[{own + 1}] a)=0;" for own in range(count)))


def prototypes(root, count):
    """Prototypes, and behind all of them their definitions."""
    return alone(root, [f"int f{own}(int a){end}" for end in (";", "=a;") for own in range(count // 2)])


def overloaded_prototypes(root, count):
    return alone(root, [f"int f(int[{own + 1}] a){end}" for end in (";", "=0;") for own in range(count // 2)])


def variants(root, count):
    """Each is a variant of the one behind it."""
    return alone(root, [*(f"int f{own}(*)=f{own + 1}();" for own in range(count - 1)), f"int f{count - 1}(int a)=a;"])


def types(root, count):
    """Structs, and functions that take one each."""
    half = count // 2
    return alone(root, [*(f"struct t{own}{{int a;}};" for own in range(half)),
                        *(f"int f(t{own} a)=0;" for own in range(half))])


def values(root, count):
    return alone(root, ["enum e{", ",".join(f"v{own}" for own in range(count)), "};"])


def fields(root, count):
    return alone(root, ["struct s{", *(f"int a{own};" for own in range(count)), "};"])


def repeated(root, count):
    """The last one has the name of the first."""
    put(root, "m", [*(f"int f{own}(int a)=a;" for own in range(count - 1)), "int f0(int a)=a;"])
    return [root, "::m"], refused(f"30 Twice ::m {count + 1}:5")


def listed(root, count):
    """All that other modules have is imported by name, and used as a base."""
    for part in range(PARTS):
        put(root, f"q{part}", (f"export int f{own}(int a)=a;" for own in range(part, count // 2, PARTS)))
    put(root, "m", [*(f"using ::q{part} import {','.join(f'f{own}' for own in range(part, count // 2, PARTS))};"
                      for part in range(PARTS)),
                    *(f"int g{own}(*)=f{own}();" for own in range(count // 2))])
    return [root, "::m"], ok(PARTS + 1)


def based_on_overloads(root, count):
    """Variants whose base's name has as many overloads. So none has a base."""
    half = count // 2
    return alone(root, [*(f"int f(int[{own + 1}] a)=0;" for own in range(half)),
                        *(f"int g{own}(*)=f();" for own in range(half))])


def imported_overloads(root, count):
    """A name of many overloads is imported as often."""
    put(root, "q", (f"export int f(int[{own + 1}] a)=0;" for own in range(count // 2)))
    put(root, "m", ["import ::q::f;"] * (count // 2))
    return [root, "::m"], ok(2)


def from_many(root, count):
    """A type of each of the modules that one brings whole is used there."""
    for other in range(count):
        put(root, f"q{other}", [f"export struct t{other}{{int a;}};"])
    put(root, "m", [*(f"using ::q{other} import *;" for other in range(count)),
                    *(f"int f(t{other} a)=0;" for other in range(count))])
    return [root, "::m"], ok(count + 1)


def named_as_overloads(root, count):
    """Parameters whose type has the name of as many functions. So it is none, which is no fault yet."""
    half = count // 2
    return alone(root, [*(f"int f(int[{own + 1}] a)=0;" for own in range(half)),
                        *(f"int g{own}(f a)=0;" for own in range(half))])


SHAPES = (
    ("functions", functions, SIZES),
    ("overloads", overloads, SIZES),
    ("prototypes", prototypes, SIZES),
    ("those of overloads", overloaded_prototypes, SIZES),
    ("a chain of variants", variants, SIZES),
    ("types", types, SIZES),
    ("values of an enum", values, SIZES),
    ("fields", fields, SIZES),
    ("the last one repeated", repeated, SIZES),
    ("imported one by one", listed, SIZES),
    ("bases of one name", based_on_overloads, SIZES),
    ("one name, imported", imported_overloads, SIZES),
    ("types of many modules", from_many, OTHERS),
    ("overloads as types", named_as_overloads, FEWER),
)


def main():
    show_all("declarations", SHAPES)


if __name__ == "__main__":
    main()
