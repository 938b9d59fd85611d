"""Random sets of modules, with names that are looked for in the first, and what the definitions give for them.

Names are few, so that they meet: overloads, prototypes beside definitions, variants of variants and in circles, types
that find several things, and imports of one name in several ways are common.
"""

import collections
import random

import definition
from texts import VERSION, read_name

NAMES = ["f", "g", "h", "T"]
LOOKED_FOR = NAMES + ["S", "x", "E", "k", "q::f", "::q::T", "r::f", "::m::f", "m::g", "::r::f", "q::x"]
MODULES = ["m", "q", "r", "s"]
# of all sets with one kind of fault
MOST_OF_A_KIND = 0.25
MOST_LOOKS = 7


def one_of(rng, *made):
    """One of these, each with its weight before it."""
    return rng.choices(made[1::2], made[::2])[0]


def random_type(rng, modules):
    """A type, in one of nine cases an array."""
    name = one_of(rng,
                  45, rng.choice(["float", "int"]),
                  35, rng.choice(["T", "S", "f", "material_surface"]),
                  20, rng.choice(["::{}::T", "{}::T", "::{}::f"]).format(rng.choice(modules)))
    return name + one_of(rng, 8, "", 1, "[2]")


def random_parameters(rng, modules, is_prototype=False):
    """None to two parameters, now and then of one name. In a prototype sizes may be deferred."""
    made = []
    for place in range(rng.choice([0, 0, 1, 1, 1, 2])):
        ty = random_type(rng, modules)
        if is_prototype and rng.random() < 0.15:
            ty = ty.split("[")[0] + "[<n>]"
        made.append(f"{ty} {'a' if rng.random() < 0.04 else 'ab'[place]}")
    return ", ".join(made)


def random_base(rng, modules):
    """The base of a variant."""
    module = rng.choice(modules)
    return rng.choice(NAMES + [f"::{module}::{rng.choice(NAMES)}", f"{module}::f", "material_surface", "S"])


def random_declaration(rng, modules):
    """A declaration, mostly a prototype, a function or a variant of one."""
    name = rng.choice(NAMES)
    return one_of(rng, 55, "export ", 45, "") + one_of(
        rng,
        30, f"float {name}({random_parameters(rng, modules, True)});",
        20, f"float {name}({random_parameters(rng, modules)}) = 1.0;",
        25, f"float {name}(*) = {random_base(rng, modules)}();",
        7, f"struct {rng.choice(['T', 'S', 'S', name])} {{ {rng.choice(['', '', 'float a;', 'int a;'])} }};",
        6, f"enum {rng.choice(['E', 'T'])} {{ {rng.choice(['x', 'x, y', 'f', 'g, x'])} }};",
        5, f"annotation {rng.choice(['k', 'f', 'k'])}({rng.choice(['', 'int a', 'float a'])});",
        4, f"material {rng.choice(['w', name])}({rng.choice(['', 'int a'])}) = material();",
        3, f"material {rng.choice(['w', name])}(*) = material();")


def random_import(rng, module):
    """An import of a module, in any form."""
    reference = rng.choice(["::", "", ".::"]) + module
    name = rng.choice(NAMES + ["S", "E", "x", "k"])
    return one_of(rng,
                  30, f"import {reference}::*;",
                  15, f"import {reference}::{name};",
                  30, f"using {reference} import *;",
                  20, f"using {reference} import {name};",
                  5, f"using {reference} import {name}, {rng.choice(NAMES)};")


def random_files(rng):
    """One to four modules, by their names; each imports some of those behind it."""
    modules = MODULES[:rng.choice([1, 2, 3, 3, 4])]
    files = {}
    for place, name in enumerate(modules):
        later = modules[place + 1:]
        imports = [random_import(rng, rng.choice(later)) for _ in range(rng.choice([0, 1, 2, 2, 3]))] if later else []
        if place == 0 and later and not imports:
            imports = [f"using ::{later[0]} import *;"]
        files[name] = " ".join(imports + [random_declaration(rng, modules) for _ in range(rng.randrange(1, 6))])
    return files


def random_sets(count, seed):
    """So many sets: the modules as a test writes them, the fault or `ok`, and names with what they find."""
    rng = random.Random(seed)
    made = []
    kinds = collections.Counter()
    while len(made) < count:
        files = random_files(rng)
        answer = definition.told({(name,): f"{VERSION}{text}\n" for name, text in files.items()})
        if answer is None:
            continue
        fault, world, standing = answer
        kind = fault.split(" ")[0]
        if kind != "ok" and kinds[kind] >= count * MOST_OF_A_KIND:
            continue
        kinds[kind] += 1
        looks = []
        if fault == "ok":
            looks = [(name, definition.look(world, standing, 0, read_name(name)))
                     for name in rng.sample(LOOKED_FOR, MOST_LOOKS)]
        made.append(("|".join(f"{name}={text}" for name, text in files.items()), fault, looks))
    return made
