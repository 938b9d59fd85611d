#!/usr/bin/env python3
"""Runs `check` of the built program on made packages, and prints wall time, processor time and peak memory. Tests
nothing but the answers.

usage: bench/packages.py [PROGRAM]      (PROGRAM is crates/mdl_cli/out/mdl_cli where it isn't given)
"""

import os
import sys
import tempfile

sys.dont_write_bytecode = True

from program import TOP
from run import DONE, MB, REFUSED, RUNS, best, built, least, run_once

EXAMPLE = os.path.join(TOP, "examples", "shop")
EMBEDDED = ("::df", "::state", "::math", "::tex", "::anno")
# A closure has 4,096 modules at most.
SIZES = (511, 1023, 2047, 4095)
OTHERS = (500, 1000, 2000, 4000)
MOST_ROOTS = 64
IN_A_PACKAGE = 16


def put(root, name, imports=()):
    """A small module of this absolute name, with these imports, each on a line of its own."""
    path = f"{root}{name.replace('::', '/')}.mdl"
    os.makedirs(os.path.dirname(path), exist_ok=True)
    with open(path, "w", encoding="utf-8") as file:
        file.write("mdl 1.6;\n")
        file.writelines(f"{line}\n" for line in imports)
        file.write("export float f() = 1.0;\n")


def ok(count):
    """The answer where so many modules are in order."""
    return DONE, f"ok {count}\n", ""


def refused(line):
    """The answer where the modules are refused."""
    return REFUSED, "", f"error {line}\n"


# ---- the shapes. Each makes modules under a root, and gives the words behind `check` and what is wanted

def chain(root, count):
    for own in range(count):
        put(root, f"::m{own}", [f"import ::m{own + 1}::*;"] if own + 1 < count else [])
    return [root, "::m0"], ok(count)


def star(root, count):
    put(root, "::m", [f"import ::m{other}::*;" for other in range(count - 1)])
    for other in range(count - 1):
        put(root, f"::m{other}")
    return [root, "::m"], ok(count)


def twice(root, others):
    put(root, "::m", [line for form in ("import ::m{}::*;", "using ::m{} import f;")
                      for line in map(form.format, range(others))])
    for other in range(others):
        put(root, f"::m{other}")
    return [root, "::m"], ok(others + 1)


def named(root, count):
    names = [f"::m{own}" for own in range(count)]
    for name in names:
        put(root, name)
    return [root, *names], ok(count)


def cycle(root, count):
    for own in range(count):
        put(root, f"::m{own}", [f"import ::m{own + 1 if own + 1 < count else count - 3}::*;"])
    return [root, "::m0"], refused(f"13 Cycle ::m{count - 3} ::m{count - 2} ::m{count - 1}")


def nested(root, count):
    """Each package has sixteen modules and the next package. Names have no mark, so each means a sibling."""
    package = ""
    for own in range(count):
        place = own % IN_A_PACKAGE
        following = f"m{place + 1}" if place + 1 < IN_A_PACKAGE else "p::m0"
        put(root, f"{package}::m{place}", [f"import {following}::*;"] if own + 1 < count else [])
        package += "::p" if place + 1 == IN_A_PACKAGE else ""
    return [root, "::m0"], ok(count)


def under_many_roots(root, count):
    """The last root has the files, and the others aren't there."""
    words, wanted = chain(root, count)
    absent = [os.path.join(root, f"r{other}") for other in range(MOST_ROOTS - 1)]
    return [":".join([*absent, root]), *words[1:]], wanted


SHAPES = (
    ("a chain", chain, SIZES),
    ("one that imports all", star, SIZES),
    ("one that does so twice", twice, OTHERS),
    ("all named, no imports", named, SIZES),
    ("a chain into a cycle", cycle, SIZES),
    ("siblings, nested", nested, SIZES),
    ("a chain under 64 roots", under_many_roots, SIZES),
)


def answer(argv, folder):
    """What one run answers, as its exit number and its two outputs, and then the run."""
    with open(os.path.join(folder, "out"), "w+b") as out, open(os.path.join(folder, "diag"), "w+b") as diag:
        run = run_once(argv, out.fileno(), diag.fileno())
        texts = []
        for file in (out, diag):
            file.seek(0)
            texts.append(file.read().decode("utf-8", "backslashreplace"))
    return (run.number, *texts), run


def shortened(text):
    return text if len(text) < 200 else f"{text[:200]}.. ({len(text)} characters)"


def difference(name, wanted, got):
    return f"{name}: wanted {shortened(repr(wanted))}, got {shortened(repr(got))}"


def measure(name, argv, wanted, folder, wrong):
    """The least times and the least peak of some runs. Each has to answer what is wanted."""
    runs = [answer(argv, folder) for _ in range(RUNS)]
    wrong.extend(sorted({difference(name, wanted, got) for got, _ in runs if got != wanted}))
    return least([run for _, run in runs])


def show(name, count, measured, growth=""):
    print(f"{name:24} {count:>7} {measured.wall * 1000:>10.2f} {measured.processor * 1000:>10.2f}"
          f" {measured.peak / MB:>9.1f}  {growth}", flush=True)


def show_floor(folder):
    with open(os.path.join(folder, "out"), "wb") as out:
        show("/bin/true (the floor)", 0, best(["/bin/true"], out.fileno()))


def measure_shapes(program, shapes, folder, wrong):
    """Each shape in each of its sizes, with the growth from one size to the next."""
    for name, make, sizes in shapes:
        before = None
        for size in sizes:
            with tempfile.TemporaryDirectory(dir=folder) as root:
                words, wanted = make(root, size)
                measured = measure(f"{name}, {size}", [program, "check", *words], wanted, folder, wrong)
            growth = "" if before is None else \
                f"{measured.processor / before.processor:.1f} times the processor time," \
                f" {measured.peak / before.peak:.1f} times the peak"
            show(name, size, measured, growth)
            before = measured


def show_all(head, shapes, known=()):
    """The table of these shapes, behind that of packages whose words and number of modules are known."""
    program = built()
    wrong = []
    with tempfile.TemporaryDirectory(prefix="mdl-packages-") as folder:
        print(f"{head:24} {'count':>7} {'ms':>10} {'cpu ms':>10} {'peak MB':>9}  (best of {RUNS} runs)")
        show_floor(folder)
        for name, words, count in known:
            show(name, count, measure(name, [program, "check", *words], ok(count), folder, wrong))
        measure_shapes(program, shapes, folder, wrong)
        show_floor(folder)
    if wrong:
        sys.exit("other answers than wanted:\n" + "\n".join(wrong))


def main():
    show_all("modules", SHAPES, (
        ("the example", [EXAMPLE, "::shop::paint"], 4),
        ("the embedded ones", [EXAMPLE, *EMBEDDED], len(EMBEDDED)),
    ))


if __name__ == "__main__":
    main()
