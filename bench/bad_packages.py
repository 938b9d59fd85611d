#!/usr/bin/env python3
"""Runs the built program on bad packages and bad command lines, and compares what it answers with what is wanted: the
exit number, nothing on the standard output, and one line on the standard error, letter by letter. A few packages that
are just in order stand beside those that just aren't.

usage: bench/bad_packages.py [PROGRAM]      (PROGRAM is crates/mdl_cli/out/mdl_cli where it isn't given)
"""

import os
import random
import re
import sys
import tempfile

sys.dont_write_bytecode = True

from fuzz_lexer import MARKS, RESERVED, table
from packages import EXAMPLE, answer, difference, ok, put, refused
from run import REFUSED, built

SEED = 1
RANDOM_FILES = 1000
MOST_MODULE = 4194304
MOST_MODULES = 4096
LONGEST_CYCLE = 50
DEEPEST = 10
READ_FAULT = (3, "", "error 2 ReadFault\n")
USAGE = (2, "", "error 1 Usage\n")

# The lines that a text alone can have, save for that of bytes that aren't UTF-8.
LEFT_OUT = sorted([*table("reserved_left_out"), *table("marks_left_out"),
                   "string-name", "re-export", "alias", "deferred-size"])
LINE = re.compile(
    r"error (15 BadToken|16 IntRange|17 BadSyntax|18 TooDeep|19 StatementBody|20 LeftOut|21 Version) "
    rf"(\S+) ([1-9][0-9]*):([1-9][0-9]*)( (?:{'|'.join(map(re.escape, LEFT_OUT))}))?\n")


def write(root, path, content):
    path = os.path.join(root, path)
    os.makedirs(os.path.dirname(path), exist_ok=True)
    with open(path, "wb") as file:
        file.write(content)


# ---- random files, none of which is a module

MUTATIONS = (b"", b";", b"(", b"{", b"++", b"'", b"\xc3", b"7", b"[<n>]", b"let ")


def random_bytes(rng):
    return rng.randbytes(rng.randrange(200))


def words_of(rng, most):
    others = ["a", "b2", "::", "0", "1", "4294967296", "1.5", '"s"', '"', "//", "/*", "$"] + ["\n"] * 20
    choices = sorted(MARKS) * 2 + sorted(RESERVED) + others
    return " ".join(rng.choice(choices) for _ in range(rng.randrange(most)))


def random_words(rng):
    """No module begins with a word but `mdl`."""
    return f"a {words_of(rng, 40)}".encode()


def words_behind_a_front(rng):
    """No module ends with the word `mdl`, and no comment or string goes over the line feed before it."""
    front = rng.choice(["", "import ::a::*;\n", "float f() = ", "material m(", "float f(float[", "float f() "])
    return f"mdl 1.6;\n{front}{words_of(rng, 30).replace('*/', '')}\nmdl".encode()


def mutated_example(rng):
    with open(os.path.join(EXAMPLE, "shop", "paint.mdl"), "rb") as file:
        text = bytearray(file.read())
    for _ in range(rng.randrange(1, 4)):
        at = rng.randrange(len(text))
        text[at:at + rng.randrange(3)] = rng.choice(MUTATIONS)
    return bytes(text).replace(b"*/", b"") + b"\nmdl"


def many_parentheses(rng):
    return b"mdl 1.6;\nfloat f() =" + b"\n" * rng.randrange(3) + b"(" * rng.randrange(300, 500)


KINDS = (random_bytes, random_words, words_behind_a_front, mutated_example, many_parentheses)


def is_line_of(line, module, content):
    """The line is one of a text that is no module: that of its first bad byte, or one with a place in the text."""
    try:
        lines = content.decode("utf-8").split("\n")
    except UnicodeDecodeError as fault:
        number = content.count(b"\n", 0, fault.start) + 1
        return line == f"error 14 NotUtf8 {module} {number}:0\n"
    found = LINE.fullmatch(line)
    if found is None:
        return False
    fault, own, number, column, word = found.groups()
    inside = int(number) <= len(lines) and int(column) <= len(lines[int(number) - 1]) + 1
    return own == module and inside and (word is not None) == (fault == "20 LeftOut")


def random_files(run, root):
    """Which fault a random file has isn't known here, so the form of its line is compared."""
    rng = random.Random(SEED)
    contents = [KINDS[own % len(KINDS)](rng) for own in range(RANDOM_FILES)]
    for own, content in enumerate(contents):
        write(root, f"r{own}.mdl", content)
    everything = [f"::r{own}" for own in range(RANDOM_FILES)]
    for own, content in enumerate(contents):
        name = everything[own]

        def is_wanted(got):
            return got[:2] == (REFUSED, "") and is_line_of(got[2], name, content)

        run(name, ["check", root, name], is_wanted)
        if own % 100 == 0:
            run(f"{name} and all others", ["check", root, *everything[own:], *everything[:own]], is_wanted)


# ---- what is wanted is known

def absent_imports(run, root):
    cases = (
        ("::m", "import ::q::*;", "::q", 8),
        ("::m", "import  ::p::q::*;", "::p::q", 9),
        ("::m", "using ::q import *;", "::q", 7),
        ("::m", "import ::df::*, ::q::x;", "::q", 17),
        ("::m", "import .::q::*;", "::q", 8),
        ("::m", "import q::*;", "::q", 8),
        ("::p::m", "import .::q::*;", "::p::q", 8),
        ("::p::m", "import ..::q::*;", "::q", 8),
        ("::p::m", "import q::*;", "::q", 8),
        ("::p::m", "using q::r import x, y;", "::q::r", 7),
        # an embedded text is no sibling, and lies in no package
        ("::p::m", "import .::df::*;", "::p::df", 8),
    )
    for own, (module, line, name, column) in enumerate(cases):
        put(f"{root}/{own}", module, [line])
        wanted = refused(f"10 Absent {name} from {module} 2:{column}")
        run(f"{line} in {module}", ["check", f"{root}/{own}", module], wanted)
    # the first import of the first module that has one
    put(f"{root}/a", "::m", ["import ::o::*;", "import ::p::*;"])
    put(f"{root}/a", "::o")
    put(f"{root}/a", "::p", ["import ::o::*;", "  using ::q import x;", "import ::q::*;"])
    run("of a module that is imported", ["check", f"{root}/a", "::m"], refused("10 Absent ::q from ::p 3:9"))
    run("asked for besides", ["check", f"{root}/a", "::m", "::q"], refused("10 Absent ::q"))
    run("asked for", ["check", root, "::none"], refused("10 Absent ::none"))
    run("asked for, in a package", ["instance", root, "::no::such::thing"], refused("10 Absent ::no::such"))


def long_files(run, root):
    for more in (0, 1):
        write(root, f"m{more}.mdl", b"mdl 1.6;" + b" " * (MOST_MODULE - 8 + more))
        put(root, f"::n{more}", [f"import ::m{more}::*;"])
    run("of the greatest length", ["check", root, "::m0"], ok(1))
    run("one byte longer", ["check", root, "::m1"], refused("11 TooLong ::m1"))
    run("of the greatest length, imported", ["check", root, "::n0"], ok(2))
    run("one byte longer, imported", ["check", root, "::n1"], refused("11 TooLong ::m1"))
    run("one byte longer, of a material", ["instance", root, "::m1::a"], refused("11 TooLong ::m1"))


def past_the_top(run, root):
    """Each package has a module `x`, and so has the top; past it there is none."""
    for depth in range(DEEPEST):
        package = "".join(f"::p{level}" for level in range(depth))
        put(root, f"{package}::x")
        for form, column in (("import {}x::*;", 8), ("using {}x import f;", 7)):
            for steps in (depth + 1, depth + 2, depth + 100):
                name = f"{package}::m{steps}{form[0]}"
                put(root, name, [form.format("..::" * steps)])
                wanted = refused(f"10 Absent ::x from {name} 2:{column}")
                run(f"{steps} steps up in {name}", ["check", root, name], wanted)
        if depth > 0:
            put(root, f"{package}::top", [f"import {'..::' * depth}x::*;"])
            run(f"up to the top in {package}::top", ["check", root, f"{package}::top"], ok(2))
    put(root, "::first", ["import ::second::*, ..::x::*;"])
    write(root, "second.mdl", b"$")
    run("before a later module's fault", ["check", root, "::first"], refused("10 Absent ::x from ::first 2:21"))
    write(root, "bad.mdl", b"mdl 1.6;\nimport ..::x::*;\n$")
    run("behind a fault of its own text", ["check", root, "::bad"], refused("15 BadToken ::bad 3:1"))


def cycles(run, root):
    """A module that lies on none leads into the middle of each cycle, and that is where the cycle is told from."""
    for length in range(1, LONGEST_CYCLE + 1):
        folder = f"{root}/{length}"
        for own in range(length):
            put(folder, f"::c{own}", [f"import ::c{(own + 1) % length}::*;"])
        entry = length // 2
        put(folder, "::s", [f"import ::c{entry}::*;"])
        told = " ".join(f"::c{(entry + own) % length}" for own in range(length))
        run(f"of {length} modules", ["check", folder, "::s"], refused(f"13 Cycle {told}"))
        run(f"of {length} modules, of a material", ["instance", folder, "::s::a"], refused(f"13 Cycle {told}"))
    put(f"{root}/a", "::m", ["import ::m::*;", "import ::q::*;"])
    run("with something else wrong", ["check", f"{root}/a", "::m"], refused("10 Absent ::q from ::m 3:8"))


def many_modules(run, root):
    too_many = refused("12 TooMany")
    counts = (MOST_MODULES, MOST_MODULES + 1, 5000)
    most = max(counts)
    for own in range(most):
        put(f"{root}/chain", f"::m{own}", [f"import ::m{own + 1}::*;"] if own + 1 < most else [])
        put(f"{root}/apart", f"::m{own}")
    for count in counts:
        wanted = ok(count) if count <= MOST_MODULES else too_many
        run(f"a chain of {count}", ["check", f"{root}/chain", f"::m{most - count}"], wanted)
        put(f"{root}/apart", f"::all{count}", [f"import ::m{other}::*;" for other in range(count - 1)])
        run(f"one that imports {count - 1}", ["check", f"{root}/apart", f"::all{count}"], wanted)
        run(f"{count} named", ["check", f"{root}/apart", *(f"::m{own}" for own in range(count))], wanted)
    names = [f"::m{own}" for own in range(MOST_MODULES)]
    run("and the 4,097th absent", ["check", f"{root}/apart", *names, "::none"], too_many)
    run("and the 4,096th absent", ["check", f"{root}/apart", *names[1:], "::none", "::m0"], refused("10 Absent ::none"))
    put(f"{root}/chain", f"::m{most - 1}", ["import ::m4000::*;"])
    run("before a cycle", ["check", f"{root}/chain", "::m0"], too_many)


def texts(run, root):
    """One text for each line that a text alone can have."""
    cases = (
        (b"mdl 1.6;\n\xff", "14 NotUtf8 ::{} 2:0"),
        (b"mdl 1.6;\n $", "15 BadToken ::{} 2:2"),
        (b"mdl 1.6;\n// \xc3\xa9\n/* \xc3\xa9 */ 4294967296", "16 IntRange ::{} 3:9"),
        (b"", "17 BadSyntax ::{} 1:1"),
        (b"mdl 1.6;\nimport ::q::*\n", "17 BadSyntax ::{} 3:1"),
        (b"mdl 1.6;\nfloat f() =" + b"(" * 400 + b"1.0" + b")" * 400 + b";", "18 TooDeep ::{} 2:411"),
        (b"mdl 1.6;\nfloat f() { return 1.0; }", "19 StatementBody ::{} 2:11"),
        (b"mdl 1.6;\nimport \"q.mdl\";", "20 LeftOut ::{} 2:8 string-name"),
        (b"mdl 1.6;\nconst float a = 1.0;", "20 LeftOut ::{} 2:1 const"),
        (b"mdl 1.7;", "21 Version ::{} 1:5"),
    )
    for own, (content, line) in enumerate(cases):
        write(root, f"t{own}.mdl", content)
        put(root, f"::n{own}", ["import ::df::*;", f"import .::t{own}::*;"])
        wanted = refused(line.format(f"t{own}"))
        run(line, ["check", root, f"::t{own}"], wanted)
        run(f"{line}, imported", ["check", root, f"::n{own}"], wanted)
        run(f"{line}, of a material", ["instance", root, f"::t{own}::a"], wanted)
    put(root, "::imports", ["import ::df::*;"])
    run("several modules for a material", ["instance", root, "::imports::a"], refused("9 NotBuilt"))
    run("an embedded text for a material", ["instance", root, "::df::a"], refused("9 NotBuilt"))


def names(run, root):
    """Faults of names. The module `::b` is imported, exports `x`, `f` and the enum `e`, and declares `y` as well."""
    brought = b"mdl 1.6;\nexport struct x {};\nexport float f();\nfloat y() = 1.0;\nexport enum e { v };\n"
    cases = (
        ("float g() = 1.0;\nfloat g() = 2.0;", "30 Twice ::{} 3:7"),
        ("float g(float[1] a);\nfloat g(float[2] a);\nfloat g(float[1] a);", "30 Twice ::{} 4:7"),
        ("float g();\nfloat g() = 1.0;\nfloat g(*) = g();", "30 Twice ::{} 4:7"),
        ("enum g { h, g };", "30 Twice ::{} 2:13"),
        ("struct s { int a; float a; };", "30 Twice ::{} 2:25"),
        ("/* \u00e9 */ annotation n(int a, int a);", "30 Twice ::{} 2:33"),
        ("material material_surface() = material();\nfloat material_surface();", "30 Twice ::{} 3:7"),
        ("import ::b::none;", "31 Unknown ::{} 2:13"),
        ("using ::b import f, none;", "31 Unknown ::{} 2:21"),
        ("import ::b::y;", "32 NotExported ::{} 2:13"),
        ("using b import e, v, y;", "32 NotExported ::{} 2:22"),
        ("using ::b import x;\nfloat x();", "33 Clash ::{} 2:18"),
        ("using .::b import v;\nenum x { v };", "33 Clash ::{} 2:19"),
        ("import ::b::y;\nfloat f() = 1.0;\nfloat f() = 1.0;", "32 NotExported ::{} 2:13"),
    )
    write(root, "b.mdl", brought)
    put(root, "::c", ["using ::b import *;"])
    run("several that are in order", ["check", root, "::c"], ok(2))
    for own, (declared, line) in enumerate(cases):
        write(root, f"t{own}.mdl", f"mdl 1.6;\n{declared}\n".encode())
        put(root, f"::n{own}", ["import ::df::*;", f"import .::t{own}::*;", "import ::b::*;"])
        wanted = refused(line.format(f"t{own}"))
        run(line, ["check", root, f"::t{own}"], wanted)
        run(f"{line}, imported", ["check", root, f"::n{own}"], wanted)
        run(f"{line}, of a material", ["instance", root, f"::t{own}::a"], wanted)
        run(f"{line}, behind an absent module", ["check", root, f"::t{own}", "::none"], refused("10 Absent ::none"))
    run("two modules with faults", ["check", root, "::t7", "::t0"], refused("31 Unknown ::t7 2:13"))
    run("the same, turned round", ["check", root, "::t0", "::t7"], refused("30 Twice ::t0 3:7"))


def roots(run, root):
    put(f"{root}/a", "::m")
    put(f"{root}/a", "::n", ["import ::m::*;"])
    write(root, "b/m.mdl", b"$")
    os.makedirs(f"{root}/folder/m.mdl")
    run("a root that isn't there", ["check", f"{root}/none", "::m"], refused("10 Absent ::m"))
    run("two roots that aren't there", ["check", f"{root}/none:{root}/nor", "::m"], refused("10 Absent ::m"))
    run("a file in the place of a root", ["check", f"{root}/a/m.mdl", "::m"], refused("10 Absent ::m"))
    run("a folder in the place of a file", ["check", f"{root}/folder", "::m"], READ_FAULT)
    run("a folder before a file", ["check", f"{root}/folder:{root}/a", "::m"], READ_FAULT)
    run("a folder in the place of an imported file", ["check", f"{root}/folder:{root}/a", "::n"], READ_FAULT)
    run("a folder behind a file", ["check", f"{root}/a:{root}/folder", "::m"], ok(1))
    run("a bad file before another", ["check", f"{root}/b:{root}/a", "::n"], refused("15 BadToken ::m 1:1"))
    for count in (64, 65):
        wanted = ok(1) if count <= 64 else USAGE
        run(f"{count} roots", ["check", ":".join([f"{root}/none"] * (count - 1) + [f"{root}/a"]), "::m"], wanted)
        run(f"{count} roots for a material",
            ["instance", ":".join([f"{root}/a"] * count), "::m::m"], refused("9 NotBuilt") if count <= 64 else USAGE)
    for written in ("", ":", f":{root}/a", f"{root}/a:", f"{root}/a::{root}/b"):
        run("an empty root", ["check", written, "::m"], USAGE)


def words(run, root):
    put(root, "::m")
    put(root, "::n")
    run("in order", ["check", root, "::m", "::n"], ok(2))
    for names in (["::m", "::m"], ["::m", "::n", "::m"], ["::n", "::none", "::none"]):
        run("a module named twice", ["check", root, *names], USAGE)
    for word in sorted(RESERVED):
        run(f"the reserved word {word}", ["check", root, f"::{word}"], USAGE)
        run(f"the reserved word {word} as a package", ["check", root, "::m", f"::{word}::m"], USAGE)
        run(f"the reserved word {word} as a material", ["instance", root, f"::m::{word}"], USAGE)
    for name in ("", "m", "::", "::m::", "m::n", "::m:n", "::1", "::m ", "::m::*", ".::m", "..::m", "::m-n", "-m"):
        run(f"the name {name!r}", ["check", root, name], USAGE)
    for more in (["--workers", "0"], ["--workers=65"], ["--workers", "01"], ["--workers"], ["--workers="],
                 ["--workers", "1", "--workers=1"], ["--worker", "1"], ["--help"], ["--", "--workers=1"]):
        run(" ".join(more), ["check", root, "::m", *more], USAGE)
    for line in ([], ["check"], ["check", root], ["instance", root], ["instance", root, "::m"], ["Check", root, "::m"],
                 ["instance", root, "::m::m", "::m::n"], ["--workers=1", "check", root, "::m"], ["help"]):
        run(f"{len(line)} words", line, USAGE)


GROUPS = (
    ("random files", random_files),
    ("absent imports", absent_imports),
    ("long files", long_files),
    ("imports past the top", past_the_top),
    ("cycles", cycles),
    ("many modules", many_modules),
    ("bad texts", texts),
    ("faults of names", names),
    ("roots", roots),
    ("words", words),
)


def main():
    program = built()
    wrong = []
    with tempfile.TemporaryDirectory(prefix="mdl-bad-") as folder:
        for group, make in GROUPS:
            before = len(wrong)
            count = 0

            def run(name, argv, wanted):
                """One run. What is wanted is an answer, or a test of one."""
                nonlocal count
                count += 1
                got = answer([program, *argv], folder)[0]
                if not (wanted(got) if callable(wanted) else got == wanted):
                    told = "a line of its form" if callable(wanted) else wanted
                    wrong.append(difference(f"{group}, {name}", told, got))

            with tempfile.TemporaryDirectory(dir=folder) as root:
                make(run, root)
            print(f"{group:24} {count:>5} runs, {len(wrong) - before} other than wanted", flush=True)
    if wrong:
        sys.exit("\n".join(wrong))


if __name__ == "__main__":
    main()
