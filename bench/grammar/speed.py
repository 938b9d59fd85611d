#!/usr/bin/env python3
"""Runs the built parser of expressions on made inputs, and prints processor time and peak memory.

usage: bench/grammar/speed.py [PROGRAM]

PROGRAM is what `reader.py` makes. Where it isn't given, it is made in a temporary folder. Tests nothing but the
answers. `speed_modules.py` measures the parser of modules in the same way.
"""

import os
import subprocess
import sys
import tempfile

sys.dont_write_bytecode = True
sys.path.insert(0, os.path.dirname(os.path.dirname(os.path.abspath(__file__))))

import reader
from run import MB, RUNS, best

# The program reads the words of an expression line by line, and no line may be longer than a module. Shorter ones keep
# this process small, whose size is the floor of each peak.
LINE = 1 << 16
OPERATORS = ("||", "&&", "|", "^", "&", "==", "<", "<<", "+", "*")
HIGHEST = 400


def make(path, text, count):
    """A file of so many pieces, numbered where they have a place for it, in lines."""
    before, piece, between, after = text
    many = max(1, LINE // len(piece + between))
    with open(path, "w") as file:
        file.write(before)
        for first in range(0, count, many):
            last = min(first + many, count)
            file.write(between.join(map(piece.format, range(first, last))) + (between if last < count else "") + "\n")
        file.write(after)


def chain(operator, operators):
    """So many operators of one level, and their operands."""
    return operator.join(["a"] * (operators + 1))


def inputs():
    """For each input its name, what stands before, the piece, between and after the pieces, how many there are, and
    the answer."""
    yield "arguments", ("f(", "a", ",", ")"), (250000, 1000000), "tree"
    for operator in OPERATORS:
        yield f"one chain of {operator}", ("", chain(operator, HIGHEST - 1), "", ""), (1,), "tree"
        yield f"chains of {operator}", ("f(", chain(operator, HIGHEST - 2), ",", ")"), (2500, 10000), "tree"
    yield "chains of indexes", ("f(", "a" + "[0]" * (HIGHEST - 2), ",", ")"), (2500, 10000), "tree"
    yield "initializers", ("let {", "float x = 1;", "", "} in x"), (50000, 200000), "tree"
    yield "parentheses", ("", "(", "", ""), (125000, 500000), f"deep {HIGHEST - 1}"
    yield "minus", ("", "- ", "", ""), (250000, 1000000), f"deep {HIGHEST - 1}"


def measure(program, mode, path, out):
    """What the program answers, and the least processor time and peak of some runs."""
    told = subprocess.run([program, mode, path], capture_output=True, text=True).stdout.strip()
    measured = best([program, mode, path], out)
    return told if measured.number == 0 else f"exit {measured.number}", measured.processor, measured.peak


def show(name, count, size, told, times, peak, note):
    """Prints a line of the table."""
    print(f"{name:20} {count:>9} {size:>10} {told:>9}" + "".join(f" {seconds * 1000:>10.2f}" for seconds in times)
          + f" {peak / MB:>9.1f}  {note}", flush=True)


def run_all(program, modes, inputs, path, out):
    """Prints a line for each input and size; gives those with another answer than is wanted."""
    wrong = []
    for name, text, counts, wanted in inputs:
        first = None
        for count in counts:
            make(path, text, count)
            (told, seconds, peak), *others = (measure(program, mode, path, out) for mode in modes)
            growth = f"{seconds / first:.1f} times as long" if first else ""
            first = first or seconds
            show(name, count, os.path.getsize(path), told, [seconds, *(other[1] for other in others)], peak, growth)
            if told != wanted:
                wrong.append(f"{name}, {count}")
    return wrong


def run(modes, inputs):
    """Takes or makes the program, and runs it on each input: in the first mode, and in the others for their times."""
    with tempfile.TemporaryDirectory(prefix="mdl-speed-") as folder, open(os.devnull, "wb") as nothing:
        program = os.path.abspath(sys.argv[1]) if len(sys.argv) > 1 else reader.build(folder)
        out = nothing.fileno()
        heads = "".join(f" {head:>10}" for head in ("cpu ms", *(f"{mode} ms" for mode in modes[1:])))
        print(f"{'input':20} {'count':>9} {'bytes':>10} {'answer':>9}{heads} {'peak MB':>9}  (best of {RUNS} runs)")
        floor = best(["/bin/true"], out)
        show("/bin/true", "", "", "", [floor.processor] * len(modes), floor.peak, "(the floor)")
        wrong = run_all(program, modes, inputs, os.path.join(folder, "words"), out)
    if wrong:
        sys.exit("other answers than wanted: " + "; ".join(wrong))


if __name__ == "__main__":
    run(["time"], inputs())
