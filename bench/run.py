#!/usr/bin/env python3
"""Runs the built program on made inputs, and prints wall time, processor time and peak memory. Tests nothing but the
answers.

usage: bench/run.py [PROGRAM]      (PROGRAM is crates/mdl_cli/out/mdl_cli where it isn't given)
"""

import os
import sys
import tempfile
import time
from typing import NamedTuple, Optional

sys.dont_write_bytecode = True

from program import TOP

PROGRAM = os.path.join(TOP, "crates", "mdl_cli", "out", "mdl_cli")
FIRST_TEXT = os.path.join(TOP, "examples", "first", "m.mdl")
MB = 1 << 20
SIZES = (MB, 4 * MB)
RUNS = 5
PIECE = 1 << 16
FUNCTION = b"export float scale_12(float x, float y0 = 1.5) = x * 2 + y0 >= 0x1f;\n"

# Exit numbers of the program.
DONE = 0
REFUSED = 1


def fill(file, pattern, count):
    """Writes a pattern over so many bytes, and blanks for the rest, in pieces: the size of this process is the
    floor of each peak."""
    piece = pattern * (PIECE // len(pattern))
    while count >= len(pattern):
        written = piece[:count // len(pattern) * len(pattern)]
        file.write(written)
        count -= len(written)
    file.write(b" " * count)


def make(path, before, pattern, after, size):
    """A file of this size: the pattern fills the place between what stands before and after."""
    with open(path, "wb") as file:
        file.write(before)
        fill(file, pattern, size - len(before) - len(after))
        file.write(after)


def inputs(text):
    """For each input its name, what stands before and after the filling, the filling, and the exit number."""
    end_of_real = text.index(b"color(1.0") + len(b"color(1.0")
    return (
        ("separators at the end", text, b" ", b"", DONE),
        ("separators in front", b"", b"\n", text, DONE),
        ("a comment", b"/*", b"c", b"*/" + text, DONE),
        ("a long real", text[:end_of_real], b"0", text[end_of_real:], DONE),
        ("functions", b"mdl 1.6;\n", FUNCTION, b"", REFUSED),
        ("a single identifier", b"", b"m", b"", REFUSED),
        ("a single string", b'"', b"s", b'"', REFUSED),
        ("marks and blanks", b"", b"( ", b"", REFUSED),
        ("marks alone", b"", b"(", b"", REFUSED),
    )


def built():
    """The program that is measured: the one that is named, or the one that is built here."""
    program = os.path.abspath(sys.argv[1]) if len(sys.argv) > 1 else PROGRAM
    if not os.access(program, os.X_OK):
        sys.exit(f"{program} isn't there: build it by './mdl instance examples/first ::m::m'")
    return program


class Run(NamedTuple):
    """The exit number of a run, its wall and its processor time in seconds, and its peak memory in bytes."""
    number: Optional[int]
    wall: float
    processor: float
    peak: int


def run_once(argv, out, diag=None):
    """One run that writes to these files."""
    start = time.perf_counter()
    pid = os.posix_spawn(argv[0], argv, os.environ, file_actions=[
        (os.POSIX_SPAWN_DUP2, out, 1),
        (os.POSIX_SPAWN_DUP2, out if diag is None else diag, 2),
    ])
    _, status, usage = os.wait4(pid, 0)
    wall = time.perf_counter() - start
    return Run(os.waitstatus_to_exitcode(status), wall, usage.ru_utime + usage.ru_stime, usage.ru_maxrss * 1024)


def least(runs):
    """The least times and the least peak of runs, and their exit number, if that is one."""
    numbers = {run.number for run in runs}
    number = numbers.pop() if len(numbers) == 1 else None
    return Run(number, *(min(run[column] for run in runs) for column in range(1, len(Run._fields))))


def best(argv, out):
    return least([run_once(argv, out) for _ in range(RUNS)])


def show(name, size, measured, growth=""):
    print(f"{name:24} {size:>9} {measured.number!s:>6} {measured.wall * 1000:>10.2f} {measured.processor * 1000:>10.2f}"
          f" {measured.peak / MB:>9.1f}  {growth}", flush=True)


def main():
    program = built()
    with open(FIRST_TEXT, "rb") as file:
        text = file.read()
    wrong = []
    with tempfile.TemporaryDirectory(prefix="mdl-bench-") as root, open(os.devnull, "wb") as nothing:
        out = nothing.fileno()
        path = os.path.join(root, "m.mdl")
        argv = [program, "instance", root, "::m::m"]
        print(f"{'input':24} {'bytes':>9} {'status':>6} {'ms':>10} {'cpu ms':>10} {'peak MB':>9}"
              f"  (best of {RUNS} runs)")
        show("/bin/true (the floor)", 0, best(["/bin/true"], out))
        make(path, text, b" ", b"", len(text))
        measured = best(argv, out)
        show("the first text", len(text), measured)
        if measured.number != DONE:
            wrong.append("the first text")
        for name, before, pattern, after, wanted in inputs(text):
            times = []
            for size in SIZES:
                make(path, before, pattern, after, size)
                measured = best(argv, out)
                times.append(measured.processor)
                growth = f"{times[-1] / times[0]:.1f} times the cpu time of 1 MB" if len(times) > 1 else ""
                show(name, size, measured, growth)
                if measured.number != wanted:
                    wrong.append(f"{name}, {size} bytes")
    if wrong:
        sys.exit("other exit numbers than wanted: " + "; ".join(wrong))


if __name__ == "__main__":
    main()
