"""Makes a program around library crates: from copies of them, in a folder of its own."""

import os
import shutil
import subprocess
import sys

TOP = os.path.dirname(os.path.dirname(os.path.abspath(__file__)))


def copy_crates(folder, crates):
    """Copies of these crates, and the lines of crates.txt that list them."""
    with open(os.path.join(TOP, "crates.txt")) as own:
        lines = [line for line in own if line.split(":")[0].split(" ")[0] in crates]
    with open(os.path.join(folder, "crates.txt"), "w") as file:
        file.writelines(lines)
    for crate in crates:
        shutil.copytree(os.path.join(TOP, "crates", crate), os.path.join(folder, "crates", crate),
                        ignore=shutil.ignore_patterns("must-fail"))


def edit(folder, path, old, new):
    """Replaces a text that stands once in the copy of a file."""
    path = os.path.join(folder, "crates", path)
    with open(path, encoding="utf-8") as file:
        text = file.read()
    if text.count(old) != 1:
        sys.exit(f"{path}: {old!r} stands there {text.count(old)} times")
    with open(path, "w", encoding="utf-8") as file:
        file.write(text.replace(old, new))


def build(folder, name, libraries, main, modules=()):
    """The built program of this main file and of files of its modules, over the copies of crates in the folder."""
    with open(os.path.join(folder, "crates.txt"), "a") as file:
        file.write(f"{name}: {' '.join(libraries)}\n")
    crate = os.path.join(folder, "crates", name)
    os.makedirs(os.path.join(crate, "src"))
    shutil.copy(main, os.path.join(crate, "src", "main.rt"))
    for path in modules:
        module = os.path.splitext(os.path.basename(path))[0]
        shutil.copy(path, os.path.join(crate, "src", f"{module}.rt"))
    done = subprocess.run(["rt", "run"], cwd=crate, stdin=subprocess.DEVNULL, capture_output=True, text=True)
    program = os.path.join(crate, "out", name)
    if not os.access(program, os.X_OK):
        sys.exit(f"not built:\n{done.stdout[-3000:]}{done.stderr[-3000:]}")
    return program
