#!/usr/bin/env python3
"""Compares scope_core with its definitions, as `definition.py` has them, on random sets of modules.

usage: bench/scopes/compare.py [COUNT] [SEED]      (1,600 sets and seed 1 where they aren't given)

Of each set the fault is compared, with its module and its place; where it has none, what seven names find in its first
module. The sets are made by `random_sets.py` with what the definitions give for them, and put as rows into a copy of
the crate scope_tests, in the place of its own, beside copies of the crates below it in a temporary folder. Its tests
are compiled and run there, before any proof. Each test has up to 200 sets, and fails with all of them that differ.
The script prints how often each kind of answer is wanted, then what the run of the tests prints, and ends with 1 where
a test fails.
"""

import collections
import os
import shutil
import subprocess
import sys
import tempfile

sys.dont_write_bytecode = True
sys.path.insert(0, os.path.dirname(os.path.dirname(os.path.abspath(__file__))))

import program
from random_sets import random_sets
from texts import TOP

CRATES = ("case_table", "io_edge", "mdl_lexer", "mdl_syntax", "expression_grammar", "module_grammar", "mdl_grammar",
          "module_set", "module_loader", "type_rules", "scope_tables", "scope_core", "scope_tests")
TESTS = os.path.join("scope_tests", "src", "scope_tests.rt")
SETS_OF_A_TEST = 200

TEST = '''
#[test]
fn random_sets_{number}(rt: HostRuntime) -> Result<(), Fail> {{
    let alloc = rt.alloc();
    // modules, the fault, and names with what they find, with `#` between
    let rows = [
{rows}
    ];
    let mut wrong = String::new(alloc);
    for row in rows {{
        let mut parts = row.split("#");
        let modules = parts.next().unwrap_or("");
        let fault = parts.next().unwrap_or("");
        let looks = parts.next().unwrap_or("");
        match set_of(&rt, alloc, modules, "::m")? {{
            Some(set) => {{
                let told = fault_of(alloc, &set)?;
                if told.as_str() != fault {{
                    wrong.push_str(&format!(in alloc; "{{modules}} -> {{told}}, wanted {{fault}}\\n")?)?;
                }}
                for look in looks.split(";") {{
                    if let Some((written, wanted)) = look.split_once("=") {{
                        let told = look_told(alloc, &set, written)?;
                        if told.as_str() != wanted {{
                            let line = format!(in alloc; "{{written}} -> {{told}}, wanted {{wanted}}\\n")?;
                            wrong.push_str(&format!(in alloc; "{{modules}}: {{line}}")?)?;
                        }}
                    }}
                }}
            }}
            None => wrong.push_str(&format!(in alloc; "{{modules}} -> no set\\n")?)?,
        }}
    }}
    assert_eq!(rt; wrong.as_str(), "");
    Ok(())
}}
'''


def without_tests(text):
    """What the tests of the crate share, without the tests."""
    pieces = text.split("#[test]\n")
    return pieces[0] + "".join(piece.split("\n}\n", 1)[1] for piece in pieces[1:])


def row(made):
    """A set as a row of a test."""
    modules, fault, looks = made
    looked = ";".join(f"{name}={finds}" for name, finds in looks)
    return f'        "{modules}#{fault}#{looked}",'


def tests(sets):
    """The file of tests for these sets."""
    with open(os.path.join(TOP, "crates", TESTS), encoding="utf-8") as file:
        made = without_tests(file.read())
    for number, start in enumerate(range(0, len(sets), SETS_OF_A_TEST)):
        rows = "\n".join(row(one) for one in sets[start:start + SETS_OF_A_TEST])
        made += TEST.format(number=number, rows=rows)
    return made


def main():
    """Makes the sets, and runs the tests."""
    count = int(sys.argv[1]) if len(sys.argv) > 1 else 1600
    seed = int(sys.argv[2]) if len(sys.argv) > 2 else 1
    sets = random_sets(count, seed)
    wanted = collections.Counter(fault.rstrip("0123456789: ") for _, fault, _ in sets)
    looks = collections.Counter(finds.rstrip("0123456789. ") for _, _, looked in sets for _, finds in looked)
    print(f"{count} sets, seed {seed}: " + ", ".join(f"{kind} {number}" for kind, number in sorted(wanted.items()))
          + "; names: " + ", ".join(f"{kind} {number}" for kind, number in sorted(looks.items())), flush=True)
    with tempfile.TemporaryDirectory(prefix="mdl-scopes-") as folder:
        program.copy_crates(folder, CRATES)
        # the loader asks for the leave to start threads
        shutil.copy(os.path.join(TOP, "HANDLES"), folder)
        with open(os.path.join(folder, "crates", TESTS), "w", encoding="utf-8") as file:
            file.write(tests(sets))
        done = subprocess.run(["rt", "try", "--test"], cwd=os.path.join(folder, "crates", "scope_tests"),
                              stdin=subprocess.DEVNULL)
    sys.exit(1 if done.returncode else 0)


if __name__ == "__main__":
    main()
