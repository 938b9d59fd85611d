#!/usr/bin/env python3
"""Compares the built parser of expressions with a search that is written straight from its definition.

usage: bench/grammar/compare.py [COUNT] [SEED] [PROGRAM]      (100,000 texts and seed 1 where they aren't given)

PROGRAM is what `reader.py` makes. Where it isn't given, it is made in a temporary folder. Half of the texts are random
words, and half are the words of random trees with up to three mutations; each is read within a height. The program
answers all of them at once, and `definition.py` each by itself.
"""

import collections
import functools
import multiprocessing
import os
import random
import subprocess
import sys
import tempfile

sys.dont_write_bytecode = True
sys.path.insert(0, os.path.dirname(os.path.dirname(os.path.abspath(__file__))))

import definition
import reader
from definition import BINARY, LEFT_OUT, MARKS, RESERVED, TYPE_NAMES, UNARY

MOST_WORDS = 16
NUMBERS = ["0", "3", "017", "0x1F", "4294967295"]
REALS = ["1.5", ".5d", "2.f", "1e5F", "3.0E-07", "1.e+5D"]
STRINGS = ['""', '"s"', '"a b\\n"', '"\\x41\u00e9"', '"//"']
LITERALS = NUMBERS + REALS + STRINGS + ["true", "false"]
IDENTIFIERS = ["a", "b2", "_", "float5", "\u00e9"]
SEPARATORS = [" "] * 8 + ["  ", "\t", " /**/", " /* a */ ", "\f"]
COMMON = IDENTIFIERS * 6 + LITERALS + list("()[]{},;:.=?") * 3 + ["::", "let", "in", "uniform", "<", "-"] * 3


# ---- words

def random_words(rng):
    """Words of all tables, the common ones more often."""
    every = sorted(MARKS) + sorted(RESERVED) + LITERALS
    left_out = sorted(LEFT_OUT)
    made = []
    for _ in range(rng.randrange(0, 8)):
        chance = rng.random()
        made.append(rng.choice(left_out if chance < 0.03 else every if chance < 0.3 else COMMON))
    return made


def name(rng):
    """The words of a name."""
    if rng.random() < 0.3:
        return [rng.choice(TYPE_NAMES)]
    made = [rng.choice(IDENTIFIERS)]
    while rng.random() < 0.2:
        made += ["::", rng.choice(IDENTIFIERS)]
    return ["::"] * (rng.random() < 0.15) + made


def several(rng, height, labelled):
    """Elements or arguments."""
    made, named = [], False
    for place in range(rng.choice([0, 1, 1, 2, 2, 3])):
        named = labelled and (named or rng.random() < 0.3)
        made += [","] * (place > 0) + ([rng.choice(IDENTIFIERS), ":"] if named else []) + tree(rng, 0, height)
    return made


def initializer(rng, height):
    """An initializer; some types have a size, which may be deferred."""
    deferred = ["[", "<", rng.choice(IDENTIFIERS), ">", "]"]
    size = rng.choice([[], [], ["[", rng.choice(NUMBERS), "]"], deferred, deferred, deferred, deferred])
    return (rng.choice([[], ["uniform"], ["varying"]]) + name(rng) + size + [rng.choice(IDENTIFIERS), "="]
            + tree(rng, 0, height) + [";"])


def let(rng, height):
    """A let, with braces or without."""
    if rng.random() < 0.5:
        return ["let"] + initializer(rng, height) + ["in"] + tree(rng, 0, height)
    initializers = [word for _ in range(rng.choice([1, 1, 2])) for word in initializer(rng, height)]
    return ["let", "{"] + initializers + ["}", "in"] + tree(rng, 0, height)


def leaf(rng):
    """A tree without parts that are trees; or an index, which is too high where the text leaves no more room."""
    size = rng.choice([[], [rng.choice(NUMBERS)]])
    index = name(rng) + ["[", rng.choice(NUMBERS), "]"]
    return rng.choice([[rng.choice(LITERALS)], name(rng), name(rng), name(rng) + ["(", ")"],
                       name(rng) + ["["] + size + ["]", "(", ")"], index, index])


def tree(rng, level, height):
    """The words of a tree of at least this level and at most this height."""
    forms = [leaf]
    if height > 1:
        low = height - 1
        operators = [text for text in BINARY if BINARY[text] >= level]
        operator = rng.choice(operators) if operators else ""
        own = BINARY.get(operator, 0)
        forms += [lambda rng: name(rng) + ["("] + several(rng, low, True) + [")"],
                  lambda rng: name(rng) + ["[", rng.choice(NUMBERS), "]", "("] + several(rng, low, False) + [")"],
                  lambda rng: ["("] + tree(rng, 0, low) + [")"]]
        forms += [lambda rng: tree(rng, 13, low) + [".", rng.choice(IDENTIFIERS)],
                  lambda rng: tree(rng, 13, low) + ["["] + tree(rng, 0, low) + ["]"]] * (level <= 13)
        forms += [lambda rng: [rng.choice(UNARY)] + tree(rng, 12, low)] * (level <= 12)
        forms += [lambda rng: tree(rng, own, low) + [operator] + tree(rng, own + 1, low)] * (3 if operators else 0)
        forms += [lambda rng: tree(rng, 2, low) + ["?"] + tree(rng, 0, low) + [":"] + tree(rng, 1, low)] * (level <= 1)
        forms += [lambda rng: let(rng, low)] * (2 if level == 0 else 0)
    return rng.choice(forms)(rng)


def operand(rng):
    """An operand of few words, with operators before and behind it."""
    made = [rng.choice(UNARY)] * (rng.random() < 0.2) + [rng.choice(IDENTIFIERS + NUMBERS)]
    if rng.random() < 0.15:
        made = ["let", "int", "a", "=", "0", ";", "in"] + made
    return made + rng.choice([[], [], [], [".", "a"], ["[", "a", "]"], ["[", "3", "]"], ["[", "3", "]"]])


def chain(rng, count, operators):
    """Operands with operators between them: the levels say which of them belong together."""
    made = operand(rng)
    for _ in range(count):
        if rng.random() < 0.25:
            made += ["?"] + chain(rng, rng.randrange(2), operators) + [":"] + operand(rng)
        else:
            made += [rng.choice(operators)] + operand(rng)
    return made


def mutated(rng, words, common=COMMON):
    """The words with a few of them dropped, swapped, repeated, put in or replaced, or cut off."""
    words = list(words)
    for _ in range(rng.choice([0, 0, 0, 1, 1, 2, 3])):
        place, kind = rng.randrange(len(words) + 1), rng.randrange(5)
        other = rng.choice(common if rng.random() < 0.8 else sorted(LEFT_OUT))
        if kind == 0:
            words.insert(place, other)
        elif place < len(words) and kind == 1:
            words[place] = other
        elif place < len(words) and kind == 2:
            del words[place]
        elif place < len(words) and kind == 3:
            words.insert(place, words[place])
        elif place + 1 < len(words):
            words[place:place + 2] = [words[place + 1], words[place]]
    return words[:rng.randrange(len(words) + 1)] if rng.random() < 0.1 else words


def words_of_a_tree(rng, height):
    """The words of a tree of about this height with mutations: any, a let, or a chain of operators."""
    while True:
        chance = rng.random()
        if chance < 0.25:
            made = chain(rng, rng.randrange(1, 5), rng.sample(sorted(BINARY), 2))
        elif chance < 0.62 and height > 1:
            made = let(rng, height - 1)
        else:
            made = tree(rng, 0, height)
        made = mutated(rng, made)
        if len(made) <= MOST_WORDS:
            return made


def laid_out(rng, words):
    """A text of one line in which the words stand, and the places of their bytes."""
    text, places = rng.choice(["", "", " "]), []
    for word in words:
        at = len(text.encode("utf-8"))
        text += word
        places.append((at, at + len(word.encode("utf-8"))))
        text += rng.choice(SEPARATORS)
    return text, places


def case(rng, from_a_tree):
    """A limit, words, the text that they stand in, and the places of their bytes."""
    height = rng.randrange(1, 6)
    words = words_of_a_tree(rng, height) if from_a_tree else random_words(rng)
    limit = rng.choice([height, height, max(1, height - 1), rng.randrange(1, 6), rng.choice([5, 400])])
    return limit, words, *laid_out(rng, words)


# ---- the comparison

def expected(readings, made):
    """What the definition gives: one reading, or what is wrong with it."""
    limit, words, _, places = made
    found = readings(words, places, limit)
    return found[0] if len(found) == 1 else f"{len(found)} readings: {found}"


def kind_of(told, words):
    """Under which name an answer is counted."""
    kind, *more = told.split(" ")
    if kind == "left":
        return "deferred size" if more[1] == "deferred-size" else "left-out word"
    return "deep at the end" if kind == "deep" and more[0] == str(len(words)) else kind


def answers(program, mode, cases, folder):
    """What the program answers to each text."""
    path = os.path.join(folder, "texts")
    with open(path, "w", encoding="utf-8", newline="") as file:
        file.writelines(f"{limit} {text}\n" for limit, _, text, _ in cases)
    done = subprocess.run([program, mode, path], capture_output=True, timeout=600)
    told = done.stdout.decode("utf-8").split("\n")[:-1]
    if done.returncode != 0 or len(told) != len(cases):
        sys.exit(f"the program ended with {done.returncode}, {len(told)} answers to {len(cases)} texts: "
                 f"{done.stderr[-500:]}")
    return told


def compare(cases, told, readings, kind_of):
    """How often each answer came, and by the kinds of both answers what differs."""
    counts, differences = collections.Counter(), collections.defaultdict(list)
    with multiprocessing.Pool() as pool:
        for made, got, wanted in zip(cases, told, pool.imap(functools.partial(expected, readings), cases, 500)):
            limit, words, text, _ = made
            counts[kind_of(got, words)] += 1
            if got != wanted:
                differences[kind_of(wanted, words), kind_of(got, words)].append((len(words), limit, text, wanted, got))
    return counts, differences


def show(differences):
    """Prints for each kind of difference how many texts have it, and the shortest of them."""
    for (wanted_kind, got_kind), found in sorted(differences.items()):
        _, limit, text, wanted, got = min(found)
        print(f"{len(found)} texts: expected {wanted_kind}, got {got_kind}\n  {limit} {text!r}\n"
              f"  expected {wanted}\n  got      {got}")


def run(mode, make, readings, kind_of):
    """Makes the texts, asks the program, and compares."""
    count = int(sys.argv[1]) if len(sys.argv) > 1 else 100000
    seed = int(sys.argv[2]) if len(sys.argv) > 2 else 1
    cases = make(count, seed)
    with tempfile.TemporaryDirectory(prefix="mdl-compare-") as folder:
        program = os.path.abspath(sys.argv[3]) if len(sys.argv) > 3 else reader.build(folder)
        told = answers(program, mode, cases, folder)
    counts, differences = compare(cases, told, readings, kind_of)
    show(differences)
    print(f"{count} texts compared, seed {seed}: "
          + ", ".join(f"{kind} {number}" for kind, number in sorted(counts.items()))
          + f"; {sum(map(len, differences.values()))} differ")
    sys.exit(1 if differences else 0)


def cases(count, seed):
    """Random words and words of trees by turns."""
    rng = random.Random(seed)
    return [case(rng, place % 2 == 1) for place in range(count)]


if __name__ == "__main__":
    run("trees", cases, definition.readings, kind_of)
