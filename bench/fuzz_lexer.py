#!/usr/bin/env python3
"""Compares the built lexer with a slow reader that is written straight from its definition.

usage: bench/fuzz_lexer.py [COUNT] [SEED]      (200,000 texts and seed 1 where they aren't given)

A program around `lex` is made in a temporary folder of bench/lexer/dump.txt and copies of the crates, proved
and built there, and run on all texts at once. The reader below takes each front of what is left, asks whether
it is a separator or a word by the sentences of crates/mdl_lexer/specs, and goes on behind the longest: it has
no scanner, and so takes a time that grows with the cube of a text's length.
"""

import collections
import os
import random
import re
import subprocess
import sys
import tempfile
import unicodedata

sys.dont_write_bytecode = True

import program
from program import TOP

CRATES = ("case_table", "mdl_lexer")
MOST_INTEGER = 4294967295
ESCAPES = {"a": 7, "b": 8, "f": 12, "n": 10, "r": 13, "t": 9, "v": 11, "\\": 92, "'": 39, '"': 34}


# ---- the tables, from the definitions

def table(name):
    """The rows of a table of specs/WordTables.antt: its words, each with its number."""
    with open(os.path.join(TOP, "crates", "mdl_lexer", "specs", "WordTables.antt"), encoding="utf-8") as file:
        body = file.read().split(f"\n{name} =\n")[1].split("[]")[0]
    return {word: int(number) for word, number in re.findall(r'\(codes "([^"]+)", (\d+)\)', body)}


RESERVED = {**table("reserved_in_use"), **table("reserved_left_out")}
MARKS = {**table("marks_in_use"), **table("marks_left_out")}


# ---- the forms, sentence by sentence

def is_digits(text):
    return text != "" and all("0" <= c <= "9" for c in text)


def is_octal(text):
    return text != "" and all("0" <= c <= "7" for c in text)


def is_hexadecimal(text):
    return text != "" and all(c in "0123456789abcdefABCDEF" for c in text)


def starts_name(c):
    return c == "_" or c.isidentifier()


def continues_name(c):
    return ("_" + c).isidentifier()


def is_separator(text):
    if len(text) == 1 and text in " \t\n\f\r":
        return True
    if text.startswith("//"):
        return "\n" not in text
    return len(text) >= 4 and text.startswith("/*") and text[2:].find("*/") == len(text) - 4


def is_name(text):
    return text != "" and starts_name(text[0]) and all(continues_name(c) for c in text[1:])


def integer(text):
    if is_digits(text) and (len(text) == 1 or text[0] != "0"):
        return int(text)
    if text[:1] == "0" and is_octal(text[1:]):
        return int(text[1:], 8)
    if text[:1] == "0" and text[1:2] in ("x", "X") and is_hexadecimal(text[2:]):
        return int(text[2:], 16)
    return None


def is_pointed(text):
    return any(text[i] == "." and is_digits(text[:i] + text[i + 1:]) for i in range(len(text)))


def is_exponent(text):
    return text[:1] in ("e", "E") and (is_digits(text[1:]) or (text[1:2] in ("+", "-") and is_digits(text[2:])))


def is_unsuffixed(text):
    return is_pointed(text) or any(
        is_exponent(text[i:]) and (is_pointed(text[:i]) or is_digits(text[:i])) for i in range(len(text)))


def real(text):
    """The text without its suffix, and whether it is a double."""
    if is_unsuffixed(text):
        return text, False
    if text[-1:] in ("f", "F", "d", "D") and is_unsuffixed(text[:-1]):
        return text[:-1], text[-1] in "dD"
    return None


def is_octal_escape(digits):
    return 1 <= len(digits) <= 3 and is_octal(digits) and int(digits, 8) <= 127


def body(text):
    """What stands between the quotes stands for this, if it is the body of a string."""
    meaning = ""
    while text != "":
        c = text[0]
        if c not in '"\\\n':
            meaning, text = meaning + c, text[1:]
        elif c == "\\" and text[1:2] in ESCAPES and text[1:2] != "":
            meaning, text = meaning + chr(ESCAPES[text[1]]), text[2:]
        elif c == "\\" and text[1:2] == "x" and is_hexadecimal(text[2:4]) and len(text[2:4]) == 2 \
                and int(text[2:4], 16) < 128:
            meaning, text = meaning + chr(int(text[2:4], 16)), text[4:]
        elif c == "\\":
            lengths = [n for n in (1, 2, 3) if len(text[1:1 + n]) == n and is_octal_escape(text[1:1 + n])]
            if not lengths:
                return None
            digits = text[1:1 + max(lengths)]
            meaning, text = meaning + chr(int(digits, 8)), text[1 + len(digits):]
        else:
            return None
    return meaning


def string(text):
    if len(text) < 2 or text[0] != '"' or text[-1] != '"':
        return None
    return body(text[1:-1])


def hexed(text):
    return text.encode("utf-8").hex()


def word(text):
    """What the word is, if the text is one."""
    if text in RESERVED:
        return f"k{RESERVED[text]:08x}"
    if text in MARKS:
        return f"m{MARKS[text]:08x}"
    if is_name(text):
        return f"w{hexed(text)}"
    if (value := integer(text)) is not None:
        return f"i{value:08x}"
    if (kept := real(text)) is not None:
        return ("d" if kept[1] else "f") + hexed(kept[0])
    if (meaning := string(text)) is not None:
        return f"s{hexed(meaning)}"
    return None


def goes_on(rest):
    return rest != "" and (continues_name(rest[0]) or (rest[0] == "." and is_digits(rest[1:2])))


def expected(data):
    """What the definition gives for the bytes."""
    try:
        text = data.decode("utf-8")
    except UnicodeDecodeError as error:
        return f"NotUtf8 {error.start:08x}"
    place = 0
    if text.startswith("\ufeff"):
        place = 1
    tokens = ""
    while place < len(text):
        ends = [end for end in range(place + 1, len(text) + 1)
                if is_separator(text[place:end]) or word(text[place:end]) is not None]
        at = len(text[:place].encode("utf-8"))
        if not ends:
            return f"BadToken {at:08x}"
        end = max(ends)
        form = text[place:end]
        if not is_separator(form):
            what = word(form)
            if what[0] in "ifd" and goes_on(text[end:]):
                return f"BadToken {at:08x}"
            if what[0] == "i" and int(what[1:], 16) > MOST_INTEGER:
                return f"IntRange {at:08x}"
            tokens += f"{what}:{at:08x}-{at + len(form.encode('utf-8')):08x} "
        place = end
    return tokens


# ---- texts

PIECES = (
    sorted(RESERVED) + sorted(MARKS) * 3
    + ["0", "1", "7", "8", "9", "00", "017", "08", "0x1f", "0XA", "4294967295", "4294967296", "1.", ".5", "1.5",
       "1e5", "1.e+5", "5E-07", "1.0f", "1.0d", "1f", "0x", "e", "E", "x", "f", "d", ".", "..", "+", "-"] * 2
    + [" ", "  ", "\t", "\n", "\r", "\f", "//", "/*", "*/", "*", "/", "\ufeff", "$", "@", "#", "`", "\0", "\x7f"] * 3
    + ['"', '""', '"a"', "\\", "\\n", "\\x41", "\\x80", "\\200", "\\1778", "\\8", "\\q", "'", '"\\', "\\\\"] * 3
    + ["a", "b2", "_", "_a", "\u00e9", "\u0301", "\u4e2d", "\u2028", "\u00b7", "\U0001d4d0", "\u2118", "\u3000"] * 3)


def random_text(rng):
    return "".join(rng.choice(PIECES) for _ in range(rng.randrange(1, 7))).encode("utf-8")


def mutated(rng, data):
    data = bytearray(data)
    for _ in range(rng.randrange(1, 4)):
        place = rng.randrange(len(data) + 1)
        kind = rng.randrange(3)
        if kind == 0:
            data.insert(place, rng.randrange(256) if rng.random() < 0.3 else rng.choice(b" \n\"\\/*.0189axe+-<>=&|"))
        elif kind == 1 and place < len(data):
            del data[place]
        elif place < len(data):
            data[place] ^= 1 << rng.randrange(8)
    return bytes(data)


def texts(count, seed):
    rng = random.Random(seed)
    made = []
    while len(made) < count:
        text = random_text(rng)
        made.append(text)
        made.append(mutated(rng, text))
    return made[:count]


def is_known(data):
    """Whether this Python's tables know each character: a later Unicode may make others parts of names."""
    return all(unicodedata.category(c) != "Cn" for c in data.decode("utf-8", "replace"))


def long_texts(count, seed):
    """Texts too long for the slow reader: they only have to be answered."""
    rng = random.Random(seed)
    return [mutated(rng, b"".join(random_text(rng) for _ in range(rng.randrange(50, 500)))) for _ in range(count)]


def build(folder):
    """A program around `lex`, from copies of the crates."""
    program.copy_crates(folder, CRATES)
    return program.build(folder, "lexer_dump", ["mdl_lexer"], os.path.join(TOP, "bench", "lexer", "dump.txt"))


def main():
    count = int(sys.argv[1]) if len(sys.argv) > 1 else 200000
    seed = int(sys.argv[2]) if len(sys.argv) > 2 else 1
    cases = texts(count, seed)
    long_cases = long_texts(count // 100, seed)
    with tempfile.TemporaryDirectory(prefix="mdl-fuzz-") as folder:
        reader = build(folder)
        lines = "".join(case.hex() + "\n" for case in cases + long_cases)
        done = subprocess.run([reader], input=lines, capture_output=True, text=True, timeout=600)
    if done.returncode != 0:
        sys.exit(f"the program ended with {done.returncode}: {done.stderr[-500:]}")
    answers = done.stdout.split("\n")[:-1]
    if len(answers) != len(cases) + len(long_cases):
        sys.exit(f"{len(cases) + len(long_cases)} texts, and {len(answers)} answers")
    kinds = collections.Counter()
    wrong = unknown = 0
    for case, answer in zip(cases, answers):
        if not is_known(case):
            unknown += 1
            continue
        wanted = expected(case)
        kinds[answer.split(" ")[0] if answer[:1].isupper() else "tokens"] += 1
        if answer != wanted:
            wrong += 1
            if wrong <= 10:
                print(f"{case!r}: {answer!r}, and the definition gives {wanted!r}")
    print(f"{len(cases)} texts compared, seed {seed}: "
          + ", ".join(f"{kind} {number}" for kind, number in sorted(kinds.items())) + f"; {wrong} differ; "
          + f"{unknown} left out for characters that Unicode {unicodedata.unidata_version} doesn't know; "
          + f"{len(long_cases)} long texts answered")
    sys.exit(1 if wrong else 0)


if __name__ == "__main__":
    main()
