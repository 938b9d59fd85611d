"""What tokens are by the definition of expressions, found by search over the forms and their heights.

The forms are listed once, in `productions`, after crates/mdl_syntax/specs: what each writes (Written), the level
that its parts have at least (Levelled, Levels) and its height (Heights). A `Search` goes through them for a list of
words, cut at each place: behind a cut any word may follow. So it finds with the same steps which words are an
expression, and which begin one. `readings` is crates/expression_grammar/specs/{Opens,Faults,Readings} on top of it, and
`placed` is crates/mdl_syntax/specs/Placed. Nothing here reads words from left to right with a state.
"""

import functools
import os
import re

import fuzz_lexer
from program import TOP


def listed(name):
    """The texts of a list of Levels.antt, each with its number, if it has one."""
    with open(os.path.join(TOP, "crates", "mdl_syntax", "specs", "Levels.antt"), encoding="utf-8") as file:
        body = file.read().split(f"\n{name} =")[1].split("[]")[0]
    return re.findall(r'codes "([^"]+)"(?:, (\d+))?', body)


MARKS = fuzz_lexer.MARKS
RESERVED = fuzz_lexer.RESERVED
LEFT_OUT = {**fuzz_lexer.table("reserved_left_out"), **fuzz_lexer.table("marks_left_out")}
UNARY = [text for text, _ in listed("unary_operators")]
BINARY = {text: int(level) for text, level in listed("binary_operators")}
TYPE_NAMES = [text for text, _ in listed("type_names")]
HIGHEST_LEVEL = 14


@functools.lru_cache(maxsize=None)
def classes(word):
    """The names under which the forms below ask for this word: its own text, or what it is."""
    if word in MARKS or word in RESERVED:
        named = {word}
        named.update(["type name"] if word in TYPE_NAMES else [])
        named.update(["unary"] if word in UNARY else [])
        named.update([("binary", BINARY[word])] if word in BINARY else [])
        named.update(["literal"] if word in ("true", "false") else [])
        return frozenset(named)
    if fuzz_lexer.is_name(word):
        return frozenset(["identifier"])
    if fuzz_lexer.integer(word) is not None:
        return frozenset(["literal", "number"])
    return frozenset(["literal", "string literal" if fuzz_lexer.real(word) is None else "real"])


# ---- the forms. A symbol is a word's class, or a tuple of what is meant, a level or a flag, and the most height.

def expression(level, height):
    """An expression of at least this level and at most this height."""
    return ("expression", level, height)


def tree_productions(level, height):
    """The forms of exactly this level: for each what it is called, and its parts."""
    if height < 1:
        return
    low = height - 1
    name = ("name", None, None)
    if level == 14:
        yield "literal", ["literal"]
        yield "named", [name]
        yield "parenthesized", ["(", expression(0, low), ")"]
        yield "call", [name, "(", ("arguments", None, low), ")"]
        yield "array", [name, "[", ("number", None, None), "]", "(", ("elements", None, low), ")"]
    elif level == 13:
        yield "indexed", [expression(13, low), "[", expression(0, low), "]"]
        yield "field", [expression(13, low), ".", "identifier"]
    elif level == 12:
        yield "unary", ["unary", expression(12, low)]
    elif level >= 2:
        yield "binary", [expression(level, low), ("binary", level), expression(level + 1, low)]
    elif level == 1:
        yield "conditional", [expression(2, low), "?", expression(0, low), ":", expression(1, low)]
    else:
        yield "bare let", ["let", ("initializer", None, low), "in", expression(0, low)]
        yield "let in braces", ["let", "{", ("initializers", None, low), "}", "in", expression(0, low)]


def list_productions(kind, after_named, height):
    """Arguments, none of them plain behind a named one; elements; initializers."""
    if kind in ("arguments", "elements", "more arguments", "more elements", "more initializers"):
        yield "none", []
    comma = [","] if kind.startswith("more") else []
    if kind in ("arguments", "more arguments"):
        named = ("named argument", None, height)
        yield "and", comma + [named, ("more arguments", True, height)]
        if not after_named:
            yield "and", comma + [("plain argument", None, height), ("more arguments", False, height)]
    elif kind in ("elements", "more elements"):
        yield "and", comma + [expression(0, height), ("more elements", None, height)]
    elif kind in ("initializers", "more initializers"):
        yield "and", [("initializer", None, height), ("more initializers", None, height)]


def part_productions(kind, height):
    """The parts of expressions that are none themselves."""
    name = ("name", None, None)
    if kind == "plain argument":
        yield kind, [expression(0, height)]
    elif kind == "named argument":
        yield kind, ["identifier", ":", expression(0, height)]
    elif kind == "initializer":
        yield kind, [("frequency", None, None), ("type", None, None), "identifier", "=", expression(0, height), ";"]
    elif kind == "frequency":
        yield from (("none", []), ("one", ["uniform"]), ("one", ["varying"]))
    elif kind == "type":
        yield "one", [name]
        yield "sized", [name, "[", "number", "]"]
        yield "deferred", [name, "[", "<", "identifier", ">", "]"]
    elif kind == "number":
        yield from (("none", []), ("one", ["number"]))
    elif kind == "name":
        yield "word", ["type name"]
        yield "relative", [("parts", None, None)]
        yield "absolute", ["::", ("parts", None, None)]
    elif kind == "parts":
        yield "last", ["identifier"]
        yield "more", ["identifier", "::", ("parts", None, None)]


def is_word(symbol):
    """Whether the symbol is a class of words."""
    return isinstance(symbol, str) or symbol[0] == "binary"


# the forms of symbols that are no parts of expressions, by their kinds: definition_of_modules.py puts them here
FURTHER = {}


@functools.lru_cache(maxsize=None)
def productions(symbol):
    """What a symbol stands for: for each way its name, and the symbols in order."""
    kind, level, height = symbol
    if kind == "expression":
        higher = [("higher", [expression(level + 1, height)])] if level < HIGHEST_LEVEL else []
        made = higher + list(tree_productions(level, height))
    elif kind in FURTHER:
        made = FURTHER[kind](height)
    else:
        made = list(list_productions(kind, level, height)) + list(part_productions(kind, height))
    return [(name, tuple(parts)) for name, parts in made]


@functools.lru_cache(maxsize=None)
def stands_for_some(symbol):
    """Whether some words are what the symbol stands for."""
    return is_word(symbol) or any(all(map(stands_for_some, parts)) for _, parts in productions(symbol))


# ---- the search

class Search:
    """The words of one text. A set of ends is a number: bit k says that the words up to k are all that were asked
    for, and bit size + k that the words are cut before k, and what was asked for goes on behind the cut."""

    def __init__(self, words):
        """Takes the texts of the words."""
        self.count = len(words)
        self.size = self.count + 1
        self.whole = (1 << self.size) - 1
        self.cut = self.whole << self.size
        self.places = {}
        for place, word in enumerate(words):
            for name in classes(word):
                self.places[name] = self.places.get(name, 0) | 1 << place
        self.words = words
        self.known_ends = {}
        self.known_trees = {}

    def within(self, symbol, place):
        """The symbol with no more height than the words from here can use: on the way to the highest part each
        form has a word of its own among them, or its first part alone would do; the last one may stand behind."""
        kind, level, height = symbol
        return symbol if height is None else (kind, level, min(height, self.count - place + 2))

    def ends(self, symbol, place):
        """The ends of all that the symbol stands for, from this place on."""
        symbol = self.within(symbol, place)
        key = (symbol, place)
        if key not in self.known_ends:
            found = 0
            for _, parts in productions(symbol):
                found |= self.through(parts, 1 << place)
            self.known_ends[key] = found
        return self.known_ends[key]

    def through(self, parts, ends):
        """The ends behind all of these symbols, from these ends on."""
        for symbol in parts:
            if is_word(symbol):
                whole = ends & self.whole
                ends = (whole & self.places.get(symbol, 0)) << 1 | whole << self.size | ends & self.cut
            else:
                behind = ends & self.cut if stands_for_some(symbol) else 0
                for place in self.bits(ends & self.whole):
                    behind |= self.ends(symbol, place)
                ends = behind
            if not ends:
                break
        return ends

    @staticmethod
    def bits(number):
        """The places of the bits."""
        while number:
            yield (number & -number).bit_length() - 1
            number &= number - 1

    def opens(self, height):
        """For each number of words whether so many begin an expression of this height; and whether all are one."""
        ends = self.ends(expression(0, height), 0)
        either = ends | ends >> self.size
        return [bool(either >> k & 1) for k in range(self.size)], bool(ends >> self.count & 1)

    def trees(self, symbol, first, end):
        """All ways in which the words between two places are what the symbol stands for."""
        if is_word(symbol):
            return [self.words[first]] if end == first + 1 and self.places.get(symbol, 0) >> first & 1 else []
        symbol = self.within(symbol, first)
        if not self.ends(symbol, first) >> end & 1:
            return []
        key = (symbol, first, end)
        if key not in self.known_trees:
            made = []
            for name, parts in productions(symbol):
                for several in self.several(parts, first, end):
                    made.append(several[0] if name == "higher" else (name, *several))
            self.known_trees[key] = made
        return self.known_trees[key]

    def several(self, parts, first, end):
        """All ways for several symbols one behind the other."""
        if not parts:
            return [()] if first == end else []
        ends = self.through(parts[:1], 1 << first) & self.whole
        return [(one, *others) for place in self.bits(ends) if place <= end
                if self.through(parts[1:], 1 << place) >> end & 1
                for others in self.several(parts[1:], place, end)
                for one in self.trees(parts[0], first, place)]


# ---- trees: nested tuples, as the productions name them, with all words in order

TOLD = {"literal": "lit", "named": "name", "parenthesized": "paren", "conditional": "cond", "indexed": "index",
        "bare let": "let", "let in braces": "let"}


def write(tree):
    """The words that a tree writes."""
    return [tree] if isinstance(tree, str) else [word for part in tree[1:] for word in write(part)]


def has_deferred(tree):
    """Whether the size of a type is deferred in it."""
    return not isinstance(tree, str) and (tree[0] == "deferred" or any(map(has_deferred, tree[1:])))


def place_of(tokens):
    """From the first byte of the first token to the last byte of the last one. Tokens are pairs of offsets."""
    return f"{tokens[0][0]}-{tokens[-1][1]}" if tokens else "0-0"


def split(tree, tokens):
    """The parts of a tree, each with the tokens of the words that it writes."""
    behind = 0
    for part in tree[1:]:
        length = len(write(part))
        yield part, tokens[behind:behind + length]
        behind += length


def items(several, tokens):
    """The items of a list, each with its tokens, without commas."""
    while several[0] != "none":
        *_, one, others = split(several, tokens)
        yield one
        several, tokens = others


def placed_word(word, tokens):
    """An identifier with its place."""
    return f"{word}@{place_of(tokens)} "


def placed_name(name, tokens):
    """A name, with its place and those of its parts."""
    if name[0] == "word":
        return f"(as {place_of(tokens)} word {RESERVED[name[1]]} ) "
    told = ":: " if name[0] == "absolute" else ""
    words = [(word, [token]) for word, token in zip(write(name), tokens) if word != "::"]
    return f"(as {place_of(tokens)} {told}" + "".join(placed_word(*word) for word in words) + ") "


def placed_type(ty, tokens):
    """A type, with its place and those of its name and of a deferred size."""
    name, *size = split(ty, tokens)
    told = {"one": lambda: "- ", "sized": lambda: f"{fuzz_lexer.integer(size[1][0])} ",
            "deferred": lambda: "deferred " + placed_word(*size[2])}[ty[0]]()
    return f"(type {place_of(tokens)} {placed_name(*name)}{told}) "


def placed_argument(argument, tokens):
    """An argument, with its place and those of its label and value."""
    *label, value = split(argument, tokens)
    told = placed_word(*label[0]) if label else "- "
    return f"(arg {place_of(tokens)} {told}{placed(*value)}) "


def placed_initializer(initializer, tokens):
    """An initializer, with its place, `;` among it, and those of its parts."""
    frequency, ty, name, _, value, _ = split(initializer, tokens)
    told = "".join(write(frequency[0])) or "-"
    return f"(init {place_of(tokens)} {told} {placed_type(*ty)}{placed_word(*name)}{placed(*value)}) "


def literal(word):
    """A literal as its form and value."""
    if word in ("true", "false"):
        return f"{word} "
    told = fuzz_lexer.word(word)
    if told[0] == "i":
        return f"int {int(told[1:], 16)} "
    if told[0] == "s":
        return f"str {told[1:]} "
    return {"f": "float ", "d": "double "}[told[0]] + bytes.fromhex(told[1:]).decode() + " "


def placed_parts(tree, tokens):
    """The parts of a tree, each with its place."""
    form, parts = tree[0], list(split(tree, tokens))
    trees = [part for part in parts if not isinstance(part[0], str)]
    if form == "literal":
        return literal(tree[1])
    if form in ("unary", "binary"):
        operator = tree[1] if form == "unary" else tree[2]
        return f"{MARKS[operator]} " + "".join(placed(*part) for part in trees)
    if form == "field":
        return placed(*parts[0]) + placed_word(*parts[2])
    if form in ("named", "call", "array"):
        told = placed_name(*parts[0])
        if form == "call":
            told += "".join(placed_argument(*item) for item in items(*parts[2]))
        if form == "array":
            size = write(tree[3])
            told += f"{fuzz_lexer.integer(size[0])} " if size else "- "
            told += "".join(placed(*item) for item in items(*parts[5]))
        return told
    if form == "bare let":
        return "bare " + placed_initializer(*parts[1]) + placed(*parts[3])
    if form == "let in braces":
        return "braces " + "".join(placed_initializer(*item) for item in items(*parts[2])) + placed(*parts[5])
    return "".join(placed(*part) for part in trees)


def placed(tree, tokens):
    """The tree as text, each part with the place of the tokens that it writes."""
    return f"({TOLD.get(tree[0], tree[0])} {place_of(tokens)} {placed_parts(tree, tokens)}) "


# ---- readings

def faults(words, search, limit):
    """All faults with a name of their own, each as its place and what it is; and the first place that is bad."""
    count = len(words)
    low, low_whole = search.opens(limit)
    any_height, any_whole = search.opens(count + 2)
    opens_low, opens_to = low[1:] + [low_whole], any_height[1:] + [any_whole]
    named = []
    for place in range(count + 1):
        if opens_to[place] and not opens_low[place]:
            named.append((place, f"deep {place}"))
        if place < count and any_height[place] and words[place] in LEFT_OUT:
            named.append((place, f"left {place} {words[place]}"))
        if 0 < place < count and words[place - 1:place + 1] == ["[", "<"] and any_height[place + 1]:
            named.append((place, f"left {place} deferred-size"))
    return named, next((place for place in range(count + 1) if not opens_to[place]), None)


def readings(words, tokens, limit):
    """All readings of the words, whose tokens have these places: there is one, as is proved."""
    search = Search(words)
    named, bad = faults(words, search, limit)
    found = [told for place, told in named if place == named[0][0]]
    if not named and bad is not None:
        found.append(f"bad {bad} of 0")
    trees = search.trees(expression(0, limit), 0, len(words))
    for tree in trees:
        if write(tree) != words:
            found.append("a tree that writes other words")
    if len(trees) > 1:
        found.append(f"{len(trees)} trees")
    found.extend(f"tree {placed(tree, tokens)}" for tree in trees if not has_deferred(tree))
    return found
