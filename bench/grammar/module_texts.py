"""Random short modules: the words of random trees of all forms with up to three mutations, random words, and words that
go on behind the front of a module, each of which begins one as long as a few tries find such a word.
"""

import compare
import definition_of_modules
from compare import IDENTIFIERS, LITERALS, NUMBERS, STRINGS, TYPE_NAMES
from definition import BINARY, LEFT_OUT, MARKS, RESERVED

MOST_WORDS = 45
FRONT = ["mdl", "1.6", ";"]
OTHER_VERSIONS = ["1.7", "1.6f", "1.6d", "1.60", "01.6", "2.0", "1.0", "1.3F", "1.", "1", "1e0"]
COMMON = (IDENTIFIERS + ["float", "material", "1", "2.0", '"s"', "uniform", "varying", "let", "in", "::"]
          + ["export", "import", "using", "module", "struct", "enum", "annotation"]
          + list("<>*-+?:.") + list("()[]{},;=") * 3)


# ---- parts

def identifier(rng):
    """An identifier."""
    return [rng.choice(IDENTIFIERS)]


def value(rng, height):
    """The words of an expression of about this height: any, a chain of operators, or a let, which may stand where an
    operand is wanted."""
    height = rng.randrange(1, height + 1)
    chance = rng.random()
    if chance < 0.15:
        return compare.chain(rng, rng.randrange(1, 4), rng.sample(sorted(BINARY), 2))
    if chance < 0.3 and height > 1:
        if rng.random() < 0.4:
            return compare.let(rng, height - 1)
        one = ["int", "a", "="] + compare.tree(rng, 0, rng.randrange(1, height)) + [";"]
        made = ["let"] + rng.choice([one, ["{"] + one + ["}"]]) + ["in"] + compare.tree(rng, 0, 1)
        made = ["("] + made + [")"] if rng.random() < 0.8 else made
        return rng.choice([["-"], ["1", "+"], ["a", "?", "1", ":"], [], [], []]) + made + rng.choice(
            [[], [".", "a"], ["[", "1", "]"], ["*", "2"], ["?", "1", ":", "2"]])
    if chance < 0.36:
        inner = rng.choice([["1", "+", "2"], ["1", ".", "a"], ["let", "int", "a", "=", "1", ";", "in", "a"]])
        return rng.choice([["a", "["] + inner + ["]"], ["a", "?"] + inner + [":", "b2"]])
    return compare.tree(rng, 0, height)


def let_with_deferred(rng, height):
    """A let whose first type has a deferred size."""
    return ["let", "float", "[", "<", "n", ">", "]", "b2", "=", "1", ";", "in"] + value(rng, height)


def joined(rng, one, counts):
    """Several with commas between them."""
    made = []
    for place in range(rng.choice(counts)):
        made += [","] * (place > 0) + one()
    return made


def annotations(rng, height, chance=0.25):
    """Annotations, or none."""
    if rng.random() >= chance:
        return []

    def call():
        return compare.name(rng) + ["("] + compare.several(rng, rng.randrange(1, height + 1), True) + [")"]
    return ["[", "["] + joined(rng, call, [0, 1, 1, 2]) + ["]", "]"]


def size(rng, deferred):
    """The size of a type."""
    if rng.random() < deferred:
        return ["[", "<"] + identifier(rng) + [">", "]"]
    return ["[", rng.choice(NUMBERS), "]"] if rng.random() < 0.15 else []


def typed(rng, deferred=0.02):
    """A type and a name."""
    return compare.name(rng) + size(rng, deferred) + identifier(rng)


def parameter(rng, height, deferred):
    """A parameter; some have a default. Sizes that are deferred come together."""
    made = rng.choice([[], [], ["uniform"], ["varying"]]) + typed(rng, deferred)
    chance = rng.random()
    if chance < 0.02 + deferred / 4:
        made += ["="] + let_with_deferred(rng, height)
    elif chance < 0.4:
        made += ["="] + value(rng, height)
    if rng.random() < 0.04:
        return made + ["[", rng.choice(COMMON)]
    return made + annotations(rng, height, 0.2)


def parameters(rng, height):
    """Parameters in parentheses."""
    if rng.random() < 0.03:
        return ["(", "*", ")"]
    deferred = rng.choice([0, 0, 0, 0.3, 0.6])
    return ["("] + joined(rng, lambda: parameter(rng, height, deferred), [0, 1, 1, 2, 2, 3]) + [")"]


# ---- imports and declarations

def module_name(rng):
    """A name of a module."""
    lead = rng.choice([[], [], [], ["::"], [".", "::"], [".", ".", "::"], [".", ".", "::"] * 2])
    made = lead + identifier(rng)
    while rng.random() < 0.25:
        made += ["::"] + identifier(rng)
    return made


def import_words(rng):
    """An import."""
    if rng.random() < 0.1:
        return rng.choice([["import", rng.choice(STRINGS)], ["using", rng.choice(STRINGS)],
                           ["import"] + identifier(rng) + [";"], [rng.choice(["import", "using"]), "1.5"],
                           ["import", "a", "::", "_", ",", rng.choice(STRINGS)],
                           ["using"] + identifier(rng) + ["=", rng.choice(STRINGS), ";"],
                           ["using"] + identifier(rng) + ["import", rng.choice(STRINGS), ";"]])
    if rng.random() < 0.5:
        names = rng.choice([["*"], joined(rng, lambda: identifier(rng), [1, 1, 2, 3])])
        return ["using"] + module_name(rng) + ["import"] + names + [";"]
    return ["import"] + joined(rng, lambda: module_name(rng) + ["::"] + rng.choice([["*"], identifier(rng)]),
                               [1, 1, 2]) + [";"]


def function(rng, height):
    """A function, a prototype or a material; a few have statements."""
    if rng.random() < 0.3:
        front = ["material"] + size(rng, 0.05) + identifier(rng)
    else:
        front = typed(rng, 0.03)
    made = front + parameters(rng, height) + rng.choice([[], [], [], ["uniform"], ["varying"]])
    made += annotations(rng, height)
    chance = rng.random()
    if chance < 0.15:
        return made + ["{", "}"]
    if chance < 0.18:
        return made + ["="] + let_with_deferred(rng, height) + [";"]
    return made + (["="] + value(rng, height) if chance < 0.7 else []) + [";"]


def deferred_function(rng, height):
    """A function with a deferred size in a parameter, and mostly something behind it that may be a fault before its
    body begins."""
    faulty = ["="] + rng.choice([let_with_deferred(rng, height), let_with_deferred(rng, height) + ["++"],
                                 ["("] * height + ["1"] + [")"] * height, ["1", "+="], ["1", "["], ["1", "1"]])
    calls = ["[", "[", "a", "("] + let_with_deferred(rng, height) + [")", "]", "]"]
    behind = rng.choice([[], [], faulty, faulty, calls, [",", "int", "b2"] + faulty])
    made = [rng.choice(["material", "float"]), "b2", "(", "float", "[", "<", "n", ">", "]", "a"] + behind
    made += [")"] + rng.choice([[], [], ["uniform"]]) + rng.choice([[], [], [], calls])
    return made + rng.choice([["=", "1", ";"], ["=", "1", ";"], ["="], [";"], ["{"], []])


def variant(rng, height):
    """A variant."""
    front = rng.choice([["material"], compare.name(rng) + size(rng, 0.05)]) + identifier(rng) + ["(", "*", ")"]
    base = compare.name(rng) + ["("] + compare.several(rng, rng.randrange(1, height + 1), True) + [")"]
    return front + annotations(rng, height) + ["="] + base + [";"]


def struct(rng, height):
    """A struct."""
    fields = [word for _ in range(rng.choice([0, 1, 1, 2])) for word in parameter(rng, height, 0.05) + [";"]]
    return ["struct"] + identifier(rng) + annotations(rng, height) + ["{"] + fields + ["}", ";"]


def enum(rng, height):
    """An enum."""
    def one():
        return identifier(rng) + rng.choice([[], ["=", rng.choice(NUMBERS)]]) + annotations(rng, height, 0.2)
    return (["enum"] + identifier(rng) + annotations(rng, height, 0.2) + ["{"] + joined(rng, one, [1, 1, 2, 3])
            + ["}", ";"])


def annotation(rng, height):
    """The declaration of an annotation."""
    return ["annotation"] + identifier(rng) + parameters(rng, height) + annotations(rng, height) + [";"]


def declaration(rng, height):
    """A declaration."""
    exported = ["export"] if rng.random() < 0.25 else []
    if rng.random() < 0.03:
        return ["export", "using"] + module_name(rng) + ["import", "*", ";"]
    form = rng.choice([function] * 9 + [deferred_function] + [variant, struct, enum, annotation] * 2)
    return exported + form(rng, height)


# ---- whole texts

def module(rng, height):
    """The words of a module."""
    made = ["mdl", rng.choice(OTHER_VERSIONS) if rng.random() < 0.08 else "1.6", ";"]
    for _ in range(rng.choice([0, 0, 0, 0, 1, 1, 2])):
        made += import_words(rng)
    if rng.random() < 0.08:
        made += ["module"] + annotations(rng, height, 1) + [";"]
        made += import_words(rng) if rng.random() < 0.1 else []
    for _ in range(rng.choice([0, 1, 1, 1, 1, 2, 2, 3])):
        made += declaration(rng, height)
    return made


def words_of_a_tree(rng, height):
    """The words of a random module with mutations."""
    while True:
        made = compare.mutated(rng, module(rng, height), COMMON)
        if len(made) <= MOST_WORDS:
            return made


def deferred_words(rng, height):
    """The words of a function with a deferred size, mostly without mutations."""
    made = FRONT + deferred_function(rng, height)
    return compare.mutated(rng, made, COMMON) if rng.random() < 0.3 else made


def random_words(rng, height):
    """Words of all tables, mostly behind a version line."""
    every = sorted(MARKS) + sorted(RESERVED) + LITERALS
    made = list(FRONT) if rng.random() < 0.9 else []
    for _ in range(rng.randrange(0, 8)):
        made.append(rng.choice(every if rng.random() < 0.15 else COMMON))
    return made


def begins(words):
    """Whether a module begins with the words."""
    search = definition_of_modules.ModuleSearch(words)
    return search.opened(len(words) + 2)[1][len(words)]


def grown_words(rng, height):
    """The front of a random module, and words behind it that mostly let it go on."""
    whole = module(rng, height)
    made = whole[:rng.randrange(3, min(len(whole), 25) + 1)]
    for _ in range(rng.randrange(0, 14)):
        tries = [rng.choice(COMMON if rng.random() < 0.9 else sorted(LEFT_OUT) + TYPE_NAMES) for _ in range(8)]
        made.append(next((word for word in tries if begins(made + [word])), tries[0]))
    return made + [rng.choice(COMMON) for _ in range(rng.choice([0, 1, 1, 2]))]


KINDS = [grown_words, grown_words, random_words, deferred_words] + [words_of_a_tree] * 8


def case(rng, place):
    """A limit, words, the text that they stand in, and the places of their bytes."""
    height = rng.randrange(1, 5)
    words = KINDS[place % len(KINDS)](rng, height)
    limit = rng.choice([height, height, max(1, height - 1), rng.randrange(1, 5)])
    return limit, words, *compare.laid_out(rng, words)
