"""What tokens are by the definition of modules, found by the search of definition.py over more forms.

The forms are listed once, in `FORMS`, after crates/mdl_syntax/specs: what each writes (WrittenModules) and which parts
it has (LevelledModules, and AcceptedModules for heights). `faults` says where a fault stands: each rule looks at the
words before a place, or up to it, and asks the search whether some module begins so. `placed_module` is PlacedModules.
Nothing here reads words from left to right with a state.
"""

import sys

import definition
import fuzz_lexer
from definition import LEFT_OUT, Search, expression, has_deferred, items, place_of, placed, placed_argument
from definition import placed_name, placed_type, placed_word, split, write

sys.setrecursionlimit(30000)

VERSIONS = [f"1.{number}" for number in range(7)]
NAME, TYPE, FREQUENCY = ("name", None, None), ("type", None, None), ("frequency", None, None)
PARTS = ("parts", None, None)
# words that stand in no expression, and those that stand in one within a `let` alone
NOT_IN_EXPRESSIONS = {"mdl", "import", "module", "using", "export", "struct", "enum", "annotation", *LEFT_OUT}
BEHIND_LET = {";", "{", "}", "=", "in", "uniform", "varying"}


# ---- the forms: for each kind of symbol, by the most height of expressions, its ways and their parts

def part(kind, height=None):
    """A symbol of this kind."""
    return (kind, None, height)


def several(kind, name, between=()):
    """The forms of a list: none or more of this kind, with these words between them."""
    more = f"more {name}" if between else name

    def first(height):
        return [("none", []), ("and", [part(kind, height), part(more, height)])]

    def others(height):
        return [("none", []), ("and", [*between, part(kind, height), part(more, height)])]
    return {name: first, more: others}


def nonempty(kind, name):
    """The forms of a list of one or more with commas between them; `more ..` is listed beside it."""
    return {name: lambda height: [("and", [part(kind, height), part(f"more {name}", height)])],
            f"more {name}": several(kind, name, [","])[f"more {name}"]}


def declarations(height):
    """The forms of declarations. A material is one too where its type says so, which `readings` takes out."""
    export, annotations = part("export"), part("annotations", height)
    parameters, body = part("parameters", height), expression(0, height)
    base = [NAME, "(", ("arguments", None, height), ")"]
    return [("material", [export, "material", "identifier", parameters, annotations, "=", body, ";"]),
            ("variant", [export, TYPE, "identifier", "(", "*", ")", annotations, "=", *base, ";"]),
            ("function", [export, TYPE, "identifier", parameters, FREQUENCY, annotations, part("value", height), ";"]),
            ("struct", [export, "struct", "identifier", annotations, "{", part("fields", height), "}", ";"]),
            ("enum", [export, "enum", "identifier", annotations, "{", part("enum values", height), "}", ";"]),
            ("annotation", [export, "annotation", "identifier", parameters, annotations, ";"])]


FORMS = {
    "module": lambda height: [("module", ["mdl", "real", ";", part("imports"), part("own", height),
                                          part("declarations", height)])],
    **several("import", "imports"),
    "import": lambda height: [("import", ["import", part("qualified names"), ";"]),
                              ("using", ["using", part("module name"), "import", part("used"), ";"])],
    **nonempty("qualified", "qualified names"),
    "qualified": lambda height: [("qualified", [part("module name"), "::", part("last")])],
    "last": lambda height: [("all", ["*"]), ("one", ["identifier"])],
    "module name": lambda height: [("module name", [part("lead"), PARTS])],
    "lead": lambda height: [("bare", []), ("absolute", ["::"]), ("here", [".", "::"]), ("up", [part("steps")])],
    "steps": lambda height: [("step", [".", ".", "::"]), ("steps", [".", ".", "::", part("steps")])],
    "used": lambda height: [("all", ["*"]), ("some", [part("identifiers")])],
    **nonempty("single", "identifiers"),
    "single": lambda height: [("single", ["identifier"])],
    "own": lambda height: [("none", []), ("own", ["module", part("bracketed", height), ";"])],
    "annotations": lambda height: [("none", []), ("some", [part("bracketed", height)])],
    "bracketed": lambda height: [("bracketed", ["[", "[", part("calls", height), "]", "]"])],
    **several("call", "calls", [","]),
    "call": lambda height: [("call", [NAME, "(", ("arguments", None, height), ")"])],
    **several("declaration", "declarations"),
    "declaration": declarations,
    "export": lambda height: [("none", []), ("exported", ["export"])],
    "parameters": lambda height: [("parameters", ["(", part("parameter list", height), ")"])],
    **several("parameter", "parameter list", [","]),
    "parameter": lambda height: [("parameter", [FREQUENCY, TYPE, "identifier", part("value", height),
                                                part("annotations", height)])],
    "value": lambda height: [("none", []), ("some", ["=", expression(0, height)])],
    **several("field", "fields"),
    "field": lambda height: [("field", [part("parameter", height), ";"])],
    **nonempty("enum value", "enum values"),
    "enum value": lambda height: [("enum value", ["identifier", part("enum number"), part("annotations", height)])],
    "enum number": lambda height: [("none", []), ("some", ["=", "number"])],
    # parameters with a comma behind each
    "parameters before": lambda height: [("none", []), ("and", [part("parameter", height), ",",
                                                                part("parameters before", height)])],
}
definition.FURTHER.update(FORMS)

# what leads to a declaration
FRONT = ["mdl", "real", ";", part("imports")]


class ModuleSearch(Search):
    """The search over modules. Expressions alone are bounded by the words that are left for them."""

    def __init__(self, words):
        """Takes the texts of the words, and finds for each place where an expression, or the initializers of a `let`,
        from there on end at last."""
        super().__init__(words)
        self.border = self.initializers_border = (self.count,)
        for word in reversed(words):
            place = self.count - len(self.border)
            last = place if word in NOT_IN_EXPRESSIONS else self.initializers_border[0]
            inner = last if word == "let" else place if word in BEHIND_LET else min(last, self.border[0])
            self.initializers_border, self.border = (last, *self.initializers_border), (inner, *self.border)

    def within(self, symbol, place):
        """An expression, or a list of them, with no more height than the words from here can use."""
        kind, level, height = symbol
        if height is None or kind in FORMS:
            return symbol
        border = self.initializers_border if "initializer" in kind else self.border
        return (kind, level, min(height, border[place] - place + 2))

    def behind(self, symbols, place):
        """The places behind all of these symbols, from this place on."""
        return list(self.bits(self.through(symbols, 1 << place) & self.whole)) if 0 <= place <= self.count else []

    def opened(self, height):
        """For each place whether the words up to it begin a module of this height, the end of the text among them;
        and for each number of words whether they do."""
        ends = self.ends(part("module", height), 0)
        either = ends | ends >> self.size
        begun = [bool(either >> place & 1) for place in range(self.size)]
        return begun[1:] + [bool(ends >> self.count & 1)], begun

    def declared(self, symbols, height):
        """The places behind these symbols, where they begin a declaration."""
        front = FRONT + [part("own", height), part("declarations", height), part("export")]
        return self.behind(front + symbols, 0)


# ---- faults

def is_version(word):
    """Whether a real is a version that is read."""
    text, double = fuzz_lexer.real(word)
    return text in VERSIONS and not double


def in_parameters(search, place, height):
    """Of what the parameters are in which the size of a type is deferred by `<` at this place, if of any."""
    front = ["identifier", "(", part("parameters before", height), FREQUENCY, NAME, "[", "<"]
    if place + 1 in search.declared(["annotation"] + front, height):
        return "an annotation"
    return "a function" if place + 1 in search.declared([TYPE] + front, height) else ""


def bodies(search, place, height):
    """The places of `=` before the body of a function with such a parameter."""
    more = [part("value", height), part("annotations", height), part("more parameter list", height)]
    rest = ["identifier", ">", "]", "identifier", *more, ")", FREQUENCY, part("annotations", height), "="]
    return [end - 1 for end in search.behind(rest, place + 1)]


def is_left_out_size(search, place, height, low):
    """Whether the size that is deferred at `<` is left out: it isn't in a parameter of an annotation or a function
    without a body. In one of a function with a body, all words up to `=` before the body are low enough."""
    owner = in_parameters(search, place, height)
    if owner == "a function":
        return any(low[body] for body in bodies(search, place, height))
    return owner == ""


def left_out_text(search, place, height, low):
    """The text of the left-out form that begins at a place, where the words before it begin a module."""
    words = search.words
    before = ["", ""] + words[:place]
    word = words[place]
    if word in LEFT_OUT:
        return word
    if "string literal" in definition.classes(word) and before[-1] in ("import", "using"):
        return "string-name"
    if word == "using" and before[-1] == "export":
        return "re-export"
    if word == "=" and before[-2] == "using" and "identifier" in definition.classes(before[-1]):
        return "alias"
    if word == "<" and before[-1] == "[" and search.any_to[place]:
        return "deferred-size" if is_left_out_size(search, place, height, low) else None
    return None


def faults(search, limit):
    """All faults with a name of their own, each as its place and what it is; and the first place that is bad."""
    words, count, high = search.words, search.count, search.count + 2
    low, _ = search.opened(limit)
    search.any_to, begun = search.opened(high)
    heads = search.declared([TYPE, "identifier", part("parameters", high), FREQUENCY, part("annotations", high)], high)
    named = []
    for place in range(count + 1):
        if search.any_to[place] and not low[place]:
            named.append((place, f"deep {place}"))
        if place == count or not begun[place]:
            continue
        text = left_out_text(search, place, high, low)
        if text is not None:
            named.append((place, f"left {place} {text}"))
        if words[place] == "{" and place in heads:
            named.append((place, f"statement {place}"))
        if place == 1 and fuzz_lexer.real(words[place]) is not None and not is_version(words[place]):
            named.append((place, f"version {place}"))
    return named, next((place for place in range(count + 1) if not search.any_to[place]), None)


# ---- modules as text, each part with the place of the tokens that it writes

def placed_ident(tree, tokens):
    """An identifier, which may stand in a form of its own."""
    return placed_word("".join(write(tree)), tokens)


def placed_list(place_one, several_trees, tokens):
    """The items of a list."""
    return "".join(place_one(*item) for item in items(several_trees, tokens))


def placed_module_name(tree, tokens):
    """A name of a module: its lead and parts."""
    (lead, _), parts = split(tree, tokens)
    told = {"bare": "-", "absolute": "::", "here": ".::", "up": f"up {write(lead).count('::')}"}[lead[0]]
    words = [placed_word(word, [token]) for word, token in zip(write(parts[0]), parts[1]) if word != "::"]
    return f"(module {place_of(tokens)} {told} {''.join(words)}) "


def placed_qualified(tree, tokens):
    """A name of a module, and one of its names or `*`."""
    module, _, last = split(tree, tokens)
    told = "* " if last[0][0] == "all" else placed_ident(*last)
    return f"(qualified {place_of(tokens)} {placed_module_name(*module)}{told}) "


def placed_import(tree, tokens):
    """An import, `;` among it."""
    parts = list(split(tree, tokens))
    if tree[0] == "import":
        return f"(import {place_of(tokens)} {placed_list(placed_qualified, *parts[1])}) "
    used, at = parts[3]
    told = "* " if used[0] == "all" else placed_list(placed_ident, *next(split(used, at)))
    return f"(using {place_of(tokens)} {placed_module_name(*parts[1])}{told}) "


def placed_call(tree, tokens):
    """The call of an annotation."""
    name, _, arguments, _ = split(tree, tokens)
    return f"(anno {place_of(tokens)} {placed_name(*name)}{placed_list(placed_argument, *arguments)}) "


def placed_bracketed(tree, tokens):
    """Annotations in their brackets."""
    return f"[[ {placed_list(placed_call, *list(split(tree, tokens))[2])}]] "


def placed_annotations(tree, tokens):
    """Annotations, or `-` for none."""
    return "- " if tree[0] == "none" else placed_bracketed(*next(split(tree, tokens)))


def placed_value(tree, tokens):
    """The expression behind `=`, or `-` for none."""
    return "- " if tree[0] == "none" else placed(*list(split(tree, tokens))[1])


def placed_parameter(tree, tokens):
    """A parameter, or a field without its `;`."""
    if tree[0] == "field":
        return placed_parameter(*next(split(tree, tokens)))
    frequency, ty, name, value, annotations = split(tree, tokens)
    return (f"(param {place_of(tokens)} {''.join(write(frequency[0])) or '-'} {placed_type(*ty)}"
            f"{placed_word(*name)}{placed_value(*value)}{placed_annotations(*annotations)}) ")


def placed_parameters(tree, tokens):
    """Parameters in parentheses."""
    return f"( {placed_list(placed_parameter, *list(split(tree, tokens))[1])}) "


def placed_enum_value(tree, tokens):
    """A value of an enum."""
    name, number, annotations = split(tree, tokens)
    told = str(fuzz_lexer.integer(write(number[0])[1])) if number[0][0] == "some" else "-"
    return f"(value {place_of(tokens)} {placed_word(*name)}{told} {placed_annotations(*annotations)}) "


def placed_parts(form, parts):
    """What stands in a declaration behind its export, in order of the fields of `Decl`."""
    if form == "material":
        return (placed_word(*parts[2]) + placed_parameters(*parts[3]) + placed_annotations(*parts[4])
                + placed(*parts[6]))
    if form == "variant":
        return (placed_type(*parts[1]) + placed_word(*parts[2]) + placed_annotations(*parts[6])
                + placed_name(*parts[8]) + placed_list(placed_argument, *parts[10]))
    if form == "function":
        return (placed_type(*parts[1]) + placed_word(*parts[2]) + placed_parameters(*parts[3])
                + ("".join(write(parts[4][0])) or "-") + " " + placed_annotations(*parts[5]) + placed_value(*parts[6]))
    if form == "annotation":
        return placed_word(*parts[2]) + placed_parameters(*parts[3]) + placed_annotations(*parts[4])
    place_one = placed_parameter if form == "struct" else placed_enum_value
    return placed_word(*parts[2]) + placed_annotations(*parts[3]) + placed_list(place_one, *parts[5])


def placed_declaration(tree, tokens):
    """A declaration, `;` among it."""
    parts = list(split(tree, tokens))
    exported = "export" if parts[0][0][0] == "exported" else "-"
    return f"({tree[0]} {place_of(tokens)} {exported} {placed_parts(tree[0], parts)}) "


def placed_version(word, tokens):
    """The number of the version line: its text without a suffix."""
    text, double = fuzz_lexer.real(word)
    return f"(version {place_of(tokens)} {text} {'double' if double else 'float'} ) "


def placed_module(tree, tokens):
    """A module with the places of all its parts."""
    _, version, _, imports, own, decls = split(tree, tokens)
    own_told = "- " if own[0][0] == "none" else placed_bracketed(*list(split(*own))[1])
    return (f"(file {place_of(tokens)} {placed_version(*version)}{placed_list(placed_import, *imports)}{own_told}"
            f"{placed_list(placed_declaration, *decls)}) ")


# ---- readings

def trees_below(tree, form):
    """All parts of a tree that have this form, itself among them."""
    if isinstance(tree, str):
        return []
    return [tree] * (tree[0] == form) + [found for one in tree[1:] for found in trees_below(one, form)]


def is_material_too(function):
    """Whether a function with this type, frequency and body writes what a material writes."""
    return write(function[2]) == ["material"] and function[5][0] == "none" and function[7][0] == "some"


def has_left_out_size(tree):
    """Whether a size is deferred, save in the type of a parameter of a prototype or an annotation."""
    if isinstance(tree, str):
        return False
    if tree[0] == "annotation" or tree[0] == "function" and tree[7][0] == "none":
        parameters = trees_below(tree[4], "parameter") if tree[0] == "function" else trees_below(tree, "parameter")
        others = [one for place, one in enumerate(tree[1:], 1) if place != 4]
        return any(map(has_deferred, others)) or any(has_deferred(one) for parameter in parameters
                                                     for one in parameter[3:])
    return tree[0] == "deferred" or any(map(has_left_out_size, tree[1:]))


def is_accepted(tree):
    """Whether the version is one that is read, and nothing left out stands in the module."""
    return is_version(tree[2]) and not has_left_out_size(tree)


def readings(words, tokens, limit):
    """All readings of the words, whose tokens have these places: there is to be one."""
    search = ModuleSearch(words)
    named, bad = faults(search, limit)
    found = [told for place, told in named if place == named[0][0]]
    if not named and bad is not None:
        whole = max(search.behind([part("module", search.count + 2)], 0), default=0)
        found.append(f"bad {bad} of {whole}")
    trees = [tree for tree in search.trees(part("module", limit), 0, len(words))
             if not any(map(is_material_too, trees_below(tree, "function")))]
    if any(write(tree) != words for tree in trees):
        found.append("a tree that writes other words")
    if len(trees) > 1:
        found.append(f"{len(trees)} trees")
    found.extend(f"tree {placed_module(tree, tokens)}" for tree in trees if is_accepted(tree))
    return found
