"""Reads the texts of small modules: as much of them as the scopes look at.

There is no lexer, no fault and no expression here: a text has to be a module without comments and without parentheses
in strings. What stands behind `=` is skipped, save for the name of a variant's base.

A name is `("word", NUMBER)` or `("parts", ABSOLUTE, [PART, ..])`, a type a name and a size, which is `("one",)`,
`("sized", COUNT)` or `("deferred", NAME)`, and an identifier its text and the offset of its first character.
"""

import os
import re

TOP = os.path.dirname(os.path.dirname(os.path.dirname(os.path.abspath(__file__))))
VERSION = "mdl 1.6;\n"
TOKEN = re.compile(r"\s+|([A-Za-z_][A-Za-z_0-9]*)|(\d+\.\d+|\d+)|(::|\.\.|[.(){}\[\]<>,;=*:])")


def reserved_in_use():
    """The reserved words of specs/WordTables.antt, each with its number."""
    with open(os.path.join(TOP, "crates", "mdl_lexer", "specs", "WordTables.antt"), encoding="utf-8") as file:
        body = file.read().split("\nreserved_in_use =\n")[1].split("[]")[0]
    return {word: int(number) for word, number in re.findall(r'\(codes "([^"]+)", (\d+)\)', body)}


RESERVED = reserved_in_use()
MATERIAL = (("word", RESERVED["material"]), ("one",))


class Reader:
    """The words of a text, and the place of the next one."""

    def __init__(self, text):
        self.text = text
        self.words = []
        self.next_word = 0
        at = 0
        while at < len(text):
            found = TOKEN.match(text, at)
            assert found, (text, at)
            if found.lastindex:
                self.words.append((found.group(found.lastindex), found.start()))
            at = found.end()

    def peek(self, ahead=0):
        """The word that comes, or one behind it."""
        place = self.next_word + ahead
        return self.words[place][0] if place < len(self.words) else None

    def take(self):
        """Goes over a word, and gives it with its place."""
        self.next_word += 1
        return self.words[self.next_word - 1]

    def eat(self, word):
        """Goes over this word."""
        assert self.peek() == word, (self.text, self.peek(), word)
        self.take()

    def goes(self, word):
        """Goes over this word if it comes."""
        if self.peek() != word:
            return False
        self.take()
        return True

    def name(self):
        """A name."""
        absolute = self.goes("::")
        first = self.take()[0]
        if not absolute and first in RESERVED and self.peek() != "::":
            return ("word", RESERVED[first])
        parts = [first]
        while self.peek() == "::" and re.match("[A-Za-z_]", self.peek(1)):
            self.take()
            parts.append(self.take()[0])
        return ("parts", absolute, parts)

    def type(self):
        """A type."""
        name, size = self.name(), ("one",)
        if self.goes("["):
            if self.goes("<"):
                size = ("deferred", self.take()[0])
                self.eat(">")
            else:
                size = ("sized", int(self.take()[0]))
            self.eat("]")
        return name, size

    def skip_to(self, ends):
        """Goes to one of these words, over what stands in brackets."""
        depth = 0
        while depth > 0 or self.peek() not in ends:
            word = self.take()[0]
            depth += (word in "([{") - (word in ")]}")

    def parameters(self, close):
        """Parameters or fields up to this word, as types and identifiers."""
        made = []
        while self.peek() != close:
            if self.peek() in ("uniform", "varying"):
                self.take()
            ty, name = self.type(), self.take()
            if self.peek() == "=":
                self.skip_to((",", close, ";"))
            made.append((ty, name))
            if self.peek() in (",", ";"):
                self.take()
        self.eat(close)
        return made

    def lead(self):
        """What a module's name begins with: a mark, how many steps go up, or nothing."""
        if self.goes("::"):
            return "absolute"
        if self.goes("."):
            self.eat("::")
            return "here"
        steps = 0
        while self.goes(".."):
            self.eat("::")
            steps += 1
        return steps or "bare"

    def item(self):
        """A module, as its lead and parts, and the identifier of one of its names, or None for all."""
        lead, words = self.lead(), [self.take()]
        while self.goes("::"):
            if self.goes("*"):
                return lead, [text for text, _ in words], None
            words.append(self.take())
        return lead, [text for text, _ in words[:-1]], words[-1]

    def import_(self):
        """`("import", items)`, or `("using", lead, parts, identifiers)`, where None stands for all names."""
        if self.take()[0] == "import":
            items = [self.item()]
            while self.goes(","):
                items.append(self.item())
            self.eat(";")
            return ("import", items)
        lead, parts = self.lead(), [self.take()[0]]
        while self.goes("::"):
            parts.append(self.take()[0])
        self.eat("import")
        names = None
        if not self.goes("*"):
            names = [self.take()]
            while self.goes(","):
                names.append(self.take())
        self.eat(";")
        return ("using", lead, parts, names)

    def declaration(self):
        """`(form, exported, identifier, ..)`, with what the form has else."""
        exported = self.goes("export")
        if self.goes("struct"):
            name = self.take()
            self.eat("{")
            fields = self.parameters("}")
            self.eat(";")
            return ("struct", exported, name, fields)
        if self.goes("enum"):
            name = self.take()
            self.eat("{")
            values = [self.take()]
            while self.goes(","):
                values.append(self.take())
            self.eat("}")
            self.eat(";")
            return ("enum", exported, name, values)
        if self.goes("annotation"):
            name = self.take()
            self.eat("(")
            parameters = self.parameters(")")
            self.eat(";")
            return ("annotation", exported, name, parameters)
        return self.called(exported)

    def called(self, exported):
        """A material, a variant, a function or a prototype."""
        ty, name = self.type(), self.take()
        self.eat("(")
        if self.goes("*"):
            self.eat(")")
            self.eat("=")
            base = self.name()
            self.skip_to((";",))
            self.eat(";")
            return ("variant", exported, name, ty, base)
        parameters = self.parameters(")")
        if self.goes(";"):
            return ("prototype", exported, name, parameters)
        self.eat("=")
        self.skip_to((";",))
        self.eat(";")
        return ("material" if ty == MATERIAL else "function", exported, name, parameters)

    def module(self):
        """Imports and declarations."""
        imports, declarations = [], []
        while self.peek() in ("import", "using"):
            imports.append(self.import_())
        while self.peek():
            declarations.append(self.declaration())
        return imports, declarations


def read_module(text):
    """Imports and declarations of a text with its version line, with places in the whole text."""
    assert text.startswith(VERSION), text
    return Reader(" " * len(VERSION) + text[len(VERSION):]).module()


def read_name(text):
    """A name."""
    return Reader(text).name()


def files_of(written):
    """The modules that a test writes as `path=lines behind the version`, with `|` between and `@` for a line feed."""
    files = (file.split("=", 1) for file in written.split("|"))
    return {tuple(path.split("/")): VERSION + text.replace("@", "\n") + "\n" for path, text in files}
