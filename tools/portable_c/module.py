"""The module of a proved library or program, and the C that it becomes."""
import re

from .functions import Function, identifier
from .reading import Words
from .values import Values

# Words that C and the head of each file have.
WORDS_OF_C = """auto break case char const continue default do double else enum extern float for goto if inline int
    long register restrict return short signed sizeof static struct switch typedef union unsigned void volatile while
    bytes wide main abort memcpy memmove memset LOAD STORE""".split()
TABLE = re.compile(r'^@(?:"[^"]*"|\S+) = [a-z_ ]*constant .*$', re.M)
FUNCTION = re.compile(r"^(define [^\n]*) \{\n(.*?)^\}$", re.M | re.S)


def plain(raw):
    """The name of a function or of a table without its mark and quotes."""
    return raw[1:].strip('"')


def declarations(types):
    """The declarations of these types and of those of their parts, each behind those that it needs."""
    found = {}

    def add(type):
        for it in type.parts:
            add(it)
        if type.kind == "struct":
            fields = " ".join(f"{it.name} f{at};" for at, it in enumerate(type.parts))
        elif type.parts:
            fields = f"{type.parts[0].name} f[{max(1, type.count)}];"
        if type.parts:
            found.setdefault(type.name, f"typedef struct {{ {fields} }} {type.name};")

    for it in types:
        add(it)
    return list(found.values())


class Module(Values):
    """A module as text, and the names of its functions and tables in C. `given` has those of what stands outside."""

    def __init__(self, text, given=()):
        self.module, self.names = self, dict(given)
        self.taken = {*WORDS_OF_C, *self.names.values()}
        self.tables = [Words(line) for line in TABLE.findall(text)]
        # (the cases of a switch stand in lines of their own)
        self.functions = [Function(self, *it) for it in FUNCTION.findall(re.sub(r"\n    +|\n  (?=\])", " ", text))]
        self.known = {*given, *(plain(it.raw) for it in self.functions), *(plain(it.peek()) for it in self.tables)}

    def callee(self, raw):
        """The name of a function or of a table in C."""
        name = plain(raw)
        if name not in self.known:
            raise ValueError(f"named, and in no module: {name}")
        if name not in self.names:
            self.names[name] = identifier(name, self.taken)
        return self.names[name]

    def many(self, type, inside):
        return f"{{ {inside} }}" if type.kind == "struct" or inside == "0" else f"{{ {{ {inside} }} }}"

    def table(self, words):
        """The type of a table, and its line."""
        name = self.callee(words.next())
        while words.next() != "constant":
            pass
        type, value = self.value(words)
        return type, f"static const {type.name} {name} = {value};"

    def text(self):
        """The tables and the functions as C, without the head of the file."""
        for it in self.functions:
            it.translate()
        bodies = [it.text() for it in self.functions]
        tables = [self.table(it) for it in self.tables]
        types = [type for it in self.functions for type in it.all_types()]
        declared = declarations([*types, *(type for type, _ in tables)])
        # (a table that has addresses stands behind those to which they lead)
        lines = sorted((line for _, line in tables), key=lambda it: "(bytes)&" in it)
        return "\n".join([*declared, "", *lines, "", *(f"{it.head()};" for it in self.functions), "", *bodies])
