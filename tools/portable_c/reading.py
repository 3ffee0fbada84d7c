"""Reads the text of an LLVM module, word by word, and the types in it."""
import dataclasses
import re

PAIRS = {"(": ")", "[": "]", "{": "}", "<": ">"}
# What LLVM says beside a value or a call. It promises more than C needs, and changes no answer.
PROMISES = r"""(?:dereferenceable|captures|range|initializes)\((?:[^()]|\([^()]*\))*\)
    |(?:,\ )?align\ \d+|,\ ![\w.]+(?:\ !\d+)?|\b(?:tail|fastcc|internal|private|noundef|nonnull|noalias
    |readonly|writeonly|zeroext|signext|nuw|nsw|nneg|nusw|exact|disjoint|samesign|inbounds)\b"""
WORD = re.compile(rf"""[%@]"[^"]*"|c"[^"]*"|[%@][\w.$-]+|({PROMISES})|-?\d+\b|[A-Za-z_][\w.]*|\S""", re.X)


@dataclasses.dataclass
class Type:
    """A number ("i") of some bits, a pointer, nothing, or parts behind each other: a struct, an array or a vector."""

    kind: str
    count: int = 0
    parts: tuple = ()

    def __post_init__(self):
        """Finds how C names it, the bits of the number of C that holds it, and the bytes that it takes in memory."""
        self.width = next((it for it in (8, 16, 32, 64, 128) if self.count <= it), 0)
        self.is_wide = self.kind == "i" and self.width == 128
        count = self.count if self.kind in ("i", "array", "vector") else ""
        self.key = "_".join([f"{self.kind}{count}", *(it.key for it in self.parts), *["end"] * bool(self.parts)])
        of_kind = {"i": "wide" if self.is_wide else f"uint{self.width}_t", "ptr": "bytes", "void": "void"}
        self.name = of_kind.get(self.kind, f"t_{self.key}")
        self.length = len(self.parts) if self.kind == "struct" else self.count
        self.align = max(it.align for it in self.parts) if self.parts else 8 if self.kind == "ptr" else self.width // 8
        self.size = -(-self.offset(self.length) // self.align) * self.align if self.parts else self.align

    def part(self, index):
        """The type of a part."""
        return self.parts[index if self.kind == "struct" else 0]

    def offset(self, index):
        """Where a part begins, or what all take if there is no such part."""
        if self.kind != "struct":
            return index * self.parts[0].size
        end = self.offset(index - 1) + self.parts[index - 1].size if index else 0
        return -(-end // self.parts[index].align) * self.parts[index].align if index < self.length else end


BIT, POINTER, VOID = Type("i", 1), Type("ptr"), Type("void")


class Words:
    """The words of a line without its promises, and the place up to which they are read."""

    def __init__(self, text):
        self.text, self.at = text, 0
        self.words = [it[0] for it in WORD.finditer(text) if not it[1]]

    def peek(self):
        return self.words[self.at] if self.at < len(self.words) else ""

    def next(self):
        self.at += 1
        return self.words[self.at - 1]

    def take(self, wanted):
        """Reads the next word if it is the one wanted."""
        return self.next() if self.peek() == wanted else ""

    def expect(self, *wanted):
        for word in wanted:
            if not self.take(word):
                raise ValueError(f"{word!r} is wanted before word {self.at}: {self.text}")

    def list(self, end, read):
        """Reads things with commas between them, up to the closing bracket."""
        found = []
        while not self.take(end):
            found.append(read())
            self.take(",")
        return found

    def type(self):
        word = self.next()
        if re.fullmatch(r"i(?:\d|[1-5]\d|6[0-4]|128)", word):
            return Type("i", int(word[1:]))
        if word in ("ptr", "void"):
            return Type(word)
        if word == "{":
            return Type("struct", 0, tuple(self.list("}", self.type)))
        if word == "<" and self.peek() == "{":
            return self.packed()
        if word not in ("[", "<"):
            raise ValueError(f"an unknown type {word!r}: {self.text}")
        count = int(self.next())
        self.expect("x")
        made = Type("array" if word == "[" else "vector", count, (self.type(),))
        self.expect(PAIRS[word])
        return made

    def packed(self):
        """Reads a struct without gaps between its parts. C has to leave none either."""
        made = self.type()
        self.expect(">")
        if made.size != sum(it.size for it in made.parts):
            raise ValueError(f"C leaves gaps in a packed struct: {self.text}")
        return made
