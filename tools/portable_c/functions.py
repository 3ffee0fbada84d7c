"""The functions of a module: their values, their blocks, and how they go from one to the next."""
import collections
import re

from .instructions import Instructions
from .reading import Words

# A label and what stands behind it, a line that sets a value, and the name of a value.
LABEL = re.compile(r'^("[^"]*"|[\w.$-]+):.*$', re.M)
SET = re.compile(r'(%"[^"]*"|%[\w.$-]+) = (.*)')
NAME = re.compile(r'%"[^"]*"|%[\w.$-]+')


def identifier(raw, *taken):
    """A name of C that none of the sets has yet; the first set gets it."""
    # (LLVM marks what comes from a function that it put in place by `.i`)
    base = re.sub(r"\W+", "_", re.sub(r"(?:\.i)+(?=\d*$)", "", raw)).strip("_") or "x"
    base = name = f"v{base}" if base[0].isdigit() else base
    number = 1
    while any(name in it for it in taken):
        number += 1
        name = f"{base}_{number}"
    taken[0].add(name)
    return name


class Function(Instructions):
    """A function of the module, from the line that defines it and the lines between its brackets."""

    def __init__(self, module, head, body):
        self.module, words = module, Words(head)
        words.expect("define")
        self.result, self.raw = words.type(), words.next()
        words.expect("(")
        self.parameters = words.list(")", lambda: (words.type(), words.next()))
        _, *found = LABEL.split(body if LABEL.match(body) else f"entry:\n{body}")
        lines = [[it.strip() for it in text.split("\n") if it.strip()] for text in found[1::2]]
        self.blocks = [(f"%{label}", of) for label, of in zip(found[::2], lines)]
        self.uses = collections.Counter(NAME.findall(body))
        self.names, self.taken, self.types, self.rooms, self.targets = {}, set(), {}, {}, set()

    def name_of(self, raw):
        if raw not in self.names:
            self.names[raw] = identifier(raw, self.taken, self.module.taken)
        return self.names[raw]

    def local(self, raw, type):
        """The name of a value that an instruction sets."""
        name = self.name_of(raw)
        self.types[name] = type
        return name

    def is_used(self, raw):
        """Whether a value stands anywhere but where it is set."""
        return self.uses[raw] > 1

    def many(self, type, inside):
        return f"({type.name}){{{inside}}}"

    def phis(self, lines):
        """What a block takes from those before it: names, types, and for each of those the value by its label."""
        for raw, text in (it.groups() for it in map(SET.match, lines) if it):
            words = Words(text)
            if words.take("phi"):
                type, values = words.type(), {}
                while words.take("["):
                    value = self.operand(words, type)
                    words.expect(",")
                    values[words.next()] = value
                    words.expect("]")
                    words.take(",")
                yield self.local(raw, type), type, values

    def jump(self, target):
        """Sets what the block takes from this one, all at once, and goes on there."""
        self.targets.add(target)
        sets = [(name, type, values[self.here]) for name, type, values in self.incoming[target]]
        sets = [(name, type, value) for name, type, value in sets if value != name]
        names, goto = [name for name, _, _ in sets], f"goto {self.name_of(f'at_{target}')};"
        if any(re.search(rf"\b{name}\b", it[2]) for at, it in enumerate(sets) for name in names[:at]):
            lines = [f"{type.name} new_{name} = {value};" for name, type, value in sets]
            lines += [f"{name} = new_{name};" for name in names]
        else:
            lines = [f"{name} = {value};" for name, _, value in sets]
        return ["{", *lines, goto, "}"] if lines else [goto]

    def translate(self):
        """Writes the lines of each block. What they call gets its name in the module."""
        for _, raw in self.parameters:
            self.name_of(raw)
        self.incoming = {label: list(self.phis(lines)) for label, lines in self.blocks}
        self.written = []
        for self.here, lines in self.blocks:
            pairs = [it.groups() if (it := SET.match(line)) else (None, line) for line in lines]
            made = [self.lines_of(into, text) for into, text in pairs if not text.startswith("phi ")]
            self.written.append((self.here, [line for lines in made for line in lines]))

    def all_types(self):
        return [*self.types.values(), self.result, *(type for type, _ in self.parameters)]

    def head(self):
        given = ", ".join(f"{type.name} {self.name_of(raw)}" for type, raw in self.parameters) or "void"
        return f"static {self.result.name} {self.module.callee(self.raw)}({given})"

    def text(self):
        """The function as C, without the blocks to which nothing goes."""
        by_type, body = collections.defaultdict(list), []
        for name, type in self.types.items():
            by_type[type.name].append(name)
        for at, (label, written) in enumerate(self.written):
            is_target = label in self.targets
            body += [f"{self.name_of(f'at_{label}')}:;"] * is_target + written * (is_target or at == 0)
        lines = [f"{kind} {', '.join(names)};" for kind, names in by_type.items()]
        lines += [f"uint64_t room_{name}[{count}];" for name, count in self.rooms.items()]
        read = set(re.findall(r"\w+", re.sub(r"\b\w+ = ", "", "\n".join(body))))
        names = [*(self.name_of(raw) for _, raw in self.parameters), *self.types]
        lines += [f"(void){it};" for it in names if it not in read]
        return "\n".join([self.head(), "{", *(f"    {it}" for it in [*lines, *body]), "}", ""])
