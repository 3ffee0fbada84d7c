"""Each instruction of LLVM as C: a row of a table here, or the method `write_` and its name. Any other stops it."""
import functools
import re

from .reading import BIT, POINTER, VOID, Type, Words
from .values import Values, compared, cut, literal, part, places, risen, signed

# The instructions of two numbers: how C takes the first, what it writes between them, and how it takes the second.
SUMS = {
    "add": (risen, "+", risen), "sub": (risen, "-", risen), "mul": (risen, "*", risen),
    "udiv": (risen, "/", risen), "urem": (risen, "%", risen),
    "sdiv": (signed, "/", signed), "srem": (signed, "%", signed),
    "and": (risen, "&", risen), "or": (risen, "|", risen), "xor": (risen, "^", risen),
    "shl": (risen, "<<", places), "lshr": (risen, ">>", places), "ashr": (signed, ">>", places),
}


def joined(text, type, to):
    """The number that the bits of a vector make."""
    if type.kind != "vector" or type.parts[0] != BIT:
        raise ValueError(f"a bitcast of {type.key}")
    return f"({to.name})({' | '.join(f'({to.name}){text}.f[{it}] << {it}' for it in range(type.count))})"


# The instructions that give a value another type: the expression of the value, of its type and of the new one.
CHANGES = {
    "zext": lambda a, type, to: f"wide_of(0, {a})" if to.is_wide else f"({to.name}){a}",
    "sext": lambda a, type, to: (
        f"WIDE_OF_SIGNED({signed(a, type)})" if to.is_wide else cut(f"({to.name}){signed(a, type)}", to)
    ),
    "trunc": lambda a, type, to: cut(f"wide_low({a})" if type.is_wide else a, to),
    "bitcast": joined,
    "ptrtoint": lambda a, type, to: cut(f"(uintptr_t){a}", to),
    "ptrtoaddr": lambda a, type, to: cut(f"(uintptr_t){a}", to),
    "inttoptr": lambda a, type, to: f"(bytes)(uintptr_t){a}",
}
def shifted(type, high, low, by):
    """The upper bits of two numbers behind each other, that many places to the left."""
    by = f"({by} % {type.count}u)"
    both = cut(f"{risen(high, type)} << {by} | {risen(low, type)} >> ({type.count}u - {by})", type)
    return f"{by} ? {both} : {high}"


# The functions of LLVM that give a number of at most 64 bits: the expression of its type and of what they are given.
ANSWERS = {
    "umin": lambda type, a, b: f"{compared('ult', type, a, b)} ? {a} : {b}",
    "umax": lambda type, a, b: f"{compared('ugt', type, a, b)} ? {a} : {b}",
    "smin": lambda type, a, b: f"({type.name})LESSER{type.width}({signed(a, type)}, {signed(b, type)})",
    "smax": lambda type, a, b: f"({type.name})GREATER{type.width}({signed(a, type)}, {signed(b, type)})",
    "abs": lambda type, a, _: f"{signed(a, type)} < 0 ? {cut(f'0u - {a}', type)} : {a}",
    "ctlz": lambda type, a, _: cut(f"{a} ? LEADING({a}) - {64 - type.count}u : {type.count}u", type),
    "cttz": lambda type, a, _: cut(f"{a} ? TRAILING({a}) : {type.count}u", type),
    "bswap": lambda type, a: cut(
        " | ".join(f"((uint64_t){a} >> {it} & 255u) << {type.count - 8 - it}" for it in range(0, type.count, 8)), type
    ),
    "fshl": shifted,
    "usub.sat": lambda type, a, b: f"{compared('ugt', type, a, b)} ? {cut(f'{a} - {b}', type)} : {literal(0, type)}",
}
# The functions of LLVM that give nothing: the statement of what they are given. Some change no answer.
STATEMENTS = {
    "lifetime.start": "", "lifetime.end": "", "assume": "", "trap": "TRAP();",
    "memcpy": "memcpy({}, {}, {});", "memmove": "memmove({}, {}, {});", "memset": "memset({}, {}, {});",
}


def summed(word, type, a, b):
    """The expression of an instruction of two numbers."""
    first, sign, second = SUMS[word]
    a, b = first(a, type), second(b, type)
    return cut(f"wide_{word}({a}, {b})" if type.is_wide else f"{a} {sign} {b}", type)


def members(text, type, address):
    """Of each part of a value its expression, its type and its address."""
    if type.kind == "vector" and type.parts[0].count != type.parts[0].width:
        raise ValueError(f"a vector in memory of parts of {type.parts[0].count} bits")
    return [(part(text, type, it), type.part(it), f"{address} + {type.offset(it)}") for it in range(type.length)]


def loaded(name, type, address):
    """The lines that read a value, and cut what memory may have above its bits."""
    if type.parts:
        return [line for it in members(name, type, address) for line in loaded(*it)]
    lines = [f"LOAD({type.name}, {name}, {address});"]
    return lines if type == POINTER or type.count == type.width else [*lines, f"{name} = {cut(name, type)};"]


class Instructions(Values):
    """The instructions of one function. A method reads the words behind its name, and gives the lines that set `into`.

    A class over it says by `local` how a value is named that is set, by `jump` how to go to a block, and by `is_used`
    whether a value is asked for.
    """

    def lines_of(self, into, text):
        """The lines of C of an instruction."""
        words = Words(text)
        word = words.next()
        if word in SUMS:
            made = self.two(into, words, functools.partial(summed, word))
        elif word in CHANGES:
            made = self.changed(into, words, CHANGES[word])
        elif hasattr(self, f"write_{word}"):
            made = getattr(self, f"write_{word}")(into, words)
        else:
            raise ValueError(f"an unknown instruction: {text}")
        if words.peek() and word != "call":
            raise ValueError(f"an unknown word {words.peek()!r}: {text}")
        return made

    def set(self, into, type, text):
        return [f"{self.local(into, type)} = {text};"]

    def two(self, into, words, make, gives=None):
        """An expression of two numbers, or of two vectors number by number, which gives their type or another."""
        type, a = self.value(words)
        words.expect(",")
        b = self.operand(words, type)
        if type.kind != "vector":
            return self.set(into, gives or type, make(type, a, b))
        of = type.parts[0]
        name = self.local(into, Type("vector", type.count, (gives or of,)))
        return [f"{name}{at} = {make(of, a + at, b + at)};" for at in (f".f[{it}]" for it in range(type.count))]

    def write_icmp(self, into, words):
        return self.two(into, words, functools.partial(compared, words.next()), BIT)

    def changed(self, into, words, make):
        """An instruction that gives a value another type."""
        type, text = self.value(words)
        words.expect("to")
        to = words.type()
        return self.set(into, to, make(text, type, to))

    def write_select(self, into, words):
        (_, test), (type, a), (_, b) = self.values(words, 3)
        return self.set(into, type, f"{test} ? {a} : {b}")

    def write_freeze(self, into, words):
        return self.set(into, *self.value(words))

    def write_getelementptr(self, into, words):
        return [f"{self.local(into, POINTER)} = {self.address(words)};"]

    def write_alloca(self, into, words):
        name = self.local(into, POINTER)
        self.rooms[name] = max(1, -(-words.type().size // 8))
        return [f"{name} = (bytes)room_{name};"]

    def write_load(self, into, words):
        type = words.type()
        words.expect(",")
        _, address = self.value(words)
        return loaded(self.local(into, type), type, address)

    def write_store(self, into, words):
        (type, text), (_, address) = self.values(words, 2)
        if not type.parts:
            return [f"STORE({type.name}, {address}, {text});"]
        stores = " ".join(f"STORE({of.name}, {at}, {it});" for it, of, at in members("many_", type, address))
        return [f"{{ {type.name} many_ = {text}; {stores} }}"]

    def write_extractvalue(self, into, words):
        type, text = self.value(words)
        words.expect(",")
        at = int(words.next())
        return self.set(into, type.part(at), part(text, type, at))

    def write_insertvalue(self, into, words):
        (type, text), (_, new) = self.values(words, 2)
        words.expect(",")
        name = self.local(into, type)
        return [f"{name} = {text};", f"{part(name, type, int(words.next()))} = {new};"]

    def target(self, words):
        """Reads a label; the lines that go there."""
        words.expect("label")
        return self.jump(words.next())

    def write_br(self, into, words):
        if words.peek() == "label":
            return self.target(words)
        _, test = self.value(words)
        words.expect(",")
        yes = " ".join(self.target(words))
        words.expect(",")
        return [f"if ({test}) {{ {yes} }}", " ".join(self.target(words))]

    def write_switch(self, into, words):
        _, text = self.value(words)
        words.expect(",", "label")
        other, cases = words.next(), []
        words.expect("[")
        while not words.take("]"):
            _, value = self.value(words)
            words.expect(",")
            cases.append(f"case {value}: {' '.join(self.target(words))}")
        return [f"switch ({text}) {{", *cases, f"default: {' '.join(self.jump(other))}", "}"]

    def write_ret(self, into, words):
        return ["return;"] if words.take("void") else [f"return {self.value(words)[1]};"]

    def write_unreachable(self, into, words):
        return ["UNREACHABLE();"]

    def write_call(self, into, words):
        type, callee = words.type(), words.next()
        words.expect("(")
        given = words.list(")", lambda: self.value(words))
        if callee.startswith("@llvm."):
            return self.called_of_llvm(into, type, re.sub(r"(?:\.[ip]\d+)+$", "", callee[6:]), given)
        text = f"{self.module.callee(callee)}({', '.join(it for _, it in given)})"
        if type != VOID and self.is_used(into):
            return self.set(into, type, text)
        return [f"{'(void)' if type != VOID else ''}{text};"]

    def called_of_llvm(self, into, type, name, given):
        """A call of one of LLVM's own functions."""
        of, texts = given[0][0] if given else VOID, [it for _, it in given]
        if name in STATEMENTS:
            return [it for it in [STATEMENTS[name].format(*texts)] if it]
        if name in ANSWERS and not of.is_wide:
            return self.set(into, type, ANSWERS[name](type, *texts))
        if name == "uadd.sat" and not of.is_wide:
            made, sum = self.local(into, type), cut(" + ".join(texts), type)
            return [f"{made} = {sum};", f"if ({made} < {texts[0]}) {made} = {literal(-1, type)};"]
        if name == "sadd.with.overflow" and of.count <= 32:
            made, sum = self.local(into, type), " + ".join(f"(int64_t){signed(it, of)}" for it in texts)
            fits = f"(int64_t){signed('sum_', of)}"
            return [f"{{ int64_t sum_ = {sum}; {made}.f0 = {cut('sum_', of)}; {made}.f1 = sum_ != {fits}; }}"]
        raise ValueError(f"an unknown function of LLVM: {name} of {of.key}")
