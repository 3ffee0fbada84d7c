"""Values of LLVM as expressions of C. A number has no sign there, and is cut to its bits after each sum."""
import re

from .reading import PAIRS, POINTER, Type

SIGNS = {"eq": "==", "ne": "!=", "gt": ">", "ge": ">=", "lt": "<", "le": "<="}


def literal(value, type):
    """A number of LLVM as C."""
    value &= (1 << type.count) - 1
    if type.is_wide:
        return f"wide_of(UINT64_C({value >> 64}), UINT64_C({value & (1 << 64) - 1}))"
    return f"UINT64_C({value})" if type.count > 32 else f"{value}u" if value > 9 else str(value)


def cut(text, type):
    """An expression without sign, cut to the bits of a type."""
    if type.is_wide:
        return text
    return f"({type.name})({text})" if type.count == type.width else f"({type.name})(({text}) & {literal(-1, type)})"


def signed(text, type):
    """An expression with its sign."""
    if type.is_wide:
        return text
    return f"(int{type.width}_t){text}" if type.count == type.width else f"SIGNED({text}, {type.count})"


def risen(text, type):
    """An expression of 32 bits or more, so that C does not make a number with a sign of it."""
    return text if type.width >= 32 else f"(uint32_t){text}"


def places(text, type):
    """The places of a shift. LLVM wants fewer than the width; they are cut too, so that C defines each shift."""
    if re.fullmatch(r"\d+u?", text):
        return text
    return f"(unsigned)wide_low({text}) & 127u" if type.is_wide else f"({text} & {type.width - 1}u)"


def compared(code, type, a, b):
    """A comparison as an expression that is 0 or 1."""
    order = code[-2:]
    if type.is_wide and order in ("eq", "ne"):
        return f"{'!' if order == 'ne' else ''}wide_eq({a}, {b})"
    if type.is_wide:
        a, b = (b, a) if order in ("gt", "le") else (a, b)
        return f"{'!' if order in ('le', 'ge') else ''}wide_{code[0]}lt({a}, {b})"
    if type == POINTER and code not in SIGNS:
        a, b = f"(uintptr_t){a}", f"(uintptr_t){b}"
    elif code[0] == "s":
        a, b = signed(a, type), signed(b, type)
    return f"{a} {SIGNS[order]} {b}"


def part(text, type, index):
    """A part of a struct, an array or a vector."""
    return f"{text}.f{index}" if type.kind == "struct" else f"{text}.f[{index}]"


class Same(str):
    """A number that is each part of a vector: an index behind it changes nothing. C refuses it as a whole vector."""

    def __add__(self, index):
        return str(self)


class Values:
    """Reads values. A class over it says by `name_of` and `module` how C names them, by `many` how it writes parts."""

    def operand(self, words, type):
        """Reads a value of a known type, as an expression."""
        word = words.next()
        if word[0] in "%@":
            return self.name_of(word) if word[0] == "%" else f"(bytes)&{self.module.callee(word)}"
        if re.fullmatch(r"-?\d+", word):
            return literal(int(word), type)
        if word in ("true", "false"):
            return str(int(word == "true"))
        if word in ("null", "undef", "poison", "zeroinitializer"):
            return self.many(type, "0") if type.parts else "(bytes)0" if type == POINTER else literal(0, type)
        if word.startswith('c"'):
            data = re.sub(rb"\\(\w\w)", lambda it: bytes([int(it[1], 16)]), word[2:-1].encode("latin-1"))
            return self.many(type, ", ".join(map(str, data)))
        if word in PAIRS:
            is_packed = words.take("{")
            given = words.list("}" if is_packed else PAIRS[word], lambda: self.value(words)[1])
            words.expect(*[">"] * bool(is_packed))
            return self.many(type, ", ".join(given))
        return self.constant(words, word)

    def constant(self, words, word):
        """Reads what a word makes of other values."""
        words.expect("(")
        if word == "getelementptr":
            text = self.address(words)
        elif word == "splat":
            text = Same(self.value(words)[1])
        elif word in ("inttoptr", "ptrtoint", "ptrtoaddr"):
            _, text = self.value(words)
            words.expect("to")
            text = f"(bytes)(uintptr_t){text}" if words.type() == POINTER else f"(uint64_t)(uintptr_t)({text})"
        else:
            raise ValueError(f"an unknown value {word!r}: {words.text}")
        words.expect(")")
        return text

    def value(self, words):
        """Reads a type and a value."""
        type = words.type()
        return type, self.operand(words, type)

    def values(self, words, count):
        """Reads types and values with commas between them."""
        found = [self.value(words)]
        while len(found) < count:
            words.expect(",")
            found.append(self.value(words))
        return found

    def address(self, words):
        """Reads a type, a pointer and places; the address to which they lead."""
        type = Type("array", 0, (words.type(),))
        words.expect(",")
        (_, text), fixed = self.value(words), 0
        while words.take(","):
            of, index = words.type(), words.peek()
            place, step = self.operand(words, of), type.offset(1)
            if re.fullmatch(r"-?\d+", index):
                fixed += type.offset(int(index))
            else:
                text += f" + {signed(place, of)}" + (f" * {step}" if step != 1 else "")
            type = type.part(int(index) if type.kind == "struct" else 0)
        return f"({text} {'-' if fixed < 0 else '+'} {abs(fixed)})" if fixed else f"({text})"
