"""Reads a source of Rattle: its items, with what stands above each, its signature, its contract and its members."""
import dataclasses
import re

# What is no code: comments, texts and characters. A lifetime has no second quote, and stays.
NO_CODE = re.compile(r"""//[^\n]*|/\*.*?\*/|b?"(?:\\.|[^"\\])*"|b?'(?:\\[^']*|[^'\\\n])'(?!\w)""", re.S)
HEAD = re.compile(r"""(?P<public>pub\s+)?(?:pub\([^)]*\)\s+)?(?:(?:const(?=\s+(?:fn|unsafe|extern))|unsafe|extern\s+"C")\s+)*"""
                  r"""(?P<kind>fn|struct|enum|trait|type|const|static|mod|use|impl|ghost|macro_rules!)(?P<rest>[\s<].*)?""", re.S)
CLAUSE = re.compile(r"\b(requires|ensures)(?:\s+(\w+))?\s*$")
CLOSED_BY_SEMICOLON = ("use", "const", "static", "type", "ghost")
PAIRS = {"(": ")", "[": "]", "{": "}"}


@dataclasses.dataclass
class Clause:
    """A clause of a contract: `requires` or `ensures`, its name, its claim, and the comment above it."""

    kind: str
    name: str
    claim: str
    comment: str


@dataclasses.dataclass
class Item:
    """An item of a source, or a field or a variant: what stands above it, what it is, and what is in it."""

    kind: str
    name: str
    public: bool
    signature: str
    doc: str
    comment: str
    attributes: list
    clauses: list
    body: str
    members: list
    given: bool = False
    path: str = ""


def without_code(text):
    """The text with spaces in the place of comments, texts and characters, so that its brackets are those of code."""
    return NO_CODE.sub(lambda it: re.sub(r"[^\n]", " ", it[0]), text)


def closing(masked, at):
    """Where the bracket at a place is closed."""
    depth = 0
    for here in range(at, len(masked)):
        depth += (masked[here] in "([{") - (masked[here] in ")]}")
        if depth == 0:
            return here
    return len(masked) - 1


def lines_above(text, mark):
    """The lines of a comment that begins with this mark, without it."""
    lines = [it.strip() for it in text.split("\n")]
    found = [it[len(mark):] for it in lines if it.startswith(mark) and not it.startswith(mark + "/")]
    return "\n".join(it[1:] if it.startswith(" ") else it for it in found)


def dedented(text):
    """A text whose further lines lie as far in as they do below its first."""
    first, *further = text.strip().split("\n")
    least = min((len(it) - len(it.lstrip()) for it in further if it.strip()), default=0)
    keep = 4 if further and re.match(r"\s*[)}\]]", further[-1]) is None else 0
    return "\n".join([first, *(" " * keep * (it.strip() != "") + it[least:] for it in further)])


def start_of_item(masked, at, end):
    """Where the next item begins, past spaces and attributes, and where those attributes stand."""
    attributes = []
    while at < end:
        if masked[at].isspace():
            at += 1
        elif masked[at] == "#":
            last = closing(masked, masked.index("[", at))
            attributes.append((at, last + 1))
            at = last + 1
        else:
            break
    return at, attributes


def end_of_item(text, masked, start, end):
    """Where an item ends, where its body begins or nothing, and where its clauses stand."""
    head, clauses, at = HEAD.match(text, start), [], start
    ends_late = head and head["kind"] in CLOSED_BY_SEMICOLON
    while at < end:
        if masked[at] == ";":
            return at + 1, None, clauses
        if masked[at] in "([{":
            last = closing(masked, at)
            clause = CLAUSE.search(masked, start, at) if masked[at] == "{" else None
            if clause:
                clauses.append((clause.start(), clause[1], clause[2] or "", at, last))
            elif masked[at] == "{" and not ends_late:
                return last + 1, at, clauses
            at = last
        at += 1
    return end, None, clauses


def clauses_of(text, found, from_where):
    """The clauses of an item, each with the comment above it."""
    for start, kind, name, opened, closed in found:
        comment = lines_above(text[from_where:start], "//")
        yield Clause(kind, name, dedented(text[opened + 1: closed]), comment)
        from_where = closed + 1


def name_of(kind, rest):
    """The name of an item by what stands behind its keyword."""
    if kind in ("impl", "use"):
        return ""
    found = re.match(r"\s*(?:use\b)?\s*(\w+)", rest or "")
    return found[1] if found else ""


def item_at(text, masked, above, start, end):
    """The item at a place and where it ends; what stands above it begins at `above`."""
    end_at, body, found = end_of_item(text, masked, start, end)
    head = HEAD.match(text, start)
    kind = head["kind"] if head else ""
    cut = min([it[0] for it in found] + ([body] if body is not None else []) + [end_at])
    signature = re.sub(r"(?m)^\s*//[^\n]*\n?", "", text[start:cut]).strip().rstrip(";").strip()
    attributes = re.findall(r"#\[(.*?)\]\s*(?=#|\Z|\n|/)", text[above:start], re.S)
    inside = text[body + 1: end_at - 1] if body is not None else ""
    item = Item(kind, name_of(kind, head["rest"] if head else ""), bool(head and head["public"]), outdented(signature, text, start),
                lines_above(text[above:start], "///"), lines_above(text[above:start], "//"), attributes,
                list(clauses_of(text, found, start)), inside, [], body is not None)
    if kind in ("impl", "trait"):
        item.members = items_of(inside)
    elif kind in ("struct", "enum"):
        item.members = fields_of(inside, kind == "enum")
    return item, end_at


def outdented(signature, text, start):
    """A signature of more lines, as far in as it would be at the left edge."""
    margin = start - (text.rfind("\n", 0, start) + 1)
    return re.sub(rf"(?m)^ {{1,{margin}}}", "", signature) if margin else signature


def items_of(text):
    """The items of a source or of a block, in their order."""
    masked, at, found = without_code(text), 0, []
    if text.startswith("#!"):
        at = closing(masked, masked.index("["))
    while True:
        start, _ = start_of_item(masked, at, len(text))
        if start >= len(text):
            return found
        item, end = item_at(text, masked, at, start, len(text))
        found.append(item)
        at = max(end, start + 1)


def pieces_between_commas(masked):
    """Where the pieces of a text lie that commas part, none of them in brackets."""
    depth, start = 0, 0
    for at, sign in enumerate(masked):
        depth += (sign in "([{<") - (sign in ")]}" or sign == ">" and masked[at - 1] not in "-=")
        if sign == "," and depth == 0:
            yield start, at
            start = at + 1
    yield start, len(masked)


def fields_of(text, is_enum):
    """The fields of a struct, or the variants of an enum with their fields."""
    masked, found = without_code(text), []
    for begin, end in pieces_between_commas(masked):
        start, _ = start_of_item(masked, begin, end)
        said = text[start:end].strip()
        name = re.match(r"(?:pub(?:\([^)]*\))?\s+)?(\w+)", said)
        if not name:
            continue
        public = is_enum or bool(re.match(r"pub\s", said))
        inner = re.match(r"\w+\s*\{(.*)\}$", said, re.S) if is_enum else None
        signature = re.sub(r"\s*//[^\n]*", "", re.sub(r"^pub\s+", "", said))
        above = text[begin:start]
        found.append(Item("variant" if is_enum else "field", name[1], public, re.sub(r"\s+", " ", signature), lines_above(above, "///"),
                          lines_above(above, "//"), [], [], "", fields_of(inner[1], True) if inner else []))
    return found


# ---- heads of blocks, and uses


def without_generics(text):
    """The text without what stands between angle brackets."""
    found, depth = "", 0
    for at, sign in enumerate(text):
        if sign == "<":
            depth += 1
        elif sign == ">" and text[at - 1] not in "-=":
            depth -= 1
        elif depth == 0:
            found += sign
    return found


def parts_of_impl(signature):
    """The parameters of an `impl` as they are declared, its trait, or nothing, and the type as it is written."""
    rest, parameters = re.sub(r"\s+", " ", re.sub(r"^(?:unsafe )?impl\s*", "", signature)), ""
    if rest.startswith("<"):
        depth = 0
        for at, sign in enumerate(rest):
            depth += (sign == "<") - (sign == ">" and rest[at - 1] not in "-=")
            if depth == 0:
                parameters, rest = rest[1:at], rest[at + 1:].strip()
                break
    trait, _, type_text = rest.partition(" for ") if " for " in rest else ("", "", rest)
    return parameters, trait.strip(), type_text.partition(" where ")[0].strip()


def head_of_impl(signature):
    """The trait of an `impl`, with its parameters, or nothing, and the name of the type."""
    _, trait, type_text = parts_of_impl(signature)
    name = re.search(r"(\w+)\W*$", without_generics(type_text).strip())
    return trait, name[1] if name else ""


def uses_of(text):
    """The paths of a `use`, each with the name that it gets."""
    text = re.sub(r"\s+", " ", text).strip()
    opened = text.find("{")
    if opened < 0:
        path, _, name = text.partition(" as ")
        return [(path.strip(), (name or path.split("::")[-1]).strip())]
    before, inside = text[:opened], text[opened + 1: text.rindex("}")]
    found = []
    for start, end in pieces_between_commas(inside):
        if inside[start:end].strip():
            found += [(before + path, name) for path, name in uses_of(inside[start:end])]
    return found
