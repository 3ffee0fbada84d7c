"""Wrong bodies of many functions of a crate, tried in one check.

A function is proved from its own body and from the contracts of those it calls. So wrong bodies in different functions do not touch each other: a
round puts one into each, checks the crate once, and each function has to be left unproved. So it is with the contract of a function that no other
calls, as most laws are. What turns another contract, a constant or a definition is tried alone, and so is what a round did not see refused.
"""
import collections
import os
import re

FUNCTION = re.compile(r'^( *)(?:pub(?:\(\w+\))? |unsafe |const |extern "C" )*fn (\w+)', re.M)
OWNER = re.compile(r"^(?:pub )?(impl|trait)\b([^{]*)\{", re.M)
# What the check says of a function.
VERDICT = re.compile(r"^fn ([\w:]+): (.*)$", re.M)
# Of a function that was proved, or is left only since one that it calls was not: that says nothing of its own body.
STANDS = re.compile(r"proved|no proof: it calls ")
# Of an error in a proof file that names what an edit took away, or that was not looked at since it cites such a proof.
LOST_NAME = re.compile(r"has no field|is not in scope|has no `|was not admitted|^`[^`]*`: record `|which was rejected, was not checked")

Place = collections.namedtuple("Place", "path start end new")


class Sources:
    """The texts of a crate's files."""

    def __init__(self, folder):
        self.texts = {}
        for at, _, names in os.walk(folder):
            for name in (it for it in names if it.endswith((".rt", ".antt"))):
                with open(f"{at}/{name}", encoding="utf-8") as it:
                    self.texts[os.path.relpath(f"{at}/{name}", folder)] = it.read()
        self.code = "\n".join(re.sub(r"//.*", "", text) for path, text in self.texts.items() if path.startswith("src/"))

    def __getitem__(self, path):
        return self.texts.get(path, "")

    def module_of(self, name, path):
        """The module of a source, or that of the type whose own calls stand there."""
        declares = re.compile(rf"^(?:pub )?(?:struct|enum) {name}\b", re.M)
        path = next((it for it, text in self.texts.items() if name and it.startswith("src/") and declares.search(text)), path)
        module = path.removeprefix("src/").removesuffix(".rt").replace("/", "::")
        return [] if module == "lib" else [module]

    def is_called(self, name):
        """Whether a source calls a function of this name, so that its contract is one that others are proved from."""
        return bool(re.search(rf"(?<!fn ){name}(?:::<[^>]*>)?\(", self.code))


def places_of(edit, sources):
    """What an edit puts in the place of what, or nothing if one of its texts does not stand just once."""
    path, old, found = "", "", []
    for line in edit.splitlines():
        kind, _, text = line.partition(":")
        text = text.removeprefix(" ")
        if kind == "file":
            path = text
        elif kind == "old":
            old = text
        elif kind == "new":
            if sources[path].count(old) != 1:
                return None
            start = sources[path].index(old)
            found.append(Place(path, start, start + len(old), text))
    return found


def owner_at(text, position):
    """The name that the kit gives to the block around a position: a type, a trait, or the type with a trait's name behind it."""
    around = [it for it in OWNER.finditer(text, 0, position) if "\n}" not in text[it.end() : position]]
    if not around:
        return ""
    kind, head = around[-1].groups()
    head = re.sub(r"\bwhere\b.*", "", re.sub(r"^<.*?>(?= )", "", head), flags=re.S).strip()
    if kind == "trait":
        return re.match(r"\w+", head)[0]
    trait, _, name = head.rpartition(" for ")
    words = re.findall(r"\w+", re.sub(r"'\w+|\w+::", "", trait))
    return re.match(r"\w+", name)[0] + "".join(it[0].upper() + it[1:] for it in words)


def body_at(text, function):
    """Where the body of a function begins: at the brace that ends its first line, or at the first that begins a line below."""
    indent = function[1]
    return min((it for it in (text.find(" {\n", function.end(), text.find("\n", function.end()) + 1), text.find(f"\n{indent}{{", function.end())) if it >= 0),
               default=len(text))


def function_of(place, crate, sources):
    """The function in which a place lies, and whether none else is proved from what stands there: its body, or the contract of one that none calls."""
    text = sources[place.path]
    above = [it for it in FUNCTION.finditer(text) if it.start() <= place.start]
    if not above or not place.path.startswith("src/") or re.search(r"^(?:pub )?(?:const|static|struct|enum)\b|^}", text[above[-1].end() : place.start], re.M):
        return None, False
    owner, name = owner_at(text, above[-1].start()), above[-1][2]
    path = [crate, *sources.module_of(owner, place.path), *([owner] if owner else []), name]
    return "::".join(path), place.start > body_at(text, above[-1]) or not owner and not sources.is_called(name)


def functions_of(edit, crate, sources):
    """The functions that an edit turns, or nothing if it touches anything that another function is proved from."""
    found = [function_of(it, crate, sources) for it in places_of(edit, sources) or []]
    return {name for name, _ in found} if found and all(name and inside for name, inside in found) else set()


def rounds_of(edits, crate, sources):
    """Rounds of edits, each of which turns other functions than the others of its round; and the edits to be tried alone."""
    rounds, alone = [], []
    for name, edit in edits:
        functions = functions_of(edit, crate, sources)
        fits = next((it for it in rounds if not any(functions & others for others in it.values())), None)
        if not functions:
            alone.append(name)
        elif fits is not None:
            fits[name] = functions
        else:
            rounds.append({name: functions})
    return rounds, alone


def texts_with(edits, sources):
    """The texts of the files that these edits change, with all of them made."""
    texts = {}
    for place in sorted((it for edit in edits for it in places_of(edit, sources)), key=lambda it: it.start, reverse=True):
        text = texts.get(place.path, sources[place.path])
        texts[place.path] = text[: place.start] + place.new + text[place.end :]
    return texts


def refused_in(printed, functions):
    """Of the edits of a round, by name with their functions: those that left a body unproved, and of these whether for a lost name alone."""
    verdicts = dict(VERDICT.findall(printed))
    refused = {}
    for name, those in functions.items():
        left = [it for it in those if not STANDS.match(verdicts.get(it, "proved"))]
        if left:
            folders = "|".join(re.escape("/".join(it.split("::")[1:])) for it in left)
            errors = re.findall(rf"^(?:\./)?proofs/(?:{folders})/\w+\.antt:\S+ error: (.*)$", printed, re.M)
            own = any("no proof" in verdicts[it] for it in left)
            refused[name] = bool(errors) and not own and all(LOST_NAME.search(it) for it in errors)
    return refused
