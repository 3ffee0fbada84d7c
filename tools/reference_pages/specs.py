"""Reads the definitions of the crates' specs/ folders: each word with its comment, and the known values beside it."""
import dataclasses
import re

DECLARED = re.compile(r"(?P<keys>(?:(?:abbrev|unfoldable|pub|record|data|ruleset)\s+)*)(?P<name>[^\s:=(]+)(?P<rest>.*)")
USED = re.compile(r"^(?:unfoldable )?pub use Rattle\.(\w+)\.specs\.(\w+)(?:\.\{([^}]*)\})?", re.M)
WORD = re.compile(r"(?<![\w.'])[^\W\d][\w']*(?:-[^\W\d][\w']*)*(?:\.[^\W\d][\w']*)?")


@dataclasses.dataclass
class Word:
    """A definition, or a claim that is proved: where it stands, its comment and its text."""

    crate: str
    file: str
    name: str
    comment: str
    text: str
    public: bool
    defines: bool


def is_declaration(line):
    """Whether a line at the left edge declares a name."""
    said = line.partition(" = ")[0]
    return not re.match(r"[\s}]|use\b|pub use\b|unfoldable pub use\b|pub mod\b|infix|unfolding\b", line) and (
        " : " in said or bool(re.match(r"(?:pub )?(?:ruleset|record|data) ", line)))


def word_of(crate, file, comment, lines):
    """The word that some lines declare."""
    head = DECLARED.match(lines[0])
    keys = head["keys"].split()
    defines = bool({"abbrev", "unfoldable", "record", "data", "ruleset"} & set(keys))
    kept = [it for it in lines if not it.startswith("unfolding ")]
    if not defines and re.search(r" [≡↔≤<≢] | → ", kept[0]):
        equation = re.compile(rf"{re.escape(head['name'])}(\s.*)? =(\s|$)")
        kept = kept[: next((n for n, it in enumerate(kept) if n and equation.match(it)), len(kept))]
    return Word(crate, file, head["name"], comment, "\n".join(kept).rstrip(), "pub" in keys, defines)


def words_of(crate, file, text):
    """What is said of a file, and its words in their order."""
    said, found, comment, lines, at_top = [], [], [], [], True
    for line in [*text.split("\n"), ""]:
        is_comment = line.startswith("--")
        if lines and (not line.strip() or is_comment or is_declaration(line)):
            found.append(word_of(crate, file, "\n".join(comment), lines))
            comment, lines = [], []
        if is_comment:
            (said if at_top else comment).append(re.sub(r"^--+ ?", "", line))
        elif is_declaration(line) or lines:
            lines.append(line)
        at_top = at_top and is_comment
        if not line.strip() or re.match(r"use\b", line):
            comment = []
    return "\n".join(said), [it for it in found if not it.name.startswith("infix")]


class Specs:
    """The words of all crates, and where a name of a contract leads."""

    def __init__(self, files):
        self.words, self.said, self.uses, self.passes = {}, {}, {}, {}
        for path, text in sorted(files.items()):
            found = re.fullmatch(r"crates/(\w+)/specs/(\w+)\.antt", path)
            if found:
                self.read(found[1], found[2], text)

    def read(self, crate, file, text):
        """Reads a file of specs."""
        self.said[crate, file], words = words_of(crate, file, text)
        self.words[crate, file] = words
        for other, there, names in USED.findall(text):
            if names:
                self.uses.setdefault((crate, file), {}).update({it.strip(): (other, there) for it in names.split(",")})
            else:
                self.passes.setdefault(crate, {})[there] = other

    def find(self, crate, file, name):
        """The word that a path names, also through the files that pass it on; nothing if there is none."""
        for word in self.words.get((crate, file), []):
            if word.name == name and word.public:
                return word
        if name in self.uses.get((crate, file), {}):
            return self.find(*self.uses[crate, file][name], name)
        other = self.passes.get(crate, {}).get(file)
        return self.find(other, file, name) if other and other != crate else None

    def files_of(self, crate):
        """The files of a crate's specs."""
        return [file for it, file in self.words if it == crate]


def imported(specs, uses):
    """The words that the `ghost use`s of a source bring in, by the names that they have there, and the files that have a name."""
    words, files = {}, {}
    for it in uses:
        found = re.match(r"ghost use Rattle\.(\w+)\.specs\.(\w+)(?:\.\{(.*)\}| as (\w+))?\s*$", re.sub(r"\s+", " ", it))
        if not found:
            continue
        if found[3] is None:
            files[found[4] or found[2]] = (found[1], found[2])
            continue
        for name in found[3].split(","):
            name, _, other = (part.strip() for part in name.partition(" as "))
            word = specs.find(found[1], found[2], name)
            if word:
                words[other or name] = word
    return words, files


def bound_in(text):
    """The names that a claim binds itself."""
    found = [*re.findall(r"λ ([^.]*)\.", text), *re.findall(r"\(([\w' ]+) : ", text), *re.findall(r"\blet (\w+)", text)]
    return set(" ".join(found).split())


def linked(specs, imports, text, name_parts):
    """The pieces of a claim: each with the word that it names, or with nothing."""
    words, files = imports
    own, at = bound_in(text) | set(name_parts), 0
    for it in WORD.finditer(text):
        first, dot, second = it[0].partition(".")
        found = specs.find(*files[first], second) if dot and first in files else None
        if not found and first in words and first not in own:
            found, second = words[first], "" if dot else second
        if found:
            end = it.end() if not dot or (first in files and second) else it.start() + len(first)
            yield text[at: it.start()], None
            yield text[it.start(): end], found
            at = end
    yield text[at:], None
