"""Makes all pages of the reference from the sources, and finds what is wrong with these."""
import collections
import os

from . import crate_page, definitions_page, pages, subjects

FOLDER = pages.FOLDER
READ = (".rt", ".antt")
# The most bytes of a page that code hosts still render.
LIMIT = 512 * 1024

ABOUT = """Each page describes the public functions of a library: what a function returns, an example, and its contract, which is folded.
Start with [`chrono_datetime`](reference:chrono_datetime) for dates, times and date-times: it passes on the names of the libraries below it."""
CONTRACTS = """The prover holds each function to its contract. A clause after `requires` is what the caller has to make sure of. A clause after
`ensures` holds when the function returns. Values stand there as whole numbers and lists. A word that is a link leads to its
[definition](reference:definitions).

| In a contract | Meaning |
|---|---|
| `result` | what the function returns |
| `self.now` | the value behind a shared reference |
| `self.old`, `self.new` | the value behind `&mut`, before and after the call |
| `a ≡ b` | a equals b |
| `a ↔ b` | a holds if and only if b holds |
| `a × b`, `a ⊎ b` | both hold; one of them holds |
| `a → b` | if a holds, then b holds |
| `(n : ℤ) → a` | a holds for every whole number n |
| `λ n. a` | the function that takes n to a |
| `IsSome r` | r is `Some` |
| `IfSome r p` | if r is `Some(v)`, then p holds for v |
| `IsTrue b` | the test b is true |
| `pos 5`, `neg_ℤ (pos 5)` | the whole numbers 5 and -5 |
| `+ℤ`, `-ℤ`, `≤ℤ`, `<ℤ` | addition, subtraction and comparison of whole numbers |"""

Made = collections.namedtuple("Made", "texts faults names sources")


def read_sources(top):
    """The sources of the crates and their list, by their paths."""
    files = {}
    for at, folders, names in os.walk(f"{top}/crates"):
        folders[:] = sorted(it for it in folders if it != "out")
        for name in sorted(it for it in names if it.endswith(READ)):
            with open(os.path.join(at, name), encoding="utf-8") as it:
                files[os.path.relpath(os.path.join(at, name), top)] = it.read()
    with open(f"{top}/crates.txt", encoding="utf-8") as it:
        files["crates.txt"] = it.read()
    return files


def contents(crates):
    """The page that lists all others, by subjects."""
    page = pages.Page("README", "Reference", "`crates.txt` and `crates`")
    page.put(ABOUT)
    subjects.put(page, {it.name: pages.first_sentence(it.modules[""].said).replace("[`", "`").replace("`]", "`") for it in crates})
    page.heading(2, "How to read a contract", "=contracts")
    page.put(CONTRACTS)
    return page


def uncommented(cited):
    """The faults of the words that contracts cite and that have no comment."""
    for key, word in sorted(cited.items()):
        if not word.comment.strip():
            yield f"crates/{word.crate}/specs/{word.file}.antt: a public contract cites {word.name}, which has no comment"


def undescribed(crates):
    """The faults of the public items that have no comment."""
    for crate in crates:
        for it in crate.entries.values():
            calls = it.item.members if it.item.kind == "trait" else [one for one, _ in crate.calls_of(it.item.name)]
            named = [(it.path, it.item), *((f"{it.path}::{one.name}", one) for one in calls if one.kind in ("fn", "const"))]
            yield from (f"crates/{crate.name}: {path} has no comment" for path, one in named if not one.doc.strip())


def too_long(texts):
    """The faults of the pages that are not rendered for their size."""
    for path, text in texts.items():
        if len(text.encode()) >= LIMIT:
            yield f"{path}: has {len(text.encode()):,} bytes, and a page of {LIMIT:,} is not rendered"


def make(all_of_them):
    """The pages of some libraries by their paths, the faults of the sources, the names of the pages in their order, and the sources."""
    crates = list(all_of_them.crates.values())
    made = [crate_page.CratePage(all_of_them, it) for it in crates]
    cited = {key: word for it in made for key, word in it.cited.items()}
    all_pages = [contents(crates), *(it.page for it in made), *definitions_page.make(all_of_them)]
    texts, lost = pages.settle(all_pages, all_of_them.sources)
    files = {f"{FOLDER}/{name}.md": text for name, text in texts.items()}
    faults = [fault for it in made for fault in it.faults] + lost
    faults += [*uncommented(cited), *undescribed(crates), *subjects.wrong(all_of_them.crates), *too_long(files)]
    return Made(files, list(dict.fromkeys(faults)), list(texts), all_of_them.sources)


def differing(made, files):
    """The faults of committed pages: which differ from what is made, are missing, or are no page."""
    for path, text in made.texts.items():
        if path not in files:
            yield f"{path}: is not there, and tools/reference makes it"
        elif files[path] != text:
            yield f"{path}: differs from what tools/reference makes of the sources"
    for path in files:
        if path.startswith(f"{FOLDER}/") and path not in made.texts:
            yield f"{path}: tools/reference does not make it"
