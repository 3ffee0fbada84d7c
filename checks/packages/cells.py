#!/usr/bin/env python3
"""Runs an example of each cell of the table of layer by language in docs/layers.md.

    python3 -m checks.packages.cells        (compares the table with the examples alone; the checks of the languages run them)

An example is a part of the file of its language in FILES, under a comment that has the layer's name behind `==`. It has to use each
name that the cell has in backquotes, and to print what stands in comments behind its lines. An empty cell, which has `-`, fails, and so do
a cell with no such part and a part with no cell. Cells that are wrong on purpose have to be found.
"""
import re
import subprocess
import sys

from checks import TOP
from checks.shared.results import LANGUAGES, Results, read

PAGE = f"{TOP}/docs/layers.md"
# The examples by the language's name in the table: the file, how a comment begins in it, and a whole one, which counts for no use.
FILES = {
    "C": (f"{LANGUAGES}/c/cells.c", r"/\*", r"(?s)/\*.*?\*/"),
    "Python": (f"{LANGUAGES}/python/tests/cells.py", "#", "#.*"),
    "Rust": (f"{LANGUAGES}/rust/tests/cells.rs", "//", "//.*"),
    "JavaScript": (f"{LANGUAGES}/javascript/test/cells.js", "//", "//.*"),
}


def cells_of(page):
    """The names in backquotes that each cell of the table has, by layer and language; None for a cell without one."""
    table = re.search(r"^\| \| C \|.*\n\|[-|]+\n((?:\|.*\n)+)", page, re.M)
    languages = [it.strip() for it in table[0].splitlines()[0].strip("|").split("|")[1:]]
    found = {}
    for row in table[1].splitlines():
        layer, *cells = (it.strip() for it in row.strip("|").split("|"))
        for language, cell in zip(languages, cells, strict=True):
            found[layer, language] = re.findall("`([^`]+)`", cell) or None
    return found


def parts_of(language, text):
    """The examples of a language by layer: the lines of each without comments, and what they have to print."""
    comment = FILES[language][1]
    _, *pieces = re.split(rf"^ *{comment} == (.+?)(?: \*/)?\n", text, flags=re.M)
    parts = dict(zip(pieces[::2], pieces[1::2]))
    return {layer: (re.sub(FILES[language][2], "", it), re.findall(rf"{comment} = (.*?)(?: \*/)?$", it, re.M)) for layer, it in parts.items()}


def uses(name, part):
    """Whether an example uses a name of its cell, in which a star stands for letters; each word of it, as in `A::b`."""
    words = (re.escape(it).replace(r"\*", r"\w+") for it in re.split(r"::|\.", name))
    return all(re.search(rf"\b{it}\b", part) for it in words)


def faults_of(page, texts):
    """What is wrong with the examples of a page."""
    cells, parts = cells_of(page), {language: parts_of(language, text) for language, text in texts.items()}
    for (layer, language), names in cells.items():
        if names is None:
            yield f"{layer} in {language}: the cell is empty"
            continue
        part, wanted = parts[language].get(layer, ("", []))
        if not part:
            yield f"{layer} in {language}: there is no example"
        elif not wanted:
            yield f"{layer} in {language}: the example does not say what it prints"
        yield from (f"{layer} in {language}: the example does not use {it}" for it in names if part and not uses(it, part))
    for language, layers in parts.items():
        yield from (f"{layer} in {language}: there is no such cell" for layer in layers if cells.get((layer, language)) is None)


# Cells that are wrong: what stands in the table, what stands there instead, and what has to be said of it.
PLANTED = (
    ("| Easter | `calendar_easter` |", "| Easter | `calendar_pentecost` |", "Easter in C: the example does not use calendar_pentecost"),
    ("| Easter | `calendar_easter` |", "| Easter | - |", "Easter in C: the cell is empty"),
    ("| Easter | `calendar_easter` |", "| Easter | not yet |", "Easter in C: the cell is empty"),
    ("| Easter | `calendar_easter` |", "| Passover | `calendar_easter` |", "Passover in Rust: there is no example"),
)

# Examples that name something in a comment alone: what stands there, what stands there instead, and what has to be said of it.
COMMENTED = {
    "C": ("calendar_easter(2024)", "/* calendar_easter(2024) */ 738976", "Easter in C: the example does not use calendar_easter"),
    "Python": ("print(*BusinessCalendar.known(", "print(1)  # BusinessCalendar.known(", "holidays in Python: the example does not use BusinessCalendar.known"),
    "Rust": ("easter(2024)", "none() // easter(2024)", "Easter in Rust: the example does not use easter"),
    "JavaScript": ("easter(2024)", "7 // easter(2024)", "Easter in JavaScript: the example does not use easter"),
}


def compare(results):
    """The table and the examples, and tables that are wrong on purpose."""
    page, texts = read(PAGE), {language: read(path) for language, (path, *_) in FILES.items()}
    faults = list(faults_of(page, texts))
    for it in faults:
        results.count(False, it)
    results.passed += len(cells_of(page)) - len(faults)
    for old, new, wanted in PLANTED:
        results.count(old in page and wanted in faults_of(page.replace(old, new), texts), f"a table with {new!r} is not found wrong")
    for language, (path, *_) in FILES.items():
        silent = {**texts, language: re.sub(r"== Easter", "== Ester", texts[language])}
        results.count(f"Easter in {language}: there is no example" in faults_of(page, silent), f"{path} with no Easter is not found wrong")
    for language, (old, new, wanted) in COMMENTED.items():
        results.count(old in texts[language], f"{FILES[language][0]} has no {old!r}")
        told = {**texts, language: texts[language].replace(old, new)}
        results.count(wanted in faults_of(page, told), f"the comment {new!r} in {language} is not found wrong")


def wanted_lines(language, leave_out=()):
    """What the examples of a language print, but for those of some layers."""
    parts = parts_of(language, read(FILES[language][0]))
    return [line for layer, (_, lines) in parts.items() if layer not in leave_out for line in lines]


def run(results, language, words, leave_out=(), **how):
    """Runs the examples of a language and compares what they print."""
    ran = subprocess.run(words, capture_output=True, text=True, **how)
    found, wanted = ran.stdout.splitlines(), wanted_lines(language, leave_out)
    results.count(found == wanted, f"the examples of the layers in {language} print {found}, and have to print {wanted}: {ran.stderr[-2000:]}")
    print(f"examples of the layers in {language}: {len(found)} lines of {len(wanted)}", flush=True)


def main():
    results = Results()
    compare(results)
    print(f"{results.passed} passed, {results.failed} failed")
    return 1 if results.failed else 0


if __name__ == "__main__":
    sys.exit(main())
