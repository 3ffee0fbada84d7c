#!/usr/bin/env python3
"""The language of the documents: short sentences, short cells, a short README.

    python3 -m checks.tree.prose [-s N] [FILE ..]

It measures each page written by hand, and of each library the doc comments and the comments of its definitions (specs/), of which
docs/reference is made:

  average    the words of a sentence, on average at most 18
  long       sentences of over 30 words, at most 5 in 100, and none of over 40
  tables     at most 5 columns, and at most 25 words in a cell
  README     at most 150 lines

A span of code counts as one word of a sentence, and its words as words of a cell. Code blocks, headings and HTML do not count. With -s N
the N longest sentences of each are shown. FILE is a page, a source or a library. Without files, each measure is also tried on the faults
of PLANTED, and has to find them.
The last line is `N passed, M failed`; the exit status is 0 only if nothing failed.
"""
import argparse
import collections
import glob
import os
import re
import sys

from checks import TOP

PAGES = ("*.md", "docs/*.md", "languages/*/*.md")
AVERAGE, LONG, LONGEST, SHARE, COLUMNS, CELL, README_LINES = 18, 30, 40, 0.05, 5, 25, 150
# Which faults each of these texts has to show.
SHORT, LONG_ONE = "The prover checks it. ", " ".join(["word"] * 41) + ". "
PLANTED = {
    "average": "This sentence has some more words than a reader likes to hold in mind at any one time, so it fails. ",
    "long": SHORT * 9 + " ".join(["word"] * 31) + ". ",
    "longest": SHORT * 99 + LONG_ONE,
    "columns": "| a | b | c | d | e | f |\n|---|---|---|---|---|---|\n| a | b | c | d | e | f |\n",
    "cell": "| a |\n|---|\n| " + " ".join(["word"] * 26) + " |\n",
}
FENCE = re.compile(r"^ {0,3}```.*?^ {0,3}```[^\S\n]*$", re.M | re.S)
# What begins no prose: a heading, a line of HTML or of images, the target of a link, a rule.
NO_PROSE = re.compile(r"#|<|\[!\[|\[[^\]]+\]: |[=-]+$")
ITEM = re.compile(r"(?:[-*+]|\d+\.) +")
CELLS = re.compile(r"(?<!\\)\|")
SENTENCE_END = re.compile(r"(?<=[.!?])[\"')*]*\s+(?=[A-Z0-9*_(\[`\"])")
SHORTENED = re.compile(r"\b(e\.g|i\.e|etc|cf|vs)\.")
WORD = re.compile(r"[A-Za-z0-9][\w'/.,^-]*")

Prose = collections.namedtuple("Prose", "sentences cells columns")


def pages():
    return sorted(path for it in PAGES for path in glob.glob(it, root_dir=TOP))


def libraries():
    """The libraries of crates.txt that are no tests."""
    with open(f"{TOP}/crates.txt", encoding="utf-8") as it:
        listed = re.findall(r"^(\w+)[^:#\n]*:", it.read().partition("# tests")[0], re.M)
    return [it for it in listed if os.path.isfile(f"{TOP}/crates/{it}/src/lib.rt")]


def read(path):
    with open(os.path.join(TOP, path), encoding="utf-8") as it:
        return it.read()


def comments(text, mark=r"//[/!]"):
    """The doc comments of a source, or what stands behind another mark, as a page; what stands between two of them parts them."""
    found = (re.match(rf"\s*{mark} ?(.*)$", line) for line in text.split("\n"))
    return "\n".join(it[1] if it else "" for it in found)


def page_of(name):
    """A page, or the comments of a source or of definitions, or all these of a library."""
    if "/" not in name and "." not in name:
        found = (glob.glob(f"crates/{name}/{it}", root_dir=TOP, recursive=True) for it in ("src/**/*.rt", "specs/**/*.antt"))
        return "\n\n".join(page_of(it) for paths in found for it in sorted(paths))
    if name.endswith(".antt"):
        return comments(read(name), "--")
    return comments(read(name)) if name.endswith((".rt", ".rs")) else read(name)


def sentences_of(paragraph):
    """The sentences of a paragraph with their numbers of words; what has less than three words is none."""
    text = SHORTENED.sub(r"\1", re.sub(r"\[([^\]]*)\]\([^)]*\)", r"\1", re.sub(r"`[^`]*`", " CODE ", paragraph)))
    found = ((len(WORD.findall(it)), it.strip()) for it in SENTENCE_END.split(text))
    return [it for it in found if it[0] >= 3]


def prose_of(page):
    """The sentences, the cells and the number of columns of a page."""
    paragraphs, cells, columns, lines = [], [], 0, []

    def end():
        paragraphs.append(" ".join(lines))
        lines.clear()

    for line in FENCE.sub("\n\n", page).split("\n"):
        if re.match(r"    |\t", line) and not lines:
            continue
        words = line.strip()
        if not words or NO_PROSE.match(words):
            end()
        elif words.startswith("|"):
            end()
            row = [it.strip() for it in CELLS.split(words.strip("|"))]
            columns = max(columns, len(row))
            cells += [it for it in row if not re.fullmatch(r":?-+:?", it)]
        else:
            if ITEM.match(words):
                end()
                words = ITEM.sub("", words, count=1)
            lines.append(words)
    end()
    return Prose([it for one in paragraphs for it in sentences_of(one)], cells, columns)


def faults(page):
    """What is wrong with the language of a page: the measure and a sentence that says so."""
    prose = prose_of(page)
    counts = [count for count, _ in [*prose.sentences, *(it for cell in prose.cells for it in sentences_of(cell))]]
    of_text = [count for count, _ in prose.sentences] or [0]
    average, over = sum(of_text) / len(of_text), sum(it > LONG for it in of_text)
    if average > AVERAGE:
        yield "average", f"a sentence has {average:.1f} words on average, more than {AVERAGE}"
    if over > SHARE * len(of_text):
        yield "long", f"{over} of {len(of_text)} sentences have over {LONG} words"
    if max(counts, default=0) > LONGEST:
        yield "longest", f"a sentence has {max(counts)} words, more than {LONGEST}"
    if prose.columns > COLUMNS:
        yield "columns", f"a table has {prose.columns} columns, more than {COLUMNS}"
    for cell in prose.cells:
        if len(cell.split()) > CELL:
            yield "cell", f"a cell has {len(cell.split())} words, more than {CELL}: {cell[:60]} .."


def show(page, number):
    prose = prose_of(page)
    found = [*prose.sentences, *(it for cell in prose.cells for it in sentences_of(cell))]
    for count, sentence in sorted(found, reverse=True)[:number]:
        print(f"    {count} {sentence}")


def measure(name, number):
    """Prints what is wrong with a page or a library; whether nothing is."""
    page = page_of(name)
    found = [said for _, said in faults(page)]
    for said in found:
        print(f"{name}: {said}")
    if number:
        print(name)
        show(page, number)
    return not found


def planted():
    """Tries the measures on the planted faults; how many were not found."""
    missed = [name for name, page in PLANTED.items() if name not in {it for it, _ in faults(page)}]
    as_comment = "\n".join(f"    /// {line}" for line in PLANTED["longest"].split("\n"))
    if "longest" not in {it for it, _ in faults(comments(as_comment))}:
        missed.append("longest in a doc comment")
    missed += ["nothing"] if list(faults(SHORT)) else []
    for name in missed:
        print(f"the planted fault was not found: {name}")
    return len(missed)


def main():
    words = argparse.ArgumentParser(description=__doc__, formatter_class=argparse.RawDescriptionHelpFormatter)
    words.add_argument("-s", type=int, default=0, metavar="N")
    words.add_argument("files", nargs="*", metavar="FILE")
    asked = words.parse_args()
    tried = [measure(it, asked.s) for it in asked.files or pages() + libraries()]
    failed = tried.count(False)
    if not asked.files:
        lines = len(read("README.md").splitlines())
        is_long = lines > README_LINES
        if is_long:
            print(f"README.md has {lines} lines, more than {README_LINES}")
        missed = planted()
        failed += is_long + missed
        tried += [True] * (len(PLANTED) + 3 - missed - is_long)
    print(f"{tried.count(True)} passed, {failed} failed")
    return 1 if failed else 0


if __name__ == "__main__":
    sys.exit(main())
