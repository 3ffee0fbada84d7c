#!/usr/bin/env python3
"""Whether each planted bug has its place: the text that it replaces stands in the file that it names.

    python3 -m checks.tree.edits

It reads the edits of crates/NAME/must-fail and crates/NAME/plants, and the wrong lines of languages/NAME/wrong_lines.txt. A wrong line replaces
text that stands there once. It tries none of them. So a change that takes the place of a planted bug away is found in a second.
Then it asks for a place that is not there, of each kind, and has to find that.
"""
import glob
import os
import re
import sys

from checks import TOP
from checks.shared import wrong_lines
from checks.shared.results import Results


def read(path):
    """The text of a file below the top; an empty one if there is none."""
    if not os.path.isfile(f"{TOP}/{path}"):
        return ""
    with open(f"{TOP}/{path}", encoding="utf-8") as it:
        return it.read()


def replaced(path):
    """The file and the old text of each replacement in a file of edits of a crate."""
    crate = "/".join(path.split("/")[:2])
    first = None
    for block in read(path).rstrip("\n").split("\n\n"):
        file, key, texts = first, None, []
        for line in [*block.split("\n"), "end: "]:
            begun = re.match(r"(file|name|old|new|same|end):(?: (.*)|$)", line)
            if not begun:
                texts.append(line)
                continue
            if key == "old":
                yield f"{crate}/{file}", "\n".join(texts)
            key, texts = begun[1], [begun[2] or ""]
            if key == "file":
                file = begun[2]
        first = first or file


def of_crates():
    for path in sorted(glob.glob("crates/*/must-fail/*.edit", root_dir=TOP) + glob.glob("crates/*/plants/*.edits", root_dir=TOP)):
        for file, old in replaced(path):
            yield path, file, old


def twice_named():
    """The plants of a crate whose names an edit before them has too, which `tools/plants.py` could not tell apart."""
    named = set()
    for path in sorted(glob.glob("crates/*/plants/*.edits", root_dir=TOP)):
        for name in re.findall(r"^name: (.*)$", read(path), re.M):
            yield from [f"{path}: {name}"] if (path.split("/")[1], name) in named else []
            named.add((path.split("/")[1], name))


def of_languages():
    for path in sorted(glob.glob("languages/*/wrong_lines.txt", root_dir=TOP)):
        language = path.split("/")[1]
        for file, old, _ in wrong_lines.edits(language):
            yield path, f"languages/{language}/{file}", old


def main():
    results = Results()
    for name, found, is_there in (("plants", of_crates(), lambda file, old: old in read(file)),
                                  ("wrong lines", of_languages(), lambda file, old: read(file).count(old) == 1)):
        edits = list(found)
        for path, file, old in edits:
            results.count(is_there(file, old), f"{path}: {file} has not the place {old!r}")
        _, file, old = edits[len(edits) // 2]
        results.count(not is_there(file, old + "~"), f"{name}: a place that is not there was found")
        print(f"{name}: {len(edits)}")
    for it in twice_named():
        results.count(False, f"{it} is the name of two plants")
    print(f"{results.passed} passed, {results.failed} failed")
    return int(results.failed > 0)


if __name__ == "__main__":
    sys.exit(main())
