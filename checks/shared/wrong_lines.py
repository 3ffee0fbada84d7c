"""Wrong lines for the wrappers of languages/, each of which the wrapper's own tests have to find.

They stand in `languages/NAME/wrong_lines.txt` in blocks of three lines with an empty line between: `file: src/date.c`, the path below
`languages/NAME`; `old: TEXT`, which stands in that file once; `new: TEXT`.
"""
import concurrent.futures
import os
import re
import shutil

from checks import TOP


def edits(language):
    """The file, the old and the new text of each wrong line."""
    with open(f"{TOP}/languages/{language}/wrong_lines.txt", encoding="utf-8") as it:
        blocks = it.read().strip("\n").split("\n\n")
    for block in blocks:
        found = re.fullmatch(r"file: (.+)\nold: (.+)\nnew: (.*)", block)
        if not found:
            raise ValueError(f"languages/{language}/wrong_lines.txt: no block of three lines: {block}")
        yield found.groups()


def planted(language, folder, edit):
    """Copies languages/NAME into a folder, which is made anew, with one line wrong; the folder."""
    path, old, new = edit
    shutil.rmtree(folder, ignore_errors=True)
    shutil.copytree(f"{TOP}/languages/{language}", folder, ignore=shutil.ignore_patterns("__pycache__", "target", "build", "*.so"))
    with open(f"{folder}/{path}", encoding="utf-8") as it:
        text = it.read()
    if text.count(old) != 1:
        raise ValueError(f"languages/{language}/{path} has {text.count(old)} times {old!r}")
    with open(f"{folder}/{path}", "w", encoding="utf-8") as it:
        it.write(text.replace(old, new))
    return folder


def tried(language, room, attempt):
    """Each wrong line with what `attempt(ROOM, EDIT)` says of it. The processors share the lines, and each has a room of its own."""
    wrong, count = list(edits(language)), os.cpu_count() or 1

    def some(first):
        place = f"{room}/wrong_{first}"
        os.makedirs(place)
        return [attempt(place, edit) for edit in wrong[first::count]]

    with concurrent.futures.ThreadPoolExecutor(count) as workers:
        shares = list(workers.map(some, range(count)))
    return [(edit, shares[number % count][number // count]) for number, edit in enumerate(wrong)]
