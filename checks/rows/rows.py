#!/usr/bin/env python3
"""Makes every answer of the rows of rows_chrono again, and compares it with the one that stands there.

    python3 -m checks.rows.rows            compares
    python3 -m checks.rows.rows --write    puts the answers that are made here where others stand

Where Debian's librust-chrono-dev has the call with the meaning of the row, it answers: checks/rows/chrono_answers is built over it and
says in its comments what it leaves out of version 0.4.23. All other rows are counted, as checks/rows/ends.py counts them: calls that
this version lacks or that docs/chrono.md lists as answering otherwise, times with a leap fraction at a second that later
versions refuse, walks at the ends of its longer calendar and how many dates they have left, ISO weeks that are read of a date of
another year, whose order was wrong, and arguments at which it panics.
"""
import os
import re
import subprocess
import sys
import tempfile
import textwrap

from checks import TOP
from checks.rows.ends import CALLS, ROWS, answer
from debian import build_over_chrono, why_no_chrono

PROGRAM = os.path.join(TOP, "checks", "rows", "chrono_answers")
# What the program answers where it has no answer and where chrono panics, and for a word that it is not asked for.
LACKS, PANICS, LEFT_OUT = "-", "!", "?"


def read_rows():
    """The calls with their arguments, and their answers."""
    with open(ROWS, encoding="utf-8") as it:
        return [tuple(line.split(" = ", 1)) for line in it.read().splitlines()]


def chrono_version():
    """The version that the program is built over."""
    with open(os.path.join(PROGRAM, "Cargo.lock"), encoding="utf-8") as it:
        return re.search(r'name = "chrono"\nversion = "(.*)"', it.read())[1]


def by_chrono(calls):
    """What chrono answers to each call, in the program's words."""
    with tempfile.TemporaryDirectory(prefix="rows-") as folder:
        program = build_over_chrono(folder, "checks/rows/chrono_answers")
        asked = "".join(f"{call}\n" for call in calls).encode()
        return subprocess.run([program], input=asked, stdout=subprocess.PIPE, check=True).stdout.decode().splitlines()


def by_counting(call):
    name, *words = call.split(" ")
    counted = answer(name, words) if name in CALLS else None
    return counted and " ".join(counted)


def with_counted(given, call):
    """The answer of chrono, with the words that it was not asked for."""
    if LEFT_OUT not in given:
        return given
    pairs = zip(given.split(" "), by_counting(call).split(" "), strict=True)
    return " ".join(counted if word == LEFT_OUT else word for word, counted in pairs)


def in_numbers(words):
    """The answer of a row, whose truths may stand as words."""
    return " ".join({"true": "1", "false": "0"}.get(it, it) for it in words.split(" "))


def compare(rows, asked, name):
    """The answer made for each row, those that differ being printed, and how many these are."""
    made, differing = [], 0
    for (call, stands), given in zip(rows, asked, strict=True):
        is_counted = given in (LACKS, PANICS)
        who, right = ("counting", by_counting(call)) if is_counted else (name, with_counted(given, call))
        is_same = right == in_numbers(stands)
        made.append(stands if is_same or right is None else right)
        if not is_same:
            differing += 1
            print(f"{call} = {stands}, and {who} answers {right}")
    return made, differing


def tell(rows, asked, name):
    """Prints who answered how many rows, and which calls chrono answers none of."""
    answers = {}
    for (call, _), given in zip(rows, asked, strict=True):
        answers.setdefault(call.split(" ")[0], []).append(given)
    lacked = sorted(it for it, given in answers.items() if set(given) <= {LACKS, PANICS})
    without = sum(len(answers.pop(it)) for it in lacked)
    panics, otherwise = (sum(given.count(it) for given in answers.values()) for it in (PANICS, LACKS))
    print(f"{len(rows) - without - panics - otherwise} rows of {len(answers)} calls are answered by {name}, all others are counted:")
    print(f"{without} of {len(lacked)} calls that it lacks or answers otherwise, {panics} where it panics and {otherwise} where it")
    print("means something else by the arguments")
    print(textwrap.fill(f"calls that are counted: {', '.join(lacked)}", 130, break_on_hyphens=False))


def write(rows, made):
    with open(ROWS, "w", encoding="utf-8") as out:
        out.writelines(f"{call} = {words}\n" for (call, _), words in zip(rows, made, strict=True))


def main():
    rows = read_rows()
    missing = why_no_chrono()
    if missing:
        print(f"not run: the rows by chrono, since {missing}: all {len(rows)} are counted")
        made, differing = compare(rows, [LACKS] * len(rows), None)
    else:
        asked = by_chrono(call for call, _ in rows)
        name = f"chrono {chrono_version()}"
        made, differing = compare(rows, asked, name)
        tell(rows, asked, name)
    if sys.argv[1:] == ["--write"]:
        write(rows, made)
    print(f"{len(rows) - differing} passed, {differing} failed")
    return 1 if differing else 0


if __name__ == "__main__":
    sys.exit(main())
