#!/usr/bin/env python3
"""Measures the program dates beside dateutils, GNU date and Python's datetime, as ratios.

    benches/dates_speed.py [LINES]        (100,000, if left out)

Days read from standard input and named, and a row of days written, each as one run of the program; and one day moved by a month, as a program that is
started for each. The answers are compared before any is timed. The programs take turns in nine rounds, and the best run of each counts, by
processor time. What is not installed is not measured.

It needs crates/dates/out/dates, which `rt run` and `rt ci` leave there, and Debian's dateutils.
"""
import datetime
import os
import random
import shutil
import subprocess
import sys
import tempfile

TOP = os.path.dirname(os.path.dirname(os.path.abspath(__file__)))
sys.path.insert(0, os.path.join(TOP, "tools"))
from debian import PYTHON  # noqa: E402

DATES = os.path.join(TOP, "crates", "dates", "out", "dates")
ROUNDS = 9
STARTS = 200

NAMED = """
import datetime, sys
for line in sys.stdin:
    day = datetime.date.fromisoformat(line.rstrip())
    print(day, day.strftime("%Y-%j %G-W%V-%u %a"))
"""
ROW = """
import datetime, sys
day, end = map(datetime.date.fromisoformat, sys.argv[1:])
while day <= end:
    print(day)
    day += datetime.timedelta(1)
"""


def said(command, path):
    """The words of each line that the command writes for the file."""
    with open(path, "rb") as source:
        return [it.split() for it in subprocess.run(command, stdin=source, capture_output=True, text=True, check=True).stdout.splitlines()]


def seconds(command, path, starts=1):
    """The processor time of so many runs from the file to nowhere."""
    with open(os.devnull, "wb") as sink:
        before = os.times()
        for _ in range(starts):
            with open(path, "rb") as source:
                subprocess.run(command, stdin=source, stdout=sink, check=True)
        after = os.times()
    return after.children_user + after.children_system - before.children_user - before.children_system


def compare(title, commands, path, words, starts=1):
    """Prints how often the time of `dates` goes into that of each other command; so many words in front of their lines are the same."""
    known = {name: command for name, command in commands.items() if shutil.which(command[0])}
    ours = [it[:words] for it in said(known["dates"], path)]
    for name, command in known.items():
        if [it[:words] for it in said(command, path)] != ours:
            sys.exit(f"{name} answers otherwise than dates")
    times = [[seconds(it, path, starts) for it in known.values()] for _ in range(ROUNDS)]
    best = dict(zip(known, map(min, zip(*times))))
    print(f"\n| {title} | " + " | ".join(commands) + " |\n|---|" + "---|" * len(commands))
    shown = (f"{best[name] / best['dates']:.1f}" if name in best else "not run" for name in commands)
    print(f"| {best['dates'] * 1e9 / (len(ours) * starts):,.0f} ns a line | " + " | ".join(shown) + " |")


def main():
    count = int(sys.argv[1]) if len(sys.argv) > 1 else 100_000
    if not os.path.exists(DATES):
        sys.exit("there is no crates/dates/out/dates: `rt run` in crates/dates builds it")
    chance = random.Random(1)
    first, last = datetime.date(1800, 1, 1).toordinal(), datetime.date(2199, 12, 31).toordinal()
    with tempfile.TemporaryDirectory() as folder:
        lines, none = os.path.join(folder, "lines"), os.path.join(folder, "none")
        with open(lines, "w", encoding="ascii") as out:
            out.writelines(f"{datetime.date.fromordinal(chance.randint(first, last))}\n" for _ in range(count))
        open(none, "w", encoding="ascii").close()
        compare(f"{count} lines of days named", {
            "dates": [DATES, "-"],
            "dateutils": ["dateutils.dconv", "-f", "%F %Y-%j %G-W%V-%u %a"],
            "GNU date": ["date", "-u", "-f", "-", "+%F %Y-%j %G-W%V-%u %a"],
            "Python": [PYTHON, "-c", NAMED],
        }, lines, 4)
        end = str(datetime.date(1800, 1, 1) + datetime.timedelta(count - 1))
        compare(f"{count} days in a row", {
            "dates": [DATES, "seq", "1800-01-01", end],
            "dateutils": ["dateutils.dseq", "1800-01-01", end],
            "Python": [PYTHON, "-c", ROW, "1800-01-01", end],
        }, none, 1)
        compare("a start for each day moved by a month", {
            "dates": [DATES, "add", "2024-01-31", "1m"],
            "dateutils": ["dateutils.dadd", "2024-01-31", "1mo"],
        }, none, 1, STARTS)


if __name__ == "__main__":
    main()
