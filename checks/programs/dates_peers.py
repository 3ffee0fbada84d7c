#!/usr/bin/env python3
"""Holds `dates` to GNU date and to ncal.

    python3 -m checks.programs.dates_peers [--days N] [--months N]      (40 days for each form and 1,000 months, if left out)

GNU date is asked for the arithmetic that people type at it: spans forth and back, one after another or several at once, `next month`,
weekdays and seconds since 1970. FORMS has each beside the words of `dates`. From the 29th, 30th or 31st GNU date
goes past the end of a shorter month; such a month is asked for too, and both have to answer as APART says.

ncal prints months with ISO weeks in columns, of years from 1800 to 3000. `dates cal` has to have each day in the same week and on the
same weekday, and no other.

It needs crates/dates/out/dates, which `rt run` and `rt ci` leave there, or the program that DATES names, and ncal of Debian.
"""
import argparse
import datetime
import os
import random
import re
import shutil
import subprocess
import sys
from concurrent.futures import ThreadPoolExecutor

from checks.programs import dates

# What is written at GNU date, and the words of `dates` that mean the same; `day` is one up to the 28th, and `n` from 0 to 99.
FORMS = (
    ("{day} {n} days", "add {day} {n}d"),
    ("{day} +{n} day", "add {day} +{n}days"),
    ("{day} {n} days ago", "add {day} -{n}d"),
    ("{day} {n} weeks", "add {day} {n}w"),
    ("{day} {n} weeks ago", "add {day} -{n}w"),
    ("{day} {n} months", "add {day} {n}mo"),
    ("{day} {n} months ago", "add {day} -{n}mo"),
    ("{day} {n} years", "add {day} {n}y"),
    ("{day} {n} years ago", "add {day} -{n}y"),
    ("{day} {n} years 7 months 3 days", "add {day} {n}y7mo 3d"),
    ("{day} {n} months 2 weeks ago", "add {day} {n}mo -2w"),
    ("{day} yesterday", "add {day} -1d"),
    ("{day} tomorrow", "add {day} 1d"),
    ("{day} next day", "add {day} 1d"),
    ("{day} next week", "add {day} 1w"),
    ("{day} next month", "add {day} 1mo"),
    ("{day} next year", "add {day} 1y"),
    ("{day} last month", "add {day} -1mo"),
    ("{day} this week", "add {day} 0w"),
    ("{day} {time} UTC {n} hours", "add {day}T{time}Z {n}h"),
    ("{day} {time} UTC {n} hours ago", "add {day}T{time}Z -{n}h"),
    ("{day} {time} UTC +{n} minutes", "add {day}T{time}Z {n}min"),
    ("{day} {time} UTC {n} seconds ago", "add {day}T{time}Z -{n}s"),
    ("{day} {time} UTC next hour", "add {day}T{time}Z 1h"),
    ("{day} {time}+05:30 1 day", "in UTC {day}T{time}+05:30 --format '%F %T' | dates add - 1d"),
    ("friday", "friday --format %F"),
    ("Sun", "sun --format %F"),
    ("last monday", "'last monday' --format %F"),
    ("@1{n}234567", "in UTC @1{n}234567"),
    ("20{n:02}0314", "20{n:02}0314 --format %F"),
    ("14 Mar 20{n:02}", "'14 Mar 20{n:02}' --format %F"),
    ("Mar 14, 20{n:02}", "'Mar 14, 20{n:02}' --format %F"),
)

# Where both are asked for months from the end of a longer one: what GNU date answers, and what `dates` does.
APART = (
    ("2024-01-31 1 month", "2024-03-02", "add 2024-01-31 1mo", "2024-02-29"),
    ("1996-02-29 1 year", "1997-03-01", "add 1996-02-29 1y", "1997-02-28"),
    ("2024-03-31 1 month ago", "2024-03-02", "add 2024-03-31 -1mo", "2024-02-29"),
)

ROOM = {"TZ": "UTC", "LC_ALL": "C.UTF-8"}


def gnu_dates(lines):
    """What GNU date answers each line, as a date and a time in UTC."""
    ran = subprocess.run(["date", "-f", "-", "+%F %T"], input="\n".join(lines) + "\n", env={**os.environ, **ROOM}, capture_output=True, text=True, check=True)
    return ran.stdout.splitlines()


class Program:
    """The program `dates`, which a shell finds by its name."""

    def __init__(self, path, room):
        os.symlink(path, os.path.join(room, "dates"))
        self.env = {**os.environ, **ROOM, "PATH": room + os.pathsep + os.environ["PATH"]}

    def answer(self, words):
        return subprocess.run(["bash", "-c", f"dates {words}"], env=self.env, stdin=subprocess.DEVNULL, capture_output=True, text=True).stdout

    def date_time(self, words):
        """The answer as a date and a time, without its offset."""
        return re.sub(r"[+-]\d\d:\d\d( UTC)?$", "", self.answer(words).strip()).replace("T", " ")


def of_gnu(program, runners, chance, count):
    """The answers of forms that differ from GNU date's, and how many were compared."""
    asked = []
    for gnu, words in FORMS:
        for _ in range(count):
            day = datetime.date.fromordinal(chance.randint(693_596, 766_644)).replace(day=chance.randint(1, 28))
            time = f"{chance.randint(0, 23):02}:{chance.randint(0, 59):02}:{chance.randint(0, 59):02}"
            values = {"day": day, "time": time, "n": chance.randint(0, 99)}
            asked.append((gnu.format(**values), words.format(**values)))
    wanted = gnu_dates([gnu for gnu, _ in asked])
    found = runners.map(program.date_time, (words for _, words in asked))
    wrong = [f"dates {words}: {got}, and GNU date {want} of {gnu!r}" for (gnu, words), want, got in zip(asked, wanted, found, strict=True) if want not in (got, f"{got} 00:00:00")]
    answers = gnu_dates([gnu for gnu, *_ in APART])
    for (gnu, theirs, words, ours), answer in zip(APART, answers, strict=True):
        got = program.date_time(words)
        if (answer[:10], got) != (theirs, ours):
            wrong.append(f"dates {words}: {got}, and GNU date {answer} of {gnu!r}; wanted {ours} and {theirs}")
    return wrong, len(asked) + len(APART)


def by_ncal(year, month):
    """The days of a month as ncal prints them: of each its week and its weekday from Monday on, which is 0."""
    text = subprocess.run(["ncal", "-M", "-w", "-h", str(month), str(year)], env={**os.environ, **ROOM}, capture_output=True, text=True, check=True).stdout
    *rows, weeks = text.splitlines()[1:9]
    columns = range(3, len(weeks.rstrip()), 3)
    return {int(row[at - 1 : at + 2]): (int(weeks[at - 1 : at + 2]), weekday) for weekday, row in enumerate(rows) for at in columns if row[at - 1 : at + 2].strip()}


def by_dates(program, year, month):
    """The same of `dates cal`."""
    rows = program.answer(f"cal {year}-{month:02} --weekend none").splitlines()[2:]
    return {int(row[at : at + 2]): (int(row[1:3]), weekday) for row in rows for weekday, at in enumerate(range(4, 25, 3)) if row[at : at + 2].strip()}


def of_ncal(program, runners, chance, count):
    """The months that differ from ncal's, and how many were compared."""
    months = [(chance.randint(1800, 3000), chance.randint(1, 12)) for _ in range(count)]
    both = runners.map(lambda it: (by_ncal(*it), by_dates(program, *it)), months)
    return [f"dates cal {year}-{month:02}: {ours}, and ncal {theirs}" for (year, month), (theirs, ours) in zip(months, both, strict=True) if ours != theirs or len(ours) < 28], count


def main():
    wanted = argparse.ArgumentParser(description=__doc__, formatter_class=argparse.RawDescriptionHelpFormatter)
    wanted.add_argument("--days", type=int, default=40)
    wanted.add_argument("--months", type=int, default=1_000)
    given = wanted.parse_args()
    path = os.environ.get("DATES") or dates.find_program()
    if not path:
        print("0 passed, 1 failed")
        return 1
    chance, passed, failed = random.Random(1), 0, 0
    with dates.tempfile.TemporaryDirectory() as room, ThreadPoolExecutor(os.cpu_count()) as runners:
        program = Program(os.path.abspath(path), room)
        parts = [(of_gnu, given.days)] + [(of_ncal, given.months)] * bool(shutil.which("ncal"))
        for part, count in parts:
            wrong, asked = part(program, runners, chance, count)
            for it in wrong[:10]:
                print(f"FAILED: {it}")
            print(f"{part.__name__[3:]}: {asked} answers")
            passed += asked - len(wrong)
            failed += len(wrong)
    if len(parts) < 2:
        print("not run: months beside ncal, since there is none")
    print(f"{passed} passed, {failed} failed")
    return 1 if failed else 0


if __name__ == "__main__":
    sys.exit(main())
