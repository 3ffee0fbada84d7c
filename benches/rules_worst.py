#!/usr/bin/env python3
"""Looks for slow rules and schedules: the slowest of random texts of at most 500 bytes.

    benches/rules_worst.py [--seed N] [--rules N] [--program FILE]

It makes 10,000 random recurrence rules and as many random cron schedules, or as many as --rules says.
The program crates/rows_layers asks each rule for its next and its previous instance: from the calendar's beginning, from a
day of today's years, and from the calendar's end. It asks each schedule in the same places.
At first 64 calls share a process. The calls of the slowest processes then run alone. The slowest of those run seven times, and the best counts.
The script prints the ten slowest with their processor times: of rules without INTERVAL, of those with one, and of schedules.
It exits with status 1 if a call takes more than 50 ms, or more than 500 ms for a rule with INTERVAL, which makes the cycle long.
`rt run` and `rt ci` leave the program in its out/ folder.
"""
import argparse
import os
import random
import resource
import subprocess
import sys

TOP = os.path.dirname(os.path.dirname(os.path.abspath(__file__)))
sys.path.insert(0, TOP)
from checks.shared.row_programs import PROGRAM, section

FIRST, TODAY, LAST = -95_746_129, 739_000, 95_745_399
WEEKDAYS = ("MO", "TU", "WE", "TH", "FR", "SA", "SU")
LONGEST = 500
AT_ONCE = 64
SHOWN = 10
RUNS = 7
# The most seconds of a call, and those of a call for a rule with INTERVAL.
MOST, MOST_OF_INTERVALS = 0.05, 0.5


def numbers(draw, most, signed, many):
    """Numbers from 1 to `most`, between commas, some of them from the end."""
    those = {draw.randint(1, most) for _ in range(draw.randint(1, many))}
    if draw.random() < 0.3:
        those = {most - it for it in range(draw.randint(1, min(many, most)))}
    signs = ("", "-") if signed else ("",)
    return ",".join(draw.choice(signs) + str(it) for it in sorted(those))


def weekdays(draw, numbered):
    """Weekdays, some of them numbered."""
    some = draw.sample(WEEKDAYS, draw.randint(1, 7))
    if numbered and draw.random() < 0.5:
        return ",".join(draw.choice(("", "-")) + str(draw.randint(1, draw.choice((5, 53)))) + it for it in some)
    return ",".join(some)


def rule(draw):
    """The text of a rule."""
    frequency = draw.choice(("DAILY", "WEEKLY", "MONTHLY", "YEARLY"))
    while True:
        parts = [f"FREQ={frequency}"]
        if draw.random() < 0.4:
            parts.append(f"INTERVAL={draw.choice((2, 3, 7, 12, 97, 100, 400, 401, 4_800, 4_799, 146_097, draw.randint(1, 100_000)))}")
        if draw.random() < 0.5:
            parts.append(f"COUNT={draw.choice((1, 100, 100_000, 4_294_967_295))}")
        elif draw.random() < 0.2:
            parts.append(f"UNTIL={draw.randint(1000, 9999)}1231")
        if draw.random() < 0.4:
            parts.append("BYMONTH=" + numbers(draw, 12, False, 12))
        if frequency != "WEEKLY" and draw.random() < 0.4:
            parts.append("BYMONTHDAY=" + numbers(draw, 31, True, 31))
        if draw.random() < 0.6:
            parts.append("BYDAY=" + weekdays(draw, frequency in ("MONTHLY", "YEARLY")))
        if frequency == "YEARLY" and draw.random() < 0.3:
            parts.append("BYWEEKNO=" + numbers(draw, 53, True, 53))
        if frequency in ("DAILY", "YEARLY") and draw.random() < 0.3:
            parts.append("BYYEARDAY=" + numbers(draw, 366, True, 100))
        if len(parts) > 1 and any(it.startswith("BY") for it in parts) and draw.random() < 0.5:
            parts.append("BYSETPOS=" + numbers(draw, draw.choice((7, 31, 366)), True, 100))
        if draw.random() < 0.2:
            parts.append("WKST=" + draw.choice(WEEKDAYS))
        text = ";".join(parts)
        if len(text) <= LONGEST:
            return text


def rule_rows(text):
    """The calls of a rule: a start, and a day from which the next and the previous instance are looked for."""
    for start, day in ((FIRST, FIRST), (FIRST, TODAY), (TODAY, TODAY), (FIRST, LAST), (TODAY, LAST)):
        for call in ("after", "before"):
            yield f"{call} {text} {start} {day} = 0"


def bits(draw, low, high):
    """A set of numbers from `low` to `high`, as the digits of a number; all of them half of the time."""
    if draw.random() < 0.5:
        return sum(1 << it for it in range(low, high + 1))
    return sum(1 << draw.randint(low, high) for _ in range(draw.randint(1, 3)))


def schedule_rows(draw):
    """The calls of a random schedule."""
    sets = [1 << draw.randint(0, 59), 1 << draw.randint(0, 23), bits(draw, 1, 31), bits(draw, 1, 12), bits(draw, 0, 6)]
    if draw.random() < 0.4:
        sets[2] = 0
    seldom = [bits(draw, 0, 30) if draw.random() < 0.3 else 0, bits(draw, 1, 31) if draw.random() < 0.3 else 0,
              bits(draw, 0, 6) if draw.random() < 0.2 else 0, bits(draw, 8, 47) if draw.random() < 0.2 else 0,
              int(draw.random() < 0.2), int(draw.random() < 0.3)]
    row = " ".join(str(it) for it in sets + seldom)
    for day in (FIRST, TODAY, LAST):
        for call in ("next", "prev"):
            yield f"{call} {row} {day} 0 0 = 0"


def seconds_of(program, layer, rows):
    """The processor time of the program over rows of a layer."""
    before = resource.getrusage(resource.RUSAGE_CHILDREN)
    subprocess.run([program], input=section(layer, rows), text=True, stdout=subprocess.DEVNULL, check=True)
    after = resource.getrusage(resource.RUSAGE_CHILDREN)
    return after.ru_utime + after.ru_stime - before.ru_utime - before.ru_stime


def slowest(program, layer, groups):
    """The slowest calls with their times. Each group of rows is one process, and the slowest groups are taken apart."""
    timed = sorted(((seconds_of(program, layer, rows), rows) for rows in groups), reverse=True, key=lambda it: it[0])
    found = []
    for whole, rows in timed:
        if len(found) >= SHOWN and whole < sorted(found, reverse=True)[SHOWN - 1][0]:
            break
        found += [(seconds_of(program, layer, [row]), row) for row in rows]
    shown = sorted(found, reverse=True)[:SHOWN]
    return sorted(((min(seconds_of(program, layer, [row]) for _ in range(RUNS)), row) for _, row in shown), reverse=True)


def grouped(rows):
    """The rows, some at a time."""
    rows = list(rows)
    return [rows[it:it + AT_ONCE] for it in range(0, len(rows), AT_ONCE)]


def shown(name, program, layer, rows, most):
    """Prints the slowest of the calls. Returns whether each takes at most so many seconds."""
    worst = slowest(program, layer, grouped(rows))
    print(f"{name}, at most {most * 1000:.0f} ms:")
    for took, row in worst:
        print(f"{took * 1000:9.1f} ms  {row.removesuffix(' = 0')}")
    return all(took <= most for took, _ in worst)


def main():
    """Prints the slowest calls of rules, and those of schedules."""
    words = argparse.ArgumentParser()
    words.add_argument("--seed", type=int, default=1)
    words.add_argument("--rules", type=int, default=10_000)
    words.add_argument("--program", default=PROGRAM)
    given = words.parse_args()
    draw = random.Random(given.seed)
    texts = [rule(draw) for _ in range(given.rules)]
    plain = [row for text in texts if "INTERVAL" not in text for row in rule_rows(text)]
    spaced = [row for text in texts if "INTERVAL" in text for row in rule_rows(text)]
    schedules = [row for _ in range(given.rules) for row in schedule_rows(draw)]
    results = [shown("rules without INTERVAL", given.program, "rules", plain, MOST),
               shown("rules with INTERVAL", given.program, "rules", spaced, MOST_OF_INTERVALS),
               shown("schedules", given.program, "cron", schedules, MOST)]
    return 0 if all(results) else 1


if __name__ == "__main__":
    sys.exit(main())
