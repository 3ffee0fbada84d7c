#!/usr/bin/env python3
"""Each call of proved_calendar beside the call of datetime that means the same: `python_calls.py [ROUNDS]` prints rows of a table
with both times in nanoseconds, and how many times as fast ours is.

The calls are made on 500 pseudo-random arguments from the 400 years from 1800 on, and what they answer has to be the same before any
is timed. They take turns in all rounds, and the best one counts, by processor time, less that of a loop without a call. A Python
that keeps objects small makes both at the same cost; what one call costs in a loop of others differs from machine to machine.
"""
import random
import sys
import time
from datetime import date, datetime, timedelta

from proved_calendar import Date, DateTime, Duration

SIZE = 500
CHANCE = random.Random(1)
DAYS = [657_072 + CHANCE.randrange(146_097) for _ in range(SIZE)]
MOVES = [CHANCE.randint(-100_000, 100_000) for _ in range(SIZE)]
CLOCKS = [(CHANCE.randrange(24), CHANCE.randrange(60), CHANCE.randrange(60), CHANCE.randrange(10**6)) for _ in range(SIZE)]
THEIRS, OURS = [date.fromordinal(it) for it in DAYS], [Date.fromordinal(it) for it in DAYS]
NAMES = [(it.year, it.month, it.day) for it in THEIRS]
TEXTS = [it.isoformat() for it in THEIRS]
THEIR_MOMENTS = [datetime(*name, *clock) for name, clock in zip(NAMES, CLOCKS)]
OUR_MOMENTS = [DateTime.from_datetime(it) for it in THEIR_MOMENTS]
MOMENT_TEXTS = [it.isoformat() for it in THEIR_MOMENTS]
THEIR_LENGTHS = [timedelta(seconds=it, microseconds=7) for it in MOVES]
OUR_LENGTHS = [Duration.from_timedelta(it) for it in THEIR_LENGTHS]
THEIR_DAYS, OUR_DAYS = [timedelta(it) for it in MOVES], [Duration(days=it) for it in MOVES]
AGAIN = slice(1, None)

# The kind of a call, what it is, the arguments' names, ours with its arguments, and theirs with its own.
CALLS = [
    ("making", "a date by its name", "y, m, d", "Date(y, m, d)", NAMES, "date(y, m, d)", NAMES),
    ("making", "a date by keywords", "y, m, d", "Date(year=y, month=m, day=d)", NAMES, "date(year=y, month=m, day=d)", NAMES),
    ("making", "a date by its number", "n", "Date.fromordinal(n)", DAYS, "date.fromordinal(n)", DAYS),
    ("making", "`replace` a day", "a", "a.replace(day=1)", OURS, "a.replace(day=1)", THEIRS),
    ("making", "a date-time of a date", "a, c", "DateTime(a, c[0], c[1], c[2])", [*zip(OURS, CLOCKS)],
     "datetime(a[0], a[1], a[2], c[0], c[1], c[2])", [*zip(NAMES, CLOCKS)]),
    ("making", "a date-time by its parts", "a, c", "DateTime(*a, *c)", [*zip(NAMES, CLOCKS)], "datetime(*a, *c)", [*zip(NAMES, CLOCKS)]),
    ("making", "a duration", "n", "Duration(days=n, seconds=5)", MOVES, "timedelta(days=n, seconds=5)", MOVES),
    ("fields", "year, month, day of a new date", "n", "a = Date.fromordinal(n); a.year, a.month, a.day", DAYS,
     "a = date.fromordinal(n); a.year, a.month, a.day", DAYS),
    ("fields", "`year`, once asked for", "a", "a.year", OURS, "a.year", THEIRS),
    ("fields", "`day`, once asked for", "a", "a.day", OURS, "a.day", THEIRS),
    ("fields", "`weekday`", "a", "a.weekday()", OURS, "a.weekday()", THEIRS),
    ("fields", "`isoweekday`", "a", "a.isoweekday()", OURS, "a.isoweekday()", THEIRS),
    ("fields", "`isocalendar`", "a", "a.isocalendar()", OURS, "a.isocalendar()", THEIRS),
    ("fields", "`toordinal`", "a", "a.toordinal()", OURS, "a.toordinal()", THEIRS),
    ("fields", "`hour` of a date-time", "a", "a.hour", OUR_MOMENTS, "a.hour", THEIR_MOMENTS),
    ("fields", "`second` of a date-time", "a", "a.second", OUR_MOMENTS, "a.second", THEIR_MOMENTS),
    ("fields", "the date of a date-time", "a", "a.date", OUR_MOMENTS, "a.date()", THEIR_MOMENTS),
    ("moves", "a date by a number of days", "a, n", "a + n", [*zip(OURS, MOVES)], "a + n", [*zip(THEIRS, THEIR_DAYS)]),
    ("moves", "a date by days, as `timedelta(n)`", "a, n", "a + n", [*zip(OURS, MOVES)], "a + timedelta(n)", [*zip(THEIRS, MOVES)]),
    ("moves", "a date by a `Duration`", "a, n", "a + n", [*zip(OURS, OUR_DAYS)], "a + n", [*zip(THEIRS, THEIR_DAYS)]),
    ("moves", "a date by a `timedelta`", "a, n", "a - n", [*zip(OURS, THEIR_DAYS)], "a - n", [*zip(THEIRS, THEIR_DAYS)]),
    ("moves", "a date-time by a `Duration`", "a, n", "a + n", [*zip(OUR_MOMENTS, OUR_LENGTHS)], "a + n",
     [*zip(THEIR_MOMENTS, THEIR_LENGTHS)]),
    ("moves", "a date-time by a `timedelta`", "a, n", "a - n", [*zip(OUR_MOMENTS, THEIR_LENGTHS)], "a - n",
     [*zip(THEIR_MOMENTS, THEIR_LENGTHS)]),
    ("moves", "a duration and another", "a, b", "a + b", [*zip(OUR_LENGTHS, OUR_DAYS)], "a + b", [*zip(THEIR_LENGTHS, THEIR_DAYS)]),
    ("moves", "a duration times a number", "a, n", "a * n", [*zip(OUR_LENGTHS, MOVES)], "a * n", [*zip(THEIR_LENGTHS, MOVES)]),
    ("moves", "a duration by another", "a, b", "a // b", [*zip(OUR_DAYS, OUR_LENGTHS)], "a // b", [*zip(THEIR_DAYS, THEIR_LENGTHS)]),
    ("difference", "two dates, in days", "a, b", "a - b", [*zip(OURS, OURS[AGAIN])], "(a - b).days", [*zip(THEIRS, THEIRS[AGAIN])]),
    ("difference", "two date-times", "a, b", "a - b", [*zip(OUR_MOMENTS, OUR_MOMENTS[AGAIN])], "a - b",
     [*zip(THEIR_MOMENTS, THEIR_MOMENTS[AGAIN])]),
    ("texts", "a date written", "a", "a.isoformat()", OURS, "a.isoformat()", THEIRS),
    ("texts", "a date in a format", "a", "f'{a}'", OURS, "f'{a}'", THEIRS),
    ("texts", "a date read", "t", "Date.fromisoformat(t)", TEXTS, "date.fromisoformat(t)", TEXTS),
    ("texts", "a date-time written", "a", "a.isoformat()", OUR_MOMENTS, "a.isoformat()", THEIR_MOMENTS),
    ("texts", "a date by `strftime`", "a", "a.strftime('%d/%m/%Y')", OURS, "a.strftime('%d/%m/%Y')", THEIRS),
    ("texts", "a date-time to the minute", "a", "a.isoformat(' ', 'minutes')", OUR_MOMENTS, "a.isoformat(' ', 'minutes')", THEIR_MOMENTS),
    ("texts", "a date-time read", "t", "DateTime.fromisoformat(t)", MOMENT_TEXTS, "datetime.fromisoformat(t)", MOMENT_TEXTS),
    ("order", "two dates", "a, b", "a < b", [*zip(OURS, OURS[AGAIN])], "a < b", [*zip(THEIRS, THEIRS[AGAIN])]),
    ("order", "two date-times", "a, b", "a == b", [*zip(OUR_MOMENTS, OUR_MOMENTS[AGAIN])], "a == b",
     [*zip(THEIR_MOMENTS, THEIR_MOMENTS[AGAIN])]),
    ("order", "two durations", "a, b", "a < b", [*zip(OUR_LENGTHS, OUR_DAYS)], "a < b", [*zip(THEIR_LENGTHS, THEIR_DAYS)]),
    ("order", "a date and one of datetime", "a, b", "a == b", [*zip(OURS, THEIRS)], "a == b", [*zip(THEIRS, THEIRS)]),
    ("order", "`hash` of a date", "a", "hash(a)", OURS, "hash(a)", THEIRS),
    ("order", "`hash` of a date-time", "a", "hash(a)", OUR_MOMENTS, "hash(a)", THEIR_MOMENTS),
]


def looped(names, body):
    """A function that runs the body on all arguments, and one that answers what its last expression gives for each."""
    *before, last = body.split("; ")
    lines = [f"def once(items):\n for {names} in items:\n  {body}\n"]
    lines.append(f"def answers(items):\n found = []\n for {names} in items:\n  {'; '.join([*before, f'found.append(({last}))'])}\n return found\n")
    made = dict(globals())
    exec("".join(lines), made)
    return made["once"], made["answers"]


def plain(value):
    """What is answered, as datetime has it."""
    turned = {Date: "to_date", DateTime: "to_datetime", Duration: "to_timedelta"}.get(type(value))
    value = getattr(value, turned)() if turned else value
    # (of a text the fraction has as many digits as it needs)
    return value.replace(".000000", "") if isinstance(value, str) else tuple(value) if isinstance(value, tuple) else value


def compare(what, ours, theirs):
    """Ends the program if two calls answer otherwise; hashes and the fraction's digits are the business of each."""
    if "hash" in what:
        return
    for one, other in zip(ours, theirs, strict=True):
        if plain(one) != plain(other) and not (isinstance(one, str) and DateTime.fromisoformat(one) == DateTime.fromisoformat(other)):
            sys.exit(f"{what}: {one!r} is not {other!r}")


def best(function, items, rounds):
    """The least processor time of a round, for one call."""
    found = []
    for _ in range(rounds):
        began = time.process_time()
        function(items)
        found.append(time.process_time() - began)
    return min(found)


def main():
    rounds = int(sys.argv[1]) if len(sys.argv) > 1 else 400
    programs = []
    for kind, what, names, ours, our_items, theirs, their_items in CALLS:
        one, other = looped(names, ours), looped(names, theirs)
        compare(what, one[1](our_items), other[1](their_items))
        programs.append((kind, what, [(one[0], our_items), (other[0], their_items), (looped(names, "pass; 0")[0], our_items)]))
    times = [[float("inf")] * 3 for _ in programs]
    for _ in range(rounds // 20):
        for (_, _, timed), kept in zip(programs, times):
            for i, (function, items) in enumerate(timed):
                kept[i] = min(kept[i], best(function, items, 20) / len(items))
    for (kind, what, _), (ours, theirs, none) in zip(programs, times):
        ours, theirs = (1e9 * (it - none) for it in (ours, theirs))
        print(f"| {kind} | {what} | {theirs:.0f} | {ours:.0f} | {theirs / ours:.2f} |")


if __name__ == "__main__":
    main()
