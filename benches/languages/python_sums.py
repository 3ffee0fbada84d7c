#!/usr/bin/env python3
"""Sums of the answers of proved_calendar and of datetime to the same calls: `python_sums.py CALL COUNT` makes a call so many times
on pseudo-random arguments and prints the sum of its answers."""
import itertools
import random
import sys
from datetime import date, datetime, timedelta

from proved_calendar import Date, DateTime, Duration

DAY = 86_400 * 10**9

# Arguments from the 400 years from 1800 on.
SIZE = 1024
CHANCE = random.Random(1)
DAYS = [657_072 + CHANCE.randrange(146_097) for _ in range(SIZE)]
NAMES = [(CHANCE.randint(1800, 2199), CHANCE.randint(1, 12), CHANCE.randint(1, 28)) for _ in range(SIZE)]
TEXTS = [date.fromordinal(it).isoformat() for it in DAYS]
MOVES = [CHANCE.randint(-100_000, 100_000) for _ in range(SIZE)]
OURS, THEIRS = [Date.from_number(it) for it in DAYS], [date.fromordinal(it) for it in DAYS]
OUR_MOMENTS, THEIR_MOMENTS = [DateTime(it) for it in OURS], [datetime(it.year, it.month, it.day) for it in THEIRS]
OUR_LENGTHS, THEIR_LENGTHS = [Duration(seconds=it) for it in MOVES], [timedelta(seconds=it) for it in MOVES]


def of_name(it):
    return 512 * it.year + 32 * it.month + it.day


def our_week(it):
    return 64 * it.iso_year + it.iso_week


def their_week(it):
    year, week, _ = it.isocalendar()
    return 64 * year + week


# What a call is made on, and its answer as a number.
CALLS = {
    "none": (DAYS, lambda it: it),
    "ours.name_to_number": (NAMES, lambda it: Date(*it).number),
    "theirs.name_to_number": (NAMES, lambda it: date(*it).toordinal()),
    "ours.number_to_name": (DAYS, lambda it: of_name(Date.from_number(it))),
    "theirs.number_to_name": (DAYS, lambda it: of_name(date.fromordinal(it))),
    "ours.iso_week": (OURS, our_week),
    "theirs.iso_week": (THEIRS, their_week),
    "ours.add_days": ([*zip(OURS, MOVES)], lambda it: (it[0] + it[1]).number),
    "theirs.add_days": ([*zip(THEIRS, MOVES)], lambda it: (it[0] + timedelta(it[1])).toordinal()),
    "ours.write_date": (OURS, lambda it: ord(it.isoformat()[-1])),
    "theirs.write_date": (THEIRS, lambda it: ord(it.isoformat()[-1])),
    "ours.read_date": (TEXTS, lambda it: Date.fromisoformat(it).number),
    "theirs.read_date": (TEXTS, lambda it: date.fromisoformat(it).toordinal()),
    "ours.date_time_add": ([*zip(OUR_MOMENTS, OUR_LENGTHS)], lambda it: (it[0] + it[1]).seconds % 60),
    "theirs.date_time_add": ([*zip(THEIR_MOMENTS, THEIR_LENGTHS)], lambda it: (it[0] + it[1]).second),
    "ours.date_time_since": ([*zip(OUR_MOMENTS, OUR_MOMENTS[1:])], lambda it: (it[0] - it[1]).nanoseconds // DAY),
    "theirs.date_time_since": ([*zip(THEIR_MOMENTS, THEIR_MOMENTS[1:])], lambda it: (it[0] - it[1]).days),
}


def main():
    if len(sys.argv) != 3 or sys.argv[1] not in CALLS:
        sys.exit("usage: python_sums.py CALL COUNT")
    arguments, answer = CALLS[sys.argv[1]]
    print(sum(map(answer, itertools.islice(itertools.cycle(arguments), int(sys.argv[2])))))


if __name__ == "__main__":
    main()
