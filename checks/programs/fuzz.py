#!/usr/bin/env python3
"""Holds caltool to a calendar written here by counting, over lines that come near to being wrong.

    python3 -m checks.programs.fuzz [--lines N] [--seed N]      (200,000 lines from seed 1, if left out)

The lines come of a grammar of near misses: numbers at the ends of their types and of the calendar, days that a month may not
have, signs, zeros and spaces where they do not belong, numbers past every width, words cut or misspelt, a byte dropped, doubled
or struck wrong, lines about as long as a line may be, lines and numbers about as long as the bytes that are read at once, bytes
of any kind; and each byte in each place of two short lines. What they answer is counted (checks/shared/counted.py); nothing is taken
from the program's own sources. The first line answered otherwise is printed with its seed. The answers that stand in
crates/caltool/stdout, which another library gave, are counted again too.
"""
import argparse
import os
import random
import re
import subprocess
import sys

from checks import TOP
from checks.shared.counted import (DAY, FIRST_DAY, FIRST_YEAR, LAST_DAY, LAST_YEAR, LONGEST, NANOS, apart, day_in_year, day_of, day_of_month,
                     day_of_week_date, first_of_week, first_on, in_range, is_time, land, month_move, name_of, ordinal_of, week_of,
                     weekday_of, years_between)

CALTOOL = os.path.join(TOP, "crates", "caltool", "out", "caltool")
ROWS = os.path.join(TOP, "crates", "caltool")

WEEKDAYS = ["Mon", "Tue", "Wed", "Thu", "Fri", "Sat", "Sun"]
LONGEST_LINE = 120


# ---- texts


def year_text(year):
    return f"{year:04}" if 0 <= year <= 9999 else f"{year:+05}"


def date_text(number):
    year, month, day = name_of(number)
    return f"{year_text(year)}-{month:02}-{day:02}"


def date_line(number):
    if number is None:
        return "none"
    year, week = week_of(number)
    return f"{date_text(number)} {number} {WEEKDAYS[weekday_of(number)]} {year_text(year)}-W{week:02} {ordinal_of(number)}"


def moment_text(number, second, fraction):
    leap, nanos = divmod(fraction, NANOS)
    minutes, seconds = divmod(second, 60)
    text = f"{date_text(number)}T{minutes // 60:02}:{minutes % 60:02}:{seconds + leap:02}"
    for digits in (0, 3, 6, 9):
        if nanos % 10 ** (9 - digits) == 0:
            return text + (f".{nanos // 10 ** (9 - digits):0{digits}}" if digits else "")


def duration_text(nanos):
    if nanos == 0:
        return "P0D"
    seconds, fraction = divmod(abs(nanos), NANOS)
    return f"{'-' if nanos < 0 else ''}PT{seconds}" + (f".{fraction:09}".rstrip("0") if fraction else "") + "S"


# ---- answers


def moment_of(year, month, day, hour, minute, second, nano):
    """The day's number, the second of the day and the fraction, from 10^9 on in a leap second; or None."""
    number = day_of(year, month, day)
    if number is None or not is_time(hour, minute, second, nano):
        return None
    return number, 3600 * hour + 60 * minute + second, nano


def moved(*words):
    start, (seconds, nanos) = moment_of(*words[:7]), words[7:]
    length = seconds * NANOS + nanos
    if start is None or nanos >= NANOS or abs(length) > LONGEST:
        return "none"
    number, *time = start
    days, *time = land(*time, length)
    return "none" if in_range(number + days) is None else moment_text(number + days, *time)


def distance(*words):
    first, second = moment_of(*words[:7]), moment_of(*words[7:])
    if first is None or second is None:
        return "none"
    return duration_text((first[0] - second[0]) * DAY + apart(first[1:], second[1:]))


def years_since(*words):
    first, base = day_of(*words[:3]), day_of(*words[3:])
    years = None if first is None or base is None else years_between(first, base)
    return "none" if years is None else str(years)


def week(year, month, day, start):
    number = day_of(year, month, day)
    if number is None:
        return "none"
    first = first_of_week(number, start)
    return " ".join("none" if in_range(it) is None else date_text(it) for it in (first, first + 6))


def days_on(year, month, day, count):
    number = day_of(year, month, day)
    return None if number is None else in_range(number + count)


def months_on(year, month, day, count):
    number = day_of(year, month, day)
    return None if number is None else month_move(number, count)


def first_day_on(year, month, day, *weekdays):
    number = day_of(year, month, day)
    return None if number is None else first_on(number, sum({1 << (it - 1) for it in weekdays}))


def every_months(year, month, day, count, times):
    return months_on(year, month, day, count * times)


def set_line(start, *days):
    walk = [(start - 1 + steps) % 7 for steps in range(7)]
    members = {day - 1 for day in days}
    listed = ", ".join(WEEKDAYS[day] for day in sorted(members))
    return " ".join([f"[{listed}]"] + [WEEKDAYS[day] for day in walk if day in members])


I32, U32, I64 = (-(2**31), 2**31 - 1), (0, 2**32 - 1), (-(2**63), 2**63 - 1)
U8, MONTHS, WEEKDAY = (0, 255), (1 - 2**32, 2**32 - 1), (1, 7)
DATE = [I32, U32, U32]
MOMENT = DATE + [U32] * 4
# Of each command: the types of its numbers, and its answer. The last type of `set` and of `on` may come any number of times.
COMMANDS = {
    "ymd": (DATE, lambda *it: date_line(day_of(*it))),
    "yo": ([I32, U32], lambda *it: date_line(day_in_year(*it))),
    "iwd": ([I32, U32, WEEKDAY], lambda *it: date_line(day_of_week_date(*it))),
    "day": ([I32], lambda it: date_line(in_range(it))),
    "wom": ([I32, U32, WEEKDAY, U8], lambda *it: date_line(day_of_month(*it))),
    "days": (DATE + [I64], lambda *it: date_line(days_on(*it))),
    "months": (DATE + [MONTHS], lambda *it: date_line(months_on(*it))),
    "week": (DATE + [WEEKDAY], week),
    "move": (MOMENT + [I64, U32], moved),
    "diff": (MOMENT + MOMENT, distance),
    "since": (DATE + DATE, years_since),
    "set": ([WEEKDAY, WEEKDAY], set_line),
    "on": (DATE + [WEEKDAY], lambda *it: date_line(first_day_on(*it))),
    "every": (DATE + [I32, U32], lambda *it: date_line(every_months(*it))),
}


def answer(line):
    """The answer of a line, which is a list of bytes."""
    name, *words = line.decode("latin-1").split(" ")
    if len(line) > LONGEST_LINE or name not in COMMANDS or not all(re.fullmatch(r"-?[0-9]+", it, re.ASCII) for it in words):
        return "error"
    types, answers = COMMANDS[name]
    numbers = [int(it) for it in words]
    if name in ("set", "on"):
        types = types[:-1] + types[-1:] * (len(numbers) - len(types) + 1)
    if len(numbers) != len(types) or not all(low <= it <= high for it, (low, high) in zip(numbers, types)):
        return "error"
    return answers(*numbers)


# ---- lines that come near to being wrong


def near(chance, *ends):
    return chance.choice(ends) + chance.randint(-2, 2)


def a_year(chance):
    return chance.choice([near(chance, FIRST_YEAR, LAST_YEAR), near(chance, 0, 1, 9999, 10_000, -9999),
                          chance.randint(1900, 2100), chance.randint(FIRST_YEAR, LAST_YEAR),
                          400 * chance.randint(-600, 600) + chance.choice([0, 100, 4])])


def a_number(chance, kind):
    """A number of a type: one at its ends, or beyond them, or one that the calendar looks at."""
    low, high = kind
    if chance.random() < 0.02:
        return near(chance, low, high)
    if kind == I32:
        return a_year(chance)
    if kind in (WEEKDAY, U8):
        return chance.randint(1, 7) if chance.random() < 0.97 else chance.choice([0, 8])
    if kind == U32:
        return chance.randint(1, 12) if chance.random() < 0.8 else near(chance, 0, 12, 24, 28, 30, 53, 60, 365)
    return chance.choice([-1, 1]) * chance.randrange(10 ** chance.randint(1, 18 if kind == I64 else 7))


def a_fraction(chance):
    return chance.choice([0, near(chance, NANOS, 2 * NANOS), chance.randrange(2 * NANOS), chance.randrange(2000) * 10**6])


def numbers_of(chance, name):
    types = COMMANDS[name][0]
    if name in ("set", "on"):
        types = types[:-1] + types[-1:] * chance.randrange(9)
    numbers = [a_number(chance, it) for it in types]
    if name == "day" and chance.random() < 0.8:
        numbers = [chance.choice([near(chance, FIRST_DAY, LAST_DAY, 0, 3_652_059), chance.randint(FIRST_DAY, LAST_DAY)])]
    if name == "every" and chance.random() < 0.9:
        months = chance.choice([near(chance, 0, 12, -12, 2**16), near(chance, *I32)])
        numbers[3:] = [min(max(months, I32[0]), I32[1]), chance.choice([chance.randrange(100), near(chance, 0, 2**16, U32[1])])]
    if name in ("move", "diff"):
        for begin in range(0, len(numbers) - 6, 7):
            if chance.random() < 0.9:
                clock = [chance.randrange(24), chance.randrange(60), chance.choice([0, 58, 59, 59, 59, 59])]
                numbers[begin + 1 : begin + 7] = [chance.randint(1, 12), chance.randint(1, 28), *clock, a_fraction(chance)]
        if name == "move" and chance.random() < 0.8:
            seconds = [chance.randint(-3, 3), chance.randint(-(10**14), 10**14), near(chance, 0, 86_400, -86_400)]
            numbers[7:] = [chance.choice(seconds), chance.randrange(NANOS)]
    return numbers


def written(chance, number):
    """A number's digits, at times with zeros before them, a sign too many, or a byte that is no digit."""
    sign, zeros = "-" if number < 0 else "", "0" * chance.choice([0] * 20 + [1, 2, 20])
    text = sign + zeros + str(abs(number))
    slip = chance.random()
    if slip < 0.004:
        return chance.choice(["+" + text, "-" + text, "", "-", text + "-", text + ".", "0x" + text, text + "e0", "9" * 40])
    if slip < 0.02:
        # (as many digits as are read at once, or one more or fewer)
        return sign + str(abs(number)).zfill(chance.choice([8, 16]) + chance.randint(-1, 1))
    if slip < 0.022:
        # (a number that is the same to whoever drops its high bits)
        return sign + str(abs(number) + 2 ** chance.choice([8, 16, 32, 64, 128]))
    return text


def a_line(chance):
    """A line of bytes; most are commands, and many of those name nothing."""
    if chance.random() < 0.01:
        return bytes(chance.randrange(256) for _ in range(chance.randrange(140)))
    name = chance.choice(list(COMMANDS))
    words = [name] + [written(chance, it) for it in numbers_of(chance, name)]
    slip = chance.random()
    if slip < 0.01:
        words[0] = chance.choice([name.upper(), name + "s", name[:-1], "", name.capitalize(), chance.choice(list(COMMANDS))])
    elif slip < 0.02:
        words = words[:-1] if chance.random() < 0.5 else words + [str(chance.randrange(10))]
    elif slip < 0.03:
        words[chance.randrange(len(words))] += chance.choice([" ", "\t", "\r", "\0", "\x7f", "\xff", "\xa0", "a"])
    elif slip < 0.05:
        length = len(" ".join(words))
        words[-1] = words[-1].rjust(len(words[-1]) + max(0, LONGEST_LINE + chance.randint(-2, 2) - length), "0")
    elif 0.07 <= slip < 0.1:
        # (a line of as many bytes as are looked at together, or one more or fewer, with a number that reaches so far)
        length, at = len(" ".join(words)), chance.randrange(len(words))
        words[at] = words[at].zfill(len(words[at]) + max(0, chance.choice([16, 32, 48, 64, 80]) + chance.randint(-1, 1) - length))
        words[-1] += chance.choice(["", "", " "])
    line = " ".join(words).encode("latin-1")
    return struck(chance, line) if 0.05 <= slip < 0.07 else line


def struck(chance, line):
    """The line with one byte dropped, doubled, put in, or another in its place."""
    place, byte = chance.randrange(len(line) + 1), bytes([chance.choice([chance.randrange(256), *b" -0159"])])
    return chance.choice([line[:place] + line[place + 1 :], line[:place] + line[place - 1 :] if place else b" " + line,
                          line[:place] + byte + line[place:], line[:place] + byte + line[place + 1 :]])


def each_byte():
    """Two short lines, with each byte in each place."""
    for line in (b"ymd 2024 2 29", b"set 3 1 4 7"):
        for place in range(len(line)):
            for byte in range(256):
                yield line[:place] + bytes([byte]) + line[place + 1 :]


def are_rows_counted():
    """Whether the answers of the rows of caltool are what counting gives."""
    with open(f"{ROWS}/stdin", "rb") as lines, open(f"{ROWS}/stdout", "rb") as answers:
        lines, answers = (it.read().decode("latin-1").removesuffix("\n").split("\n") for it in (lines, answers))
    otherwise = [it for it, did in zip(lines, answers) if answer(it.encode("latin-1")) != did]
    for it in otherwise[:10]:
        print(f"crates/caltool/stdin: {it!r} has to be {answer(it.encode('latin-1'))!r}")
    print(f"{len(lines)} lines of crates/caltool/stdin counted again")
    return 0 < len(lines) == len(answers) and not otherwise


def made(count, seed):
    """That many lines as one text, with each byte in each place of two short lines behind them: the text, its lines, and their answers."""
    chance = random.Random(seed)
    text = b"\n".join([a_line(chance) for _ in range(count)] + list(each_byte()))
    ended = text.split(b"\n")
    lines = ended if ended[-1] else ended[:-1]
    return text, lines, [answer(it) for it in lines] + [""]


def is_answered(words, seed, text, lines, right):
    """Whether a program answers the text as it has to. The first line that it answers otherwise is printed."""
    ran = subprocess.run(words, input=text, stdout=subprocess.PIPE, stderr=subprocess.PIPE, timeout=600)
    answers = ran.stdout.decode("latin-1").split("\n")
    passed = 0
    for line, has_to, did in zip(lines + [b""], right, answers):
        if has_to != did:
            print(f"seed {seed}: {line!r} is answered {did!r}, and has to be {has_to!r}")
            break
        passed += 1
    is_right = passed == len(right) == len(answers) and (ran.returncode, ran.stderr) == (0, b"")
    if not is_right:
        print(f"{len(answers) - 1} answers to {len(lines)} lines, status {ran.returncode}, {ran.stderr!r} on standard error")
    return is_right


def main():
    words = argparse.ArgumentParser(description=__doc__, formatter_class=argparse.RawDescriptionHelpFormatter)
    words.add_argument("--lines", type=int, default=200_000)
    words.add_argument("--seed", type=int, default=1)
    asked = words.parse_args()
    if not os.path.exists(CALTOOL):
        print("there is no crates/caltool/out/caltool: `rt run` in crates/caltool builds it")
        print("0 passed, 1 failed")
        return 1
    text, lines, right = made(asked.lines, asked.seed)
    is_right = is_answered([CALTOOL], asked.seed, text, lines, right)
    nothing, wrong = (sum(it == kind for it in right) for kind in ("none", "error"))
    print(f"{len(lines)} lines compared from seed {asked.seed}, of which {nothing} name nothing and {wrong} are no command")
    failed = [is_right, are_rows_counted()].count(False)
    print(f"{2 - failed} passed, {failed} failed")
    return 1 if failed else 0


if __name__ == "__main__":
    sys.exit(main())
