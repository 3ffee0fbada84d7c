#!/usr/bin/env python3
"""Holds the program dates to Python's datetime, dateutil and numpy, over commands that are made here.

    python3 -m checks.programs.dates_commands [--commands N] [--seed N]      (10,000 commands from seed 1, if left out)

Each command is run as it stands and with `--json` behind it. As it stands its output, its status and what it writes to standard error have to be
those that are worked out here: days by datetime, months and years by dateutil's relativedelta, open days and rolls by numpy's busday calls over the
holidays that checks/layers/business.py reads, Easter by dateutil, rules by dateutil's rrule, schedules by trying the days and minutes as checks/layers/cron.py
reads them, days past the years of datetime by checks/shared/counted.py, clocks of zones by zoneinfo, sheets cell by cell, ends of months, quarters and years by datetime. Where a command is asked of lines, each of them is answered as by
the command alone, whichever years the lines before it lie in. With `--json` each line has to be the object that says the same,
and status and standard error are the same. A fifth of the commands is spoiled: a word is turned to one that cannot stand there, what has to follow is cut off, a word too many
is put behind, or a day is one that its month has not. What is said of them has to name that word, its place and what was expected.

Behind them the rules of crates/rows_layers are asked for, the date examples of RFC 5545 among them, with `--start` and with or without `--from` and `--count`; the
answers are those that stand there.

It needs crates/dates/out/dates, which `rt run` and `rt ci` leave there, and numpy and dateutil of Debian's Python.
"""
import argparse
import calendar as months
import datetime
import itertools
import json
import operator
import os
import random
import re
import subprocess
import sys
import tempfile
import zoneinfo
from concurrent.futures import ThreadPoolExecutor

from checks import TOP
from checks.layers import business, cron, robfig_schedules, rules_days, timed_schedules
from checks.shared import counted
from checks.shared.row_programs import standing_rows
from debian import restart_without

DATES = os.path.join(TOP, "crates", "dates", "out", "dates")

try:
    import numpy
    from dateutil.easter import easter
    from dateutil.relativedelta import relativedelta
except ImportError:
    numpy = None

Date, DateTime, Span = datetime.date, datetime.datetime, datetime.timedelta
DAY = Span(1)
WEEKDAYS = ("Monday", "Tuesday", "Wednesday", "Thursday", "Friday", "Saturday", "Sunday")
MONTHS = months.month_name
SHORT = [it[:3].lower() for it in WEEKDAYS]


class Asked:
    """A command: its words with the kind of each, how many are needed, and what it has to answer."""

    def __init__(self, words, kinds, needed, lines, objects, status=0, error="", given=b""):
        self.words, self.kinds, self.needed, self.lines, self.objects = words, kinds, needed, lines, objects
        self.status, self.error, self.given = status, error, given


# ---- days and their texts


def any_day(chance, first=1583, last=9000):
    """A day, most of them of our time, some at a month's end."""
    year = chance.choice((chance.randint(first, last), chance.randint(1950, 2060), 2024))
    number = Date(year, 1, 1).toordinal() + chance.randrange(365)
    date = Date.fromordinal(number)
    return date.replace(day=months.monthrange(date.year, date.month)[1]) if chance.random() < 0.25 else date


def workday_time(chance):
    """A day of the years in which the calendars have holidays."""
    return Date.fromordinal(chance.randint(Date(2000, 1, 1).toordinal(), Date(2049, 12, 31).toordinal()))


def year_text(year):
    return f"{year:04}" if 0 <= year <= 9999 else f"{year:+05}"


def names(number):
    """The three names of a day number."""
    year, month, day = counted.name_of(number)
    week_year, week = counted.week_of(number)
    return (f"{year_text(year)}-{month:02}-{day:02}", f"{year_text(year)}-{counted.ordinal_of(number):03}",
            f"{year_text(week_year)}-W{week:02}-{counted.weekday_of(number) + 1}")


def names_line(number):
    return " ".join([*names(number), WEEKDAYS[counted.weekday_of(number)][:3], str(number), str(number - 719_163)])


def names_object(number):
    keys = ("date", "ordinal", "week", "weekday", "day_number", "unix_day")
    return dict(zip(keys, (*names(number), WEEKDAYS[counted.weekday_of(number)], number, number - 719_163)))


def moment_text(moment):
    fraction = f".{moment.microsecond:06}" if moment.microsecond % 1000 else f".{moment.microsecond // 1000:03}" if moment.microsecond else ""
    return f"{moment:%Y-%m-%dT%H:%M:%S}{fraction}".rjust(len("2024-02-29T00:00:00" + fraction), "0")


def duration_text(apart):
    """A duration in seconds."""
    micros = apart // Span(microseconds=1)
    seconds, fraction = divmod(abs(micros), 10**6)
    text = f"{seconds}.{fraction:06}".rstrip("0").rstrip(".")
    return f"{'-' * (micros < 0)}PT{text}S" if micros else "P0D"


def any_moment(chance):
    micros = chance.choice((0, 0, 0, 500_000, chance.randrange(1000) * 1000, chance.randrange(10**6)))
    second = chance.choice((0, 0, chance.randrange(60)))
    return DateTime.combine(any_day(chance), datetime.time(chance.randrange(24), chance.randrange(60), second, micros))


def moment_word(chance, moment):
    """A text of a date-time: with `T` or a space, without seconds where there are none."""
    text = moment_text(moment)
    if text.endswith(":00") and chance.random() < 0.7:
        text = text[:-3]
    return text.replace("T", " ") if chance.random() < 0.2 else text


EPOCH = DateTime(1970, 1, 1, tzinfo=datetime.timezone.utc)


def any_instant(chance):
    minutes = chance.choice((0, 60, -300, 330, chance.randint(-1439, 1439)))
    return any_moment(chance).replace(tzinfo=datetime.timezone(Span(minutes=minutes)))


def offset_text(instant):
    minutes = instant.utcoffset() // Span(minutes=1)
    return f"{'-' if minutes < 0 else '+'}{abs(minutes) // 60:02}:{abs(minutes) % 60:02}"


def instant_text(instant, unix):
    """A date-time with its offset, or the seconds since 1970."""
    return str((instant - EPOCH) // Span(seconds=1)) if unix else moment_text(instant) + offset_text(instant)


def month_word(chance, date):
    """A name of a month with its year."""
    return chance.choice((f"{date.year:04}-{date.month:02}", f"{MONTHS[date.month]} {date.year:04}", f"{MONTHS[date.month][:3].lower()} {date.year:04}"))


def instant_word(chance, instant, unix):
    if unix and not instant.microsecond and chance.random() < 0.7:
        return instant_text(instant, True)
    offset = offset_text(instant)
    offset = "Z" if offset == "+00:00" and chance.random() < 0.5 else offset[:3] if offset.endswith(":00") and chance.random() < 0.5 else offset
    return moment_word(chance, instant) + offset


def day_word(chance, date):
    """A name of a day, one in three without hyphens, by its number or with the name of its month."""
    if chance.random() < 0.35:
        month = chance.choice((MONTHS[date.month], MONTHS[date.month][:3].lower()))
        week = "{}W{:02}{}".format(*date.isocalendar())
        return chance.choice((f"{date:%m%d}".join((f"{date.year:04}", "")), week.zfill(8), f"#{date.toordinal()}",
                              f"{date.day} {month} {date.year:04}", f"{month} {date.day}, {date.year:04}", f"{WEEKDAYS[date.weekday()]}, {date.day} {month} {date.year:04}"))
    return names(date.toordinal())[chance.choice((0, 0, 0, 1, 2))]


# ---- closed days

HOLIDAYS = {"us-federal": "us_federal", "target": "target", "england": "england", "japan": "japan"}
FIRST_YEARS = {name: business.GIVEN[key][1] for name, key in HOLIDAYS.items()}
HOLIDAYS = {name: [day for year in range(max(1999, business.GIVEN[key][1]), 2060) for day in business.GIVEN[key][0](year)] for name, key in HOLIDAYS.items()}
WEEKENDS = ("sat,sun", "fri,sat", "thu,fri", "sun", "fri", "sat", "none")


class Unknown(Exception):
    """A day lies before the first year of a calendar."""


class Closed:
    """Options that close days, as words with the kind of each, and the days that they close as numpy has them."""

    def __init__(self, chance, files, first=()):
        weekend, calendar, file = (it if chance.random() < 0.5 else None for it in (chance.choice(WEEKENDS), chance.choice(list(HOLIDAYS)), chance.choice(list(files))))
        pairs = [("--weekend", weekend), ("--calendar", calendar), ("--holidays", file), *first]
        pairs = [(name, value) for name, value in pairs if value]
        chance.shuffle(pairs)
        self.words = [word for pair in pairs for word in pair]
        self.kinds = [kind for name, _ in pairs for kind in ("option", name)]
        closed = {it for it in SHORT if it in (weekend or "sat,sun").split(",")}
        holidays = [*files.get(file, ()), *HOLIDAYS.get(calendar, ())]
        self.days = numpy.busdaycalendar([it not in closed for it in SHORT], holidays)
        self.first = FIRST_YEARS.get(calendar, 0)

    def known(self, date):
        """The day, whose holidays have to be known."""
        if date.year < self.first:
            raise Unknown
        return date

    def on(self, date, count):
        """So many open days on, or back: from a closed day the next open day counts as the first, which is numpy's other way."""
        roll = "backward" if count > 0 else "forward"
        return self.known(numpy.busday_offset(self.known(date), count, roll, busdaycal=self.days).astype(Date))

    def between(self, start, end):
        low, high = sorted((start, end))
        count = int(numpy.busday_count(self.known(low), high, busdaycal=self.days))
        return count if start <= end else -count

    def is_open(self, date):
        return bool(numpy.is_busday(self.known(date), busdaycal=self.days))

    def rolled(self, date, name):
        if name == "unadjusted":
            return self.known(date)
        if name == "nearest":
            after, before = self.rolled(date, "following"), self.rolled(date, "preceding")
            return after if after - date <= date - before else before
        return self.known(numpy.busday_offset(self.known(date), 0, name.replace("-", ""), busdaycal=self.days).astype(Date))


# ---- moves


def moved(date, count, unit):
    return date + relativedelta(**{{"d": "days", "w": "weeks", "m": "months", "mo": "months", "y": "years"}[unit]: count})


def apart(start, end, unit):
    """The most whole units by which the start, moved, is not past the end, back where the end is before it."""
    if unit in "dw":
        days = (end - start).days
        return (abs(days) // (7 if unit == "w" else 1)) * (1 if days >= 0 else -1)
    sign = 1 if start <= end else -1
    length = abs((end.year - start.year) * 12 + end.month - start.month) // (12 if unit == "y" else 1)
    while length and (moved(start, sign * length, unit) - end) * sign > Span(0):
        length -= 1
    return sign * length


def parts(start, end):
    """Years, months and days between two days: the most whole months, of which twelve are a year, and then days."""
    whole = apart(start, end, "m")
    sign = 1 if start <= end else -1
    years, months = divmod(abs(whole), 12)
    return sign * years, sign * months, (end - moved(start, whole, "m")).days


def a_count(chance, wide):
    return chance.choice((0, 1, -1, chance.randint(-wide, wide), chance.randint(1, 9)))


def a_move(chance, timed, closed):
    """A word that moves a start, and the move."""
    unit = chance.choice(["d", "w", "mo" if timed else "m", "mo", "y"] + ["b"] * 2 * bool(closed) + ["h", "min", "s", "PT"] * timed)
    if unit == "PT":
        length = Span(microseconds=chance.choice((0, 1_500_000, chance.randint(-10**13, 10**13))))
        return duration_text(length), lambda it: it + length
    count = a_count(chance, {"d": 3000, "w": 500, "m": 300, "mo": 300, "y": 40, "b": 300, "h": 9000, "min": 10**5, "s": 10**6}[unit])
    if unit in ("h", "min", "s"):
        length = Span(seconds=count * {"h": 3600, "min": 60, "s": 1}[unit])
        return f"{count}{unit}", lambda it: it + length
    if unit == "b":
        return f"{count}b", lambda it: it + (closed.on(plain(it), count) - plain(it))
    return f"{count}{unit}", lambda it: moved(it, count, unit)


def joined(moves):
    """Moves, of which months and years behind one another are one."""
    found = []
    for word, move in moves:
        months = re.fullmatch(r"(-?\d+)(mo?|y)", word)
        count = int(months[1]) * (12 if months[2] == "y" else 1) if months else None
        if months and found and found[-1][2] is not None:
            word, _, before = found.pop()
            count += before
        found.append((word, (lambda it, count=count: moved(it, count, "m")) if months else move, count))
    return [(word, move) for word, move, _ in found]


def plain(it):
    """The day of a day or a date-time."""
    return it.date() if isinstance(it, DateTime) else it


# ---- commands, each with its answer


def of_day(chance, _):
    number = chance.choice((any_day(chance).toordinal(), chance.randint(counted.FIRST_DAY, counted.LAST_DAY)))
    return Asked([chance.choice(names(number))], ["first"], 0, [names_line(number)], [names_object(number)])


NO_DAYS = ("soon", "", "2024-2-29", "2023-W53-1", "2023-366", "2024-00-10", "2024-13-01", " 2024-02-29", "2024-02-29 ", "2024-02-29T00:00", "202402", "+2024-02-29", "29.02.2024", "29 Feb 24")


def of_lines(chance, _):
    texts, lines, objects = [], [], []
    for _ in range(chance.randrange(12)):
        number = chance.randint(counted.FIRST_DAY, counted.LAST_DAY)
        wrong = chance.random() < 0.2
        texts.append(chance.choice(NO_DAYS + ("2023-02-29", '"', "\\", "\t")) if wrong else chance.choice(names(number)))
        lines.append("none" if wrong else names_line(number))
        objects.append({"date": None} if wrong else names_object(number))
    words = chance.choice(([], ["-"]))
    given = "\n".join(texts) + "\n" * bool(texts)
    return Asked(words, ["-"] * len(words), 0, lines, objects, int("none" in lines), given=given.encode())


def of_add(chance, files):
    timed = chance.random() < 0.4
    closed = Closed(chance, files) if chance.random() < 0.4 else None
    start = any_moment(chance) if timed else any_day(chance)
    if closed:
        start = DateTime.combine(workday_time(chance), start.time()) if timed else workday_time(chance)
    made = [a_move(chance, timed, closed) for _ in range(chance.choice((1, 1, 1, 2, 3)))]
    reached = start
    for _, move in joined(made):
        reached = move(reached)
        if closed and not 2000 <= reached.year <= 2055:
            return of_add(chance, files)
    words = ["add", moment_word(chance, start) if timed else day_word(chance, start), *(it for it, _ in made), *(closed.words if closed else ())]
    kinds = ["first", "start", *(["move"] * len(made)), *(closed.kinds if closed else ())]
    text, key = (moment_text(reached), "moment") if timed else (str(reached), "date")
    return Asked(words, kinds, 3, [text], [{key: text}])


SECONDS = {"h": 3600, "min": 60, "s": 1}
UNIT_KEYS = {"h": "hours", "min": "minutes", "s": "seconds"}


def of_diff(chance, files):
    if chance.random() < 0.2:
        start, end = any_moment(chance), any_moment(chance)
        text, unit = duration_text(end - start), chance.choice((None, *SECONDS))
        words = ["diff", moment_word(chance, start), moment_word(chance, end), *(["in", unit] if unit else [])]
        if unit:
            # (towards zero)
            count = abs(end - start) // Span(seconds=SECONDS[unit]) * (1 if start <= end else -1)
            return Asked(words, [], 0, [str(count)], [{UNIT_KEYS[unit]: count}])
        return Asked(words, ["first", "start", "moment"], 3, [text], [{"duration": text}])
    start = any_day(chance)
    end = chance.choice((any_day(chance), start + Span(chance.randint(-900, 900)), moved(start, chance.randint(-20, 20), "m")))
    unit = chance.choice((None, "d", "w", "m", "y", "b", "ymd", "ymd"))
    closed = Closed(chance, files)
    if unit == "b":
        start, end = workday_time(chance), workday_time(chance)
    words = ["diff", day_word(chance, start), day_word(chance, end), *(["in", unit] if unit else []), *(closed.words if unit == "b" else [])]
    kinds = ["first", "start", "day", "in", "unit", *closed.kinds][: len(words)]
    keys = {None: "days", "d": "days", "w": "weeks", "m": "months", "y": "years", "b": "open_days"}
    if unit == "ymd":
        numbers = parts(start, end)
        shown = " ".join(f"{number}{it}" for number, it in zip(numbers, "ymd") if number) or "0d"
        return Asked(words, kinds, 5, [shown], [dict(zip(("years", "months", "days"), numbers))])
    count = closed.between(start, end) if unit == "b" else apart(start, end, unit or "d")
    return Asked(words, kinds, 5 if unit else 3, [str(count)], [{keys[unit]: count}])


# How long the units of a distance are, the greatest first; months are counted apart.
SHARED = {"y": None, "mo": None, "w": Span(7), "d": DAY, "h": Span(hours=1), "min": Span(minutes=1), "s": Span(seconds=1)}


def whole(start, end, unit):
    """The most whole units by which the first moves towards the second and not past it, with what it then reaches."""
    sign = 1 if start <= end else -1
    if SHARED[unit]:
        count = abs(end - start) // SHARED[unit] * sign
        return count, start + count * SHARED[unit]
    count = 0
    while (end - moved(start, count + sign, unit)) * sign >= Span(0):
        count += sign
    return count, moved(start, count, unit)


IN_FULL = {"y": "years", "mo": "months", "w": "weeks", "d": "days", "h": "hours", "min": "minutes", "s": "seconds"}


def of_units(chance, _):
    """A distance in several units, each of which counts what those before it leave, but for years and months."""
    timed = chance.random() < 0.6
    start = any_moment(chance) if timed else any_day(chance)
    end = chance.choice((start + Span(chance.randint(-900, 900)), moved(start, chance.randint(-50, 50), "m")))
    if timed:
        end += Span(seconds=chance.randint(-90_000, 90_000))
    among = list(SHARED) if timed else list(SHARED)[:4]
    units = sorted(chance.sample(among, chance.randint(2, 4)), key=among.index)
    at, years, shown, counts = start, None, [], {}
    for unit in units:
        if unit == "mo" and years is not None:
            # (they count together)
            count, at = whole(start, end, unit)
            count -= 12 * years
        else:
            count, at = whole(at, end, unit)
        years = count if unit == "y" else years
        counts[IN_FULL[unit]] = count
        shown += [f"{count}{unit}"] if count else []
    text = " ".join(shown) or f"0{units[-1]}"
    words = [moment_word(chance, start), moment_word(chance, end)] if timed else [day_word(chance, start), day_word(chance, end)]
    return Asked(["diff", *words, "in", ",".join(units)], [], 0, [text], [counts])


def clock_text(moment):
    return moment_text(moment).partition("T")[2]


def of_times_alone(chance, _):
    """A time of day alone: moved, listed, compared, or rounded to a part of the day."""
    moment = any_moment(chance).replace(year=2000, month=6, day=15)
    name, sign = chance.choice(("add", "seq", "diff", "test", "round")), chance.choice((1, -1))
    if name == "add":
        unit, count = chance.choice(list(SECONDS)), chance.randint(-5000, 5000)
        text = clock_text(moment + Span(seconds=SECONDS[unit] * count))
        return Asked(["add", clock_text(moment), f"{count}{unit}"], [], 0, [text], [{"time": text}])
    if name == "round":
        return of_part(chance, moment, clock_text(moment), sign)
    other = any_moment(chance).replace(year=2000, month=6, day=15)
    if name == "diff":
        text = duration_text(other - moment)
        return Asked(["diff", clock_text(moment), clock_text(other)], [], 0, [text], [{"duration": text}])
    if name == "test":
        test = chance.choice(list(TESTS))
        return Asked(["test", clock_text(moment), f"-{test}", clock_text(other)], [], 0, [], [], int(not TESTS[test](moment, other)))
    step = Span(minutes=chance.choice((7, 30, 90))) * sign
    # (past midnight, where the end is on the other side)
    end = other + DAY * sign * ((other - moment) * sign < Span(0))
    texts, at = [], moment
    while (end - at) * sign >= Span(0):
        texts.append(clock_text(at))
        at += step
    words = ["seq", clock_text(moment), clock_text(other), f"{step // Span(minutes=1)}min"]
    return Asked(words, [], 0, texts, [{"time": it} for it in texts])


def of_part(chance, moment, word, sign):
    """A time rounded to a part of the day: on, or back where the sign is below 0."""
    name, size = chance.choice((("15min", 900), ("1h", 3600), ("30s", 30), ("6h", 21_600), ("24h", 86_400)))
    midnight = moment.replace(hour=0, minute=0, second=0, microsecond=0)
    over = (moment - midnight) % Span(seconds=size)
    reached = moment - over + (Span(seconds=size) if over and sign > 0 else Span(0))
    text, key = (clock_text(reached), "time") if "-" not in word else (moment_text(reached), "moment")
    return Asked(["round", word, f"-{name}" if sign < 0 else name], [], 0, [text], [{key: text}])


def of_rounded(chance, _):
    moment = any_moment(chance)
    return of_part(chance, moment, moment_text(moment), chance.choice((1, -1)))


def of_within(chance, _):
    """Days within lines, each answered in its place, and one field of CSV: there is no JSON of these."""
    lines, answers = [], []
    for _ in range(chance.randint(1, 4)):
        line, answer = "", ""
        for _ in range(chance.randint(0, 5)):
            date, gap = any_day(chance), chance.choice((" ", ", ", "; ", " (", "<", "=", '"', "\t"))
            old, new = chance.choice(((str(date), str(moved(date, 1, "m"))), ("rent", "rent"), ("2024-2-3", "2024-2-3"), ("20240229", "20240229"), (f"{date}.", f"{moved(date, 1, 'm')}.")))
            line, answer = line + gap + old, answer + gap + new
        lines.append(line)
        answers.append(answer)
    if chance.random() < 0.5:
        return Asked(["add", "1mo", "--within"], [], 0, answers, None, given="".join(f"{it}\n" for it in lines).encode())
    date, place = any_day(chance), chance.randint(1, 3)
    fields = [chance.choice(("a", '"b, c"', "", '"d ""e"""', str(any_day(chance)))) for _ in range(4)]
    fields[place - 1] = mark = chance.choice(("{}", '"{}"'))
    made = [",".join(fields).replace(mark, mark.format(it), 1) for it in (date, moved(date, 1, "m"))]
    return Asked(["add", "1mo", "--field", str(place)], [], 0, [made[1]], None, given=f"{made[0]}\n".encode())


BOUNDS = {"--after": operator.gt, "--from": operator.ge, "--until": operator.le, "--before": operator.lt}


def of_grep(chance, _):
    """Lines whose day or time is looked for, and lines the latest first: there is no JSON of these."""
    found = [(it, chance.random() < 0.3) for it in (any_moment(chance) for _ in range(chance.randint(1, 6)))]
    texts = [str(it.date()) if alone else moment_text(it) for it, alone in found]
    lines = [f"{place} {it} x" for place, it in enumerate(texts)]
    given = "".join(f"{it}\n" for it in lines).encode()
    if chance.random() < 0.2:
        order = sorted(range(len(lines)), key=lambda it: found[it][0].replace(**({"hour": 0, "minute": 0, "second": 0, "microsecond": 0} if found[it][1] else {})), reverse=True)
        return Asked(["sort", "--reverse"], [], 0, [lines[it] for it in order], None, given=given)
    bound, _ = chance.choice(found)
    name, kind = chance.choice(list(BOUNDS)), chance.choice(("day", "time", "moment"))
    part = {"day": lambda it: it.date(), "time": lambda it: it.time(), "moment": lambda it: it}[kind]
    text = {"day": str(bound.date()), "time": clock_text(bound), "moment": moment_text(bound)}[kind]
    is_not, is_only = chance.random() < 0.3, chance.random() < 0.3
    holds = [(kind == "day" or not alone) and BOUNDS[name](part(it), part(bound)) for it, alone in found]
    kept = [texts[it] if is_only else lines[it] for it, held in enumerate(holds) if held != is_not]
    return Asked(["grep", name, text, *["--not"] * is_not, *["--only"] * is_only], [], 0, kept, None, 0 if kept else 1, given=given)


def of_instant(chance, _):
    """A command of date-times with their offsets, or of seconds since 1970: none of their words is spoiled."""
    start, unix = any_instant(chance), chance.random() < 0.3
    options = ["--unix"] * unix
    if chance.random() < 0.3:
        end = any_instant(chance)
        text = duration_text(end - start)
        return Asked(["diff", instant_word(chance, start, unix), instant_word(chance, end, unix), *options], [], 0, [text], [{"duration": text}])
    word, made = instant_word(chance, start, unix), [a_move(chance, True, None) for _ in range(chance.choice((1, 1, 2, 3)))]
    # (seconds have no offset)
    reached = start.astimezone(datetime.timezone.utc) if re.fullmatch(r"-?\d+", word) else start
    for _, move in joined(made):
        reached = move(reached)
    text = instant_text(reached, unix)
    words = ["add", word, *(it for it, _ in made)]
    words[chance.choice((1, len(words))):0] = options
    return Asked(words, [], 0, [text], [{"unix": int(text)} if unix else {"moment": text}])


ZONES = ("America/New_York", "America/Sao_Paulo", "America/St_Johns", "Asia/Kolkata", "Asia/Tokyo", "Australia/Lord_Howe", "Europe/Berlin",
         "Europe/Dublin", "Europe/London", "Pacific/Apia", "Pacific/Auckland", "UTC")
# Days on which some of these clocks are set.
SET_ON = (Date(2024, 3, 10), Date(2024, 11, 3), Date(2024, 3, 31), Date(2024, 10, 27), Date(2024, 4, 7), Date(2024, 10, 6), Date(2018, 2, 18), Date(2011, 12, 30), Date(2050, 3, 27))


def instants_at(local, zone):
    """The instants at which a zone's clock shows a local time, the earlier first."""
    both = {local.replace(tzinfo=zone, fold=it).astimezone(datetime.timezone.utc) for it in (0, 1)}
    return sorted(it for it in both if it.astimezone(zone).replace(tzinfo=None) == local)


def any_local(chance):
    """A local time, half of the time of a night on which clocks are set."""
    if chance.random() < 0.5:
        return DateTime.combine(chance.choice(SET_ON), datetime.time(chance.randrange(5), chance.choice((0, 15, 30, 59))))
    return any_moment(chance).replace(year=chance.randint(1950, 2100), day=1)


def of_zone(chance, _):
    """What the clock of a zone shows: none of the words is spoiled."""
    name, local = chance.choice(ZONES), any_local(chance)
    source = chance.choice((None, *ZONES))
    target = zoneinfo.ZoneInfo(name)
    found, word = instants_at(local, zoneinfo.ZoneInfo(source or name)), moment_word(chance, local)
    if chance.random() < 0.3:
        found = [any_instant(chance).replace(year=chance.randint(1950, 2100), day=1)]
        word = instant_word(chance, found[0], False)
    shown = [it.astimezone(target) for it in found]
    lines = [f"{instant_text(it, False)} {it.tzname()}" for it in shown] or ["none"]
    objects = [{"moment": instant_text(it, False), "name": it.tzname()} for it in shown] or [{"moment": None, "name": None}]
    error = "" if found else f"{moment_text(local)}: the zone's clock never shows it"
    return Asked(["in", name, word, *(["--from-zone", source] if source else [])], [], 0, lines, objects, int(not found), error)


def of_zoned_add(chance, _):
    """A local time of a zone, moved there: none of the words is spoiled."""
    name, local = chance.choice(ZONES), any_local(chance)
    zone, word = zoneinfo.ZoneInfo(name), moment_word(chance, local)
    moves = [a_move(chance, True, None) for _ in range(chance.choice((1, 1, 2)))]
    words = ["add", word, *(it for it, _ in moves), "--zone", name]
    not_once = "a local time that the zone's clock shows twice, or never"

    def no_answer(start):
        return Asked(words, [], 0, ["none"], [{"moment": None}], 1, f"{start}: {not_once}")

    found = instants_at(local, zone)
    if len(found) != 1:
        return no_answer(word)
    for text, move in joined(moves):
        last = found[0].astimezone(zone)
        if text.lstrip("-0123456789") in ("d", "w", "mo", "y"):
            local = move(last.replace(tzinfo=None))
            # (the same day stays the same instant)
            found = found if local == last.replace(tzinfo=None) else instants_at(local, zone)
        else:
            found = [move(found[0])]
        if not all(1950 < it.year < 2150 for it in found):
            return of_zoned_add(chance, _)
        if len(found) != 1:
            return no_answer(f"{instant_text(last, False)} {text}")
    text = instant_text(found[0].astimezone(zone), False)
    return Asked(words, [], 0, [text], [{"moment": text}])


def dated(days):
    """Lines and objects of days."""
    return [str(it) for it in days], [{"date": str(it)} for it in days]


def of_seq(chance, _):
    start, unit = any_day(chance), chance.choice(("d", "w", "m", "y"))
    count = chance.choice((1, 2, 3, 7, 30, -1, -1, -2, -11))
    step = None if chance.random() < 0.3 else f"{count}{unit}"
    end = start + Span(chance.randint(-40, 40)) if not step else moved(start, count * chance.randint(-1, 30), unit) + Span(chance.randint(-3, 3))
    sign = (1 if start <= end else -1) if not step else 1 if count > 0 else -1
    days, times = [], 0
    while (end - (it := start + sign * times * DAY if not step else moved(start, times * count, unit))) * sign >= Span(0):
        days.append(it)
        times += 1
    lines, objects = dated(days)
    words = ["seq", day_word(chance, start), day_word(chance, end), *([step] if step else [])]
    kinds = ["first", "start", "day", "step"][: len(words)]
    return Asked(words, kinds, 2, lines or ["none"], objects or [{"date": None}], int(not days))


def of_seq_of_times(chance, _):
    """A sequence of days or of date-times, with weekdays that are left out and a count: none of its words is spoiled."""
    start = any_moment(chance).replace(microsecond=0)
    unit, count = chance.choice(("h", "min", "d", "w", "mo")), chance.choice((1, 2, 5, 90, -1, -7))
    skip = chance.sample(SHORT, chance.choice((0, 1, 2, 6)))
    most, length = chance.choice((None, 1, 2, 5)), chance.randint(0, 20)
    at = lambda times: start + Span(seconds=SECONDS[unit] * count * times) if unit in SECONDS else moved(start, count * times, unit)
    shown = [it for it in map(at, range(length + 1)) if SHORT[it.weekday()] not in skip][:most]
    texts = [moment_text(it) for it in shown]
    words = ["seq", moment_word(chance, start), moment_word(chance, at(length)), f"{count}{unit}", *(["--skip", ",".join(skip)] if skip else []), *(["--count", str(most)] if most else [])]
    return Asked(words, [], 0, texts or ["none"], [{"moment": it} for it in texts] or [{"moment": None}], int(not texts))


def of_left_out(chance, _):
    """A sequence to the calendar's end of which each day, or all before another weekday, is left out: none of its words is spoiled."""
    start, count = any_day(chance), chance.choice((1, 2, 7, 14, -7, -14))
    skip = {SHORT[start.weekday()], *chance.sample(SHORT, chance.choice((0, 2, 6)))}
    first = next((it for it in (start + count * times * DAY for times in range(7)) if SHORT[it.weekday()] not in skip), None)
    lines, objects = dated([first] if first else [])
    words = ["seq", day_word(chance, start), f"{count}d", "--skip", ",".join(sorted(skip)), "--count", "1"]
    return Asked(words, [], 0, lines or ["none"], objects or [{"date": None}], int(not first))


MEANT = "a day as 2024-02-29"


def of_no_day(chance, _):
    """A month, or seven digits, in the place of a day, which is told: none of its words is spoiled."""
    date = any_day(chance, first=1000)
    month = chance.random() < 0.7
    word = month_word(chance, date) if month else f"{date.year:04}{date:%j}"
    words = chance.choice(([word], ["add", word, "1d"], ["diff", str(date), word], ["week", word], ["round", word, "fri"], ["last", "week", word]))
    said = f"a month; expected {MEANT}" if month else f"expected {MEANT}, 20240229 or, of seven digits, with a hyphen as 2024-060"
    return Asked(words, [], 0, [], [], 2, f"dates: argument {words.index(word) + 1}, {word}: {said}")


def of_open_seq(chance, files):
    """A sequence by open days, which begins on the first of them: none of its words is spoiled."""
    start, closed, count = workday_time(chance), Closed(chance, files), chance.choice((1, 1, 2, 5, -1, -3))
    first, sign = closed.on(start, 0), 1 if count > 0 else -1
    end = start + Span(sign * chance.randint(-3, 60))
    most = chance.choice((None, None, 1, 4))
    days = [closed.on(first, count * times) for times in range(60)]
    days = [it for it in days if (end - it) * sign >= Span(0)][:most]
    words = ["seq", day_word(chance, start), day_word(chance, end), f"{count}b", *closed.words, *(["--count", str(most)] if most else [])]
    lines, objects = dated(days)
    return Asked(words, [], 0, lines or ["none"], objects or [{"date": None}], int(not days))


def of_week(chance, _):
    first = any_day(chance)
    year, week, day = first.isocalendar()
    first -= (day - 1) * DAY
    last = first + 6 * DAY
    word = chance.choice((f"{year:04}-W{week:02}", day_word(chance, first + chance.randrange(7) * DAY)))
    return Asked(["week", word], ["first", "day"], 1, [f"{first} {last}"], [{"first": str(first), "last": str(last)}])


def of_end(chance, _):
    """An end of a day's week, month, quarter or year, the next day of a weekday, its weekday, or which of two days is earlier."""
    date, name = any_day(chance), chance.choice(("first", "last", "round", "weekday", "test"))
    if name == "test":
        other, test = chance.choice((date, any_day(chance))), chance.choice(list(TESTS))
        return Asked(["test", day_word(chance, date), f"-{test}", day_word(chance, other)], [], 0, [], [], int(not TESTS[test](date, other)))
    if name == "weekday":
        text = WEEKDAYS[date.weekday()]
        return Asked(["weekday", day_word(chance, date)], ["first", "day"], 1, [text], [{"weekday": text}])
    if name == "round":
        weekday = chance.randrange(7)
        lines, objects = dated([date + (weekday - date.weekday()) % 7 * DAY])
        word = chance.choice((SHORT[weekday], WEEKDAYS[weekday], WEEKDAYS[weekday].lower()))
        return Asked(["round", day_word(chance, date), word], ["first", "day", "to"], 3, lines, objects)
    period = chance.choice(("week", "month", "quarter", "year"))
    size = {"month": 1, "quarter": 3, "year": 12}.get(period)
    begin = date - date.weekday() * DAY if period == "week" else date.replace(day=1, month=(date.month - 1) // size * size + 1)
    end = begin + 6 * DAY if period == "week" else moved(begin, size, "m") - DAY
    lines, objects = dated([begin if name == "first" else end])
    if period != "week" and chance.random() < 0.2:
        return Asked([name, period, month_word(chance, date)], ["first", "period", "month"], 2, lines, objects)
    return Asked([name, period, day_word(chance, date)], ["first", "period", "day"], 2, lines, objects)


TESTS = {"lt": operator.lt, "le": operator.le, "eq": operator.eq, "ne": operator.ne, "ge": operator.ge, "gt": operator.gt}


def no_year(chance, name, key):
    year = chance.choice((-262_144, 262_143, 300_000, -999_999))
    error = f"{year:+}: expected a year from -262143 to +262142"
    return Asked([name, f"{year:+}"], ["first", "year"], 2, ["none"], [{key: None}], 1, error)


def of_easter(chance, _):
    if chance.random() < 0.05:
        return no_year(chance, "easter", "date")
    year = chance.choice((chance.randint(1583, 4099), chance.randint(-200_000, 200_000)))
    text = str(easter(year)) if 1583 <= year <= 4099 else names(business.easter(year))[0]
    return Asked(["easter", year_text(year)], ["first", "year"], 2, [text], [{"date": text}])


def of_leap(chance, _):
    if chance.random() < 0.05:
        return no_year(chance, "leap", "leap")
    year = chance.choice((chance.randint(counted.FIRST_YEAR, counted.LAST_YEAR), chance.randint(0, 9999), 100 * chance.randint(-2600, 2600)))
    leap = months.isleap(year)
    return Asked(["leap", year_text(year)], ["first", "year"], 2, ["yes" if leap else "no"], [{"leap": leap}])


def of_open(chance, files):
    date, closed = workday_time(chance), Closed(chance, files)
    date = chance.choice((date, date.replace(month=12, day=chance.randint(23, 31)), date.replace(month=1, day=1)))
    is_open = closed.is_open(date)
    words = ["open", day_word(chance, date), *closed.words]
    return Asked(words, ["first", "day", *closed.kinds], 2, ["yes" if is_open else "no"], [{"open": is_open}])


ROLLS = ("unadjusted", "following", "preceding", "modified-following", "modified-preceding", "nearest")


def of_roll(chance, files):
    date, closed, name = workday_time(chance), Closed(chance, files), chance.choice(ROLLS)
    date = chance.choice((date, date.replace(month=12, day=chance.randint(23, 31)), date.replace(day=1)))
    lines, objects = dated([closed.rolled(date, name)])
    return Asked(["roll", day_word(chance, date), name, *closed.words], ["first", "day", "convention", *closed.kinds], 3, lines, objects)


def each_added(chance, closed):
    """`add` of lines: the words in front of the line's place and behind it, the keys of an answer, and what answers a day, or None where that is not known here."""
    moves = [a_move(chance, False, closed) for _ in range(chance.choice((1, 1, 2)))]

    def answer(date):
        for _, move in joined(moves):
            date = move(date)
            if not 2000 <= date.year <= 2055:
                return None
        return [str(date)], [str(date)]

    return ["add"], [*(it for it, _ in moves), *closed.words], ["date"], answer


def each_apart(chance, closed):
    """The same of `diff`, with the line in the place of the second day or of the first."""
    other, unit, first = workday_time(chance), chance.choice((None, "d", "w", "m", "y", "b", "b", "ymd")), chance.random() < 0.3
    keys = {None: "days", "d": "days", **UNITS}[unit].split()

    def answer(date):
        start, end = (date, other) if first else (other, date)
        if unit == "ymd":
            numbers = parts(start, end)
            return [" ".join(f"{number}{it}" for number, it in zip(numbers, "ymd") if number) or "0d"], numbers
        count = closed.between(start, end) if unit == "b" else apart(start, end, unit or "d")
        return [str(count)], [count]

    behind = [*(["in", unit] if unit else []), *(closed.words if unit == "b" else [])]
    word = day_word(chance, other)
    return (["diff"], [word, *behind], keys, answer) if first else (["diff", word], behind, keys, answer)


def each_open(chance, closed):
    """The same of `open`."""
    return ["open"], closed.words, ["open"], lambda date: (["yes" if closed.is_open(date) else "no"], [closed.is_open(date)])


def each_rolled(chance, closed):
    """The same of `roll`."""
    name = chance.choice(ROLLS)

    def answer(date):
        reached = str(closed.rolled(date, name))
        return [reached], [reached]

    return ["roll"], [name, *closed.words], ["date"], answer


def of_each(chance, files):
    """A command of each line of the input, by `-` in the place of a day or by a day that is left out; the lines lie in other years."""
    front, behind, keys, answer = chance.choice((each_added, each_apart, each_open, each_rolled))(chance, Closed(chance, files))
    texts, lines, objects = [], [], []
    for _ in range(chance.randrange(12)):
        date = workday_time(chance)
        if chance.random() < 0.2:
            texts.append(chance.choice(("soon", "", "2023-02-29", "2024-13-01", "-", "--help")))
            lines.append("none")
            objects.append(dict.fromkeys(keys))
        elif answered := answer(date):
            texts.append(day_word(chance, date))
            lines += answered[0]
            objects.append(dict(zip(keys, answered[1])))
    left_out = front != ["diff"] and chance.random() < 0.5
    words = [*front, *([] if left_out else ["-"]), *behind]
    return Asked(words, [], 0, lines, objects, int("none" in lines), given="".join(f"{it}\n" for it in texts).encode())


def past_month(chance):
    """The text of a day that its month has not, and what is said of it."""
    date = any_day(chance)
    length = months.monthrange(date.year, date.month)[1]
    day = chance.choice((0, length + 1, 32, 99))
    return f"{date:%Y-%m}-{day:02}".rjust(10, "0"), f"byte 8: the month has {length} days" if day else "byte 8: the day is 0"


NO_FORM = "not written as 2024-02-29, 2024-060 or 2024-W09-4"
# Why some texts are no days, where more can be told.
REASONS = {
    "": "nothing stands there", "2023-W53-1": "byte 6: the year has 52 weeks", "2023-366": "byte 5: the year has 365 days", "2024-00-10": "byte 5: the month is 0",
    "2024-13-01": "byte 5: the month is above 12", " 2024-02-29": "begins or ends with white space", "2024-02-29 ": "begins or ends with white space",
    "2024-02-29T00:00": "a date-time, and no day",
}
ODD_LINES = (b"2024-02-29\r", b'"2024-02-29"', b"a\\b", b"\x00\x01\x1f\x7f", b"caf\xc3\xa9", b"\xff\xfe", b"\xe2\x82", b"\xf0\x9f\x93\x85 \xed\xa0\x80", b"/", b"\t\b\f")


def of_check(chance, files):
    """A file of lines, most of which are days."""
    texts, lines, objects = [], [], []
    for number in range(1, chance.randrange(1, 30)):
        text = chance.choice(names(chance.randint(counted.FIRST_DAY, counted.LAST_DAY))).encode()
        reason = None
        if chance.random() < 0.15:
            text = chance.choice(ODD_LINES + tuple(it.encode() for it in NO_DAYS))
            # (a line may end in a carriage return)
            reason = None if text.endswith(b"\r") else REASONS.get(text.decode(errors="replace"), NO_FORM)
        elif chance.random() < 0.1:
            text, reason = past_month(chance)
            text = text.encode()
        if reason:
            lines.append(f"{number}: {reason}")
            objects.append({"line": number, "text": text.decode(errors="replace"), "reason": reason})
        texts.append(text)
    end = b"\n" * (not texts or not texts[-1] or chance.random() < 0.7)
    return Asked(["check", chance.choice(("-", "/dev/stdin"))], ["first", "file"], 1, lines, objects, int(bool(lines)), given=b"\n".join(texts) + end if texts else b"")


def due_moments(schedule, start, count, back):
    """The moments next to a start at which a schedule is due, or None where there is none within twenty years."""
    found, day, sign = [], start.toordinal(), -1 if back else 1
    for number in range(day, day + sign * 7500, sign):
        if schedule.is_day(number):
            for minute in schedule.minutes[::sign]:
                moment = DateTime.combine(Date.fromordinal(number), datetime.time(*divmod(minute, 60)))
                if (moment - start) * sign > Span(0):
                    found.append(moment)
                    if len(found) == count:
                        return found
    return None


def of_due(chance, files):
    text, back, start = cron.schedule_text(chance), chance.random() < 0.4, any_moment(chance)
    if re.search(r"L-0\b", text):
        return of_due(chance, files)
    if text == "0 0 30 2 *":
        moments, count = [], chance.choice((None, 1, 5))
    else:
        count = chance.choice((None, 1, 2, 3, 7))
        moments = due_moments(cron.Schedule(text, False), start, count or 1, back) if 1700 < start.year < 8900 else None
    if moments is None:
        return of_due(chance, files)
    options = [["--from", moment_word(chance, start)], *([["--count", str(count)]] if count else [])]
    chance.shuffle(options)
    words = ["prev" if back else "next", text, *(word for it in options for word in it)]
    kinds = ["first", "schedule", *(kind for name, _ in options for kind in ("due_option", "moment" if name == "--from" else "amount"))]
    lines = [moment_text(it) for it in moments]
    objects = [{"moment": it} for it in lines]
    return Asked(words, kinds, len(words), lines or ["none"], objects or [{"moment": None}], int(not moments))


# Schedules with fixed times, of which a clock that is set skips some or shows some twice, and such as follow the clock.
ZONED_SCHEDULES = ("30 2 * * *", "0 0 * * *", "15,45 1-3 * * *", "59 1 * * 0", "*/20 0-4 * * *", "0 */2 * * *", "30 * * * *", "* 2 * * *", "*/15 * * * *")


def behind_gap(local, zone):
    """The first instant behind the gap in which a local time lies."""
    utc, minute = local.replace(tzinfo=zone).astimezone(datetime.timezone.utc), Span(minutes=1)
    offset = utc.astimezone(zone).utcoffset()
    while (utc - minute).astimezone(zone).utcoffset() == offset:
        utc -= minute
    return utc


CORRECTION = Span(hours=3)


def firings(schedule, zone, start, days, seconds, dialect):
    """The instants near a start at which a schedule fires by the clock of a zone, as its dialect has it."""
    first = DateTime.combine(start.astimezone(zone).date() - days * DAY, datetime.time())
    follows, fired = schedule.follows or dialect == "robfig", set()
    for day in (first + it * DAY for it in range(2 * days)):
        for minute, second in itertools.product(schedule.minutes if schedule.is_day(day.toordinal()) else [], seconds):
            local = day + Span(minutes=minute, seconds=second)
            found = instants_at(local, zone)
            if dialect == "quartz":
                fired.update(found[-1:])
            elif found:
                fired.update(found if follows or found[-1] - found[0] > CORRECTION else found[:1])
            elif not follows:
                behind = behind_gap(local.replace(second=0), zone)
                if behind.astimezone(zone).utcoffset() - (behind - Span(minutes=1)).astimezone(zone).utcoffset() < CORRECTION:
                    fired.add(behind)
    return sorted(fired)


def in_dialect(text, seconds, dialect):
    """The text of a schedule in a dialect, and the word that names it."""
    listed = ",".join(map(str, seconds))
    if dialect == "quartz":
        fields = text.split()
        fields[2:] = [fields[2], fields[3], "?"] if fields[4] == "*" else ["?", fields[3], str(int(fields[4]) + 1)]
        return f"{listed or 0} {' '.join(fields)}", ["--dialect", "quartz"]
    if dialect == "robfig":
        return text, ["--dialect", "robfig"]
    return (f"{listed} {text}", ["--dialect", "seconds"]) if seconds else (text, [])


def of_zoned_due(chance, _):
    """When a schedule is due by the clock of a zone: none of the words is spoiled."""
    name, text, back, days = chance.choice(ZONES), chance.choice(ZONED_SCHEDULES), chance.random() < 0.4, 9
    zone = zoneinfo.ZoneInfo(name)
    start = any_instant(chance).replace(year=chance.randint(1980, 2036), day=1)
    if chance.random() < 0.7:
        start = DateTime.combine(chance.choice(SET_ON) + chance.randint(-1, 1) * DAY, start.timetz())
    dialect = chance.choice(("crontab", "crontab", "robfig", "quartz"))
    seconds = sorted(chance.sample(range(60), chance.choice((1, 2, 4)))) if dialect != "robfig" and chance.random() < 0.4 else []
    fired = firings(cron.Schedule(text, False), zone, start, days, seconds or [0], dialect)
    text, named = in_dialect(text, seconds, dialect)
    near = [it for it in reversed(fired) if it < start] if back else [it for it in fired if start < it]
    count = chance.choice((1, 2, 3))
    shown = [it.astimezone(zone) for it in near[:count]]
    if len(shown) < count or any(it.utcoffset() % Span(minutes=1) for it in shown):
        return of_zoned_due(chance, _)
    words = ["prev" if back else "next", text, "--from", instant_word(chance, start, False), "--zone", name, "--count", str(count), *named]
    return Asked(words, [], 0, [f"{instant_text(it, False)} {it.tzname()}" for it in shown], [{"moment": instant_text(it, False), "name": it.tzname()} for it in shown])


def of_rule(chance, _):
    rule, start = rules_days.at_random(chance)
    days = rules_days.of_dateutil(rule, start)
    since = start + Span(chance.randint(-100, 800)) if chance.random() < 0.4 else None
    count = chance.choice((1, 2, 5, 20)) if len(days) > 40 or chance.random() < 0.5 else None
    days = [it for it in days if it >= (since or start)][:count]
    options = [["--start", day_word(chance, start)], *([["--from", day_word(chance, since)]] if since else []), *([["--count", str(count)]] if count else [])]
    chance.shuffle(options)
    words = ["rule", rule.text(), *(word for it in options for word in it)]
    kinds = ["first", "rule", *(kind for name, _ in options for kind in ("rule_option", "amount" if name == "--count" else "day"))]
    lines, objects = dated(days)
    return Asked(words, kinds, len(words), lines or ["none"], objects or [{"date": None}], int(not days))


def skipping_days(chance, first_year, last_year):
    """A start, the parts of a rule with SKIP, and its days from the start on, which are looked for day by day."""
    start, yearly = any_day(chance, first_year, last_year), chance.random() < 0.5
    if chance.random() < 0.4:
        start = start.replace(month=chance.choice((1, 3, 5, 7, 8, 10, 12)), day=chance.randint(29, 31))
    interval, skip = chance.choice((1, 1, 1, 2, 3, 5)), chance.choice(("OMIT", "BACKWARD", "FORWARD"))
    listed = sorted({chance.choice((1, 15, 28, 29, 30, 31, 31, 31)) for _ in range(chance.choice((0, 1, 1, 2)))})
    from_end = sorted({chance.choice((1, 2, 28, 29, 30, 31, 31)) for _ in range(chance.choice((0, 0, 0, 1, 2)))})
    in_year = sorted({chance.randint(1, 12) for _ in range(chance.choice((0, 0, 1, 3)))})
    if start.month > 1 and chance.random() < 0.2:
        # (the month before the start puts a day on it, if it lies in the rule's first period)
        start, skip, listed, in_year = start.replace(day=1), "FORWARD", [*listed, 31][-2:], sorted({*in_year, start.month - 1})
    parts = ["FREQ=YEARLY" if yearly else "FREQ=MONTHLY", f"SKIP={skip}", *(["RSCALE=GREGORIAN"] if chance.random() < 0.3 else [])]
    parts += [f"{name}={','.join(map(str, values))}" for name, values in (("BYMONTHDAY", [*listed, *(-it for it in from_end)]), ("BYMONTH", in_year)) if values]
    parts += [f"INTERVAL={interval}"] if interval > 1 else []
    in_year = in_year or ([start.month] if yearly and not listed and not from_end else range(1, 13))
    listed = listed if listed or from_end else [start.day]

    def recurs(date):
        periods = date.year - start.year if yearly else 12 * (date.year - start.year) + date.month - start.month
        return periods >= 0 and periods % interval == 0 and date.month in in_year

    def length(date):
        return months.monthrange(date.year, date.month)[1]

    def is_put(date):
        """Whether SKIP puts a day there that a month lacks: one from its front behind it, or one from its end before it."""
        before, behind = date - DAY, date + DAY
        if skip == "BACKWARD" and behind.day == 1:
            return recurs(date) and listed[-1:] > [date.day] or recurs(behind) and from_end[-1:] > [length(behind)]
        if skip == "FORWARD" and date.day == 1:
            return recurs(before) and listed[-1:] > [before.day] or recurs(date) and from_end[-1:] > [length(date)]
        return False

    def is_due(date):
        return is_put(date) or (recurs(date) and (date.day in listed or length(date) - date.day + 1 in from_end))

    found = [it for it in (start + Span(days) for days in range(366 * 30)) if is_due(it)][:40]
    return (start, parts, found) if found else skipping_days(chance, first_year, last_year)


def of_skipping(chance, _):
    """The instances of a rule with SKIP: none of the words is spoiled."""
    start, parts, found = skipping_days(chance, 1900, 2200)
    count, until = chance.randint(1, len(found)), chance.choice(found)
    ends = [[f"COUNT={count}"], [f"UNTIL={until:%Y%m%d}"], []]
    place = chance.randrange(3)
    kept = [found[:count], [it for it in found if it <= until], found[:count]][place]
    parts += ends[place]
    chance.shuffle(parts)
    added = [start + Span(chance.randint(-40, 400)) for _ in range(chance.choice((0, 0, 1, 2)))] if ends[place] else []
    left_out = chance.sample(kept + added, 1) if ends[place] and chance.random() < 0.3 else []
    lines = [str(it) for it in sorted({*kept, *added} - {*left_out})]
    if not lines:
        return of_skipping(chance, _)
    options = [["--start", day_word(chance, start)], *(["--rdate", day_word(chance, it)] for it in added), *(["--exdate", day_word(chance, it)] for it in left_out)]
    options += [] if ends[place] else [["--count", str(count)]]
    chance.shuffle(options)
    return Asked(["rule", ";".join(parts), *(word for it in options for word in it)], [], 0, lines, [{"date": it} for it in lines])


def is_shown_once(local, zone):
    """Whether the clock of a zone shows a local time once."""
    return local.replace(tzinfo=zone, fold=0).utcoffset() == local.replace(tzinfo=zone, fold=1).utcoffset()


def of_timed_skipping(chance, _):
    """The instances of a rule with SKIP over date-times, by local time or by the clock of a zone: none of the words is spoiled."""
    start, parts, days = skipping_days(chance, 1980, 2030)
    name = chance.choice(ZONES) if chance.random() < 0.5 else None
    zone = zoneinfo.ZoneInfo(name or "UTC")
    begin = DateTime.combine(start, datetime.time(*divmod(chance.randrange(0, 1440, 5), 60)))
    hours = sorted(chance.sample(range(24), chance.choice((0, 0, 1, 2, 3))))
    planned = [DateTime.combine(day, datetime.time(hour, begin.minute)) for day in days for hour in hours or [begin.hour]]
    found = sorted({it.replace(tzinfo=zone).astimezone(datetime.timezone.utc) for it in planned if begin <= it})
    since = begin + Span(minutes=chance.randint(-9_000, 900_000)) if chance.random() < 0.3 else None
    if not found or not all(is_shown_once(it, zone) for it in (begin, since or begin)):
        return of_timed_skipping(chance, _)
    count, until, left_out = chance.randint(1, len(found)), chance.choice(found), chance.choice(found)
    ends, kept = chance.choice(((f"COUNT={count}", found[:count]), (f"UNTIL={until:%Y%m%dT%H%M%S}{'Z' if name else ''}", [it for it in found if it <= until])))
    # (also before the start, on its day)
    added = [begin + Span(minutes=chance.choice((-1, -1, 1, 40)) * chance.randint(1, 900))] if not name and chance.random() < 0.6 else []
    kept = sorted({*kept, *(it.replace(tzinfo=datetime.timezone.utc) for it in added)})
    kept = [it for it in kept if it != left_out and (since is None or since.replace(tzinfo=zone) <= it)]
    shown = [it.astimezone(zone) for it in kept]
    if not shown or any(it.utcoffset() % Span(minutes=1) for it in shown):
        return of_timed_skipping(chance, _)
    parts += [ends, *([f"BYHOUR={','.join(map(str, hours))}"] if hours else [])]
    chance.shuffle(parts)
    out = instant_word(chance, left_out.astimezone(zone), False) if name else moment_word(chance, left_out.replace(tzinfo=None))
    options = [["--start", moment_word(chance, begin)], ["--exdate", out], *([["--zone", name]] if name else []), *([["--from", moment_word(chance, since)]] if since else [])]
    options += [["--rdate", moment_word(chance, it)] for it in added]
    chance.shuffle(options)
    words = ["rule", ";".join(parts), *(word for it in options for word in it)]
    if name:
        return Asked(words, [], 0, [f"{instant_text(it, False)} {it.tzname()}" for it in shown], [{"moment": instant_text(it, False), "name": it.tzname()} for it in shown])
    lines = [moment_text(it.replace(tzinfo=None)) for it in shown]
    return Asked(words, [], 0, lines, [{"moment": it} for it in lines])


def of_timed_rule(chance, _):
    """The instances of a rule from a date-time on, by local time or by an offset, some left out and some added: none of the words is spoiled."""
    rule, start = rules_days.at_random(chance)
    minutes, offset = chance.randrange(0, 1440, 5), chance.choice((None, 0, 330, -300))
    begin = DateTime.combine(start, datetime.time(*divmod(minutes, 60)))
    found = [DateTime.combine(it, begin.time()) for it in rules_days.of_dateutil(rule, start)]
    if not found:
        return of_timed_rule(chance, _)
    until, rule.until, last = rule.until, None, found[-1]
    if chance.random() < 0.4:
        rule.count, last = chance.randint(1, len(found)), DateTime.max
    elif offset is None and chance.random() < 0.4:
        rule.until, last = until, DateTime.max
    found = found[: rule.count]
    added = [begin + Span(minutes=chance.randint(-7_000, 70_000)) for _ in range(chance.choice((0, 0, 1, 2)))]
    left_out = chance.sample(found[:9] + added, chance.choice((0, 0, 1)))
    is_day = chance.random() < 0.5
    kept = {it for it in [*found, *added] if it <= last and not any(it == out or is_day and it.date() == out.date() for out in left_out)}
    since = begin + Span(minutes=chance.randint(-9_000, 90_000)) if chance.random() < 0.3 else None
    since_day = since and chance.random() < 0.4
    since = since.replace(hour=0, minute=0) if since_day else since
    kept = sorted(it for it in kept if not since or since <= it)
    if not kept:
        return of_timed_rule(chance, _)
    count = None if (rule.count or rule.until) and len(kept) < 60 and chance.random() < 0.3 else chance.randint(1, min(len(kept), 40))

    def word(moment):
        return moment_word(chance, moment) if offset is None else instant_word(chance, placed(moment), False)

    def placed(moment):
        return moment.replace(tzinfo=datetime.timezone(Span(minutes=offset)))

    options = [["--start", word(begin)], *(["--rdate", word(it)] for it in added), *(["--exdate", day_word(chance, it.date()) if is_day else word(it)] for it in left_out)]
    options += [*([["--from", day_word(chance, since.date()) if since_day else word(since)]] if since else []), *([["--count", str(count)]] if count else [])]
    chance.shuffle(options)
    lines = [moment_text(it) if offset is None else instant_text(placed(it), False) for it in kept[:count]]
    # (beside a time in the start UNTIL has a time too)
    text = re.sub(r"UNTIL=\d{8}", r"\g<0>T235959", rule.text())
    return Asked(["rule", text, *(word for it in options for word in it)], [], 0, lines, [{"moment": it} for it in lines])


def of_timed_due(chance, _):
    """When a schedule with seconds, or one of Quartz or robfig/cron, is due: none of the words is spoiled."""
    back, count = chance.random() < 0.4, chance.choice((1, 1, 2, 5))
    start = DateTime(2000, 1, 1) + Span(seconds=chance.randrange(30 * 366 * 86_400))
    dialect = chance.choice(("seconds", "quartz", "robfig"))
    if dialect == "seconds":
        found = in_seconds(chance, start, count, back)
    elif dialect == "quartz":
        found = by_days(timed_schedules.quartz_text(chance), timed_schedules.Quartz, start, count, back)
    else:
        found = by_days(robfig_schedules.robfig_text(chance), robfig_schedules.Robfig, start, count, back)
    if found is None:
        return of_timed_due(chance, _)
    text, moments = found
    lines = [moment_text(it) for it in moments]
    words = ["prev" if back else "next", text, "--from", moment_word(chance, start), "--dialect", dialect, "--count", str(count)]
    return Asked(words, [], 0, lines, [{"moment": it} for it in lines])


def by_days(text, reading, start, count, back):
    """A text of Quartz or robfig/cron, and when it is due next to a start by a second reading of it; None where that is not known."""
    moments = []
    second = (start - EPOCH.replace(tzinfo=None)) // Span(seconds=1)
    for _ in range(count):
        second = reading(text).found("prev" if back else "next", second)
        if second is None:
            return None
        moments.append(EPOCH.replace(tzinfo=None) + Span(seconds=second))
    return text, moments


def in_seconds(chance, start, count, back):
    """A schedule with seconds, and when it is due next to a start; None where that is not known."""
    text, seconds = cron.schedule_text(chance), sorted(chance.sample(range(60), chance.choice((1, 2, 4))))
    if text.startswith("@") or re.search(r"L-0\b", text):
        return None
    minute = start.replace(second=0)
    minutes = due_moments(cron.Schedule(text, False), minute + Span(minutes=1 if back else -1), count + 1, back)
    if not minutes:
        return None
    due = sorted((it + Span(seconds=second) for it in minutes for second in seconds), reverse=back)
    moments = [it for it in due if (it < start if back else start < it)][:count]
    return (f"{','.join(map(str, seconds))} {text}", moments) if len(moments) == count else None


def rule_wanted(text):
    """What is said to be wanted in place of a text that is no rule over days."""
    return "such a rule needs a time of day in --start" if re.search("BYHOUR|HOURLY", text) else f"expected {EXPECTED['rule']}"


def examples():
    """The rows of crates/rows_layers that ask for a rule's instances, as commands: all of them or as many as the row has, one of them, those behind one, and none."""
    made = []
    rows = [words for words in map(str.split, standing_rows("rules")) if words[0].startswith("3.") and words[3] == "="]
    for _, text, start, _, *days in rows:
        if days == ["none"]:
            error = re.compile(re.escape(f"dates: argument 2, {text}: ") + r"[^;]+" + re.escape(f"; {rule_wanted(text)}"))
            made.append(Asked(["rule", text, "--start", names(int(start))[0]], [], 0, [], [], 2, error))
            continue
        ended, days = days[-1:] == ["end"], [int(it) for it in days if it != "end"]
        made.append(of_example(text, int(start), days, None if ended else len(days)))
        made.append(of_example(text, int(start), days[:1], 1))
        for place in range(0, len(days), 4):
            # (from the day behind an instance on, so that the next is the first)
            since, left = days[place] + 1, days[place + 1 :]
            made.append(of_example(text, int(start), left, None if ended else len(left), since) if ended or left else None)
            made.append(of_example(text, int(start), left[:3], 3, since) if ended or len(left) >= 3 else None)
    return [it for it in made if it]


def of_example(text, start, days, count, since=None):
    """A command for the instances of a rule, with options in one order or the other."""
    options = [["--start", names(start)[0]], ["--from", names(since)[1]] if since else [], ["--count", str(count)] if count else []]
    words = ["rule", text, *(word for it in options[:: -1 if len(days) % 2 else 1] for word in it)]
    lines, objects = dated([Date.fromordinal(it) for it in days])
    return Asked(words, [], 0, lines or ["none"], objects or [{"date": None}], int(not days))


# ---- sheets


def sheet(year, month, start, closed):
    """The rows of a month, each with the week of its Thursday in front."""
    first = Date(year, month, 1)
    row, rows = first - (first.weekday() - start) % 7 * DAY, []
    while row <= Date(year, month, months.monthrange(year, month)[1]):
        days = [row + it * DAY for it in range(7)]
        week = next(it for it in days if it.weekday() == 3).isocalendar()[1]
        cells = (f"{it.day:2}{' ' if closed.is_open(it) else '*'}" if it.month == month else "   " for it in days)
        rows.append(f"W{week:02} " + "".join(cells))
        row += 7 * DAY
    return rows


def heading(start):
    return "    " + "".join(f"{WEEKDAYS[(start + it) % 7][:2]} " for it in range(7))


def year_sheet(year, start, closed):
    lines = [f"{year:>41}"]
    for quarter in (1, 4, 7, 10):
        three = [sheet(year, it, start, closed) for it in range(quarter, quarter + 3)]
        lines += ["", "  ".join(f"    {MONTHS[it]:<21}" for it in range(quarter, quarter + 3)), "  ".join([heading(start)] * 3)]
        lines += ["  ".join(it[row] if row < len(it) else " " * 25 for it in three) for row in range(max(map(len, three)))]
    return lines


def of_cal(chance, files):
    date, start = workday_time(chance), chance.choice((None, *range(7)))
    closed = Closed(chance, files, [("--first", SHORT[start] if start is not None else None)])
    whole = chance.random() < 0.3
    if whole:
        lines, days = year_sheet(date.year, start or 0, closed), [Date(date.year, 1, 1) + it * DAY for it in range(365 + months.isleap(date.year))]
    else:
        lines = [f"    {MONTHS[date.month]} {date.year}", heading(start or 0), *sheet(date.year, date.month, start or 0, closed)]
        days = [date.replace(day=it + 1) for it in range(months.monthrange(date.year, date.month)[1])]
    objects = [{"date": str(it), "week": names(it.toordinal())[2], "weekday": WEEKDAYS[it.weekday()], "open": closed.is_open(it)} for it in days]
    kinds = ["sheet_option" if it == "option" else it for it in closed.kinds]
    word = None if whole or chance.random() < 0.6 else day_word(chance, date)
    if word:
        mark = date.day + (date.replace(day=1).weekday() - (start or 0)) % 7 - 1
        row, column = lines[2 + mark // 7], 6 + 3 * (mark % 7)
        lines[2 + mark // 7] = row[:column] + ("<" if closed.is_open(date) else "#") + row[column + 1 :]
    return Asked(["cal", word or str(date.year) if word or whole else month_word(chance, date), *closed.words], ["first", "sheet", *kinds], 1, lines, objects)


# ---- wrong commands

EXPECTED = {
    "first": "a day as 2024-02-29 or a command; dates --help lists them",
    "day": "a day as 2024-02-29, 2024-060 or 2024-W09-4",
    "start": "a day as 2024-02-29 or a date-time as 2024-02-29T04:30",
    "move": "a span as 3d, -2w, 1mo, 4y, 5b, 36h, 90min, 15s or PT1.5S",
    "step": "a span as 3d, -2w, 1m or 4y, or of date-times as 36h or 90min",
    "year": "a year as 2024, -0044 or +12024",
    "period": "week, month, quarter or year",
    "in": "in and a unit, as 'in w'",
    "unit": "d, w, m, mo, y, b, ymd, h, min, s, act/act, act/360, act/365, 30/360 or 30e/360",
    "convention": ", ".join(ROLLS[1:]) + " or unadjusted",
    "--weekend": "none, or at most two weekdays as fri,sat",
    "--calendar": "us-federal, target, england, fedwire, nyse, germany, france or japan",
    "--first": "a weekday as mon",
    "to": "a weekday as mon, or a part that divides the day, as 15min",
    "--holidays": "the name of a file",
    "file": "the name of a file",
    "schedule": "a schedule as '30 4 1,15 * 5'",
    "rule": "a rule as FREQ=MONTHLY;BYDAY=-1FR",
    "moment": "a date-time as 2024-02-29T04:30",
    "amount": "a number from 1 on, of 18 digits at most",
    "sheet": "a month as 2024-02, a year as 2024 or a day as 2024-02-29",
}
EXPECTED["month"] = EXPECTED["day"]
EXPECTED["convention"] = "following, preceding, modified-following, modified-preceding, nearest or unadjusted"
NO_WORDS = ("x", "soon", "2024-2-29", "1e3", "0x10", "é", "２０２４", "a b", "%", "-", "2024-02-29T4:00")
NO_SCHEDULES = ("61 * * * *", "* * * *", "* * * * * *", "@dayly", "0 0 * * mom", "*/0 * * * *", "5-1 * * * *", "5/2 * * * *", ", * * * *", "", "0 0 32 * *", "x * * * *")
NO_RULES = ("FREQ=HOURLY", "FREQ=DAILY;BYHOUR=9", "BYDAY=MO", "FREQ=DAILY;FREQ=DAILY", "FREQ=DAILY;INTERVAL=0", "FREQ=WEEKLY;BYMONTHDAY=1",
            "FREQ=DAILY;UNTIL=20240230", "FREQ=MONTHLY;BYDAY=XX", "FREQ=DAILY;COUNT=1;UNTIL=20240101", "FREQ=YEARLY;BYSETPOS=1", "", "FREQ=YEARLY;BYWEEKNO=9;BYDAY=1MO")


def refused(asked, words, error):
    """The command with other words, which is wrong."""
    return Asked(words, asked.kinds, asked.needed, [], [], 2, error, asked.given)


def begins_with_a_name(asked):
    """Whether a day of a command that has a word of its own behind it begins with a name or a mark: a wrong command then takes the day for that word."""
    return asked.words[:1] in (["diff"], ["roll"]) and any(it[:1] in ("#", "@") or it[:1].isalpha() and " " in it for it in asked.words[1:])


# What may stand behind a fault where a name is like the word.
NEAR = r"(; did you mean [\w-]+\?)?"


def with_wrong_word(chance, asked):
    """A word turned to one that cannot stand there."""
    if begins_with_a_name(asked):
        return None
    place = chance.randrange(len(asked.words))
    kind = asked.kinds[place]
    if kind in ("-", "file", "--holidays"):
        return None
    bad = chance.choice(("--x", "--calender", "--Count") if "option" in kind else NO_SCHEDULES if kind == "schedule" else NO_RULES if kind == "rule" else NO_WORDS)
    if kind == "first" and bad == "-" or kind in ("amount", "sheet", "year") and bad == "２０２４":
        return None
    shown = re.escape(f"dates: argument {place + 1}, " + (bad or "''") + ": ")
    if "option" in kind:
        error = shown + "no such option" + NEAR
    elif kind in ("schedule", "rule"):
        error = shown + r"[^;]+" + re.escape(f"; {rule_wanted(bad)}" if kind == "rule" else f"; expected {EXPECTED[kind]}")
    else:
        error = shown + re.escape(f"expected {EXPECTED[kind]}") + NEAR * (kind in ("first", "unit", "period", "convention", "--calendar"))
    return refused(asked, asked.words[:place] + [bad] + asked.words[place + 1 :], re.compile(error))


def with_words_missing(chance, asked):
    """What has to follow cut off: a word that is needed, or an option's value."""
    if begins_with_a_name(asked):
        return None
    places = [it for it, kind in enumerate(asked.kinds) if it and (it < asked.needed or kind.startswith("--"))]
    if not places:
        return None
    place = chance.choice(places)
    kind, cut = asked.kinds[place], asked.words[:place]
    if kind == "in" or place == 3 and kind == "unit":
        return None
    if "option" in asked.kinds[place - 1]:
        return refused(asked, cut, f"dates: argument {place}, {cut[-1]}: its value is missing")
    # (a schedule goes from now where nothing else is said)
    if kind == "due_option" or kind == "rule_option" and "--start" in cut:
        return None
    missing = "--start TIME" if kind == "rule_option" else "[A-Z|]+"
    return refused(asked, cut, re.compile(f"dates: {missing} is missing; usage: dates {cut[0]} .*"))


def with_a_word_more(chance, asked):
    """A word too many at the end."""
    if begins_with_a_name(asked):
        return None
    name, place = asked.words[0] if asked.words else "", len(asked.words) + 1
    bad = chance.choice(("x", "soon", "é"))
    if name in ("add", "diff") and "move" not in asked.kinds + ["move"] or not name or name == "-":
        return None
    expected = EXPECTED["move"] if name == "add" else "no further argument"
    if name == "diff" and len(asked.words) == 3 and asked.kinds[2] != "moment":
        expected = EXPECTED["in"]
    if name == "seq" and len(asked.words) == 3:
        expected = EXPECTED["step"]
    return refused(asked, [*asked.words, bad], f"dates: argument {place}, {bad}: expected {expected}")


KEYS = {"open": "open", "diff": "days", "week": "first last", "weekday": "weekday"}
UNITS = {"w": "weeks", "m": "months", "y": "years", "b": "open_days", "ymd": "years months days"}


def with_no_such_day(chance, asked):
    """A day that its month has not."""
    places = [it for it, kind in enumerate(asked.kinds) if kind in ("day", "start") or kind == "first" and len(asked.words) == 1]
    if not places:
        return None
    place, (bad, reason) = chance.choice(places), past_month(chance)
    keys = KEYS.get(asked.words[0], "date").split()
    if asked.words[0] == "diff":
        keys = UNITS.get("".join(asked.words[4:5]), "days").split()
    words = asked.words[:place] + [bad] + asked.words[place + 1 :]
    return Asked(words, asked.kinds, asked.needed, ["none"], [dict.fromkeys(keys)], 1, f"{bad}: {reason}", asked.given)


def asks_of_lines(words):
    """Whether words that were spoiled ask for lines of standard input, by `-` in the place of a day or by a day that is left out."""
    if words[:1] == ["diff"]:
        return len(words) == 2 or "-" in words[1:3]
    if words[:1] in (["first"], ["last"]):
        return len(words) == 2 or words[2:3] == ["-"]
    return words in (["open"], ["week"], ["weekday"], ["cal"]) or words[:1] in (["add"], ["open"], ["roll"], ["week"], ["weekday"], ["round"]) and words[1:2] == ["-"]


SPOILERS = (with_wrong_word, with_wrong_word, with_words_missing, with_a_word_more, with_no_such_day)
MAKERS = {of_day: 10, of_lines: 4, of_add: 16, of_diff: 16, of_instant: 8, of_zone: 6, of_zoned_add: 6, of_zoned_due: 6, of_seq: 10, of_seq_of_times: 5, of_open_seq: 4, of_left_out: 3, of_no_day: 4, of_week: 4, of_end: 12, of_easter: 4, of_leap: 3, of_open: 8, of_roll: 9, of_units: 8, of_times_alone: 8, of_rounded: 4, of_within: 8, of_grep: 8, of_each: 8, of_check: 5, of_due: 9, of_timed_due: 4, of_rule: 9, of_timed_rule: 6, of_skipping: 5, of_timed_skipping: 5, of_cal: 5}


def commands(chance, files, count):
    """So many commands, a fifth of them spoiled, but for those of lines."""
    made = []
    while len(made) < count:
        maker = chance.choices(list(MAKERS), list(MAKERS.values()))[0]
        try:
            asked = maker(chance, files)
        except Unknown:
            continue
        if maker in (of_each, of_units, of_times_alone, of_rounded, of_within, of_grep, of_seq_of_times, of_open_seq, of_left_out, of_no_day, of_instant, of_zone, of_zoned_add, of_zoned_due, of_timed_due, of_timed_rule, of_skipping, of_timed_skipping):
            made.append(asked)
            continue
        if asked.kinds and chance.random() < 0.2:
            asked = chance.choice(SPOILERS)(chance, asked)
        if asked and not asks_of_lines(asked.words):
            made.append(asked)
    return made


# ---- answers


def ran(asked, more=()):
    """Output, status and what is written to standard error."""
    done = subprocess.run([DATES, *asked.words, *more], input=asked.given, capture_output=True, timeout=60)
    return done.stdout.decode(), done.returncode, done.stderr.decode()


def fault(asked):
    """What is wrong with the answer to a command, as it stands or as JSON; None where nothing is."""
    # (behind an option without its value `--json` would be that value)
    for form in ((),) if str(asked.error).endswith("its value is missing") or asked.objects is None else ((), ("--json",)):
        output, status, error = ran(asked, form)
        said = [it.rstrip() for it in output.splitlines()]
        try:
            answer = [json.loads(it) for it in said] if form else said
        except ValueError as cause:
            return f"{form}: {cause}: {output}"
        wanted = asked.objects if form else [it.rstrip() for it in asked.lines]
        errors = re.escape(asked.error) if isinstance(asked.error, str) else asked.error.pattern
        if answer != wanted or status != asked.status or not re.fullmatch(errors + "\n" * bool(errors), error):
            return f"{form}\n  wanted {wanted[:9]}, status {asked.status}, {asked.error}\n  got {answer[:9]}, status {status}, {error}"
    return None


def days_of_files(chance, place):
    """Some files of holidays, and the days that each has."""
    files = {}
    for number in range(8):
        days = [workday_time(chance) for _ in range(chance.choice((0, 1, 30, 400)))]
        path = os.path.join(place, f"holidays{number}")
        with open(path, "w", encoding="utf-8") as out:
            out.write("".join(f"{day_word(chance, it)}\n" for it in days))
        files[path] = days
    return files


def main():
    wanted = argparse.ArgumentParser(description=__doc__, formatter_class=argparse.RawDescriptionHelpFormatter)
    wanted.add_argument("--commands", type=int, default=10_000)
    wanted.add_argument("--seed", type=int, default=1)
    given = wanted.parse_args()
    if not os.path.exists(DATES):
        print("there is no crates/dates/out/dates: `rt run` in crates/dates builds it\n0 passed, 1 failed")
        return 1
    restart_without(numpy)
    if numpy is None:
        print("not run: the commands of dates, since there is no numpy or no dateutil\n0 passed, 0 failed")
        return 0
    chance = random.Random(given.seed)
    with tempfile.TemporaryDirectory() as place:
        of_rows = examples()
        made = commands(chance, days_of_files(chance, place), given.commands) + of_rows
        with ThreadPoolExecutor(os.cpu_count()) as runners:
            faults = [(asked, it) for asked, it in zip(made, runners.map(fault, made)) if it]
    for asked, it in faults[:10]:
        print(f"FAILED: {asked.words} {it}")
    spoiled = sum(it.status == 2 for it in made)
    print(f"{given.commands} commands from seed {given.seed} and {len(of_rows)} of the rows of rules, each with --json too; {spoiled} of them wrong")
    failed = len(faults) + (not of_rows)
    print(f"{len(made) - len(faults)} passed, {failed} failed")
    return 1 if failed else 0


if __name__ == "__main__":
    sys.exit(main())
