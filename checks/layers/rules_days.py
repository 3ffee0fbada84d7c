#!/usr/bin/env python3
"""Holds the instances of chrono_rules to a reading of its own, day by day, and to dateutil where it is installed.

    python3 -m checks.layers.rules_days [--seed N] [--rules N] [--walks N]      (seed 1, 600 rules and none walked besides, if left out)

The program crates/rows_layers answers rows; here they are made. dateutil's rrule gives the first instances of random rules, of the parts that
RFC 5545 allows together, and its rruleset those of the same with dates beside them and exceptions (RDATE, EXDATE). A walk by RFC 5545, 3.3.10, asks of each day of
400 years whether it is an instance of some rules, and of as many random ones as --walks says. What is written for random rules is beside a second writing, and read again.

Where dateutil reads the RFC otherwise, no such rule is made for it, and the walk alone answers:

- BYDAY with numbered and plain weekdays in one list. dateutil asks for both; the RFC lists "days of the week", and any of a list will do.
- BYWEEKNO with neither BYDAY nor days. dateutil gives all days of the week; by the RFC "information, not contained in the rule" is "derived
  from the Start Time (DTSTART)", so it is the start's weekday.
- BYSETPOS in the week of a start in its midst. dateutil counts from the start; by the RFC it is "the nth occurrence within the set", that of
  "one interval of the recurrence rule", so of the whole week.
- BYWEEKNO=-52 and -53. dateutil leaves out the days before 1 January of a first week that is named from the end.
- BYWEEKNO=52 and 53. Days from 1 January on that lie in the last week of the year before have its number, by ISO 8601, as 3.3.10 asks: 1 January 2011
  is in week 52. dateutil counts that year's weeks by the length of the next one (`lnumweeks`), and has the day in week 53.

The instances of the RFC's examples in crates/rows_layers are walked again too, but where dates stand beside the rule.

A start that is no instance is none for both: dateutil does not give it either, and COUNT does not count it.
It needs crates/rows_layers/out/rows_layers, which `rt run` and `rt ci` leave there.
"""
import argparse
import calendar
import datetime
import itertools
import os
import random
import resource
import sys

from checks.shared.row_programs import NO_PROGRAM, PROGRAM, failed_rows, standing_rows
from debian import restart_without

DAILY, WEEKLY, MONTHLY, YEARLY = range(4)
FREQUENCIES = ("DAILY", "WEEKLY", "MONTHLY", "YEARLY")
WEEKDAYS = ("MO", "TU", "WE", "TH", "FR", "SA", "SU")
FIRST = 30
# The most processor seconds of all questions over the whole calendar: each takes less than a tenth of one.
MOST_SECONDS = 2

try:
    from dateutil import rrule
except ImportError:
    rrule = None

Date = datetime.date


class Rule:
    """A rule: lists of numbers by part, weekdays as pairs of a number or None and 0 for Monday to 6."""

    def __init__(self, frequency, **parts):
        self.frequency, self.interval, self.count, self.until, self.week_start = frequency, 1, None, None, 0
        self.months, self.month_days, self.weekdays, self.year_days, self.weeks, self.positions = [], [], [], [], [], []
        for name, it in parts.items():
            setattr(self, name, it)

    def text(self):
        """The rule's text."""
        parts = [
            ("FREQ", FREQUENCIES[self.frequency]), ("INTERVAL", self.interval), ("COUNT", self.count),
            ("UNTIL", self.until and self.until.strftime("%Y%m%d")), ("WKST", WEEKDAYS[self.week_start]), ("BYMONTH", listed(self.months)),
            ("BYWEEKNO", listed(self.weeks)), ("BYYEARDAY", listed(self.year_days)), ("BYMONTHDAY", listed(self.month_days)),
            ("BYDAY", listed(f"{number or ''}{WEEKDAYS[day]}" for number, day in self.weekdays)), ("BYSETPOS", listed(self.positions)),
        ]
        return ";".join(f"{name}={value}" for name, value in parts if value)

    def written(self):
        """The text that the library writes: parts in one order, none that says what its absence says, lists without one item twice and in order."""
        weekdays = sorted(set(self.weekdays), key=lambda it: (place_order(it[0] or 0)[0], it[0] is not None, it[1], abs(it[0] or 0)))
        parts = [
            ("FREQ", FREQUENCIES[self.frequency]), ("INTERVAL", self.interval > 1 and self.interval), ("COUNT", self.count),
            ("UNTIL", self.until and self.until.strftime("%Y%m%d")), ("BYMONTH", in_order(self.months)), ("BYMONTHDAY", in_order(self.month_days)),
            ("BYDAY", listed(f"{number or ''}{WEEKDAYS[day]}" for number, day in weekdays)), ("BYYEARDAY", in_order(self.year_days)),
            ("BYWEEKNO", in_order(self.weeks)), ("BYSETPOS", in_order(self.positions)), ("WKST", self.week_start and WEEKDAYS[self.week_start]),
        ]
        return ";".join(f"{name}={value}" for name, value in parts if value)

    def row(self, start, days, ended, dates=(), exceptions=()):
        """A row of rows_layers."""
        beside = [f"+{it.toordinal()}" for it in dates] + [f"-{it.toordinal()}" for it in exceptions]
        words = ["rule", self.text(), start.toordinal(), *beside, "=", *(it.toordinal() for it in days), *(["end"] if ended else [])]
        return " ".join(map(str, words))


def listed(values):
    return ",".join(map(str, values))


def place_order(number):
    """By this, numbers from the front come first, each kind from its end on."""
    return number < 0, abs(number)


def in_order(numbers):
    return listed(sorted(set(numbers), key=place_order))


# ---- the walk


def week_first(date, start):
    return date.toordinal() - (date.weekday() - start) % 7


def period(rule, date):
    """The number of a date's period."""
    if rule.frequency == DAILY:
        return date.toordinal()
    if rule.frequency == WEEKLY:
        return week_first(date, rule.week_start) // 7
    return date.year * 12 + date.month if rule.frequency == MONTHLY else date.year


def in_list(numbers, place, length):
    """Whether the place is listed, from the front or from the back."""
    return place in numbers or place - length - 1 in numbers


def weeks_of(year, start):
    """The first day of a year's first week, which has four days of it, and how many weeks it has."""
    firsts = []
    for it in (year, year + 1):
        fourth = Date(it, 1, 4)
        firsts.append(week_first(fourth, start))
    return firsts[0], (firsts[1] - firsts[0]) // 7


def in_week(rule, date):
    first = week_first(date, rule.week_start)
    year = Date.fromordinal(first + 3).year
    of_year, length = weeks_of(year, rule.week_start)
    return in_list(rule.weeks, (first - of_year) // 7 + 1, length)


def on_weekday(rule, date):
    year_length = 366 if calendar.isleap(date.year) else 365
    in_month = rule.frequency == MONTHLY or rule.months
    length = calendar.monthrange(date.year, date.month)[1] if in_month else year_length
    place = date.day if in_month else date.timetuple().tm_yday
    front, back = (place - 1) // 7 + 1, -((length - place) // 7 + 1)
    return any(day == date.weekday() and number in (None, front, back) for number, day in rule.weekdays)


def derived(rule, start, date):
    """What the start says where the rule does not."""
    names_days = rule.month_days or rule.weekdays or rule.year_days
    if rule.frequency == WEEKLY and not rule.weekdays or rule.frequency == YEARLY and rule.weeks and not names_days:
        return date.weekday() == start.weekday()
    if rule.frequency in (MONTHLY, YEARLY) and not names_days:
        month = rule.frequency == MONTHLY or rule.months or date.month == start.month
        return date.day == start.day and month
    return True


def passes(rule, start, date):
    length = calendar.monthrange(date.year, date.month)[1]
    year_length = 366 if calendar.isleap(date.year) else 365
    return (
        derived(rule, start, date)
        and (not rule.months or date.month in rule.months)
        and (not rule.month_days or in_list(rule.month_days, date.day, length))
        and (not rule.weekdays or on_weekday(rule, date))
        and (not rule.year_days or in_list(rule.year_days, date.timetuple().tm_yday, year_length))
        and (not rule.weeks or in_week(rule, date))
    )


def walked(rule, start, end):
    """The instances from the start to before a date, by a walk over all its days, a period at a time, the last one whole."""
    day = Date.fromordinal(week_first(start, rule.week_start)) if rule.frequency == WEEKLY else start.replace(month=1, day=1)
    days = (Date.fromordinal(it) for it in range(day.toordinal(), end.toordinal() + 366))
    found = []
    for number, dates in itertools.groupby(days, lambda it: period(rule, it)):
        if (number - period(rule, start)) % rule.interval:
            continue
        passing = [it for it in dates if passes(rule, start, it)]
        chosen = [it for place, it in enumerate(passing, 1) if not rule.positions or in_list(rule.positions, place, len(passing))]
        found += [it for it in chosen if start <= it < end and (rule.until is None or it <= rule.until)]
    return found[: rule.count]


# ---- the RFC's examples


def numbers(text):
    return [int(it) for it in text.split(",")]


def date_of(text):
    return datetime.datetime.strptime(text, "%Y%m%d").date()


def place_of(text):
    """The number of a weekday, if it has one, and the weekday."""
    return int(text[:-2]) if text[:-2] else None, WEEKDAYS.index(text[-2:])


# How the value of each part but FREQ is read, and where a rule has it.
PARTS = {
    "INTERVAL": ("interval", int), "COUNT": ("count", int), "UNTIL": ("until", date_of), "WKST": ("week_start", WEEKDAYS.index),
    "BYMONTH": ("months", numbers), "BYWEEKNO": ("weeks", numbers), "BYYEARDAY": ("year_days", numbers), "BYMONTHDAY": ("month_days", numbers),
    "BYDAY": ("weekdays", lambda text: [place_of(it) for it in text.split(",")]), "BYSETPOS": ("positions", numbers),
}


def rule_of(text):
    """The rule of a text."""
    values = dict(it.split("=") for it in text.split(";"))
    parts = {PARTS[name][0]: PARTS[name][1](value) for name, value in values.items() if name != "FREQ"}
    return Rule(FREQUENCIES.index(values["FREQ"]), **parts)


def examples():
    """How many of the RFC's examples have the instances of a walk, and how many have not."""
    rows = [words for words in map(str.split, standing_rows("rules")) if words[0].startswith("3.8.5.3/") and words[3] == "="]
    otherwise = []
    for name, text, start, _, *days in rows:
        start, rule, ended = Date.fromordinal(int(start)), rule_of(text), days[-1] == "end"
        days = [int(it) for it in days if it != "end"]
        # (an ended one has no instance in the years behind its last either)
        end = Date.fromordinal(days[-1] + (3_000 if ended else 1))
        if [it.toordinal() for it in walked(rule, start, end)] != days:
            otherwise.append(name)
    print(f"examples of 3.8.5.3, day by day: {len(rows) - len(otherwise)} of {len(rows)}", *otherwise)
    return len(rows) - len(otherwise), len(otherwise) if rows else 1


def searches():
    """How many questions from an end of the calendar are answered as the rows say, and all of them in little time."""
    rows = [it for it in standing_rows("rules") if it.startswith(("after ", "before ")) and " -95746129 " in it]
    before = resource.getrusage(resource.RUSAGE_CHILDREN)
    passed, failed = asked("over the whole calendar", rows)
    after = resource.getrusage(resource.RUSAGE_CHILDREN)
    seconds = after.ru_utime + after.ru_stime - before.ru_utime - before.ru_stime
    print(f"these take {seconds:.2f} processor seconds, of at most {MOST_SECONDS}")
    return passed, failed + (not rows or seconds > MOST_SECONDS)


# ---- rules


def of_walk():
    """Rules of 400 years, and those that dateutil reads otherwise."""
    friday, monday, sunday = 4, 0, 6
    yield Rule(MONTHLY, weekdays=[(-1, friday)]), Date(2000, 1, 1)
    yield Rule(MONTHLY, weekdays=[(5, friday)]), Date(2000, 1, 1)
    yield Rule(YEARLY, months=[2], month_days=[29]), Date(2000, 1, 1)
    yield Rule(YEARLY, months=[2], month_days=[-1]), Date(2000, 1, 1)
    yield Rule(YEARLY), Date(2000, 2, 29)
    yield Rule(MONTHLY, month_days=[31]), Date(2000, 1, 31)
    yield Rule(MONTHLY), Date(2000, 1, 30)
    yield Rule(MONTHLY, weekdays=[(None, it) for it in range(5)], positions=[-1]), Date(2000, 1, 1)
    yield Rule(YEARLY, weekdays=[(53, monday)]), Date(2000, 1, 1)
    yield Rule(YEARLY, weeks=[53], weekdays=[(None, monday)]), Date(2000, 1, 1)
    yield Rule(YEARLY, weeks=[1], weekdays=[(None, monday)]), Date(2000, 1, 1)
    yield Rule(YEARLY, weeks=[1, -1], week_start=sunday), Date(2000, 1, 5)
    yield Rule(YEARLY, weeks=[-52, -53], weekdays=[(None, monday)]), Date(2000, 1, 1)
    yield Rule(MONTHLY, weekdays=[(None, monday), (1, friday)]), Date(2000, 1, 1)
    yield Rule(WEEKLY, interval=26, weekdays=[(None, it) for it in (1, 3, 5)], positions=[2]), Date(2000, 1, 6)
    yield Rule(WEEKLY, interval=2, weekdays=[(None, 1), (None, sunday)], week_start=sunday, count=300), Date(1997, 8, 5)
    yield Rule(DAILY, interval=97), Date(2000, 1, 1)
    yield Rule(DAILY, months=[2], month_days=[29]), Date(2000, 1, 1)


def some(chance, least, most, count):
    return sorted(chance.sample(range(least, most + 1), chance.randint(1, count)))


def signed(chance, most, count):
    return sorted({it * chance.choice((1, 1, -1)) for it in some(chance, 1, most, count)})


def given_days(chance, rule, alone):
    """Parts that name days, of those that the frequency allows; with those too that dateutil reads otherwise, where the walk answers alone."""
    kind = chance.choice(("weekdays", "numbered", "month_days", "both", "year_days", "weeks", "none"))
    if kind in ("weekdays", "both") or kind == "numbered" and rule.frequency in (DAILY, WEEKLY):
        rule.weekdays = [(None, it) for it in some(chance, 0, 6, 4)]
    elif kind == "numbered":
        most = 5 if rule.frequency == MONTHLY or rule.months else 53
        day = chance.randint(0, 6)
        rule.weekdays = [(it, day) for it in signed(chance, most, 3)]
    if kind in ("month_days", "both") and rule.frequency != WEEKLY:
        rule.month_days = signed(chance, 31, 6)
    if kind == "year_days" and rule.frequency == YEARLY:
        rule.year_days = sorted({*signed(chance, 366, 4), *chance.choice(((), (366,), (-366,), (1, -1), (59, 60, 61)))})
    if kind == "weeks" and rule.frequency == YEARLY:
        rule.weeks = sorted({it * chance.choice((1, -1)) for it in some(chance, 1, 51, 4)})
        if alone:
            rule.weeks = sorted({*rule.weeks[: chance.randint(0, 2)], *chance.sample((52, 53, -52, -53), 2)})
        elif chance.random() < 0.2:
            rule.weeks = sorted({*rule.weeks, -1})
        rule.weekdays = [(None, it) for it in some(chance, 0, 6, 3)]


def given_positions(chance, rule):
    """Positions, among the days that the other parts pass; of a day alone its first or its last at least, so that some come."""
    rule.positions = signed(chance, 4, 2)
    if rule.frequency == DAILY:
        rule.positions = sorted({*rule.positions, chance.choice((1, -1))})


def at_random(chance, alone=False):
    """A rule and a start."""
    start = Date.fromordinal(chance.randrange(Date(1990, 1, 1).toordinal(), Date(2040, 1, 1).toordinal()))
    start = chance.choice((start, Date(start.year, 12, 31), Date(2024, 2, 29), Date(start.year, 1, 30)))
    rule = Rule(chance.randint(DAILY, YEARLY), interval=chance.choice((1, 1, 1, 2, 3, 5, 6, 11, 20, 45)), week_start=chance.choice((0, 0, 6, 3)))
    if chance.random() < 0.3:
        rule.months = some(chance, 1, 12, 4)
    given_days(chance, rule, alone)
    if (rule.months or rule.weekdays or rule.month_days or rule.year_days) and chance.random() < 0.3:
        given_positions(chance, rule)
        if rule.frequency == WEEKLY:
            start = Date.fromordinal(week_first(start, rule.week_start))
    rule.until = start + datetime.timedelta(chance.choice((400, 4000, 15000)))
    return rule, start


def at_midnight(date):
    return datetime.datetime(date.year, date.month, date.day)


def made_by_dateutil(rule, start):
    """The rule up to its UNTIL, as dateutil has it."""
    weekdays = [rrule.weekday(day, number) for number, day in rule.weekdays]
    return rrule.rrule(
        3 - rule.frequency, at_midnight(start), rule.interval, rule.week_start, None, at_midnight(rule.until), rule.positions or None, rule.months or None,
        rule.month_days or None, rule.year_days or None, None, rule.weeks or None, weekdays or None,
    )


def of_dateutil(rule, start):
    """Its instances."""
    return [it.date() for it in made_by_dateutil(rule, start)]


def with_dates(chance, rule, start):
    """A row of the rule with dates beside its instances and exceptions from both, by dateutil."""
    days = of_dateutil(rule, start)[:FIRST]
    near = [start + datetime.timedelta(chance.randint(-40, 400)) for _ in range(chance.randint(0, 5))]
    dates = sorted({*near, *chance.sample(days, min(len(days), 2))})
    some_days = [*days[:10], *dates]
    exceptions = sorted({*chance.sample(some_days, min(len(some_days), chance.randint(0, 4))), start + datetime.timedelta(chance.randint(-40, 400))})
    made = rrule.rruleset()
    made.rrule(made_by_dateutil(rule, start))
    for it in dates:
        made.rdate(at_midnight(it))
    for it in exceptions:
        made.exdate(at_midnight(it))
    given = [it.date() for it in itertools.islice(made, FIRST + 1)]
    return rule.row(start, given[:FIRST], len(given) <= FIRST, dates, exceptions)


def cut(chance, rule, start, days):
    """A row of the first of them, some with COUNT in place of UNTIL."""
    if days and chance.random() < 0.4:
        rule.count, rule.until = chance.randint(1, min(len(days), FIRST)), None
        return rule.row(start, days[: rule.count], True)
    return rule.row(start, days[:FIRST], len(days) <= FIRST)


def texts(rule):
    """Rows of the rule's text and of the one that is written for it, which has to be read back and written again."""
    return [f"text {rule.text()} = {rule.written()}", f"text {rule.written()} = {rule.written()}"]


def asked(name, rows):
    """How many rows hold and how many do not; the first that do not are printed."""
    failed = failed_rows("rules", rows)
    print(f"{name}: {len(rows) - failed} of {len(rows)}")
    return len(rows) - failed, failed


def main():
    wanted = argparse.ArgumentParser()
    wanted.add_argument("--seed", type=int, default=1)
    wanted.add_argument("--rules", type=int, default=600)
    wanted.add_argument("--walks", type=int, default=0)
    options = wanted.parse_args()
    if not os.path.exists(PROGRAM):
        print(f"not run: everything, since {NO_PROGRAM}")
        return 0
    restart_without(rrule)
    chance = random.Random(options.seed)
    rows = []
    walks = random.Random(options.seed)
    for rule, start in [*of_walk(), *(at_random(walks, alone=True) for _ in range(options.walks))]:
        end = start.replace(year=start.year + 400, day=1)
        rule.until = None if rule.count else end - datetime.timedelta(1)
        rows.append(rule.row(start, walked(rule, start, end), True))
    results = [examples(), searches(), asked("400 years, day by day", rows)]
    near = []
    for _ in range(options.rules // 10):
        rule, start = at_random(chance, alone=True)
        rule.until = min(rule.until, start + datetime.timedelta(4000))
        near.append(cut(chance, rule, start, walked(rule, start, rule.until + datetime.timedelta(40))))
    results.append(asked("random rules, day by day", near))
    made = (at_random(chance, alone=True)[0] for _ in range(20 * options.rules))
    results.append(asked("texts that are written, and read back", [row for rule in made for row in texts(rule)]))
    if rrule:
        made = [at_random(chance) for _ in range(options.rules)]
        results.append(asked("random rules beside dateutil", [cut(chance, rule, start, of_dateutil(rule, start)) for rule, start in made]))
        made = [at_random(chance) for _ in range(options.rules // 3)]
        results.append(asked("with dates and exceptions", [with_dates(chance, rule, start) for rule, start in made]))
    else:
        print("not run: dateutil's rules, since it is not installed")
    print(f"{sum(it[0] for it in results)} passed, {sum(it[1] for it in results)} failed")
    return 1 if any(it[1] for it in results) else 0


if __name__ == "__main__":
    sys.exit(main())
