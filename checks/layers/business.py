#!/usr/bin/env python3
"""Holds the calls of chrono_business to a walk day by day, and to numpy where it is installed.

    python3 -m checks.layers.business [--seed N]      (seed 1, if left out)
    python3 -m checks.layers.business --write         writes its rows in crates/rows_layers/stdin

The program crates/rows_layers answers rows; here they are made. Calendars: closed on Saturday and Sunday alone, with the
federal holidays of the United States from 2020 to 2030 (5 U.S.C. 6103, each found by walking its month), on Friday and Saturday, on
random weekdays with random holidays, never closed and never open. The walk goes over 400 years of each of two calendars, and asks of
each day whether it is open and how many open days lie before it; all other calls are asked at random dates. `add_open_days` is
held to single steps. numpy answers 100,000 queries of `busday_offset`, with each of its rolls, and of `busday_count`. Day counts are held to the texts of ISDA 2006,
4.16(b), (e), (f) and (g), in calendar fields of `datetime`, the days of leap years one by one. Lists of holidays that are none are refused
with what is wrong first. Easter is held to the method of Meeus, Jones and Butcher over 200,000 years, and from 326 to 4099 to dateutil
where it is installed; each holiday of the given calendars up to 2049, and of Japan's up to 2101, to a reading of its own here, with the equinoxes by
Meeus's tables. So are the holidays of random rules in random years, listed with room for them or too little, lists without weekends, and two random
calendars joined.

It needs crates/rows_layers/out/rows_layers, which `rt run` and `rt ci` leave there.
"""
import argparse
import bisect
import calendar as months
import datetime
import os
import random
import sys

from checks.layers.equinoxes import equinox_of_japan
from checks.shared.row_programs import NO_PROGRAM, PROGRAM, failed_rows, write_rows
from debian import restart_without

try:
    import numpy
except ImportError:
    numpy = None

try:
    from dateutil.easter import easter as dateutil_easter
except ImportError:
    dateutil_easter = None

Date = datetime.date


# ---- calendars


def weekdays_of_month(year, month, weekday):
    """The dates of a month with that weekday, 0 for Monday."""
    days = months.monthrange(year, month)[1]
    return [it for it in (Date(year, month, day) for day in range(1, days + 1)) if it.weekday() == weekday]


def observed(date):
    """A federal holiday on Saturday is kept on Friday, one on Sunday on Monday."""
    return date + datetime.timedelta({5: -1, 6: 1}.get(date.weekday(), 0))


def federal(year):
    """The federal holidays of a year."""
    fixed = [observed(Date(year, *it)) for it in ((1, 1), (6, 19), (7, 4), (11, 11), (12, 25))]
    counted = [
        weekdays_of_month(year, 1, 0)[2],
        weekdays_of_month(year, 2, 0)[2],
        weekdays_of_month(year, 5, 0)[-1],
        weekdays_of_month(year, 9, 0)[0],
        weekdays_of_month(year, 10, 0)[1],
        weekdays_of_month(year, 11, 3)[3],
    ]
    return fixed + counted


class Calendar:
    """Which days are open, from one day number to before another, by a walk."""

    def __init__(self, week, holidays, first, last):
        self.week = week
        closed = set(holidays)
        self.holidays = sorted(it for it in closed if week[(it - 1) % 7] == "1")
        closed = set(self.holidays)
        self.first, self.last = first, last
        self.open = [it for it in range(first, last) if week[(it - 1) % 7] == "1" and it not in closed]
        self.is_open = set(self.open)

    def row(self):
        return " ".join(["calendar", self.week, *map(str, self.holidays)])

    def before(self, day):
        """How many open days of the walk come before a day."""
        return bisect.bisect_left(self.open, day)

    def of_month(self, day):
        """The open days of the month of a day."""
        date = Date.fromordinal(day)
        return [it for it in range(day - date.day + 1, day - date.day + 1 + months.monthrange(date.year, date.month)[1]) if it in self.is_open]

    def at(self, place):
        """The open day of the walk that has so many before it."""
        return self.open[place] if 0 <= place < len(self.open) else None

    def next(self, day):
        return self.at(self.before(day))

    def last_up_to(self, day):
        return self.at(self.before(day + 1) - 1)

    def stepped(self, day, n):
        """Where n steps lead, each to the next open day after the last, or back to the one before it; no step to the next from the day on."""
        if n == 0:
            return self.next(day)
        step, left = (1 if n > 0 else -1), abs(n)
        while left > 0:
            day += step
            if not self.first <= day < self.last:
                return None
            left -= day in self.is_open
        return day


def in_month(day, of):
    return day is not None and Date.fromordinal(day).replace(day=1) == Date.fromordinal(of).replace(day=1)


def rolled(calendar, name, day):
    after, before = calendar.next(day), calendar.last_up_to(day)
    if name == "unadjusted":
        return day
    if name == "following":
        return after
    if name == "preceding":
        return before
    if name == "modified_following":
        return after if in_month(after, day) else before
    if name == "modified_preceding":
        return before if in_month(before, day) else after
    if name == "nearest_isda":
        return after if day % 7 in (0, 1) else before
    if after is None or before is None:
        return before if after is None else after
    return after if after - day <= day - before else before


ROLLS = ("unadjusted", "following", "preceding", "modified_following", "modified_preceding", "nearest_isda", "nearest_quantlib")


# ---- rows


def shown(number):
    return "none" if number is None else str(number)


def in_row(calendar, name, day, last=None):
    """A row with the answer that the walk gives."""
    if name == "add":
        answer = calendar.stepped(day, last)
    elif name == "add_from_next":
        answer = calendar.at(calendar.before(day) + last)
    elif name == "add_from_previous":
        answer = calendar.at(calendar.before(day + 1) - 1 + last)
    elif name == "count":
        answer = calendar.before(last) - calendar.before(day)
    elif name == "both":
        low, high = min(day, last), max(day, last)
        answer = (calendar.before(high + 1) - calendar.before(low)) * (-1 if last < day else 1)
    elif name == "is_open":
        answer = int(day in calendar.is_open)
    elif name in ("next", "last"):
        answer = rolled(calendar, {"next": "following", "last": "preceding"}[name], day)
    elif name in ("first_of_month", "last_of_month"):
        date = Date.fromordinal(day)
        first = date.replace(day=1).toordinal()
        end = first + months.monthrange(date.year, date.month)[1] - 1
        answer = calendar.next(first) if name == "first_of_month" else calendar.last_up_to(end)
        answer = answer if in_month(answer, day) else None
    elif name in ("nth_of_month", "nth_last_of_month"):
        found = calendar.of_month(day)[:: 1 if name == "nth_of_month" else -1]
        answer = found[last] if last < len(found) else None
    elif name in ("each", "each_back"):
        found = calendar.open[calendar.before(day) : max(calendar.before(last), calendar.before(day))]
        answer = sum(place * it for place, it in enumerate(found if name == "each" else reversed(found), 1))
    else:
        answer = rolled(calendar, name, day)
    return f"{name} {day}{'' if last is None else f' {last}'} = {shown(answer)}"


def day_counts(chance, count):
    """Rows of the numerators of day counts."""
    ends = [Date(2024, 2, 29), Date(2023, 2, 28), Date(2024, 1, 31), Date(2024, 1, 30), Date(2024, 3, 31), Date(2024, 12, 31)]
    for _ in range(count):
        start, end = (
            chance.choice(ends) if chance.random() < 0.5 else Date.fromordinal(chance.randrange(700_000, 770_000)) for _ in range(2)
        )
        months_apart = 360 * (end.year - start.year) + 30 * (end.month - start.month)
        first, last = min(start.day, 30), min(end.day, 30)
        bond = last if start.day > 29 else end.day
        pair = f"{start.toordinal()} {end.toordinal()}"
        apart = [Date.fromordinal(it).year for it in range(min(start, end).toordinal(), max(start, end).toordinal())]
        leap = sum(months.isleap(it) for it in apart)
        yield f"actual_actual {pair} = {(365 * leap + 366 * (len(apart) - leap)) * (-1 if end < start else 1)}"
        yield f"actual_360 {pair} = {end.toordinal() - start.toordinal()}"
        yield f"thirty_360 {pair} = {months_apart + bond - first}"
        yield f"thirty_e_360 {pair} = {months_apart + last - first}"


def refused(chance, count):
    """Rows of lists of holidays, each with what is wrong at the first place where something is."""
    for _ in range(count):
        week = "".join(chance.choice("0111") for _ in range(7))
        days = sorted(chance.randrange(738_000, 738_200) for _ in range(chance.randrange(2, 12)))
        if chance.random() < 0.5:
            days = [it for it in days if week[(it - 1) % 7] == "1"]
            chance.shuffle(days)
        for place, it in enumerate(days):
            wrong = "on_weekend" if week[(it - 1) % 7] == "0" else "not_rising" if place > 0 and it <= days[place - 1] else None
            if wrong:
                yield " ".join(["calendar", week, *map(str, days)])
                yield f"refused {wrong} {place}"
                break


def calendars(chance):
    """The calendars, each walked over the 400 years from 1900 on."""
    first, last = Date(1900, 1, 1).toordinal(), Date(2300, 1, 1).toordinal()
    us = [it.toordinal() for year in range(2020, 2031) for it in federal(year)]
    yield Calendar("1111100", us, first, last)
    yield Calendar("1111100", [], first, last)
    yield Calendar("1111001", [Date(2024, 4, day).toordinal() for day in (9, 10)], first, last)
    yield Calendar("1111111", us, first, last)
    yield Calendar("0000000", [], first, last)
    for _ in range(6):
        week = "".join(chance.choice("011") for _ in range(7))
        days = [chance.randrange(730_000, 731_000) for _ in range(chance.randrange(400))]
        yield Calendar(week, days, first, last)


def questions(chance, calendar, count):
    """Rows of calls at random days, far enough from the ends of the walk."""
    for _ in range(count):
        day = chance.randrange(729_900, 731_200) if chance.random() < 0.5 else chance.randrange(720_000, 800_000)
        day = chance.choice((day, chance.randrange(738_000, 741_000)))
        yield in_row(calendar, "is_open", day)
        for name in ("next", "last", "first_of_month", "last_of_month") + ROLLS:
            yield in_row(calendar, name, day)
        steps = chance.choice((0, 1, -1, chance.randrange(-20, 20), chance.randrange(-3000, 3000)))
        for name in ("add", "add_from_next", "add_from_previous"):
            yield in_row(calendar, name, day, steps)
        other = chance.randrange(725_000, 745_000)
        yield in_row(calendar, "count", day, other)
        yield in_row(calendar, "both", day, other)
        yield in_row(calendar, "nth_of_month", day, chance.randrange(25))
        yield in_row(calendar, "nth_last_of_month", day, chance.randrange(25))
        near = day + chance.randrange(-5, 60)
        yield in_row(calendar, "each", day, near)
        yield in_row(calendar, "each_back", day, near)


def walked(calendar):
    """Rows of each day of the walk."""
    for day in range(calendar.first, calendar.last):
        yield in_row(calendar, "is_open", day)
        yield in_row(calendar, "count", calendar.first, day)


def by_numpy(chance, calendar, count):
    """Rows whose answers numpy gives."""
    epoch = Date(1970, 1, 1).toordinal()
    business = numpy.busdaycalendar(calendar.week, numpy.array([it - epoch for it in calendar.holidays], "datetime64[D]"))
    days = numpy.array([chance.randrange(738_000, 741_000) for _ in range(count)])
    dates = (days - epoch).astype("datetime64[D]")
    steps = numpy.array([chance.randrange(-600, 600) for _ in range(count)])
    for name, roll in (("add_from_next", "forward"), ("add_from_previous", "backward")):
        answers = numpy.busday_offset(dates, steps, roll, busdaycal=business).astype("datetime64[D]").astype(int) + epoch
        for day, step, answer in zip(days, steps, answers):
            yield f"{name} {day} {step} = {answer}"
    names = {"following": "following", "preceding": "preceding", "modified_following": "modifiedfollowing",
             "modified_preceding": "modifiedpreceding"}
    for name, roll in names.items():
        answers = numpy.busday_offset(dates, 0, roll, busdaycal=business).astype("datetime64[D]").astype(int) + epoch
        for day, answer in zip(days, answers):
            yield f"{name} {day} = {answer}"
    others = numpy.array([chance.randrange(738_000, 741_000) for _ in range(count)])
    low, high = numpy.minimum(days, others), numpy.maximum(days, others)
    counts = numpy.busday_count((low - epoch).astype("datetime64[D]"), (high - epoch).astype("datetime64[D]"), busdaycal=business)
    for first, last, answer in zip(low, high, counts):
        yield f"count {first} {last} = {answer}"
        yield f"count {last} {first} = {-answer}"


# ---- holidays by rules


def easter(year):
    """Easter by the method of Meeus, Jones and Butcher, as the day number."""
    a, b, c = year % 19, year // 100, year % 100
    h = (19 * a + b - b // 4 - (b - (b + 8) // 25 + 1) // 3 + 15) % 30
    k = (32 + 2 * (b % 4) + 2 * (c // 4) - h - c % 4) % 7
    n = h + k - 7 * ((a + 11 * h + 22 * k) // 451) + 114
    leaps = (year - 1) // 4 - (year - 1) // 100 + (year - 1) // 400
    before = 365 * (year - 1) + leaps + (59 + months.isleap(year)) + (31 if n // 31 == 4 else 0)
    return before + n % 31 + 1


def moved(date, saturday, sunday):
    return date + datetime.timedelta({5: saturday, 6: sunday}.get(date.weekday(), 0))


def federal_from_1971(year):
    found = [it for it in federal(year) if year >= 2021 or it != observed(Date(year, 6, 19))]
    if year < 1986:
        found.remove(weekdays_of_month(year, 1, 0)[2])
    if year < 1978:
        found.remove(observed(Date(year, 11, 11)))
        found.append(weekdays_of_month(year, 10, 0)[3])
    return found


def target(year):
    sunday, found = Date.fromordinal(easter(year)), [Date(year, 1, 1), Date(year, 12, 25)]
    if year >= 2000:
        day = datetime.timedelta(1)
        found += [sunday - 2 * day, sunday + day, Date(year, 5, 1), Date(year, 12, 26)]
    return found + [Date(year, 12, 31)] * (year in (1999, 2001))


ENGLISH_DAYS = {1981: [(7, 29)], 1999: [(12, 31)], 2002: [(6, 3), (6, 4)], 2011: [(4, 29)], 2012: [(6, 4), (6, 5)],
                2022: [(6, 2), (6, 3), (9, 19)], 2023: [(5, 8)]}


def england(year):
    sunday, day = Date.fromordinal(easter(year)), datetime.timedelta(1)
    found = [moved(Date(year, 1, 1), 2, 1), sunday - 2 * day, sunday + day, weekdays_of_month(year, 8, 0)[-1]]
    found += [moved(Date(year, 12, it), 2, 2) for it in (25, 26)]
    found.append(Date(year, 5, 8) if year in (1995, 2020) else weekdays_of_month(year, 5, 0)[0])
    if year not in (2002, 2012, 2022):
        found.append(weekdays_of_month(year, 5, 0)[-1])
    return found + [Date(year, *it) for it in ENGLISH_DAYS.get(year, [])]


def fedwire(year):
    """The federal holidays by their dates; one on a Sunday is kept on Monday, and one on a Saturday is not moved."""
    dates = [(1, 1), (7, 4), (12, 25)] + [(6, 19)] * (year >= 2022) + [(11, 11)] * (year >= 1978)
    counted = [(2, 0, 2), (5, 0, -1), (9, 0, 0), (10, 0, 1), (11, 3, 3)] + [(1, 0, 2)] * (year >= 1986) + [(10, 0, 3)] * (year < 1978)
    return [moved(Date(year, *it), 0, 1) for it in dates] + [weekdays_of_month(year, month, day)[place] for month, day, place in counted]


CLOSINGS_OF_NYSE = {2001: [(9, 11), (9, 12), (9, 13), (9, 14)], 2004: [(6, 11)], 2007: [(1, 2)], 2012: [(10, 29), (10, 30)],
                    2018: [(12, 5)], 2025: [(1, 9)]}


def nyse(year):
    """The holidays of NYSE Rule 7.2 and the days that the Exchange was closed."""
    found = [moved(Date(year, 1, 1), 0, 1), Date.fromordinal(easter(year) - 2)]
    found += [observed(Date(year, *it)) for it in [(7, 4), (12, 25)] + [(6, 19)] * (year >= 2022)]
    found += [weekdays_of_month(year, *it)[place] for it, place in (((1, 0), 2), ((2, 0), 2), ((5, 0), -1), ((9, 0), 0), ((11, 3), 3))]
    return found + [Date(year, *it) for it in CLOSINGS_OF_NYSE.get(year, [])]


def by_dates(year, dates, feasts):
    """Holidays on dates that never move, and on days after Easter."""
    return [Date(year, *it) for it in dates] + [Date.fromordinal(easter(year) + it) for it in feasts]


def germany(year):
    dates = [(1, 1), (5, 1), (10, 3), (12, 25), (12, 26)] + [(10, 31)] * (year == 2017)
    return by_dates(year, dates, (-2, 1, 39, 50))


def france(year):
    return by_dates(year, [(1, 1), (5, 1), (5, 8), (7, 14), (8, 15), (11, 1), (11, 11), (12, 25)], (1, 39, 50))


# The equinoxes of the years for which the formula of Japan's Hydrographic Department is made.
EQUINOXES_OF_JAPAN = {(year, month): equinox_of_japan(year, month) for year in range(1980, 2100) for month in (3, 9)}

# The holidays that were moved for the Olympic Games, and those of the year of the accession.
JAPANESE_DAYS = {2019: [(5, 1), (10, 22)], 2020: [(7, 23), (7, 24), (8, 10)], 2021: [(7, 22), (7, 23), (8, 8)]}


def named_in_japan(year):
    """The national holidays of Japan by article 2 of their act and by the acts for single years."""
    dates = [(1, 1), (2, 11), (4, 29), (5, 3), (5, 4), (5, 5), (11, 3), (11, 23), *JAPANESE_DAYS.get(year, ())]
    dates += [(12, 23)] * (year < 2019) + [(2, 23)] * (year > 2019) + [(8, 11)] * (year >= 2016 and year not in (2020, 2021))
    counted = [(1, 1), (9, 2)] + [(7, 2), (10, 1)] * (year not in (2020, 2021))
    found = {Date(year, *it) for it in dates} | {weekdays_of_month(year, month, 0)[place] for month, place in counted}
    return found | {EQUINOXES_OF_JAPAN[year, month] for month in (3, 9) if (year, month) in EQUINOXES_OF_JAPAN}


def kept_in_japan(date, named):
    """A holiday on a Sunday is kept on the next day that is none (article 3(2))."""
    if date.weekday() == 6:
        while date in named:
            date += datetime.timedelta(1)
    return date


def japan(year):
    """The national holidays as they are kept, the days between two of them (article 3(3)), and the days on which banks are closed besides."""
    named, day = named_in_japan(year), datetime.timedelta(1)
    between = {it + day for it in named if it + 2 * day in named} - named
    return [*(kept_in_japan(it, named) for it in sorted(named)), *sorted(between), Date(year, 1, 2), Date(year, 1, 3), Date(year, 12, 31)]


# The given calendars by their names, each with its holidays of a year and its first year.
GIVEN = {"us_federal": (federal_from_1971, 1971), "target": (target, 1999), "england": (england, 1978), "fedwire": (fedwire, 1971),
         "nyse": (nyse, 1998), "germany": (germany, 1995), "france": (france, 1982), "japan": (japan, 2007)}


def by_rules():
    """Rows of each holiday of the given calendars, with how many rules name it, and of how many rules name a day of a year."""
    for name, (of, first) in GIVEN.items():
        yield from (f"{name}_days 1 {year} = 0" for year in (-262143, 1, first - 2, first - 1))
        for year in range(first, 2102 if name == "japan" else 2050):
            for it in of(year):
                yield f"{name} {it.toordinal()} {year} = {of(year).count(it)}"
            yield f"{name}_days 1 {year} = {len(of(year))}"


def easters(first, last):
    for year in range(first, last):
        yield f"easter 1 {year} = {easter(year)}"


def by_dateutil():
    for year in range(326, 4100):
        yield f"easter 1 {year} = {dateutil_easter(year).toordinal()}"


# ---- lists of holidays

MOVES = {"stays": (0, 0), "sunday_to_monday": (0, 1), "to_monday": (2, 1), "to_nearer": (-1, 1), "two_days_on": (2, 2), "sunday_plus_3": (0, 3)}

# The month of an equinox by its word.
EQUINOXES = {"vernal_equinox": 3, "autumnal_equinox": 9}


def random_rule(chance):
    """A rule as the words of a row: its kind, three numbers, where it goes from a weekend, and its years."""
    kind = chance.choice(("fixed", "fixed", "nth", "last", "easter", "vernal_equinox", "autumnal_equinox"))
    first = chance.randrange(-60, 60) if kind == "easter" else chance.randrange(0, 7)
    second = chance.choice((chance.randrange(1, 32), 29, 31, 1)) if kind == "fixed" else chance.randrange(7)
    years = sorted(chance.randrange(1990, 2040) for _ in range(2))
    return kind, first, second, chance.randrange(12), chance.choice(list(MOVES)), *years


def named(rule, year):
    """The date that a rule names in a year, or None."""
    kind, first, second, month = rule[:4]
    if kind == "easter":
        return Date.fromordinal(easter(year) + first)
    if kind in EQUINOXES:
        return EQUINOXES_OF_JAPAN.get((year, EQUINOXES[kind]))
    if kind == "fixed":
        return Date(year, month + 1, second) if 1 <= second <= months.monthrange(year, month + 1)[1] else None
    days = weekdays_of_month(year, month + 1, second)
    place = len(days) if kind == "last" else first
    return days[place - 1] if 1 <= place <= len(days) else None


def holidays_of(rules, first, last, week):
    """The workdays on which the rules fall in the years, in order."""
    found = set()
    for rule in rules:
        for year in range(max(first, rule[5]), min(last, rule[6]) + 1):
            date = named(rule, year)
            if date is not None:
                found.add(moved(date, *MOVES[rule[4]]).toordinal())
    return sorted(it for it in found if week[(it - 1) % 7] == "1")


def weighed(days):
    return sum(place * it for place, it in enumerate(days, 1))


def with_room(chance, days, answer):
    """A room for the days, or one that is too small, and what is answered then."""
    if days and chance.random() < 0.3:
        return chance.choice((len(days) - 1, chance.randrange(len(days)))), "none"
    return chance.choice((len(days), len(days) + chance.randrange(20))), answer


def lists(chance, count):
    """Rows of holidays by random rules, of lists without weekends, and of two calendars joined."""
    for _ in range(count):
        week, other = ("".join(chance.choice("0111") for _ in range(7)) for _ in range(2))
        rules = [random_rule(chance) for _ in range(chance.randrange(12))]
        yield f"calendar {week}"
        yield "rules"
        for rule in rules:
            yield "rule " + " ".join(map(str, rule))
        for _ in range(4):
            first = chance.randrange(1985, 2045)
            last = first + chance.randrange(-2, 30)
            days = holidays_of(rules, first, last, week)
            room, answer = with_room(chance, days, weighed(days))
            yield f"listed {first} {last} {room} = {answer}"
        days = sorted({chance.randrange(738_000, 738_400) for _ in range(chance.randrange(90))})
        if chance.random() < 0.3:
            chance.shuffle(days)
        yield " ".join(["calendar", week, *map(str, days)])
        yield f"left = {weighed([it for it in days if week[(it - 1) % 7] == '1'])}"
        low, high = 737_900, 738_500
        first, second = (Calendar(it, [chance.randrange(738_000, 738_400) for _ in range(chance.randrange(90))], low, high) for it in (week, other))
        both = sorted(it for it in {*first.holidays, *second.holidays} if week[(it - 1) % 7] == other[(it - 1) % 7] == "1")
        yield first.row()
        yield second.row().replace("calendar", "other", 1)
        for _ in range(4):
            start, end = chance.randrange(low, high), chance.randrange(low, high)
            opened = [it for it in first.open if it in second.is_open]
            number = bisect.bisect_left(opened, end) - bisect.bisect_left(opened, start)
            room, answer = with_room(chance, both, number)
            yield f"joined {start} {end} {room} = {answer}"


# Rows of a page, not of this walk: federal holidays of 2024 and 2025, and the ends of the calendar.
KNOWN = """count 738886 739252 = 251
add 739244 1 = 739246
add 738975 0 = 738977
add 738947 1 = 738949
add 738947 -1 = 738946
add_from_next 738947 1 = 738950
add_from_next 738947 -1 = 738946
add_from_previous 738947 1 = 738949
add_from_previous 738947 -1 = 738945
nearest_isda 738976 = 738977
nearest_isda 738886 = 738887
nearest_isda 739071 = 739070
nearest_quantlib 739071 = 739072
add 738886 251 = 739251
add 738887 250 = 739251
add_from_next 738886 251 = 739253
following 738975 = 738977
modified_following 738975 = 738974
add 95745399 0 = 95745399
add 95745399 1 = none
add_from_next 95745399 1 = none
add_from_previous 95745399 1 = none
add_from_previous 95745399 -1 = 95745396
add -95746129 -1 = none
add_from_next -95746129 -1 = none
add_from_previous 738886 9223372036854775807 = none
add_from_next 738886 -9223372036854775808 = none
add 738886 9223372036854775807 = none
add 738886 -9223372036854775808 = none
thirty_360 732735 732919 = 183
thirty_e_360 732735 732919 = 182
thirty_360 733101 733285 = 182
thirty_e_360 733101 733285 = 181
thirty_360 732554 732735 = 178
thirty_e_360 732554 732735 = 178"""


def main():
    wanted = argparse.ArgumentParser(description=__doc__, formatter_class=argparse.RawDescriptionHelpFormatter)
    wanted.add_argument("--seed", type=int, default=1)
    wanted.add_argument("--write", action="store_true")
    given = wanted.parse_args()
    chance = random.Random(given.seed)
    made = list(calendars(chance))
    few = [made[0].row(), *KNOWN.splitlines()]
    for it in made:
        few += [it.row(), *questions(chance, it, 20)]
    few += day_counts(chance, 100)
    few += refused(chance, 60)
    few += [made[1].row(), *by_rules(), *easters(1900, 2100)]
    few += lists(chance, 40)
    if given.write:
        write_rows("business", few)
        return 0
    if not os.path.exists(PROGRAM):
        print(f"{NO_PROGRAM}: `rt run` in crates/rows_layers builds it\n0 passed, 1 failed")
        return 1
    restart_without(numpy)
    parts = {"the rows of rows_layers": few}
    for place, it in enumerate(made[:2]):
        parts[f"400 years day by day, calendar {place + 1}"] = [it.row(), *walked(it)]
    parts["Easter of 200,000 years"] = [made[1].row(), *easters(-100_000, 100_000)]
    if dateutil_easter is None:
        print("not run: the rows of dateutil, since there is no dateutil")
    else:
        parts["dateutil"] = [made[1].row(), *by_dateutil()]
    parts["random rules, lists and joined calendars"] = [*lists(chance, 1_000)]
    parts["random questions"] = [row for it in made for row in (it.row(), *questions(chance, it, 500))]
    if numpy is None:
        print("not run: the rows of numpy, since there is no numpy")
    else:
        open_ones = [it for it in made if it.open]
        parts["numpy"] = [row for it in open_ones for row in (it.row(), *by_numpy(chance, it, 1_500))]
    passed = failed = 0
    for name, rows in parts.items():
        others = failed_rows("business", rows)
        print(f"{name}: {len(rows)} rows, {others} answered otherwise")
        passed, failed = passed + len(rows) - others, failed + others
    print(f"{passed} passed, {failed} failed")
    return 1 if failed else 0


if __name__ == "__main__":
    sys.exit(main())
