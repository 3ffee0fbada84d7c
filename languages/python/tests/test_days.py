#!/usr/bin/env python3
"""Compares proved_calendar with calendars that are made otherwise: with datetime on each of its 3,652,059 days, and beyond them
with checks/shared/counted.py and with a walk that counts day after day by the leap rule alone, over 400 years at both ends and around
year 0. Moves and date-times are compared with checks/shared/counted.py on samples from the whole calendar.
"""
import datetime
import itertools
import multiprocessing
import os
import random
import sys
import unittest

from proved_calendar import Date, DateTime, Duration, days_in_month, days_until, is_leap_year

sys.path.append(os.path.join(os.path.dirname(os.path.abspath(__file__)), "..", "..", ".."))
from checks.shared import counted  # noqa: E402
from checks.shared.counted import FIRST_DAY, FIRST_YEAR, LAST_DAY, LAST_YEAR, NANOS  # noqa: E402

# The days of 400 years, after which the calendar comes again, and those of datetime.
CYCLE = 146_097
DATETIME_DAYS = datetime.date.max.toordinal()
PIECE = 50_000
SAMPLES = 20_000


def names(date):
    """All that a date is called."""
    fields = (date.year, date.month, date.day, date.ordinal)
    return (date.toordinal(), *fields, date.isocalendar(), date.isoformat())


def is_found(wanted):
    """Whether each of the names is that of the date with the number."""
    number, year, month, day, ordinal, week, text = wanted
    found = Date(year, month, day), Date.from_day_of_year(year, ordinal), Date.from_iso_week(*week), Date.fromisoformat(text)
    return all(it.number == number for it in found)


def same(wanted):
    return names(Date.fromordinal(wanted[0])) == wanted and is_found(wanted)


def unlike(days):
    """The days that have other names, or whose names are those of another day."""
    return [it for it in days if not same(it)]


def names_by_datetime(number):
    date = datetime.date.fromordinal(number)
    ordinal = number - datetime.date(date.year, 1, 1).toordinal() + 1
    return number, date.year, date.month, date.day, ordinal, tuple(date.isocalendar()), date.isoformat()


def year_text(year):
    return f"{year:04}" if 0 <= year <= 9999 else f"{'-' if year < 0 else '+'}{abs(year):04}"


def names_by_counting(number):
    year, month, day = counted.name_of(number)
    week = (*counted.week_of(number), counted.weekday_of(number) + 1)
    return number, year, month, day, counted.ordinal_of(number), week, f"{year_text(year)}-{month:02}-{day:02}"


def year_length(year):
    return 366 if year % 4 == 0 and (year % 100 != 0 or year % 400 == 0) else 365


def week_of(year, ordinal, weekday):
    """The ISO week date: the week is that of its Thursday, whose year may be the one before or after."""
    thursday = ordinal + 4 - weekday
    if thursday < 1:
        year, thursday = year - 1, thursday + year_length(year - 1)
    elif thursday > year_length(year):
        year, thursday = year + 1, thursday - year_length(year)
    return year, (thursday - 1) // 7 + 1, weekday


def walk(number, year, weekday):
    """All that each day from 1 January of a year on is called, one after the other."""
    for year in itertools.count(year):
        ordinal = 0
        for month, length in enumerate([31, year_length(year) - 337, 31, 30, 31, 30, 31, 31, 30, 31, 30, 31], 1):
            for day in range(1, length + 1):
                ordinal += 1
                week = week_of(year, ordinal, weekday)
                yield number, year, month, day, ordinal, week, f"{year_text(year)}-{month:02}-{day:02}"
                number, weekday = number + 1, weekday % 7 + 1


def unlike_datetime(first):
    """Those of a piece of datetime's days on which it says otherwise, and how many there are."""
    piece = range(first, min(first + PIECE, DATETIME_DAYS + 1))
    return unlike([names_by_datetime(it) for it in piece]), len(piece)


def unlike_walk(start):
    """The same of 400 years, walked from the first day of a year."""
    number, year = start
    days = list(itertools.islice(walk(number, year, counted.weekday_of(number) + 1), CYCLE))
    return unlike(days), len(days)


def answer(call, *arguments):
    """The number or value that a call answers, or None."""
    try:
        result = call(*arguments)
    except (ValueError, OverflowError):
        return None
    return result.number if isinstance(result, Date) else result


class Days(unittest.TestCase):
    def compare(self, unlike, pieces, wanted):
        """Compares pieces of days, several at once; so many days there have to be."""
        with multiprocessing.get_context("fork").Pool() as pool:
            found = pool.map(unlike, pieces, chunksize=1)
        self.assertEqual([it for days, _ in found for it in days], [])
        self.assertEqual(sum(count for _, count in found), wanted)

    def test_days_of_datetime(self):
        self.compare(unlike_datetime, range(1, DATETIME_DAYS + 1, PIECE), 3_652_059)

    def test_days_beyond(self):
        years = (FIRST_YEAR, -200, LAST_YEAR - 399)
        self.compare(unlike_walk, [(counted.days_before(it) + 1, it) for it in years], 3 * CYCLE)
        after = next(itertools.islice(walk(FIRST_DAY, FIRST_YEAR, 4), CYCLE, None))
        self.assertEqual(after, names_by_counting(FIRST_DAY + CYCLE))

    def test_ends(self):
        for number in (FIRST_DAY - 1, LAST_DAY + 1):
            self.assertIsNone(answer(Date.from_number, number))
            self.assertIsNone(answer(Date, *counted.name_of(number)))


class Samples(unittest.TestCase):
    def setUp(self):
        self.chance = random.Random(1)

    def a_number(self):
        """The number of a date: of any, of one near an end of the calendar, or of one in the years about 2000."""
        near = self.chance.randrange(1_000)
        return self.chance.choice((self.chance.randint(FIRST_DAY, LAST_DAY), FIRST_DAY + near, LAST_DAY - near, 730_120 + near))

    def a_size(self):
        """A whole number of one to eight digits, or its negative."""
        return self.chance.choice((-1, 1)) * self.chance.randrange(10 ** self.chance.randint(1, 8))

    def test_days(self):
        for _ in range(SAMPLES):
            self.assertTrue(same(names_by_counting(self.a_number())))

    def test_names(self):
        for _ in range(SAMPLES):
            year = self.chance.choice((counted.name_of(self.a_number())[0], self.a_size()))
            month, day, weekday = (self.chance.randint(0, it) for it in (13, 32, 8))
            ordinal, week, n = (self.chance.randint(0, it) for it in (367, 54, 6))
            self.assertEqual(answer(Date, year, month, day), counted.day_of(year, month, day))
            self.assertEqual(answer(Date.from_day_of_year, year, ordinal), counted.day_in_year(year, ordinal))
            of_week = counted.day_of_week_date(year, week, weekday) if 1 <= weekday <= 7 else None
            self.assertEqual(answer(Date.from_iso_week, year, week, weekday), of_week)
            of_month = counted.day_of_month(year, month, weekday, n) if 1 <= weekday <= 7 else None
            self.assertEqual(answer(Date.from_weekday_of_month, year, month, weekday, n), of_month)
            lengths = counted.month_lengths(year) if FIRST_YEAR <= year <= LAST_YEAR else []
            self.assertEqual(answer(days_in_month, year, month), lengths[month - 1] if 1 <= month <= 12 and lengths else None)
            self.assertEqual(is_leap_year(year), counted.is_leap(year))

    def test_moves(self):
        for _ in range(SAMPLES):
            number, other, size, index = self.a_number(), self.a_number(), self.a_size(), self.chance.randrange(100)
            date = Date.from_number(number)
            self.assertEqual(answer(date.__add__, size), counted.in_range(number + size))
            self.assertEqual(answer(date.add_months, size), counted.month_move(number, size))
            self.assertEqual(answer(date.every_months, size, index), counted.month_move(number, size * index))
            years = counted.years_between(number, other)
            self.assertEqual(answer(date.years_since, Date.from_number(other)), years)

    def test_weekdays(self):
        for _ in range(SAMPLES):
            number, start, members = self.a_number(), self.chance.randint(1, 7), self.chance.randrange(128)
            date, weekdays = Date.from_number(number), [it for it in range(1, 8) if members >> it - 1 & 1]
            self.assertEqual(answer(date.week_first_day, start), counted.in_range(counted.first_of_week(number, start)))
            self.assertEqual(answer(date.first_on, weekdays), counted.first_on(number, members))
            days = min(((it - start) % 7 for it in weekdays), default=None)
            self.assertEqual(answer(days_until, weekdays, start), days)

    def a_moment(self):
        """A date-time as its date's number, its second of the day and its fraction; one in four lies in a leap second."""
        if self.chance.random() < 0.25:
            return self.a_number(), 60 * self.chance.randrange(1_440) + 59, NANOS + self.chance.randrange(NANOS)
        return self.a_number(), self.chance.randrange(86_400), self.chance.randrange(NANOS)

    def moment(self, date, second, fraction):
        clock = divmod(second // 60, 60)
        return DateTime(Date.from_number(date), *clock, second % 60 + fraction // NANOS, fraction % NANOS)

    def test_date_times(self):
        for _ in range(SAMPLES):
            start, other = self.a_moment(), self.a_moment()
            length = self.a_size() * self.chance.choice((1, 1_000, NANOS // 10, NANOS))
            days, *time = counted.land(*start[1:], length)
            end = self.moment(start[0] + days, *time) if counted.is_date(start[0] + days) else None
            self.assertEqual(answer(self.moment(*start).__add__, Duration(nanoseconds=length)), end)
            apart = (start[0] - other[0]) * counted.DAY + counted.apart(start[1:], other[1:])
            self.assertEqual(self.moment(*start) - self.moment(*other), Duration(nanoseconds=apart))
            self.assertEqual(DateTime.fromisoformat(self.moment(*start).isoformat()), self.moment(*start))

    def test_texts_of_date_times(self):
        for _ in range(SAMPLES):
            date, second, fraction = self.a_moment()
            digits = self.chance.choice((0, 3, 6, 9))
            fraction -= fraction % 10 ** (9 - digits)
            shown = f"{second // 3_600:02}:{second // 60 % 60:02}:{second % 60 + fraction // NANOS:02}"
            part = f"{fraction % NANOS:09}"
            part = next(part[:it] for it in (0, 3, 6, 9) if not part[it:].strip("0"))
            text = f"{names_by_counting(date)[-1]}T{shown}" + ("." + part if part else "")
            self.assertEqual(self.moment(date, second, fraction).isoformat(), text)


if __name__ == "__main__":
    unittest.main()
