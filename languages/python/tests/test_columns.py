#!/usr/bin/env python3
"""Calls every function of proved_calendar.columns on arrays of each type, beside Date element by element, and tries what is wrong:
NaT, numbers of no date, empty arrays, strides, other byte orders, arrays that cannot be written, and other types. It needs numpy."""
import ctypes
import doctest
import os
import random
import threading
import tracemalloc
import unittest
from datetime import date, datetime, timedelta, timezone, tzinfo
from zoneinfo import ZoneInfo, available_timezones

try:
    import numpy
except ImportError:
    raise SystemExit("not run: the tests of columns, since there is no numpy") from None

try:
    import pandas
except ImportError:
    pandas = None

from proved_calendar import BusinessCalendar, Date, DateTime, Duration, Schedule, _arrays, columns, day_count

FIRST, LAST, EPOCH = Date.MIN.number, Date.MAX.number, 719_163
NONE, NAT = -(2**31), -(2**63)
UNITS = {"h": 24, "m": 1_440, "s": 86_400, "ms": 86_400 * 10**3, "us": 86_400 * 10**6, "ns": 86_400 * 10**9}
COUNT = 1_000
# More elements than one piece has.
MANY = 100_000


def outcome(call, *arguments):
    """What a call answers, or None if there is no such date."""
    try:
        return call(*arguments)
    except (ValueError, OverflowError):
        return None


def number_of(it):
    """The number of a date that may not be there."""
    return None if it is None else it.number


class Columns(unittest.TestCase):
    def setUp(self):
        self.chance = random.Random(self.id())
        self.addTypeEqualityFunc(list, self.same_lists)

    def same_lists(self, one, other, msg=None):
        """Compares lists, and tells the first elements that differ (unittest would look for the shortest way from one to the other)."""
        if one != other:
            at = next((at for at, (left, right) in enumerate(zip(one, other)) if left != right), min(len(one), len(other)))
            self.fail(f"element {at}: {one[at:at + 1]} is not {other[at:at + 1]} {msg or ''}")

    def holds(self, array, dtype, wanted):
        """An array has a type and these elements."""
        self.assertEqual(array.dtype, dtype)
        self.assertEqual(array.tolist(), wanted)

    def some_numbers(self, count=COUNT):
        """Numbers of dates, near and far and at both ends, and of no dates."""
        kinds = (
            lambda: self.chance.randint(FIRST, LAST), lambda: EPOCH + self.chance.randint(-60_000, 60_000),
            lambda: FIRST + self.chance.randrange(1_000), lambda: LAST - self.chance.randrange(1_000),
            lambda: self.chance.choice((NONE, FIRST - 1, LAST + 1, 2**31 - 1)),
        )
        return [self.chance.choice(kinds)() for _ in range(count)]

    def arrays(self, numbers):
        """The same dates in arrays of each type, each with the numbers that it holds, or None."""
        dates = [it if FIRST <= it <= LAST else None for it in numbers]
        yield numpy.array(numbers, numpy.int32), dates
        yield numpy.array(numbers, numpy.int64), dates
        far = [it if it is not None else self.chance.choice((NAT, 2**63 - 1, 2**40, FIRST - 1)) for it in dates]
        yield numpy.array(far, numpy.int64), dates
        days = [NAT if it is None else it - EPOCH for it in dates]
        yield numpy.array(days, numpy.int64).view("M8[D]"), dates
        beyond = [LAST + 1 - EPOCH if it is None else it - EPOCH for it in dates]
        yield numpy.array(beyond, numpy.int64).view("M8[D]"), dates
        for unit, day in UNITS.items():
            held = [it if it is not None and abs(it - EPOCH) < 2**63 // day - 1 else None for it in dates]
            times = [NAT if it is None else (it - EPOCH) * day + self.chance.randrange(day) for it in held]
            yield numpy.array(times, numpy.int64).view(f"M8[{unit}]"), held

    def asked(self, call, of_date, kinds):
        """A function that tells something of dates answers the same as Date, in the types that it has."""
        for array, dates in self.arrays(self.some_numbers()):
            found = call(array)
            found = found if isinstance(found, tuple) else (found,)
            wanted = [of_date(Date.from_number(it)) if it is not None else tuple(kinds.values()) for it in dates]
            for at, kind in enumerate(kinds):
                self.assertEqual(found[at].dtype, kind)
                self.assertEqual(found[at].tolist(), [it[at] for it in wanted])

    def number_array(self, array):
        """The dates of an array as numbers, or None; and what is left of their days."""
        if array.dtype.kind != "M":
            none = NONE if array.dtype == numpy.int32 else NAT
            self.assertTrue(all(FIRST <= it <= LAST or it == none for it in array.tolist()))
            return [None if it == none else it for it in array.tolist()], 0
        unit = numpy.datetime_data(array.dtype)[0]
        times, day = array.view(numpy.int64).tolist(), UNITS.get(unit, 1)
        return [None if it == NAT else it // day + EPOCH for it in times], [None if it == NAT else it % day for it in times]

    def moved(self, call, of_date, arrays=None):
        """A move answers the same as Date, in the type of the array, at the same time of day."""
        for array, dates in arrays or self.arrays(self.some_numbers()):
            found = call(array)
            self.assertEqual(found.dtype, array.dtype)
            ends, rests = self.number_array(found)
            wanted = [number_of(outcome(of_date, Date.from_number(it))) if it is not None else None for it in dates]
            if array.dtype == "M8[ns]":
                wanted = [it if it is not None and abs(it - EPOCH) < 106_751 else None for it in wanted]
            self.assertEqual(ends, wanted)
            if array.dtype.kind == "M":
                _, starts = self.number_array(array)
                self.assertEqual(rests, [None if end is None else start for end, start in zip(ends, starts)])


class Names(Columns):
    def test_years(self):
        self.asked(columns.years, lambda it: (it.year,), {numpy.dtype(numpy.int32): NONE})

    def test_ordinals(self):
        self.asked(columns.ordinals, lambda it: (it.ordinal,), {numpy.dtype(numpy.uint16): 0})

    def test_weekdays(self):
        self.asked(columns.weekdays, lambda it: (int(it.isoweekday()),), {numpy.dtype(numpy.uint8): 0})

    def test_fields(self):
        for array, dates in self.arrays(self.some_numbers()):
            years, months, days = columns.fields(array)
            self.assertEqual((years.dtype, months.dtype, days.dtype), (numpy.int32, numpy.uint8, numpy.uint8))
            wanted = [(NONE, 0, 0) if it is None else (Date.from_number(it).year, Date.from_number(it).month, Date.from_number(it).day) for it in dates]
            self.assertEqual(list(zip(years.tolist(), months.tolist(), days.tolist())), wanted)
        self.assertEqual(columns.fields(array).months.tolist(), months.tolist())

    def test_iso_weeks(self):
        for array, dates in self.arrays(self.some_numbers()):
            years, weeks = columns.iso_weeks(array)
            self.assertEqual((years.dtype, weeks.dtype), (numpy.int32, numpy.uint8))
            wanted = [(NONE, 0) if it is None else tuple(Date.from_number(it).isocalendar())[:2] for it in dates]
            self.assertEqual(list(zip(years.tolist(), weeks.tolist())), wanted)

    def test_numbers(self):
        for array, dates in self.arrays(self.some_numbers()):
            self.assertEqual(columns.numbers(array).tolist(), [NONE if it is None else it for it in dates])
            self.assertEqual(columns.numbers(array).dtype, numpy.int32)
            self.assertEqual(columns.is_date(array).tolist(), [it is not None for it in dates])
            self.assertEqual(columns.count_dates(array), sum(it is not None for it in dates))

    def test_texts(self):
        for array, dates in self.arrays(self.some_numbers()):
            found = columns.texts(array)
            shown = ["" if it is None else Date.from_number(it).isoformat() for it in dates]
            wanted = [it if len(it) == 10 else "" for it in shown]
            self.assertEqual((found.dtype, found.astype(str).tolist()), (numpy.dtype("S10"), wanted))
            back = [None if not it else Date.fromisoformat(it).number for it in wanted]
            for texts in (found, found.astype(str), found.astype("S12"), found.astype("U15")):
                self.assertEqual(self.number_array(columns.from_texts(texts))[0], back)
            self.assertEqual(columns.from_texts(found, numpy.int32).tolist(), [NONE if it is None else it for it in back])

    def test_wrong_texts(self):
        wrong = ["", "2024-02-30", "2024-02-2", "2024-02-291", "2024/02/29", "٢٠٢٤-02-29", "\u0132\u0130\u0132\u0134-02-29", "2024-02-29 ", "20240229", " 2024-02-29", "\0" + "2024-02-29"]
        for texts in (numpy.array(wrong), numpy.array([it.encode() for it in wrong])):
            self.assertEqual(columns.from_texts(texts).astype(str).tolist(), ["NaT"] * len(wrong))
        mixed = numpy.array(["2024-02-29", "2024-02-291", "2024-02-2"])
        self.assertEqual(columns.from_texts(mixed).astype(str).tolist(), ["2024-02-29", "NaT", "NaT"])
        for width in (1, 5, 9):
            self.assertEqual(columns.from_texts(numpy.array(["2024-02-29"], f"U{width}")).astype(str).tolist(), ["NaT"])
            self.assertEqual(columns.from_texts(numpy.array(["2024-02-29"], f"S{width}")).astype(str).tolist(), ["NaT"])
        self.assertEqual(columns.from_texts(numpy.array([b"2024-02-29", b"2024-02-29"], "S10")[::-1], "M8[s]").astype(str).tolist(),
                         ["2024-02-29T00:00:00"] * 2)
        for wrong in (numpy.array([1]), numpy.array(["2024-02-29"], object), [1.5], None):
            self.assertRaises(TypeError, columns.from_texts, wrong)


class Moves(Columns):
    def test_add_days(self):
        for days in (0, 1, -1, 36_525, -36_525, 10**8, 2**31 - 1, 2**31, -(2**31), 10**30, numpy.int64(7), numpy.uint8(3)):
            self.moved(lambda array: columns.add_days(array, days), lambda it: it + int(days))

    def test_add_days_each(self):
        for dtype in (numpy.int8, numpy.int32, numpy.int64, numpy.uint16):
            days = numpy.array([self.chance.randint(0, 100) * self.chance.choice((1, 1 if dtype == numpy.uint16 else -1)) for _ in range(COUNT)], dtype)
            for array, dates in self.arrays(self.some_numbers()):
                wanted = [None if it is None else number_of(outcome(Date.from_number(it).__add__, int(by))) for it, by in zip(dates, days)]
                found, _ = self.number_array(columns.add_days(array, days))
                if array.dtype == "M8[ns]":
                    wanted = [it if it is not None and abs(it - EPOCH) < 106_751 else None for it in wanted]
                self.assertEqual(found, wanted)
        far = numpy.array([2**31, -(2**31), -(2**40), 2**62, 0])
        self.assertEqual(columns.add_days(numpy.full(5, 1, numpy.int32), far).tolist(), [NONE] * 4 + [1])

    def test_add_months(self):
        for months in (0, 1, -1, 13, -4_800, 6_291_455, 2**31, -(2**40)):
            self.moved(lambda array: columns.add_months(array, months), lambda it: it.add_months(months))

    def test_first_on(self):
        for weekdays in ([1], [6, 7], {1, 2, 3, 4, 5, 6, 7}, (it for it in (3, 3))):
            chosen = list(weekdays)
            self.moved(lambda array: columns.first_on(array, chosen), lambda it: it.first_on(chosen))

    def test_days_between(self):
        def wanted(one, other):
            return None if one is None or other is None else one - other

        numbers, bases = self.some_numbers(), self.some_numbers()
        for (array, dates), (base, others) in zip(self.arrays(numbers), self.arrays(bases)):
            found = columns.days_between(array, base)
            self.assertEqual(found.dtype, numpy.dtype("m8[D]" if array.dtype.kind == "M" else numpy.int32))
            none = NAT if array.dtype.kind == "M" else NONE
            expected = [none if wanted(*it) is None else wanted(*it) for it in zip(dates, others)]
            self.assertEqual(found.view(numpy.int64 if none == NAT else numpy.int32).tolist(), expected)
        days, seconds = numpy.array(["2024-03-01", "NaT"], "M8[D]"), numpy.array(["2024-02-29T23:59:59"], "M8[s]")
        for found in (columns.days_between(days, seconds), columns.days_between(days, seconds[0]), columns.days_between(days, numpy.datetime64("2024-02-29"))):
            self.assertEqual(found.view(numpy.int64).tolist(), [1, NAT])
        self.assertEqual(columns.days_between(days[0], days).view(numpy.int64).tolist(), [0, NAT])
        self.assertRaises(TypeError, columns.days_between, days, numpy.array([1, 2]))
        self.assertRaises(ValueError, columns.days_between, days, days.repeat(2))

    def test_nanoseconds_at_their_ends(self):
        ends = numpy.array([NAT + 1, 2**63 - 1, NAT], numpy.int64).view("M8[ns]")
        self.assertEqual(columns.add_days(ends, 0).view(numpy.int64).tolist(), [NAT + 1, 2**63 - 1, NAT])
        self.assertEqual(columns.add_days(ends, 1).view(numpy.int64).tolist(), [NAT + 1 + UNITS["ns"], NAT, NAT])
        self.assertEqual(columns.add_days(ends, -1).view(numpy.int64).tolist(), [NAT, 2**63 - 1 - UNITS["ns"], NAT])
        for number in range(-2, 3):
            for rest in (0, 1, UNITS["ns"] - 1):
                for edge in (NAT // UNITS["ns"], (2**63 - 1) // UNITS["ns"]):
                    start, end = (100_000 + number) * UNITS["ns"] + rest, (edge + number) * UNITS["ns"] + rest
                    found = columns.add_days(numpy.array([start]).view("M8[ns]"), edge - 100_000).view(numpy.int64)[0]
                    self.assertEqual(found, end if NAT < end < 2**63 else NAT)


class FromFields(Columns):
    def test_names(self):
        names = [(self.chance.randint(-262_200, 262_200), self.chance.randint(-1, 14), self.chance.randint(-1, 33)) for _ in range(COUNT)]
        names += [(2024, 2, 29), (2**31 + 2024, 2, 28), (2024, 256 + 2, 28), (2024, 2, 256 + 28), (-(2**40), 1, 1)]
        wanted = [number_of(outcome(Date, *it)) for it in names]
        years, months, days = (numpy.array(it) for it in zip(*names))
        for dtype in ("M8[D]", "M8[s]", "M8[us]", numpy.int64, numpy.int32):
            found = columns.from_fields(years, months, days, dtype)
            self.assertEqual((found.dtype, self.number_array(found)[0]), (numpy.dtype(dtype), wanted))
        self.assertEqual(columns.from_fields([2024, 2023], 2, 29).astype(str).tolist(), ["2024-02-29", "NaT"])
        self.assertEqual(columns.from_fields([[2024], [2023]], numpy.array([1, 2], numpy.uint8), 31, numpy.int32).shape, (2, 2))
        self.assertEqual(columns.from_fields(2024, 2, 29).shape, ())
        self.assertEqual(columns.from_fields([2024, 1600], 2, 29, "M8[ns]").astype(str).tolist(), ["2024-02-29T00:00:00.000000000", "NaT"])
        for dtype in ("M8", "M8[Y]", "M8[W]", "M8[2D]", float, "S10", numpy.int16, ">i4", ">M8[D]"):
            self.assertRaises(TypeError, columns.from_fields, 2024, 2, 29, dtype)
        for wrong in (2024.0, "2024", None, True, numpy.array([2024], numpy.uint64)):
            self.assertRaises(TypeError, columns.from_fields, wrong, 2, 29)
            self.assertRaises(TypeError, columns.from_fields, 2024, wrong, 29)
            self.assertRaises(TypeError, columns.from_fields, 2024, 2, wrong)
        self.assertRaises(ValueError, columns.from_fields, [1, 2], [1, 2, 3], 1)


CALENDAR = BusinessCalendar([Date(1999, 12, 31), Date(2024, 3, 29), Date(2024, 4, 1), Date(2024, 12, 25)])
ALL_CLOSED = BusinessCalendar(weekend=range(1, 8))
ROLLS = ("unadjusted", "following", "preceding", "modified_following", "modified_preceding", "nearest_isda", "nearest_quantlib")
DAY_COUNTS = ("actual_actual_isda", "actual_360", "actual_365_fixed", "thirty_360", "thirty_e_360")
SCHEDULE = Schedule("30 4 1,15 * fri")

# Each function of one column, by a call.
CALLS = {
    "years": columns.years, "ordinals": columns.ordinals, "weekdays": columns.weekdays, "fields": columns.fields,
    "iso_weeks": columns.iso_weeks, "texts": columns.texts, "numbers": columns.numbers, "is_date": columns.is_date, "count_dates": columns.count_dates,
    "add_days": lambda it: columns.add_days(it, 1), "add_days_each": lambda it: columns.add_days(it, numpy.ones(numpy.shape(it), int)),
    "add_months": lambda it: columns.add_months(it, 1), "first_on": lambda it: columns.first_on(it, [1]),
    "days_between": lambda it: columns.days_between(it, it), "unix_days": columns.unix_days,
    "is_open": lambda it: columns.is_open(it, CALENDAR), "add_open_days": lambda it: columns.add_open_days(it, 2, CALENDAR),
    "add_open_days_each": lambda it: columns.add_open_days(it, numpy.ones(numpy.shape(it), int), CALENDAR),
    "roll": lambda it: columns.roll(it, "following", CALENDAR), "day_counts": lambda it: columns.day_counts(it, it, "thirty_360"),
    "open_days_between": lambda it: columns.open_days_between(it, it, CALENDAR),
    "year_fractions": lambda it: columns.year_fractions(it, it, "actual_360"),
}
# Those of times alone.
TIME_CALLS = {"next_due": lambda it: columns.next_due(it, SCHEDULE), "time_texts": columns.time_texts, "offsets": lambda it: columns.offsets(it, timezone.utc)}


class OpenDays(Columns):
    """Open days, rolls and day counts, beside BusinessCalendar and day_count."""

    def near(self):
        """Dates near the holidays, and at both ends of the calendar, in arrays of each type."""
        first, last = Date(2024, 1, 1).number, Date(2025, 1, 10).number
        numbers = [self.chance.randint(first, last) for _ in range(COUNT)] + [NONE, FIRST, FIRST + 1, LAST - 1, LAST, LAST + 1]
        return self.arrays(numbers)

    def wanted(self, call, dates):
        return [None if it is None else outcome(call, Date.from_number(it)) for it in dates]

    def test_is_open(self):
        for array, dates in self.near():
            found = columns.is_open(array, CALENDAR)
            self.holds(found, numpy.bool_, [bool(it) for it in self.wanted(CALENDAR.is_open, dates)])

    def test_add_open_days(self):
        for days in (0, 1, -1, 3, -250, 2**40, -(2**40)):
            self.moved(lambda array: columns.add_open_days(array, days, CALENDAR), lambda it: CALENDAR.add(it, days), self.near())
            self.moved(lambda array: columns.add_open_days(array, days, ALL_CLOSED), lambda it: ALL_CLOSED.add(it, days), self.near())
        for array, dates in self.near():
            steps = numpy.array([self.chance.randint(-100, 100) for _ in dates], numpy.int16)
            wanted = [None if it is None else number_of(outcome(CALENDAR.add, Date.from_number(it), int(by))) for it, by in zip(dates, steps)]
            if array.dtype == "M8[ns]":
                wanted = [it if it is not None and abs(it - EPOCH) < 106_751 else None for it in wanted]
            self.assertEqual(self.number_array(columns.add_open_days(array, steps, CALENDAR))[0], wanted)

    def test_columns_of_few_days(self):
        days = numpy.arange(738_700, 739_100, dtype="int32").repeat(3)
        days[[0, 5, -1]] = NONE
        for of in (CALENDAR, ALL_CLOSED):
            for call, single in ((lambda it: columns.add_open_days(it, 2, of), lambda it: of.add(it, 2)),
                                 (lambda it: columns.roll(it, "preceding", of), lambda it: of.roll(it, "preceding"))):
                wanted = [NONE if it == NONE else number_of(outcome(single, Date.from_number(int(it)))) for it in days]
                self.assertEqual(call(days).tolist(), [NONE if it is None else it for it in wanted])
                self.assertEqual(call(days[[0, 5]]).tolist(), [NONE, NONE])

    def test_roll(self):
        for how in ROLLS:
            self.moved(lambda array: columns.roll(array, how, CALENDAR), lambda it: CALENDAR.roll(it, how), self.near())

    def test_pairs(self):
        for (array, dates), (ends, others) in zip(self.near(), self.near()):
            pairs = [(one, other) if one is not None and other is not None else None for one, other in zip(dates, others)]
            pairs = [it and tuple(map(Date.from_number, it)) for it in pairs]
            found = columns.open_days_between(array, ends, CALENDAR)
            self.holds(found, numpy.int64, [NAT if it is None else CALENDAR.between(*it) for it in pairs])
            for kind in DAY_COUNTS:
                exact = [it and day_count(*it, kind) for it in pairs]
                over, under = columns.day_counts(array, ends, kind)
                self.assertEqual((over.dtype, under.dtype), (numpy.int64, numpy.int64))
                self.assertEqual([None if b == 0 else type(it)(a, b) for it, a, b in zip(exact, over.tolist(), under.tolist())], exact)
                parts = columns.year_fractions(array, ends, kind)
                self.assertEqual(parts.dtype, numpy.float64)
                self.assertEqual(numpy.isnan(parts).tolist(), [it is None for it in exact])
                self.assertEqual([it for it in parts.tolist() if it == it], [float(it) for it in exact if it is not None])
        days = numpy.array(["2024-03-28", "NaT"], "M8[D]")
        self.assertEqual(columns.open_days_between(days, numpy.datetime64("2024-04-03"), CALENDAR).tolist(), [2, NAT])
        self.assertEqual(columns.open_days_between(numpy.datetime64("2024-04-03"), days, CALENDAR).tolist(), [-2, NAT])
        self.assertEqual(columns.year_fractions(days[0], days, "actual_360").tolist()[0], 0.0)

    def test_years(self):
        """A ValueError says that an answer looks at a year of which the holidays are not known, as it does of one date."""
        years = BusinessCalendar(CALENDAR.holidays, first_year=2024, last_year=2024)
        for array, dates in self.near():
            inside = array[[it is None or Date.from_number(it).year == 2024 for it in dates]]
            days = [it for it in dates if it is None or Date.from_number(it).year == 2024]
            self.assertEqual(columns.is_open(inside, years).tolist(), columns.is_open(inside, CALENDAR).tolist())
            self.assertRaisesRegex(ValueError, "known from 2024 to 2024 alone", columns.is_open, array, years)
            for call, single in (
                *((lambda it, by=by: columns.add_open_days(it, by, years), lambda it, by=by: years.add(it, by)) for by in (0, 1, -1, 20, 10**9)),
                *((lambda it, how=how: columns.roll(it, how, years), lambda it, how=how: years.roll(it, how)) for how in ROLLS),
                (lambda it: columns.add_open_days(it, numpy.ones(it.shape, "i4"), years), lambda it: years.add(it, 1)),
            ):
                answers = [None if it is None else outcome(single, Date.from_number(it)) for it in days]
                known = [day is None or it is not None for day, it in zip(days, answers)]
                found = self.number_array(call(inside[known]))[0]
                self.assertEqual(found, [number_of(it) for it, is_known in zip(answers, known) if is_known])
                if not all(known):
                    self.assertRaises(ValueError, call, inside)
        year = numpy.array(["2024-01-01", "2025-01-01", "NaT", "2024-01-01"], "M8[D]")
        ends = numpy.array(["2025-01-01", "2025-01-01", "2023-01-01", "2024-01-01"], "M8[D]")
        self.assertEqual(columns.open_days_between(year, ends, years).tolist(), columns.open_days_between(year, ends, CALENDAR).tolist())
        for wrong in ("2023-12-31", "2025-01-02"):
            self.assertRaises(ValueError, columns.open_days_between, year, numpy.datetime64(wrong), years)
        # (31 December 2022 is a Saturday; behind it a day of 2023 is as near as the Friday before it)
        saturday = numpy.array(["2022-12-31"], "M8[D]")
        one, two = (BusinessCalendar(first_year=2022, last_year=it) for it in (2022, 2023))
        self.assertRaises(ValueError, columns.roll, saturday, "nearest_quantlib", one)
        self.assertEqual(columns.roll(saturday, "nearest_quantlib", two).astype(str).tolist(), ["2022-12-30"])

    def test_wrong(self):
        days = numpy.array(["2024-03-28"], "M8[D]")
        for empty in (days, days[:0]):
            for wrong in (None, [], "us_federal", numpy.busdaycalendar(), BusinessCalendar):
                for call in (columns.is_open, lambda it, of: columns.add_open_days(it, 1, of), lambda it, of: columns.roll(it, "following", of),
                             lambda it, of: columns.open_days_between(it, it, of)):
                    self.assertRaises(TypeError, call, empty, wrong)
            for wrong in (1.0, "1", None, True, numpy.array([1.5]), numpy.array([1], "m8[D]")):
                self.assertRaises(TypeError, columns.add_open_days, empty, wrong, CALENDAR)
            for how, error in (("forward", ValueError), ("", ValueError), (1, TypeError), (None, TypeError)):
                self.assertRaises(error, columns.roll, empty, how, CALENDAR)
                self.assertRaises(error, columns.day_counts, empty, empty, how)
                self.assertRaises(error, columns.year_fractions, empty, empty, how)
        for call in (lambda *of: columns.open_days_between(*of, CALENDAR), lambda *of: columns.day_counts(*of, "thirty_360")):
            self.assertRaises(TypeError, call, days, numpy.array([1]))
            self.assertRaises(ValueError, call, days.repeat(2), days.repeat(3))


class Days(Columns):
    def test_unix_days(self):
        for array, dates in self.arrays(self.some_numbers()):
            found = columns.unix_days(array)
            self.holds(found, numpy.int32, [NONE if it is None else it - EPOCH for it in dates])
            for days in (found, found.astype(numpy.int64)):
                self.assertEqual(self.number_array(columns.from_unix_days(days))[0], dates)
                self.assertEqual(columns.from_unix_days(days, "i4").tolist(), [NONE if it is None else it for it in dates])
        self.assertEqual(columns.from_unix_days([19_782, -(2**31), 2**62]).astype(str).tolist(), ["2024-02-29", "NaT", "NaT"])
        for wrong in ([1.5], ["1"], None, [True], numpy.array([1], "M8[D]"), numpy.array([1], numpy.uint64)):
            self.assertRaises(TypeError, columns.from_unix_days, wrong)
        self.assertRaises(TypeError, columns.from_unix_days, [1], "M8[Y]")


class Times(Columns):
    """When a schedule is due, and texts of times, beside Schedule and DateTime."""

    def times(self, unit):
        """Times near now and far away, in a unit, and the date-times that they are, or None."""
        day, epoch = UNITS[unit], DateTime(1970, 1, 1)
        days = [self.chance.choice((self.chance.randint(-30_000, 60_000), self.chance.randint(-100_000, 100_000))) for _ in range(300)]
        times = [it * day + self.chance.choice((0, self.chance.randrange(day))) for it in days] + [NAT, NAT + 1, 2**63 - 1, 0, -1, 1]
        moments = []
        for it in times:
            seconds, rest = divmod(it * 86_400, day)
            is_one = it != NAT and FIRST <= it // day + EPOCH <= LAST
            nanoseconds = seconds * 10**9 + rest * 10**9 // day
            moments.append(epoch + Duration.from_nanoseconds(nanoseconds) if is_one else None)
        return numpy.array(times, numpy.int64).view(f"M8[{unit}]"), moments

    def time_of(self, moment, unit):
        """The number of a date-time in a unit, if the unit and 64 bits hold it."""
        if moment is None or moment.second == 60:
            return NAT
        time, rest = divmod((moment - DateTime(1970, 1, 1)).nanoseconds * UNITS[unit], 86_400 * 10**9)
        return time if rest == 0 and NAT < time < 2**63 else NAT

    def test_offsets(self):
        berlin, utc = ZoneInfo("Europe/Berlin"), timezone.utc
        for unit in UNITS:
            if unit != "D":
                times, moments = self.times(unit)
                wanted = []
                for it in moments:
                    try:
                        moment = it and datetime(it.year, it.month, it.day, it.hour, it.minute, it.second, tzinfo=utc)
                        wanted.append(moment and int(moment.astimezone(berlin).utcoffset().total_seconds()))
                    except (OverflowError, ValueError):
                        wanted.append(None)
                found = columns.offsets(times, berlin)
                self.assertEqual(found.dtype, numpy.dtype("m8[s]"))
                self.assertEqual(found.tolist(), [it if it is None else timedelta(seconds=it) for it in wanted])
        change = numpy.array([["2024-03-31T00:59:59.999", "2024-03-31T01:00"], ["NaT", "1880-01-01T00:00"]], "M8[ms]")
        self.assertEqual(columns.offsets(change, berlin).astype("i8").tolist(), [[3_600, 7_200], [NAT, 3_208]])
        self.assertEqual(columns.offsets(change[:, ::-1], timezone(timedelta(hours=-3))).astype("i8")[0].tolist(), [-10_800, -10_800])
        self.assertEqual(columns.offsets(change[:1, :1], timezone(timedelta(milliseconds=3_600))).astype("i8").tolist(), [[4]])
        self.assertEqual(columns.offsets(change[:0], utc).shape, (0, 2))
        self.assertRaises(TypeError, columns.offsets, change, "Europe/Berlin")
        self.assertRaises(TypeError, columns.offsets, change.astype("M8[D]"), utc)

    def test_offsets_of_all_zones(self):
        """Seconds of a few days each, so that many are in one day: beside changes of the clock, and anywhere."""
        chance = random.Random(11)
        for name in sorted(available_timezones()):
            zone = ZoneInfo(name)
            starts = [chance.randrange(-3 * 10**9, 5 * 10**9) for _ in range(3)] + [year * 31_556_952 + 86_400 * chance.randrange(60, 330) for year in (40, 54)]
            seconds = sorted(start + chance.randrange(12 * 86_400) for start in starts for _ in range(60))
            wanted = [datetime.fromtimestamp(it, zone).utcoffset() for it in seconds]
            times = numpy.array(seconds, "M8[s]")
            self.assertEqual(columns.offsets(times, zone).astype("O").tolist(), wanted, name)

    def test_asks_of_a_zone(self):
        """A ZoneInfo is asked twice a day, but for days in which its clock changes; another zone at each second."""
        class Counted(tzinfo):
            count = 0

            def fromutc(self, moment):
                Counted.count += 1
                return berlin.fromutc(moment.replace(tzinfo=berlin))

        berlin, asked = ZoneInfo("Europe/Berlin"), columns._offset_at
        times = numpy.arange("2024-03-30", "2024-04-01", 3_600, dtype="M8[s]")
        columns.offsets(times, Counted())
        self.assertEqual(Counted.count, 48)
        seen = []
        columns._offset_at = lambda zone, it: (seen.append(it), asked(zone, it))[1]
        try:
            found = columns.offsets(times, berlin)
        finally:
            columns._offset_at = asked
        self.assertEqual(found.astype("i8").tolist(), [3_600] * 25 + [7_200] * 23)
        self.assertEqual(len(seen), 4 + 24)

    def test_next_due(self):
        for unit in UNITS:
            times, moments = self.times(unit)
            for text in ("30 4 1,15 * fri", "*/7 * * * *", "0 0 29 2 *"):
                due = "m" if unit == "h" else unit
                found = columns.next_due(times, Schedule(text))
                wanted = [it and outcome(Schedule(text).next_after, it) for it in moments]
                self.assertEqual(found.dtype, numpy.dtype(f"M8[{due}]"))
                self.assertEqual(found.view(numpy.int64).tolist(), [self.time_of(it, due) for it in wanted])
                self.assertEqual(columns.next_due(times, text).view(numpy.int64).tolist(), found.view(numpy.int64).tolist())
        days = numpy.array(["2024-02-09", "NaT"], "M8[D]")
        self.assertEqual(columns.next_due(days, SCHEDULE).astype(str).tolist(), ["2024-02-09T04:30", "NaT"])
        self.assertTrue(numpy.isnat(columns.next_due(days, "0 0 30 2 *")).all())

    def test_texts(self):
        for unit in UNITS:
            times, moments = self.times(unit)
            found = columns.time_texts(times)
            wanted = ["" if it is None else it.isoformat() for it in moments]
            self.assertEqual(found.dtype, numpy.dtype("S32"))
            self.holds(found.astype(str), "U32", wanted)
            for texts in (found, found.astype(str), found.astype("S40"), found.astype("U33")):
                back = columns.from_time_texts(texts, f"M8[{unit}]")
                self.assertEqual(back.view(numpy.int64).tolist(), [NAT if it is None else self.time_of(it, unit) for it in moments])
            for other in UNITS:
                self.assertEqual(columns.from_time_texts(found, f"M8[{other}]").view(numpy.int64).tolist(),
                                 [NAT if it is None else self.time_of(it, other) for it in moments])

    def test_wrong_texts(self):
        wrong = ["", "2024-02-29", "2024-02-30T00:00:00", "2016-12-31T23:59:60", "1600-01-01T00:00:00", "2024-02-29T24:00:00", "x",
                 "2024-02-29T00:00:00Z", "٢٠٢٤-02-29T00:00:00", "\u0132\u0130\u0132\u0134-02-29T00:00:00", " 2024-02-29T00:00:00", "2024-02-29T00:00:00 "]
        for texts in (numpy.array(wrong), numpy.array([it.encode() for it in wrong])):
            self.assertTrue(numpy.isnat(columns.from_time_texts(texts)).all())
        self.assertEqual(columns.from_time_texts(numpy.array(["2024-02-29 00:00:00.5"])).astype(str).tolist(), ["2024-02-29T00:00:00.500000000"])
        self.assertTrue(numpy.isnat(columns.from_time_texts(numpy.array([""], "U0"))).all())
        self.assertEqual(columns.from_time_texts(numpy.array([], "S5")).shape, (0,))
        for wrong in (numpy.array([1]), numpy.array(["x"], object), [1.5], None):
            self.assertRaises(TypeError, columns.from_time_texts, wrong)
        for dtype in ("M8[D]", "M8", "M8[2s]", "i8", ">M8[s]"):
            self.assertRaises(TypeError, columns.from_time_texts, numpy.array(["x"]), dtype)

    def test_wrong_times(self):
        for name, call in TIME_CALLS.items():
            for wrong in (numpy.array([1]), [1.5], None, ["2024-02-29"], numpy.array([1], "m8[s]"), numpy.array([1], "M8[Y]")):
                with self.assertRaises(TypeError, msg=(name, wrong)):
                    call(wrong)
            self.assertEqual(call(numpy.array([], "M8[s]")).shape, (0,))
            self.assertEqual(call(numpy.zeros((2, 3), "M8[s]")).shape, (2, 3))
        self.assertRaises(TypeError, columns.time_texts, numpy.array([1], "M8[D]"))
        times = numpy.array(["2024-02-29T00:00"], "M8[s]")
        self.assertRaises(TypeError, columns.next_due, times, None)
        for empty in (times, times[:0]):
            self.assertRaises(ValueError, columns.next_due, empty, "0 25 * * *")
        apart = numpy.arange(10).astype("M8[s]")[::-3]
        for name, call in TIME_CALLS.items():
            self.assertEqual(call(apart).tolist(), call(apart.copy()).tolist(), name)
            self.assertEqual(call(apart.astype(">M8[s]")).tolist(), call(apart).tolist(), name)


class Arrays(Columns):
    def same(self, one, other, what):
        one, other = (it if isinstance(it, tuple) else (it,) for it in (one, other))
        for left, right in zip(one, other):
            left, right = numpy.asarray(left), numpy.asarray(right)
            self.assertEqual((left.dtype, left.shape), (right.dtype, right.shape), what)
            self.assertEqual(left.astype(str).tolist(), right.astype(str).tolist(), what)

    def plain(self):
        for array, _ in self.arrays(self.some_numbers(24)):
            yield array

    def test_layouts(self):
        """Strides, other byte orders, no alignment and arrays that cannot be written give the same as a plain array."""
        for array in self.plain():
            apart = numpy.zeros(2 * array.size, array.dtype)
            apart[::2] = array
            locked = array.copy()
            locked.flags.writeable = False
            shifted = numpy.frombuffer(b"\0" + array.tobytes() + b"\0" * 7, numpy.uint8)[1:1 + array.nbytes].view(array.dtype)
            others = {"strides": apart[::2], "reversed": array[::-1][::-1], "order": array.astype(array.dtype.newbyteorder(">")),
                      "locked": locked, "shifted": shifted}
            for name, call in CALLS.items():
                wanted = call(array)
                for what, other in others.items():
                    self.same(call(other), wanted, (name, what))
            for what, other in others.items():
                self.assertEqual(other.tolist(), array.tolist(), what)

    def test_shapes(self):
        for array in self.plain():
            for name, call in CALLS.items():
                flat = call(array)
                for shape in ((4, 6), (2, 3, 4), (24, 1)):
                    shaped = call(array.reshape(shape))
                    wanted = tuple(it.reshape(shape) for it in flat) if isinstance(flat, tuple) else flat if name == "count_dates" else flat.reshape(shape)
                    self.same(shaped, wanted, (name, shape))
                crossed = call(array.reshape(4, 6).T)
                if name != "count_dates":
                    first = (crossed[0] if isinstance(crossed, tuple) else crossed).T.reshape(-1)
                    self.same(first, flat[0] if isinstance(flat, tuple) else flat, (name, "crossed"))
                one = call(array[5])
                if name != "count_dates":
                    self.same(one[0] if isinstance(one, tuple) else one, (flat[0] if isinstance(flat, tuple) else flat)[5:6].reshape(()), (name, "one"))

    def test_empty(self):
        for array in self.plain():
            for name, call in CALLS.items():
                for empty in (array[:0], array[:0].reshape(0, 3), array[::-1][:0]):
                    found = call(empty)
                    if name == "count_dates":
                        self.assertEqual(found, 0)
                    else:
                        self.assertEqual((found[0] if isinstance(found, tuple) else found).shape, empty.shape)
        self.assertEqual(columns.from_texts(numpy.array([], "S10")).shape, (0,))
        self.assertEqual(columns.from_texts(numpy.array([], "U10")).shape, (0,))
        self.assertEqual(columns.from_fields(numpy.array([], int), 1, 1).shape, (0,))

    def test_nat(self):
        for unit in ("D", *UNITS):
            nothing = numpy.full(3, "NaT", f"M8[{unit}]")
            self.assertEqual(columns.count_dates(nothing), 0)
            for name in ("add_days", "add_days_each", "add_months", "first_on", "days_between"):
                self.assertTrue(numpy.isnat(CALLS[name](nothing)).all(), (name, unit))
            self.assertEqual(columns.texts(nothing).tolist(), [b""] * 3)
            self.assertEqual(columns.fields(nothing).years.tolist(), [NONE] * 3)

    def test_beyond_the_calendar(self):
        """Times before the first date and after the last one are none, and the first and the last time of the calendar are dates."""
        for unit, day in UNITS.items():
            ends = [(FIRST - EPOCH) * day, (LAST + 1 - EPOCH) * day - 1]
            if ends[1] < 2**63:
                far = [ends[0] - 1, ends[1] + 1, NAT + 1, 2**63 - 1, 2**32 * day, -(2**32) * day]
                array = numpy.array([it for it in far if NAT < it < 2**63] + ends).view(f"M8[{unit}]")
                self.assertEqual(columns.is_date(array).tolist(), [False] * (array.size - 2) + [True] * 2)

    def test_wrong_types(self):
        wrong = [
            numpy.array([1.0]), numpy.array([numpy.inf]), numpy.array([numpy.nan]), numpy.array([True]), numpy.array(["2024-02-29"]), numpy.array([Date(2024, 2, 29)], object), numpy.array([1j]),
            numpy.array([1], numpy.uint64), numpy.array(["2024"], "M8[Y]"), numpy.array(["2024-02"], "M8[M]"), numpy.array([1], "M8[W]"),
            numpy.array([1], "M8[7D]"), numpy.array(["NaT"], "M8"), numpy.array([1], "M8[ps]"), numpy.array([1], "m8[D]"), None, "2024-02-29",
            numpy.zeros(2, [("a", int)]), 1.5, [None], {}, Date(2024, 2, 29), date(2024, 2, 29),
        ]
        for name, call in CALLS.items():
            for it in wrong:
                with self.assertRaises(TypeError, msg=(name, it)):
                    call(it)
        dates = numpy.array([1, 2])
        for by in (1.0, "1", None, True, timedelta(1), numpy.timedelta64(1, "D"), numpy.array([1.0, 2.0]), ["1", "2"], [True, False]):
            self.assertRaises(TypeError, columns.add_days, dates, by)
            self.assertRaises(TypeError, columns.add_months, dates, by)
        self.assertRaises(TypeError, columns.add_months, dates, dates)
        self.assertRaises(ValueError, columns.add_days, dates, [1, 2, 3])
        for weekdays, error in (([], ValueError), ([0], ValueError), ([8], ValueError), ([1.0], TypeError), (1, TypeError), (None, TypeError)):
            self.assertRaises(error, columns.first_on, dates, weekdays)

    def test_other_whole_numbers(self):
        for kind in (numpy.int8, numpy.int16, numpy.uint8, numpy.uint16, numpy.uint32):
            found = columns.add_days(numpy.array([1, 100], kind), 300)
            self.holds(found, numpy.int64, [301, 400])
        self.assertEqual(columns.years([738_945, 0]).tolist(), [2024, 0])

    def test_many(self):
        """Of more elements than a piece has, those at the joints are right too."""
        array = (numpy.arange(MANY) % 90_000 - 30_000).astype("M8[D]")
        years, months, days = columns.fields(array)
        self.assertTrue((years == array.astype("M8[Y]").astype(int) + 1970).all())
        self.assertTrue((months == array.astype("M8[M]").astype(int) % 12 + 1).all())
        self.assertTrue((days == (array - array.astype("M8[M]")).astype(int) + 1).all())
        self.assertTrue((columns.from_fields(years, months, days) == array).all())
        self.assertTrue((columns.texts(array).astype(str) == array.astype(str)).all())
        self.assertTrue((columns.from_texts(array.astype(str)) == array).all())
        self.assertTrue((columns.add_days(array, numpy.arange(MANY)) == array + numpy.arange(MANY)).all())
        self.assertTrue((columns.days_between(array, array[::-1]) == array - array[::-1]).all())
        self.assertEqual(columns.count_dates(array), MANY)
        nanoseconds = array.astype("M8[ns]") + numpy.timedelta64(5, "h")
        self.assertTrue((columns.add_days(nanoseconds, 7) == nanoseconds + numpy.timedelta64(7, "D")).all())

    def test_memory(self):
        """Beside the result a call takes the memory of some pieces, however long the column is."""
        array = numpy.arange(20 * MANY).astype("M8[D]")
        for call in (columns.weekdays, lambda it: columns.days_between(it, it[0]), lambda it: columns.add_months(it, 1)):
            tracemalloc.start()
            found = call(array)
            _, peak = tracemalloc.get_traced_memory()
            tracemalloc.stop()
            self.assertLess(peak - found.nbytes, 3 * 2**20)

    @unittest.skipIf(os.environ.get("SKIP_MEMORY"), "it takes a while")
    def test_hundred_million(self):
        """So many elements take no more memory than a few; their own takes none, since they are one that is seen everywhere."""
        for one in (numpy.int32(738_945), numpy.datetime64("2024-02-29"), numpy.datetime64("2024-02-29T12:30:00.000000007")):
            many = numpy.broadcast_to(one, 10**8)
            tracemalloc.start()
            count, found = columns.count_dates(many), columns.weekdays(many)
            _, peak = tracemalloc.get_traced_memory()
            tracemalloc.stop()
            self.assertEqual((count, found.min(), found.max(), found.size), (10**8, 4, 4, 10**8))
            self.assertLess(peak - found.nbytes, 3 * 2**20)

    def test_in_place_of_a_copy(self):
        """A column of int32 is read where it lies: the library sees its own address."""
        array, seen = numpy.arange(10, dtype=numpy.int32), []
        call = columns._call

        def spy(name, *arguments):
            seen.extend(it.__array_interface__["data"][0] for it in arguments if not isinstance(it, int))
            call(name, *arguments)

        columns._call = spy
        try:
            columns.weekdays(array)
            found = columns.add_days(array, 1)
        finally:
            columns._call = call
        self.assertEqual(seen[0], array.ctypes.data)
        self.assertEqual(seen[-1], found.ctypes.data)

    def test_threads(self):
        """Calls of several threads at once give the same."""
        array = (numpy.arange(MANY) % 90_000).astype("M8[D]")
        wanted, found = columns.add_months(array, 1), [None] * 4

        def work(place):
            found[place] = columns.add_months(array, 1)

        threads = [threading.Thread(target=work, args=(it,)) for it in range(4)]
        for it in threads:
            it.start()
        for it in threads:
            it.join()
        self.assertTrue(all((it == wanted).all() for it in found))
        self.assertNotIsInstance(_arrays.LIBRARY, ctypes.PyDLL)

    @unittest.skipUnless(pandas, "there is no pandas")
    def test_pandas(self):
        """A series gives the same as its array; one with a time zone, or of objects, is refused."""
        for array in (numpy.array(["2024-01-31T12:30:15.250000007", "NaT"], "M8[ns]"), numpy.array([738_945, 0], numpy.int32)):
            series = pandas.Series(array, index=[5, 3])
            for name, call in CALLS.items():
                self.same(call(series), call(array), name)
        self.assertEqual(columns.from_texts(pandas.Series(["2024-02-29"]).to_numpy("U10")).astype(str).tolist(), ["2024-02-29"])
        for wrong in (pandas.Series(pandas.date_range("2024", periods=2, tz="UTC")), pandas.Series([1, None], dtype="Int32"),
                      pandas.Series(["2024-02-29"])):
            self.assertRaises(TypeError, columns.years, wrong)

    def test_all(self):
        made = {"from_fields", "from_texts", "from_time_texts", "from_unix_days", "Fields", "Fractions", "IsoWeeks"}
        self.assertEqual({it.removesuffix("_each") for it in (*CALLS, *TIME_CALLS)} | made, set(columns.__all__))
        for name in columns.__all__:
            self.assertTrue(getattr(columns, name).__doc__)

    def test_masked(self):
        for name, call in (CALLS | TIME_CALLS).items():
            with self.subTest(name):
                self.assertRaises(TypeError, call, numpy.ma.array(numpy.array(["2024-02-29", "2024-03-01"], "M8[s]"), mask=[0, 1]))

    def test_examples(self):
        failed, tried = doctest.testmod(columns, verbose=False)
        self.assertEqual((failed, tried > 2), (0, True))


if __name__ == "__main__":
    unittest.main()
