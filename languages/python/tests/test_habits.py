#!/usr/bin/env python3
"""The habits that proved_calendar shares with datetime, each beside datetime where that has it: making, subclassing, pickling,
replacing, formatting, moving by timedelta and by Duration, turning into datetime's types and back; what errors say; and that
nothing is lost or kept in memory by calls, also by those that fail."""
import copy
import datetime
import gc
import inspect
import os
import pickle
import sys
import tracemalloc
import unittest
from datetime import timedelta

try:
    import numpy
except ImportError:
    numpy = None
try:
    import pandas
except ImportError:
    pandas = None

import proved_calendar
from proved_calendar import Date, DateTime, Duration, IsoCalendarDate, Time, Weekday, days_in_month, days_until, is_leap_year

LEAP_DAY, THEIR_LEAP_DAY = Date(2024, 2, 29), datetime.date(2024, 2, 29)
NOON = DateTime(LEAP_DAY, 12, 30, 15, 250_000_000)
THEIR_NOON = datetime.datetime(2024, 2, 29, 12, 30, 15, 250_000)
LEAP_SECOND = DateTime(Date(2016, 12, 31), 23, 59, 60)
HOUR = Duration(hours=1)
LONGEST = Duration(nanoseconds=(2**63 - 1) * 10**6)


class Day(Date):
    """A class of a user, with an attribute of its own."""

    def __init__(self, *parts, **named):
        self.note = "none"


class Bare(Date):
    __slots__ = ()


class Moment(DateTime):
    pass


class Span(Duration):
    pass


class Making(unittest.TestCase):
    def test_arguments(self):
        self.assertEqual(Date(year=2024, month=2, day=29), LEAP_DAY)
        self.assertEqual(Date(2024, day=29, month=2), LEAP_DAY)
        self.assertEqual(DateTime(date=LEAP_DAY, nanosecond=250_000_000, second=15, minute=30, hour=12), NOON)
        self.assertEqual(DateTime.from_seconds(seconds=NOON.seconds, nanos=NOON.nanos), NOON)
        self.assertEqual(LEAP_DAY.week_first_day(start=Weekday.FRIDAY), Date(2024, 2, 23))
        for call in [
            lambda: Date(), lambda: Date(2024), lambda: Date(2024, 2), lambda: Date(2024, 2, 29, 1), lambda: Date(2024, 2, days=29),
            lambda: Date(2024, 2, 29, day=29), lambda: Date(2024, 2, day=None), lambda: DateTime(), lambda: DateTime(hour=1),
            lambda: DateTime(LEAP_DAY, 1, 2, 3, 4, 5), lambda: DateTime(LEAP_DAY, hours=1), lambda: DateTime(2024, 2),
            lambda: Duration(1, 2, 3, 4, 5, 6, 7, 8), lambda: Duration(years=1), lambda: Duration("1"), lambda: DateTime(2024, 2, 29.0),
            lambda: DateTime(LEAP_DAY, microsecond=1, nanosecond=1), lambda: DateTime(year=2024, date=LEAP_DAY), lambda: Date.from_day_of_year(2024), lambda: Date.from_day_of_year(2024, 60, 1),
            lambda: Date.from_iso_week(2024, 9), lambda: Date.from_weekday_of_month(2024, 2, 4), lambda: Date.fromordinal("1"),
            lambda: LEAP_DAY.replace(weekday=1), lambda: LEAP_DAY.replace(2024, 2, 29, 1), lambda: LEAP_DAY.replace(2024, year=1),
            lambda: LEAP_DAY.every_months(1), lambda: days_in_month(2024), lambda: days_until([1]), lambda: days_until(1, 1),
            lambda: DateTime.from_seconds(), lambda: DateTime.from_seconds(0, nano=0), lambda: object.__new__(Date),
            lambda: LEAP_DAY.add_months(), lambda: Date.fromordinal(1, 2), lambda: LEAP_DAY.isoformat(1),
        ]:
            self.assertRaises(TypeError, call)

    def test_frozen(self):
        for value in (LEAP_DAY, NOON, HOUR, Time(12)):
            for name in [*(it for it in dir(value) if not it.startswith("_")), "other"]:
                if not callable(getattr(value, name, None)):
                    self.assertRaises(AttributeError, setattr, value, name, 1)
                    self.assertRaises(AttributeError, delattr, value, name)

    def test_dir(self):
        """What dir tells of a value has no ends of its type: who follows all attributes of a value comes to an end."""
        there = NOON.replace(tzinfo=datetime.timezone.utc)
        for it in (LEAP_DAY, NOON, Duration(1), Time(9), there):
            self.assertFalse({"min", "max", "MIN", "MAX", "resolution"} & set(dir(it)))
            self.assertIn("resolution", dir(type(it)))
        self.assertEqual(["tzinfo" in dir(it) for it in (NOON, Time(9), there)], [True, True, False])
        self.assertTrue({"year", "number", "add_months", "__dir__"} < set(dir(LEAP_DAY)))

    def test_extend(self):
        """Only the types of the module get members from its Python, and those are not changed from outside."""
        for wrong in (int, 1, Weekday, Day):
            self.assertRaises(TypeError, proved_calendar._calendar.extend, wrong, "other", 1)
        self.assertRaises(TypeError, setattr, Date, "today", None)

    def test_version_and_names(self):
        self.assertRegex(proved_calendar.__version__, r"^\d+\.\d+\.\d+(\.dev0)?$")
        for name in proved_calendar.__all__:
            self.assertTrue(hasattr(proved_calendar, name))
        for kind in (Date, DateTime, Duration, Weekday, IsoCalendarDate):
            self.assertTrue(kind.__doc__)
        for kind in (Date, DateTime, Duration, Time):
            for name in dir(kind):
                if not name.startswith("_") and name not in ("MIN", "MAX", "min", "max", "resolution"):
                    self.assertTrue(getattr(kind, name).__doc__, (kind, name))


class Subclasses(unittest.TestCase):
    def test_results(self):
        day = Day(2024, 2, 29)
        for made in [
            day + 1, 1 + day, day - 1, day + Duration(), day + timedelta(1),
            day.replace(day=1), day.add_months(1), day.every_months(1, 2), day.every_months(0, 0), day.week_first_day(),
            day.first_on([1]), Day.fromordinal(1), Day.from_number(1), Day.from_day_of_year(2024, 60), Day.from_iso_week(2024, 9, 4),
            Day.from_weekday_of_month(2024, 2, 4, 5), Day.fromisoformat("2024-02-29"), Day.from_date(THEIR_LEAP_DAY),
            copy.copy(day), copy.deepcopy(day), pickle.loads(pickle.dumps(day)),
        ]:
            self.assertIs(type(made), Day)
            self.assertEqual(made.note, "none")
        moment = Moment(LEAP_DAY, 1)
        for made in [
            moment + HOUR, HOUR + moment, moment - HOUR, moment + timedelta(1), moment.replace(hour=2), Moment.from_seconds(0),
            Moment.fromisoformat("2024-02-29T00:00:00"), Moment.from_datetime(THEIR_NOON), copy.copy(moment),
        ]:
            self.assertIs(type(made), Moment)
        for made in (Span.from_nanoseconds(1), Span.from_timedelta(timedelta(1)), copy.copy(Span(seconds=1))):
            self.assertIs(type(made), Span)
        self.assertEqual((moment + HOUR).date, LEAP_DAY)
        # (as the sum of timedeltas of a user's class is a timedelta)
        self.assertIs(type(Span(seconds=1) + Span(seconds=1)), Duration)

    def test_like_datetime(self):
        class TheirDay(datetime.date):
            pass

        theirs = TheirDay(2024, 2, 29)
        for ours, other in [(Day(2024, 2, 29) + timedelta(1), theirs + timedelta(1)), (Day.fromordinal(9), TheirDay.fromordinal(9))]:
            self.assertEqual((type(ours) is Day, ours.isoformat()), (type(other) is TheirDay, other.isoformat()))

    def test_values(self):
        day = Day(2024, 2, 29)
        self.assertEqual(day, LEAP_DAY)
        self.assertEqual(hash(day), hash(LEAP_DAY))
        self.assertLess(day, LEAP_DAY + 1)
        self.assertEqual(LEAP_DAY - day, 0)
        self.assertEqual(repr(day), "Day(2024, 2, 29)")
        self.assertEqual(repr(Moment(LEAP_DAY)), "Moment.fromisoformat('2024-02-29T00:00:00')")
        self.assertEqual(repr(Span(seconds=1)), "Span(seconds=1)")
        self.assertEqual(DateTime(day).date, LEAP_DAY)
        self.assertIsInstance(Bare(2024, 2, 29) + 1, Bare)
        self.assertRaises(AttributeError, setattr, Bare(2024, 2, 29), "note", 1)
        day.note = "a"
        self.assertEqual((copy.copy(day).note, copy.deepcopy(day).note), ("a", "a"))
        self.assertEqual([pickle.loads(pickle.dumps(day, it)).note for it in range(6)], ["a"] * 6)

    def test_own_new(self):
        class Paid(Date):
            def __new__(cls, year, month, day, amount=0):
                made = super().__new__(cls, year, month, day)
                made.amount = amount
                return made

        self.assertEqual((Paid(2024, 2, 29, 5) + 1).amount, 0)
        self.assertEqual(Paid(2024, 2, 29, 5).replace(day=1), Date(2024, 2, 1))

        class Odd(Date):
            def __new__(cls, text):
                return super().__new__(cls, 2024, 2, 29)

        self.assertRaises(TypeError, lambda: Odd("a") + 1)


class Keeping(unittest.TestCase):
    def test_pickle(self):
        values = [
            LEAP_DAY, Date.MIN, Date.MAX, NOON, LEAP_SECOND, HOUR, -HOUR, LONGEST, -LONGEST, Duration(), Weekday.FRIDAY, Time.min, Time.max,
            Time(12, 30, 15, 250_000), Time(23, 59, 60),
        ]
        for value in values:
            for protocol in range(pickle.HIGHEST_PROTOCOL + 1):
                self.assertEqual(pickle.loads(pickle.dumps(value, protocol)), value)
            self.assertEqual(copy.copy(value), value)
            self.assertEqual(copy.deepcopy([value]), [value])
            self.assertEqual(eval(repr(value)) if value is not Weekday.FRIDAY else value, value)
            self.assertEqual(hash(copy.deepcopy(value)), hash(value))
        for protocol in range(2, pickle.HIGHEST_PROTOCOL + 1):
            week = pickle.loads(pickle.dumps(LEAP_DAY.isocalendar(), protocol))
            self.assertEqual((week, type(week)), (LEAP_DAY.isocalendar(), tuple))
        self.assertEqual(hash(LEAP_DAY.isocalendar()), hash((2024, 9, 4)))

    def test_hash(self):
        numbers = (*range(-1_000, 1_000), 738_945, -95_746_129, 95_745_399)
        self.assertGreater(len({hash(Date.from_number(it)) for it in numbers}), len(numbers) - 2)
        moments = [DateTime.from_seconds(seconds, nanos) for seconds in range(-100, 100) for nanos in range(100)]
        self.assertGreater(len({hash(it) for it in moments}), 19_900)
        self.assertEqual({LEAP_DAY: 1, NOON: 2, HOUR: 3}[DateTime(LEAP_DAY, 12, 30, 15, 250_000_000)], 2)
        self.assertEqual(hash(Duration(minutes=60)), hash(HOUR))

    @unittest.skipIf("SKIP_MEMORY" in os.environ, "it takes seconds")
    @unittest.skipIf("SKIP_MEMORY" in os.environ, "it takes seconds")
    def test_memory(self):
        """Rounds of all calls, and of calls that fail, leave no more memory in use and no more references to the types."""

        def failing(call, *arguments, **named):
            try:
                call(*arguments, **named)
            except (ValueError, OverflowError, TypeError):
                return
            self.fail(f"{call} {arguments}")

        def round_of_calls():
            day = Day(2024, 2, 29)
            day.other = [day.note]
            made = [
                Date(2024, 2, day=29), LEAP_DAY + 400, LEAP_DAY - 400, LEAP_DAY - timedelta(400), LEAP_DAY + Duration(days=1),
                LEAP_DAY - Date(1, 1, 1), LEAP_DAY.isocalendar(), LEAP_DAY.isoformat(), LEAP_DAY.replace(year=2000), repr(LEAP_DAY),
                f"{LEAP_DAY:>20}", Date.fromisoformat("2024-02-29"), Date.fromordinal(1), Date.from_day_of_year(2024, 60),
                Date.from_iso_week(2024, 9, 4), LEAP_DAY.first_on([1, 7]), LEAP_DAY.week_first_day(3), LEAP_DAY.to_date(),
                Date.from_date(THEIR_LEAP_DAY), pickle.loads(pickle.dumps(LEAP_DAY)), LEAP_DAY.isoweekday(), LEAP_DAY.year,
                DateTime(LEAP_DAY, second=5), NOON + HOUR, NOON - HOUR, NOON + timedelta(1), NOON - LEAP_SECOND, NOON.date, NOON.year,
                NOON.replace(hour=1), NOON.isoformat(), repr(NOON), DateTime.fromisoformat(str(NOON)), NOON.to_datetime(),
                DateTime.from_datetime(THEIR_NOON), pickle.loads(pickle.dumps(NOON)), NOON.seconds, NOON.isocalendar(),
                Duration(days=10**30, hours=-24 * 10**30), LONGEST.nanoseconds, -LONGEST, HOUR + timedelta(1), timedelta(1) - HOUR,
                HOUR.to_timedelta(), Duration.from_timedelta(timedelta(1)), repr(HOUR), abs(-HOUR), pickle.loads(pickle.dumps(HOUR)),
                DateTime(2024, 2, 29, 12, microsecond=5), NOON.isoformat(" ", "minutes"), NOON.add_months(1), Date.fromisoformat("20240229"),
                DateTime.fromisoformat("2024-W09-4 12"), Duration(1.5, hours=2), HOUR * 2, 2.5 * HOUR, HOUR / 3, HOUR / HOUR, HOUR // 7,
                divmod(HOUR, Duration(7)), HOUR % timedelta(7), str(HOUR), HOUR.days, LEAP_DAY == THEIR_LEAP_DAY, NOON < THEIR_NOON,
                HOUR == timedelta(hours=1), hash(LEAP_DAY), hash(Date.MIN), hash(HOUR), hash(LONGEST), hash(NOON.replace(nanosecond=1)),
                f"{NOON:%H}", Date.fromisocalendar(2024, 9, 4), Time(12, 30) == Time.fromisoformat("12:30"), hash(Time(12)),
                days_in_month(2024, 2), days_until([1, 5], 3), is_leap_year(2024), LEAP_DAY == NOON, LEAP_DAY < LEAP_DAY, hash(NOON),
                day + 1, day.replace(day=1), copy.copy(day), Day.fromordinal(1), pickle.loads(pickle.dumps(Span(seconds=1))),
                Moment.fromisoformat(str(NOON)) + HOUR,
            ]
            failing(Date, 2024, 2, 30)
            failing(Date, 2024, 2)
            failing(Date, 2024, 2, days=1)
            failing(Date, 2024, 2, "1")
            failing(Date.fromisoformat, "2024-02-30")
            failing(Date.fromisoformat, "\ud800")
            failing(Date.fromisoformat, 1)
            failing(LEAP_DAY.first_on, [1, 8])
            failing(LEAP_DAY.first_on, [1, "8"])
            failing(LEAP_DAY.__add__, timedelta.max)
            failing(LEAP_DAY.add_months, 10**9)
            failing(lambda: LEAP_DAY + "1")
            failing(DateTime, LEAP_DAY, 24)
            failing(DateTime.fromisoformat, "2024-02-29T24:00:00")
            failing(lambda: NOON + LONGEST)
            failing(lambda: NOON + 1)
            failing(LEAP_SECOND.to_datetime)
            failing(Date.MIN.to_date)
            failing(LONGEST.to_timedelta)
            failing(Duration, nanoseconds=2**90)
            failing(Duration, days=10**30, hours=None)
            failing(Duration, days="1")
            failing(lambda: LONGEST + HOUR)
            failing(lambda: LONGEST * 2)
            failing(lambda: HOUR * float("nan"))
            failing(lambda: HOUR * "1")
            failing(Duration, 1.5, hours="1")
            failing(Duration, float("nan"), hours=1)
            failing(NOON.isoformat, "ab")
            failing(NOON.isoformat, timespec="days")
            failing(NOON.add_months, 10**9)
            failing(DateTime, 2024, 2, 29, microsecond=1, nanosecond=1)
            failing(Date.fromisoformat, "20240230")
            failing(DateTime.fromisoformat, "2024-02-29T12+24:00")
            failing(Time.fromisoformat, "12Z")
            return made

        kinds = (Date, DateTime, Duration, IsoCalendarDate, Day, Span, Moment, timedelta, Weekday.MONDAY)

        def in_use():
            gc.collect()
            return tracemalloc.get_traced_memory()[0], [sys.getrefcount(it) for it in kinds]

        stretch, growth, references = 200, [], []
        tracemalloc.start()
        try:
            for _ in range(8):
                memory, counts = in_use()
                for _ in range(stretch):
                    round_of_calls()
                memory_after, counts_after = in_use()
                growth.append(memory_after - memory)
                references.append(max(abs(two - one) for one, two in zip(counts, counts_after)))
        finally:
            tracemalloc.stop()
        # (Python keeps things of its own now and then; what a call keeps it keeps in each stretch)
        self.assertLess(min(growth), 24 * stretch)
        self.assertLess(min(references), stretch)


class Moves(unittest.TestCase):
    def test_days(self):
        for days in (0, 1, -1, 366, -738_000):
            theirs = THEIR_LEAP_DAY + timedelta(days)
            for by in (timedelta(days), Duration(days=days), days):
                self.assertEqual((LEAP_DAY + by).isoformat(), theirs.isoformat())
                self.assertEqual(by + LEAP_DAY, LEAP_DAY + by)
                self.assertEqual((LEAP_DAY + by) - by, LEAP_DAY)
        for part in (timedelta(hours=36), timedelta(microseconds=-1), Duration(nanoseconds=1), Duration(days=1, seconds=-1)):
            self.assertEqual([LEAP_DAY + part, part + LEAP_DAY, LEAP_DAY - part], [LEAP_DAY + part.days, LEAP_DAY + part.days, LEAP_DAY - part.days])
            for by in (part, -part) if isinstance(part, timedelta) else ():
                self.assertEqual([LEAP_DAY + by, LEAP_DAY - by], [THEIR_LEAP_DAY + by, THEIR_LEAP_DAY - by])
        self.assertRaises(OverflowError, lambda: LEAP_DAY + timedelta.max.days)
        self.assertRaises(OverflowError, lambda: LEAP_DAY + timedelta(timedelta.max.days))
        self.assertRaises(OverflowError, lambda: LEAP_DAY - Duration(days=10**11))

    def test_moments(self):
        for by in (timedelta(0), timedelta(days=-400, microseconds=1), timedelta(microseconds=-1), timedelta(hours=5, seconds=7)):
            length = Duration.from_timedelta(by)
            theirs = (THEIR_NOON + by).isoformat(timespec="microseconds")
            for ours in (NOON + by, by + NOON, NOON + length, length + NOON, NOON - -length, NOON - -by):
                self.assertEqual(ours.to_datetime().isoformat(timespec="microseconds"), theirs)
            self.assertEqual((NOON + by) - NOON, length)
            self.assertEqual((length.to_timedelta(), length + by, by + length), (by, length + length, length + length))
            self.assertEqual((by - length, length - by, length + -length), (Duration(), Duration(), Duration()))

    def test_replace(self):
        parts = {"year": 2020, "month": 3, "day": 7}
        for name, value in parts.items():
            self.assertEqual(LEAP_DAY.replace(**{name: value}).isoformat(), THEIR_LEAP_DAY.replace(**{name: value}).isoformat())
        self.assertEqual(LEAP_DAY.replace(2020, 3, 7), Date(2020, 3, 7))
        for call, count in ((Date.replace, 3), (DateTime.replace, 10), (Time.replace, 5)):
            _, *taken = inspect.signature(call).parameters.values()
            self.assertEqual([it.default for it in taken], [...] * count)
        self.assertRaises(TypeError, lambda: LEAP_DAY.replace(day=None))
        self.assertEqual(LEAP_DAY.replace(), LEAP_DAY)
        self.assertEqual(NOON.replace(2020, 3, 7, 1, 2, 3, nanosecond=4), DateTime(Date(2020, 3, 7), 1, 2, 3, 4))
        self.assertEqual(NOON.replace(microsecond=5), DateTime(LEAP_DAY, 12, 30, 15, 5_000))
        self.assertRaises(TypeError, lambda: NOON.replace(2020, 3, 7, 1, 2, 3, 4))
        self.assertRaises(TypeError, lambda: NOON.replace(microsecond=1, nanosecond=1_000))
        for name, value in {**parts, "hour": 1, "minute": 2, "second": 3}.items():
            self.assertEqual(NOON.replace(**{name: value}).to_datetime(), THEIR_NOON.replace(**{name: value}))
        self.assertEqual(NOON.replace(nanosecond=1).nanosecond, 1)
        self.assertEqual(LEAP_SECOND.replace(nanosecond=5), DateTime(Date(2016, 12, 31), 23, 59, 60, 5))
        self.assertEqual(LEAP_SECOND.replace(second=59), DateTime(Date(2016, 12, 31), 23, 59, 59))
        self.assertRaises(ValueError, LEAP_DAY.replace, year=2023)
        self.assertRaises(ValueError, NOON.replace, year=2023)

    def test_durations(self):
        self.assertFalse(Duration())
        self.assertTrue(Duration(nanoseconds=1) and Duration(nanoseconds=-1) and HOUR)
        self.assertEqual((abs(-HOUR), abs(HOUR), +HOUR, -(-HOUR)), (HOUR, HOUR, HOUR, HOUR))
        self.assertEqual(abs(Duration(nanoseconds=-1)), Duration(nanoseconds=1))
        self.assertLess(-HOUR, Duration())
        self.assertLess(Duration(nanoseconds=-1), Duration())
        self.assertLess(HOUR, HOUR + Duration(nanoseconds=1))
        for nanoseconds in (0, 1, -1, 10**9, -(10**9), 10**18, 10**18 + 1, -(10**18) - 1, 2**63, -(2**63), (2**63 - 1) * 10**6):
            self.assertEqual(Duration(nanoseconds=nanoseconds).nanoseconds, nanoseconds)
            self.assertEqual(Duration.from_nanoseconds(nanoseconds).nanoseconds, nanoseconds)
        for parts in [(1, -24, 0, 0, 0), (2**40 - 1, 0, 0, 0, 0), (0, 2**40, -(2**40), 5, 7), (-(10**11), 3, 3, 3, 2**62)]:
            whole = sum(it * unit for it, unit in zip(parts, (86_400 * 10**9, 3_600 * 10**9, 60 * 10**9, 10**9, 1)))
            named = dict(zip(("days", "hours", "minutes", "seconds", "nanoseconds"), parts))
            if abs(whole) > LONGEST.nanoseconds:
                self.assertRaises(OverflowError, lambda: Duration(**named))
            else:
                self.assertEqual(Duration(**named).nanoseconds, whole)


class Names(unittest.TestCase):
    def test_fields(self):
        for number in range(1, 3_652_060, 9_973):
            ours, theirs = Date.fromordinal(number), datetime.date.fromordinal(number)
            for name in ("year", "month", "day"):
                self.assertEqual(getattr(ours, name), getattr(theirs, name))
                self.assertEqual(getattr(DateTime(ours, 23), name), getattr(theirs, name))
            for name in ("weekday", "isoweekday", "toordinal", "isocalendar"):
                self.assertEqual(getattr(ours, name)(), getattr(theirs, name)())
                self.assertEqual(getattr(DateTime(ours, 23), name)(), getattr(theirs, name)())
            self.assertEqual(ours.isoformat(), theirs.isoformat())
            self.assertEqual((ours.number, ours.ordinal), (number, theirs.timetuple().tm_yday))

    def test_iso_calendar(self):
        year, week, weekday = LEAP_DAY.isocalendar()
        named = LEAP_DAY.isocalendar()
        self.assertEqual((year, week, weekday), (named.year, named.week, named.weekday))
        self.assertIs(named.weekday, Weekday.THURSDAY)
        self.assertEqual(named, THEIR_LEAP_DAY.isocalendar())

    def test_format(self):
        for width in ("", "20", ">20", "^20", "*<20", "s", ".4"):
            self.assertEqual(format(LEAP_DAY, width), format("2024-02-29", width))
            self.assertEqual(format(NOON, width), format("2024-02-29T12:30:15.250", width))
            self.assertEqual(format(HOUR, width), format("1:00:00", width))
            self.assertEqual(format(Time(12, 30), width), format("12:30:00", width))
        for value in (LEAP_DAY, NOON, HOUR, Time(12)):
            self.assertRaises(ValueError, format, value, "d")
            self.assertRaises(TypeError, value.__format__, 1)
        self.assertRaisesRegex(ValueError, "strftime", format, HOUR, "%H")
        self.assertEqual((f"{LEAP_DAY:%Y}", f"{NOON:at %H:%M}", f"{Time(12, 30):%M}"), ("2024", "at 12:30", "30"))

    def test_patterns(self):
        self.assertEqual(Date.__match_args__, ("year", "month", "day"))
        self.assertEqual(DateTime.__match_args__, ("date", "hour", "minute", "second", "nanosecond"))
        match HOUR:
            case Duration(nanoseconds=3_600_000_000_000):
                pass
            case _:
                self.fail("the pattern of a duration")


class Datetime(unittest.TestCase):
    def test_dates(self):
        for number in (1, 2, 738_945, 3_652_058, 3_652_059):
            theirs = datetime.date.fromordinal(number)
            self.assertEqual(Date.from_date(theirs).number, number)
            self.assertEqual(Date.fromordinal(number).to_date(), theirs)
            self.assertIs(type(Date.fromordinal(number).to_date()), datetime.date)
        for date, year in {Date(0, 12, 31): "0", Date(10_000, 1, 1): "10000", Date.MIN: "-262143", Date.MAX: "262142"}.items():
            self.assertRaisesRegex(OverflowError, f"year {year}: .* 1 to 9999", date.to_date)
            self.assertRaisesRegex(OverflowError, f"year {year}: .* 1 to 9999", DateTime(date, 1).to_datetime)
        for value in (THEIR_NOON, 738_945, "2024-02-29", None, LEAP_DAY):
            self.assertRaises(TypeError, Date.from_date, value)

    def test_moments(self):
        for theirs in (datetime.datetime.min, datetime.datetime.max, THEIR_NOON, datetime.datetime(2024, 2, 29)):
            ours = DateTime.from_datetime(theirs)
            self.assertEqual(ours.isoformat()[:19], theirs.isoformat()[:19])
            self.assertEqual(ours.nanosecond, 1_000 * theirs.microsecond)
            self.assertEqual(ours.to_datetime(), theirs)
        self.assertRaisesRegex(ValueError, "leap second", LEAP_SECOND.to_datetime)
        self.assertRaisesRegex(ValueError, "leap second", LEAP_SECOND.replace(nanosecond=999_999_999).to_datetime)
        self.assertRaisesRegex(ValueError, "nanosecond 1: .*microseconds", NOON.replace(nanosecond=1).to_datetime)
        for value in (THEIR_LEAP_DAY, 0, None, NOON):
            self.assertRaises(TypeError, DateTime.from_datetime, value)

    def test_timedeltas(self):
        for theirs in (timedelta.min, timedelta.max, timedelta(0), timedelta(microseconds=-1), timedelta(days=-1, seconds=1)):
            self.assertEqual(Duration.from_timedelta(theirs).to_timedelta(), theirs)
            self.assertEqual(Duration.from_timedelta(theirs).nanoseconds, theirs // timedelta(microseconds=1) * 1_000)
        for days in (-1_000_000_000, 1_000_000_000):
            self.assertRaises(OverflowError, Duration(days=days).to_timedelta)
        self.assertEqual(Duration(days=-999_999_999).to_timedelta(), timedelta(days=-999_999_999))
        self.assertRaisesRegex(ValueError, "microseconds", Duration(nanoseconds=1).to_timedelta)
        self.assertRaises(TypeError, Duration.from_timedelta, HOUR)

    def test_nanoseconds_of_derived_classes(self):
        class Timestamp(datetime.datetime):
            nanosecond = 789

        class Timedelta(timedelta):
            nanoseconds = 7

        stamp, length = Timestamp(2024, 2, 29, 12, 30, 15, 250_000), Timedelta(microseconds=-1)
        self.assertEqual(DateTime.from_datetime(stamp), NOON.replace(nanosecond=250_000_789))
        self.assertEqual(Duration.from_timedelta(length), Duration(nanoseconds=-993))
        for moved in (NOON + length, length + NOON):
            self.assertEqual(moved, NOON + Duration(nanoseconds=-993))
        self.assertEqual(NOON - length, NOON + Duration(nanoseconds=993))
        self.assertEqual(HOUR + length, Duration(hours=1, nanoseconds=-993))
        for wrong in (-1, 1_000, 10**30):
            Timestamp.nanosecond = Timedelta.nanoseconds = wrong
            self.assertRaisesRegex(ValueError, "nanosecond .*0 to 999", DateTime.from_datetime, stamp)
            self.assertRaisesRegex(ValueError, "nanoseconds .*0 to 999", Duration.from_timedelta, length)
        Timestamp.nanosecond = Timedelta.nanoseconds = "7"
        self.assertRaises(TypeError, DateTime.from_datetime, stamp)
        self.assertRaises(TypeError, Duration.from_timedelta, length)

    @unittest.skipUnless(pandas, "there is no pandas")
    def test_pandas(self):
        stamp, length = pandas.Timestamp("2024-02-29T12:30:15.250000789"), pandas.Timedelta(7, "ns")
        self.assertEqual(DateTime.from_datetime(stamp).isoformat(), "2024-02-29T12:30:15.250000789")
        self.assertEqual(NOON + length, NOON.replace(nanosecond=250_000_007))
        self.assertEqual(Duration.from_timedelta(-length), Duration(nanoseconds=-7))

    def test_parts_that_others_read(self):
        self.assertEqual((NOON.microsecond, NOON.replace(nanosecond=250_000_789).microsecond, LEAP_SECOND.microsecond), (250_000, 250_000, 0))
        self.assertIsNone(NOON.tzinfo)

    @unittest.skipUnless(numpy, "there is no numpy")
    def test_numpy(self):
        self.assertEqual(numpy.datetime64(NOON), numpy.datetime64("2024-02-29T12:30:15.250"))
        self.assertEqual(numpy.array([NOON], "M8[s]")[0], numpy.datetime64("2024-02-29T12:30:15"))
        self.assertEqual(numpy.array([NOON]).astype("M8[us]")[0], numpy.datetime64("2024-02-29T12:30:15.250"))
        self.assertEqual(numpy.datetime64(str(NOON.replace(nanosecond=1))), numpy.datetime64("2024-02-29T12:30:15.000000001"))
        self.assertRaises(ValueError, numpy.datetime64, LEAP_SECOND)


class Refusals(unittest.TestCase):
    def test_messages(self):
        for call, text in {
            lambda: Date(2024, 2, 30): "day 30 of 2024-02: the month has 29 days",
            lambda: Date(2023, 2, 29): "day 29 of 2023-02: the month has 28 days",
            lambda: Date(2024, 4, 0): "day 0 of 2024-04: the month has 30 days",
            lambda: Date(-4, 2, 30): "day 30 of -0004-02: the month has 29 days",
            lambda: Date(12_345, 1, 32): "day 32 of +12345-01: the month has 31 days",
            lambda: Date(2024, 1, 10**30): "day 2^63 - 1 or more of 2024-01: the month has 31 days",
            lambda: Date(2024, 1, -(10**30)): "day -2^63 or less of 2024-01: the month has 31 days",
            lambda: Date(2024, 13, 1): "month 13 of 2024: months are 1 to 12",
            lambda: Date(262_143, 1, 1): "year 262143: the calendar has those from -262143 to 262142",
            lambda: Date(-262_144, 1, 1): "year -262144: the calendar has those from -262143 to 262142",
            lambda: Date.from_day_of_year(2023, 366): "day 366 of 2023: the year has 365 days",
            lambda: Date.from_day_of_year(2024, 367): "day 367 of 2024: the year has 366 days",
            lambda: Date.from_day_of_year(262_143, 1): "year 262143: the calendar has those from -262143 to 262142",
            lambda: Date.from_iso_week(2024, 53, 1): "week 53 of ISO year 2024: the year has 52 weeks",
            lambda: Date.from_iso_week(2020, 54, 1): "week 54 of ISO year 2020: the year has 53 weeks",
            lambda: Date.from_iso_week(2024, 9, 8): "weekday 8: weekdays are 1 for Monday to 7 for Sunday",
            lambda: Date.from_iso_week(262_143, 1, 2): "weekday 2 of +262143-W01: the day lies beyond the calendar",
            lambda: Date.from_iso_week(262_144, 1, 2): "ISO year 262144: the calendar has those from -262143 to 262143",
            lambda: Date.from_weekday_of_month(2024, 2, 5, 5): "weekday 5 number 5 of 2024-02: the month has 4",
            lambda: Date.from_weekday_of_month(2024, 2, 4, 6): "weekday 4 number 6 of 2024-02: the month has 5",
            lambda: Date.from_weekday_of_month(2024, 2, 9, 1): "weekday 9: weekdays are 1 for Monday to 7 for Sunday",
            lambda: Date.from_weekday_of_month(2024, 0, 9, 1): "month 0 of 2024: months are 1 to 12",
            lambda: Date.fromordinal(95_745_400): "number 95745400: dates are -95746129 to 95745399",
            lambda: Date.fromisoformat("2024-02-30"): "day 30 of 2024-02: the month has 29 days",
            lambda: Date.fromisoformat("-0004-13-30"): "month 13 of -0004: months are 1 to 12",
            lambda: Date.fromisoformat("+2024-02-29"): "'+2024-02-29' is no text of a date",
            lambda: Date.fromisoformat("2024-2-29"): "'2024-2-29' is no text of a date",
            lambda: Date.fromisoformat("2024-02-2x"): "'2024-02-2x' is no text of a date",
            lambda: Date.fromisoformat(""): "'' is no text of a date",
            lambda: DateTime.fromisoformat("2024-02-30T12:00:00"): "day 30 of 2024-02: the month has 29 days",
            lambda: DateTime.fromisoformat("2024-02-29T24:00:00"): "hour 24: hours are 0 to 23",
            lambda: DateTime.fromisoformat("2024-02-29 23:60:00.5"): "minute 60: minutes are 0 to 59",
            lambda: DateTime.fromisoformat("2024-02-29T00:00:61"): "second 61: seconds are 0 to 59, and 60 in a leap second",
            lambda: DateTime.fromisoformat("2024-02-30T24:00:00"): "day 30 of 2024-02: the month has 29 days",
            lambda: DateTime.fromisoformat("2024-02-29T24:00"): "hour 24: hours are 0 to 23",
            lambda: DateTime.fromisoformat("2024-W0912"): "'2024-W0912' is no text of a date-time",
            lambda: DateTime.fromisoformat("2024-W54-1T12"): "week 54 of ISO year 2024: the year has 52 weeks",
            lambda: DateTime.fromisoformat("20240230"): "day 30 of 2024-02: the month has 29 days",
            lambda: DateTime.fromisoformat("2024-02-29T12:00+01:60"): "'+01:60' is no text of an offset",
            lambda: DateTime(2024, 2, 29, fold=2): "fold 2: it is 0, or 1 for the second one of two equal local times",
            lambda: Time.fromisoformat("12:00Z"): "'12:00Z' has an offset, and a Time has no time zone",
            lambda: Time.fromisoformat("12:60"): "minute 60: minutes are 0 to 59",
            lambda: Time.fromisoformat("12h"): "'12h' is no text of a time of day",
            lambda: Duration.fromisoformat("P1Y"): "'P1Y' is no text of a duration",
            lambda: NOON.isoformat(timespec="days"):
                "timespec 'days': it is auto, hours, minutes, seconds, milliseconds, microseconds or nanoseconds",
            lambda: Date.fromisoformat("2024W541"): "week 54 of ISO year 2024: the year has 52 weeks",
            lambda: Date.fromisoformat("20240230"): "day 30 of 2024-02: the month has 29 days",
            lambda: DateTime.fromisoformat("2024-02-29T24:00:00."): "'2024-02-29T24:00:00.' is no text of a date-time",
            lambda: DateTime.fromisoformat("2024-02-29T24:00:00.1234567890"): "'2024-02-29T24:00:00.1234567890' is no text of a date-time",
            lambda: DateTime.fromisoformat("2024-02-29T24:00:00Z"): "hour 24: hours are 0 to 23",
            lambda: DateTime(LEAP_DAY, 24): "hour 24: hours are 0 to 23",
            lambda: DateTime(LEAP_DAY, 0, -1): "minute -1: minutes are 0 to 59",
            lambda: DateTime(LEAP_DAY, 0, 0, 61): "second 61: seconds are 0 to 59, and 60 in a leap second",
            lambda: DateTime(LEAP_DAY, 0, 0, 0, 10**9): "nanosecond 1000000000: nanoseconds are 0 to 999999999",
            lambda: DateTime(2024, 2, 29, 0, 0, 0, 10**6): "microsecond 1000000: microseconds are 0 to 999999",
            lambda: DateTime(2024, 2, 29, microsecond=-1): "microsecond -1: microseconds are 0 to 999999",
            lambda: DateTime(2024, 2, 30): "day 30 of 2024-02: the month has 29 days",
            lambda: Time(24): "hour 24: hours are 0 to 23",
            lambda: NOON.replace(month=13): "month 13 of 2024: months are 1 to 12",
            lambda: NOON.replace(hour=25): "hour 25: hours are 0 to 23",
            lambda: days_in_month(2024, 13): "month 13 of 2024: months are 1 to 12",
            lambda: days_until([], 1): "no weekday is given",
            lambda: LEAP_DAY.first_on([0]): "weekday 0: weekdays are 1 for Monday to 7 for Sunday",
            lambda: LEAP_DAY.years_since(LEAP_DAY + 1): "2024-03-01 is later than 2024-02-29",
        }.items():
            with self.assertRaises(ValueError) as refused:
                call()
            self.assertEqual(str(refused.exception), text)

    def test_types(self):
        for call, text in {
            lambda: Date(2024, 2): "Date needs day",
            lambda: Date(2024, 2, 29, 1): "Date takes at most 3 arguments by place, not 4",
            lambda: Date(2024, 2, 29, day=1): "Date is given day twice",
            lambda: LEAP_DAY.replace(hour=1): "replace has no parameter 'hour'",
            lambda: DateTime("2024-02-29"): "a Date, as in DateTime(Date(2024, 2, 29), 12), or a year is wanted, not str",
            lambda: DateTime(THEIR_LEAP_DAY): "a Date, as in DateTime(Date(2024, 2, 29), 12), or a year is wanted, not date",
            lambda: DateTime(date=2024): "a Date, as in DateTime(Date(2024, 2, 29), 12), or a year is wanted, not int",
            lambda: DateTime(2024, 2): "DateTime needs day",
            lambda: DateTime(): "DateTime needs date",
            lambda: DateTime.combine(LEAP_DAY, 12): "a Time or a datetime.time is wanted, not int",
            lambda: DateTime.combine("2024-02-29", Time()): "a Date or a datetime.date is wanted, not str",
            lambda: NOON.replace(microsecond=1, nanosecond=1): "the fraction is given twice: nanosecond is the whole fraction, and microsecond too",
            lambda: Date.fromisoformat(b"2024-02-29"): "a str is wanted, not bytes",
            lambda: Date(2024, 2, 1.5): "'float' object cannot be interpreted as an integer",
            lambda: LEAP_DAY.years_since(NOON): "a Date is wanted, not DateTime",
        }.items():
            with self.assertRaises(TypeError) as refused:
                call()
            self.assertEqual(str(refused.exception), text)

    def test_raising_numbers(self):
        class Broken:
            def __index__(self):
                raise KeyError("broken")

        broken = Broken()

        def weekdays():
            yield 1
            raise KeyError("broken")

        for call in [
            lambda: Date(broken, 2, 29), lambda: Date(2024, 2, broken), lambda: LEAP_DAY + broken, lambda: broken + LEAP_DAY,
            lambda: LEAP_DAY - broken, lambda: DateTime(LEAP_DAY, broken), lambda: Duration(days=broken), lambda: NOON.replace(day=broken),
            lambda: Duration(nanoseconds=broken), lambda: LEAP_DAY.first_on(weekdays()), lambda: days_until([broken], 1),
            lambda: LEAP_DAY.week_first_day(broken), lambda: DateTime.from_seconds(0, broken), lambda: is_leap_year(broken),
        ]:
            self.assertRaises(KeyError, call)

    def test_comparisons(self):
        aware = THEIR_NOON.replace(tzinfo=datetime.timezone.utc)
        for left, right in [
            (LEAP_DAY, THEIR_NOON), (LEAP_DAY, NOON), (NOON, THEIR_LEAP_DAY), (NOON, aware), (HOUR, 1), (LEAP_DAY, 738_945),
            (Time(12), NOON), (Time(12), aware.timetz()), (Time(12), 12), (LEAP_DAY, "2024-02-29"), (HOUR, NOON),
        ]:
            self.assertNotEqual(right, left)
            self.assertNotEqual(left, right)
            for compare in (lambda: left < right, lambda: left <= right, lambda: left > right, lambda: left >= right):
                self.assertRaises(TypeError, compare)


if __name__ == "__main__":
    unittest.main()
