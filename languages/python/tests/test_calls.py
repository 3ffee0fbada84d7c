#!/usr/bin/env python3
"""Calls every function of calendar.h through proved_calendar, with answers that are known from outside: a test for each function,
named after it, and then what Python adds."""
import copy
import pickle
import unittest
from datetime import date as python_date
from datetime import timedelta

from proved_calendar import Date, DateTime, Duration, Weekday, days_in_month, days_until, is_leap_year

MON, TUE, WED, THU, FRI, SAT, SUN = Weekday
FIRST, LAST = Date(-262143, 1, 1), Date(262142, 12, 31)
LEAP_DAY = Date(2024, 2, 29)
# Ends of C's whole numbers, past them, and past those that Python writes.
LARGE = (2**31 - 1, 2**31, 2**32 - 1, 2**32, 2**63 - 1, 2**63, 2**64, 10**5_000)
SMALL = (-(2**31), -(2**31) - 1, -(2**63), -(2**63) - 1, -(10**5_000))


class Number:
    """A whole number of a type of its own, as those of other libraries."""

    def __init__(self, number):
        self.number = number

    def __index__(self):
        return self.number


class Answers(unittest.TestCase):
    def none(self, call, *arguments):
        """There is no such thing."""
        with self.assertRaises(ValueError, msg=arguments):
            call(*arguments)

    def beyond(self, call, *arguments):
        """There is none, since the calendar ends."""
        with self.assertRaises(OverflowError, msg=arguments):
            call(*arguments)


class Names(Answers):
    def test_from_ymd(self):
        for name, number in {
            (1, 1, 1): 1, (0, 12, 31): 0, (0, 2, 29): -306, (-4, 2, 29): -1767, (1970, 1, 1): 719163, (2000, 2, 29): 730179,
            (2024, 2, 29): 738945, (9999, 12, 31): 3652059, (10000, 1, 1): 3652060, (-262143, 1, 1): -95746129,
            (262142, 12, 31): 95745399,
        }.items():
            self.assertEqual(Date(*name).number, number)
        for name in [(2023, 2, 29), (1900, 2, 29), (-100, 2, 29), (2024, 4, 31), (2024, 0, 1), (2024, 13, 1), (2024, 1, 0),
                     (2024, -1, 1), (2024, 1, -1), (-262144, 12, 31), (262143, 1, 1)]:
            self.none(Date, *name)
        for number in LARGE + SMALL:
            self.none(Date, number, 2, 28)
            self.none(Date, 2024, number, 28)
            self.none(Date, 2024, 2, number)
            # (a number that is 2024, 2 or 28 in its last 32 bits)
            self.none(Date, 2**32 + 2024, 2, 28)
            self.none(Date, 2024, 2**32 + 2, 28)
            self.none(Date, 2024, 2, 2**32 + 28)
            self.none(Date, 2024, 2 - 2**32, 28)
            self.none(Date, 2024, 2, 28 - 2**32)

    def test_from_yo(self):
        for name, number in {
            (2024, 60): 738945, (2024, 366): 739251, (2023, 365): 738885, (-262143, 1): -95746129, (262142, 365): 95745399,
        }.items():
            self.assertEqual(Date.from_day_of_year(*name).number, number)
        for name in [(2023, 366), (2024, 367), (2024, 0), (2024, -1), (262143, 1), (2024, 2**32 + 60), (2**32 + 2024, 60)]:
            self.none(Date.from_day_of_year, *name)

    def test_from_isoywd(self):
        for name, number in {
            (2024, 9, 4): 738945, (2009, 1, 1): 733405, (2009, 53, 7): 733775, (2026, 53, 4): 739981, (-1, 52, 6): -365,
            (-262143, 1, 4): -95746129, (262143, 1, 1): 95745399,
        }.items():
            self.assertEqual(Date.from_iso_week(*name).number, number)
        for name in [(-262143, 1, 3), (262143, 1, 2), (2024, 53, 1), (2024, 0, 1), (2024, 9, 0), (2024, 9, 8),
                     (2024, 9, 2**32 + 4), (2024, 2**32 + 9, 4), (2**32 + 2024, 9, 4), (2024, -1, 1)]:
            self.none(Date.from_iso_week, *name)

    def test_from_weekday_of_month(self):
        for name, number in {(2024, 2, THU, 5): 738945, (2024, 2, THU, 1): 738917, (262142, 12, MON, 5): 95745399}.items():
            self.assertEqual(Date.from_weekday_of_month(*name).number, number)
        for name in [(2024, 2, FRI, 5), (2024, 2, THU, 0), (2024, 2, THU, 6), (2024, 2, 0, 1), (2024, 2, 8, 1), (2024, 13, 1, 1),
                     (2024, 2, THU, 2**32 + 1), (2024, 2, 2**32 + 4, 1), (2024, 2**32 + 2, 4, 1), (2**32 + 2024, 2, 4, 1)]:
            self.none(Date.from_weekday_of_month, *name)

    def test_number(self):
        for number in (-95746129, -1, 0, 1, 738945, 95745399):
            self.assertEqual(Date.from_number(number).number, number)
        for number in (-95746130, 95745400, *LARGE, *SMALL):
            self.none(Date.from_number, number)


class Fields(Answers):
    # Each field of the first and the last date, of days around year 0 and of ISO years that begin before or after the year.
    DAYS = {
        -95746129: (-262143, 1, 1, 1, THU, -262143, 1),
        -95745765: (-262143, 12, 31, 365, THU, -262143, 53),
        -1767: (-4, 2, 29, 60, THU, -4, 9),
        -730: (-1, 1, 1, 1, FRI, -2, 53),
        -365: (0, 1, 1, 1, SAT, -1, 52),
        0: (0, 12, 31, 366, SUN, 0, 52),
        1: (1, 1, 1, 1, MON, 1, 1),
        733405: (2008, 12, 29, 364, MON, 2009, 1),
        733775: (2010, 1, 3, 3, SUN, 2009, 53),
        738945: (2024, 2, 29, 60, THU, 2024, 9),
        3652060: (10000, 1, 1, 1, SAT, 9999, 52),
        95745399: (262142, 12, 31, 365, MON, 262143, 1),
    }

    def of_all(self, name, place):
        for number, fields in self.DAYS.items():
            self.assertEqual(getattr(Date.from_number(number), name), fields[place])

    def test_year(self):
        self.of_all("year", 0)

    def test_month(self):
        self.of_all("month", 1)

    def test_day(self):
        self.of_all("day", 2)

    def test_ordinal(self):
        self.of_all("ordinal", 3)

    def test_weekday(self):
        for number, fields in self.DAYS.items():
            date = Date.from_number(number)
            self.assertIs(date.isoweekday(), fields[4])
            self.assertEqual(date.weekday(), fields[4] - 1)
            self.assertEqual(DateTime(date).isoweekday(), fields[4])
            self.assertEqual(DateTime(date).weekday(), fields[4] - 1)

    def test_iso_year(self):
        self.of_all("iso_year", 5)

    def test_iso_week(self):
        self.of_all("iso_week", 6)

    def test_is_leap_year(self):
        for year in (2024, 2000, 0, -4, -400, -(2**31)):
            self.assertIs(is_leap_year(year), True)
        for year in (2023, 1900, -1, -100, 2**31 - 1):
            self.assertIs(is_leap_year(year), False)
        self.none(is_leap_year, 2**31)
        self.none(is_leap_year, -(2**31) - 1)

    def test_days_in_month(self):
        for month, days in {(2024, 2): 29, (2023, 2): 28, (0, 2): 29, (-262143, 1): 31, (262142, 11): 30}.items():
            self.assertEqual(days_in_month(*month), days)
        for month in [(2024, 0), (2024, 13), (2024, -1), (2024, 2**32 + 1), (262143, 1), (-262144, 12), (2**32 + 2024, 2)]:
            self.none(days_in_month, *month)


class Moves(Answers):
    def test_add_days(self):
        self.assertEqual(LEAP_DAY + 1, Date(2024, 3, 1))
        self.assertEqual(1 + LEAP_DAY, Date(2024, 3, 1))
        self.assertEqual(LEAP_DAY - 60, Date(2023, 12, 31))
        self.assertEqual(LEAP_DAY + -738945, Date(0, 12, 31))
        self.assertEqual(FIRST + 191491528, LAST)
        self.assertEqual(LAST - 191491528, FIRST)
        self.assertEqual(LAST - FIRST, 191491528)
        self.assertEqual(FIRST - LAST, -191491528)
        self.beyond(LAST.__add__, 1)
        self.beyond(FIRST.__sub__, 1)
        for number in LARGE + SMALL:
            for value in (number, Number(number)):
                self.beyond(LEAP_DAY.__add__, value)
                self.beyond(LEAP_DAY.__sub__, value)

    def test_add_months(self):
        for start, months, end in [
            (LEAP_DAY, 12, Date(2025, 2, 28)), (Date(2024, 1, 31), 1, LEAP_DAY), (Date(2024, 3, 31), -1, LEAP_DAY),
            (Date(1, 1, 31), -11, Date(0, 2, 29)), (FIRST, 12 * 524285 + 11, Date(262142, 12, 1)),
            (LAST, -12 * 524285, Date(-262143, 12, 31)),
        ]:
            self.assertEqual(start.add_months(months), end)
        self.beyond(LAST.add_months, 1)
        self.beyond(FIRST.add_months, -1)
        for number in LARGE + SMALL:
            self.beyond(LEAP_DAY.add_months, number)

    def test_every_months(self):
        start = Date(2024, 1, 31)
        self.assertEqual([start.every_months(1, it) for it in range(3)], [start, LEAP_DAY, Date(2024, 3, 31)])
        self.assertEqual(LEAP_DAY.every_months(12, 4), Date(2028, 2, 29))
        self.assertEqual(LEAP_DAY.every_months(-12, 1), Date(2023, 2, 28))
        self.beyond(LEAP_DAY.every_months, 2**31 - 1, 2**32 - 1)
        self.beyond(LEAP_DAY.every_months, -(2**31), 2**32 - 1)
        for number in LARGE:
            # (2^32 is 0 in its last 32 bits)
            self.beyond(LEAP_DAY.every_months, number, 1)
            self.beyond(LEAP_DAY.every_months, -number, 1)
            self.beyond(LEAP_DAY.every_months, 1, number)
            self.assertEqual(LEAP_DAY.every_months(number, 0), LEAP_DAY)
            self.assertEqual(LEAP_DAY.every_months(-number, 0), LEAP_DAY)
            self.assertEqual(LEAP_DAY.every_months(0, number), LEAP_DAY)
        for number in (-1, *SMALL):
            self.none(LEAP_DAY.every_months, 1, number)
            self.none(LEAP_DAY.every_months, 0, number)

    def test_years_since(self):
        born = Date(2000, 2, 29)
        for date, years in [(LEAP_DAY, 24), (Date(2023, 2, 28), 22), (Date(2023, 3, 1), 23), (born, 0)]:
            self.assertEqual(date.years_since(born), years)
        self.assertEqual(LAST.years_since(FIRST), 524285)
        self.none(born.years_since, LEAP_DAY)

    def test_week_first_day(self):
        self.assertEqual(LEAP_DAY.week_first_day(), Date(2024, 2, 26))
        self.assertEqual(LEAP_DAY.week_first_day(THU), LEAP_DAY)
        self.assertEqual(LEAP_DAY.week_first_day(FRI), Date(2024, 2, 23))
        self.assertEqual(FIRST.week_first_day(THU), FIRST)
        self.beyond(FIRST.week_first_day, WED)
        for weekday in (0, 8, 2**32 + 1, -1):
            self.none(LEAP_DAY.week_first_day, weekday)

    def test_first_on(self):
        self.assertEqual(LEAP_DAY.first_on([THU]), LEAP_DAY)
        self.assertEqual(LEAP_DAY.first_on([WED]), Date(2024, 3, 6))
        self.assertEqual(LEAP_DAY.first_on({MON, SUN}), Date(2024, 3, 3))
        self.assertEqual(LEAP_DAY.first_on([WED, WED]), Date(2024, 3, 6))
        self.assertEqual(LEAP_DAY.first_on(Weekday), LEAP_DAY)
        self.assertEqual(LAST.first_on([MON]), LAST)
        self.beyond(LAST.first_on, [TUE])
        self.none(LEAP_DAY.first_on, [])
        self.none(LEAP_DAY.first_on, [8])

    def test_days_until(self):
        for weekdays, start, days in [([THU], THU, 0), ([WED], THU, 6), ({MON, SUN}, THU, 3), ([MON], SUN, 1), (Weekday, TUE, 0)]:
            self.assertEqual(days_until(weekdays, start), days)
        for start in range(1, 8):
            for weekday in range(1, 8):
                days = (weekday - start) % 7
                self.assertEqual(days_until([weekday], start), days)
                # (day 1 is a Monday)
                self.assertEqual(Date.from_number(start).first_on([weekday]).number, start + days)
        self.none(days_until, [], MON)
        self.none(days_until, [0], MON)
        self.none(days_until, [MON], 0)
        self.none(days_until, [MON], 2**32 + 1)


class Texts(Answers):
    DATES = {
        738945: "2024-02-29", 1: "0001-01-01", 0: "0000-12-31", -366: "-0001-12-31", 3652059: "9999-12-31",
        3652060: "+10000-01-01", -95746129: "-262143-01-01", 95745399: "+262142-12-31",
    }
    NO_DATES = [
        "", "2024", "2024-02-2", "2024-02-290", " 2024-02-29", "2024-02-29 ", "2024-2-29", "2024-02-30", "2023-02-29",
        "2024/02/29", "2024-02-2:", "24-02-29", "+2024-02-29", "-0000-01-01", "02024-02-29", "10000-01-01", "+262143-01-01",
        "-262144-12-31",
        "-4294965272-02-29", "2024-13-29", "20240230", "2024-060", "2024-W54-4", "2024-W09-8", "2024-02-29\0", "٢٠٢٤-02-29", "\ud800",
        "2024-02-29\udc80",
    ]
    MOMENTS = {
        (0, 0): "1970-01-01T00:00:00", (-1, 500_000_000): "1969-12-31T23:59:59.500", (0, 1_000): "1970-01-01T00:00:00.000001",
        (0, 1): "1970-01-01T00:00:00.000000001", (1483228799, 1_000_000_000): "2016-12-31T23:59:60",
        (1483228799, 1_999_999_999): "2016-12-31T23:59:60.999999999", (-8334601228800, 0): "-262143-01-01T00:00:00",
        (8210266876799, 999_999_999): "+262142-12-31T23:59:59.999999999",
    }
    NO_MOMENTS = [
        "", "2024-02-29T", "2024-02-29T1", "2024-02-29T24:00:00", "2024-02-29T12:60:00",
        "2024-02-29T12:00:61", "2024-02-29T12:00:00.", "2024-02-29T12:00:00.1234567890", "2024-02-29T12:00:00z",
        "2024-02-30T12:00:00", "2024-02-29T12:00:00\0", "+262143-01-01T00:00:00", "2024-02-29T12:00:00\udc80",
    ]

    def test_write_date(self):
        for number, text in self.DATES.items():
            self.assertEqual(Date.from_number(number).isoformat(), text)
            self.assertEqual(str(Date.from_number(number)), text)

    def test_read_date(self):
        for number, text in self.DATES.items():
            self.assertEqual(Date.fromisoformat(text).number, number)
        for text in self.NO_DATES:
            self.none(Date.fromisoformat, text)

    def test_write_date_time(self):
        for fields, text in self.MOMENTS.items():
            self.assertEqual(DateTime.from_seconds(*fields).isoformat(), text)
            self.assertEqual(str(DateTime.from_seconds(*fields)), text)

    def test_read_date_time(self):
        for (seconds, nanos), text in self.MOMENTS.items():
            moment = DateTime.fromisoformat(text)
            self.assertEqual((moment.seconds, moment.nanos), (seconds, nanos))
        self.assertEqual(DateTime.fromisoformat("2024-02-29 12:00:00.25"), DateTime(LEAP_DAY, 12, nanosecond=250_000_000))
        for text, day, clock in (("2024-W09-0102", 26, (1, 2)), ("2024-02-29712:30", 29, (12, 30)), ("2024W094512", 29, (12,)), ("2024W09512", 26, (12,))):
            self.assertEqual(DateTime.fromisoformat(text), DateTime(Date(2024, 2, day), *clock))
        for text in self.NO_MOMENTS:
            self.none(DateTime.fromisoformat, text)

    def test_repr(self):
        for number in self.DATES:
            date = Date.from_number(number)
            self.assertEqual(eval(repr(date)), date)
        for fields in self.MOMENTS:
            moment = DateTime.from_seconds(*fields)
            self.assertEqual(eval(repr(moment)), moment)


class DateTimes(Answers):
    # 2016-12-31T23:59:59, which a leap second followed.
    LAST_SECOND = 1483228799

    def at(self, seconds, nanos=0):
        return DateTime.from_seconds(self.LAST_SECOND + seconds, nanos)

    def test_date_time_new(self):
        new_year = Date(2016, 12, 31)
        for moment, seconds, nanos in [
            (DateTime(Date(1970, 1, 1)), 0, 0), (DateTime(Date(1970, 1, 1), 1, 1, 1, 1), 3661, 1),
            (DateTime(Date(1969, 12, 31), 23, 59, 59, 999_999_999), -1, 999_999_999),
            (DateTime(new_year, 23, 59, 60), self.LAST_SECOND, 1_000_000_000),
            (DateTime(new_year, 23, 59, 60, 999_999_999), self.LAST_SECOND, 1_999_999_999),
            (DateTime(FIRST), -8334601228800, 0), (DateTime(LAST, 23, 59, 60), 8210266876799, 1_000_000_000),
        ]:
            self.assertEqual((moment.seconds, moment.nanos), (seconds, nanos))
        for clock in [(24,), (-1,), (0, 60), (0, -1), (0, 0, 61), (0, 0, -1), (0, 0, 0, 10**9), (0, 0, 0, -1), (2**32,)]:
            self.none(DateTime, new_year, *clock)

    def test_date_time_date(self):
        for fields, date in {
            (0, 0): Date(1970, 1, 1), (-1, 0): Date(1969, 12, 31), (self.LAST_SECOND, 1_500_000_000): Date(2016, 12, 31),
            (-8334601228800, 0): FIRST, (8210266876799, 1_999_999_999): LAST,
        }.items():
            self.assertEqual(DateTime.from_seconds(*fields).date, date)
        for fields in [(-8334601228801, 0), (8210266876800, 0), (0, 10**9), (59, 2 * 10**9), (0, 2**32 - 1), (0, 2**32), (0, -1),
                       (2**63 - 1, 0), (-(2**63), 0), (2**64, 0)]:
            self.none(DateTime.from_seconds, *fields)

    def test_date_time_second_of_day(self):
        for fields, clock in {
            (0, 0): (0, 0, 0, 0, 0), (-1, 7): (86399, 23, 59, 59, 7), (3661, 1): (3661, 1, 1, 1, 1),
            (self.LAST_SECOND, 1_500_000_000): (86399, 23, 59, 60, 500_000_000),
            (self.LAST_SECOND, 1_000_000_000): (86399, 23, 59, 60, 0),
            (self.LAST_SECOND, 1_999_999_999): (86399, 23, 59, 60, 999_999_999),
            (self.LAST_SECOND, 999_999_999): (86399, 23, 59, 59, 999_999_999),
        }.items():
            moment = DateTime.from_seconds(*fields)
            self.assertEqual((moment.second_of_day, moment.hour, moment.minute, moment.second, moment.nanosecond), clock)
            self.assertEqual(DateTime(moment.date, *clock[1:]), moment)

    def test_date_time_add(self):
        inside = self.at(0, 1_500_000_000)
        self.assertEqual(inside + Duration(nanoseconds=300_000_000), self.at(0, 1_800_000_000))
        self.assertEqual(inside + Duration(nanoseconds=500_000_000), self.at(1))
        self.assertEqual(inside - Duration(seconds=1), self.at(0, 500_000_000))
        self.assertEqual(self.at(0, 500_000_000) + Duration(seconds=1), self.at(1, 500_000_000))
        self.assertEqual(self.at(0) + timedelta(days=1, microseconds=-1), self.at(86399, 999_999_000))
        self.assertEqual(timedelta(seconds=1) + self.at(0), self.at(1))
        self.assertEqual(self.at(0) - timedelta(seconds=1), self.at(-1))
        self.assertEqual(DateTime(FIRST) + Duration(days=191491529, nanoseconds=-1), DateTime(LAST, 23, 59, 59, 999_999_999))
        self.beyond(DateTime(LAST, 23, 59, 59, 999_999_999).__add__, Duration(nanoseconds=1))
        self.beyond(DateTime(FIRST).__sub__, Duration(nanoseconds=1))
        self.beyond(DateTime(FIRST).__add__, Duration(nanoseconds=(2**63 - 1) * 10**6))

    def test_date_time_since(self):
        inside = self.at(0, 1_500_000_000)
        for moment, base, nanoseconds in [
            (self.at(1), self.at(0, 1), 999_999_999), (self.at(0), self.at(1, 500_000_000), -1_500_000_000),
            (inside, self.at(0), 1_500_000_000), (self.at(0), inside, -1_500_000_000), (self.at(2), self.at(0), 2_000_000_000),
            (self.at(-60, 1_500_000_000), self.at(-59), -500_000_000), (self.at(-58), self.at(-60, 1_500_000_000), 1_500_000_000),
            (DateTime(LAST, 23, 59, 59), DateTime(FIRST), 16544868105599 * 10**9), (self.at(1), inside, -500_000_000),
        ]:
            self.assertEqual(moment - base, Duration(nanoseconds=nanoseconds))


class Python(Answers):
    def test_order_and_hash(self):
        dates = [LAST, Date(0, 12, 31), LEAP_DAY, FIRST, Date(1, 1, 1)]
        self.assertEqual(sorted(dates), [FIRST, Date(0, 12, 31), Date(1, 1, 1), LEAP_DAY, LAST])
        self.assertEqual(len({LEAP_DAY, Date.from_day_of_year(2024, 60), Date.from_iso_week(2024, 9, THU)}), 1)
        self.assertNotEqual(LEAP_DAY, 738945)
        self.assertLess(DateTime(LEAP_DAY, 23, 59, 60), DateTime(LEAP_DAY + 1))
        self.assertLess(DateTime(LEAP_DAY, 23, 59, 59, 999_999_999), DateTime(LEAP_DAY, 23, 59, 60))

    def test_frozen(self):
        for value, name in [(LEAP_DAY, "number"), (DateTime(LEAP_DAY), "nanos"), (Duration(seconds=1), "nanoseconds")]:
            with self.assertRaises(AttributeError):
                setattr(value, name, 0)
            self.assertEqual(pickle.loads(pickle.dumps(value)), value)
            self.assertEqual(copy.deepcopy(value), value)

    def test_other_types(self):
        for call in [
            lambda: Date(2024.0, 2, 29), lambda: Date("2024", 2, 29), lambda: LEAP_DAY + 1.5, lambda: LEAP_DAY - "1",
            lambda: LEAP_DAY + 1.0, lambda: 1.0 + LEAP_DAY, lambda: LEAP_DAY - 1.0, lambda: LEAP_DAY + "1",
            lambda: LEAP_DAY - None,
            lambda: LEAP_DAY + LEAP_DAY, lambda: LEAP_DAY + int, lambda: timedelta(1) - LEAP_DAY,
            lambda: LEAP_DAY < 738946, lambda: is_leap_year(2024.0), lambda: DateTime(LEAP_DAY) + 1,
            lambda: DateTime(LEAP_DAY) - 1,
            lambda: DateTime(LEAP_DAY, 1.5), lambda: Duration(seconds=1) + 1, lambda: Duration(seconds=1) - 1,
            lambda: LEAP_DAY.add_months(1.5), lambda: 1 - LEAP_DAY, lambda: LEAP_DAY.every_months(0.0, 1),
            lambda: LEAP_DAY.every_months(1, 0.0), lambda: LEAP_DAY.years_since(5), lambda: LEAP_DAY.years_since(DateTime(LEAP_DAY)),
            lambda: LEAP_DAY.week_first_day(1.0), lambda: LEAP_DAY.week_first_day("1"), lambda: LEAP_DAY.first_on([1.0]),
            lambda: days_until([1.0], 1), lambda: days_until([1], 1.0), lambda: Date.fromisoformat(b"2024-02-29"),
            lambda: Date.fromisoformat(None), lambda: DateTime.fromisoformat(b"2024-02-29T12:00:00"),
            lambda: DateTime.fromisoformat(None), lambda: DateTime(python_date(2024, 2, 29)), lambda: DateTime(738945),
            lambda: Duration.from_timedelta(1),
        ]:
            self.assertRaises(TypeError, call)
        for part in ("days", "hours", "minutes", "seconds", "nanoseconds"):
            # (a text or a list times the nanoseconds of a part would take a gigabyte, or more than there is)
            for value in ("1", [0], 1j, None):
                with self.assertRaises(TypeError, msg=(part, value)):
                    Duration(**{part: value})

    def test_other_whole_numbers(self):
        self.assertEqual(Date(Number(2024), Number(2), Number(29)), LEAP_DAY)
        self.assertEqual(DateTime(LEAP_DAY, *map(Number, (23, 59, 60, 1))), DateTime(LEAP_DAY, 23, 59, 60, 1))
        self.assertEqual(DateTime(LEAP_DAY, *map(Number, (1, 2, 3))), DateTime(LEAP_DAY, 1, 2, 3))
        for part in ("days", "hours", "minutes", "seconds", "nanoseconds"):
            self.assertEqual(Duration(**{part: Number(2)}), Duration(**{part: 2}))
        self.assertEqual(LEAP_DAY.every_months(Number(12), Number(4)), Date(2028, 2, 29))
        self.assertEqual(LEAP_DAY.week_first_day(Number(5)), LEAP_DAY.week_first_day(FRI))
        self.assertEqual(LEAP_DAY.first_on([Number(3), 3]), LEAP_DAY.first_on([WED]))
        for days, end in {Number(2): LEAP_DAY + 2, Number(-60): LEAP_DAY - 60, True: LEAP_DAY + 1, WED: LEAP_DAY + 3}.items():
            self.assertEqual(LEAP_DAY + days, end)
            self.assertEqual(days + LEAP_DAY, end)
            self.assertEqual(end - days, LEAP_DAY)

    def test_ends(self):
        self.assertEqual((Date.MIN, Date.MAX), (FIRST, LAST))
        self.assertEqual(copy.copy(Date.MIN), FIRST)

    def test_patterns(self):
        match LEAP_DAY:
            case Date(year, month, 29):
                self.assertEqual((year, month), (2024, 2))
            case _:
                self.fail("the pattern of a date")
        match DateTime(LEAP_DAY, 23, 59, 60, 1):
            case DateTime(Date(2024), hour, minute, second, nanosecond):
                self.assertEqual((hour, minute, second, nanosecond), (23, 59, 60, 1))
            case _:
                self.fail("the pattern of a date-time")

    def test_durations(self):
        self.assertEqual(Duration(days=1, hours=-24, minutes=1, seconds=-60, nanoseconds=5), Duration(nanoseconds=5))
        self.assertEqual(Duration.from_timedelta(timedelta(days=-1, microseconds=7)), Duration(days=-1, nanoseconds=7_000))
        self.assertEqual(Duration(seconds=1) + Duration(nanoseconds=1), Duration(nanoseconds=1_000_000_001))
        self.assertEqual(Duration(seconds=1) - Duration(nanoseconds=1), Duration(nanoseconds=999_999_999))
        self.assertEqual(-Duration(seconds=1), Duration(seconds=-1))
        longest = (2**63 - 1) * 10**6
        self.assertEqual(Duration(nanoseconds=-longest), -Duration(nanoseconds=longest))
        self.beyond(lambda: Duration(nanoseconds=longest + 1))
        self.beyond(lambda: Duration(nanoseconds=-longest - 1))
        self.beyond(lambda: Duration(nanoseconds=longest) + Duration(nanoseconds=1))


if __name__ == "__main__":
    unittest.main()
