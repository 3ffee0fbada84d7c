#!/usr/bin/env python3
"""What proved_calendar has in the manner of datetime, beside datetime on generated cases: other forms of texts, clocks and
timestamps, formats, durations that are multiplied and divided, times of day, and values that are equal with equal hashes."""
import datetime
import doctest
import io
import math
import os
import pickle
import random
import sys
import time
import unittest
import zoneinfo
from datetime import timedelta
from fractions import Fraction

try:
    import pandas
except ImportError:
    pandas = None

import proved_calendar
from proved_calendar import BusinessCalendar, Date, DateTime, Duration, Instant, Pattern, Rule, RuleSet, Schedule, Time

COUNT = 500
MICROSECOND = timedelta(microseconds=1)
ZONES = ("UTC", "EST+05EDT,M3.2.0,M11.1.0", "MSK-03", "<+1245>-12:45")


def outcome(call, *arguments, **named):
    """What a call returns, or the class of its error."""
    try:
        return call(*arguments, **named)
    except (ValueError, OverflowError, ZeroDivisionError, TypeError) as it:
        return type(it)


class Cases(unittest.TestCase):
    def setUp(self):
        self.chance = random.Random(self.id())

    def a_date(self):
        return datetime.date.fromordinal(self.chance.randint(1, 3_652_059))

    def a_time(self):
        parts = self.chance.randrange(24), self.chance.randrange(60), self.chance.randrange(60)
        return datetime.time(*parts, self.chance.choice((0, 250_000, self.chance.randrange(10**6))))

    def a_moment(self):
        return datetime.datetime.combine(self.a_date(), self.a_time())

    def a_length(self):
        return timedelta(microseconds=self.chance.choice((-1, 1)) * self.chance.randrange(10 ** self.chance.randint(1, 18)))

    def a_number(self):
        """A whole number or a float, near to 0 or far."""
        whole = self.chance.choice((-1, 1)) * self.chance.randrange(10 ** self.chance.randint(1, 7))
        return self.chance.choice((whole, whole / 8, whole / 7, whole * 1e-9))


class Ours(pickle.Unpickler):
    """Reads the pickles of datetime as values of ours."""

    def find_class(self, module, name):
        found = {"date": Date, "datetime": DateTime}
        return found[name] if module == "datetime" and name in found else super().find_class(module, name)


class PickledByDatetime(Cases):
    def read(self, data):
        return Ours(io.BytesIO(data), encoding="latin-1").load()

    def test_values(self):
        zone = datetime.timezone(timedelta(hours=-3))
        for _ in range(COUNT):
            moment = self.a_moment()
            both = moment.replace(tzinfo=zone), moment.replace(fold=1), moment.replace(tzinfo=zone, fold=1)
            for it in (self.a_date(), moment, *both):
                for protocol in range(pickle.HIGHEST_PROTOCOL + 1):
                    found = self.read(pickle.dumps(it, protocol))
                    self.assertEqual(found, it)
                    self.assertNotIsInstance(found, type(it))
                    # (before protocol 4 datetime keeps no fold)
                    wanted = getattr(it, "fold", None) if protocol > 3 else getattr(pickle.loads(pickle.dumps(it, protocol)), "fold", None)
                    self.assertEqual((getattr(found, "tzinfo", None), getattr(found, "fold", None)), (getattr(it, "tzinfo", None), wanted))

    def test_texts_of_python_2(self):
        self.assertEqual(self.read(b"cdatetime\ndate\n(S'\\x07\\xdf\\x0b\\x1b'\ntR."), Date(2015, 11, 27))
        moment = self.read(b"cdatetime\ndatetime\n(S'\\x07\\xdf\\x0b\\x1b\\x14;\\x01\\x00\\x10\\x00'\ntR.")
        self.assertEqual(moment, DateTime(2015, 11, 27, 20, 59, 1, 4_096))

    def test_other_bytes(self):
        class Day(Date):
            pass

        day = Day(b"\x07\xdf\x0b\x1b")
        self.assertEqual((type(day), day), (Day, Date(2015, 11, 27)))
        for state in (b"", b"1995", "1995", b"\x07\xdf\0\x1b", b"\x07\xdf\r\x1b", b"\x07\xdf\x0b\x1b\0", "\u20ac\x07\x0b\x1b"):
            self.assertRaises(TypeError, Date, state)
        for state in (b"1995-03-25", "2024-02-29", b"\x07\xdf\x0b\x1b", b"\x07\xdf\0\x1b\x14;\x01\0\x10\0", b"\x07\xdf\x8d\x1b\x14;\x01\0\x10\0"):
            self.assertRaises(TypeError, DateTime, state)
        self.assertRaises(TypeError, Date, b"\x07\xdf\x0b\x1b", None)
        self.assertRaises(TypeError, DateTime, b"\x07\xdf\x0b\x1b\x14;\x01\0\x10\0", None, None)
        self.assertRaises(TypeError, DateTime, b"\x07\xdf\x0b\x1b\x14;\x01\0\x10\0", "EST")
        self.assertRaises(ValueError, Date, b"\x07\xdf\x0b\x1f")
        self.assertRaises(ValueError, DateTime, b"\x07\xdf\x0b\x1b\x18;\x01\0\x10\0")


@unittest.skipIf(sys.version_info < (3, 11), "datetime reads these forms from Python 3.11 on")
class Texts(Cases):
    DATES = ("2024-02-29", "20240229", "2024-W09-4", "2024W094", "2024-W09", "2024W09")
    CLOCKS = ("12", "12:30", "1230", "12:30:15", "123015", "12:30:15.5", "12:30:15,250", "123015.250001", "123015,000009")

    def date_texts(self, date):
        year, week, weekday = date.isocalendar()
        return [
            f"{date:%Y%m%d}".zfill(8), date.isoformat(), f"{year:04}-W{week:02}-{weekday}", f"{year:04}W{week:02}{weekday}",
            f"{year:04}-W{week:02}", f"{year:04}W{week:02}",
        ]

    def test_dates(self):
        for _ in range(COUNT):
            for text in self.date_texts(self.a_date()):
                theirs = outcome(datetime.date.fromisoformat, text)
                ours = outcome(Date.fromisoformat, text)
                if theirs is ValueError:
                    # (a week of the first or last year may begin beyond datetime's years)
                    self.assertFalse(1 <= ours.year <= 9999)
                else:
                    self.assertEqual(ours, theirs)

    def test_moments(self):
        for date in self.DATES:
            for clock in self.CLOCKS:
                for separator in "T t_\0-+ʁ🐍\ud800":
                    text = f"{date}{separator}{clock}"
                    self.assertEqual(DateTime.fromisoformat(text), datetime.datetime.fromisoformat(text), text)
            self.assertEqual(DateTime.fromisoformat(date), datetime.datetime.fromisoformat(date))
        for clock in self.CLOCKS:
            for text in (clock, f"T{clock}"):
                self.assertEqual(Time.fromisoformat(text), datetime.time.fromisoformat(text))

    def differs(self, text, theirs, ours):
        """Whether it is known that ours and datetime differ on a text."""
        clock = text[7:]
        return (
            # an offset is refused, and so are a digit as separator and a fraction of more than nine digits
            (ours is ValueError and theirs is not ValueError)
            # nanoseconds are kept, and datetime cuts them off
            or (not isinstance(ours, type) and hasattr(ours, "nanosecond") and ours.nanosecond % 1_000
                and ours.replace(microsecond=ours.microsecond) == theirs)
            # there are leap seconds, and years beyond those of datetime
            or (theirs is ValueError and not isinstance(ours, type)
                and ("60" in clock or (isinstance(ours, (Date, DateTime)) and not 1 <= ours.year <= 9999)))
        )

    def test_changed_texts(self):
        """One character is changed, left out or put in: both read the same, or refuse the text."""
        kinds = ((Date, datetime.date, self.DATES), (Time, datetime.time, self.CLOCKS),
                 (DateTime, datetime.datetime, [f"{it}T12:30:15.25" for it in self.DATES] + [f"2024-02-29 {it}" for it in self.CLOCKS]))
        known = 0
        for ours_of, theirs_of, texts in kinds:
            for _ in range(2 * COUNT):
                text = self.chance.choice(texts)
                at, width = self.chance.randrange(len(text) + 1), self.chance.randrange(2)
                text = text[:at] + self.chance.choice(["", *"0123456789-:.,TWZ+ x٣"]) + text[at + width:]
                ours, theirs = outcome(ours_of.fromisoformat, text), outcome(theirs_of.fromisoformat, text)
                if ours != theirs:
                    known += 1
                    self.assertTrue(self.differs(text, theirs, ours), (text, theirs, ours))
        self.assertLess(known, COUNT)

    def test_offsets(self):
        """Texts with an offset are read as datetime reads them, and refused for a Time."""
        for clock in self.CLOCKS:
            for offset in ("Z", "+00", "-0500", "+01:00", "+01:00:00.5", "-00:00", "+235959", "-23:59:59.999999"):
                text = f"2024-02-29T{clock}{offset}"
                self.assertEqual(DateTime.fromisoformat(text), datetime.datetime.fromisoformat(text))
                self.assertRaises(ValueError, Time.fromisoformat, clock + offset)
        for offset in ("z", "+", "+1", "+24", "+01:0", "+0100:00", "+01:00:00.", "+00:60", "+-1:00"):
            self.assertRaises(ValueError, DateTime.fromisoformat, f"2024-02-29T12:00{offset}")


class WrittenTexts(Cases):
    def test_timespec(self):
        for _ in range(COUNT):
            theirs = self.a_moment()
            ours = DateTime.from_datetime(theirs)
            for timespec in ("hours", "minutes", "seconds", "milliseconds", "microseconds"):
                separator = self.chance.choice("T _")
                self.assertEqual(ours.isoformat(separator, timespec), theirs.isoformat(separator, timespec))
                self.assertEqual(ours.isoformat(timespec=timespec), theirs.isoformat(timespec=timespec))
                self.assertEqual(ours.time.isoformat(timespec), theirs.time().isoformat(timespec))
            self.assertEqual(ours.isoformat(timespec="nanoseconds"), f"{theirs.isoformat(timespec='microseconds')}000")
            self.assertEqual(ours.isoformat(sep=" "), str(ours).replace("T", " "))
        wide = DateTime(-12_345, 2, 28, 1, 2, 3)
        self.assertEqual(wide.isoformat(" ", "minutes"), "-12345-02-28 01:02")
        self.assertEqual(DateTime(2016, 12, 31, 23, 59, 60, 5).isoformat(timespec="milliseconds"), "2016-12-31T23:59:60.000")
        for wrong in ("", "ab", 1):
            self.assertRaises(TypeError, wide.isoformat, wrong)

    def test_strftime(self):
        formats = (
            "%Y-%m-%d %H:%M:%S.%f", "%a %A %b %B %c %x %X", "%d/%m/%y %I%p %j", "%U %W %V %G %u %w", "100%% %%Y %z%Z|", "%F %T %D %C %e",
            "%-d %_d", "", "é %d",
        )
        for _ in range(COUNT):
            theirs = self.a_moment()
            theirs = theirs.replace(year=max(theirs.year, 1000), day=min(theirs.day, 28))
            ours = DateTime.from_datetime(theirs)
            for format in formats:
                self.assertEqual(ours.strftime(format), theirs.strftime(format))
                self.assertEqual(ours.date.strftime(format), theirs.date().strftime(format))
            self.assertEqual(f"{ours:%H:%M}", f"{theirs:%H:%M}")
            self.assertEqual(f"{ours.time:%H:%M:%S.%f}", f"{theirs.time():%H:%M:%S.%f}")
            self.assertEqual((ours.ctime(), ours.date.ctime()), (theirs.ctime(), theirs.date().ctime()))
            self.assertEqual((ours.timetuple(), ours.date.timetuple()), (theirs.timetuple(), theirs.date().timetuple()))
        for date, text in {Date(7, 1, 2): "0007", Date(0, 1, 2): "0000", Date(-7, 1, 2): "-0007", Date(12_345, 1, 2): "+12345"}.items():
            self.assertEqual((date.strftime("%Y"), date.strftime("%F")), (text, f"{text}-01-02"))

    def test_strptime(self):
        for _ in range(COUNT // 10):
            theirs = self.a_moment()
            text = theirs.strftime("%j %Y %H.%M.%S,%f").replace(f" {theirs.year} ", f" {theirs.year:04} ")
            self.assertEqual(DateTime.strptime(text, "%j %Y %H.%M.%S,%f"), theirs)
        self.assertEqual(DateTime.strptime("+0100", "%z"), datetime.datetime.strptime("+0100", "%z"))


class Clocks(Cases):
    def setUp(self):
        super().setUp()
        self.zone = os.environ.get("TZ")

    def tearDown(self):
        if self.zone is None:
            os.environ.pop("TZ", None)
        else:
            os.environ["TZ"] = self.zone
        time.tzset()

    def test_timestamps(self):
        for zone in ZONES:
            os.environ["TZ"] = zone
            time.tzset()
            for _ in range(COUNT // 4):
                stamp = self.chance.choice((self.chance.randint(-(10**9), 4 * 10**9), self.chance.uniform(-1e9, 4e9), 1 / 2**7, -1e-7))
                theirs = datetime.datetime.fromtimestamp(stamp)
                self.assertEqual(DateTime.fromtimestamp(stamp), theirs)
                self.assertEqual(Date.fromtimestamp(stamp), theirs.date())
                self.assertEqual(DateTime.utcfromtimestamp(stamp), datetime.datetime.fromtimestamp(stamp, datetime.timezone.utc).replace(tzinfo=None))
                again = DateTime.from_datetime(theirs).timestamp()
                # (in the hour that comes twice the C library takes either)
                self.assertIn(round(again - theirs.timestamp(), 5), (0, 3600, -3600))
        for call in (DateTime.fromtimestamp, DateTime.utcfromtimestamp, Date.fromtimestamp):
            for wrong in (math.inf, 1e200, -(10**30)):
                self.assertRaises(OverflowError, call, wrong)
            self.assertRaises(ValueError, call, math.nan)
            for wrong in ("1", None, 1j):
                self.assertRaises(TypeError, call, wrong)

    def test_now(self):
        for ours, theirs in ((DateTime.now, datetime.datetime.now), (DateTime.today, datetime.datetime.today)):
            self.assertLess(abs(ours() - DateTime.from_datetime(theirs())), Duration(seconds=5))
        utc = datetime.datetime.now(datetime.timezone.utc).replace(tzinfo=None)
        self.assertLess(abs(DateTime.utcnow() - DateTime.from_datetime(utc)), Duration(seconds=5))
        self.assertIn(Date.today() - Date.from_date(datetime.date.today()), (0, 1))
        self.assertEqual(DateTime.now().to_datetime().microsecond * 1_000 % 1_000, 0)


class Durations(Cases):
    def test_arithmetic(self):
        for _ in range(COUNT):
            one, other, whole = self.a_length(), self.a_length(), self.chance.randint(-1_000, 1_000)
            ours, theirs = Duration.from_timedelta(one), Duration.from_timedelta(other)
            for name in ("__truediv__", "__floordiv__", "__mod__", "__divmod__"):
                self.assertEqual(outcome(getattr(ours, name), theirs), outcome(getattr(one, name), other))
                self.assertEqual(outcome(getattr(ours, name), other), outcome(getattr(one, name), other))
                self.assertEqual(outcome(getattr(ours, f"__r{name[2:]}"), other), outcome(getattr(other, name), one))
            product = Duration(nanoseconds=ours.nanoseconds * whole) if abs(ours.nanoseconds * whole) < 2**63 * 10**6 else OverflowError
            self.assertEqual((outcome(lambda: ours * whole), outcome(lambda: whole * ours)), (product, product))
            quotient = outcome(lambda: Duration(nanoseconds=ours.nanoseconds // whole))
            self.assertEqual(outcome(lambda: ours // whole), quotient)
            self.assertEqual(ours.total_seconds(), one.total_seconds())
            self.assertEqual((ours.days, ours.seconds, ours.microseconds), (one.days, one.seconds, one.microseconds))

    def test_fractions(self):
        """Products and quotients are those of fractions, rounded once and half to even."""
        for _ in range(COUNT):
            length, number = Duration.from_timedelta(self.a_length()), self.a_number()
            for wanted, found in (
                (lambda: length.nanoseconds * Fraction(number), lambda: length * number),
                (lambda: length.nanoseconds * Fraction(number), lambda: number * length),
                (lambda: length.nanoseconds / Fraction(number), lambda: length / number),
                (lambda: Fraction(number) * 3_600 * 10**9 + 7, lambda: Duration(hours=number, nanoseconds=7)),
                (lambda: Fraction(number) * (604_800 * 10**9 + 10**6), lambda: Duration(weeks=number, milliseconds=number)),
            ):
                self.assertEqual(outcome(found), outcome(lambda: Duration(nanoseconds=round(wanted()))))
        for number, error in {math.inf: OverflowError, math.nan: ValueError}.items():
            self.assertRaises(error, lambda: Duration(1) * number)
            self.assertRaises(error, lambda: Duration(number))
        for call in (lambda d: d / 0, lambda d: d / 0.0, lambda d: d // 0, lambda d: d % Duration(), lambda d: divmod(d, Duration())):
            self.assertRaises(ZeroDivisionError, call, Duration(1))
        for call in (lambda d: d * d, lambda d: d * "1", lambda d: 1 / d, lambda d: 1 // d, lambda d: d % 2, lambda d: d // 1.5, lambda d: d / "1"):
            self.assertRaises(TypeError, call, Duration(1))

    def test_parts(self):
        names = ("days", "seconds", "microseconds", "milliseconds", "minutes", "hours", "weeks")
        for _ in range(COUNT):
            parts = [self.chance.randint(-(10**6), 10**6) * self.chance.randrange(2) for _ in names]
            self.assertEqual(Duration(*parts), timedelta(*parts))
            self.assertEqual(Duration(**dict(zip(names, parts))), timedelta(*parts))
        self.assertEqual(Duration(milliseconds=2**63 - 1), Duration.max)
        self.assertRaises(OverflowError, Duration, milliseconds=2**63)
        self.assertEqual(Duration(microseconds=10**18, nanoseconds=2**62 + 1).nanoseconds, 10**21 + 2**62 + 1)
        self.assertEqual(Duration(milliseconds=2**39, nanoseconds=2**63 - 2).nanoseconds, 10**6 * 2**39 + 2**63 - 2)
        self.assertEqual(Duration(weeks=-(10**9), milliseconds=10**18).nanoseconds, -604_800 * 10**18 + 10**24)

    def test_texts(self):
        for _ in range(COUNT):
            theirs = self.a_length()
            ours = Duration.from_timedelta(theirs)
            self.assertEqual((str(ours), eval(repr(ours))), (str(theirs), theirs))
            if theirs:
                self.assertEqual(repr(ours), repr(theirs).replace("datetime.timedelta", "Duration"))
            finer = ours + Duration(nanoseconds=self.chance.randrange(1_000))
            self.assertEqual(eval(repr(finer)), finer)
            self.assertEqual(Duration.fromisoformat(finer.isoformat()), finer)
        for text, length in {
            "PT0S": Duration(), "P1D": Duration(1), "-PT0.001S": Duration(milliseconds=-1), "P1DT1H1M1S": Duration(1, 1, hours=1, minutes=1),
            "PT1M": Duration(minutes=1), "PT36500H": Duration(hours=36_500), "P2W": Duration(14), "PT0,000000001S": Duration(nanoseconds=1),
        }.items():
            self.assertEqual(Duration.fromisoformat(text), length)
        self.assertEqual(Duration(nanoseconds=-1).isoformat(), "-PT0.000000001S")
        self.assertEqual(str(Duration(days=1, nanoseconds=1)), "1 day, 0:00:00.000000001")
        for text in ("", "P", "PT", "P1", "1D", "P1DT", "P1Y", "P1M", "PT1.5H", "P-1D", "PT1S1M", "PT1.S", "PT1.1234567890S", "P1D ", "pt1s"):
            self.assertRaises(ValueError, Duration.fromisoformat, text)
        self.assertRaises(TypeError, Duration.fromisoformat, None)
        self.assertRaises(OverflowError, Duration.fromisoformat, "P999999999999D")


class Times(Cases):
    def test_times(self):
        for _ in range(COUNT):
            theirs, other = self.a_time(), self.a_time()
            ours = Time.from_time(theirs)
            self.assertEqual((ours.hour, ours.minute, ours.second, ours.microsecond), (theirs.hour, theirs.minute, theirs.second, theirs.microsecond))
            self.assertEqual((ours.to_time(), Time.fromisoformat(str(ours)), eval(repr(ours))), (theirs, ours, ours))
            self.assertEqual(ours.second_of_day, theirs.hour * 3600 + theirs.minute * 60 + theirs.second)
            for name in ("__lt__", "__le__", "__gt__", "__ge__", "__eq__"):
                self.assertEqual(getattr(ours, name)(Time.from_time(other)), getattr(theirs, name)(other))
                self.assertEqual(getattr(ours, name)(other), getattr(theirs, name)(other))
            self.assertEqual(ours.replace(hour=1, microsecond=5), theirs.replace(hour=1, microsecond=5))
            moment = DateTime.combine(Date(2024, 2, 29), ours)
            self.assertEqual((moment.time, moment.date), (ours, Date(2024, 2, 29)))
            self.assertEqual(DateTime.combine(moment, ours), datetime.datetime.combine(datetime.date(2024, 2, 29), theirs))
            date, zone = self.a_date(), self.chance.choice((None, datetime.timezone.utc, datetime.timezone(timedelta(hours=5))))
            zoned = theirs.replace(tzinfo=zone, fold=self.chance.randrange(2))
            for ours in (Date.from_date(date), date, DateTime.from_datetime(self.a_moment()), self.a_moment()):
                day = ours if isinstance(ours, datetime.date) else ours.to_date() if isinstance(ours, Date) else ours.date.to_date()
                for given in ({}, {"tzinfo": None}, {"tzinfo": datetime.timezone.utc}):
                    made, wanted = DateTime.combine(ours, zoned, **given), datetime.datetime.combine(day, zoned, **given)
                    self.assertEqual((made, made.tzinfo, made.fold), (wanted, wanted.tzinfo, wanted.fold))
        leap = Time(23, 59, 60, nanosecond=5)
        self.assertEqual((leap.second, leap.second_of_day, str(leap)), (60, 86_399, "23:59:60.000000005"))
        self.assertRaises(ValueError, leap.to_time)
        self.assertRaises(ValueError, Time.from_time, datetime.time(tzinfo=datetime.timezone.utc))
        self.assertRaises(TypeError, Time.from_time, "12:00")
        self.assertRaises(TypeError, Time.fromisoformat, None)
        self.assertRaises(TypeError, Time, 1, 2, 3, 4, 5)
        self.assertIsNone(leap.tzinfo)
        match leap:
            case Time(hour, minute, 60, nanosecond):
                self.assertEqual((hour, minute, nanosecond), (23, 59, 5))

    def test_subclass(self):
        class Shift(Time):
            pass

        for made in (Shift(1, 2), Shift(1).replace(hour=2), Shift.fromisoformat("01:02"), Shift.from_time(datetime.time(1))):
            self.assertIs(type(made), Shift)
        self.assertEqual((Shift(1, 2), repr(Shift(1, 2))), (Time(1, 2), "Shift(1, 2)"))

    def test_ends(self):
        for kind, theirs in ((Time, datetime.time), (Date, datetime.date), (DateTime, datetime.datetime), (Duration, timedelta)):
            self.assertTrue(isinstance(kind.min, kind) and kind.min < kind.max and isinstance(kind.resolution, Duration))
            self.assertLessEqual(kind.min, theirs.min)
            self.assertGreaterEqual(kind.max, theirs.max)
            self.assertLessEqual(kind.resolution, Duration.from_timedelta(theirs.resolution))


class Equal(Cases):
    def same(self, ours, theirs):
        for left, right in ((ours, theirs), (theirs, ours)):
            self.assertTrue(left == right and left <= right and not left != right and not left < right)
        self.assertEqual(hash(ours), hash(theirs))
        self.assertEqual(({ours: 1}[theirs], {theirs: 1}[ours]), (1, 1))

    def differ(self, ours, theirs, is_less):
        for left, right, less in ((ours, theirs, is_less), (theirs, ours, not is_less)):
            self.assertTrue(left != right and not left == right)
            self.assertEqual((left < right, left <= right, left > right, left >= right), (less, less, not less, not less))

    def test_equal(self):
        for _ in range(COUNT):
            date, moment, length, of_day = self.a_date(), self.a_moment(), self.a_length(), self.a_time()
            self.same(Date.from_date(date), date)
            self.same(DateTime.from_datetime(moment), moment)
            self.same(Duration.from_timedelta(length), length)
            self.same(Time.from_time(of_day), of_day)
            others = self.a_date(), self.a_moment(), self.a_length(), self.a_time()
            for ours, theirs, other in zip(
                (Date.from_date(date), DateTime.from_datetime(moment), Duration.from_timedelta(length), Time.from_time(of_day)),
                (date, moment, length, of_day), others,
            ):
                if theirs != other:
                    self.differ(ours, other, theirs < other)
        for end in (datetime.date.min, datetime.date.max):
            self.same(Date.from_date(end), end)
        for end in (datetime.datetime.min, datetime.datetime.max):
            self.same(DateTime.from_datetime(end), end)
        for end in (timedelta.min, timedelta.max):
            self.same(Duration.from_timedelta(end), end)
        self.differ(Date.min, datetime.date.min, True)
        self.differ(DateTime(2016, 12, 31, 23, 59, 60), datetime.datetime(2016, 12, 31, 23, 59, 59), False)
        self.differ(DateTime(2016, 12, 31, 23, 59, 59, nanosecond=1), datetime.datetime(2016, 12, 31, 23, 59, 59), False)
        self.assertEqual(sorted([Date(2024, 3, 1), datetime.date(2024, 2, 29)]), [Date(2024, 2, 29), Date(2024, 3, 1)])

    def test_hashes_beyond_datetime(self):
        for value in (Date.min, Date.max, DateTime.min, DateTime.max, Duration.min, Duration.max, DateTime(2016, 12, 31, 23, 59, 60)):
            self.assertEqual(hash(value), hash(pickle.loads(pickle.dumps(value))))

    @unittest.skipUnless(pandas, "there is no pandas")
    def test_pandas(self):
        for _ in range(COUNT // 10):
            nanoseconds = self.chance.randint(-(2**62), 2**62)
            nanoseconds -= nanoseconds % self.chance.choice((1, 1_000))
            stamp, length = pandas.Timestamp(nanoseconds), pandas.Timedelta(nanoseconds, "ns")
            self.assertEqual(DateTime.from_datetime(stamp), stamp)
            self.assertEqual(hash(DateTime.from_datetime(stamp)), hash(stamp))
            self.assertEqual(Duration.from_timedelta(length), length)
            self.assertEqual(hash(Duration.from_timedelta(length)), hash(length))


class Differences(Cases):
    def test_dates(self):
        for _ in range(COUNT):
            date, base = self.a_date(), self.a_date()
            days = (date - base).days
            ours, other = Date.from_date(date), Date.from_date(base)
            self.assertEqual((ours - other, ours - base, date - other), (days, days, days))
            self.assertIs(type(date - other), int)
        for wrong in (self.a_moment(), DateTime.min, "2024-02-29"):
            self.assertRaises(TypeError, lambda: ours - wrong)
            self.assertRaises(TypeError, lambda: wrong - ours)

    def test_moments(self):
        east, west = (datetime.timezone(timedelta(hours=it)) for it in (5, -8))
        for _ in range(COUNT):
            moment, base = self.a_moment(), self.a_moment()
            for one, other in ((None, None), (east, east), (east, west), (west, datetime.timezone.utc)):
                left, right = moment.replace(tzinfo=one), base.replace(tzinfo=other)
                ours, theirs = DateTime.from_datetime(left), DateTime.from_datetime(right)
                for found in (ours - theirs, ours - right, left - theirs):
                    self.assertEqual((found, type(found)), (left - right, Duration))
        for left, right in ((ours, base), (moment, theirs)):
            self.assertRaises(TypeError, lambda: left - right)
        leap = DateTime(2016, 12, 31, 23, 59, 60, nanosecond=5)
        self.assertEqual(leap - datetime.datetime(2016, 12, 31, 23, 59, 59), Duration(seconds=1, nanoseconds=5))
        self.assertEqual(datetime.datetime(2017, 1, 1) - leap, DateTime(2017, 1, 1) - leap)
        for wrong in (datetime.date(2024, 2, 29), Date.min, datetime.time(), 1):
            self.assertRaises(TypeError, lambda: leap - wrong)
            self.assertRaises(TypeError, lambda: wrong - leap)


class Rounding(Cases):
    def test_round(self):
        berlin, lengths = zoneinfo.ZoneInfo("Europe/Berlin"), [timedelta(microseconds=it) for it in (1, 2_500, 10**6, 9 * 10**8, 36 * 10**8, 864 * 10**8)]
        for _ in range(COUNT):
            theirs, length = self.a_moment().replace(tzinfo=self.chance.choice((None, berlin))), self.chance.choice(lengths)
            if theirs.year < 9999:
                midnight = theirs.replace(hour=0, minute=0, second=0, microsecond=0)
                wanted = midnight + math.floor((theirs - midnight) / length + Fraction(1, 2)) * length
                for of in (length, Duration.from_timedelta(length)):
                    found = DateTime.from_datetime(theirs).round(of)
                    self.assertEqual((found, found.tzinfo), (wanted, wanted.tzinfo))
        half = DateTime(2024, 2, 29, 12, 7, 30)
        self.assertEqual([str(it.round(timedelta(minutes=15)).time) for it in (half, half - Duration(nanoseconds=1))], ["12:15:00", "12:00:00"])
        self.assertEqual(DateTime(2016, 12, 31, 23, 59, 60, 900_000).round(Duration(seconds=1)), DateTime(2017, 1, 1))
        twice = DateTime(2024, 10, 27, 2, 20, tzinfo=berlin)
        self.assertEqual([str(twice.replace(fold=it).round(Duration(hours=1))) for it in (0, 1)], ["2024-10-27T02:00:00+02:00", "2024-10-27T02:00:00+01:00"])
        for wrong in (Duration(), Duration(hours=-1), Duration(hours=7), timedelta(days=2)):
            self.assertRaises(ValueError, half.round, wrong)
        for wrong in (1, None, "hour", half):
            self.assertRaises(TypeError, half.round, wrong)
        self.assertRaises(OverflowError, DateTime.max.round, Duration(days=1))


class Months(Cases):
    def test_add_months(self):
        for _ in range(COUNT):
            moment, months = DateTime.from_datetime(self.a_moment()), self.chance.randint(-10_000, 10_000)
            moved = moment.add_months(months)
            self.assertEqual((moved.date, moved.time), (moment.date.add_months(months), moment.time))
        leap = DateTime(2016, 12, 31, 23, 59, 60, 5)
        self.assertEqual(leap.add_months(2), DateTime(2017, 2, 28, 23, 59, 60, 5))
        self.assertRaises(OverflowError, DateTime.max.add_months, 1)
        self.assertRaises(TypeError, leap.add_months, 1.0)


class Examples(unittest.TestCase):
    def test_docstrings(self):
        """Each example in a docstring gives what stands there."""
        names = {name: getattr(proved_calendar, name) for name in proved_calendar.__all__}
        members = {
            f"{kind.__name__}.{name}": it.__doc__ for kind in (Date, DateTime, Duration, Time, Instant, Pattern, Schedule, Rule, RuleSet, BusinessCalendar) for name, it in
            ((name, getattr(kind, name)) for name in dir(kind)) if name not in ("__doc__", "__class__")
        }
        documented = {**members, **{name: it.__doc__ for name, it in names.items()}}
        runner, parser = doctest.DocTestRunner(verbose=False), doctest.DocTestParser()
        for name, text in documented.items():
            if isinstance(text, str) and ">>>" in text:
                runner.run(parser.get_doctest(text, dict(names), name, None, None))
        self.assertEqual(runner.failures, 0)
        self.assertGreater(runner.tries, 15)


if __name__ == "__main__":
    unittest.main()
