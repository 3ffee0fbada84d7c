#!/usr/bin/env python3
"""Date-times in time zones beside those of datetime, over generated times near changes of Python's own zones: what a zone answers,
conversions, comparisons, hashes, differences, texts and timestamps."""
import copy
import datetime
import itertools
import os
import pickle
import random
import struct
import sys
import time
import unittest
import zoneinfo
from datetime import timedelta, timezone

from proved_calendar import Date, DateTime, Duration, Instant, Schedule, TextError, Time, Zone

COUNT = 1_000
NAMES = ("Europe/Berlin", "America/New_York", "Australia/Lord_Howe", "Pacific/Apia", "Africa/Casablanca", "Europe/Dublin", "Asia/Kathmandu")
FIXED = (timezone.utc, timezone(timedelta(hours=-5), "EST"), timezone(timedelta(hours=5, minutes=45, seconds=3, microseconds=7)))
GAP, FOLD = datetime.datetime(2024, 3, 31, 2, 30), datetime.datetime(2024, 10, 27, 2, 30)
BERLIN = zoneinfo.ZoneInfo("Europe/Berlin")


class Summer(datetime.tzinfo):
    """A zone of Python's own making: an hour ahead, and from April to September two."""

    def utcoffset(self, moment):
        return timedelta(hours=1) + self.dst(moment)

    def dst(self, moment):
        return timedelta(hours=int(4 <= moment.month <= 9))

    def tzname(self, moment):
        return "100%"


class Lengths(Summer):
    """The same, with answers of ours."""

    def utcoffset(self, moment):
        return Duration.from_timedelta(super().utcoffset(moment))


class Answering(datetime.tzinfo):
    """A zone that answers one thing to all."""

    def __init__(self, answer):
        self.answer = answer

    def utcoffset(self, moment):
        return self.answer

    dst = tzname = utcoffset


class Moment(DateTime):
    """A class of a user."""


def changes(zone):
    """The hours of some years around which the offset of a zone changes, in UTC."""
    hours = [datetime.datetime(2023, 1, 1, tzinfo=timezone.utc) + timedelta(hours=it) for it in range(24 * 800)]
    offsets = [it.astimezone(zone).utcoffset() for it in hours]
    return [hour for hour, one, other in zip(hours, offsets, offsets[1:]) if one != other]


class Cases(unittest.TestCase):
    @classmethod
    def setUpClass(cls):
        cls.zones = [*map(zoneinfo.ZoneInfo, NAMES), *FIXED, Summer()]
        cls.changes = {zone: changes(zone) for zone in cls.zones}

    def setUp(self):
        self.chance = random.Random(67)

    def a_zone(self):
        return self.chance.choice(self.zones)

    def a_moment(self):
        """A datetime of some zone, often near a change."""
        zone = self.a_zone()
        at = self.chance.choice(self.changes[zone] or [datetime.datetime(2024, 6, 1, tzinfo=timezone.utc)])
        at += timedelta(minutes=self.chance.randrange(-300, 300) if self.chance.random() < 0.7 else self.chance.randrange(10**7))
        local = at.astimezone(zone).replace(microsecond=self.chance.choice((0, 5, 250_000)))
        # (a part of them shows what the clock skips, or the other one of two)
        return local.replace(fold=self.chance.randrange(2)) if self.chance.random() < 0.3 else local + timedelta(minutes=self.chance.randrange(90))

    def pairs(self):
        for _ in range(COUNT):
            theirs = self.a_moment()
            yield DateTime.from_datetime(theirs), theirs


class OwnZones(Cases):
    """The package's own Zone beside zoneinfo's."""

    def own_pairs(self):
        for ours, theirs in self.pairs():
            if isinstance(theirs.tzinfo, zoneinfo.ZoneInfo):
                zone = Zone(theirs.tzinfo.key)
                yield ours.replace(tzinfo=zone), theirs.replace(tzinfo=zone), theirs

    def test_offsets(self):
        for ours, as_datetime, theirs in self.own_pairs():
            self.assertEqual((ours.utcoffset(), as_datetime.utcoffset(), ours.timestamp()), (theirs.utcoffset(), theirs.utcoffset(), theirs.timestamp()), theirs)
            self.assertEqual((hash(ours), hash(as_datetime), ours.isoformat()), (hash(theirs), hash(theirs), DateTime.from_datetime(theirs).isoformat()))
            self.assertEqual((ours.dst(), as_datetime.dst(), ours.tzname()), (None, None, timezone(theirs.utcoffset()).tzname(None)))
            self.assertEqual([ours == theirs, ours < theirs], [theirs == theirs.astimezone(timezone.utc), False])
            self.assertEqual(ours - DateTime.from_datetime(theirs), Duration())
            self.assertIs(ours.astimezone(ours.tzinfo), ours)
            again = {it.utcoffset() for it in (ours.replace(fold=0), ours.replace(fold=1))}
            shown = ours.tzinfo.offsets(ours)
            self.assertEqual(len(shown) == 1, len(again) == 1)
            self.assertEqual(list(shown), [] if not shown else sorted(again, reverse=True))
            self.assertEqual(shown, ours.tzinfo.offsets(as_datetime))

    def test_conversions(self):
        for ours, as_datetime, theirs in self.own_pairs():
            name = self.chance.choice([it for it in NAMES if it != theirs.tzinfo.key])
            for zone, their_zone in [(Zone(name), zoneinfo.ZoneInfo(name)), (timezone.utc, timezone.utc), (FIXED[2], FIXED[2])]:
                wanted = theirs.astimezone(their_zone)
                for source in (ours, DateTime.from_datetime(theirs)):
                    found = source.astimezone(zone)
                    self.assertEqual((found.replace(tzinfo=None), found.fold), (wanted.replace(tzinfo=None), wanted.fold), (theirs, name))
                    self.assertIs(found.tzinfo, zone)
                for source in (as_datetime, theirs):
                    found = source.astimezone(zone)
                    self.assertEqual((type(found), found.replace(tzinfo=None), found.fold), (datetime.datetime, wanted.replace(tzinfo=None), wanted.fold))
            stamp = theirs.timestamp()
            found, wanted = DateTime.fromtimestamp(stamp, Zone(name)), datetime.datetime.fromtimestamp(stamp, zoneinfo.ZoneInfo(name))
            self.assertEqual((found.replace(tzinfo=None), found.fold), (wanted.replace(tzinfo=None), wanted.fold))
            self.assertEqual(Instant.from_datetime(Instant.from_datetime(ours).astimezone(Zone(name))), Instant.from_datetime(ours))

    def test_all_years(self):
        berlin, at = Zone("Europe/Berlin"), DateTime(1, 1, 1, tzinfo=timezone.utc)
        for _ in range(2_000):
            moment = DateTime.from_seconds(self.chance.randrange(-6 * 10**10, 25 * 10**10)).replace(tzinfo=timezone.utc)
            shown, wanted = moment.astimezone(berlin), moment.to_datetime().astimezone(BERLIN)
            self.assertEqual((shown.replace(tzinfo=None), shown.fold), (wanted.replace(tzinfo=None), wanted.fold))
            self.assertEqual(shown.astimezone(timezone.utc), moment)
        self.assertEqual(at.astimezone(berlin).isoformat(), "0001-01-01T00:53:28+00:53:28")
        far = DateTime(20_000, 7, 1, tzinfo=timezone.utc).astimezone(berlin)
        self.assertEqual((far.isoformat(), far.tzname()), ("+20000-07-01T02:00:00+02:00", "UTC+02:00"))
        self.assertEqual(at.astimezone(berlin).tzname(), "UTC+00:53:28")
        self.assertEqual(DateTime(2016, 12, 31, 23, 59, 60, tzinfo=timezone.utc).astimezone(berlin).isoformat(), "2017-01-01T00:59:60+01:00")
        self.assertEqual(DateTime(1016, 12, 31, 23, 59, 60, tzinfo=timezone.utc).astimezone(berlin).isoformat(), "1017-01-01T00:53:27+00:53:28")
        self.assertRaises(OverflowError, DateTime.max.replace(tzinfo=timezone.utc).astimezone, berlin)
        self.assertRaises(OverflowError, DateTime.min.replace(tzinfo=berlin).astimezone, timezone.utc)

    def test_fold(self):
        for hour, wanted in ((0, ("2024-10-27T02:30:00+02:00", 0)), (1, ("2024-10-27T02:30:00+01:00", 1))):
            fresh = Zone.from_rule("CET-1CEST,M3.5.0,M10.5.0/3")
            shown = DateTime(2024, 10, 27, hour, 30, tzinfo=timezone.utc).astimezone(fresh)
            self.assertEqual((shown.isoformat(), shown.fold), wanted)

    def test_gap(self):
        for fold, wanted in ((0, 1), (1, 2)):
            self.assertEqual(DateTime.from_datetime(GAP).replace(tzinfo=Zone("Europe/Berlin"), fold=fold).utcoffset(), timedelta(hours=wanted))
        skipped = DateTime(2011, 12, 30, 12, tzinfo=Zone("Pacific/Apia"))
        self.assertEqual([skipped.replace(fold=it).utcoffset() for it in (0, 1)], [timedelta(hours=-10), timedelta(hours=14)])

    def test_values(self):
        berlin, tokyo = Zone("Europe/Berlin"), Zone.from_rule("JST-9")
        with open(os.path.join(zoneinfo.TZPATH[0], "Europe/Berlin"), "rb") as it:
            data = it.read()
        file, named = Zone.from_tzif(data), Zone.from_tzif(bytearray(data), key="here")
        self.assertIs(Zone(key="Europe/Berlin"), berlin)
        self.assertEqual([it.key for it in (berlin, tokyo, file, named)], ["Europe/Berlin", None, None, "here"])
        self.assertEqual([str(it) for it in (berlin, tokyo, file, named)], ["Europe/Berlin", "JST-9", "a TZif file", "here"])
        self.assertEqual((repr(berlin), repr(tokyo)), ("Zone('Europe/Berlin')", "Zone.from_rule('JST-9')"))
        self.assertEqual(len({berlin, tokyo, file, named, Zone.from_rule("JST-9"), Zone.from_tzif(data)}), 4)
        for it in (berlin, tokyo, file, named):
            for again in (eval(repr(it)), copy.copy(it), copy.deepcopy(it), pickle.loads(pickle.dumps(it))):
                self.assertEqual((again, again.key, again is it or it is not berlin), (it, it.key, True))
            moment = DateTime(2024, 2, 29, 12, tzinfo=it)
            self.assertEqual(pickle.loads(pickle.dumps(moment)), moment)
            self.assertEqual(eval(repr(moment)), moment)
        self.assertFalse(berlin == file or berlin != Zone("Europe/Berlin") or berlin == "Europe/Berlin")
        self.assertEqual((berlin.utcoffset(None), berlin.tzname(None), tokyo.tzname(None)), (None, None, None))
        self.assertRaises(AttributeError, setattr, berlin, "key", "")

    def test_one_offset(self):
        """The zone of CPython's test_one_zone_dst: one change from daylight time to daylight time, and a rule that keeps it all year."""
        blocks = (b"TZif2" + bytes(15) + struct.pack(f">6L{size}BlBB", 0, 0, 0, 1, 1, 4, -3_600, 0, 3_600, 1, 0) + b"DST\0" for size in "lq")
        zone = Zone.from_tzif(b"".join(blocks) + b"\nSTD0DST-1,0/0,J365/25\n")
        for year in (1900, 1965, 1970, 2010, 2040):
            for month in (1, 7, 12):
                self.assertEqual(DateTime(year, month, 1, tzinfo=zone).utcoffset(), timedelta(hours=1))

    def test_other_version(self):
        with open(os.path.join(zoneinfo.TZPATH[0], "Europe/Berlin"), "rb") as it:
            data = it.read()
        second = data.rindex(b"TZif")
        with self.assertRaises(ValueError) as caught:
            Zone.from_tzif(data[: second + 4] + b"\xff" + data[second + 5 :])
        self.assertEqual(str(caught.exception), "the data: the two headers name different versions")

    def test_refused(self):
        for key in ("Europe/Berlim", "", "/etc/passwd", "../zoneinfo/Europe/Berlin", "Europe/../Europe/Berlin", "Europe", "Europe/Berlin\0", "tzdata.zi"):
            self.assertRaises(ValueError, Zone, key)
        with self.assertRaises(TextError) as caught:
            Zone.from_rule("EST5EDT")
        self.assertEqual((str(caught.exception), caught.exception.start), ("the days of daylight time are missing", 7))
        for wrong in (lambda: Zone.from_rule("TZif2"), lambda: Zone.from_tzif(b"TZif2"), lambda: Zone.from_tzif(b"JST-9"), lambda: Zone("Europe/Berlin").fromutc(DateTime(2024, 1, 1))):
            self.assertRaises(ValueError, wrong)
        for wrong in (lambda: Zone(), lambda: Zone(7), lambda: Zone.from_rule(b"JST-9"), lambda: Zone.from_tzif("TZif"), lambda: Zone.from_tzif(b"TZif", key=7),
                      lambda: Zone("Europe/Berlin").utcoffset(7), lambda: Zone("Europe/Berlin").offsets(None), lambda: type("Own", (Zone,), {})):
            self.assertRaises(TypeError, wrong)

    def test_schedules(self):
        berlin, nightly, hourly = Zone("Europe/Berlin"), Schedule("30 2 * * *"), Schedule("30 * * * *")
        start, winter = DateTime(2024, 3, 30, 12, tzinfo=berlin), DateTime(2024, 10, 26, 12, tzinfo=berlin)
        nights = [it.isoformat() for it in nightly.iterate(start, until=DateTime(2024, 4, 1, 0, 30, tzinfo=timezone.utc))]
        self.assertEqual(nights, ["2024-03-31T03:00:00+02:00", "2024-04-01T02:30:00+02:00"])
        for source in (start, start.to_datetime()):
            self.assertEqual((nightly.next_after(source).isoformat(), nightly.next_after(source).tzinfo), (nights[0], berlin))
        first = nightly.next_after(winter)
        self.assertEqual((first.isoformat(), first.fold, nightly.next_after(first).isoformat()), ("2024-10-27T02:30:00+02:00", 0, "2024-10-28T02:30:00+01:00"))
        second = hourly.next_after(first)
        self.assertEqual((second.isoformat(), second.fold, hourly.prev_before(second)), ("2024-10-27T02:30:00+01:00", 1, first))
        self.assertEqual(hourly.next_after(second).isoformat(), "2024-10-27T03:30:00+01:00")
        self.assertEqual(nightly.prev_before(nightly.next_after(start)), DateTime(2024, 3, 30, 2, 30, tzinfo=berlin))
        many = [*hourly.iterate(winter, until=winter + Duration(days=10))]
        self.assertEqual((len(many), many[-1]), (241, winter + Duration(days=9, hours=23, minutes=30)))
        self.assertEqual(len({it.timestamp() for it in many}), 241)
        self.assertEqual((Schedule("0 0 30 2 *").next_after(start), Schedule("0 0 30 2 *").prev_before(start), [*Schedule("0 0 30 2 *").iterate(start)]), (None, None, []))
        for hour, minute, day, is_due in [(3, 0, 31, True), (2, 30, 31, False), (2, 30, 30, True), (2, 0, 31, True), (3, 1, 31, False)]:
            self.assertIs(nightly.is_due(DateTime(2024, 3, day, hour, minute, tzinfo=berlin)), is_due)
        self.assertEqual([it.is_due(first.replace(fold=fold)) for it in (nightly, hourly) for fold in (0, 1)], [True, False, True, True])
        self.assertIs(nightly.is_due(first.replace(nanosecond=1)), False)
        for wrong in (lambda: nightly.iterate(start, DateTime(2024, 4, 1)), lambda: nightly.iterate(start, 7), lambda: nightly.next_after(7)):
            self.assertRaises(TypeError, wrong)

    def test_schedules_in_other_zones(self):
        """A ZoneInfo serves as the Zone of its key, and a fixed offset as a zone of its own."""
        nightly, hourly, own = Schedule("30 2 * * *"), Schedule("30 * * * *"), Zone("Europe/Berlin")
        shown = lambda it: (it.isoformat(), it.fold) if isinstance(it, DateTime) else it  # noqa: E731
        for year, month, day in [(2024, 3, 30), (2024, 10, 26), (1990, 7, 1)]:
            for start in (DateTime(year, month, day, 12, tzinfo=BERLIN), datetime.datetime(year, month, day, 12, tzinfo=BERLIN)):
                wanted = DateTime(year, month, day, 12, tzinfo=own)
                for it in (nightly, hourly):
                    for method in ("next_after", "prev_before", "is_due"):
                        self.assertEqual(shown(getattr(it, method)(start)), shown(getattr(it, method)(wanted)))
                    ours, theirs = ([*map(shown, itertools.islice(it.iterate(at), 50))] for at in (start, wanted))
                    self.assertEqual(ours, theirs)
                    self.assertIs(it.next_after(start).tzinfo, BERLIN)
                self.assertEqual(len([*nightly.iterate(start, start + timedelta(days=3))]), 3)
        self.assertIs(nightly.is_due(DateTime(2024, 3, 31, 3, tzinfo=BERLIN)), True)
        self.assertIsNone(Schedule("0 0 30 2 *").next_after(DateTime(2024, 1, 1, tzinfo=BERLIN)))
        for zone in (timezone.utc, timezone(timedelta(hours=5, minutes=30)), timezone(-timedelta(hours=23, minutes=59, seconds=58))):
            found = nightly.next_after(DateTime(2024, 3, 30, 12, tzinfo=zone))
            self.assertEqual((found.replace(tzinfo=None), found.tzinfo), (DateTime(2024, 3, 31, 2, 30), zone))
        with open(os.path.join(zoneinfo.TZPATH[0], "Europe/Berlin"), "rb") as it:
            nameless = zoneinfo.ZoneInfo.from_file(it)
        for zone in (Summer(), nameless, FIXED[2]):
            for method in (nightly.next_after, nightly.prev_before, nightly.is_due, nightly.iterate):
                self.assertRaisesRegex(ValueError, "from_tzif", method, DateTime(2024, 3, 30, tzinfo=zone))


class Zones(Cases):
    def test_parts(self):
        for ours, theirs in self.pairs():
            self.assertIs(ours.tzinfo, theirs.tzinfo)
            for name in ("fold", "hour", "day", "microsecond"):
                self.assertEqual(getattr(ours, name), getattr(theirs, name))
            for name in ("utcoffset", "dst", "tzname", "timetuple", "utctimetuple", "timestamp", "ctime"):
                self.assertEqual(getattr(ours, name)(), getattr(theirs, name)(), (name, theirs))
            again = ours.to_datetime()
            self.assertEqual((again, again.fold, again.tzinfo), (theirs, theirs.fold, theirs.tzinfo))
            self.assertTrue(ours.utcoffset() is None or type(ours.utcoffset()) is Duration)

    def test_texts(self):
        for ours, theirs in self.pairs():
            self.assertEqual(ours.isoformat(timespec="microseconds"), theirs.isoformat(timespec="microseconds"))
            self.assertEqual(ours.isoformat(" ", "minutes"), theirs.isoformat(" ", "minutes"))
            self.assertEqual(str(ours.replace(microsecond=0)), theirs.replace(microsecond=0).isoformat())
            for format in ("%H:%M %z", "%Z", "%Y-%m-%d%%%z"):
                self.assertEqual(ours.strftime(format), theirs.strftime(format))
            self.assertEqual(DateTime.fromisoformat(str(ours)), datetime.datetime.fromisoformat(theirs.isoformat()))

    def test_conversions(self):
        for ours, theirs in self.pairs():
            zone = self.a_zone()
            found, wanted = ours.astimezone(zone), theirs.astimezone(zone)
            self.assertEqual((found.to_datetime(), found.fold, found.tzinfo), (wanted, wanted.fold, wanted.tzinfo), theirs)
            self.assertEqual(found.isoformat(), DateTime.from_datetime(wanted).isoformat())
            stamp = theirs.timestamp()
            for ours_at, theirs_at in [(DateTime.fromtimestamp(stamp, zone), datetime.datetime.fromtimestamp(stamp, zone))]:
                self.assertEqual((ours_at.isoformat(), ours_at.fold), (DateTime.from_datetime(theirs_at).isoformat(), theirs_at.fold))
        self.assertIs(ours.astimezone(ours.tzinfo), ours)
        fine = DateTime(2024, 7, 1, 10, nanosecond=7, tzinfo=timezone.utc)
        self.assertEqual(fine.astimezone(BERLIN).isoformat(), "2024-07-01T12:00:00.000000007+02:00")
        self.assertEqual(DateTime(20_000, 7, 1, tzinfo=FIXED[1]).astimezone(timezone.utc).isoformat(), "+20000-07-01T05:00:00+00:00")
        lengths = Lengths()
        self.assertEqual(fine.astimezone(lengths).isoformat(), "2024-07-01T12:00:00.000000007+02:00")
        now = DateTime.now(BERLIN)
        self.assertIs(now.tzinfo, BERLIN)
        self.assertLess(abs(now - DateTime.now(timezone.utc)), Duration(seconds=5))

    def test_comparisons(self):
        others = [self.a_moment() for _ in range(60)] + [GAP.replace(tzinfo=BERLIN), FOLD.replace(tzinfo=BERLIN), FOLD.replace(tzinfo=BERLIN, fold=1)]
        others += [FOLD.replace(tzinfo=timezone.utc, hour=it) for it in (0, 1)]
        ours = list(map(DateTime.from_datetime, others))
        for one, their_one in zip(ours, others):
            self.assertEqual(hash(one), hash(their_one), their_one)
            for other, their_other in zip(ours, others):
                wanted = (their_one == their_other, their_one < their_other, their_one <= their_other, their_one != their_other)
                self.assertEqual((one == other, one < other, one <= other, one != other), wanted, (their_one, their_other))
                self.assertEqual((one == their_other, one < their_other, one <= their_other, one != their_other), wanted)
                self.assertEqual((their_one == other, their_one < other), wanted[:2])
                self.assertEqual(one - other, their_one - their_other)
                if one == other:
                    self.assertEqual(hash(one), hash(other))

    def test_with_and_without(self):
        naive, aware = DateTime(2024, 2, 29), DateTime(2024, 2, 29, tzinfo=timezone.utc)
        self.assertFalse(naive == aware or aware == naive or aware == datetime.datetime(2024, 2, 29))
        self.assertTrue(naive != aware and aware != Date(2024, 2, 29))
        none = naive.replace(tzinfo=Answering(None))
        self.assertEqual((none, hash(none), none - naive), (naive, hash(naive), Duration()))
        for call in (lambda: naive < aware, lambda: aware >= naive, lambda: naive - aware, lambda: aware - naive, lambda: aware < GAP):
            self.assertRaises(TypeError, call)
        self.assertIsNone(naive.utcoffset())
        self.assertEqual((naive.dst(), naive.tzname(), naive.strftime("%z%Z|")), (None, None, "|"))
        self.assertEqual(hash(aware.replace(nanosecond=1)), hash(aware.replace(nanosecond=1).astimezone(FIXED[1])))
        far = DateTime.max.replace(tzinfo=FIXED[1])
        self.assertTrue(far > DateTime.max.replace(tzinfo=timezone.utc))
        leap = DateTime(2016, 12, 31, 23, 59, 60, tzinfo=timezone.utc)
        self.assertEqual(leap.isoformat(), "2016-12-31T23:59:60+00:00")
        self.assertTrue(DateTime(2017, 1, 1, tzinfo=timezone.utc) > leap > DateTime(2016, 12, 31, 23, 59, 59, tzinfo=timezone.utc))
        self.assertNotEqual(leap, DateTime(2017, 1, 1, tzinfo=FIXED[1]))

    def test_moves(self):
        """A move goes by the clock of the zone, as datetime's does, and forgets the fold."""
        for ours, theirs in self.pairs():
            length = timedelta(minutes=self.chance.randrange(-2000, 2000))
            moved, wanted = ours + length, theirs + length
            self.assertEqual((moved.to_datetime(), moved.fold, moved.tzinfo), (wanted, wanted.fold, wanted.tzinfo))
            self.assertEqual((ours.add_months(1).tzinfo, ours.add_months(1).time), (ours.tzinfo, ours.time))

    def test_months_of_nothing(self):
        """A move by no months is the same instant, also where the clock shows the time twice."""
        for ours, _ in self.pairs():
            still = ours.add_months(0)
            self.assertEqual((str(still), still.fold, still.tzinfo, still.timestamp()), (str(ours), ours.fold, ours.tzinfo, ours.timestamp()))
        for zone in (BERLIN, Zone("Europe/Berlin")):
            second = Moment(2024, 10, 27, 2, 30, tzinfo=zone, fold=1)
            self.assertEqual((type(second.add_months(0)), str(second.add_months(0)), second.add_months(1).fold), (Moment, "2024-10-27T02:30:00+01:00", 0))

    def test_making(self):
        for made in (
            DateTime(2024, 10, 27, 2, 30, 0, 0, BERLIN, fold=1), DateTime(2024, 10, 27, 2, 30, tzinfo=BERLIN, fold=1),
            DateTime(Date(2024, 10, 27), 2, 30, tzinfo=BERLIN, fold=1), DateTime(2024, 10, 27, 2, 30).replace(tzinfo=BERLIN, fold=1),
            DateTime.combine(Date(2024, 10, 27), Time(2, 30), BERLIN).replace(fold=1), DateTime.combine(Date(2024, 10, 27), Time(2, 30), tzinfo=BERLIN).replace(fold=1),
        ):
            self.assertEqual((str(made), made.fold, made.tzinfo), ("2024-10-27T02:30:00+01:00", 1, BERLIN))
            self.assertEqual(str(made.replace(fold=0)), "2024-10-27T02:30:00+02:00")
            self.assertIsNone(made.replace(tzinfo=None).tzinfo)
            self.assertEqual(made.replace(tzinfo=None).fold, 1)
        for wrong in (1, "Europe/Berlin", timedelta(1)):
            for call in (lambda: DateTime(2024, 1, 1, tzinfo=wrong), lambda: DateTime.now(wrong), lambda: DateTime(2024, 1, 1).astimezone(wrong)):
                self.assertRaises(TypeError, call)
        self.assertRaises(ValueError, DateTime, 2024, 1, 1, fold=2)
        self.assertRaises(ValueError, DateTime, 2024, 1, 1, fold=-1)

    def test_wrong_answers(self):
        moment = DateTime(2024, 2, 29)
        for answer, error in {1: TypeError, "1": TypeError, timedelta(1): ValueError, -timedelta(1): ValueError, Duration(days=1): ValueError}.items():
            wrong = moment.replace(tzinfo=Answering(answer))
            for call in (wrong.utcoffset, wrong.dst, wrong.isoformat, wrong.timestamp, lambda: hash(wrong), wrong.astimezone,
                         lambda: wrong == moment.replace(tzinfo=timezone.utc), lambda: wrong - moment.replace(tzinfo=timezone.utc)):
                self.assertRaises(error, call)
        self.assertRaises(ValueError, moment.replace(tzinfo=timezone.utc).astimezone, Answering(None))
        self.assertRaises(OverflowError, DateTime(20_000, 1, 1, tzinfo=BERLIN).utcoffset)

    def test_kept(self):
        for ours, _ in self.pairs():
            for again in (copy.copy(ours), pickle.loads(pickle.dumps(ours.replace(tzinfo=BERLIN)))):
                self.assertEqual((str(again.replace(tzinfo=None)), again.fold), (str(ours.replace(tzinfo=None)), ours.fold))
        names = {"DateTime": DateTime, "datetime": datetime, "zoneinfo": zoneinfo}
        for it in (FOLD.replace(tzinfo=BERLIN, fold=1), FOLD.replace(tzinfo=timezone.utc), FOLD.replace(fold=1), GAP.replace(tzinfo=FIXED[2])):
            again = eval(repr(DateTime.from_datetime(it)), names)
            self.assertEqual((again.to_datetime().isoformat(), again.fold, again.tzinfo), (it.isoformat(), it.fold, it.tzinfo))
        moment = Moment(2024, 10, 27, 2, 30, tzinfo=BERLIN, fold=1)
        for it in (moment, pickle.loads(pickle.dumps(moment)), copy.copy(moment)):
            self.assertEqual((type(it), it.fold, it.tzinfo), (Moment, 1, BERLIN))
        for it in (moment.astimezone(timezone.utc), moment + timedelta(1), Moment.now(BERLIN), Moment.fromisoformat("2024-10-27T02:30+01:00")):
            self.assertIs(type(it), Moment)
            self.assertIsNotNone(it.tzinfo)

    def test_memory(self):
        """A zone is let go with its last date-time."""
        zone = Summer()
        before = sys.getrefcount(zone)
        for _ in range(100):
            made = DateTime(2024, 2, 29, tzinfo=zone)
            made = [made + timedelta(1), made.replace(hour=1), hash(made), made == made.replace(fold=1), made < DateTime(2024, 1, 1, tzinfo=timezone.utc),
                    str(made), repr(made), made.to_datetime() == made, made - made.astimezone(timezone.utc), made.astimezone(Lengths()), copy.copy(made)]
        del made
        self.assertLess(sys.getrefcount(zone) - before, 3)


class Instants(Cases):
    def test_instants(self):
        for ours, theirs in self.pairs():
            instant = Instant.from_datetime(theirs)
            self.assertEqual(instant, Instant.from_datetime(ours))
            self.assertEqual(instant.timestamp(), theirs.timestamp())
            self.assertEqual(instant, Instant.fromisoformat(theirs.isoformat()))
            zone = self.a_zone()
            self.assertEqual(Instant.from_datetime(instant.astimezone(zone)), instant)
            if zone is not ours.tzinfo:
                self.assertEqual(instant.astimezone(zone).isoformat(), ours.astimezone(zone).isoformat())
            for again in (eval(repr(instant)), pickle.loads(pickle.dumps(instant)), copy.copy(instant), Instant.fromtimestamp(theirs.timestamp())):
                self.assertEqual((again, hash(again)), (instant, hash(instant)))

    def test_order(self):
        one, other = Instant(0), Instant.fromisoformat("1970-01-01T01:00:00.000000001+01:00")
        self.assertEqual((other.seconds, other.nanos, str(other)), (0, 1, "1970-01-01T00:00:00.000000001Z"))
        self.assertTrue(one < other and one <= other and other > one and other >= one and one != other and not one == other)
        self.assertEqual(other - one, Duration(nanoseconds=1))
        self.assertEqual((one + timedelta(1), timedelta(1) + one, one - Duration(days=1)), (Instant(86_400), Instant(86_400), Instant(-86_400)))
        self.assertEqual(f"{one:>25}", "     1970-01-01T00:00:00Z")
        leap = Instant.fromisoformat("2016-12-31T23:59:60Z")
        self.assertTrue(Instant.fromisoformat("2016-12-31T23:59:59Z") < leap < Instant.fromisoformat("2017-01-01T00:00:00Z"))
        self.assertTrue(Instant.min < one < Instant.max)
        self.assertLess(abs(Instant.now() - Instant.from_datetime(datetime.datetime.now(timezone.utc))), Duration(seconds=5))

    def test_refusals(self):
        one = Instant(0)
        for call in (lambda: Instant.from_datetime(DateTime(2024, 1, 1)), lambda: Instant.from_datetime(datetime.datetime(2024, 1, 1)),
                     lambda: Instant.fromisoformat("2024-01-01T00:00:00"), lambda: Instant(2**62), lambda: Instant(0, -1)):
            self.assertRaises(ValueError, call)
        for call in (lambda: one + 1, lambda: one - 1, lambda: one < 1, lambda: one <= DateTime(1970, 1, 1), lambda: one > 1, lambda: one >= 1,
                     lambda: one.astimezone(None), lambda: one.astimezone("UTC"), lambda: Instant(), lambda: Instant.from_datetime(1)):
            self.assertRaises(TypeError, call)
        self.assertNotEqual(one, DateTime(1970, 1, 1, tzinfo=timezone.utc))
        self.assertRaises(OverflowError, lambda: Instant.max + Duration(nanoseconds=1))
        self.assertRaises(AttributeError, setattr, one, "seconds", 1)
        self.assertRaises(AttributeError, delattr, one, "_utc")


class Machine(Cases):
    """By the clock of this machine, which the environment sets."""

    def setUp(self):
        super().setUp()
        self.kept = os.environ.get("TZ")

    def tearDown(self):
        self.set(self.kept)

    def set(self, name):
        if name is None:
            os.environ.pop("TZ", None)
        else:
            os.environ["TZ"] = name
        time.tzset()

    def test_local(self):
        for name in NAMES:
            self.set(name)
            for at in self.changes[zoneinfo.ZoneInfo(name)]:
                for minutes in (*range(-190, 190, 15), 60 * 24, 60 * 24 + 5):
                    theirs = (at + timedelta(minutes=minutes)).astimezone(zoneinfo.ZoneInfo(name)).replace(tzinfo=None)
                    for fold in (0, 1):
                        theirs = theirs.replace(fold=fold)
                        ours = DateTime.from_datetime(theirs)
                        self.assertEqual(ours.timestamp(), theirs.timestamp(), (name, theirs, fold))
                        self.assertEqual(ours.astimezone().isoformat(), theirs.astimezone().isoformat())
                        self.assertEqual(ours.astimezone(timezone.utc), theirs.astimezone(timezone.utc))
                    stamp = (at + timedelta(minutes=minutes)).timestamp()
                    found, wanted = DateTime.fromtimestamp(stamp), datetime.datetime.fromtimestamp(stamp)
                    self.assertEqual((found, found.fold, found.tzinfo), (wanted, wanted.fold, None))

    def test_skipped(self):
        self.set("Europe/Berlin")
        for fold in (0, 1):
            theirs = datetime.datetime(2024, 3, 31, 2, 30, fold=fold)
            ours = DateTime.from_datetime(theirs)
            self.assertEqual(ours.timestamp(), theirs.timestamp())
            self.assertEqual(ours.astimezone(timezone.utc), theirs.astimezone(timezone.utc))


if __name__ == "__main__":
    unittest.main()
