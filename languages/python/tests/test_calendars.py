#!/usr/bin/env python3
"""Calls CalendarText and TimedSchedule of proved_calendar, with answers that are known from outside, and beside dateutil if it is there."""
import copy
import datetime
import pickle
import unittest
import zoneinfo

from proved_calendar import CalendarText, DateTime, TextError, TimedSchedule, Zone

BERLIN = Zone.from_rule("CET-1CEST,M3.5.0,M10.5.0/3")
MEETINGS = (
    "DTSTART;TZID=Europe/Berl\r\n in:20240131T090000\r\nRRULE:FREQ=MONTHLY;COUNT=4\r\n"
    "RDATE;TZID=Europe/Berlin:20240201T090000\r\nEXDATE;TZID=Europe/Berlin:20240531T090000\r\n"
)
NIGHTS = "DTSTART;TZID=Europe/Berlin:20240330T023000\nRRULE:FREQ=DAILY;BYHOUR=2,17"


def at(*parts):
    """What UTC shows, as a date-time in UTC."""
    return DateTime(*parts, tzinfo=datetime.timezone.utc)


class Calendars(unittest.TestCase):
    def test_after(self):
        nights = CalendarText(NIGHTS, BERLIN)
        first = nights.after(at(2024, 1, 1))
        self.assertEqual(str(first), "2024-03-30T02:30:00+01:00")
        self.assertIs(type(first), DateTime)
        self.assertIs(first.tzinfo, BERLIN)
        self.assertEqual(nights.after(first, inc=True), first)
        self.assertEqual(str(nights.after(at(2024, 3, 30, 16, 30))), "2024-03-31T03:30:00+02:00")
        self.assertIsNone(CalendarText("DTSTART:20240131T090000", BERLIN).after(at(2024, 1, 31, 8)))

    def test_before(self):
        nights = CalendarText(NIGHTS, BERLIN)
        self.assertEqual(str(nights.before(at(2024, 3, 31, 1, 30))), "2024-03-30T17:30:00+01:00")
        self.assertEqual(str(nights.before(at(2024, 3, 31, 1, 30), inc=True)), "2024-03-31T03:30:00+02:00")
        self.assertIsNone(nights.before(at(2024, 3, 30, 1, 30)))

    def test_lists(self):
        meetings = CalendarText(MEETINGS, BERLIN)
        wanted = ["2024-01-31T09:00:00+01:00", "2024-02-01T09:00:00+01:00", "2024-03-31T09:00:00+02:00", "2024-07-31T09:00:00+02:00"]
        self.assertEqual([str(it) for it in meetings], wanted)
        self.assertEqual(meetings.count(), 4)
        self.assertEqual([str(it) for it in meetings[1:3]], wanted[1:3])
        self.assertEqual(str(meetings[-1]), wanted[3])
        first, last = meetings[0], meetings[3]
        self.assertEqual([str(it) for it in meetings.between(first, last)], wanted[1:3])
        self.assertEqual([str(it) for it in meetings.between(first, last, inc=True)], wanted)
        self.assertEqual([str(it) for it in meetings.xafter(first, count=1)], wanted[1:2])
        self.assertEqual([str(it) for it in meetings.xafter(first, count=1, inc=True)], wanted[:1])
        self.assertIn(last, meetings)
        self.assertIn(at(2024, 7, 31, 7), meetings)
        self.assertNotIn(at(2024, 5, 31, 7), meetings)
        with self.assertRaises(IndexError):
            meetings[4]

    def test_long_lists(self):
        hourly = CalendarText("DTSTART:20240101T000000\nRRULE:FREQ=HOURLY;COUNT=200", datetime.timezone.utc)
        self.assertEqual(hourly.count(), 200)
        self.assertEqual(len(hourly.between(hourly[0], hourly[199])), 198)

    def test_zones(self):
        named = CalendarText(NIGHTS)
        self.assertEqual(named.zone.key, "Europe/Berlin")
        self.assertEqual(str(named[2]), "2024-03-31T03:30:00+02:00")
        self.assertEqual(CalendarText(NIGHTS, zoneinfo.ZoneInfo("Europe/Berlin")), named)
        with self.assertRaisesRegex(ValueError, "names no time zone"):
            CalendarText("DTSTART:20240131T090000")

    def test_faults(self):
        for text, said, start, end in [
            ("DTSTART:20240131T0900", "no date and no date-time as 20240131T090000", 8, 21),
            ("RRULE:FREQ=DAILY", "DTSTART is missing", 16, 16),
            ("DTSTART:20240131T090000Z", "DTSTART is no local time", 0, 24),
            ("DTSTART:20240131T090000\nRRULE:FREQ=DAILY;BYHOUR=24", "BYHOUR stands twice or lists no hours", 0, 50),
        ]:
            with self.assertRaises(TextError) as raised:
                CalendarText(text, BERLIN)
            error = raised.exception
            self.assertEqual((str(error), error.start, error.end), (said, start, end))
        with self.assertRaises(TypeError):
            CalendarText(b"DTSTART:20240131T090000", BERLIN)
        with self.assertRaises(TypeError):
            CalendarText(NIGHTS, BERLIN).after(DateTime(2024, 1, 1))

    def test_habits(self):
        meetings = CalendarText(MEETINGS, BERLIN)
        for same in (copy.copy(meetings), pickle.loads(pickle.dumps(meetings))):
            self.assertEqual(same, meetings)
            self.assertEqual(hash(same), hash(meetings))
        self.assertNotEqual(meetings, CalendarText(NIGHTS, BERLIN))
        self.assertEqual(eval(repr(CalendarText(NIGHTS))), CalendarText(NIGHTS))
        with self.assertRaises(AttributeError):
            meetings.text = NIGHTS

    def test_beside_dateutil(self):
        try:
            from dateutil import rrule, tz
        except ImportError:
            self.skipTest("there is no dateutil")
        zone = tz.gettz("Europe/Berlin")
        for rule in ("FREQ=WEEKLY;BYDAY=MO,FR", "FREQ=MONTHLY;BYDAY=-1FR", "FREQ=YEARLY;BYMONTH=2;BYMONTHDAY=29", "FREQ=DAILY;INTERVAL=3;BYHOUR=9,17"):
            start = datetime.datetime(2024, 1, 1, 9, tzinfo=zone)
            theirs = rrule.rrulestr(f"RRULE:{rule}", dtstart=start)[:40]
            ours = CalendarText(f"DTSTART;TZID=Europe/Berlin:20240101T090000\nRRULE:{rule}")[:40]
            self.assertEqual([it.timestamp() for it in ours], [it.timestamp() for it in theirs], rule)


class TimedSchedules(unittest.TestCase):
    def test_moments(self):
        quarters = TimedSchedule("*/15 30 4 * * *")
        self.assertEqual(quarters.next_after(DateTime(2024, 2, 9, 4, 30, 15)), DateTime(2024, 2, 9, 4, 30, 30))
        self.assertEqual(quarters.prev_before(DateTime(2024, 2, 9, 4, 30, 15)), DateTime(2024, 2, 9, 4, 30))
        self.assertTrue(quarters.is_due(DateTime(2024, 2, 9, 4, 30, 15)))
        self.assertFalse(quarters.is_due(DateTime(2024, 2, 9, 4, 30, 16)))
        start, end = DateTime(2024, 2, 9), DateTime(2024, 2, 9, 4, 30, 30)
        self.assertEqual([it.second for it in quarters.iterate(start, end)], [0, 15, 30])

    def test_dialects(self):
        weekdays = TimedSchedule("0 30 4 ? * MON-FRI 2024-2026", "quartz")
        self.assertEqual(weekdays.next_after(DateTime(2026, 1, 2, 4, 30)), DateTime(2026, 1, 5, 4, 30))
        self.assertIsNone(weekdays.next_after(DateTime(2026, 12, 31, 4, 30)))
        self.assertEqual(TimedSchedule("@daily", dialect="crontab").next_after(DateTime(2024, 2, 29)), DateTime(2024, 3, 1))
        for dialect, day in [("robfig", DateTime(2024, 2, 21, 4, 30)), ("crontab", DateTime(2024, 3, 1, 4, 30))]:
            self.assertEqual(TimedSchedule("30 4 */20 * FRI", dialect).next_after(DateTime(2024, 2, 16, 4, 30)), day)
        with self.assertRaises(ValueError):
            TimedSchedule("@daily", "posix")

    def test_faults(self):
        for text, dialect, said, start, end in [
            ("0,60 * * * * *", "seconds", "second, byte 2: a number that is out of range", 2, 4),
            ("0 0 24 * * *", "seconds", "hour, byte 4: a number that is out of range", 4, 6),
            ("0 0 0 1 * MON", "quartz", "weekday, byte 10: not just one field of days is ?", 10, 13),
            ("0 0 0 1 * ? 2100", "quartz", "year, byte 12: a number that is out of range", 12, 16),
            ("0 0 ? * 7", "robfig", "weekday, byte 8: a number that is out of range", 8, 9),
        ]:
            with self.assertRaises(TextError) as raised:
                TimedSchedule(text, dialect)
            error = raised.exception
            self.assertEqual((str(error), error.start, error.end), (said, start, end))

    def test_habits(self):
        quarters = TimedSchedule("*/15 30 4 * * *")
        self.assertEqual(pickle.loads(pickle.dumps(quarters)), quarters)
        self.assertEqual(eval(repr(quarters)), quarters)
        self.assertEqual(str(quarters), "*/15 30 4 * * *")
        self.assertNotEqual(quarters, TimedSchedule("0 30 4 * * *"))
        with self.assertRaises(AttributeError):
            quarters.text = ""


if __name__ == "__main__":
    unittest.main()
