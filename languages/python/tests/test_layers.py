#!/usr/bin/env python3
"""Calls every function of schedules, open days and day counts through proved_calendar, with answers that are known from outside; the
habits of their values; and what wrong texts and arguments raise."""
import copy
import datetime
import gc
import itertools
import pickle
import signal
import sys
import threading
import time
import unittest
from fractions import Fraction

from proved_calendar import BusinessCalendar, Date, DateTime, Duration, Pattern, Rule, RuleSet, Schedule, TextError, Weekday, day_count, easter

MON, TUE, WED, THU, FRI, SAT, SUN = Weekday
GOOD_FRIDAY, EASTER_MONDAY = Date(2024, 3, 29), Date(2024, 4, 1)
EASTER = BusinessCalendar([GOOD_FRIDAY, EASTER_MONDAY])


def seconds_of(call):
    """The least processor time of three calls."""
    spent = []
    for _ in range(3):
        began = time.process_time()
        call()
        spent.append(time.process_time() - began)
    return min(spent)


class Stopped(Exception):
    """What the handler of a signal raises."""


def stop(*unused):
    raise Stopped


class Signals(unittest.TestCase):
    def test_long_lists(self):
        """A signal ends a long list soon, and not only when the list is done."""
        last = JANUARY + 600_000
        rule, timed = Rule("FREQ=DAILY", JANUARY), Rule("FREQ=DAILY;COUNT=600000", DateTime(JANUARY, 12))
        minutely, until = Schedule("* * * * *"), DateTime(JANUARY) + Duration(minutes=600_000)
        before = signal.signal(signal.SIGPROF, stop)
        try:
            for call in (
                lambda: rule.between(JANUARY, last), lambda: rule[:600_000], lambda: list(timed),
                lambda: list(minutely.iterate(DateTime(JANUARY), until)),
            ):
                whole, began = seconds_of(call), time.process_time()
                signal.setitimer(signal.ITIMER_PROF, whole / 20)
                self.assertRaises(Stopped, call)
                self.assertLess(time.process_time() - began, whole / 2)
        finally:
            signal.setitimer(signal.ITIMER_PROF, 0)
            signal.signal(signal.SIGPROF, before)

    def test_after_a_signal(self):
        """An iterator goes on where a signal ended it. The handler cannot use it."""
        said = []

        def use(*unused):
            try:
                next(instances)
            except ValueError as it:
                said.append(str(it))
            stop()

        until = DateTime(JANUARY) + Duration(minutes=600_000)
        days, minutes = Rule("FREQ=DAILY;COUNT=600000", JANUARY), Schedule("* * * * *").iterate(DateTime(JANUARY), until)
        before = signal.signal(signal.SIGPROF, use)
        try:
            for instances, last, step in ((iter(days), JANUARY + 599_999, 1), (minutes, until, Duration(minutes=1))):
                signal.setitimer(signal.ITIMER_PROF, 0.002)
                self.assertRaises(Stopped, list, instances)
                left = list(instances)
                self.assertEqual((left[0] + step * (len(left) - 1), left[-1]), (last, last))
        finally:
            signal.setitimer(signal.ITIMER_PROF, 0)
            signal.signal(signal.SIGPROF, before)
        self.assertEqual(said, 2 * ["another thread is using the iterator"])


class Schedules(unittest.TestCase):
    def test_next_after(self):
        for text, start, moment in [
            ("30 4 1,15 * fri", DateTime(2024, 2, 9, 4, 30), DateTime(2024, 2, 15, 4, 30)),
            ("30 4 1,15 * fri", DateTime(2024, 2, 9, 4, 29, 59), DateTime(2024, 2, 9, 4, 30)),
            ("*/15 * * * *", DateTime(2024, 2, 29, 23, 45), DateTime(2024, 3, 1)),
            ("0 0 29 2 *", DateTime(1896, 3, 1), DateTime(1904, 2, 29)),
            ("0 0 L * *", DateTime(2023, 2, 1), DateTime(2023, 2, 28)),
            ("0 0 31W * *", DateTime(2024, 3, 1), DateTime(2024, 3, 29)),
            ("@hourly", DateTime(2016, 12, 31, 23, 59, 60), DateTime(2017, 1, 1)),
        ]:
            found = Schedule(text).next_after(start)
            self.assertEqual(found, moment, (text, start))
            self.assertIs(type(found), DateTime)

    def test_prev_before(self):
        daily = Schedule("@daily")
        self.assertEqual(daily.prev_before(DateTime(2024, 3, 1)), DateTime(2024, 2, 29))
        self.assertEqual(daily.prev_before(DateTime(2024, 3, 1, nanosecond=1)), DateTime(2024, 3, 1))
        self.assertEqual(Schedule("0 0 29 2 *").prev_before(DateTime(1904, 2, 29)), DateTime(1896, 2, 29))

    def test_none(self):
        for text in ("0 0 30 2 *", "0 0 31 4,6,9,11 *"):
            never = Schedule(text)
            self.assertIsNone(never.next_after(DateTime(2024, 1, 1)))
            self.assertIsNone(never.prev_before(DateTime(2024, 1, 1)))
            self.assertEqual(list(never.iterate(DateTime(2024, 1, 1))), [])
        every = Schedule("* * * * *")
        self.assertIsNone(every.next_after(DateTime.max))
        self.assertIsNone(every.prev_before(DateTime.min))

    def test_is_due(self):
        schedule = Schedule("30 4 1,15 * fri")
        self.assertIs(schedule.is_due(DateTime(2024, 2, 15, 4, 30)), True)
        for moment in (DateTime(2024, 2, 14, 4, 30), DateTime(2024, 2, 15, 4, 31), DateTime(2024, 2, 15, 4, 30, 1),
                       DateTime(2024, 2, 15, 4, 30, nanosecond=1)):
            self.assertIs(schedule.is_due(moment), False)

    def test_iterate(self):
        schedule, start = Schedule("*/20 * * * *"), DateTime(2024, 2, 28, 23)
        every = [DateTime.from_seconds(start.seconds + 1200 * it) for it in range(1, 1001)]
        moments = schedule.iterate(start)
        self.assertIs(iter(moments), moments)
        self.assertEqual([next(moments) for _ in every], every)
        # (ends before, at, and behind a moment, where what is found at once ends too, and elsewhere)
        for count in (*range(10), 13, 14, 15, 29, 30, 31, 61, 62, 63, 125, 126, 127, 128, 189, 190, 191, 1000):
            for more in (0, 1, 1199):
                until = DateTime.from_seconds(start.seconds + 1200 * count + more)
                self.assertEqual(list(schedule.iterate(start, until)), every[:count])
                self.assertEqual(list(schedule.iterate(start=start, until=until)), every[:count])
        ended = schedule.iterate(start, start)
        for _ in range(3):
            self.assertEqual(next(ended, None), None)
        self.assertEqual(list(schedule.iterate(start, DateTime.min)), [])
        self.assertEqual(next(schedule.iterate(start, None)), every[0])
        self.assertRaises(TypeError, type(moments))

    def test_iterate_end(self):
        last = DateTime(262142, 12, 31, 22)
        self.assertEqual([it.hour for it in Schedule("@hourly").iterate(last)], [23])

    def test_datetime(self):
        """A datetime.datetime serves as a moment."""
        daily, theirs = Schedule("@daily"), datetime.datetime(2024, 2, 28, 12)
        self.assertEqual(daily.next_after(theirs), datetime.datetime(2024, 2, 29))
        self.assertEqual(daily.prev_before(theirs), datetime.datetime(2024, 2, 28))
        self.assertFalse(daily.is_due(theirs))
        self.assertEqual([it.day for it in daily.iterate(theirs, datetime.datetime(2024, 3, 1))], [29, 1])
        self.assertRaises(ValueError, daily.iterate, theirs, theirs.replace(tzinfo=datetime.timezone.utc))
        for call in (daily.next_after, daily.prev_before, daily.is_due, daily.iterate, lambda it: daily.iterate(theirs, it)):
            for wrong in (Date(2024, 2, 28), datetime.date(2024, 2, 28), "2024-02-28", 1, None):
                if call is not daily.iterate or wrong is not None:
                    self.assertTrue(wrong is None or self.assertRaises(TypeError, call, wrong) is None)

    def test_errors(self):
        for text, said, wrong in [
            ("0 25 * * *", "hour, byte 2: a number that is out of range", "25"),
            ("0 0 * * * *", None, "*"), ("", None, ""), ("@nightly", None, "@nightly"), ("0 0 * * mon-xyz", None, None),
            ("0 0 1-40 * *", None, None), ("*/0 * * * *", None, None), ("5-3 * * * *", None, None), ("0 0 * * \u00fc", None, None),
            ("\u00fc 0 * * 8", None, "\u00fc"),
        ]:
            with self.assertRaises(TextError, msg=text) as caught:
                Schedule(text)
            error = caught.exception
            self.assertIsInstance(error, ValueError)
            self.assertEqual(error.text, text)
            self.assertTrue(0 <= error.start <= error.end <= len(text), (text, error.start, error.end))
            if said:
                self.assertEqual(str(error), said)
            if wrong is not None:
                self.assertEqual(text[error.start:error.end], wrong)
            again = pickle.loads(pickle.dumps(error))
            self.assertEqual((str(again), again.text, again.start, again.end), (str(error), text, error.start, error.end))
        # (half of a surrogate pair)
        self.assertRaises(ValueError, Schedule, "\ud800 0 * * *")
        for call in (Schedule, lambda: Schedule(1), lambda: Schedule(b"@daily"), lambda: Schedule("@daily", "@daily"),
                     lambda: Schedule("@daily").iterate(), lambda: Schedule("@daily").next_after()):
            self.assertRaises(TypeError, call)

    def test_values(self):
        daily, same, other = Schedule("@daily"), Schedule(text="0 0 * * *"), Schedule("0 1 * * *")
        self.assertEqual(daily, same)
        self.assertEqual(hash(daily), hash(same))
        self.assertNotEqual(daily, other)
        self.assertFalse(daily == other or daily != same)
        self.assertNotEqual(daily, "@daily")
        self.assertEqual(len({daily, same, other}), 2)
        self.assertRaises(TypeError, lambda: daily < other)
        self.assertEqual((str(daily), repr(daily)), ("@daily", "Schedule('@daily')"))
        for it in (daily, same, Schedule("0 0 L-3,15W * 5#2")):
            for again in (eval(repr(it)), copy.copy(it), copy.deepcopy(it), pickle.loads(pickle.dumps(it))):
                self.assertEqual((again, str(again)), (it, str(it)))
        texts = [f"{minute} {hour} * * *" for minute in range(60) for hour in range(24)]
        self.assertEqual(len({hash(Schedule(it)) for it in texts}), len(texts))

    def test_threads(self):
        """Threads that share an iterator get each moment once, or are told that another uses it."""
        moments, found = Schedule("* * * * *").iterate(DateTime(2024, 1, 1), DateTime(2024, 1, 8)), []

        def take():
            while True:
                try:
                    found.append(next(moments))
                except StopIteration:
                    return
                except ValueError:
                    continue

        threads = [threading.Thread(target=take) for _ in range(4)]
        for it in threads:
            it.start()
        for it in threads:
            it.join()
        self.assertEqual(len(found), 7 * 1440)
        self.assertEqual(len(set(found)), 7 * 1440)


JANUARY = Date(2024, 1, 1)
FRIDAYS = Rule("FREQ=MONTHLY;BYDAY=-1FR", JANUARY)
TIMED = Rule("FREQ=WEEKLY;COUNT=5", DateTime(2024, 1, 1, 9, 30, nanosecond=5))


class Rules(unittest.TestCase):
    def test_instances(self):
        for text, start, days in [
            ("FREQ=MONTHLY;BYDAY=-1FR", JANUARY, [Date(2024, 1, 26), Date(2024, 2, 23), Date(2024, 3, 29)]),
            ("FREQ=YEARLY", Date(2024, 2, 29), [Date(2024, 2, 29), Date(2028, 2, 29), Date(2032, 2, 29)]),
            ("FREQ=MONTHLY", Date(2024, 1, 31), [Date(2024, 1, 31), Date(2024, 3, 31), Date(2024, 5, 31)]),
            ("FREQ=DAILY;INTERVAL=10;UNTIL=20240121", JANUARY, [JANUARY, Date(2024, 1, 11), Date(2024, 1, 21)]),
            ("FREQ=DAILY;COUNT=3", JANUARY, [JANUARY, Date(2024, 1, 2), Date(2024, 1, 3)]),
        ]:
            rule = Rule(text=text, start=start)
            self.assertEqual(rule[:3], days)
            self.assertEqual([rule[0], rule[1], rule[2]], days)
            self.assertTrue(all(it in rule and it.to_date() in rule for it in days))
            self.assertEqual((rule.text, str(rule), rule.start), (text, text, start))
        self.assertEqual([*Rule("FREQ=DAILY;COUNT=0", JANUARY)], [])

    def test_times(self):
        weeks = [DateTime(2024, 1, 1 + 7 * it, 9, 30, nanosecond=5) for it in range(5)]
        self.assertEqual([*TIMED], weeks)
        self.assertEqual((TIMED.start, TIMED.count(), TIMED[-1], TIMED[1:3]), (weeks[0], 5, weeks[-1], weeks[1:3]))
        for more, later in ((-1, 1), (0, 2), (1, 2)):
            at = weeks[1].replace(nanosecond=5 + more)
            self.assertEqual(TIMED.after(at), weeks[later])
            self.assertEqual(TIMED.after(at, inc=True), weeks[1 + (more > 0)])
            self.assertEqual(TIMED.before(at), weeks[more > 0])
            self.assertEqual(TIMED.before(at, True), weeks[more >= 0])
            self.assertIs(at in TIMED, more == 0)
        for seconds, before, after in ((-1, 0, 1), (1, 1, 2)):
            at = weeks[1] + Duration(seconds=seconds)
            self.assertEqual((TIMED.before(at), TIMED.after(at)), (weeks[before], weeks[after]))
        self.assertEqual(TIMED.between(weeks[0], weeks[4]), weeks[1:4])
        self.assertEqual(TIMED.between(after=weeks[0], before=weeks[4], inc=True), weeks)
        self.assertFalse(Date(2024, 1, 1) in TIMED or datetime.date(2024, 1, 1) in TIMED or 1 in TIMED or datetime.datetime(2024, 1, 1, 9, 30) in TIMED)
        self.assertFalse(DateTime(2024, 1, 26) in FRIDAYS or datetime.datetime(2024, 1, 26) in FRIDAYS or "2024-01-26" in FRIDAYS)
        theirs = Rule("FREQ=DAILY", datetime.datetime(2024, 1, 1, 9))
        self.assertEqual(theirs.after(datetime.datetime(2024, 1, 1, 9)), datetime.datetime(2024, 1, 2, 9))
        self.assertIn(datetime.datetime(2024, 1, 5, 9), theirs)

    def test_after_and_before(self):
        first, second = Date(2024, 1, 26), Date(2024, 2, 23)
        self.assertEqual((FRIDAYS.after(first), FRIDAYS.after(first, inc=True), FRIDAYS.after(first - 1)), (second, first, first))
        self.assertEqual((FRIDAYS.before(second), FRIDAYS.before(second, True), FRIDAYS.before(second + 1)), (first, second, second))
        self.assertEqual(FRIDAYS.after(Date.min), first)
        self.assertIsNone(FRIDAYS.before(first))
        self.assertIsNone(FRIDAYS.before(Date.min, inc=True))
        self.assertIsNone(FRIDAYS.after(Date.max, inc=False))
        self.assertEqual(Rule("FREQ=DAILY", JANUARY).before(Date.max, inc=True), Date.max)
        self.assertEqual(Rule("FREQ=DAILY", JANUARY).after(Date.max, inc=True), Date.max)
        self.assertIsNone(TIMED.after(DateTime.max))
        self.assertIsNone(TIMED.before(DateTime.min, True))
        self.assertEqual(FRIDAYS.between(JANUARY, Date(2024, 3, 29)), [first, second])
        self.assertEqual(FRIDAYS.between(first.to_date(), second.to_date(), True), [first, second])
        self.assertEqual(FRIDAYS.between(second, first, True), [])

    def test_xafter(self):
        every = Rule("FREQ=DAILY;COUNT=300", JANUARY)
        self.assertEqual([*every.xafter(Date(2024, 1, 5), 2)], [Date(2024, 1, 6), Date(2024, 1, 7)])
        self.assertEqual([*every.xafter(dt=Date(2024, 1, 5), count=1, inc=True)], [Date(2024, 1, 5)])
        self.assertEqual(len([*every.xafter(JANUARY)]), 299)
        for count in (0, -1):
            self.assertEqual([*every.xafter(JANUARY, count)], [])

    def test_sequence(self):
        days = [JANUARY + it for it in range(3000)]
        self.assertEqual([*Rule("FREQ=DAILY;COUNT=3000", JANUARY)], days)
        rule = Rule(f"FREQ=DAILY;UNTIL={days[-1]:%Y%m%d}", JANUARY)
        self.assertEqual([*rule], days)
        self.assertEqual(rule.count(), 3000)
        for place in (0, 1, 2, 5, 13, 14, 61, 62, 63, 64, 1023, 1024, 1025, 2047, 2048, 2999, -1, -2, -1024, -3000):
            self.assertEqual(rule[place], days[place], place)
        for place in (3000, -3001, 2**63, -(2**63), 2**64, -(2**64)):
            self.assertRaises(IndexError, lambda: rule[place])
        for part in (slice(3), slice(2, 9), slice(2, 40, 7), slice(-3, None), slice(None, None, -1), slice(2990, 5000), slice(None)):
            self.assertEqual(rule[part], days[part], part)
        self.assertRaises(TypeError, lambda: rule["1"])
        self.assertRaises(TypeError, len, rule)
        instances = iter(rule)
        self.assertIs(iter(instances), instances)
        self.assertRaises(TypeError, type(instances))
        counted = Rule("FREQ=DAILY;COUNT=3000", JANUARY)
        for place in (0, 63, 1023, 1024, 2045, 2046, 2999, -1, -1024, -3000):
            self.assertEqual(counted[place], days[place], place)
        for place in (3000, -3001):
            self.assertRaises(IndexError, lambda: counted[place])
        # (up to the end of the calendar)
        self.assertEqual(Rule("FREQ=YEARLY", Date(262140, 5, 1)).count(), 3)
        self.assertEqual(Rule("FREQ=DAILY", Date.max)[-1], Date.max)

    def test_errors(self):
        for text, wrong in [
            ("FREQ=DAILY;COUNT=x", None), ("", None), ("FREQ=HOURLY", None), ("FREQ=DAILY;BYHOUR=9", None), ("FREQ=MONTHLY;BYDAY=XX", None),
            ("FREQ=DAILY;UNTIL=20240230", None), ("DTSTART:20240101", None), ("FREQ=DAILY;\u00fc=1", None), ("FREQ=WEEKLY;BYMONTHDAY=1", None),
        ]:
            with self.assertRaises(TextError, msg=text) as caught:
                Rule(text, JANUARY)
            self.assertTrue(0 <= caught.exception.start <= caught.exception.end <= len(text))
            self.assertTrue(str(caught.exception))
        with self.assertRaises(TextError) as caught:
            Rule("FREQ=DAILY;COUNT=x", JANUARY)
        self.assertIn("x", caught.exception.text[caught.exception.start:caught.exception.end])
        aware = DateTime(2024, 1, 1, tzinfo=datetime.timezone.utc)
        self.assertRaisesRegex(ValueError, r"replace\(tzinfo=None\)", Rule, "FREQ=DAILY", aware)
        self.assertRaisesRegex(ValueError, r"replace\(tzinfo=None\)", TIMED.after, aware)
        self.assertRaisesRegex(ValueError, r"replace\(tzinfo=None\)", TIMED.before, aware.to_datetime())
        for call in (
            lambda: Rule("FREQ=DAILY"), lambda: Rule(1, JANUARY), lambda: Rule("FREQ=DAILY", "2024-01-01"), lambda: FRIDAYS.after(1),
            lambda: FRIDAYS.after(DateTime(2024, 1, 1)), lambda: TIMED.after(JANUARY), lambda: FRIDAYS.before(), lambda: FRIDAYS.between(JANUARY),
            lambda: FRIDAYS.xafter(JANUARY, 1.0), lambda: TIMED.before(datetime.date(2024, 1, 1)),
        ):
            self.assertRaises(TypeError, call)

    def test_values(self):
        same, other, timed = Rule(FRIDAYS.text, JANUARY.to_date()), Rule(FRIDAYS.text, JANUARY + 1), Rule(FRIDAYS.text, DateTime(JANUARY))
        self.assertEqual((FRIDAYS, hash(FRIDAYS)), (same, hash(same)))
        self.assertEqual(len({FRIDAYS, same, other, timed, Rule("FREQ=DAILY", JANUARY), Rule(FRIDAYS.text, DateTime(JANUARY, 1))}), 5)
        self.assertFalse(FRIDAYS != same or FRIDAYS == other or FRIDAYS == timed or FRIDAYS == FRIDAYS.text)
        self.assertRaises(TypeError, lambda: FRIDAYS < other)
        self.assertEqual(repr(FRIDAYS), "Rule('FREQ=MONTHLY;BYDAY=-1FR', Date(2024, 1, 1))")
        for it in (FRIDAYS, TIMED):
            for again in (eval(repr(it)), copy.copy(it), copy.deepcopy(it), pickle.loads(pickle.dumps(it))):
                self.assertEqual(again, it)
        self.assertRaises(AttributeError, setattr, FRIDAYS, "text", "")


    def test_long_count(self):
        """A rule with COUNT is listed almost as fast as one with UNTIL, however long it is."""
        days = 50_000
        until = Rule(f"FREQ=DAILY;UNTIL={JANUARY + (days - 1):%Y%m%d}", JANUARY)
        rule, small = Rule(f"FREQ=DAILY;COUNT={days}", JANUARY), Rule(f"count={days};freq=daily", JANUARY)
        self.assertEqual([*rule], [*until])
        for counted, other in (
            (lambda: [*rule], lambda: [*until]), (lambda: [*small], lambda: [*until]), (rule.count, until.count),
            (lambda: rule[days - 1], lambda: until[days - 1]), (lambda: [*rule.xafter(JANUARY)], lambda: [*until.xafter(JANUARY)]),
            (lambda: rule[-1000:], lambda: until[-1000:]), (lambda: rule[-1000], lambda: [*until]),
            (lambda: RuleSet([until], except_rules=[rule]).count(), lambda: RuleSet([until], except_rules=[until]).count()),
        ):
            self.assertLess(seconds_of(counted), 5 * seconds_of(other) + 0.001)


class RuleSets(unittest.TestCase):
    def test_instances(self):
        daily, mondays = Rule("FREQ=DAILY;COUNT=20", JANUARY), Rule("FREQ=WEEKLY;BYDAY=MO", JANUARY)
        extra = Date(2024, 3, 1)
        made = RuleSet([daily, mondays], [extra, Date(2024, 1, 5), extra], [Rule("FREQ=WEEKLY;BYDAY=WE", JANUARY)], [Date(2024, 1, 2), Date(2024, 1, 8)])
        wanted = [JANUARY + it for it in range(20)] + [Date(2024, 1, 1) + 7 * it for it in range(3, 10)] + [extra]
        wanted = sorted({it for it in wanted if it.isoweekday() != WED and it not in (Date(2024, 1, 2), Date(2024, 1, 8))})
        self.assertEqual(made[: len(wanted)], wanted)
        self.assertEqual([made[it] for it in range(5)], wanted[:5])
        self.assertEqual(made.between(JANUARY, Date(2024, 3, 4)), wanted[1:-1])
        self.assertEqual(made.between(JANUARY, Date(2024, 3, 4), inc=True), wanted)
        for place, it in enumerate(wanted[:-1]):
            self.assertEqual(made.after(it), wanted[place + 1])
            self.assertEqual(made.after(it, inc=True), it)
            self.assertEqual(made.before(wanted[place + 1]), it)
            self.assertEqual(made.before(it, True), it)
            self.assertIn(it, made)
        for it in (Date(2024, 1, 3), Date(2024, 1, 8), Date(2024, 3, 2)):
            self.assertNotIn(it, made)
        self.assertIsNone(made.before(JANUARY))
        self.assertEqual([*made.xafter(JANUARY, 2)], wanted[1:3])
        for count in (0, -1):
            self.assertEqual([*made.xafter(JANUARY, count)], [])
        for wrong in (lambda: made.xafter(JANUARY, 1.0), lambda: made[1.0], lambda: made["1"]):
            self.assertRaises(TypeError, wrong)
        left_out = RuleSet([mondays, daily], [extra], [Rule("FREQ=DAILY;COUNT=3", JANUARY + 5), Rule("FREQ=DAILY;COUNT=2", JANUARY)])
        kept = [it for it in sorted({*daily, *mondays.between(JANUARY, extra, inc=True), extra}) if it - JANUARY not in (0, 1, 5, 6, 7)]
        self.assertEqual(left_out.between(JANUARY, extra, inc=True), kept)
        self.assertEqual([*left_out.xafter(kept[4], 3)], kept[5:8])
        few = RuleSet([daily], except_dates=[it.to_date() for it in daily][:15])
        self.assertEqual((few.count(), few[-1], few[-2:], few.before(Date(2024, 1, 16))), (5, Date(2024, 1, 20), [*few][-2:], None))
        self.assertRaises(IndexError, lambda: few[5])
        self.assertEqual([*RuleSet(dates=[extra, JANUARY.to_date()])], [JANUARY, extra])
        self.assertEqual([*RuleSet()], [])

    def test_all_left_out(self):
        far, weekly, daily = Date(200_000, 3, 3), Rule("FREQ=WEEKLY;BYDAY=MO", JANUARY), Rule("FREQ=DAILY", JANUARY)
        seldom = Rule("FREQ=YEARLY;INTERVAL=1000;BYMONTH=3;BYMONTHDAY=2,3;COUNT=4", JANUARY)
        self.assertEqual([it.isoweekday() for it in (far, *seldom)].count(1), 0)
        made = RuleSet([weekly, seldom], [far], [weekly])
        self.assertEqual([*made], [*seldom, far])
        self.assertEqual((made.after(seldom[3]), made.after(far), made.before(far), made.before(Date.max)), (far, None, seldom[3], far))
        odd, even = (Rule("FREQ=DAILY;INTERVAL=2", JANUARY + it) for it in (0, 1))
        none = RuleSet([daily], except_rules=[odd, even])
        self.assertEqual((none.after(JANUARY), none.before(Date.max), [*none]), (None, None, []))
        timed, later = Rule("FREQ=DAILY", DateTime(2024, 1, 1, 12)), Rule("FREQ=DAILY", DateTime(2600, 1, 1, 12))
        ends = RuleSet([timed], except_rules=[later])
        self.assertEqual((ends.before(DateTime.max), ends.after(DateTime(2599, 12, 31, 12))), (DateTime(2599, 12, 31, 12), None))

    def test_seldom(self):
        leap_days, others = (Rule(f"FREQ=DAILY;BYMONTH=2;BYMONTHDAY=29{it}", JANUARY) for it in ("", ";BYDAY=MO,TU,WE,TH,FR,SA"))
        sundays = RuleSet([leap_days], except_rules=[others])
        self.assertEqual([it.year for it in sundays[:4]], [2032, 2060, 2088, 2128])
        years = [it.year for it in sundays.between(JANUARY, Date(3001, 1, 1))]
        self.assertEqual((len(years), years[-1]), (32, 2984))
        self.assertEqual(sundays.before(Date(262_000, 1, 1)).isoweekday(), 7)

    def test_values(self):
        made = RuleSet([FRIDAYS], [JANUARY], except_dates=[datetime.date(2024, 1, 26)])
        self.assertEqual(repr(made), f"RuleSet(rules=[{FRIDAYS!r}], dates=[Date(2024, 1, 1)], except_dates=[Date(2024, 1, 26)])")
        for again in (eval(repr(made)), copy.copy(made), copy.deepcopy(made), pickle.loads(pickle.dumps(made))):
            self.assertEqual((again, hash(again)), (made, hash(made)))
        self.assertFalse(made == RuleSet([FRIDAYS]) or made != eval(repr(made)) or made == 1)
        self.assertRaises(AttributeError, setattr, made, "dates", ())
        self.assertRaises(AttributeError, delattr, made, "dates")
        timed = RuleSet([TIMED], [datetime.datetime(2024, 1, 1)])
        self.assertEqual(timed[0], DateTime(2024, 1, 1))
        for wrong in (lambda: RuleSet([FRIDAYS, TIMED]), lambda: RuleSet([FRIDAYS], [DateTime(2024, 1, 1)]), lambda: RuleSet(["FREQ=DAILY"]),
                      lambda: RuleSet([], ["2024-01-01"]), lambda: RuleSet(FRIDAYS)):
            self.assertRaises(TypeError, wrong)


class OpenDays(unittest.TestCase):
    def test_is_open(self):
        for day, wanted in [(Date(2024, 3, 28), True), (GOOD_FRIDAY, False), (Date(2024, 3, 30), False), (Date(2024, 3, 31), False),
                            (EASTER_MONDAY, False), (Date(2024, 4, 2), True)]:
            self.assertIs(EASTER.is_open(day), wanted)
            self.assertIs(EASTER.is_open(day.to_date()), wanted)

    def test_add(self):
        thursday = Date(2024, 3, 28)
        for days, wanted in [(1, Date(2024, 4, 2)), (2, Date(2024, 4, 3)), (0, thursday), (-1, Date(2024, 3, 27)), (-4, Date(2024, 3, 22))]:
            self.assertEqual(EASTER.add(thursday, days), wanted)
            self.assertEqual(EASTER.add(date=thursday.to_date(), days=days), wanted)
        saturday = Date(2024, 3, 30)
        self.assertEqual([EASTER.add(saturday, it) for it in (-1, 0, 1)], [thursday, Date(2024, 4, 2), Date(2024, 4, 2)])
        for far in (10**9, -(10**9), 2**64, -(2**64)):
            self.assertRaises(OverflowError, EASTER.add, thursday, far)
        self.assertRaises(OverflowError, BusinessCalendar(weekend=Weekday).add, thursday, 1)

    def test_between(self):
        self.assertEqual(EASTER.between(Date(2024, 3, 28), Date(2024, 4, 3)), 2)
        self.assertEqual(EASTER.between(Date(2024, 4, 3), Date(2024, 3, 28)), -2)
        self.assertEqual(EASTER.between(start=GOOD_FRIDAY, end=EASTER_MONDAY.to_date()), 0)
        # (146,097 days are 20,871 weeks)
        self.assertEqual(BusinessCalendar().between(Date(1, 1, 1), Date(401, 1, 1)), 5 * 20_871)

    def test_roll(self):
        sunday, tuesday = Date(2024, 3, 31), BusinessCalendar([Date(2024, 3, 5)])
        for how, wanted in {
            "unadjusted": sunday, "following": Date(2024, 4, 2), "preceding": Date(2024, 3, 28), "modified_following": Date(2024, 3, 28),
            "modified_preceding": Date(2024, 3, 28), "nearest_isda": Date(2024, 4, 2), "nearest_quantlib": Date(2024, 4, 2),
        }.items():
            self.assertEqual(EASTER.roll(sunday, how), wanted, how)
            self.assertEqual(EASTER.roll(date=sunday.to_date(), how=how), wanted)
            self.assertEqual(EASTER.roll(Date(2024, 4, 2), how), Date(2024, 4, 2))
        self.assertEqual(tuesday.roll(Date(2024, 3, 5), "nearest_isda"), Date(2024, 3, 4))
        self.assertEqual(tuesday.roll(Date(2024, 3, 5), "nearest_quantlib"), Date(2024, 3, 6))
        self.assertEqual(EASTER.roll(Date(2024, 6, 1), "modified_preceding"), Date(2024, 6, 3))
        for wrong in ("", "Following", "follow"):
            self.assertRaises(ValueError, EASTER.roll, sunday, wrong)
        self.assertRaises(TypeError, EASTER.roll, sunday, 1)
        self.assertRaises(OverflowError, BusinessCalendar(weekend=Weekday).roll, sunday, "following")

    def test_holidays(self):
        """Holidays may come in any order, twice and on the weekend."""
        given = [EASTER_MONDAY, Date(2024, 3, 30), GOOD_FRIDAY.to_date(), EASTER_MONDAY]
        calendar = BusinessCalendar(iter(given))
        self.assertEqual(calendar, EASTER)
        self.assertEqual(calendar.holidays, (GOOD_FRIDAY, EASTER_MONDAY))
        self.assertEqual(calendar.weekend, (6, 7))
        friday = BusinessCalendar(given, weekend=[FRI, 6])
        self.assertEqual((friday.holidays, friday.weekend), ((EASTER_MONDAY,), (5, 6)))
        self.assertTrue(friday.is_open(Date(2024, 3, 31)))
        self.assertEqual(BusinessCalendar(weekend=()).weekend, ())
        self.assertEqual(BusinessCalendar(weekend=()).add(GOOD_FRIDAY, 2), Date(2024, 3, 31))
        mondays = [Date(2024, 1, 1) + 7 * it for it in range(1001)]
        self.assertEqual(len(BusinessCalendar(mondays[:1000]).holidays), 1000)
        self.assertRaises(ValueError, BusinessCalendar, mondays)
        for wrong in ([1], ["2024-03-29"], [DateTime(2024, 3, 29)], [datetime.datetime(2024, 3, 29)], 1, GOOD_FRIDAY):
            self.assertRaises(TypeError, BusinessCalendar, wrong)
        self.assertRaises(ValueError, BusinessCalendar, [], [0])
        self.assertRaises(ValueError, BusinessCalendar, [], [8])
        self.assertRaises(TypeError, BusinessCalendar, [], 6)

    def test_known(self):
        for name, year, days in [
            ("target", 2024, [Date(2024, 1, 1), GOOD_FRIDAY, EASTER_MONDAY, Date(2024, 5, 1), Date(2024, 12, 25), Date(2024, 12, 26)]),
            ("england_and_wales", 2023, [Date(2023, 1, 2), Date(2023, 4, 7), Date(2023, 4, 10), Date(2023, 5, 1), Date(2023, 5, 8),
                                         Date(2023, 5, 29), Date(2023, 8, 28), Date(2023, 12, 25), Date(2023, 12, 26)]),
            # (31 October 2017, and no 1 January, which was a Sunday)
            ("germany", 2017, [Date(2017, 4, 14), Date(2017, 4, 17), Date(2017, 5, 1), Date(2017, 5, 25), Date(2017, 6, 5),
                               Date(2017, 10, 3), Date(2017, 10, 31), Date(2017, 12, 25), Date(2017, 12, 26)]),
            ("france", 2024, [Date(2024, 1, 1), EASTER_MONDAY, Date(2024, 5, 1), Date(2024, 5, 8), Date(2024, 5, 9), Date(2024, 5, 20),
                              Date(2024, 8, 15), Date(2024, 11, 1), Date(2024, 11, 11), Date(2024, 12, 25)]),
            # (6 May for a Sunday, and 22 September between two holidays)
            ("japan", 2026, [Date(2026, month, day) for month, day in (
                (1, 1), (1, 2), (1, 12), (2, 11), (2, 23), (3, 20), (4, 29), (5, 4), (5, 5), (5, 6), (7, 20), (8, 11), (9, 21), (9, 22),
                (9, 23), (10, 12), (11, 3), (11, 23), (12, 31))]),
        ]:
            self.assertEqual(list(BusinessCalendar.known(name, year, year).holidays), days)
        # (New Year's Day of 2022 was kept on the last day of 2021)
        federal = BusinessCalendar.known(name="us_federal", first_year=2021, last_year=2021)
        self.assertEqual((federal.holidays[-1], federal.weekend), (Date(2021, 12, 31), (6, 7)))
        # (Christmas Day of 2021 was a Saturday: the exchange was closed on Friday, and Fedwire open)
        nyse, fedwire = (BusinessCalendar.known(it, 2021, 2021) for it in ("nyse", "fedwire"))
        self.assertEqual((nyse.is_open(Date(2021, 12, 24)), fedwire.is_open(Date(2021, 12, 24))), (False, True))
        self.assertEqual(BusinessCalendar.known("us_federal", 2021, 2021, [7]).weekend, (7,))
        self.assertEqual(BusinessCalendar.known("target", 262142, 262142).holidays[0].year, 262142)
        # (years before the rules begin)
        for name, first in (("us_federal", 1971), ("target", 1999), ("england_and_wales", 1978)):
            self.assertEqual(BusinessCalendar.known(name, -262143, first - 1).holidays, ())
            self.assertEqual(BusinessCalendar.known(name, -262143, first).holidays[0].year, first)
        for years in ((2024, 2023), (262143, 262143), (-262144, 0), (0, 9999), (2**40, 2**40)):
            self.assertRaises(ValueError, BusinessCalendar.known, "target", *years)
        self.assertRaises(ValueError, BusinessCalendar.known, "mars", 2024, 2024)
        self.assertRaises(TypeError, BusinessCalendar.known, "target", 2024)

    def test_years(self):
        """An answer that looks at a year of which the holidays are not known is a ValueError that names the years."""
        target, wednesday, new_year = BusinessCalendar.known("target", 2024, 2026), Date(2026, 12, 30), Date(2027, 1, 1)
        self.assertEqual((target.first_year, target.last_year, target.add(wednesday, 1)), (2024, 2026, Date(2026, 12, 31)))
        for call in (
            lambda: target.add(wednesday, 2), lambda: target.add(new_year, -1), lambda: target.add(Date(2024, 1, 2), -1), lambda: target.is_open(new_year),
            lambda: target.add(wednesday, 10**10), lambda: target.roll(new_year, "unadjusted"), lambda: target.between(Date(2023, 12, 31), new_year),
            lambda: target.between(Date(2027, 1, 2), wednesday),
        ):
            self.assertRaisesRegex(ValueError, "known from 2024 to 2026 alone", call)
        # (261 days of 2026 are no weekends, and five of them holidays)
        self.assertEqual([target.between(Date(2026, 1, 1), new_year), target.between(new_year, Date(2026, 1, 1)), target.between(new_year, new_year)], [256, -256, 0])
        # (31 December 2022 is a Saturday)
        saturday, friday = Date(2022, 12, 31), Date(2022, 12, 30)
        one, two = (BusinessCalendar(first_year=2022, last_year=it) for it in (2022, 2023))
        for how in ("preceding", "modified_following", "modified_preceding", "nearest_isda"):
            self.assertEqual(one.roll(saturday, how), friday, how)
        for how in ("following", "nearest_quantlib"):
            self.assertRaises(ValueError, one.roll, saturday, how)
        self.assertEqual([two.roll(saturday, how) for how in ("following", "nearest_quantlib")], [Date(2023, 1, 2), friday])
        for years, said in (((1990, 2000), "from 1999 to 2000"), ((1990, 1998), "from 1999 to 1998")):
            self.assertRaisesRegex(ValueError, said, BusinessCalendar.known("target", *years).is_open, Date(1998, 12, 31))
        self.assertEqual(BusinessCalendar.known("target", 1990, 2000).is_open(Date(1999, 12, 31)), False)
        self.assertRaisesRegex(ValueError, "known from 2024 alone", BusinessCalendar(first_year=2024).is_open, friday)
        self.assertRaisesRegex(ValueError, "known to 2021 alone", BusinessCalendar(last_year=2021).is_open, friday)
        self.assertEqual((EASTER.first_year, EASTER.last_year, BusinessCalendar([], (6, 7), None, 2024).last_year), (None, None, 2024))
        for wrong in (262143, -262144, 2**40):
            self.assertRaises(ValueError, BusinessCalendar, first_year=wrong)
            self.assertRaises(ValueError, BusinessCalendar, last_year=wrong)

    def test_easter(self):
        self.assertEqual([easter(it) for it in (1818, 1943, 2024, 2038)],
                         [Date(1818, 3, 22), Date(1943, 4, 25), Date(2024, 3, 31), Date(2038, 4, 25)])
        for wrong in (262143, -262144, 2**40):
            self.assertRaises(ValueError, easter, wrong)
        self.assertRaises(TypeError, easter, "2024")

    def test_arguments(self):
        for call in (
            lambda: EASTER.is_open("2024-03-29"), lambda: EASTER.is_open(DateTime(2024, 3, 29)), lambda: EASTER.add(GOOD_FRIDAY),
            lambda: EASTER.add(GOOD_FRIDAY, 1.0), lambda: EASTER.add(1, 1), lambda: EASTER.between(GOOD_FRIDAY), lambda: EASTER.roll(GOOD_FRIDAY),
            lambda: EASTER.between(GOOD_FRIDAY, 1), lambda: BusinessCalendar([], [6], "2024"), lambda: BusinessCalendar([], [6], 2024, 2025, 1), lambda: BusinessCalendar(days=[]),
        ):
            self.assertRaises(TypeError, call)

    def test_values(self):
        self.assertEqual(repr(EASTER), "BusinessCalendar([Date(2024, 3, 29), Date(2024, 4, 1)])")
        other = BusinessCalendar([GOOD_FRIDAY], weekend=(7,))
        self.assertEqual(repr(other), "BusinessCalendar([Date(2024, 3, 29)], weekend=[7])")
        bounded = [BusinessCalendar([GOOD_FRIDAY], first_year=2024), BusinessCalendar([GOOD_FRIDAY], last_year=2024)]
        bounded.append(BusinessCalendar([GOOD_FRIDAY], first_year=2024, last_year=2024))
        self.assertEqual(repr(bounded[2]), "BusinessCalendar([Date(2024, 3, 29)], first_year=2024, last_year=2024)")
        self.assertEqual(len({BusinessCalendar([GOOD_FRIDAY]), *bounded}), 4)
        for it in (EASTER, other, BusinessCalendar(), BusinessCalendar(weekend=()), *bounded):
            for again in (eval(repr(it)), copy.copy(it), copy.deepcopy(it), pickle.loads(pickle.dumps(it))):
                self.assertEqual(again, it)
                self.assertEqual(hash(again), hash(it))
        self.assertEqual(len({EASTER, other, BusinessCalendar(), BusinessCalendar(weekend=()), BusinessCalendar([EASTER_MONDAY])}), 5)
        self.assertFalse(EASTER != BusinessCalendar([GOOD_FRIDAY, EASTER_MONDAY]) or EASTER == other)
        self.assertNotEqual(EASTER, [GOOD_FRIDAY, EASTER_MONDAY])
        self.assertNotEqual(other, BusinessCalendar([GOOD_FRIDAY]))
        self.assertRaises(TypeError, lambda: EASTER < other)
        self.assertRaises(AttributeError, setattr, EASTER, "weekend", (1,))


class Patterns(unittest.TestCase):
    def wrong(self, call, text, start, end, said):
        """A call refuses a part of a text."""
        with self.assertRaises(TextError) as found:
            call(text)
        error = found.exception
        self.assertEqual((error.text, error.start, error.end, str(error)), (text, start, end, said))

    def test_writing(self):
        day, moment = Date(2024, 2, 29), DateTime(2024, 3, 1, 13, nanosecond=500_000_000)
        for text, value, wanted in (
            ("%d.%m.%Y", day, "29.02.2024"), ("%A %-e %B, week %V of %G", day, "Thursday 29 February, week 09 of 2024"), ("", day, ""),
            ("%-d. M\u00e4rz \U0001f600 100%%", day, "29. M\u00e4rz \U0001f600 100%"), ("x" * 1_000, day, "x" * 1_000), ("%F", moment, "2024-03-01"),
            ("%I:%M:%S%.f %p, %s", moment, "01:00:00.500 PM, 1709298000"), ("%Y", Date(-1, 3, 1), "-0001"),
            ("%F", datetime.date(2024, 2, 29), "2024-02-29"), ("%F %T", datetime.datetime(2024, 2, 29, 12), "2024-02-29 12:00:00"),
        ):
            self.assertEqual(Pattern(text).format(value), wanted)
        for text, value in (("%F %H", day), ("%z", day), ("%T %z", moment), ("x" * 1_001, day)):
            self.assertRaisesRegex(ValueError, "^'.*' asks for what 2024-0", Pattern(text).format, value)
        self.assertRaises(ValueError, Pattern("%F").format, moment.replace(tzinfo=datetime.timezone.utc))
        for value in ("2024-02-29", None, 1):
            self.assertRaises(TypeError, Pattern("%F").format, value)

    def test_reading(self):
        self.assertEqual(Pattern("%d %b %Y").parse_date("29 feb 2024"), Date(2024, 2, 29))
        self.assertEqual(Pattern("%F %R").parse_date_time("2024-03-01 13:00"), DateTime(2024, 3, 1, 13))
        self.assertEqual(Pattern("%FT%T%.f").parse_date_time("2024-02-29T23:59:60.5"), DateTime(2024, 2, 29, 23, 59, 60, 500_000))
        self.assertEqual(Pattern("%s").parse_date_time("0"), DateTime(1970, 1, 1))
        pattern, moment = Pattern("%d.%m.%Y"), Pattern("%F %R")
        for text, start, said in (
            ("29.", 3, "the text ends before its pattern"), ("29.2.2024x", 9, "the text goes on behind its pattern"),
            ("29-2", 2, "not of the pattern"), ("29.13", 3, "a number that is out of range"), ("29.2.2023", 9, "no such day or time"),
        ):
            self.wrong(pattern.parse_date, text, start, len(text), said)
        self.wrong(Pattern("%d.%m.").parse_date, "29.2.", 0, 5, "too few fields for a day or a time")
        self.wrong(moment.parse_date_time, "2024-03-01 25:00", 11, 16, "a number that is out of range")
        # (places are characters, and not bytes)
        self.wrong(Pattern("\U0001f600\u00e9%F").parse_date, "\U0001f600\u00e82024-02-29", 1, 12, "not of the pattern")
        for call in (pattern.parse_date, moment.parse_date_time):
            self.assertRaises(TypeError, call, b"29.2.2024")
            self.assertRaises(UnicodeEncodeError, call, "\ud800")

    def test_offsets(self):
        text, by = "2024-02-29T12:00:00+0100", "%Y-%m-%dT%H:%M:%S%z"
        found = Pattern(by).parse_date_time(text)
        self.assertEqual((found.isoformat(), found.utcoffset()), ("2024-02-29T12:00:00+01:00", datetime.timedelta(hours=1)))
        self.assertEqual(found, datetime.datetime.strptime(text, by))
        self.assertIs(type(found.tzinfo), datetime.timezone)
        self.assertIs(Pattern("%+").parse_date_time("2024-02-29T12:00:00Z").tzinfo, datetime.timezone.utc)
        for by, text, wanted in (
            ("%FT%T%.f%:z", "2024-02-29T12:00:00.5-09:30", "2024-02-29T12:00:00.500-09:30"), ("%s %z", "0 +0530", "1970-01-01T05:30:00+05:30"),
            ("%F %R %::z", "2024-02-29 12:00 +01:00:30", "2024-02-29T12:00:00+01:00:30"), ("%F %R %Z", "2024-02-29 12:00 CET", "2024-02-29T12:00:00"),
        ):
            self.assertEqual(Pattern(by).parse_date_time(text).isoformat(), wanted)
        self.assertEqual(Pattern("%F %z").parse_date("2024-02-29 +0100"), Date(2024, 2, 29))
        self.wrong(Pattern("%F %R %z").parse_date_time, "2024-02-29 12:00", 16, 16, "the text ends before its pattern")
        self.wrong(Pattern("%F %R %z").parse_date_time, "2024-02-29 12:00 +2400", 17, 22, "a number that is out of range")
        self.wrong(Pattern("%F %z").parse_date_time, "2024-02-29 +0100", 0, 16, "too few fields for a day or a time")

    def test_wrong_patterns(self):
        self.wrong(Pattern, "%Y-%Q", 3, 5, "no such specifier")
        self.wrong(Pattern, "\u00e4 100%", 5, 6, "the pattern ends within a specifier")
        for wrong in (None, b"%F", 1):
            self.assertRaises(TypeError, Pattern, wrong)
        self.assertRaises(TypeError, Pattern)

    def test_values(self):
        for text in ("%d.%m.%Y", "", "M\u00e4rz"):
            it = Pattern(text)
            self.assertEqual((it.text, str(it), repr(it)), (text, text, f"Pattern({text!r})"))
            for again in (eval(repr(it)), copy.copy(it), copy.deepcopy(it), pickle.loads(pickle.dumps(it))):
                self.assertEqual((again, hash(again)), (it, hash(it)))
        self.assertEqual(len({Pattern("%F"), Pattern("%F"), Pattern("%D")}), 2)
        self.assertTrue(Pattern("%F") != Pattern("%D") and Pattern("%F") != "%F")
        self.assertRaises(TypeError, lambda: Pattern("%F") < Pattern("%D"))
        self.assertRaises(AttributeError, setattr, Pattern("%F"), "text", "%D")


class DayCounts(unittest.TestCase):
    def test_day_count(self):
        start, end = Date(2003, 11, 1), Date(2004, 5, 1)
        for kind, wanted in {
            "actual_actual_isda": Fraction(61, 365) + Fraction(121, 366), "actual_360": Fraction(182, 360),
            "actual_365_fixed": Fraction(182, 365), "thirty_360": Fraction(1, 2), "thirty_e_360": Fraction(1, 2),
        }.items():
            found = day_count(start, end, kind)
            self.assertIs(type(found), Fraction)
            self.assertEqual(found, wanted, kind)
            self.assertEqual(day_count(end, start, kind), -wanted)
            self.assertEqual(day_count(start.to_date(), end.to_date(), kind), wanted)
        self.assertEqual(day_count(Date(2024, 1, 30), Date(2024, 3, 31), "thirty_360"), Fraction(60, 360))
        self.assertEqual(day_count(Date(2024, 1, 29), Date(2024, 3, 31), "thirty_360"), Fraction(62, 360))
        self.assertEqual(day_count(Date(2024, 1, 29), Date(2024, 3, 31), "thirty_e_360"), Fraction(61, 360))
        self.assertRaises(ValueError, day_count, start, end, "actual")
        for wrong in ((start, end), (start, 1, "actual_360"), (1, end, "actual_360"), (start, end, 1)):
            self.assertRaises(TypeError, day_count, *wrong)


class Memory(unittest.TestCase):
    def test_memory(self):
        """Calls, also those that fail, keep no objects."""
        def calls():
            daily = Schedule("@daily")
            list(daily.iterate(DateTime(2024, 1, 1), DateTime(2024, 3, 1)))
            next(daily.iterate(DateTime(2024, 1, 1)))
            pickle.loads(pickle.dumps((daily, EASTER)))
            repr((daily, EASTER, EASTER.holidays, EASTER.weekend))
            EASTER.add(GOOD_FRIDAY, 3), EASTER.roll(GOOD_FRIDAY, "following"), day_count(GOOD_FRIDAY, EASTER_MONDAY, "actual_360")
            [*TIMED], TIMED[-1], TIMED[1:2], next(iter(FRIDAYS)), FRIDAYS.between(JANUARY, Date(2025, 1, 1)), FRIDAYS.after(JANUARY)
            pickle.loads(pickle.dumps((TIMED, FRIDAYS))), hash(TIMED), repr(TIMED), TIMED.before(DateTime.max), TIMED.start, TIMED.text
            pattern = pickle.loads(pickle.dumps(Pattern("%F")))
            pattern.parse_date(pattern.format(JANUARY)), pattern.text, repr(pattern), hash(pattern), Pattern("%F %T").format(DateTime.max)
            for wrong in (lambda: Pattern("%"), lambda: pattern.parse_date("x"), lambda: pattern.parse_date_time("2024-02-29"), lambda: pattern.format(1), lambda: Rule("x", JANUARY), lambda: FRIDAYS.after(1), lambda: TIMED[9], lambda: TIMED["1"], lambda: Schedule("x"), lambda: BusinessCalendar([1]), lambda: EASTER.roll(GOOD_FRIDAY, "x"),
                          lambda: EASTER.add(GOOD_FRIDAY, 10**10), lambda: BusinessCalendar([], [9])):
                try:
                    wrong()
                except (ValueError, TypeError, OverflowError, IndexError):
                    pass

        counts = []
        for _ in range(5):
            for _ in range(200):
                calls()
            gc.collect()
            counts.append(sys.getallocatedblocks())
        # (what Python itself keeps comes once, and what a call keeps comes with each)
        self.assertLess(min(after - before for before, after in zip(counts, counts[1:])), 100)


if __name__ == "__main__":
    unittest.main()
