#!/usr/bin/env python3
"""Calls everything of proved_calendar.pandas, beside proved_calendar.columns, Date and what pandas itself has, and tries what is wrong.
It needs numpy and pandas."""
import datetime
import doctest
import json
import pickle
import random
import unittest

try:
    import numpy
    import pandas
except ImportError:
    raise SystemExit("not run: the tests of the accessor of pandas, since there is no pandas") from None

import proved_calendar.pandas as ours
from proved_calendar import BusinessCalendar, Date, DateTime, Duration, Schedule, Time, Weekday, columns, day_count
from proved_calendar.pandas import Months, OpenDays

CALENDAR = BusinessCalendar([Date(2024, 3, 29), Date(2024, 4, 1), Date(2024, 12, 25)])
SCHEDULE = Schedule("30 4 1,15 * fri")
OUT = pandas.errors.OutOfBoundsDatetime
DAY = 86_400 * 10**9
# Each method without or with arguments, and whether it moves times.
ASKED = {
    "years": (), "ordinals": (), "weekdays": (), "fields": (), "iso_weeks": (), "texts": (), "time_texts": (), "to_dates": (),
    "to_date_times": (), "is_open": (CALENDAR,), "days_between": ("2024-01-01",), "open_days_between": ("2024-06-01", CALENDAR),
    "year_fractions": ("2024-06-01", "thirty_360"),
}
MOVES = {
    "add_days": (40,), "add_months": (1,), "first_on": ([1, 5],), "add_open_days": (3, CALENDAR), "roll": ("following", CALENDAR),
    "next_due": (SCHEDULE,),
}
OF_TEXTS = ("from_texts", "from_time_texts", "from_values")


def some_times(count=500, name="due", seed=1):
    """A Series of times of the years 1900 to 2100, of which some are NaT, with an index of its own."""
    chance = random.Random(seed)
    times = [chance.randint(-25_567, 47_481) * DAY + chance.choice((0, chance.randrange(DAY))) for _ in range(count)]
    series = pandas.Series(numpy.array(times).view("M8[ns]"), [f"label {it}" for it in range(count)], name=name)
    series.iloc[::7] = pandas.NaT
    return series


def missing(it):
    return it is None or it is pandas.NaT or it is pandas.NA or it != it


class Accessor(unittest.TestCase):
    def setUp(self):
        self.series = some_times()
        self.at = [None if missing(it) else DateTime.from_datetime(it) for it in self.series]

    def same(self, found, wanted, dtype):
        """A Series has the index and the name of the given one, a type, and elements; None for what is missing."""
        self.assertTrue(found.index.equals(self.series.index))
        self.assertEqual((found.name, str(found.dtype)), ("due", dtype))
        self.assertEqual([None if missing(it) else it for it in found], wanted)

    def of_each(self, call):
        return [None if it is None else call(it) for it in self.at]

    def test_names(self):
        of = self.series.proved
        self.same(of.years(), self.of_each(lambda it: it.year), "Int32")
        self.same(of.ordinals(), self.of_each(lambda it: it.date.ordinal), "UInt16")
        self.same(of.weekdays(), self.of_each(lambda it: int(it.isoweekday())), "UInt8")
        self.same(of.texts(), self.of_each(lambda it: it.date.isoformat()), "string")
        self.same(of.time_texts(), self.of_each(lambda it: it.isoformat()), "string")
        self.same(of.to_dates(), self.of_each(lambda it: it.date), "object")
        self.same(of.to_date_times(), self.of_each(lambda it: it), "object")
        self.same(of.is_open(CALENDAR), self.of_each(lambda it: CALENDAR.is_open(it.date)), "boolean")
        for frame, names in ((of.fields(), ("year", "month", "day")), (of.iso_weeks(), ("year", "week"))):
            self.assertEqual(list(frame.columns), list(names))
            self.assertTrue(frame.index.equals(self.series.index))
            for name in names:
                theirs = self.series.dt.isocalendar()[name] if "week" in names else getattr(self.series.dt, name)
                self.assertEqual([None if missing(it) else int(it) for it in frame[name]], [None if missing(it) else int(it) for it in theirs])
        self.assertEqual([str(it) for it in of.fields().dtypes], ["Int32", "UInt8", "UInt8"])

    def test_by_names(self):
        days = self.series.dt.normalize().rename(None)
        frame = self.series.proved.fields()
        self.assertTrue(frame.proved.dates().equals(days))
        self.assertTrue(frame.astype("float64").proved.dates().equals(days))
        self.assertTrue(self.series.proved.texts().proved.from_texts().rename(None).equals(days))
        self.assertTrue(self.series.proved.texts().astype(object).proved.from_texts().rename(None).equals(days))
        self.assertTrue(self.series.proved.time_texts().proved.from_time_texts().equals(self.series))
        for values in (self.series.proved.to_date_times(), self.series.astype(object)):
            self.assertTrue(values.proved.from_values().equals(self.series))
        self.assertTrue(self.series.proved.to_dates().proved.from_values().rename(None).equals(days))

    def test_moves(self):
        of = self.series.proved
        month = self.series.add_suffix("") + pandas.DateOffset(months=13)
        self.assertEqual(of.add_months(13).tolist(), month.tolist())
        for days in (0, 1, -400, numpy.int64(3)):
            self.assertTrue(of.add_days(days).equals(self.series + pandas.Timedelta(int(days), "D")))
        for name, arguments in MOVES.items():
            found = getattr(of, name)(*arguments)
            wanted = getattr(columns, name)(self.series.to_numpy(), *arguments)
            self.assertTrue(found.equals(pandas.Series(wanted, self.series.index, name="due")), name)
            self.assertEqual((str(found.dtype), found.name), ("datetime64[ns]", "due"))
        self.assertTrue(of.next_due("30 4 1,15 * fri").equals(of.next_due(SCHEDULE)))

    def test_steps_of_each(self):
        steps = pandas.Series(numpy.arange(500) % 90 - 40, self.series.index)
        moved = self.series.proved.add_days(steps)
        self.assertTrue(moved.equals((self.series + pandas.to_timedelta(steps, "D")).rename("due")))
        for kind in ("int8", "Int64", "float64"):
            self.assertTrue(self.series.proved.add_days(steps.astype(kind)[::-1]).equals(moved), kind)
        steps = steps.astype("Int64")
        steps.iloc[1] = pandas.NA
        moved = self.series.proved.add_open_days(steps, CALENDAR)
        wanted = [None if at is None or missing(by) else CALENDAR.add(at.date, int(by)) for at, by in zip(self.at, steps)]
        self.assertEqual([None if missing(it) else Date.from_date(it.date()) for it in moved], wanted)
        few = self.series.proved.add_days(pandas.Series([1], ["label 1"]))
        self.assertEqual((len(few), few.notna().sum(), few["label 1"]), (500, 1, self.series["label 1"] + pandas.Timedelta(1, "D")))
        for wrong, error in ((steps.astype(object).fillna("x"), TypeError), (steps.astype("float64") + 0.5, ValueError), ("x", TypeError), (None, TypeError)):
            self.assertRaises(error, self.series.proved.add_days, wrong)
            self.assertRaises(error, self.series.proved.add_open_days, wrong, CALENDAR)

    def test_pairs(self):
        ends = some_times(seed=2)
        at_ends = [None if missing(it) else DateTime.from_datetime(it) for it in ends]
        pairs = [None if one is None or other is None else (one.date, other.date) for one, other in zip(self.at, at_ends)]
        of = self.series.proved
        self.same(of.days_between(ends), [it and it[0] - it[1] for it in pairs], "Int64")
        self.same(of.open_days_between(ends, CALENDAR), [it and CALENDAR.between(*it) for it in pairs], "Int64")
        self.same(of.year_fractions(ends, "thirty_360"), [it and float(day_count(*it, "thirty_360")) for it in pairs], "float64")
        self.assertTrue(of.days_between(ends[::-1]).equals(of.days_between(ends)))
        for one in ("2024-02-29", pandas.Timestamp("2024-02-29 12:00"), datetime.date(2024, 2, 29), numpy.datetime64("2024-02-29")):
            self.same(of.days_between(one), [it and it.date - Date(2024, 2, 29) for it in self.at], "Int64")
        self.assertTrue(of.days_between(pandas.NaT).isna().all())
        other = of.days_between(pandas.Series([pandas.Timestamp("2024-02-29")], ["label 1"]))
        self.assertEqual((len(other), other.notna().sum()), (500, 1))
        self.assertRaises(TypeError, of.days_between, pandas.Series([1]))

    def test_time_zones(self):
        there = self.series.dt.tz_localize("UTC").dt.tz_convert("America/New_York")
        clock = there.dt.tz_localize(None)
        for name, arguments in ASKED.items():
            found, wanted = getattr(there.proved, name)(*arguments), getattr(clock.proved, name)(*arguments)
            self.assertTrue(found.equals(wanted), name)
        moved = there.dt.normalize().proved.add_months(1)
        self.assertEqual(str(moved.dtype), "datetime64[ns, America/New_York]")
        self.assertTrue(moved.dt.tz_localize(None).equals(clock.dt.normalize().proved.add_months(1)))
        gap = pandas.Series([pandas.Timestamp("2024-03-09 02:30", tz="America/New_York")])
        for move in (lambda: gap.proved.add_days(1), lambda: gap.proved.next_due("30 2 * * *")):
            with self.assertRaisesRegex(Exception, "2024-03-10 02:30"):
                move()

    def test_moves_by_nothing(self):
        """A move by nothing is the same instant, also where the clock shows the time twice."""
        hours = pandas.date_range("2024-10-26 23:30", periods=4, freq="60min", tz="UTC")
        shown = pandas.Series(hours.tz_convert("Europe/Berlin"), list("abcd"), name="due")
        shown["c"] = pandas.NaT
        at = shown.proved
        for still in (at.add_months(0), at.add_days(0), at.roll("unadjusted", CALENDAR), at.add_days(pandas.Series([0] * 4, list("abcd")))):
            pandas.testing.assert_series_equal(still, shown)
        self.assertEqual([it + Months(0) for it in shown.dropna()], list(shown.dropna()))
        self.assertEqual(str(at.add_days(pandas.Series([0, 0, 0, 1], list("abcd")))["d"]), "2024-10-28 03:30:00+01:00")
        with self.assertRaisesRegex(Exception, "2025-10-26 02:30"):
            at.add_days(364)

    def test_ends(self):
        ends = pandas.Series([pandas.Timestamp.min, pandas.Timestamp.max, pandas.NaT], list("abc"))
        self.assertEqual(ends.proved.add_days(0).tolist(), ends.tolist())
        self.assertEqual(ends.proved.to_date_times().proved.from_values().tolist(), ends.tolist())
        for days, label in ((-1, "a"), (1, "b"), (10**9, "a")):
            with self.assertRaisesRegex(OUT, f"at '{label}' is outside"):
                ends.proved.add_days(days)
        for call in (lambda: ends.proved.add_months(1), lambda: ends.proved.add_open_days(1, CALENDAR), lambda: ends + Months(-1)):
            self.assertRaises(OUT, call)

    def test_empty(self):
        empty = pandas.Series([], dtype="M8[ns]", name="due")
        for name, arguments in {**ASKED, **MOVES}.items():
            found = getattr(empty.proved, name)(*arguments)
            full = getattr(self.series.proved, name)(*arguments)
            self.assertEqual(len(found), 0)
            self.assertEqual(getattr(found, "dtypes", None) is not None and str(found.dtypes), str(full.dtypes), name)
        for name in OF_TEXTS:
            self.assertEqual(str(getattr(pandas.Series([], dtype=object).proved, name)().dtype), "datetime64[ns]")

    def test_wrong_types(self):
        wrong = [pandas.Series(it) for it in ([1, 2], [1.5], [True], [1j], ["2024-02-29"], [Date(2024, 2, 29)])]
        wrong += [pandas.Series(pandas.to_timedelta([1], "D")), pandas.Series(pandas.period_range("2024", periods=2, freq="M")),
                  pandas.Series(["2024-02-29"], dtype="category"), pandas.Series([numpy.inf])]
        for it in wrong:
            for name, arguments in {**ASKED, **MOVES}.items():
                with self.assertRaises(TypeError, msg=(it.dtype, name)):
                    getattr(it.proved, name)(*arguments)
        for name in OF_TEXTS:
            for it in (wrong[0], self.series, wrong[7]):
                with self.assertRaises(TypeError, msg=(it.dtype, name)):
                    getattr(it.proved, name)()
        for it in ([1], [Date(2024, 2, 29)], [datetime.date(2024, 2, 29)]):
            self.assertRaises(TypeError, pandas.Series(it, dtype=object).proved.from_texts)
        for it in ([1], ["2024-02-29"], [1.5]):
            self.assertRaises(TypeError, pandas.Series(it, dtype=object).proved.from_values)
        for name, error in (("add_months", TypeError), ("first_on", TypeError)):
            self.assertRaises(error, getattr(self.series.proved, name), None)
        self.assertRaises(ValueError, self.series.proved.first_on, [])
        self.assertRaises(ValueError, self.series.proved.roll, "forward", CALENDAR)
        self.assertRaises(TypeError, self.series.proved.is_open, None)
        self.assertRaises(ValueError, self.series.proved.next_due, "0 25 * * *")

    def test_wrong_texts(self):
        texts = pandas.Series(["2024-02-29", "2024-02-30", None, "x"], list("abcd"))
        with self.assertRaisesRegex(ValueError, "'2024-02-30' at 'b'"):
            texts.proved.from_texts()
        self.assertEqual(texts.proved.from_texts(errors="coerce").notna().tolist(), [True, False, False, False])
        self.assertRaises(ValueError, texts.proved.from_texts, "ignore")
        self.assertRaises(OUT, pandas.Series(["9999-12-31"]).proved.from_texts)
        for text in ("2016-12-31T23:59:60", "1600-01-01T00:00:00", "2024-02-29"):
            self.assertRaises(ValueError, pandas.Series([text]).proved.from_time_texts)
        frame = pandas.DataFrame({"year": [2024, 2023], "month": [2, 2], "day": [29, 29]}, index=["a", "b"])
        with self.assertRaisesRegex(ValueError, "2023-2-29 at 'b'"):
            frame.proved.dates()
        self.assertEqual(frame.proved.dates(errors="coerce").notna().tolist(), [True, False])
        self.assertRaises(ValueError, frame.proved.dates, "ignore")
        for wrong, error in ((1.5, ValueError), (numpy.inf, ValueError), ("x", TypeError)):
            self.assertRaises(error, frame.assign(day=wrong).proved.dates)
        self.assertRaises(KeyError, frame[["year"]].proved.dates)


class Offsets(unittest.TestCase):
    def test_series(self):
        series = some_times()
        for offset, wanted in ((Months(13), series.proved.add_months(13)), (OpenDays(3, business_calendar=CALENDAR), series.proved.add_open_days(3, CALENDAR))):
            for found in (series + offset, offset + series, series - -offset):
                self.assertTrue(found.equals(wanted))
                self.assertEqual(found.name, "due")
            self.assertEqual((pandas.DatetimeIndex(series) + offset).tolist(), wanted.tolist())
            there = series.dt.tz_localize("UTC") + offset
            self.assertTrue(there.dt.tz_localize(None).equals(wanted))
        self.assertTrue((series + Months(1, normalize=True)).equals(series.proved.add_months(1).dt.normalize()))
        self.assertTrue((series - Months(1)).equals(series.proved.add_months(-1)))
        self.assertTrue((series + Months(0)).equals(series))
        self.assertRaises(OUT, lambda: series + Months(10**6))

    def test_single(self):
        start = pandas.Timestamp("2024-01-31 09:30:00.000000007")
        self.assertEqual(start + Months(1), pandas.Timestamp("2024-02-29 09:30:00.000000007"))
        self.assertEqual((Months(1) + start, start - Months(2)), (start + Months(1), pandas.Timestamp("2023-11-30 09:30:00.000000007")))
        self.assertEqual(start + Months(1, normalize=True), pandas.Timestamp("2024-02-29"))
        self.assertEqual((start.tz_localize("Europe/Berlin") + Months(6)).isoformat(), "2024-07-31T09:30:00.000000007+02:00")
        self.assertIs(pandas.NaT + Months(1), pandas.NaT)
        for day in (datetime.date(2024, 3, 28), datetime.datetime(2024, 3, 28), numpy.datetime64("2024-03-28")):
            self.assertEqual(day + OpenDays(1, business_calendar=CALENDAR), pandas.Timestamp("2024-04-02"))
        for wrong in (1, "2024", None, [1], Months(1)):
            self.assertRaises(TypeError, lambda: wrong + Months(1))
        for wrong in ("x", None, 1.5):
            self.assertRaises((TypeError, ValueError), Months, wrong)
        self.assertRaises(TypeError, OpenDays, 1, business_calendar=3)

    def test_ranges(self):
        self.assertEqual([str(it.date()) for it in pandas.date_range("2024-03-27", periods=4, freq=OpenDays(1, business_calendar=CALENDAR))],
                         ["2024-03-27", "2024-03-28", "2024-04-02", "2024-04-03"])
        self.assertEqual(pandas.date_range("2024-03-29", periods=1, freq=OpenDays(1, business_calendar=CALENDAR))[0], pandas.Timestamp("2024-04-02"))
        self.assertEqual([str(it.date()) for it in pandas.date_range("2024-01-31", periods=2, freq=Months(1))], ["2024-01-31", "2024-02-29"])
        self.assertEqual([OpenDays(business_calendar=CALENDAR).is_on_offset(pandas.Timestamp(it)) for it in ("2024-03-28", "2024-03-29")], [True, False])

    def test_values(self):
        for offset in (Months(3), OpenDays(-2), OpenDays(2, business_calendar=CALENDAR), Months(1, normalize=True)):
            self.assertEqual(eval(repr(offset)), offset)
            self.assertEqual(pickle.loads(pickle.dumps(offset)), offset)
            self.assertEqual((hash(offset), 2 * offset), (hash(eval(repr(offset))), offset * 2))
            self.assertNotEqual(offset, -offset)
        self.assertNotEqual(OpenDays(2), OpenDays(2, business_calendar=CALENDAR))
        self.assertRaises(AttributeError, setattr, Months(1), "n", 2)


class Values(unittest.TestCase):
    def test_nanoseconds(self):
        for text in ("2024-02-29T12:30:15.250000007", "1677-09-21T00:12:43.145224193", "2262-04-11T23:47:16.854775807", "1969-12-31T23:59:59.999999999"):
            stamp = pandas.Timestamp(text)
            self.assertEqual(DateTime.from_datetime(stamp), DateTime.fromisoformat(text))
            self.assertEqual(ours.to_timestamp(DateTime.fromisoformat(text)), stamp)
            self.assertEqual(ours.to_timestamp(stamp), stamp)
        self.assertEqual(ours.to_timestamp(Date(2024, 2, 29)), pandas.Timestamp("2024-02-29"))
        for zone in ("UTC", "Europe/Berlin", datetime.timezone.utc, datetime.timezone(datetime.timedelta(hours=2))):
            stamp = pandas.Timestamp("2024-07-01 12:00:00.000000007", tz=zone)
            moment = DateTime.from_datetime(stamp)
            self.assertEqual((moment.nanosecond, ours.to_timestamp(moment), ours.to_timestamp(moment).tz), (7, stamp, stamp.tz))
        for count in (0, 7, -7, 10**15 + 1, 2**63 - 1, -(2**63) + 1):
            length = pandas.Timedelta(count, "ns")
            self.assertEqual(Duration.from_timedelta(length), Duration(nanoseconds=count))
            self.assertEqual(ours.to_timedelta(Duration(nanoseconds=count)), length)

    def test_wrong(self):
        for wrong in (DateTime.fromisoformat("2016-12-31T23:59:60"), Date(9999, 1, 1), Date(-1, 1, 1), Date(10_000, 1, 1)):
            self.assertRaises(ValueError, ours.to_timestamp, wrong)
        self.assertIs(ours.to_timestamp(pandas.NaT), pandas.NaT)
        for wrong in (None, 1, "2024-02-29", pandas.Timedelta(1)):
            self.assertRaises(TypeError, ours.to_timestamp, wrong)
            self.assertRaises(TypeError, ours.to_timedelta, wrong)
        self.assertRaises(TypeError, ours.to_timestamp, Duration(1))
        self.assertRaises(TypeError, ours.to_timedelta, Date(2024, 2, 29))
        for wrong in (Duration(nanoseconds=2**63), Duration(days=10**6)):
            self.assertRaises(OverflowError, ours.to_timedelta, wrong)
        for wrong in (pandas.NaT, None):
            self.assertRaises(TypeError, DateTime.from_datetime, wrong)
            self.assertRaises(TypeError, Duration.from_timedelta, wrong)

    def test_json(self):
        values = {"date": Date(2024, 2, 29), "moment": DateTime(2024, 2, 29, 9), "length": Duration(hours=1.5), "time": Time(9)}
        frame = pandas.DataFrame({name: pandas.Series([it, None], dtype=object) for name, it in values.items()})
        texts = {name: {"0": str(it), "1": None} for name, it in values.items()}
        self.assertEqual(json.loads(frame.proved.to_json()), texts)
        self.assertEqual(json.loads(frame.to_json(default_handler=str)), texts)
        self.assertEqual(json.loads(frame.proved.to_json(orient="split"))["data"][0], list(map(str, values.values())))
        parts = json.loads(frame.to_json())
        self.assertEqual([parts["date"]["0"][it] for it in ("year", "month", "day")], [2024, 2, 29])
        self.assertEqual(parts["moment"]["0"]["date"], parts["date"]["0"])
        self.assertEqual((parts["length"]["0"]["nanoseconds"], parts["time"]["0"]["hour"], parts["date"]["1"]), (5_400 * 10**9, 9, None))
        self.assertEqual(json.loads(pandas.Series([Weekday.FRIDAY]).to_json()), {"0": 5})
        there = DateTime(2024, 2, 29, 9, tzinfo=datetime.timezone.utc)
        self.assertEqual(json.loads(pandas.Series([there]).to_json())["0"]["hour"], 9)
        self.assertNotIn("tzinfo", dir(there))
        self.assertIn("tzinfo", dir(values["moment"]))
        for it in values.values():
            self.assertFalse({"min", "max", "MIN", "MAX", "resolution"} & set(dir(it)))
            self.assertIn("min", dir(type(it)))

    def test_examples(self):
        failed, tried = doctest.testmod(ours, extraglobs={"DateTime": DateTime, "pandas": pandas}, verbose=False)
        self.assertEqual((failed, tried > 5), (0, True))
        for name in ours.__all__:
            self.assertTrue(getattr(ours, name).__doc__, name)
        methods = {it for it in vars(ours.ProvedSeries) if not it.startswith("_")}
        self.assertEqual(methods, {*ASKED, *MOVES, *OF_TEXTS})
        self.assertTrue(all(getattr(ours.ProvedSeries, it).__doc__ for it in methods))


if __name__ == "__main__":
    unittest.main()
