#!/usr/bin/env python3
"""Measures proved_calendar.columns beside numpy and pandas, in one run: how many times as fast ours are.

    benches/python_columns.py [COUNT] [ROUNDS]        (a million dates and nine rounds if left out)

It needs numpy and pandas, of this interpreter or Debian's, what the wheel needs, and crates/calendar_c/out/libcalendar_c.a, which
`rt lib` leaves there.

The dates are of the 400 years from 1800 on; those for datetime64[ns] are of the years from 1900 to 2099. What ours answer has to be
what numpy and pandas answer before any is timed. All take turns in each round, and the best one counts, by the thread's processor
time. numpy has dates as datetime64[D] and pandas as datetime64[ns]; ours have both, and day numbers of 32 bits. Where numpy has no
call of its own, the shortest way by others is measured. The weekend is Saturday and Sunday, and the holidays are four days of each
year from 1980 to 2029. `Months` is the offset that pandas adds to a Series, beside pandas' own, and not a call of columns.
"""
import os
import sys
import tempfile
import time
import zipfile

TOP = os.path.dirname(os.path.dirname(os.path.abspath(__file__)))
sys.path.insert(0, os.path.join(TOP, "tools"))
import packages  # noqa: E402
from debian import restart_without  # noqa: E402
from packages import python  # noqa: E402

try:
    import numpy as np
    import pandas as pd
except ImportError:
    restart_without(None)
    sys.exit("numpy and pandas are wanted: tools/setup installs Debian's")

LIBRARY = os.path.join(TOP, "crates", "calendar_c", "out", "libcalendar_c.a")
LAYERS = os.path.join(TOP, "crates", "layers_c", "out", "liblayers_c.a")
EPOCH, MONTHS, DAYS, OPEN_DAYS = 719_163, 13, 1_000, 20


def install(folder):
    """Makes the wheel and finds the package in it; its modules of columns and for pandas."""
    if not os.path.exists(LIBRARY):
        sys.exit(f"there is no {LIBRARY}: run `rt lib` in crates/calendar_c")
    packages.build(LIBRARY, folder)
    packages.build(LAYERS, folder, packages.LAYERS)
    _, wheel = sorted(python.make(TOP, folder, f"{folder}/dist"))
    with zipfile.ZipFile(wheel) as it:
        it.extractall(f"{folder}/python")
    sys.path.insert(0, f"{folder}/python")
    from proved_calendar import columns, pandas

    return columns, pandas


def month_move(days):
    """Dates some months on, by numpy: the day of the month, or the last day of a shorter one."""
    months = days.astype("M8[M]")
    moved = months + MONTHS
    return np.minimum(moved.astype("M8[D]") + (days - months.astype("M8[D]")), (moved + 1).astype("M8[D]") - 1)


class Data:
    """The dates, as each of the three has them."""

    def __init__(self, count):
        chance = np.random.default_rng(7)
        self.days = chance.integers(657_073 - EPOCH, 803_170 - EPOCH, count).astype("M8[D]")
        self.times = chance.integers(693_596 - EPOCH, 766_645 - EPOCH, count).astype("M8[D]").astype("M8[ns]")
        self.times += chance.integers(0, 86_400 * 10**9, count).astype("m8[ns]")
        self.numbers = (self.days.view("int64") + EPOCH).astype("int32")
        self.others, self.other_times = self.days[::-1].copy(), self.times[::-1].copy()
        self.series, self.other_series = pd.Series(self.times), pd.Series(self.other_times)
        self.texts = self.days.astype("S10")
        self.time_texts = pd.Series(self.times.astype("M8[D]").astype("U10"))
        self.time_bytes = self.time_texts.to_numpy("U10").astype("S10")
        of_years, of_months = self.days.astype("M8[Y]"), self.days.astype("M8[M]")
        self.names = (of_years.astype("int32") + 1970, (of_months.astype("int64") % 12 + 1).astype("uint8"),
                      ((self.days - of_months).astype("int64") + 1).astype("uint8"))
        self.frame = pd.DataFrame({"year": self.series.dt.year, "month": self.series.dt.month, "day": self.series.dt.day})
        self.time_names = (*(self.frame[it].to_numpy(kind) for it, kind in (("year", "int32"), ("month", "uint8"), ("day", "uint8"))),)


def open_days(columns, data):
    """The calls over open days, which pandas has none of over a whole Series."""
    from proved_calendar import BusinessCalendar, Date

    closed = [Date(year, month, day) for year in range(1980, 2030) for month, day in ((1, 1), (5, 1), (12, 25), (12, 26))]
    calendar, theirs = BusinessCalendar(closed), np.busdaycalendar(holidays=[str(it) for it in closed])
    # (of the years of the holidays, as dates of bills are)
    days = np.random.default_rng(8).integers(3_652, 21_915, len(data.days)).astype("M8[D]")
    numbers = (days.view("int64") + EPOCH).astype("int32")
    dates = numbers, days, days.astype("M8[ns]")

    def ours(function, *rest):
        return [lambda it=it: function(it, *rest) for it in dates]

    return {
        "is_open": (*ours(columns.is_open, calendar), lambda: np.is_busday(days, busdaycal=theirs), None),
        # (numpy moves from the last open day, as ours do from a closed one)
        "add_open_days": (*ours(columns.add_open_days, OPEN_DAYS, calendar),
                          lambda: np.busday_offset(days, OPEN_DAYS, "preceding", busdaycal=theirs), None),
        "roll": (*ours(columns.roll, "modified_following", calendar), lambda: np.busday_offset(days, 0, "modifiedfollowing", busdaycal=theirs), None),
        "open_days_between": (
            *(lambda it=it: columns.open_days_between(it, it[::-1], calendar) for it in dates),
            lambda: np.busday_count(days, days[::-1], busdaycal=theirs), None,
        ),
    }


def calls(columns, of_pandas, data):
    """Each call: ours on day numbers, datetime64[D] and datetime64[ns], and those of numpy and pandas; None where there is none."""
    days, times, numbers, series = data.days, data.times, data.numbers, data.series
    years, months, of_month = data.names
    a_move, dates = np.timedelta64(DAYS, "D"), [numbers, days, times]

    def ours(function, *rest):
        return [lambda it=it: function(it, *rest) for it in dates]

    def by_numpy():
        of_years, of_months = days.astype("M8[Y]"), days.astype("M8[M]")
        return of_years.astype("int64") + 1970, of_months.astype("int64") % 12 + 1, (days - of_months).astype("int64") + 1

    return {
        "fields": (*ours(columns.fields), by_numpy, lambda: (series.dt.year, series.dt.month, series.dt.day)),
        "years": (*ours(columns.years), lambda: days.astype("M8[Y]").astype("int64") + 1970, lambda: series.dt.year),
        "ordinals": (*ours(columns.ordinals), lambda: (days - days.astype("M8[Y]")).astype("int64") + 1, lambda: series.dt.dayofyear),
        "weekdays": (*ours(columns.weekdays), lambda: (days.view("int64") + 3) % 7 + 1, lambda: series.dt.weekday + 1),
        "iso_weeks": (*ours(columns.iso_weeks), None, lambda: tuple(series.dt.isocalendar()[it] for it in ("year", "week"))),
        "add_days": (*ours(columns.add_days, DAYS), lambda: days + a_move, lambda: series + pd.Timedelta(DAYS, "D")),
        "add_months": (*ours(columns.add_months, MONTHS), lambda: month_move(days), lambda: series + pd.DateOffset(months=MONTHS)),
        "Months": (None, None, lambda: series + of_pandas.Months(MONTHS), None, lambda: series + pd.DateOffset(months=MONTHS)),
        **open_days(columns, data),
        "days_between": (
            lambda: columns.days_between(numbers, numbers[::-1]), lambda: columns.days_between(days, data.others),
            lambda: columns.days_between(times, data.other_times), lambda: days - data.others,
            lambda: (series.dt.normalize() - data.other_series.dt.normalize()).dt.days,
        ),
        "from_fields": (
            lambda: columns.from_fields(years, months, of_month, "i4"), lambda: columns.from_fields(years, months, of_month),
            lambda: columns.from_fields(*data.time_names, "M8[ns]"),
            lambda: ((years.astype("int64") - 1970) * 12 + (months - 1)).astype("M8[M]").astype("M8[D]") + (of_month - 1),
            lambda: pd.to_datetime(data.frame),
        ),
        "texts": (*ours(columns.texts), lambda: days.astype("S10"), lambda: series.dt.strftime("%Y-%m-%d")),
        "from_texts": (
            lambda: columns.from_texts(data.texts, "i4"), lambda: columns.from_texts(data.texts),
            lambda: columns.from_texts(data.time_bytes, "M8[ns]"), lambda: data.texts.astype("M8[D]"),
            lambda: pd.to_datetime(data.time_texts, format="%Y-%m-%d"),
        ),
    }


def plain(answer):
    """What a call answers, as whole numbers or texts."""
    if isinstance(answer, tuple):
        return np.array([plain(it) for it in answer])
    found = np.asarray(answer)
    if found.dtype.kind == "O":
        found = found.astype("U" if isinstance(found[0], str) else "int64")
    if found.dtype.kind in "SU":
        return found.astype("S10")
    return found.view("int64") if found.dtype.kind in "mM" else found.astype("int64")


def compare(name, measured):
    """Ends the program if ours on datetime64[D] answers otherwise than numpy, or on datetime64[ns] than pandas."""
    by_number, by_day, by_time, numpy, pandas = (plain(it()) if it else None for it in measured)
    is_date = name.startswith(("add", "from", "roll"))
    same_days = None if by_number is None else by_number - EPOCH * is_date if by_number.dtype.kind == "i" else by_number
    for what, one, other in (("numpy", by_day, numpy), ("pandas", by_time, pandas), ("int32", same_days, by_day)):
        if one is not None and other is not None and not np.array_equal(one, other):
            sys.exit(f"{name}: {what} answers otherwise")


def row(name, times, count):
    """The line of a table: nanoseconds an element, and how many times as fast ours are."""
    numbers, days, stamps, numpy, pandas = (it / count * 1e9 for it in times)
    cells = [numbers, days, numpy, numpy / days, stamps, pandas, pandas / stamps]
    return " | ".join([f"| `{name}`", *(f"{it:.1f}" if 0 < it < float("inf") else "" for it in cells)]) + " |"


def main():
    count, rounds = (int(it) for it in (sys.argv[1:] + ["1000000", "9"][len(sys.argv) - 1:])[:2])
    with tempfile.TemporaryDirectory() as folder:
        measured = calls(*install(folder), Data(count))
        for name, each in measured.items():
            compare(name, each)
        best = {name: [float("inf")] * len(each) for name, each in measured.items()}
        for _ in range(rounds):
            for name, each in measured.items():
                for at, call in enumerate(each):
                    if call:
                        began = time.thread_time()
                        call()
                        best[name][at] = min(best[name][at], time.thread_time() - began)
    print(f"Nanoseconds an element, of {count:,}; numpy {np.__version__}, pandas {pd.__version__}\n")
    print("| Call | int32 | datetime64[D] | numpy | times as fast | datetime64[ns] | pandas | times as fast |\n|---|---|---|---|---|---|---|---|")
    for name, times in best.items():
        print(row(name, times, count))


if __name__ == "__main__":
    main()
