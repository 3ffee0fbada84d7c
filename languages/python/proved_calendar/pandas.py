"""Columns of dates in pandas: the accessor `proved` of Series and DataFrame, and offsets that pandas adds to a Series.

Importing this module registers the accessors. A Series of datetime64 goes in, with NaT for none. What comes back has its index and
its name. Dates keep the Series' type, their time of day and its nanoseconds. Numbers and texts that are missing are NA.

>>> import pandas, proved_calendar.pandas
>>> from proved_calendar.pandas import Months
>>> due = pandas.Series(pandas.to_datetime(['2024-01-31 09:30', None]), name='due')
>>> due.proved.add_months(1)
0   2024-02-29 09:30:00
1                   NaT
Name: due, dtype: datetime64[ns]
>>> (due + Months(1)).equals(due.proved.add_months(1))
True

In a time zone each date is that of the local clock. A move keeps the clock's time, and pandas raises its error if a clock is set so
that there is no such time, or there are two. A result that the Series' type cannot hold raises OutOfBoundsDatetime.
"""
from __future__ import annotations

import datetime
import importlib
from collections.abc import Callable, Iterable
from typing import Any, SupportsIndex

from . import _calendar, columns
from ._arrays import np as _np

try:
    _pd: Any = importlib.import_module("pandas")
    _BaseOffset: Any = importlib.import_module("pandas.tseries.offsets").BaseOffset
except ModuleNotFoundError as _missing:
    raise ModuleNotFoundError("proved_calendar.pandas needs pandas") from _missing

__all__ = ["Months", "OpenDays", "ProvedFrame", "ProvedSeries", "to_timedelta", "to_timestamp"]

_LEAST = -(2**31)


# ---- arrays of a Series


def _refuse(series: Any, wanted: str) -> Any:
    raise TypeError(f"a Series of {series.dtype} has no {wanted}")


def _times(series: Any) -> Any:
    """The array of a Series of datetime64, by its local clock; a TypeError if it is none."""
    if not isinstance(series, _pd.Series):
        raise TypeError(f"a Series is wanted, not {type(series).__name__}")
    if getattr(series.dtype, "kind", None) != "M":
        _refuse(series, "dates: it is to be of datetime64, which pandas.to_datetime and proved.from_values make")
    return (series if getattr(series.dtype, "tz", None) is None else series.dt.tz_localize(None)).to_numpy()


def _check_held(found: Any, given: Any, labels: Any, what: str) -> None:
    """Raises an error if a time that was given became none."""
    # (NaT is the least number, and most columns have none)
    if found.view(_np.int64).min(initial=0) != -(2**63):
        return
    is_lost = _np.isnat(found) & ~_np.isnat(given)
    if is_lost.any():
        place = int(is_lost.argmax())
        said = f"{what} of {given[place]} at {labels[place]!r} is outside the calendar, or what {found.dtype} holds"
        raise _pd.errors.OutOfBoundsDatetime(said)


def _nullable(values: Any, is_none: Any, like: Any, kind: str) -> Any:
    """A Series of a type of pandas that has NA, with the index and the name of another."""
    made = _pd.array(_np.where(is_none, _np.zeros((), values.dtype), values), dtype=kind)
    made[is_none] = _pd.NA
    return _pd.Series(made, like.index, name=like.name)


def _whole_numbers(series: Any, name: str) -> Any:
    """The whole numbers of a Series as int64, with the least of 32 bits in place of a missing one."""
    kind = getattr(series.dtype, "numpy_dtype", series.dtype)
    if isinstance(kind, _np.dtype) and kind.kind in "iu" and _np.can_cast(kind, _np.int64):
        return series.to_numpy(_np.int64, na_value=_LEAST)
    if not isinstance(kind, _np.dtype) or kind.kind != "f":
        raise TypeError(f"{name} are whole numbers, not {series.dtype}")
    numbers = series.to_numpy(_np.float64, na_value=_np.nan)
    whole = _np.where(_np.abs(numbers) < 2.0**62, numbers, _LEAST).astype(_np.int64)
    if (whole != numbers)[~_np.isnan(numbers)].any():
        raise ValueError(f"{name} are whole numbers")
    return whole


def _check_errors(errors: str) -> None:
    if errors not in ("raise", "coerce"):
        raise ValueError(f"errors is 'raise' or 'coerce', not {errors!r}")


# ---- the accessor of Series


@_pd.api.extensions.register_series_accessor("proved")
class ProvedSeries:
    """The functions of proved_calendar.columns over a Series.

    Where a method takes a second Series, its elements go with those of the same label. It can be one date for all too.
    """

    def __init__(self, series: Any) -> None:
        self._series = series

    # ---- what dates are called

    def _asked(self, function: Callable[[Any], Any], kind: str) -> Any:
        times = _times(self._series)
        return _nullable(function(times), _np.isnat(times), self._series, kind)

    def years(self) -> Any:
        """Returns the years, as Int32."""
        return self._asked(columns.years, "Int32")

    def ordinals(self) -> Any:
        """Returns the days of the year, from 1 to 366, as UInt16."""
        return self._asked(columns.ordinals, "UInt16")

    def weekdays(self) -> Any:
        """Returns the weekdays, from 1 for Monday to 7, as UInt8. (pandas counts from 0.)"""
        return self._asked(columns.weekdays, "UInt8")

    def _frame(self, parts: Any, names: tuple[str, ...]) -> Any:
        is_none, kinds = _np.isnat(_times(self._series)), ("Int32", "UInt8", "UInt8")
        return _pd.DataFrame({name: _nullable(part, is_none, self._series, kind) for name, part, kind in zip(names, parts, kinds)})

    def fields(self) -> Any:
        """Returns a DataFrame of year, month and day."""
        return self._frame(columns.fields(_times(self._series)), ("year", "month", "day"))

    def iso_weeks(self) -> Any:
        """Returns a DataFrame of year and week (ISO 8601)."""
        return self._frame(columns.iso_weeks(_times(self._series)), ("year", "week"))

    def _texts(self, texts: Any) -> Any:
        found = texts.astype(str).astype(object)
        found[texts == b""] = _pd.NA
        return _pd.Series(_pd.array(found, dtype="string"), self._series.index, name=self._series.name)

    def texts(self) -> Any:
        """Returns the dates as texts, such as '2024-02-29'; NA for a year outside 0 to 9999."""
        return self._texts(columns.texts(_times(self._series)))

    def time_texts(self) -> Any:
        """Returns the times as texts, such as '2024-02-29T09:30:00.500', with all nanoseconds and no time zone."""
        return self._texts(columns.time_texts(_times(self._series)))

    # ---- dates by their names

    def _read(self, function: Callable[..., Any], unit: str, errors: str) -> Any:
        _check_errors(errors)
        if self._series.dtype.kind not in "OU":
            _refuse(self._series, "texts")
        is_none = self._series.isna().to_numpy()
        texts = _np.where(is_none, "", self._series.to_numpy(object))
        if not all(isinstance(it, str) for it in texts):
            raise TypeError("an element of the Series is no text")
        found = function(texts.astype("U"), f"M8[{unit}]")
        is_wrong = _np.isnat(found) & ~is_none
        if errors == "raise" and is_wrong.any():
            place = int(is_wrong.argmax())
            raise ValueError(f"{texts[place]!r} at {self._series.index[place]!r} is invalid, or not what datetime64[{unit}] holds")
        return _pd.Series(found, self._series.index, name=self._series.name)

    def from_texts(self, errors: str = "raise") -> Any:
        """Returns the dates that texts write as YYYY-MM-DD. By errors='coerce' another text is NaT; else it is a ValueError."""
        return self._read(columns.from_texts, "s", errors)

    def from_time_texts(self, errors: str = "raise") -> Any:
        """Returns the times that texts write as YYYY-MM-DDTHH:MM:SS, with up to nine digits of a fraction; errors as above."""
        return self._read(columns.from_time_texts, "ns", errors)

    # ---- moves

    def _moved(self, what: str, move: Callable[[Any], Any]) -> Any:
        series = self._series
        times = _times(series)
        found = move(times)
        _check_held(found, times, series.index, what)
        moved = _pd.Series(found, series.index, name=series.name)
        zone = getattr(series.dtype, "tz", None)
        if zone is None:
            return moved
        # (the clock can show a time twice, and a move by nothing keeps the instant)
        is_still = found == times
        return moved.mask(is_still).dt.tz_localize(zone).where(~is_still, series)

    def _steps(self, days: Any) -> Any:
        """Each element and the number at its label. (What is missing leads beyond the calendar, and is asked of no element.)"""
        if not isinstance(days, _pd.Series):
            return self, days
        series, numbers = self._series.align(days, join="left")
        is_missing = numbers.isna()
        return ProvedSeries(series.mask(is_missing)), _whole_numbers(numbers, "days")

    def add_days(self, days: Any) -> Any:
        """Returns the dates that many days later, or earlier if negative. days is a number, or a Series of numbers."""
        at, steps = self._steps(days)
        return at._moved("a move by days", lambda times: columns.add_days(times, steps))

    def add_months(self, months: SupportsIndex) -> Any:
        """Returns the dates that many months later. If that month is too short, returns its last day."""
        return self._moved("a move by months", lambda times: columns.add_months(times, months))

    def first_on(self, weekdays: Iterable[SupportsIndex]) -> Any:
        """Returns the first date, from each on, that has one of the weekdays, from 1 for Monday."""
        chosen = list(weekdays)
        return self._moved("the first weekday", lambda times: columns.first_on(times, chosen))

    def add_open_days(self, days: Any, calendar: Any) -> Any:
        """Returns the open day that many open days later, by a BusinessCalendar. days is a number, or a Series of numbers."""
        at, steps = self._steps(days)
        return at._moved("a move by open days", lambda times: columns.add_open_days(times, steps, calendar))

    def roll(self, how: str, calendar: Any) -> Any:
        """Returns open dates, and for each closed one the open day that a roll such as 'modified_following' leads to."""
        return self._moved("a roll", lambda times: columns.roll(times, how, calendar))

    def next_due(self, schedule: Any) -> Any:
        """Returns the first time after each at which a Schedule, or the cron text of one, is due; NaT if there is none."""
        times = _times(self._series)
        found = _pd.Series(columns.next_due(times, schedule), self._series.index, name=self._series.name)
        zone = getattr(self._series.dtype, "tz", None)
        return found if zone is None else found.dt.tz_localize(zone)

    # ---- two columns

    def is_open(self, calendar: Any) -> Any:
        """Returns whether each date is an open day of a BusinessCalendar, as boolean."""
        return self._asked(lambda times: columns.is_open(times, calendar), "boolean")

    def _pair(self, other: Any) -> tuple[Any, Any, Any]:
        """The Series and two arrays of the same labels, or one time for all."""
        if isinstance(other, _pd.Series):
            series, others = self._series.align(other, join="left")
            return series, _times(series), _times(others)
        stamp = _pd.Timestamp(other)
        return self._series, _times(self._series), _np.datetime64("NaT", "ns") if stamp is _pd.NaT else stamp.tz_localize(None).to_datetime64()

    def _counted(self, function: Callable[[Any, Any], Any], other: Any) -> Any:
        series, times, others = self._pair(other)
        is_none = _np.isnat(times) | _np.isnat(others)
        return _nullable(function(times, others), is_none, series, "Int64")

    def days_between(self, bases: Any) -> Any:
        """Returns the days from each base to the date, as Int64. Times of day do not count."""
        return self._counted(lambda times, others: columns.days_between(times, others).astype(_np.int64), bases)

    def open_days_between(self, ends: Any, calendar: Any) -> Any:
        """Returns how many days are open from each date on and before its end, as Int64."""
        return self._counted(lambda times, others: columns.open_days_between(times, others, calendar), ends)

    def year_fractions(self, ends: Any, kind: str) -> Any:
        """Returns the part of a year from each date to its end by a day count such as 'thirty_360', as float64."""
        series, times, others = self._pair(ends)
        return _pd.Series(columns.year_fractions(times, others, kind), series.index, name=series.name)

    # ---- single values

    def _values(self, of_text: Callable[[str], Any], texts: Any) -> Any:
        found = [of_text(it.decode()) if it else None for it in texts]
        return _pd.Series(found, self._series.index, dtype=object, name=self._series.name)

    def to_dates(self) -> Any:
        """Returns Dates of proved_calendar, and None for NaT."""
        return self._values(_calendar.Date.fromisoformat, columns.texts(_times(self._series)))

    def to_date_times(self) -> Any:
        """Returns DateTimes of proved_calendar, with all nanoseconds, and None for NaT."""
        return self._values(_calendar.DateTime.fromisoformat, columns.time_texts(_times(self._series)))

    def from_values(self) -> Any:
        """Returns datetime64 from Dates, DateTimes and those of datetime. A leap second raises ValueError."""
        if self._series.dtype != object:
            _refuse(self._series, "values of proved_calendar")
        found = [_pd.NaT if it is None or it is _pd.NaT or it is _pd.NA else to_timestamp(it) for it in self._series]
        return _pd.Series(_pd.DatetimeIndex(found), self._series.index, name=self._series.name)


# ---- the accessor of DataFrame


@_pd.api.extensions.register_dataframe_accessor("proved")
class ProvedFrame:
    """Dates from the columns of a DataFrame, and its JSON."""

    def __init__(self, frame: Any) -> None:
        self._frame = frame

    def dates(self, errors: str = "raise") -> Any:
        """Returns the dates whose names stand in the columns year, month and day.

        What is missing is NaT. By errors='coerce' an invalid date is NaT too; else it is a ValueError.
        """
        _check_errors(errors)
        year, month, day = parts = [_whole_numbers(self._frame[it], it) for it in ("year", "month", "day")]
        is_none = self._frame[["year", "month", "day"]].isna().any(axis=1).to_numpy()
        found = columns.from_fields(year, month, day, "M8[s]")
        is_wrong = _np.isnat(found) & ~is_none
        if errors == "raise" and is_wrong.any():
            place = int(is_wrong.argmax())
            raise ValueError(f"{'-'.join(str(it[place]) for it in parts)} at {self._frame.index[place]!r} is invalid")
        return _pd.Series(found, self._frame.index)

    def to_json(self, *arguments: Any, **options: Any) -> Any:
        """Returns or writes what DataFrame.to_json does, with the texts of Dates, DateTimes, Durations and Times."""
        options.setdefault("default_handler", str)
        return self._frame.to_json(*arguments, **options)


# ---- offsets


class _Offset(_BaseOffset):  # type: ignore[misc]
    """An offset of pandas that moves an array of times by the proved functions."""

    def _moved(self, times: Any) -> Any:
        raise NotImplementedError

    def _apply_array(self, dtarr: Any) -> Any:
        times = _np.asarray(dtarr)
        found = self._moved(times)
        _check_held(found, times, range(len(times)), f"a move by {self!r}")
        return found.astype("M8[D]").astype(found.dtype) if self.normalize else found

    def _apply(self, other: Any) -> Any:
        stamp = _pd.Timestamp(other)
        shown = stamp.tz_localize(None)
        moved = _pd.Timestamp(self._apply_array(_np.array([shown.to_datetime64()]))[0])
        return stamp if moved == shown else moved.tz_localize(stamp.tz)

    def __add__(self, other: Any) -> Any:
        if other is _pd.NaT:
            return other
        return self._apply(other) if isinstance(other, (datetime.date, _np.datetime64)) else NotImplemented

    __radd__ = __add__

    def __repr__(self) -> str:
        kept = "".join(f", {name}={it!r}" for name, it in (("normalize", self.normalize), *self.kwds.items()) if it is not False)
        return f"{type(self).__name__}({self.n}{kept})"


class Months(_Offset):
    """Months(n=1, normalize=False): an offset of pandas by months. If a month is too short, it leads to its last day.

    >>> pandas.Timestamp('2024-01-31') + Months(1)
    Timestamp('2024-02-29 00:00:00')
    """

    _prefix = "ProvedMonths"

    def __init__(self, n: int = 1, normalize: bool = False) -> None:
        super().__init__(n, normalize)

    def _moved(self, times: Any) -> Any:
        return columns.add_months(times, self.n)

    def is_on_offset(self, dt: Any) -> bool:
        """Returns True: every date is months after others."""
        return True

    def __reduce__(self) -> Any:
        return type(self), (self.n, self.normalize)


class OpenDays(_Offset):
    """OpenDays(n=1, normalize=False, business_calendar=BusinessCalendar()): an offset of pandas by open days.

    >>> pandas.Timestamp('2024-03-28') + OpenDays(1)
    Timestamp('2024-03-29 00:00:00')

    From a closed day the next open day counts as the first. If n is 0, it leads to the first open day from the date on.
    """

    _prefix = "ProvedOpenDays"
    _attributes = ("n", "normalize", "business_calendar")

    def __init__(self, n: int = 1, normalize: bool = False, business_calendar: Any = None) -> None:
        super().__init__(n, normalize)
        if business_calendar is not None and not isinstance(business_calendar, _calendar.BusinessCalendar):
            raise TypeError(f"a BusinessCalendar is wanted, not {type(business_calendar).__name__}")
        # (pandas lets no attribute of an offset be set, and one named calendar takes no part in its comparisons)
        object.__setattr__(self, "business_calendar", business_calendar or _calendar.BusinessCalendar())

    def _moved(self, times: Any) -> Any:
        return columns.add_open_days(times, self.n, self.business_calendar)

    def is_on_offset(self, dt: Any) -> bool:
        """Returns whether a date is an open day."""
        return bool(columns.is_open(_np.datetime64(_pd.Timestamp(dt).date()), self.business_calendar))

    def __reduce__(self) -> Any:
        return type(self), (self.n, self.normalize, self.business_calendar)


# ---- single values


def to_timestamp(value: Any) -> Any:
    """Returns a pandas.Timestamp from a Date, a DateTime or one of datetime, with all nanoseconds and its time zone.

    NaT stays. A leap second, or a time that a Timestamp cannot hold, raises ValueError.

    >>> to_timestamp(DateTime.fromisoformat('2024-02-29T12:30:00.000000007')).nanosecond
    7
    """
    if isinstance(value, (_calendar.Date, _calendar.DateTime)):
        stamp, zone = _pd.Timestamp(value.isoformat()), getattr(value, "tzinfo", None)
        return stamp if zone is None else stamp.tz_convert(zone)
    if isinstance(value, datetime.date):
        return _pd.Timestamp(value)
    raise TypeError(f"a Date or a DateTime is wanted, not {type(value).__name__}")


def to_timedelta(length: Any) -> Any:
    """Returns a pandas.Timedelta from a Duration, with all nanoseconds; OverflowError if it cannot hold it."""
    if not isinstance(length, _calendar.Duration):
        raise TypeError(f"a Duration is wanted, not {type(length).__name__}")
    if abs(length.nanoseconds) >= 2**63:
        raise OverflowError(f"{length} is longer than a Timedelta can be")
    return _pd.Timedelta(length.nanoseconds, "ns")
