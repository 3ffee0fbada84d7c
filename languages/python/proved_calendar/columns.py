"""Columns of dates in numpy's arrays, by the proved functions for columns.

A column is an array of any shape. Its type says what an element is:

- int32 or another type of whole numbers: the day number of a date, as Date.number has it;
- datetime64[D]: a date;
- datetime64 in hours, minutes, s, ms, us or ns: a date with a time of day, in no time zone.

NaT is no date, and so is a number that no date has. What has no answer is NaT in a datetime64 or timedelta64, the least number of a
signed type, 0 in an unsigned one, and NaN in a float. What comes back as dates has the type of what was given; smaller whole numbers
become int64.

The answers come from the proved functions. What divides times into days and their rest, and puts them together again, is not proved.
An array of int32 is read and written where it lies. Others are converted in pieces, so that little memory is taken. No call
of the library holds Python's lock.

>>> import numpy
>>> from proved_calendar import BusinessCalendar, columns
>>> dates = numpy.array(['2024-01-31', 'NaT'], 'M8[D]')
>>> columns.add_months(dates, 1)
array(['2024-02-29',        'NaT'], dtype='datetime64[D]')
>>> columns.add_open_days(dates, 3, BusinessCalendar())
array(['2024-02-05',        'NaT'], dtype='datetime64[D]')
"""
from __future__ import annotations

import ctypes
import datetime as _datetime
import functools
import zoneinfo as _zoneinfo
from collections.abc import Callable, Iterable
from typing import Any, NamedTuple, SupportsIndex

from . import _calendar
from ._arrays import (
    LIBRARY, NAT, NONE, TEXT, UNITS, Dates, Int32, Layout, Times, array_of, call as _call, flat64, layout_of, loop as _loop, np as _np,
    pieces, small_of, whole,
)

__all__ = [
    "Fields", "Fractions", "IsoWeeks", "add_days", "add_months", "add_open_days", "count_dates", "day_counts", "days_between", "fields",
    "first_on", "from_fields", "from_texts", "from_time_texts", "from_unix_days", "is_date", "is_open", "iso_weeks", "next_due", "numbers",
    "offsets", "open_days_between", "ordinals", "roll", "texts", "time_texts", "unix_days", "weekdays", "year_fractions", "years",
]

# The rolls and the day counts, in the order of calendar_layers.h.
_ROLLS = (
    "unadjusted", "following", "preceding", "modified_following", "modified_preceding", "nearest_isda", "nearest_quantlib",
)
_DAY_COUNTS = ("actual_actual_isda", "actual_360", "actual_365_fixed", "thirty_360", "thirty_e_360")
# The first and the last second of datetime's years, since 1970.
_FIRST_SECOND, _LAST_SECOND = -62_135_596_800, 253_402_300_799
# The bytes of a date-time's text in a column.
_TIME_TEXT = 32


class Fields(NamedTuple):
    """The years, months and days of a column."""

    years: Any
    months: Any
    days: Any


class IsoWeeks(NamedTuple):
    """The ISO years and weeks of a column."""

    years: Any
    weeks: Any


class Fractions(NamedTuple):
    """Exact fractions, which are not reduced."""

    numerators: Any
    denominators: Any


# ---- what dates are called


def _asked(name: str, dates: Any, *kinds: Any) -> tuple[Any, ...]:
    """What a function of the library tells of each date, in arrays of some types."""
    column = Dates(dates)
    outs = [_np.empty(column.size, kind) for kind in kinds]
    for piece in column.pieces():
        _call(name, column.numbers(piece), *(out[piece] for out in outs))
    return tuple(out.reshape(column.shape) for out in outs)


def years(dates: Any) -> Any:
    """Returns the year of each date as int32."""
    return _asked("years", dates, _np.int32)[0]


def ordinals(dates: Any) -> Any:
    """Returns the day of the year of each date as uint16, from 1 to 366."""
    return _asked("ordinals", dates, _np.uint16)[0]


def weekdays(dates: Any) -> Any:
    """Returns the weekday of each date as uint8, from 1 for Monday to 7."""
    return _asked("weekdays", dates, _np.uint8)[0]


def fields(dates: Any) -> Fields:
    """Returns the years as int32, the months as uint8 and the days of the month as uint8."""
    return Fields(*_asked("split", dates, _np.int32, _np.uint8, _np.uint8))


def iso_weeks(dates: Any) -> IsoWeeks:
    """Returns the ISO years as int32 and the weeks as uint8, from 1 to 53."""
    return IsoWeeks(*_asked("iso_weeks", dates, _np.int32, _np.uint8))


def texts(dates: Any) -> Any:
    """Returns the text of each date as ten bytes (S10), such as b'2024-02-29'; b'' for a year outside 0 to 9999.

    `texts(dates).astype(str)` makes texts of Python of them.
    """
    return _asked("write_dates", dates, f"S{TEXT}")[0]


def numbers(dates: Any) -> Any:
    """Returns the day number of each date as int32: 1 for 1 January of year 1, and -2147483648 for no date."""
    column = Dates(dates)
    out = _np.empty(column.size, _np.int32)
    for piece in column.pieces():
        _call("add_days", column.numbers(piece), 0, out[piece])
    return out.reshape(column.shape)


def is_date(dates: Any) -> Any:
    """Returns whether each element is a date, as bool."""
    return weekdays(dates) != 0


def count_dates(dates: Any) -> int:
    """Returns how many elements are dates."""
    column, function = Dates(dates), LIBRARY.calendar_column_count_dates
    function.restype, function.argtypes = ctypes.c_size_t, (ctypes.c_void_p, ctypes.c_size_t)
    found = 0
    for piece in column.pieces():
        values = column.numbers(piece)
        found += function(values.ctypes.data, values.size)
    return found


# ---- dates


def _moved_by(column: Dates, move: Callable[[slice, Any, Any], None]) -> Any:
    """Each date after a move, which is given a piece, its day numbers and where to write those after it."""
    out = _np.empty(column.size, column.layout.dtype)
    for piece in column.pieces():
        starts = column.numbers(piece)
        if type(column.layout) is Int32:
            move(piece, starts, out[piece])
        else:
            moved = _np.empty(starts.size, _np.int32)
            move(piece, starts, moved)
            column.layout.move(moved, column.values[piece], starts, out[piece])
    return out.reshape(column.shape)


def _by_day(column: Dates, move: Callable[[Any, Any], None]) -> Callable[[slice, Any, Any], None]:
    """A move by one answer for each day from the least to the greatest of a column, if these are fewer than half of its dates."""
    least, last = 2**31 - 1, NONE
    for piece in column.pieces():
        numbers = column.numbers(piece)
        least = min(least, int(numbers.min(where=numbers != NONE, initial=least)))
        last = max(last, int(numbers.max()))
    if not 0 <= last - least < column.size // 2:
        return lambda _, starts, moved: move(starts, moved)
    days = _np.arange(least, last + 1, dtype=_np.int32)
    answers = _np.empty_like(days)
    move(days, answers)

    def move_piece(_: slice, starts: Any, moved: Any) -> None:
        _np.take(answers, starts - _np.int32(least), mode="clip", out=moved)
        moved[starts == NONE] = NONE

    return move_piece


def _moved(name: str, column: Dates, by: Callable[[slice], Any]) -> Any:
    """Each date after a move by what stands in a piece: one number, or one for each date."""
    return _moved_by(column, lambda piece, starts, moved: _call(name, starts, by(piece), moved))


def add_days(dates: Any, days: Any) -> Any:
    """Returns the date that many days later, or earlier if negative. days is a whole number, or one for each date.

    A time of day stays the same.
    """
    column = Dates(dates)
    if _np.ndim(days):
        return _moved("add_days_each", column, small_of("days", days, _np.int32, column.shape))
    number = whole("days", days)
    return _moved("add_days", column, lambda _: number)


def add_months(dates: Any, months: SupportsIndex) -> Any:
    """Returns the date that many months later, or earlier if negative. If that month is too short, returns its last day.

    A time of day stays the same.
    """
    number = whole("months", months)
    return _moved("add_months", Dates(dates), lambda _: number)


def first_on(dates: Any, weekdays: Iterable[SupportsIndex]) -> Any:
    """Returns the first date, from each on, that has one of the weekdays; ValueError if weekdays is empty."""
    chosen = {_calendar.days_until([it], 1) for it in weekdays}
    if not chosen:
        raise ValueError("no weekday is given")
    number = sum(1 << it for it in chosen)
    return _moved("first_on", Dates(dates), lambda _: number)


def _pair(dates: Any, others: Any) -> tuple[Dates, Dates]:
    """Two columns of one shape; a TypeError if only one of them is datetime64."""
    shape = _np.broadcast_shapes(_np.shape(dates), _np.shape(others))
    column, other = Dates(dates, shape), Dates(others, shape)
    kinds = column.layout.dtype, other.layout.dtype
    if (kinds[0].kind == "M") != (kinds[1].kind == "M"):
        raise TypeError(f"dates of {kinds[0]} are not compared with dates of {kinds[1]}")
    return column, other


def days_between(dates: Any, bases: Any) -> Any:
    """Returns the days from each base to the date at its place. One of the two may be a single date.

    The days are timedelta64[D] if both are datetime64, and int32 if neither is. Times of day do not count.
    """
    column, base = _pair(dates, bases)
    is_time = column.layout.dtype.kind == "M"
    out = _np.empty(column.size, _np.int64 if is_time else _np.int32)
    for piece in column.pieces():
        days = _np.empty(piece.stop - piece.start, _np.int32)
        _call("days_between", column.numbers(piece), base.numbers(piece), days)
        out[piece] = days
        if is_time and days.min(initial=0) == NONE:
            out[piece][days == NONE] = NAT
    return (out.view("m8[D]") if is_time else out).reshape(column.shape)


def _made_of(dtype: Any) -> Layout:
    """How an array that is made anew holds dates; each has no time of day."""
    layout = layout_of(_np.dtype(dtype))
    if layout.dtype != _np.dtype(dtype):
        raise TypeError(f"dates are not written as {_np.dtype(dtype)}")
    return layout


def _new(layout: Layout, shape: Any, number: Callable[[slice], Any]) -> Any:
    """An array of dates without a time of day, from a function that answers the day numbers of a piece."""
    out = _np.empty(_np.prod(shape, dtype=_np.int64), layout.dtype)
    for piece in pieces(out.size):
        layout.put(number(piece), out[piece])
    return out.reshape(shape)


def from_fields(years: Any, months: Any, days: Any, dtype: Any = "M8[D]") -> Any:
    """Returns the date of each year, month and day of the month. Each may be an array, or one number for all."""
    layout, shape = _made_of(dtype), _np.broadcast_shapes(*(_np.shape(it) for it in (years, months, days)))
    parts = (
        small_of("years", years, _np.int32, shape), small_of("months", months, _np.uint8, shape), small_of("days", days, _np.uint8, shape),
    )

    def names(piece: slice) -> Any:
        found = _np.empty(piece.stop - piece.start, _np.int32)
        _call("join", *(it(piece) for it in parts), found)
        return found

    return _new(layout, shape, names)


def _bytes_of(texts: Any) -> Any:
    """Texts as ten bytes each; a text of another length, or with another character than ASCII's, becomes ten that are no date's."""
    width = texts.dtype.itemsize // (4 if texts.dtype.kind == "U" else 1)
    if texts.dtype == f"S{TEXT}":
        return _np.require(texts, requirements="CA")
    letters = _np.require(texts, requirements="CA").view(_np.uint32 if texts.dtype.kind == "U" else _np.uint8)
    letters = letters.reshape(-1, width) if width else _np.zeros((texts.size, 1), _np.uint8)
    is_whole = (letters[:, :TEXT] < 128).all(axis=1) & ~letters[:, TEXT:].any(axis=1)
    found = _np.zeros((texts.size, TEXT), _np.uint8)
    found[:, : letters.shape[1]] = letters[:, :TEXT]
    found[~is_whole] = 0
    return found.reshape(-1).view(f"S{TEXT}")


def _texts_of(texts: Any) -> Any:
    """An array of texts; a TypeError if it is none."""
    column = array_of(texts)
    if column.dtype.kind not in "SU":
        raise TypeError(f"texts are bytes or str, not {column.dtype}")
    return column


def from_texts(texts: Any, dtype: Any = "M8[D]") -> Any:
    """Returns the date that each text writes as YYYY-MM-DD, in the years 0 to 9999. An element of another text is no date.

    texts is an array of bytes (S) or of Unicode (U); that of S10 is read fastest.
    """
    layout, column = _made_of(dtype), _texts_of(texts)
    flat = column.reshape(-1)

    def read(piece: slice) -> Any:
        found = _np.empty(piece.stop - piece.start, _np.int32)
        _call("read_dates", _bytes_of(flat[piece]), found)
        return found

    return _new(layout, column.shape, read)


# ---- days since 1970


def unix_days(dates: Any) -> Any:
    """Returns the days from 1 January 1970 to each date as int32, which is date32 of Arrow; -2147483648 for no date."""
    column = Dates(dates)
    out = _np.empty(column.size, _np.int32)
    for piece in column.pieces():
        _call("to_date32", column.numbers(piece), out[piece])
    return out.reshape(column.shape)


def from_unix_days(days: Any, dtype: Any = "M8[D]") -> Any:
    """Returns the date of each number of days since 1 January 1970, such as date32 of Arrow has them."""
    values, layout = array_of(days), _made_of(dtype)
    parts = small_of("days", values, values.dtype if values.dtype == _np.int32 else _np.int64, values.shape)

    def read(piece: slice) -> Any:
        part = parts(piece)
        found = _np.empty(part.size, _np.int32)
        _call("from_date32" if part.dtype == _np.int32 else "from_unix_days", part, found)
        return found

    return _new(layout, values.shape, read)


# ---- open days and day counts


@functools.lru_cache(maxsize=16)
def _closed_on(calendar: Any) -> tuple[int, Any]:
    """The weekend of a calendar as a set, and the day numbers of its holidays."""
    weekend = sum(1 << (it - 1) for it in calendar.weekend)
    return weekend, _np.array([it.number for it in calendar.holidays], _np.int32)


def _closed(calendar: Any) -> tuple[int, Any]:
    """The same; a TypeError if it is no calendar."""
    if not isinstance(calendar, _calendar.BusinessCalendar):
        raise TypeError(f"a BusinessCalendar is wanted, not {type(calendar).__name__}")
    return _closed_on(calendar)


def _are_dates(numbers: Any) -> Any:
    """Which day numbers are those of dates."""
    return (numbers >= _calendar.Date.min.number) & (numbers <= _calendar.Date.max.number)


def _has_years(calendar: Any) -> bool:
    """Whether the holidays of a calendar are known of some years alone."""
    return calendar.first_year is not None or calendar.last_year is not None


def _years_of(calendar: Any) -> tuple[int, int]:
    """The first and the last of these years; of a calendar without years those of 32 bits."""
    first, last = calendar.first_year, calendar.last_year
    return -2**31 if first is None else first, 2**31 - 1 if last is None else last


def _call_open(name: str, calendar: Any, *arguments: Any) -> None:
    """Calls a function for columns of open days by a calendar, in its years if it has some."""
    if _has_years(calendar):
        _call(f"{name}_within", *_closed(calendar), *_years_of(calendar), *arguments)
    else:
        _call(name, *_closed(calendar), *arguments)


def _refuse_other_years(calendar: Any, is_other: Any) -> None:
    """Raises a ValueError if a calendar has years, and one of the answers looks at another year."""
    if _has_years(calendar) and is_other.any():
        ends = (("from", calendar.first_year), ("to", calendar.last_year))
        years = "".join(f" {word} {year}" for word, year in ends if year is not None)
        raise ValueError(f"the holidays are known{years} alone, and another year is looked at")


def _within_years(calendar: Any, move: Callable[[slice, Any, Any], None]) -> Callable[[slice, Any, Any], None]:
    """The same move, where a ValueError says that it looks at a year of which the holidays of a calendar are not known."""
    if not _has_years(calendar):
        return move

    def move_piece(piece: slice, starts: Any, moved: Any) -> None:
        move(piece, starts, moved)
        _refuse_other_years(calendar, (moved == NONE) & _are_dates(starts))

    return move_piece


def _number_of(what: str, name: str, names: tuple[str, ...]) -> int:
    """The number of a name; a ValueError if it is none of them."""
    if not isinstance(name, str):
        raise TypeError(f"the name of a {what} is wanted, not {type(name).__name__}")
    if name not in names:
        raise ValueError(f"there is no {what} {name!r}")
    return names.index(name)


def is_open(dates: Any, calendar: Any) -> Any:
    """Returns whether each element is an open day of a BusinessCalendar, as bool. What is no date is not open.

    As in each function of open days, an answer that looks at a year of which the holidays are not known is a ValueError.
    """
    column, _ = Dates(dates), _closed(calendar)
    out = _np.empty(column.size, _np.bool_)
    for piece in column.pieces():
        marks = out[piece].view(_np.uint8)
        _call_open("is_open_day", calendar, column.numbers(piece), marks)
        # (2 stands for a date of another year)
        _refuse_other_years(calendar, marks == 2)
    return out.reshape(column.shape)


def add_open_days(dates: Any, days: Any, calendar: Any) -> Any:
    """Returns the open day that many open days later, or earlier if negative. days is a whole number, or one for each date.

    From a closed day the next open day counts as the first. If days is 0, returns the first open day from the date on. A time of
    day stays the same.
    """
    column, (weekend, holidays) = Dates(dates), _closed(calendar)
    if not _np.ndim(days):
        number = ctypes.c_int64(whole("days", days))
        move = _by_day(column, lambda starts, moved: _call_open("add_open_days", calendar, starts, number, moved))
        return _moved_by(column, _within_years(calendar, move))
    steps = small_of("days", days, _np.int64, column.shape)
    closed = weekend, holidays, holidays.size, *_years_of(calendar)
    return _moved_by(column, _within_years(calendar, lambda piece, starts, moved: _loop("add_open", *closed, starts, steps(piece), starts.size, moved)))


def roll(dates: Any, how: str, calendar: Any) -> Any:
    """Returns each open date, and for a closed one the open day that a roll leads to (ISDA 2006, 4.12).

    how is 'following', 'preceding', 'modified_following' or 'modified_preceding', which stay in the month, 'nearest_isda',
    'nearest_quantlib' or 'unadjusted'. A time of day stays the same.
    """
    column, _, number = Dates(dates), _closed(calendar), _number_of("roll", how, _ROLLS)
    move = _by_day(column, lambda starts, moved: _call_open("roll", calendar, starts, number, moved))
    return _moved_by(column, _within_years(calendar, move))


def open_days_between(dates: Any, ends: Any, calendar: Any) -> Any:
    """Returns how many days are open from each date on and before the end at its place, as int64; negative if the end is the earlier.

    One of the two may be a single date.
    """
    (column, end), _ = _pair(dates, ends), _closed(calendar)
    out = _np.empty(column.size, _np.int64)
    for piece in column.pieces():
        starts, ends = column.numbers(piece), end.numbers(piece)
        _call_open("open_days_between", calendar, starts, ends, out[piece])
        _refuse_other_years(calendar, (out[piece] == NAT) & _are_dates(starts) & _are_dates(ends))
    return out.reshape(column.shape)


def day_counts(dates: Any, ends: Any, kind: str) -> Fractions:
    """Returns the part of a year from each date to the end at its place, as int64 fractions; 0/0 if one of them is no date.

    kind is 'actual_actual_isda', 'actual_360', 'actual_365_fixed', 'thirty_360' or 'thirty_e_360' (ISDA 2006, 4.16).
    """
    column, end = _pair(dates, ends)
    number = _number_of("day count", kind, _DAY_COUNTS)
    parts = Fractions(_np.empty(column.size, _np.int64), _np.empty(column.size, _np.int64))
    for piece in column.pieces():
        size = piece.stop - piece.start
        _loop("day_counts", number, column.numbers(piece), end.numbers(piece), size, *(it[piece] for it in parts))
    return Fractions(*(it.reshape(column.shape) for it in parts))


def year_fractions(dates: Any, ends: Any, kind: str) -> Any:
    """Returns the same as float64, the nearest to each fraction; NaN if one of the two is no date."""
    column, end = _pair(dates, ends)
    _number_of("day count", kind, _DAY_COUNTS)
    out = _np.empty(column.size, _np.float64)
    for piece in column.pieces():
        over, under = day_counts(column.numbers(piece), end.numbers(piece), kind)
        _np.divide(over, _np.where(under, under, _np.nan), out=out[piece])
    return out.reshape(column.shape)


# ---- times


def _times_of(times: Any) -> Dates:
    """A column of times; a TypeError if its elements have no time of day."""
    column = Dates(times)
    if not isinstance(column.layout, Times):
        raise TypeError(f"times are datetime64 in h, m, s, ms, us or ns, not {column.layout.dtype}")
    return column


def _unit_of(dtype: Any) -> int:
    """How many units of a datetime64 of times make a day."""
    layout = _made_of(dtype)
    if not isinstance(layout, Times):
        raise TypeError(f"times are not written as {layout.dtype}")
    return layout.day


def next_due(times: Any, schedule: Any) -> Any:
    """Returns the first time after each at which a Schedule is due, or the cron text of one.

    times is datetime64. What is found has its type, and datetime64[m] in place of days and hours. It is NaT if there is none.
    """
    column = Dates(times)
    if column.layout.dtype.kind != "M":
        raise TypeError(f"times are datetime64, not {column.layout.dtype}")
    text = str(schedule if isinstance(schedule, _calendar.Schedule) else _calendar.Schedule(schedule)).encode()
    day = column.layout.day
    dtype = column.layout.dtype if day >= UNITS["m"] else _np.dtype("M8[m]")
    out = _np.empty(column.size, dtype)
    for piece in column.pieces():
        part = flat64(column.values[piece])
        _loop("next_due", text, part, part.size, day, max(day, UNITS["m"]), out[piece].view(_np.int64))
    return out.reshape(column.shape)


def offsets(times: Any, zone: _datetime.tzinfo) -> Any:
    """Returns how far the clock of a time zone is ahead of UTC at each time of UTC, as timedelta64[s].

    zone is a tzinfo, such as ZoneInfo('Europe/Berlin'). It is asked at most once for each different second of 32,768 times. A ZoneInfo
    is asked at the first and the last of them in each day; only if it then answers differently, so that its clock is changed in between,
    it is asked at all. No zone changes its clock twice in a day. Where a clock shows no year from 1 to 9999, the offset is NaT.
    """
    column = _times_of(times)
    if not isinstance(zone, _datetime.tzinfo):
        raise TypeError(f"a time zone is a tzinfo, not {type(zone).__name__}")
    out, unit = _np.empty(column.size, "M8[s]").view("m8[s]"), column.layout.day
    for piece in column.pieces():
        part = flat64(column.values[piece])
        # (an hour further away is of no year of four digits)
        seconds = part // (unit // 86_400) if unit >= 86_400 else _np.clip(part, -(2**40), 2**40) * (86_400 // unit)
        different, places = _np.unique(_np.where(part == NAT, NAT, seconds), return_inverse=True)
        out[piece] = _offsets_at(zone, different).view("m8[s]")[places]
    return out.reshape(column.shape)


def _offsets_at(zone: _datetime.tzinfo, seconds: Any) -> Any:
    """The same at each of some seconds, which rise."""
    if type(zone) is not _zoneinfo.ZoneInfo or seconds.size == 0:
        return _asked_at(zone, seconds)
    days = seconds // 86_400
    firsts = _np.flatnonzero(_np.append(True, days[1:] != days[:-1]))
    ends = _np.append(firsts[1:], seconds.size)
    at_first = _asked_at(zone, seconds[firsts])
    found = _np.repeat(at_first, ends - firsts)
    several = _np.flatnonzero(ends - firsts > 1)
    for day in several[_asked_at(zone, seconds[ends[several] - 1]) != at_first[several]].tolist():
        found[firsts[day]:ends[day]] = _asked_at(zone, seconds[firsts[day]:ends[day]])
    return found


def _asked_at(zone: _datetime.tzinfo, seconds: Any) -> Any:
    """The same, for which the zone is asked at each second."""
    return _np.array([_offset_at(zone, it) for it in seconds.tolist()], _np.int64)


def _offset_at(zone: _datetime.tzinfo, second: int) -> int:
    """The seconds by which a clock is ahead at a second since 1970, or NAT."""
    if not _FIRST_SECOND <= second <= _LAST_SECOND:
        return NAT
    try:
        ahead = _datetime.datetime.fromtimestamp(second, zone).utcoffset()
    except OverflowError:
        return NAT
    if ahead is None or ahead.microseconds:
        return NAT if ahead is None else round(ahead.total_seconds())
    return ahead.days * 86_400 + ahead.seconds


def time_texts(times: Any) -> Any:
    """Returns the text of each time as bytes (S32), such as b'2024-02-29T09:30:00.500'; b'' for none.

    A fraction has three, six or nine digits, the fewest that hold it. `time_texts(times).astype(str)` makes texts of Python.
    """
    column = _times_of(times)
    out = _np.empty(column.size, f"S{_TIME_TEXT}")
    for piece in column.pieces():
        part = flat64(column.values[piece])
        _loop("write_times", part, part.size, column.layout.day, out[piece])
    return out.reshape(column.shape)


def _ascii_of(texts: Any) -> Any:
    """Texts of str as bytes; one with another character than ASCII's becomes empty."""
    width = texts.dtype.itemsize // 4
    if width == 0:
        return _np.zeros(texts.size, "S1")
    letters = _np.require(texts, requirements="CA").view(_np.uint32).reshape(-1, width)
    found = letters.astype(_np.uint8)
    found[(letters > 127).any(axis=1)] = 0
    return found.reshape(-1).view(f"S{width}")


def from_time_texts(texts: Any, dtype: Any = "M8[ns]") -> Any:
    """Returns the time that each text writes, as time_texts writes it, also with a space in place of T.

    NaT stands for another text, a leap second, and a time that the type cannot hold, as one of 1600 in nanoseconds.
    """
    day, column = _unit_of(dtype), _texts_of(texts)
    out = _np.empty(column.size, dtype)
    flat = column.reshape(-1)
    for piece in pieces(out.size):
        part = _ascii_of(flat[piece]) if flat.dtype.kind == "U" else _np.require(flat[piece], requirements="CA")
        _loop("read_times", part, part.dtype.itemsize, part.size, day, out[piece].view(_np.int64))
    return out.reshape(column.shape)
