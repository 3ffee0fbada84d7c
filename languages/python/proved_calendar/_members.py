"""Members of Date, DateTime and Duration that are written in Python: the clock, and formats by the C library's strftime.

What a date is called comes from the proved functions; nothing else here is proved. Each class below gives its members to the type
of its name.
"""
import datetime
import re
import time as c_time
from collections.abc import Callable
from typing import Any

from . import _calendar
from ._texts import iso_text_of_duration, nanoseconds_of_text, ratio_of, rounded, text_of_offset
from ._zoned import asked, from_utc, length_asked, of_timestamp, timestamp_of_local, utc_of, wanted
from .time_of_day import Time, attributes

_DAYS = ("Mon", "Tue", "Wed", "Thu", "Fri", "Sat", "Sun")
_MONTHS = ("Jan", "Feb", "Mar", "Apr", "May", "Jun", "Jul", "Aug", "Sep", "Oct", "Nov", "Dec")
_EPOCH = _calendar.DateTime(1970, 1, 1)
# What stands for an argument that is left out.
_LEFT: Any = ...

# Directives that C's library lacks, or that it writes otherwise for some years.
_OWN = re.compile("%([%fzZYGyCF])")


def _microseconds(timestamp: Any) -> int:
    """The whole microseconds of a POSIX timestamp, rounded as datetime does."""
    over, under = ratio_of(timestamp)
    return rounded(over * 10**6, under)


def _year_text(year: int) -> str:
    return f"{year:04}" if 0 <= year <= 9999 else f"{year:+05}"


def _offset_text(date: Any) -> str:
    """The offset from UTC without colons; empty without a time zone."""
    offset = date.utcoffset() if isinstance(date, _calendar.DateTime) else None
    return "" if offset is None else text_of_offset(offset).replace(":", "")


def _zone_text(date: Any) -> str:
    """The name of the time zone; empty without one."""
    name = date.tzname() if isinstance(date, _calendar.DateTime) else None
    shown = "" if name is None else name.replace("%", "%%")
    if not isinstance(shown, str):
        raise TypeError("tzinfo.tzname() answers None or a str")
    return shown


# The text of each of them for a date and a fraction of a second.
_DIRECTIVES: dict[str, Callable[[Any, int], str]] = {
    "%": lambda date, fraction: "%%", "f": lambda date, fraction: f"{fraction // 1_000:06}",
    "z": lambda date, fraction: _offset_text(date), "Z": lambda date, fraction: _zone_text(date),
    "Y": lambda date, fraction: _year_text(date.year), "G": lambda date, fraction: _year_text(date.isocalendar().year),
    "y": lambda date, fraction: f"{date.year % 100:02}", "C": lambda date, fraction: f"{date.year // 100:02}",
    "F": lambda date, fraction: f"{_year_text(date.year)}-{date.month:02}-{date.day:02}",
}


def _formatted(date: Any, format: str, fraction: int) -> str:
    """The text of a date or date-time by a format of time.strftime."""
    if not isinstance(format, str):
        raise TypeError(f"a format must be str, not {type(format).__name__}")

    moment: c_time.struct_time = date.timetuple()
    return c_time.strftime(_OWN.sub(lambda found: _DIRECTIVES[found[1]](date, fraction), format), moment)


def _named(date: Any, clock: tuple[int, int, int], saving: int = -1) -> c_time.struct_time:
    ordinal = _calendar.Date.fromordinal(date.toordinal()).ordinal
    return c_time.struct_time((date.year, date.month, date.day, *clock, date.weekday(), ordinal, saving))


def _shown(date: Any, clock: str) -> str:
    return f"{_DAYS[date.weekday()]} {_MONTHS[date.month - 1]} {date.day:2} {clock} {_year_text(date.year)}"


def _day_of(date: Any) -> _calendar.Date:
    """The Date of a date or of a date-time, of this package or of datetime."""
    if isinstance(date, _calendar.Date):
        return date
    if isinstance(date, _calendar.DateTime):
        return date.date
    if isinstance(date, datetime.date):
        return _calendar.Date.from_date(date.date() if isinstance(date, datetime.datetime) else date)
    raise TypeError(f"a Date or a datetime.date is wanted, not {type(date).__name__}")


class Date:
    @classmethod
    def today(cls: Any) -> Any:
        """Returns the local date of today."""
        return cls.fromtimestamp(c_time.time())

    @classmethod
    def fromtimestamp(cls: Any, timestamp: Any, /) -> Any:
        """Returns the local date of a POSIX timestamp."""
        local = c_time.localtime(_microseconds(timestamp) // 10**6)
        return cls(local.tm_year, local.tm_mon, local.tm_mday)

    def timetuple(self) -> c_time.struct_time:
        """Returns the date as a time.struct_time, at midnight."""
        return _named(self, (0, 0, 0))

    def ctime(self) -> str:
        """Returns the date as C's ctime writes it.

        >>> Date(2024, 2, 29).ctime()
        'Thu Feb 29 00:00:00 2024'
        """
        return _shown(self, "00:00:00")

    def strftime(self, format: str, /) -> str:
        """Returns the date as a format of time.strftime says. %Y has at least four digits, and a sign outside 0 to 9999.

        >>> Date(2024, 2, 29).strftime('%d/%m/%Y')
        '29/02/2024'
        """
        return _formatted(self, format, 0)


class DateTime:
    @classmethod
    def fromordinal(cls: Any, number: Any, /) -> Any:
        """Returns midnight of the date with this day number."""
        return cls(_calendar.Date.fromordinal(number))

    @classmethod
    def fromisocalendar(cls: Any, year: Any, week: Any, day: Any) -> Any:
        """Returns midnight of the date of an ISO year, week and weekday."""
        return cls(_calendar.Date.from_iso_week(year, week, day))

    @classmethod
    def combine(cls: Any, date: Any, time: Any, tzinfo: Any = _LEFT) -> Any:
        """Returns the date-time of a date, or of the date of a date-time, and a time, in a time zone if one is given.

        >>> DateTime.combine(Date(2024, 2, 29), Time(12, 30)) == DateTime(2024, 2, 29, 12, 30)
        True

        Each may be datetime's. The zone of a datetime.time is taken if no other is given, and its fold always.
        """
        fold, zone = 0, None
        if isinstance(time, datetime.time):
            fold, zone, time = time.fold, time.tzinfo, Time.from_time(time.replace(tzinfo=None))
        if not isinstance(time, Time):
            raise TypeError(f"a Time or a datetime.time is wanted, not {type(time).__name__}")
        zoning = {"tzinfo": zone if tzinfo is _LEFT else tzinfo, "fold": fold or None}
        given = {name: it for name, it in zoning.items() if it is not None}
        return cls(_day_of(date), time.hour, time.minute, time.second, nanosecond=time.nanosecond, **given)

    @classmethod
    def now(cls: Any, tz: Any = None) -> Any:
        """Returns the time of now, local or in a time zone, in whole microseconds."""
        return cls.fromtimestamp(c_time.time(), tz)

    @classmethod
    def today(cls: Any) -> Any:
        """The same as now, by another name of datetime's."""
        return cls.now()

    @classmethod
    def utcnow(cls: Any) -> Any:
        """Returns the time of now in UTC, in whole microseconds."""
        return cls.utcfromtimestamp(c_time.time())

    @classmethod
    def fromtimestamp(cls: Any, timestamp: Any, /, tz: Any = None) -> Any:
        """Returns the time of a POSIX timestamp, local or in a time zone, rounded to a microsecond."""
        if wanted(tz) is None:
            return of_timestamp(cls, _microseconds(timestamp))
        return from_utc(cls.utcfromtimestamp(timestamp), tz)

    @classmethod
    def utcfromtimestamp(cls: Any, timestamp: Any, /) -> Any:
        """Returns the time in UTC of a POSIX timestamp, rounded to a microsecond."""
        moment = _EPOCH + _calendar.Duration(microseconds=_microseconds(timestamp))
        return cls(moment.date, moment.hour, moment.minute, moment.second, moment.nanosecond)

    @classmethod
    def strptime(cls: Any, text: str, format: str, /) -> Any:
        """Returns the date-time that datetime.datetime.strptime reads, in the years 1 to 9999."""
        return cls.from_datetime(datetime.datetime.strptime(text, format))

    @property
    def time(self: Any) -> Time:
        """The time of day."""
        return Time(self.hour, self.minute, self.second, nanosecond=self.nanosecond)

    def timetuple(self: Any) -> c_time.struct_time:
        """Returns the date-time as a time.struct_time."""
        saving = self.dst()
        return _named(self, (self.hour, self.minute, self.second), -1 if saving is None else int(bool(saving)))

    def utctimetuple(self: Any) -> c_time.struct_time:
        """Returns what UTC shows as a time.struct_time; without a time zone, what the date-time shows."""
        utc = self if self.utcoffset() is None else utc_of(self)
        return _named(utc, (utc.hour, utc.minute, utc.second), 0)

    def dst(self) -> _calendar.Duration | None:
        """Returns how far the time zone's clock is put ahead, as in summer, or None if it does not say."""
        return length_asked(self, "dst")

    def tzname(self) -> Any:
        """Returns the name of the time zone's time, such as CEST, or None without a time zone."""
        return asked(self, "tzname")

    def round(self: Any, length: Any, /) -> Any:
        """Returns the date-time at the nearest multiple of a length after midnight, and of two at the later one.

        >>> print(DateTime(2024, 2, 29, 12, 34, 56).round(Duration(minutes=15)))
        2024-02-29T12:30:00

        The length is a Duration or a timedelta that divides a day. What the clock shows is rounded, and the time zone and the fold stay. A
        leap second is rounded as the end of the second before it.
        """
        span = (length if isinstance(length, _calendar.Duration) else _calendar.Duration.from_timedelta(length)).nanoseconds
        if span <= 0 or _calendar.Duration(days=1).nanoseconds % span:
            raise ValueError(f"{length}: a length that divides a day is wanted")
        passed = 10**9 * self.second_of_day + min(self.nanos, 10**9 - 1)
        past_midnight = _calendar.Duration(nanoseconds=(2 * passed + span) // (2 * span) * span)
        moment = self.replace(hour=0, minute=0, second=0, nanosecond=0) + past_midnight
        return moment.replace(fold=self.fold) if self.fold else moment

    def timestamp(self: Any) -> float:
        """Returns the POSIX timestamp. Without a time zone it is that of the local time, by the fold where that comes twice."""
        utc = utc_of(self) if self.utcoffset() is not None else None
        whole: int = timestamp_of_local(self) if utc is None else utc.seconds
        nanosecond: int = self.nanosecond if utc is None else utc.nanosecond
        return (whole * 10**9 + nanosecond) / 10**9

    def ctime(self: Any) -> str:
        """Returns the date-time as C's ctime writes it."""
        return _shown(self, f"{self.hour:02}:{self.minute:02}:{self.second:02}")

    def strftime(self: Any, format: str, /) -> str:
        """Returns the date-time as a format of time.strftime says. %f has six digits. Without a zone %z and %Z are empty.

        >>> DateTime(2024, 2, 29, 12, 30).strftime('%H.%M on %d %b')
        '12.30 on 29 Feb'
        """
        return _formatted(self, format, self.nanosecond)


class Duration:
    @classmethod
    def fromisoformat(cls: Any, text: str, /) -> Any:
        """Returns the duration of an ISO 8601 text of weeks, days, hours, minutes and seconds.

        >>> Duration.fromisoformat('P1DT2H0.5S') == Duration(hours=26, milliseconds=500)
        True
        """
        if not isinstance(text, str):
            raise TypeError(f"a str is wanted, not {type(text).__name__}")
        return cls.from_nanoseconds(nanoseconds_of_text(text))

    def isoformat(self) -> str:
        """Returns the duration by ISO 8601, with the sign in front of it.

        >>> Duration(hours=-26, milliseconds=-500).isoformat()
        '-P1DT2H0.500S'
        """
        return iso_text_of_duration(self)

    def total_seconds(self: Any) -> float:
        """Returns the length in seconds, as the nearest float."""
        whole: int = self.nanoseconds
        return whole / 10**9


def _extend(kind: type, members: type, first: Any, last: Any, resolution: Any) -> None:
    """Gives a type the members of a class here, and its ends and resolution."""
    ends = {"min": first, "max": last, "resolution": resolution}
    own = {name: it for name, it in vars(members).items() if not name.startswith("__")}
    for name, it in {**own, **ends, "__dir__": attributes}.items():
        _calendar.extend(kind, name, it)


_FIRST_DAY, _LAST_DAY, _LONGEST = _calendar.Date.MIN, _calendar.Date.MAX, _calendar.Duration(milliseconds=2**63 - 1)
_NANOSECOND = _calendar.Duration(nanoseconds=1)
_extend(_calendar.Date, Date, _FIRST_DAY, _LAST_DAY, _calendar.Duration(days=1))
_extend(_calendar.DateTime, DateTime, _calendar.DateTime(_FIRST_DAY), _calendar.DateTime(_LAST_DAY, 23, 59, 59, 999_999_999), _NANOSECOND)
_extend(_calendar.Duration, Duration, -_LONGEST, _LONGEST, _NANOSECOND)
