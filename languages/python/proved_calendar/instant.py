"""Instants."""
from __future__ import annotations

import datetime
import time as c_time
from typing import TYPE_CHECKING, Any, ClassVar, SupportsIndex, overload

from ._calendar import DateTime, Duration
from ._zoned import from_utc, length_asked, wanted

if TYPE_CHECKING:
    from typing_extensions import Self


class Instant:
    """A point in time, to the nanosecond, whatever a clock shows there.

    Instant(seconds, nanos=0) is so many seconds after 1970-01-01T00:00:00Z.

    >>> Instant.fromisoformat('2024-07-01T12:00:00+02:00') + Duration(hours=1)
    Instant.fromisoformat('2024-07-01T11:00:00Z')

    It is kept as the DateTime that UTC shows. So it can lie in a leap second, and sums and differences are those of DateTime. The
    class itself is written in Python.
    """

    __slots__ = ("_utc",)
    _utc: DateTime

    min: ClassVar[Instant]
    max: ClassVar[Instant]
    resolution: ClassVar[Duration]

    def __new__(cls, seconds: SupportsIndex, nanos: SupportsIndex = 0) -> Self:
        return cls._of(DateTime.from_seconds(seconds, nanos))

    @classmethod
    def _of(cls, utc: DateTime) -> Self:
        self = object.__new__(cls)
        object.__setattr__(self, "_utc", utc)
        return self

    def __setattr__(self, name: str, value: object) -> None:
        raise AttributeError(f"an {type(self).__name__} cannot be changed")

    def __delattr__(self, name: str) -> None:
        raise AttributeError(f"an {type(self).__name__} cannot be changed")

    @classmethod
    def now(cls) -> Self:
        """Returns the instant of now, to the nanosecond."""
        return cls(*divmod(c_time.time_ns(), 10**9))

    @classmethod
    def fromtimestamp(cls, timestamp: SupportsIndex | float, /) -> Self:
        """Returns the instant of a POSIX timestamp, rounded to a microsecond."""
        return cls._of(DateTime.utcfromtimestamp(timestamp))

    @classmethod
    def from_datetime(cls, moment: DateTime | datetime.datetime, /) -> Self:
        """Returns the instant of a date-time with a time zone; ValueError without one."""
        ours = moment if isinstance(moment, DateTime) else DateTime.from_datetime(moment)
        offset = length_asked(ours, "utcoffset")
        if offset is None:
            raise ValueError("the date-time has no time zone, so it is no instant")
        return cls._of(ours.replace(tzinfo=None, fold=0) - offset)

    @classmethod
    def fromisoformat(cls, text: str, /) -> Self:
        """Returns the instant of a text of a date-time with an offset, such as 2024-02-29T12:00:00Z."""
        moment = DateTime.fromisoformat(text)
        if moment.tzinfo is None:
            raise ValueError(f"{text!r} has no offset, so it is no instant")
        return cls.from_datetime(moment)

    @property
    def seconds(self) -> int:
        """The seconds since 1970-01-01T00:00:00Z, without leap seconds."""
        return self._utc.seconds

    @property
    def nanos(self) -> int:
        """The nanoseconds after them. 1,000,000,000 or more lie in the leap second that follows."""
        return self._utc.nanos

    def timestamp(self) -> float:
        """Returns the POSIX timestamp."""
        return (self._utc.seconds * 10**9 + self._utc.nanosecond) / 10**9

    def astimezone(self, tz: datetime.tzinfo, /) -> DateTime:
        """Returns the date-time that a time zone's clock shows.

        >>> import zoneinfo
        >>> print(Instant(1_719_828_000).astimezone(zoneinfo.ZoneInfo('Europe/Berlin')))
        2024-07-01T12:00:00+02:00
        """
        if wanted(tz) is None:
            raise TypeError("a tzinfo is wanted, not None")
        moment: DateTime = from_utc(self._utc, tz)
        return moment

    def isoformat(self) -> str:
        """Returns the instant as the date-time of UTC, with a Z."""
        return f"{self._utc.isoformat()}Z"

    def __str__(self) -> str:
        return self.isoformat()

    def __repr__(self) -> str:
        return f"{type(self).__name__}.fromisoformat({self.isoformat()!r})"

    def __format__(self, format: str, /) -> str:
        return str.__format__(str(self), format)

    def __add__(self, length: Duration | datetime.timedelta) -> Self:
        if not isinstance(length, (Duration, datetime.timedelta)):
            return NotImplemented
        return type(self)._of(self._utc + length)

    __radd__ = __add__

    @overload
    def __sub__(self, other: Instant) -> Duration: ...

    @overload
    def __sub__(self, other: Duration | datetime.timedelta) -> Self: ...

    def __sub__(self, other: Instant | Duration | datetime.timedelta) -> Duration | Self:
        if isinstance(other, Instant):
            return self._utc - other._utc
        if not isinstance(other, (Duration, datetime.timedelta)):
            return NotImplemented
        return type(self)._of(self._utc - other)

    def __eq__(self, other: object) -> bool:
        if not isinstance(other, Instant):
            return NotImplemented
        return self._utc == other._utc

    def __lt__(self, other: Instant) -> bool:
        if not isinstance(other, Instant):
            return NotImplemented
        return self._utc < other._utc

    def __le__(self, other: Instant) -> bool:
        if not isinstance(other, Instant):
            return NotImplemented
        return self._utc <= other._utc

    def __gt__(self, other: Instant) -> bool:
        if not isinstance(other, Instant):
            return NotImplemented
        return self._utc > other._utc

    def __ge__(self, other: Instant) -> bool:
        if not isinstance(other, Instant):
            return NotImplemented
        return self._utc >= other._utc

    def __hash__(self) -> int:
        return hash((Instant, self._utc))

    def __reduce__(self) -> tuple[Any, ...]:
        return type(self), (self.seconds, self.nanos)


Instant.min, Instant.max, Instant.resolution = Instant._of(DateTime.min), Instant._of(DateTime.max), Duration(nanoseconds=1)
