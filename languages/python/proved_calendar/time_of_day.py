"""Times of day."""
from __future__ import annotations

import datetime
from typing import TYPE_CHECKING, Any, ClassVar, SupportsIndex

from ._calendar import Date, DateTime, Duration
from ._texts import clock_of_text

if TYPE_CHECKING:
    from typing_extensions import Self

# What stands for a part that is left out.
_LEFT: Any = ...
# The date that stands for every date where only the time of day counts.
_DAY = Date(1970, 1, 1)


_ENDS = ("MIN", "MAX", "min", "max", "resolution")


def attributes(of: object) -> list[str]:
    """Returns the names of a value's attributes, for dir, without the ends of its type and a time zone.

    Each end has ends again, and so has datetime.timezone. So pandas, which writes all attributes as JSON, would come to no end.
    """
    left_out = _ENDS if getattr(of, "tzinfo", None) is None else (*_ENDS, "tzinfo")
    return [it for it in object.__dir__(of) if it not in left_out]


class Time:
    """A time of day, to the nanosecond, in no time zone.

    Time(hour=0, minute=0, second=0, microsecond=0)

    >>> Time(23, 59, 60) > Time(23, 59, 59, nanosecond=999_999_999)
    True

    It also takes nanosecond by name. Each of the two is the whole fraction, so one of them can be given. The second is 60 in a leap
    second. A Time is equal to the datetime.time of the same time that has no time zone, with the same hash. What it shows comes from
    a DateTime; the class itself is written in Python.
    """

    __slots__ = ("_moment",)
    __match_args__ = ("hour", "minute", "second", "nanosecond")
    _moment: DateTime

    min: ClassVar[Time]
    max: ClassVar[Time]
    resolution: ClassVar[Duration]

    def __new__(
        cls, hour: SupportsIndex = 0, minute: SupportsIndex = 0, second: SupportsIndex = 0, microsecond: SupportsIndex = _LEFT,
        *, nanosecond: SupportsIndex = _LEFT,
    ) -> Self:
        fraction: dict[str, Any] = {"microsecond": microsecond, "nanosecond": nanosecond}
        return cls._of(DateTime(_DAY, hour, minute, second, **{name: it for name, it in fraction.items() if it is not _LEFT}))

    @classmethod
    def _of(cls, moment: DateTime) -> Self:
        self = object.__new__(cls)
        object.__setattr__(self, "_moment", moment)
        return self

    def __setattr__(self, name: str, value: object) -> None:
        raise AttributeError(f"a {type(self).__name__} cannot be changed")

    def __delattr__(self, name: str) -> None:
        raise AttributeError(f"a {type(self).__name__} cannot be changed")

    @classmethod
    def from_time(cls, time: datetime.time, /) -> Self:
        """Returns the time equal to a datetime.time without time zone."""
        if not isinstance(time, datetime.time):
            raise TypeError(f"a datetime.time is wanted, not {type(time).__name__}")
        if time.tzinfo is not None:
            raise ValueError("the time has a time zone, and a Time has none")
        return cls(time.hour, time.minute, time.second, time.microsecond)

    @classmethod
    def fromisoformat(cls, text: str, /) -> Self:
        """Returns the time of day with this text, in any form that datetime reads. A text with an offset raises ValueError.

        >>> Time.fromisoformat('12:30') == Time.fromisoformat('T123000.000') == Time(12, 30)
        True
        """
        if not isinstance(text, str):
            raise TypeError(f"a str is wanted, not {type(text).__name__}")
        clock = clock_of_text(text)
        if clock is None:
            raise ValueError(f"{text!r} is no text of a time of day")
        moment = DateTime.fromisoformat(f"{_DAY}T{clock}")
        return cls(moment.hour, moment.minute, moment.second, nanosecond=moment.nanosecond)

    @property
    def hour(self) -> int:
        """The hour, from 0 to 23."""
        return self._moment.hour

    @property
    def minute(self) -> int:
        """The minute of the hour, from 0 to 59."""
        return self._moment.minute

    @property
    def second(self) -> int:
        """The second of the minute, from 0 to 59, or 60 in a leap second."""
        return self._moment.second

    @property
    def microsecond(self) -> int:
        """The whole microseconds after the second, from 0 to 999,999."""
        return self._moment.microsecond

    @property
    def nanosecond(self) -> int:
        """The nanoseconds after the second, from 0 to 999,999,999."""
        return self._moment.nanosecond

    @property
    def second_of_day(self) -> int:
        """The second of the day, from 0 to 86,399. A leap second has the number of the second before it."""
        return self._moment.second_of_day

    @property
    def tzinfo(self) -> None:
        """None: a Time has no time zone."""
        return None

    def replace(
        self, hour: SupportsIndex = _LEFT, minute: SupportsIndex = _LEFT, second: SupportsIndex = _LEFT, *,
        microsecond: SupportsIndex = _LEFT, nanosecond: SupportsIndex = _LEFT,
    ) -> Self:
        """Returns the time with these parts in place of its own; ValueError if there is none."""
        given: dict[str, Any] = {"hour": hour, "minute": minute, "second": second, "microsecond": microsecond, "nanosecond": nanosecond}
        moment = self._moment.replace(**{name: it for name, it in given.items() if it is not _LEFT})
        return type(self)(moment.hour, moment.minute, moment.second, nanosecond=moment.nanosecond)

    def isoformat(self, timespec: str = "auto") -> str:
        """Returns the time as HH:MM:SS, with a fraction of three, six or nine digits if it is not 0; or as DateTime.isoformat says."""
        return self._moment.isoformat(timespec=timespec)[11:]

    def strftime(self, format: str, /) -> str:
        """Returns the time as a format of time.strftime says, with the date 1 January 1970."""
        return self._moment.strftime(format)

    def to_time(self) -> datetime.time:
        """Returns the same time as a datetime.time; ValueError in a leap second or for a fraction of a microsecond."""
        return self._moment.to_datetime().time()

    def __str__(self) -> str:
        return self.isoformat()

    def __repr__(self) -> str:
        parts = [self.hour, self.minute, *[it for it in (self.second,) if it or self.nanosecond]]
        fraction = f", nanosecond={self.nanosecond}" if self.nanosecond else ""
        return f"{type(self).__name__}({', '.join(map(str, parts))}{fraction})"

    def __format__(self, format: str, /) -> str:
        return self.strftime(format) if "%" in format else str.__format__(str(self), format)

    def _compared(self, other: object) -> DateTime | None:
        """Another time as a date-time of the same day, or None if it is no time without time zone."""
        if isinstance(other, Time):
            return other._moment
        if isinstance(other, datetime.time) and other.tzinfo is None:
            return Time.from_time(other)._moment
        return None

    def __eq__(self, other: object) -> bool:
        moment = self._compared(other)
        if moment is None:
            return NotImplemented
        return self._moment == moment

    def __lt__(self, other: Time | datetime.time) -> bool:
        moment = self._compared(other)
        if moment is None:
            return NotImplemented
        return self._moment < moment

    def __le__(self, other: Time | datetime.time) -> bool:
        moment = self._compared(other)
        if moment is None:
            return NotImplemented
        return self._moment <= moment

    def __gt__(self, other: Time | datetime.time) -> bool:
        moment = self._compared(other)
        if moment is None:
            return NotImplemented
        return self._moment > moment

    def __ge__(self, other: Time | datetime.time) -> bool:
        moment = self._compared(other)
        if moment is None:
            return NotImplemented
        return self._moment >= moment

    def __hash__(self) -> int:
        is_theirs = self.second < 60 and self.nanosecond % 1_000 == 0
        return hash(self.to_time()) if is_theirs else hash(self._moment)

    __dir__ = attributes

    def __reduce__(self) -> tuple[Any, ...]:
        return _again, (type(self), self.hour, self.minute, self.second, self.nanosecond)


def _again(kind: type[Time], hour: int, minute: int, second: int, nanosecond: int) -> Time:
    """The time that was pickled."""
    return kind(hour, minute, second, nanosecond=nanosecond)


Time.min, Time.max, Time.resolution = Time(), Time(23, 59, 59, nanosecond=999_999_999), Duration(nanoseconds=1)
