"""Cron schedules with seconds and years."""
from __future__ import annotations

from collections.abc import Iterator
from typing import Any

from . import _calendar
from ._calendar import DateTime
from ._texts import refuse

_DIALECTS = ("crontab", "seconds", "quartz", "robfig")
_FRONTS = {6: "second, ", 7: "year, "}


class TimedSchedule:
    """A cron schedule with seconds, of a dialect.

    TimedSchedule(text, dialect='seconds')

    >>> print(TimedSchedule('*/15 30 4 * * *').next_after(DateTime(2024, 2, 9, 4, 30, 15)))
    2024-02-09T04:30:30
    >>> weekdays = TimedSchedule('0 30 4 ? * MON-FRI 2024-2026', 'quartz')
    >>> print(weekdays.prev_before(DateTime(2030, 1, 1)))
    2026-12-31T04:30:00

    'crontab' has the five fields of a Schedule, and 'seconds' has one for seconds in front. 'quartz' has weekdays from 1 for Sunday, `?`
    for one field of days, and years behind. 'robfig' has the five fields of Go's robfig/cron. Date-times have no time zone. A text that is no
    schedule raises TextError.
    """

    __slots__ = ("text", "dialect", "_parts")
    text: str
    dialect: str
    _parts: tuple[bytes, int]

    def __init__(self, text: str, dialect: str = "seconds") -> None:
        if not isinstance(text, str):
            raise TypeError(f"a str is wanted, not {type(text).__name__}")
        if dialect not in _DIALECTS:
            raise ValueError(f"the dialect is 'crontab', 'seconds', 'quartz' or 'robfig', not {dialect!r}")
        parts = text.encode(), _DIALECTS.index(dialect)
        for name, value in {"text": text, "dialect": dialect, "_parts": parts}.items():
            object.__setattr__(self, name, value)
        fault = _calendar._fault_of_timed_schedule(*parts)
        if fault is not None:
            field, said, start, end = fault
            refuse(text, f"{_FRONTS.get(field, '')}{said or f'weekday, byte {start}: not just one field of days is ?'}", start, end)

    def __setattr__(self, name: str, value: object) -> None:
        raise AttributeError("a TimedSchedule cannot be changed")

    def __delattr__(self, name: str) -> None:
        raise AttributeError("a TimedSchedule cannot be changed")

    def next_after(self, moment: Any, /) -> DateTime | None:
        """Returns the first DateTime after a moment at which the schedule is due, or None if there is none."""
        return _calendar._moment_of_timed_schedule(*self._parts, moment, False)

    def prev_before(self, moment: Any, /) -> DateTime | None:
        """Returns the last DateTime before a moment at which the schedule is due, or None if there is none."""
        return _calendar._moment_of_timed_schedule(*self._parts, moment, True)

    def is_due(self, moment: Any, /) -> bool:
        """Returns whether the schedule is due at a moment. It is due at the beginning of a second, and never within one."""
        return _calendar._is_moment_of_timed_schedule(*self._parts, moment)

    def iterate(self, start: Any, until: Any = None) -> Iterator[DateTime]:
        """Returns an iterator over the DateTimes after start at which the schedule is due, in order, and none after until."""
        found = self.next_after(start)
        while found is not None and (until is None or found <= until):
            yield found
            found = self.next_after(found)

    def __eq__(self, other: object) -> bool:
        if not isinstance(other, TimedSchedule):
            return NotImplemented
        return (self.text, self.dialect) == (other.text, other.dialect)

    def __hash__(self) -> int:
        return hash((self.text, self.dialect))

    def __str__(self) -> str:
        return self.text

    def __repr__(self) -> str:
        return f"TimedSchedule({self.text!r}, {self.dialect!r})"

    def __reduce__(self) -> tuple[Any, ...]:
        return TimedSchedule, (self.text, self.dialect)


TimedSchedule.__module__ = "proved_calendar"
