"""Texts of calendars in a time zone."""
from __future__ import annotations

import itertools
import operator
from collections.abc import Iterator
from typing import Any

from . import _calendar
from ._calendar import DateTime, Zone
from ._texts import refuse
from ._zoned import _own_zone

# No text has a time before these, and the last one of the calendar lies behind all of a zone.
_BEGIN = DateTime(-1, 1, 1).replace(tzinfo=Zone.from_rule("UTC0"))
_END = DateTime(262142, 12, 30).replace(tzinfo=Zone.from_rule("UTC0"))


class CalendarText:
    """The instants of the text of a calendar (RFC 5545) in a time zone.

    CalendarText(text, zone=None)

    >>> daily = CalendarText('DTSTART;TZID=Europe/Berlin:20240330T023000\\nRRULE:FREQ=DAILY;BYHOUR=2,17')
    >>> for it in daily[:3]:
    ...     print(it)
    2024-03-30T02:30:00+01:00
    2024-03-30T17:30:00+01:00
    2024-03-31T03:30:00+02:00

    The text has DTSTART, a local time, and RRULE, RDATE and EXDATE, in lines that may be folded. Where the clock skips a time, the
    offset before the gap counts, and where it shows one twice, the first counts. COUNT counts exceptions too.

    The zone is a Zone, a ZoneInfo with a key or a datetime.timezone. Without one it is the Zone that TZID names. The instants are in it,
    and the arguments of the methods may be in any zone. A text that cannot be read raises TextError.
    """

    __slots__ = ("text", "zone", "_bytes")
    text: str
    zone: Zone
    _bytes: bytes

    def __init__(self, text: str, zone: Any = None) -> None:
        if not isinstance(text, str):
            raise TypeError(f"a str is wanted, not {type(text).__name__}")
        encoded = text.encode()
        found = self._zone_named(text, encoded) if zone is None else zone if isinstance(zone, Zone) else _own_zone(zone)
        for name, value in {"text": text, "zone": found, "_bytes": encoded}.items():
            object.__setattr__(self, name, value)
        self._check(text, encoded, found)

    @staticmethod
    def _check(text: str, encoded: bytes, zone: Zone) -> None:
        fault = _calendar._fault_of_calendar(encoded, zone)
        if fault is not None:
            refuse(text, *fault)

    @classmethod
    def _zone_named(cls, text: str, encoded: bytes) -> Zone:
        name = _calendar._zone_of_calendar(encoded)
        if name is None:
            cls._check(text, encoded, Zone.from_rule("UTC0"))
            raise ValueError("the text names no time zone: give one")
        return Zone(name.decode())

    def __setattr__(self, name: str, value: object) -> None:
        raise AttributeError("a CalendarText cannot be changed")

    def __delattr__(self, name: str) -> None:
        raise AttributeError("a CalendarText cannot be changed")

    def _walk(self, start: Any, until: Any) -> Iterator[DateTime]:
        """The instants after a moment and up to another."""
        while found := _calendar._instants_of_calendar(self._bytes, self.zone, start, until):
            yield from found
            start = found[-1]

    def xafter(self, dt: Any, count: int | None = None, inc: bool = False) -> Iterator[DateTime]:
        """Returns an iterator over the instants after dt, with inc also at it, and at most count of them."""
        most = None if count is None else max(operator.index(count), 0)
        here = [self._here(dt)] if inc and dt in self else []
        return itertools.islice(itertools.chain(here, self._walk(dt, _END)), most)

    def _here(self, dt: Any) -> DateTime:
        return (dt if isinstance(dt, DateTime) else DateTime.from_datetime(dt)).astimezone(self.zone)

    def after(self, dt: Any, inc: bool = False) -> DateTime | None:
        """Returns the first instant after dt, with inc also at it, or None if there is none."""
        return self._here(dt) if inc and dt in self else _calendar._instant_of_calendar(self._bytes, self.zone, dt, False)

    def before(self, dt: Any, inc: bool = False) -> DateTime | None:
        """Returns the last instant before dt, with inc also at it, or None if there is none."""
        return self._here(dt) if inc and dt in self else _calendar._instant_of_calendar(self._bytes, self.zone, dt, True)

    def between(self, after: Any, before: Any, inc: bool = False) -> list[DateTime]:
        """Returns a list of the instants after one moment and before another, with inc also at them."""
        found = [*([self._here(after)] if inc and after in self else []), *self._walk(after, before)]
        return found if inc else [it for it in found if it < self._here(before)]

    def count(self) -> int:
        """Returns how many instants there are, up to the end of the calendar if there is no end."""
        return sum(1 for _ in self)

    def __iter__(self) -> Iterator[DateTime]:
        return self._walk(_BEGIN, _END)

    def __contains__(self, dt: object) -> bool:
        return _calendar._is_instant_of_calendar(self._bytes, self.zone, dt)

    def __getitem__(self, key: Any) -> Any:
        numbers = (key.start, key.stop, key.step) if isinstance(key, slice) else (operator.index(key),)
        if any(it is not None and it < 0 for it in numbers):
            return list(self)[key]
        if isinstance(key, slice):
            return list(itertools.islice(self, key.start, key.stop, key.step))
        for it in itertools.islice(self, numbers[0], None):
            return it
        raise IndexError("there are fewer instants")

    def __eq__(self, other: object) -> bool:
        if not isinstance(other, CalendarText):
            return NotImplemented
        return (self.text, self.zone) == (other.text, other.zone)

    def __hash__(self) -> int:
        return hash((self.text, self.zone))

    def __repr__(self) -> str:
        return f"CalendarText({self.text!r}, {self.zone!r})"

    def __reduce__(self) -> tuple[Any, ...]:
        return CalendarText, (self.text, self.zone)


CalendarText.__module__ = "proved_calendar"
