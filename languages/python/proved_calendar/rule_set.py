"""Sets of recurrence rules."""
from __future__ import annotations

import datetime
import heapq
import itertools
import math
import operator
import re
from collections.abc import Iterable, Iterator
from typing import Any, Generic, TypeVar, overload

from ._calendar import Date, DateTime, Rule

_Instance = TypeVar("_Instance", Date, DateTime)


def _ours(it: Any) -> Any:
    """A date or a date-time as a Date or a DateTime."""
    if isinstance(it, (Date, DateTime)):
        return it
    if isinstance(it, datetime.datetime):
        return DateTime.from_datetime(it)
    return Date.from_date(it)


# The days after which the calendar repeats: 400 years. And no year has more.
_CYCLE, _YEAR = 146_097, 366


def _has_count(rule: Any) -> bool:
    return re.search("COUNT=", rule.text, re.I) is not None


def _is_endless(rule: Any) -> bool:
    return not re.search("COUNT=|UNTIL=", rule.text, re.I)


def _interval(rule: Any) -> int:
    found = re.search("INTERVAL=([0-9]+)", rule.text, re.I)
    return int(found[1]) if found else 1


class _Stretch:
    """A stretch of days that endless rules leave out.

    Endless rules repeat with the calendar, after as many cycles as their intervals need. So once all days of one such time are left
    out, no day of an endless rule is an instance, from `begin` on.
    """

    def __init__(self, rules: Iterable[Any], except_rules: Iterable[Any]) -> None:
        self.except_rules = [it for it in except_rules if _is_endless(it)]
        endless = [*self.except_rules, *(it for it in rules if _is_endless(it))]
        interval = math.lcm(*map(_interval, endless))
        self.begin = max((it.start.toordinal() for it in endless), default=0) + _YEAR * interval
        self.is_over = False
        self._most, self._first = _CYCLE * interval, None

    def has(self, it: Any) -> bool:
        """Whether a day is left out so. The days are asked about in order."""
        if not self.except_rules:
            return False
        is_left_out, day = any(it in rule for rule in self.except_rules), it.toordinal()
        if not is_left_out or day < self.begin:
            self._first = None
        elif self._first is None:
            self._first = day
        elif abs(day - self._first) > self._most:
            self.is_over = True
        return is_left_out

    def walk(self, rule: Any, instances: Iterable[Any]) -> Iterable[Any]:
        """The instances of a rule in order, as long as there may be one that is not left out."""
        return itertools.takewhile(lambda _: not self.is_over, instances) if _is_endless(rule) else instances

    def place(self, rule: Any, dt: Any) -> Any:
        """Where to look before a day: before the time of which all days of endless rules are left out."""
        return type(rule.start).fromordinal(self.begin) if self.is_over and _is_endless(rule) and dt.toordinal() > self.begin else dt


class _LeftOut:
    """The days that a set leaves out, which are asked about in order, from one on.

    A rule with COUNT is counted from its start whenever it is asked. So its instances are walked along.
    """

    def __init__(self, of: Any, first: Any, inc: bool) -> None:
        counted = [it for it in of.except_rules if _has_count(it)]
        self._rules = [it for it in of.except_rules if not _has_count(it)]
        self._dates = set(of.except_dates)
        self._walk: Iterator[Any] = iter(heapq.merge(*(it if first is None else it.xafter(first, inc=inc) for it in counted)))
        self._next = next(self._walk, None)

    def has(self, it: Any) -> bool:
        """Whether a day is left out."""
        while self._next is not None and self._next < it:
            self._next = next(self._walk, None)
        return it == self._next or it in self._dates or any(it in rule for rule in self._rules)


class RuleSet(Generic[_Instance]):
    """The instances of some rules and some dates (RDATE), but for those of other rules and dates (EXDATE).

    RuleSet(rules=(), dates=(), except_rules=(), except_dates=())

    >>> fridays = RuleSet([Rule('FREQ=WEEKLY;BYDAY=FR', Date(2024, 3, 1))], [Date(2024, 3, 4)], except_dates=[Date(2024, 3, 8)])
    >>> fridays[:3]
    [Date(2024, 3, 1), Date(2024, 3, 4), Date(2024, 3, 15)]

    It is a sequence as a Rule is. All have dates, or all have date-times. Each day or time comes once. The rules are asked by proved
    functions; this class merges what they answer, and is written in Python.
    """

    __slots__ = ("rules", "dates", "except_rules", "except_dates")
    rules: tuple[Rule[_Instance], ...]
    dates: tuple[_Instance, ...]
    except_rules: tuple[Rule[_Instance], ...]
    except_dates: tuple[_Instance, ...]

    def __init__(
        self, rules: Iterable[Rule[_Instance]] = (), dates: Iterable[Any] = (), except_rules: Iterable[Rule[_Instance]] = (),
        except_dates: Iterable[Any] = (),
    ) -> None:
        for name, given in {"rules": rules, "except_rules": except_rules}.items():
            object.__setattr__(self, name, tuple(given))
        for name, days in {"dates": dates, "except_dates": except_dates}.items():
            object.__setattr__(self, name, tuple(sorted({_ours(it) for it in days})))
        all_rules = (*self.rules, *self.except_rules)
        for it in all_rules:
            if not isinstance(it, Rule):
                raise TypeError(f"a Rule is wanted, not {type(it).__name__}")
        kinds = {type(it.start) for it in all_rules} | {DateTime if isinstance(it, DateTime) else Date for it in (*self.dates, *self.except_dates)}
        if len(kinds) > 1:
            raise TypeError("a RuleSet has dates alone, or date-times alone")

    def __setattr__(self, name: str, value: object) -> None:
        raise AttributeError("a RuleSet cannot be changed")

    def __delattr__(self, name: str) -> None:
        raise AttributeError("a RuleSet cannot be changed")

    def _is_left_out(self, it: Any) -> bool:
        return it in self.except_dates or any(it in rule for rule in self.except_rules)

    def _merged(self, walks: Iterable[Iterable[Any]], dates: Iterable[Any], left_out: _LeftOut) -> Iterator[_Instance]:
        """What walks over the rules and some dates, all in order, give together, each once."""
        stretch = _Stretch(self.rules, self.except_rules)
        for it, _ in itertools.groupby(heapq.merge(*map(stretch.walk, self.rules, walks), dates)):
            if not stretch.has(it) and not left_out.has(it):
                yield it

    def __iter__(self) -> Iterator[_Instance]:
        return self._merged(self.rules, self.dates, _LeftOut(self, None, True))

    def xafter(self, dt: Any, count: int | None = None, inc: bool = False) -> Iterator[_Instance]:
        """Returns an iterator over the instances after dt, with inc also at it, and at most count of them."""
        most = None if count is None else max(operator.index(count), 0)
        later = [it for it in self.dates if it > dt or (inc and it == dt)]
        walks = [rule.xafter(dt, inc=inc) for rule in self.rules]
        return itertools.islice(self._merged(walks, later, _LeftOut(self, dt, inc)), most)

    def after(self, dt: Any, inc: bool = False) -> _Instance | None:
        """Returns the first instance after dt, with inc also at it, or None if there is none."""
        return next(self.xafter(dt, inc=inc), None)

    def before(self, dt: Any, inc: bool = False) -> _Instance | None:
        """Returns the last instance before dt, with inc also at it, or None if there is none."""
        stretch = _Stretch(self.rules, self.except_rules)
        while True:
            found = [rule.before(stretch.place(rule, dt), inc) for rule in self.rules]
            found += [it for it in self.dates if it < dt or (inc and it == dt)][-1:]
            last = max((it for it in found if it is not None), default=None)
            if last is None or (not stretch.has(last) and not self._is_left_out(last)):
                return last
            dt, inc = last, False

    def between(self, after: Any, before: Any, inc: bool = False) -> list[_Instance]:
        """Returns a list of the instances after one day or time and before another, with inc also at them."""
        return list(itertools.takewhile(lambda it: it < before or (inc and it == before), self.xafter(after, inc=inc)))

    def count(self) -> int:
        """Returns how many instances there are, up to the end of the calendar if there is no end."""
        return sum(1 for _ in self)

    def __contains__(self, it: object) -> bool:
        return (it in self.dates or any(it in rule for rule in self.rules)) and not self._is_left_out(it)

    @overload
    def __getitem__(self, key: int) -> _Instance: ...

    @overload
    def __getitem__(self, key: slice) -> list[_Instance]: ...

    def __getitem__(self, key: int | slice) -> _Instance | list[_Instance]:
        if not isinstance(key, slice):
            key = operator.index(key)
        numbers = (key.start, key.stop, key.step) if isinstance(key, slice) else (key,)
        if any(it is not None and it < 0 for it in numbers):
            return list(self)[key]
        if isinstance(key, slice):
            return list(itertools.islice(self, key.start, key.stop, key.step))
        for it in itertools.islice(self, key, None):
            return it
        raise IndexError("the set has fewer instances")

    def _parts(self) -> tuple[Any, ...]:
        return self.rules, self.dates, self.except_rules, self.except_dates

    def __eq__(self, other: object) -> bool:
        if not isinstance(other, RuleSet):
            return NotImplemented
        return self._parts() == other._parts()

    def __hash__(self) -> int:
        return hash(self._parts())

    def __repr__(self) -> str:
        names = ("rules", "dates", "except_rules", "except_dates")
        return f"RuleSet({', '.join(f'{name}={list(it)!r}' for name, it in zip(names, self._parts()) if it)})"

    def __reduce__(self) -> tuple[Any, ...]:
        return RuleSet, self._parts()
