#!/usr/bin/env python3
"""Holds schedules, open days and rules of the Python package to croniter, numpy and dateutil, over generated cases.

    python3 -m checks.packages.python_layers [CASES [SEED]]

It needs a Python with proved_calendar, croniter, numpy and dateutil; checks/packages/from_python.py runs it over the installed wheel. There are
20,000 cases of each kind, or so many. The next and the last moment of a generated schedule have to be croniter's, with the answers left
out that checks/packages/layers_peers.py leaves out. Open days are counted, and dates moved and rolled, by generated weekends and holidays.
Rules are those that checks/layers/rules_days.py makes for dateutil. Each sequence is asked as dateutil's is. Sets of rules, with dates beside
them and exceptions, are a fortieth as many. A rule that has no instance is left out, since dateutil searches for one up to the year 9999.
"""
import datetime
import itertools
import random
import sys

try:
    import numpy
    from dateutil import rrule
    from checks.packages.layers_peers import EPOCH, RANGES, field, peer
    from checks.layers.rules_days import at_midnight, at_random, made_by_dateutil
except ImportError:
    sys.exit("numpy, croniter and dateutil are wanted: tools/setup installs Debian's")

from proved_calendar import BusinessCalendar, Date, Rule, RuleSet, Schedule

# The first instances of a rule.
FIRST = slice(0, 20)
FIRST_DAY, LAST_DAY = 10_000, 30_000
# The name of each roll that numpy has.
ROLLS = {
    "following": "following", "preceding": "preceding", "modified_following": "modifiedfollowing", "modified_preceding": "modifiedpreceding",
}


class Cases:
    """What passed and failed of one kind."""

    def __init__(self, kind):
        self.kind, self.passed, self.failed = kind, 0, 0

    def count(self, ours, theirs, *case):
        """Counts an answer, and tells of the first that differ."""
        is_same = ours == theirs
        self.passed, self.failed = self.passed + is_same, self.failed + (not is_same)
        if not is_same and self.failed < 10:
            print(f"{' '.join(map(str, case))}: {ours}, and the peer has {theirs}")

    def tell(self):
        print(f"{self.kind}: {self.passed} passed, {self.failed} failed", flush=True)
        return self.passed, self.failed


def test_schedules(numbers, count):
    """The moments beside those of a schedule."""
    cases = Cases("schedules")
    for _ in range(count):
        text = " ".join(field(numbers, low, high, place in (2, 4)) for place, (low, high) in enumerate(RANGES))
        start = EPOCH + datetime.timedelta(seconds=numbers.randrange(10**9, 3 * 10**9))
        schedule = Schedule(text)
        for name, ours in {"next": schedule.next_after(start), "prev": schedule.prev_before(start)}.items():
            theirs = peer(text, start, name)
            # (croniter finds no 29 February backwards, and none that is far away)
            if theirs is not None and not (name == "prev" and ours is not None and (ours.month, ours.day) == (2, 29)):
                cases.count(ours, EPOCH + datetime.timedelta(seconds=theirs), text, name, start)
                cases.count(ours is not None and schedule.is_due(ours), True, text, ours)
    return cases.tell()


def a_day(numbers):
    """A day since 1970."""
    return numbers.randrange(FIRST_DAY, LAST_DAY)


def ours_of(day):
    """The Date of a day of numpy's."""
    return Date.from_date(day.astype(object))


def test_open_days(numbers, count):
    """Counts, moves and rolls beside numpy's."""
    cases = Cases("open days")
    for _ in range(count):
        closed = numbers.choice((96, 96, 64, 0, numbers.randrange(127)))
        weekend = [it for it in range(1, 8) if closed >> (it - 1) & 1]
        mask = [it not in weekend for it in range(1, 8)]
        days = numpy.array([a_day(numbers) for _ in range(numbers.randrange(60))], "M8[D]")
        theirs, ours = numpy.busdaycalendar(mask, days), BusinessCalendar(days.tolist(), weekend)
        cases.count([it.to_date() for it in ours.holidays], theirs.holidays.tolist(), weekend, days)
        first, last = (numpy.datetime64(a_day(numbers), "D") for _ in range(2))
        cases.count(ours.is_open(ours_of(first)), numpy.is_busday(first, busdaycal=theirs), first)
        start, end = sorted((first, last))
        cases.count(ours.between(ours_of(start), ours_of(end)), numpy.busday_count(start, end, busdaycal=theirs), start, end)
        cases.count(ours.between(ours_of(end), ours_of(start)), -numpy.busday_count(start, end, busdaycal=theirs), end, start)
        moved, n = numpy.busday_offset(first, 0, "forward", busdaycal=theirs), numbers.randrange(-400, 400)
        cases.count(ours.add(ours_of(moved), n), ours_of(numpy.busday_offset(moved, n, busdaycal=theirs)), moved, n)
        for name, other in ROLLS.items():
            cases.count(ours.roll(ours_of(first), name), ours_of(numpy.busday_offset(first, 0, other, busdaycal=theirs)), first, name)
    return cases.tell()


def compare_instances(cases, numbers, ours, theirs, start, case):
    """A sequence beside one of dateutil, whose instances have the time of day of ours, or are at midnight."""
    shown = (lambda it: it) if isinstance(start, datetime.datetime) else (lambda it: it and it.date())
    first = list(itertools.islice(theirs, FIRST.stop))
    cases.count(ours[FIRST], list(map(shown, first)), *case)
    near = start + datetime.timedelta(numbers.randrange(-10, 1000))
    near = numbers.choice((near, *map(shown, first[:3])))
    their_near, inc = near if isinstance(near, datetime.datetime) else at_midnight(near), bool(numbers.randrange(2))
    cases.count(ours.after(near, inc), shown(theirs.after(their_near, inc)), *case, "after", near, inc)
    cases.count(ours.before(near, inc), shown(theirs.before(their_near, inc)), *case, "before", near, inc)
    cases.count(near in ours, their_near in theirs, *case, "in", near)
    end = near + datetime.timedelta(numbers.randrange(400))
    their_end = end if isinstance(end, datetime.datetime) else at_midnight(end)
    cases.count(ours.between(near, end, inc), list(map(shown, theirs.between(their_near, their_end, inc))), *case, "between", near, end, inc)
    few = list(itertools.islice(theirs.xafter(their_near, inc=inc), 3))
    cases.count(list(ours.xafter(near, 3, inc)), list(map(shown, few)), *case, "xafter", near, inc)


def a_rule(numbers):
    """A rule of checks/layers/rules_days.py that has an instance, and its start."""
    while True:
        rule, start = at_random(numbers)
        if Rule(rule.text(), start).after(start, inc=True):
            return rule, start


def test_rules(numbers, count):
    """Rules over days and over times, beside those of dateutil."""
    cases = Cases("rules")
    for _ in range(count):
        rule, start = a_rule(numbers)
        theirs, start = made_by_dateutil(rule, start).replace(cache=True), numbers.choice((start, at_midnight(start)))
        compare_instances(cases, numbers, Rule(rule.text(), start), theirs, start, (rule.text(), start))
    return cases.tell()


def test_rule_sets(numbers, count):
    """Rules with dates beside them, and without others, beside those of dateutil."""
    cases = Cases("sets of rules")
    for _ in range(count):
        made = [a_rule(numbers) for _ in range(numbers.randrange(1, 4))]
        start = made[0][1]
        days = sorted({start + datetime.timedelta(numbers.randrange(-40, 400)) for _ in range(numbers.randrange(6))})
        parts = [made[: numbers.randrange(1, 3)], days, made[2:], [it for it in days if numbers.randrange(2)]]
        rules, except_rules = ([Rule(it.text(), at) for it, at in part] for part in (parts[0], parts[2]))
        ours, theirs = RuleSet(rules, parts[1], except_rules, parts[3]), rrule.rruleset()
        for call, part in ((theirs.rrule, parts[0]), (theirs.exrule, parts[2])):
            for it, at in part:
                call(made_by_dateutil(it, at).replace(cache=True))
        for call, part in ((theirs.rdate, parts[1]), (theirs.exdate, parts[3])):
            for it in part:
                call(at_midnight(it))
        compare_instances(cases, numbers, ours, theirs, start, (ours,))
    return cases.tell()


def main():
    count = int(sys.argv[1]) if len(sys.argv) > 1 else 20_000
    numbers = random.Random(int(sys.argv[2]) if len(sys.argv) > 2 else 1)
    results = [test_schedules(numbers, count), test_open_days(numbers, count), test_rules(numbers, count), test_rule_sets(numbers, count // 40)]
    passed, failed = (sum(it) for it in zip(*results))
    print(f"all: {passed} passed, {failed} failed")
    return 1 if failed else 0


if __name__ == "__main__":
    sys.exit(main())
