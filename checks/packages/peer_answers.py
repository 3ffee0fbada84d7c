#!/usr/bin/env python3
"""Prints generated cases of the layers with the answers of other programs, as lines that each wrapper's test reads.

    /usr/bin/python3 -m checks.packages.peer_answers [CASES [SEED]]

It needs croniter, numpy and dateutil. Of each kind it prints 20,000 cases, or so many. A line has fields with a tab between them.

  schedule  its text, a start, and croniter's next and last moment, in seconds since 1970, or `-` where it has none
  rule      its text, a start, a day, the next and the last instance of dateutil from there, or `-` where it has none, and the first ones
            with a comma between them; dates are day numbers
  open      a weekend as a set of weekdays, holidays with a comma between them, an open day, a number of open days, numpy's date so far
            from it, two dates and numpy's count of open days from one to the other; dates are day numbers
"""
import datetime
import random
import sys

import numpy

from checks.layers import rules_days
from checks.packages import layers_peers

# So many instances of a rule are compared.
SHOWN = 100

# The day number of 1 January 1970.
EPOCH_DAY = 719_163


def schedule_cases(numbers, cases):
    """Lines of schedules."""
    for _ in range(cases):
        fields = (layers_peers.field(numbers, low, high, place in (2, 4)) for place, (low, high) in enumerate(layers_peers.RANGES))
        text = " ".join(fields)
        seconds = numbers.randrange(10**9, 3 * 10**9)
        start = layers_peers.EPOCH + datetime.timedelta(seconds=seconds)
        found = (layers_peers.peer(text, start, name) for name in ("next", "prev"))
        yield "schedule", text, seconds, *("-" if it is None else it for it in found)


def signed(numbers, most):
    """One to three numbers up to one, from either end."""
    return sorted({numbers.choice((1, 1, -1)) * numbers.randint(1, most) for _ in range(numbers.randint(1, 3))})


def matching_rule(numbers):
    """A rule that has an instance in almost each period, and how many days its UNTIL lies ahead: dateutil looks for one up to the year 9999."""
    rule = rules_days.Rule(numbers.randint(rules_days.DAILY, rules_days.YEARLY), interval=numbers.choice((1, 1, 2, 3)))
    weekdays = sorted({numbers.randrange(7) for _ in range(numbers.randint(1, 3))})
    rule.weekdays = [(None, it) for it in weekdays]
    kind = numbers.randrange(3)
    if rule.frequency == rules_days.DAILY:
        rule.weekdays, rule.months = [], sorted({numbers.randint(1, 12) for _ in range(6)}) if kind == 0 else []
    elif rule.frequency == rules_days.WEEKLY:
        rule.week_start = numbers.choice((0, 0, 6))
    elif kind == 0:
        rule.weekdays, rule.month_days = [], signed(numbers, 28)
        rule.months = [numbers.randint(1, 12)] if rule.frequency == rules_days.YEARLY else []
    elif kind == 1:
        rule.weekdays = [(it, numbers.randrange(7)) for it in signed(numbers, 4)]
    elif rule.frequency == rules_days.MONTHLY:
        rule.positions = signed(numbers, 4)
    else:
        rule.weeks = sorted({numbers.randint(1, 51) for _ in range(2)})
    return rule, rule.interval * (60, 250, 800, 5_000)[rule.frequency]


def rule_cases(numbers, cases):
    """Lines of recurrence rules, some with COUNT in place of UNTIL."""
    for _ in range(cases):
        rule, length = matching_rule(numbers)
        start = datetime.date.fromordinal(numbers.randrange(726_000, 745_000))
        rule.until = start + datetime.timedelta(length)
        days = [it.toordinal() for it in rules_days.of_dateutil(rule, start)]
        if days and numbers.randrange(3) == 0:
            rule.count, rule.until = numbers.randint(1, len(days)), None
            days = days[: rule.count]
        day = start.toordinal() + numbers.randrange(-50, length + 50)
        ends = [next((it for it in days if it > day), "-"), next((it for it in reversed(days) if it < day), "-")]
        yield "rule", rule.text(), start.toordinal(), day, *ends, ",".join(map(str, days[:SHOWN]))


def day_of(date):
    """The day number of a date of numpy."""
    return int(date.astype("i8")) + EPOCH_DAY


def open_cases(numbers, cases):
    """Lines of open days."""
    for _ in range(cases):
        weekend = numbers.choice((96, 96, 64, 0, numbers.randrange(127)))
        days = numpy.unique(numpy.array([numbers.randrange(10_000, 30_000) for _ in range(numbers.randrange(60))], "M8[D]"))
        calendar = numpy.busdaycalendar([not weekend >> k & 1 for k in range(7)], days)
        first, last = (numpy.datetime64(numbers.randrange(10_000, 30_000), "D") for _ in range(2))
        start, n = numpy.busday_offset(first, 0, "forward", busdaycal=calendar), numbers.randrange(-400, 400)
        moved = numpy.busday_offset(start, n, busdaycal=calendar)
        # (numpy counts backwards from the day after; forwards both count the first day alone)
        first, last = sorted((first, last))
        count = int(numpy.busday_count(first, last, busdaycal=calendar))
        yield "open", weekend, ",".join(str(day_of(it)) for it in days), day_of(start), n, day_of(moved), day_of(first), day_of(last), count


def main():
    cases = int(sys.argv[1]) if len(sys.argv) > 1 else 20_000
    numbers = random.Random(int(sys.argv[2]) if len(sys.argv) > 2 else 1)
    for kind in (schedule_cases, rule_cases, open_cases):
        for case in kind(numbers, cases):
            print(*case, sep="\t")


if __name__ == "__main__":
    main()
