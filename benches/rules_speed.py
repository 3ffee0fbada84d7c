#!/usr/bin/env python3
"""Measures the next instance of a recurrence rule, beside python3-dateutil where it is installed, in one run.

    benches/rules_speed.py

It needs crates/rows_layers/out/rows_layers, which `rt run` and `rt ci` leave there. A row of it says how many calls of `next_after`, each from the day that the last one
gave, lead to the last instance of 400 years, which a walk over the days has found before: that is the call alone, 100,000 times. In another row all of these instances are looked for by
`next_after`, read and tested by `is_instance`. dateutil gives the same instances one after another, which are compared first; and its `after` is asked, as `next_after` is, for the
instance behind each of some days that lie evenly between the first and the last, which is compared too. The best of seven runs counts, by processor time.
"""
import datetime
import os
import resource
import subprocess
import sys
import time

TOP = os.path.dirname(os.path.dirname(os.path.abspath(__file__)))
sys.path.insert(0, TOP)
from checks.layers import rules_days
from checks.shared.row_programs import NO_PROGRAM, PROGRAM, section
from checks.layers.rules_days import DAILY, MONTHLY, WEEKLY, YEARLY, Date, Rule, at_midnight, made_by_dateutil, of_dateutil, restart_without, walked

CALLS = 100_000
ASKED = 20
ROUNDS = 7
FRIDAY = 4


def rules():
    """Rules with their starts."""
    yield Rule(MONTHLY, weekdays=[(-1, FRIDAY)]), Date(2000, 1, 1)
    yield Rule(YEARLY, months=[2], month_days=[29]), Date(2000, 1, 1)
    yield Rule(MONTHLY, month_days=[31]), Date(2000, 1, 31)
    yield Rule(WEEKLY, interval=2, weekdays=[(None, 1), (None, FRIDAY)]), Date(2000, 1, 4)
    yield Rule(MONTHLY, weekdays=[(None, it) for it in range(5)], positions=[-1]), Date(2000, 1, 1)
    yield Rule(DAILY, interval=97), Date(2000, 1, 1)
    yield Rule(YEARLY, interval=4), Date(2000, 2, 29)


def seconds_of(rows):
    """The least processor time of the program over these rows, which have to be answered as they say."""
    best = None
    for _ in range(ROUNDS):
        before = resource.getrusage(resource.RUSAGE_CHILDREN)
        ran = subprocess.run([PROGRAM], input=section("rules", rows), capture_output=True, text=True, check=True)
        after = resource.getrusage(resource.RUSAGE_CHILDREN)
        if not ran.stdout.endswith(" 0 of them answered otherwise\n"):
            sys.exit(ran.stdout[:300])
        took = after.ru_utime + after.ru_stime - before.ru_utime - before.ru_stime
        best = took if best is None else min(best, took)
    return best


def seconds_of_dateutil(rule, start, days):
    """The least processor time in which dateutil gives the same days."""
    best = None
    for _ in range(ROUNDS):
        begun = time.process_time()
        given = of_dateutil(rule, start)
        took = time.process_time() - begun
        if given != days:
            return None
        best = took if best is None else min(best, took)
    return best


def seconds_of_after(rule, start, days):
    """The least processor time in which dateutil's `after` gives each of some of these days from the one before."""
    made, best = made_by_dateutil(rule, start), None
    places = [1 + it * (len(days) - 2) // (ASKED - 1) for it in range(ASKED)]
    for _ in range(ROUNDS):
        begun = time.process_time()
        given = [made.after(at_midnight(days[it - 1])) for it in places]
        took = time.process_time() - begun
        if [it.date() for it in given] != [days[it] for it in places]:
            return None
        best = took if best is None else min(best, took)
    return best


def main():
    if not os.path.exists(PROGRAM):
        print(f"not run: everything, since {NO_PROGRAM}")
        return
    restart_without(rules_days.rrule)
    if not rules_days.rrule:
        print("not run: dateutil, since it is not installed")
    alone = seconds_of([])
    print("| Rule | nanoseconds a call | an instance looked for, read and tested | dateutil | times as fast as that, by the call | as its `after` |\n|---|---|---|---|---|---|")
    for rule, start in rules():
        text = rule.text().replace(";WKST=MO", "").replace(";INTERVAL=1;", ";")
        end = start.replace(year=start.year + 400, day=1)
        rule.until = end - datetime.timedelta(1)
        days = walked(rule, start, end)
        copies = max(1, CALLS // len(days))
        rows = [rule.row(start, days, True)] * copies
        nanos = (seconds_of(rows) - alone) / copies / len(days) * 1e9
        rows = [f"call {rule.text()} {start.toordinal()} *{len(days)} = {days[-1].toordinal()}"] * copies
        call = (seconds_of(rows) - alone) / copies / len(days) * 1e9
        other = seconds_of_dateutil(rule, start, days) if rules_days.rrule else None
        after = seconds_of_after(rule, start, days) if rules_days.rrule else None
        beside = f"{other / len(days) * 1e9:,.0f} | {other / len(days) * 1e9 / call:,.0f}" if other else " | "
        beside += f" | {after / ASKED * 1e9 / call:,.0f}" if after else " | "
        print(f"| `{text}` | {call:,.0f} | {nanos:,.0f} | {beside} |")


if __name__ == "__main__":
    main()
