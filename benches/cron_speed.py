#!/usr/bin/env python3
"""Measures the next due moment of a schedule, beside python3-croniter where it is installed, in one run.

    benches/cron_speed.py

It needs crates/rows_layers/out/rows_layers, which `rt run` leaves there. A row `year` of it finds the next due moment after each of the
525,600 minutes of 365 days; what a row costs beyond one that only asks whether a moment is due, divided by them, is the time of a
call, the making of the start and the sum included. A row `walk` of it does the same by trying one day of `iter_days` after another, but for a
schedule that is never due, for which that goes to the end of the calendar. The best of seven runs counts, by processor time. The schedules that are due
seldom begin a search at most of these starts, and the others mostly find the day's next minute.

First the answers are compared: both rows with the sum that the reading of checks/layers/cron.py counts, and each answer of croniter with that reading's.
"""
import os
import resource
import subprocess
import sys
import time

sys.path.insert(0, os.path.dirname(os.path.dirname(os.path.abspath(__file__))))
from checks.shared.counted import day_of
from checks.layers.cron import Schedule
from checks.shared.row_programs import NO_PROGRAM, PROGRAM, failed_rows, section

TEXTS = ("* * * * *", "*/15 9-17 * * 1-5", "30 4 1,15 * 5", "0 0 29 2 *", "0 0 29 2 1", "0 0 30 2 *")
MINUTES = 365 * 1440
ROUNDS = 7
FIRST = day_of(2024, 3, 1)
CRONITER_CALLS = 2_000


def seconds_of(row):
    """The processor time of the program over one row; its answer is given as 0, so that it prints the row."""
    best = None
    for _ in range(ROUNDS):
        before = resource.getrusage(resource.RUSAGE_CHILDREN)
        subprocess.run([PROGRAM], input=section("cron", [f"{row} = 0"]), text=True, stdout=subprocess.DEVNULL, check=True)
        after = resource.getrusage(resource.RUSAGE_CHILDREN)
        took = after.ru_utime + after.ru_stime - before.ru_utime - before.ru_stime
        best = took if best is None else min(best, took)
    return best


def are_answered(schedule, calls):
    """Whether the program gives the sum of a year's next moments, by each of these calls, that the reading here counts."""
    return not failed_rows("cron", [f"{call} {schedule.words()} {FIRST} 0 0 = {schedule.year(FIRST)}" for call in calls])


def croniter_nanos(text, schedule):
    """Nanoseconds of a call of croniter from starts that lie over the year, or None where it gives no answer; and how many of its answers are others."""
    import datetime

    from croniter import croniter

    first = datetime.datetime(2024, 3, 1)
    starts = [call * (MINUTES // CRONITER_CALLS) for call in range(CRONITER_CALLS)]
    answers, begun = [], time.process_time()
    for start in starts:
        try:
            answers.append(croniter(text, first + datetime.timedelta(minutes=start)).get_next(datetime.datetime))
        except Exception:
            return None, 0
    nanos = (time.process_time() - begun) / CRONITER_CALLS * 1e9
    counted = [schedule.next(FIRST + start // 1440, start % 1440 * 60, 0) - FIRST * 1440 for start in starts]
    return nanos, sum(first + datetime.timedelta(minutes=here) != there for here, there in zip(counted, answers))


def main():
    if not os.path.exists(PROGRAM):
        print(f"not run: everything, since {NO_PROGRAM}")
        return 0
    try:
        import croniter  # noqa: F401
    except ImportError:
        print("not run: python3-croniter, since it is not installed")
        with_croniter = False
    else:
        with_croniter = True
    for text in TEXTS:
        schedule = Schedule(text)
        words, calls = schedule.words(), ("year",) if schedule.is_never else ("year", "walk")
        if not are_answered(schedule, calls):
            print(f"{text:20} not measured, since it is answered otherwise")
            return 1
        idle = seconds_of(f"due {words} {FIRST} 0 0")
        nanos = (seconds_of(f"year {words} {FIRST} 0 0") - idle) / MINUTES * 1e9
        line = f"{text:20} {nanos:8.1f} ns a call"
        if not schedule.is_never:
            walk = (seconds_of(f"walk {words} {FIRST} 0 0") - idle) / MINUTES * 1e9
            line += f"; a walk {walk:,.1f} ns, {walk / nanos:,.2f} times as long"
        if with_croniter:
            other, others = croniter_nanos(text, schedule)
            line += "; croniter has no answer" if other is None else f"; croniter {other:,.0f} ns, {other / nanos:,.0f} times as long, {others} of {CRONITER_CALLS} answers others"
        print(line)
    return 0


if __name__ == "__main__":
    sys.exit(main())
