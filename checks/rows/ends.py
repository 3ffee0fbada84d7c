#!/usr/bin/env python3
"""A second opinion on the rows of rows_chrono, counted, and on whether they reach the ends of every type.

    python3 -m checks.rows.ends              compares each row of crates/rows_chrono/stdin with what is counted here
    python3 -m checks.rows.ends --missing    prints the rows that are wanted and do not stand there

Each call of a row is read here a second time, plainly, in whole numbers over checks/shared/counted.py. A call that rows_chrono would
make and that is not read here fails the check, as it would need no row. Wanted are, of each call: each
end of each argument with the others in the middle of their types, and each choice of ends for all arguments at once. The ends are
those of the machine's numbers, the longest durations, the first and the last date, midnight, the last second of the day and its
leap second.
"""
import itertools
import os
import re
import sys

from checks import TOP
from checks.shared.counted import (DAY, FIRST_DAY, FIRST_YEAR, LAST_DAY, LAST_YEAR, LONGEST, NANOS, apart, day_in_year, day_of, day_of_month,
                     day_of_week_date, first_of_week, first_on, in_range, is_date, is_leap, is_time, land, month_lengths,
                     month_move, name_of, ordinal_of, week_of, weekday_of, years_between)

CRATE = os.path.join(TOP, "crates", "rows_chrono")
ROWS = os.path.join(CRATE, "stdin")

EPOCH = 719_163
MONTHS = "January February March April May June July August September October November December".split()


# ---- kinds of arguments


class Kind:
    """How many words an argument has, its ends and its middle, and what the words stand for."""

    def __init__(self, ends, middle, value=lambda it: it):
        self.ends, self.middle, self.value = ends, middle, value
        self.words = len(middle)


def number(low, high, middle):
    return Kind([(low,), (high,)], (middle,))


I32, I64 = number(-(2**31), 2**31 - 1, 2024), number(-(2**63), 2**63 - 1, 1)
U8, U32, U64 = number(0, 2**8 - 1, 1), number(0, 2**32 - 1, 1), number(0, 2**64 - 1, 1)
WEEKDAY, MONTH, SET = number(1, 7, 4), number(1, 12, 6), number(0, 127, 37)
DATE = number(FIRST_DAY, LAST_DAY, 738_945)
DURATION = Kind([divmod(-LONGEST, NANOS), divmod(LONGEST, NANOS)], (1, NANOS // 2), lambda secs, nanos: secs * NANOS + nanos)
TIME = Kind([(0, 0), (86_399, NANOS - 1), (86_399, 2 * NANOS - 1)], (3661, 3 * NANOS // 2), lambda *it: it)
MOMENT = Kind([(FIRST_DAY, 0, 0), (LAST_DAY, 86_399, NANOS - 1), (LAST_DAY, 86_399, 2 * NANOS - 1)],
              (738_945, 86_399, 3 * NANOS // 2), lambda date, *time: (date, tuple(time)))
STEPS = Kind([], ("nbl",))


# ---- answers


def quotient(number, by):
    """Rounded towards zero."""
    return abs(number) // abs(by) * (1 if (number < 0) == (by < 0) else -1)


def order(one, other):
    return (one > other) - (one < other)


def within(number, low, high):
    return number if number is not None and low <= number <= high else None


def length(nanos):
    """A duration as its two words, where it is one."""
    return None if nanos is None or abs(nanos) > LONGEST else divmod(nanos, NANOS)


def moment(date, time):
    return None if date is None or time is None else (date, *time)


def clock(hour, minute, second, nano=0):
    return (3600 * hour + 60 * minute + second, nano) if is_time(hour, minute, second, nano) else None


def of_midnight(second, nano):
    is_there = second < 86_400 and nano < (2 * NANOS if second % 60 == 59 else NANOS)
    return (second, nano) if is_there else None


def divided(nanos, by):
    """The seconds, rounded down, and what is past them are divided apart."""
    if by == 0:
        return None
    seconds, past = divmod(nanos, NANOS)
    return length(quotient(seconds * NANOS, by) + quotient(past, by))


def walk(step, state, steps):
    """What the steps of an iterator give, a letter each."""
    given = []
    for it in steps:
        state, answer = step(state, it)
        given.append("none" if answer is None else answer)
    return given


def set_walk(members, start, steps):
    days = [day for day in ((start - 1 + it) % 7 + 1 for it in range(7)) if members >> (day - 1) & 1]

    def step(left, it):
        if it == "l":
            return left, len(left)
        if not left:
            return left, None
        return (left[1:], left[0]) if it == "n" else (left[:-1], left[-1])

    return walk(step, days, steps)


def day_walk(start, steps):
    """A cursor that `next` gives and steps on, at last past all dates, and `next_back` gives and steps back, if to a date."""

    def step(cursor, it):
        if it in "ls":
            return cursor, LAST_DAY + 1 - cursor if it == "l" else cursor == start
        moved = cursor + (1 if it == "n" else -1)
        return (moved, cursor) if is_date(cursor) and (it == "n" or is_date(moved)) else (cursor, None)

    return walk(step, start, steps)


def week_walk(start, steps):
    """A cursor that both calls give and step by a week, if to a date."""

    def step(cursor, it):
        if it in "ls":
            return cursor, (LAST_DAY - cursor) // 7 if it == "l" else cursor == start
        moved = cursor + (7 if it == "n" else -7)
        return (moved, cursor) if is_date(moved) else (cursor, None)

    return walk(step, start, steps)


def days_until(members, start):
    """The days from a weekday, counted from 1 for Monday, on to the first member of a set."""
    return next((it for it in range(7) if members >> ((start - 1 + it) % 7) & 1), None)


def replaced(date, place, new):
    name = list(name_of(date))
    name[place] = new
    return day_of(*name)


def with_hour(time, hour):
    return (time[0] % 3600 + 3600 * hour, time[1]) if hour < 24 else None


def with_minute(time, minute):
    return (time[0] // 3600 * 3600 + time[0] % 60 + 60 * minute, time[1]) if minute < 60 else None


def with_second(time, second):
    return (time[0] // 60 * 60 + second, time[1]) if second < 60 else None


def with_nanosecond(time, nano):
    return (time[0], nano) if nano < 2 * NANOS else None


def with_each(time, *fields):
    for change, field in zip((with_hour, with_minute, with_second, with_nanosecond), fields):
        time = None if time is None else change(time, field)
    return time


def hour12(time):
    hour = time[0] // 3600
    return hour >= 12, hour % 12 or 12


def landing(time, nanos):
    days, *reached = land(*time, nanos)
    return *reached, days


def moved_time(time, nanos, sign=1):
    days, *reached = land(*time, sign * nanos)
    return *reached, sign * days * 86_400


def moved_moment(at, nanos):
    days, *reached = land(*at[1], nanos)
    return moment(in_range(at[0] + days), reached)


# ---- the calls, each with the kinds of its arguments

WEEKDAYS = {
    "try_from": ([U8], lambda it: it + 1 if it < 7 else None),
    "from_u32": ([U32], lambda it: it + 1 if it < 7 else None),
    "from_u64": ([U64], lambda it: it + 1 if it < 7 else None),
    "from_i64": ([I64], lambda it: it + 1 if 0 <= it < 7 else None),
    "succ": ([WEEKDAY], lambda day: day % 7 + 1),
    "pred": ([WEEKDAY], lambda day: (day - 2) % 7 + 1),
    "number_from_monday": ([WEEKDAY], lambda day: day),
    "number_from_sunday": ([WEEKDAY], lambda day: day % 7 + 1),
    "num_days_from_monday": ([WEEKDAY], lambda day: day - 1),
    "num_days_from_sunday": ([WEEKDAY], lambda day: day % 7),
    "days_since": ([WEEKDAY, WEEKDAY], lambda day, other: (day - other) % 7),
}
SETS = {
    "EMPTY": ([], lambda: 0),
    "ALL": ([], lambda: 127),
    "default": ([], lambda: 0),
    "single": ([WEEKDAY], lambda day: 1 << (day - 1)),
    "len": ([SET], lambda it: it.bit_count()),
    "is_empty": ([SET], lambda it: it == 0),
    "first": ([SET], lambda it: min((day for day in range(1, 8) if it >> (day - 1) & 1), default=None)),
    "last": ([SET], lambda it: max((day for day in range(1, 8) if it >> (day - 1) & 1), default=None)),
    "single_day": ([SET], lambda it: it.bit_length() if it.bit_count() == 1 else None),
    "contains": ([SET, WEEKDAY], lambda it, day: it >> (day - 1) & 1),
    "insert": ([SET, WEEKDAY], lambda it, day: (not it >> (day - 1) & 1, it | 1 << (day - 1))),
    "remove": ([SET, WEEKDAY], lambda it, day: (it >> (day - 1) & 1, it & ~(1 << (day - 1)))),
    "iter": ([SET, WEEKDAY, STEPS], set_walk),
    "days_until": ([SET, WEEKDAY], days_until),
    "is_subset": ([SET, SET], lambda one, other: one & ~other == 0),
    "intersection": ([SET, SET], lambda one, other: one & other),
    "union": ([SET, SET], lambda one, other: one | other),
    "symmetric_difference": ([SET, SET], lambda one, other: one ^ other),
    "difference": ([SET, SET], lambda one, other: one & ~other),
    "cmp": ([SET, SET], order),
}
MONTHS_OF_YEAR = {
    "try_from": ([U8], lambda it: within(it, 1, 12)),
    "from_u32": ([U32], lambda it: within(it, 1, 12)),
    "from_u64": ([U64], lambda it: within(it, 1, 12)),
    "from_i64": ([I64], lambda it: within(it, 1, 12)),
    "succ": ([MONTH], lambda it: it % 12 + 1),
    "pred": ([MONTH], lambda it: (it - 2) % 12 + 1),
    "number_from_month": ([MONTH], lambda it: it),
    "name": ([MONTH], lambda it: MONTHS[it - 1]),
    "cmp": ([MONTH, MONTH], order),
    "num_days": ([MONTH, I32], lambda it, year: month_lengths(year)[it - 1] if FIRST_YEAR <= year <= LAST_YEAR else None),
}
SPANS = {"as_u32": ([U32], lambda it: it), "cmp": ([U32, U32], order)}

UNITS = {"weeks": 7 * DAY, "days": DAY, "hours": DAY // 24, "minutes": 60 * NANOS, "seconds": NANOS, "milliseconds": 10**6}
DURATIONS = {
    "MIN": ([], lambda: length(-LONGEST)),
    "MAX": ([], lambda: length(LONGEST)),
    "min_value": ([], lambda: length(-LONGEST)),
    "max_value": ([], lambda: length(LONGEST)),
    "zero": ([], lambda: (0, 0)),
    "default": ([], lambda: (0, 0)),
    "new": ([I64, U32], lambda secs, nanos: length(secs * NANOS + nanos) if nanos < NANOS else None),
    **{f"try_{name}": ([I64], lambda it, unit=unit: length(it * unit)) for name, unit in UNITS.items()},
    "microseconds": ([I64], lambda it: length(1000 * it)),
    "nanoseconds": ([I64], length),
    **{f"num_{name}": ([DURATION], lambda it, unit=unit: quotient(it, unit)) for name, unit in UNITS.items()},
    "num_microseconds": ([DURATION], lambda it: within(quotient(it, 1000), -(2**63), 2**63 - 1)),
    "num_nanoseconds": ([DURATION], lambda it: within(it, -(2**63), 2**63 - 1)),
    "subsec_millis": ([DURATION], lambda it: quotient(it - quotient(it, NANOS) * NANOS, 10**6)),
    "subsec_micros": ([DURATION], lambda it: quotient(it - quotient(it, NANOS) * NANOS, 1000)),
    "subsec_nanos": ([DURATION], lambda it: it - quotient(it, NANOS) * NANOS),
    "is_zero": ([DURATION], lambda it: it == 0),
    "neg": ([DURATION], lambda it: length(-it)),
    "abs": ([DURATION], lambda it: length(abs(it))),
    "checked_mul": ([DURATION, I32], lambda it, by: length(it * by)),
    "checked_div": ([DURATION, I32], divided),
    "checked_add": ([DURATION, DURATION], lambda one, other: length(one + other)),
    "checked_sub": ([DURATION, DURATION], lambda one, other: length(one - other)),
    "cmp": ([DURATION, DURATION], order),
}
OF_CLOCK = {
    "with_hour": ([U32], with_hour),
    "with_minute": ([U32], with_minute),
    "with_second": ([U32], with_second),
    "with_nanosecond": ([U32], with_nanosecond),
    "with_each": ([U32, U32, U32, U32], with_each),
}
TIMES = {
    "MIN": ([], lambda: (0, 0)),
    "MAX": ([], lambda: (86_399, NANOS - 1)),
    "default": ([], lambda: (0, 0)),
    "from_num_seconds_from_midnight_opt": ([U32, U32], of_midnight),
    "from_hms_opt": ([U32, U32, U32], clock),
    "from_hms_milli_opt": ([U32] * 4, lambda *it: clock(*it[:3], it[3] * 10**6)),
    "from_hms_micro_opt": ([U32] * 4, lambda *it: clock(*it[:3], it[3] * 1000)),
    "from_hms_nano_opt": ([U32] * 4, clock),
    "fields": ([TIME], lambda it: (it[0] // 3600, it[0] // 60 % 60, it[0] % 60, it[1])),
    "hour12": ([TIME], hour12),
    **{name: ([TIME] + kinds, change) for name, (kinds, change) in OF_CLOCK.items()},
    "landing": ([TIME, DURATION], landing),
    "overflowing_add_signed": ([TIME, DURATION], moved_time),
    "overflowing_sub_signed": ([TIME, DURATION], lambda it, by: moved_time(it, by, -1)),
    "signed_duration_since": ([TIME, TIME], lambda it, other: length(apart(it, other))),
    "cmp": ([TIME, TIME], order),
}
# What is read of a date, and what is replaced in one.
READ = {
    "year_month_day": name_of,
    "month0_day0": lambda it: [field - 1 for field in name_of(it)[1:]],
    "ordinal_ordinal0": lambda it: (ordinal_of(it), ordinal_of(it) - 1),
    "weekday": lambda it: weekday_of(it) + 1,
    "iso_week": lambda it: (*week_of(it), week_of(it)[1] - 1),
    "year_ce": lambda it: (name_of(it)[0] >= 1, name_of(it)[0] if name_of(it)[0] >= 1 else 1 - name_of(it)[0]),
    "quarter": lambda it: (name_of(it)[1] + 2) // 3,
    "num_days_in_month": lambda it: month_lengths(name_of(it)[0])[name_of(it)[1] - 1],
    "num_days_from_ce": lambda it: it,
}
REPLACED = {
    "with_year": ([I32], lambda it, new: replaced(it, 0, new)),
    "with_month": ([U32], lambda it, new: replaced(it, 1, new)),
    "with_month0": ([U32], lambda it, new: replaced(it, 1, new + 1)),
    "with_day": ([U32], lambda it, new: replaced(it, 2, new)),
    "with_day0": ([U32], lambda it, new: replaced(it, 2, new + 1)),
    "with_ordinal": ([U32], lambda it, new: day_in_year(name_of(it)[0], new)),
    "with_ordinal0": ([U32], lambda it, new: day_in_year(name_of(it)[0], new + 1)),
}
MOVED = {
    "checked_add_days": ([U64], lambda it, count: in_range(it + count)),
    "checked_sub_days": ([U64], lambda it, count: in_range(it - count)),
    "checked_add_months": ([U32], month_move),
    "checked_sub_months": ([U32], lambda it, count: month_move(it, -count)),
}
DATES = {
    "MIN": ([], lambda: FIRST_DAY),
    "MAX": ([], lambda: LAST_DAY),
    "default": ([], lambda: EPOCH),
    "from_ymd_opt": ([I32, U32, U32], day_of),
    "from_yo_opt": ([I32, U32], day_in_year),
    "from_isoywd_opt": ([I32, U32, WEEKDAY], day_of_week_date),
    "from_num_days_from_ce_opt": ([I32], in_range),
    "from_epoch_days": ([I32], lambda it: in_range(it + EPOCH)),
    "from_weekday_of_month_opt": ([I32, U32, WEEKDAY, U8], day_of_month),
    "succ_opt": ([DATE], lambda it: in_range(it + 1)),
    "pred_opt": ([DATE], lambda it: in_range(it - 1)),
    **{name: ([DATE] + kinds, change) for name, (kinds, change) in {**MOVED, **REPLACED}.items()},
    "moved_by_days": ([DATE, I64], lambda it, days: in_range(it + days)),
    "moved_by_months": ([DATE, I64], month_move),
    "checked_add_signed": ([DATE, DURATION], lambda it, by: in_range(it + quotient(by, DAY))),
    "checked_sub_signed": ([DATE, DURATION], lambda it, by: in_range(it - quotient(by, DAY))),
    "and_time": ([DATE, TIME], moment),
    "and_hms_opt": ([DATE] + [U32] * 3, lambda it, *time: moment(it, clock(*time))),
    "and_hms_milli_opt": ([DATE] + [U32] * 4, lambda it, *time: moment(it, clock(*time[:3], time[3] * 10**6))),
    "and_hms_micro_opt": ([DATE] + [U32] * 4, lambda it, *time: moment(it, clock(*time[:3], time[3] * 1000))),
    "and_hms_nano_opt": ([DATE] + [U32] * 4, lambda it, *time: moment(it, clock(*time))),
    "signed_duration_since": ([DATE, DATE], lambda it, other: length((it - other) * DAY)),
    "abs_diff": ([DATE, DATE], lambda it, other: abs(it - other)),
    "years_since": ([DATE, DATE], years_between),
    "cmp": ([DATE, DATE], order),
    "every_months": ([DATE, I32, U32], lambda it, months, times: month_move(it, months * times)),
    "first_on": ([DATE, SET], first_on),
    "iter_days": ([DATE, STEPS], day_walk),
    "iter_days_last": ([DATE], lambda it: LAST_DAY),
    "iter_weeks": ([DATE, STEPS], week_walk),
    **{name: ([DATE], read) for name, read in READ.items()},
    "to_epoch_days": ([DATE], lambda it: it - EPOCH),
    "leap_year": ([DATE], lambda it: is_leap(name_of(it)[0])),
}
WEEKS = {
    "checked_first_day": ([DATE, WEEKDAY], lambda *it: in_range(first_of_week(*it))),
    "checked_last_day": ([DATE, WEEKDAY], lambda *it: in_range(first_of_week(*it) + 6)),
    "checked_days": ([DATE, WEEKDAY], lambda *it: (first_of_week(*it), first_of_week(*it) + 6)
                     if is_date(first_of_week(*it)) and is_date(first_of_week(*it) + 6) else None),
    "eq": ([DATE, WEEKDAY] * 2, lambda *it: first_of_week(*it[:2]) == first_of_week(*it[2:])),
}
ISO_WEEKS = {"cmp": ([DATE, DATE], lambda it, other: order(week_of(it), week_of(other)))}
MOMENTS = {
    "MIN": ([], lambda: (FIRST_DAY, 0, 0)),
    "MAX": ([], lambda: (LAST_DAY, 86_399, NANOS - 1)),
    "default": ([], lambda: (EPOCH, 0, 0)),
    "from": ([DATE], lambda it: (it, 0, 0)),
    "checked_add_signed": ([MOMENT, DURATION], moved_moment),
    "checked_sub_signed": ([MOMENT, DURATION], lambda it, by: moved_moment(it, -by)),
    "signed_duration_since": ([MOMENT, MOMENT], lambda it, other: length((it[0] - other[0]) * DAY + apart(it[1], other[1]))),
    "cmp": ([MOMENT, MOMENT], order),
    **{name: ([MOMENT] + kinds, lambda it, *new, change=change: moment(change(it[0], *new), it[1]))
       for name, (kinds, change) in {**MOVED, **REPLACED}.items()},
    **{name: ([MOMENT] + kinds, lambda it, *new, change=change: moment(it[0], change(it[1], *new)))
       for name, (kinds, change) in OF_CLOCK.items()},
    "date_and_time": ([MOMENT], lambda it: moment(*it)),
    "time": ([MOMENT], lambda it: (*hour12(it[1]), *it[1])),
    **{name: ([MOMENT], lambda it, read=read: read(it[0])) for name, read in READ.items()},
}
OWNERS = {"Weekday": WEEKDAYS, "WeekdaySet": SETS, "Month": MONTHS_OF_YEAR, "Months": SPANS, "TimeDelta": DURATIONS,
          "NaiveTime": TIMES, "NaiveDate": DATES, "NaiveWeek": WEEKS, "IsoWeek": ISO_WEEKS, "NaiveDateTime": MOMENTS}
CALLS = {f"{owner}.{name}": call for owner, calls in OWNERS.items() for name, call in calls.items()}
# The modules of rows_chrono, with the types whose calls they make.
MODULES = {"weekdays": ["Weekday"], "sets": ["WeekdaySet"], "months": ["Month", "Months"], "durations": ["TimeDelta"],
           "times": ["NaiveTime"], "dates": ["NaiveDate"], "weeks": ["NaiveWeek", "IsoWeek"],
           "date_times": ["NaiveDateTime"], "forms": ["NaiveDate", "NaiveWeek"]}


# ---- rows


def answer(name, words):
    """The answer of a call, as the words of a row."""
    kinds, counted = CALLS[name]
    values, at = [], 0
    for kind in kinds:
        given = [it if kind is STEPS else int(it) for it in words[at : at + kind.words]]
        values.append(kind.value(*given))
        at += kind.words
    if at != len(words):
        return None
    result = counted(*values)
    result = result if isinstance(result, (tuple, list)) else [result]
    return [("none" if it is None else it if isinstance(it, str) else str(int(it))) for it in result]


def wanted(name):
    """The words of the rows that a call has to have: at its ends."""
    kinds = CALLS[name][0]
    middles = [kind.middle for kind in kinds]
    for place, kind in enumerate(kinds):
        for end in kind.ends:
            yield [*middles[:place], end, *middles[place + 1 :]]
    yield from map(list, itertools.product(*(kind.ends or [kind.middle] for kind in kinds)))


def unread():
    """The calls that the modules of rows_chrono would make and that are not read here."""
    for module, owners in MODULES.items():
        with open(os.path.join(CRATE, "src", f"{module}.rt"), encoding="utf-8") as it:
            made = re.findall(r'"(\w+)"\s*(?:=>|\||if\b)', it.read())
        yield from (f"{module}: {it}" for it in dict.fromkeys(made) if all(it not in OWNERS[owner] for owner in owners))


def main():
    with open(ROWS, encoding="utf-8") as it:
        rows = [line.split(" = ", 1) for line in it.read().splitlines()]
    seen, failed = set(), 0
    for call, stands in rows:
        name, *words = call.split(" ")
        right = answer(name, words) if name in CALLS else None
        stands = [{"true": "1", "false": "0"}.get(it, it) for it in stands.split(" ")]
        seen.add((name, *words))
        if right != stands:
            failed += 1
            print(f"{call} = {' '.join(stands)}, and is counted as {right and ' '.join(right)}")
    ends = [(name, *(str(word) for words in it for word in words)) for name in CALLS for it in wanted(name)]
    missing = [it for it in dict.fromkeys(ends) if it not in seen]
    if sys.argv[1:] == ["--missing"]:
        for name, *words in missing:
            print(f"{' '.join([name, *words])} = {' '.join(answer(name, words))}")
        return 0
    for it in missing:
        print(f"no row for {' '.join(it)}")
    strange = list(unread())
    for it in strange:
        print(f"a call that is not read here, of the module {it}")
    calls = len({it[0] for it in seen})
    print(f"{len(rows)} rows of {calls} calls compared; {len(set(ends))} of them are at the ends of {len(CALLS)} calls")
    print(f"{len(rows) - failed} passed, {failed + len(missing) + len(strange)} failed")
    return 1 if failed or missing or strange else 0


if __name__ == "__main__":
    sys.exit(main())
