#!/usr/bin/env python3
"""A second opinion on the rows of texts in rows_layers: each text read here by the grammar of docs/reference/definitions/chrono_reading.md and counted.

    python3 -m checks.rows.texts

The grammar is written here as regular expressions over ASCII, the values are those of checks/shared/counted.py. It also asks that each
kind of text has rows of a value and rows of none.

Where there is Debian's chrono it reads the texts too, all but durations and date-times with a space. It has to read the same, but
where it is laxer by docs/chrono.md: a text of no value may be one of its, by a second grammar that holds what is listed there.
"""
import re
import sys

from checks.rows.rows import LACKS, by_chrono, chrono_version, why_no_chrono
from checks.shared.counted import LONGEST, NANOS, day_in_year, day_of, day_of_week_date
from checks.shared.row_programs import standing_rows

# Four digits, or a sign and the digits of a year past those: of a year below 0, at least four.
YEAR = r"([0-9]{4}|[+][1-9][0-9]{4,}|-(?!0000)[0-9]{4}|-[1-9][0-9]{4,})"
DATE, ORDINAL_DATE, WEEK_DATE = rf"{YEAR}-([0-9]{{2}})-([0-9]{{2}})", rf"{YEAR}-([0-9]{{3}})", rf"{YEAR}-W([0-9]{{2}})-([1-7])"
TIME = r"([0-9]{2}):([0-9]{2}):([0-9]{2})(?:[.]([0-9]{1,9}))?"
# What chrono takes beside these: spaces, any digits and sign of a year, one digit for two, no seconds, a longer fraction.
LAX_YEAR, LAX_NUMBER = r"\s*([+-]?[0-9]+)\s*", r"\s*([0-9]{1,2})\s*"
LAX_DATE = f"{LAX_YEAR}-{LAX_NUMBER}-{LAX_NUMBER}"
LAX_TIME = rf"{LAX_NUMBER}:{LAX_NUMBER}(?::{LAX_NUMBER}(?:[.]([0-9]+))?)?\s*"
DURATION = r"(-?)PT(0|[1-9][0-9]*)(?:[.]([0-9]{1,9}))?S"

WEEKDAYS = "monday tuesday wednesday thursday friday saturday sunday".split()
MONTHS = "january february march april may june july august september october november december".split()


def nanos_of(digits):
    """The nanoseconds of the digits behind a point, if there are any; those past nine are cut."""
    return int((digits or "").ljust(9, "0")[:9])


def day(number):
    return None if number is None else (number,)


def date(year, month, of_month):
    return day(day_of(int(year), int(month), int(of_month)))


def ordinal_date(year, ordinal):
    return day(day_in_year(int(year), int(ordinal)))


def week_date(year, week, weekday):
    return day(day_of_week_date(int(year), int(week), int(weekday)))


def time(hour, minute, second, digits):
    """The second 60 is the leap second of second 59."""
    hour, minute, second, nanos = int(hour), int(minute), int(second or 0), nanos_of(digits)
    if hour > 23 or minute > 59 or second > 60:
        return None
    if second == 60:
        second, nanos = 59, NANOS + nanos
    return 3600 * hour + 60 * minute + second, nanos


def date_time(*parts):
    of_date, of_time = date(*parts[:3]), time(*parts[3:])
    return None if of_date is None or of_time is None else of_date + of_time


def duration(sign, seconds, digits):
    """Zero has a text of its own."""
    seconds, nanos = int(seconds), nanos_of(digits)
    if not 0 < seconds * NANOS + nanos <= LONGEST:
        return None
    return (-seconds, -nanos) if sign else (seconds, nanos)


def named(text, names):
    """The place, from 1, of the name that the text or its first three letters are, in any case."""
    return next(((place,) for place, name in enumerate(names, 1) if text.lower() in (name, name[:3])), None)


GRAMMAR = {
    "date": (DATE, date),
    "ordinal_date": (ORDINAL_DATE, ordinal_date),
    "week_date": (WEEK_DATE, week_date),
    "time": (TIME, time),
    "date_time": (rf"{DATE}[T ]{TIME}", date_time),
    "duration": (DURATION, duration),
    "weekday": (r"([A-Za-z]+)", lambda text: named(text, WEEKDAYS)),
    "month": (r"([A-Za-z]+)", lambda text: named(text, MONTHS)),
}
LAX = {
    "date": (LAX_DATE, date),
    "ordinal_date": (rf"{LAX_YEAR}-\s*([0-9]{{1,3}})", ordinal_date),
    "week_date": (rf"{LAX_YEAR}-W{LAX_NUMBER}-\s*([1-7])", week_date),
    "time": (LAX_TIME, time),
    "date_time": (f"{LAX_DATE}T{LAX_TIME}", date_time),
    "weekday": GRAMMAR["weekday"],
    "month": GRAMMAR["month"],
}


def read(kind, text, grammar):
    """The numbers of the value that the text is of by a grammar, as words."""
    if kind == "duration" and text == "P0D":
        return "0"
    form, value = grammar[kind]
    matched = re.fullmatch(form, text)
    numbers = value(*matched.groups()) if matched else None
    return "none" if numbers is None else " ".join(map(str, numbers))


def in_full(answer):
    """The numbers of a row, of which zeros at the end may be left out."""
    return re.sub(r"( 0)+$", "", answer)


def read_rows():
    """The kinds, the texts and what they are read as."""
    return [re.fullmatch(r"(\w+) (.*?) = (.+)", line).groups() for line in standing_rows("reading")]


def read_otherwise(rows):
    """The places of the rows that are read otherwise here."""
    for place, (kind, text, stands) in enumerate(rows):
        right = read(kind, text, GRAMMAR)
        if in_full(right) != in_full(stands):
            print(f"{kind} {text} = {stands}, and is read here as {right}")
            yield place


def otherwise_by_chrono(rows):
    """The places of the rows that chrono reads otherwise, but where it is laxer."""
    given = by_chrono(f"{kind} {text}" for kind, text, _ in rows)
    asked = laxly = 0
    for place, ((kind, text, stands), right) in enumerate(zip(rows, given, strict=True)):
        asked += right != LACKS
        if right in (LACKS, stands):
            continue
        if stands == "none" and right == read(kind, text, LAX):
            laxly += 1
            continue
        print(f"{kind} {text} = {stands}, and chrono reads {right}")
        yield place
    print(f"{asked} texts are read by chrono {chrono_version()} too, {laxly} of them as its laxer reading has them")


def without_rows(rows):
    """The kinds of texts of which there is no row of a value, or none of no value."""
    kinds = {(kind, stands == "none") for kind, _, stands in rows}
    for kind in GRAMMAR:
        yield from (f"{kind}, of {'no' if is_none else 'a'} value" for is_none in (False, True) if (kind, is_none) not in kinds)


def main():
    rows = read_rows()
    others, missing = set(read_otherwise(rows)), list(without_rows(rows))
    for it in missing:
        print(f"no row: {it}")
    print(f"{len(rows)} texts are read here, {sum(stands == 'none' for _, _, stands in rows)} of them are of no value")
    lack = why_no_chrono()
    if lack:
        print(f"not run: the texts by chrono, since {lack}")
    else:
        others |= set(otherwise_by_chrono(rows))
    print(f"{len(rows) - len(others)} passed, {len(others) + len(missing)} failed")
    return 1 if others or missing else 0


if __name__ == "__main__":
    sys.exit(main())
