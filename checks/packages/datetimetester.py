#!/usr/bin/env python3
"""Runs CPython 3.11's own tests of `date`, `datetime` and `timedelta` over proved_calendar's Date, DateTime and Duration.

    python3 -m checks.packages.datetimetester

The tests are those of TestDate, TestDateOnly, TestDateTime and TestTimeDelta in test/datetimetester.py, which Debian has in
libpython3.11-testsuite. The adapter gives them the types by datetime's names, and nothing else: `repr` of ours with the prefix
`datetime.`, which the tests cut off, the years of our calendar, and a `timezone` that gives datetime's own a timedelta for a Duration. A test that cannot pass stands below with its reason; each of
them has to fail, and each other test to pass. It needs Python 3.11 with proved_calendar installed; checks/packages/from_python.py runs it.
"""
import builtins
import datetime
import importlib
import sys
import types
import unittest

import proved_calendar
from proved_calendar import Date, DateTime, Duration, Time

FINER = "a nanosecond is kept where datetime rounds to a microsecond"
WIDER = "the years go beyond 1 to 9999, and durations beyond 999,999,999 days"
DAYS = "the difference of two dates is a whole number of days, and a date plus a whole number is a date"
LEAP = "second 60 is a leap second"
NO_CHECK = "bytes that have no day of a month make no date"
PROPERTY = "date and time are properties of a date-time, without brackets"
WITH_T = "the text of a date-time has a T"

# Each test that fails, and why.
EXCLUDED = {
    "TestTimeDelta": {
        "test_computations": FINER, "test_microsecond_rounding": FINER, "test_resolution_info": WIDER, "test_overflow": WIDER,
    },
    "TestDateOnly": {},
    "TestDate": {
        "test_computations": DAYS, "test_extreme_timedelta": DAYS, "test_backdoor_resistance": NO_CHECK,
        "test_fromisocalendar_value_errors": WIDER,
    },
    "TestDateTime": {
        "test_backdoor_resistance": NO_CHECK, "test_fromisocalendar_value_errors": WIDER,
        "test_timestamp_limits": WIDER, "test_extreme_timedelta": FINER, "test_bad_constructor_arguments": LEAP, "test_extract": PROPERTY,
        "test_combine": PROPERTY, "test_isoformat": WITH_T, "test_fromisoformat_datetime_examples": FINER,
    },
}


def repr_of(it):
    """The text that the tests want: ours, with the prefix of datetime's."""
    shown = builtins.repr(it)
    return f"datetime.{shown}" if isinstance(it, (Date, DateTime, Duration)) else shown


class Timezone:
    """datetime.timezone, which takes a timedelta: here it is given our Duration."""

    utc = datetime.timezone.utc

    def __new__(cls, offset, *name):
        return datetime.timezone(offset.to_timedelta(), *name)


def load_tests_over_ours():
    """The module of tests, which finds our types in a module of datetime's name."""
    adapter = types.ModuleType("datetime")
    adapter.__dict__.update(
        date=Date, datetime=DateTime, time=Time, timedelta=Duration, tzinfo=datetime.tzinfo, timezone=Timezone,
        UTC=datetime.timezone.utc, MINYEAR=Date.min.year, MAXYEAR=Date.max.year,
    )
    # (what the tests import keeps the true datetime)
    for name in ("test.support", "_strptime", "decimal", "pickle", "random"):
        importlib.import_module(name)
    sys.modules["datetime"] = adapter
    tests = importlib.import_module("test.datetimetester")
    tests.repr = repr_of
    tests.__dict__.update({name: getattr(proved_calendar, name) for name in ("Date", "DateTime", "Duration")})
    return tests


def why_wrong(case):
    """What a test says if it fails, or nothing."""
    result = unittest.TestResult()
    case.run(result)
    found = [text for _, text in (*result.failures, *result.errors)] + [f"skipped: {why}" for _, why in result.skipped]
    return found[0] if found else ""


def main():
    tests = load_tests_over_ours()
    passed, failed, total = 0, 0, 0
    for name, excluded in EXCLUDED.items():
        cases = list(unittest.defaultTestLoader.loadTestsFromTestCase(getattr(tests, name)))
        wrong = {it._testMethodName: why_wrong(it) for it in cases}
        failing = {it for it, why in wrong.items() if why}
        for it in sorted(failing - set(excluded)):
            print(f"FAILED: {name}.{it}\n{wrong[it]}")
        for it in sorted(set(excluded) - failing):
            print(f"FAILED: {name}.{it} is listed as one that fails, and passes or is none")
        print(f"{name}: {len(cases) - len(failing)} of {len(cases)} tests pass")
        bad = len(failing ^ set(excluded))
        passed, failed, total = passed + len(cases) - bad, failed + bad, total + len(cases) - len(failing)
    print(f"{total} of {passed + failed} tests of datetime pass; each other has its reason in {sys.argv[0]}")
    print(f"{passed} passed, {failed} failed")
    return 1 if failed else 0


if __name__ == "__main__":
    sys.exit(main())
