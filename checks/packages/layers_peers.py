#!/usr/bin/env python3
"""Holds the schedules of libcalendar_layers to croniter's, its rules to dateutil's, its open days to numpy's, and its zones to zoneinfo's.

    python3 -m checks.packages.layers_peers [CASES [SEED]]

It takes or builds the static library as checks/packages/languages.py does, and needs a C compiler, croniter, dateutil and numpy. The static library
becomes a shared one, which is called by ctypes. Each case is a generated schedule and a start: 20,000 cases, or so many. The next
and the last moment have to be croniter's. Left out is what the two read otherwise: a field of days that begins with `*` and has a
step, or lists all its numbers. So is what croniter 1.3 does not find: 29 February backwards, and a day in more than 50 years or in
a month that is too short for the days listed. As many cases count and move open days by generated weekends and holidays.

As many cases are instants and local times in the zones of this machine, half of them near a change. In a tenth of them the zone is the
rule at the end of its file, and the time a late one.

As many cases are recurrence rules with a start each. Their first 20 instances in 30 years have to be dateutil's, which a process on each
processor looks for. No case has BYWEEKNO without BYDAY, BYSETPOS in weeks, or weekdays of which some have numbers: there dateutil
departs from RFC 5545.
"""
import ctypes
import datetime
import itertools
import multiprocessing
import os
import random
import sys
import tempfile
import warnings
import zoneinfo

import packages
from checks.shared.results import Results
from debian import restart_without
from library import LAYERS, take_library

try:
    import croniter
    import numpy
    from dateutil import rrule
except ImportError:
    croniter = numpy = rrule = None

EPOCH = datetime.datetime(1970, 1, 1)
RANGES = ((0, 59), (0, 23), (1, 31), (1, 12), (0, 6))
WEEKDAYS = ("MO", "TU", "WE", "TH", "FR", "SA", "SU")
INSTANCES = 20


class Moment(ctypes.Structure):
    """A calendar_date_time."""

    _fields_ = [("seconds", ctypes.c_int64), ("nanos", ctypes.c_uint32)]


class Schedule(ctypes.Structure):
    """A calendar_schedule."""

    _fields_ = [(f"set_{k}", ctypes.c_uint64) for k in range(10)]


class Fault(ctypes.Structure):
    """A calendar_fault."""

    _fields_ = [("code", ctypes.c_uint32), ("field", ctypes.c_uint32), ("byte", ctypes.c_size_t), ("end", ctypes.c_size_t)]


class Offsets(ctypes.Structure):
    """A calendar_offsets."""

    _fields_ = [("count", ctypes.c_uint32), ("earlier", ctypes.c_int32), ("later", ctypes.c_int32)]


def load(library, room):
    """The static library as a shared one."""
    packages.build(library, room, packages.LAYERS)
    library = ctypes.CDLL(f"{room}/lib{packages.LAYERS}.so.0")
    for name in ("next", "prev"):
        function = getattr(library, f"calendar_schedule_{name}")
        function.restype, function.argtypes = Moment, [ctypes.POINTER(Schedule), Moment]
    library.calendar_schedule_read.restype = ctypes.c_bool
    return library


def apart(numbers, low, high):
    """Two numbers of a field in order, but not its first and its last."""
    first, last = sorted((numbers.randint(low, high), numbers.randint(low, high)))
    return first, last - ((first, last) == (low, high))


def is_left_out(theirs, ours, name):
    """Whether croniter does not find what it should."""
    day = EPOCH + datetime.timedelta(seconds=ours.seconds)
    return theirs is None or (name == "prev" and (day.month, day.day) == (2, 29))


def field(numbers, low, high, is_day):
    """A field: `*`, a number, a range, a list or a step."""
    one = lambda: numbers.randint(low, high)  # noqa: E731
    kind = numbers.randrange(6)
    if kind < 2:
        return "*"
    if kind == 2:
        return str(one())
    if kind == 3:
        first, last = apart(numbers, low, high)
        return f"{first}-{last}"
    if kind == 4:
        return ",".join(str(one()) for _ in range(numbers.randint(2, 4)))
    first, last = apart(numbers, low, high)
    return f"{first}-{last}/{numbers.randint(1, 5)}" if is_day or numbers.randrange(2) else f"*/{numbers.randint(1, high)}"


def peer(text, start, name):
    """Croniter's answer in seconds since 1970, or None."""
    try:
        found = getattr(croniter.croniter(text, start), f"get_{name}")(datetime.datetime)
    except croniter.CroniterBadDateError:
        return None
    return int((found - EPOCH).total_seconds())


def test_open_days(results, library, numbers, cases):
    """Counts and moves of open days beside numpy's."""
    library.calendar_open_days_between.restype = ctypes.c_int64
    for _ in range(cases):
        weekend = numbers.choice((96, 96, 64, 0, numbers.randrange(127)))
        mask = [not weekend >> k & 1 for k in range(7)]
        days = numpy.unique(numpy.array([numbers.randrange(10_000, 30_000) for _ in range(numbers.randrange(60))], "M8[D]"))
        calendar = numpy.busdaycalendar(mask, days)
        holidays = (calendar.holidays.astype("i8") + 719_163).astype("i4")
        given = weekend, holidays.ctypes.data_as(ctypes.c_void_p), ctypes.c_size_t(len(holidays))
        first, last = (numpy.datetime64(it, "D") for it in sorted(numbers.randrange(10_000, 30_000) for _ in range(2)))
        moved, n = numpy.busday_offset(first, 0, "forward", busdaycal=calendar), numbers.randrange(-400, 400)
        theirs = int(numpy.busday_offset(moved, n, busdaycal=calendar).astype("i8")) + 719_163
        start = int(moved.astype("i8")) + 719_163
        is_moved = library.calendar_add_open_days(*given, start, ctypes.c_int64(n)) == theirs
        ends = (int(it.astype("i8")) + 719_163 for it in (first, last))
        count = library.calendar_open_days_between(*given, *ends)
        is_same = is_moved and count == numpy.busday_count(first, last, busdaycal=calendar)
        results.count(is_same, f"weekend {weekend}, {len(holidays)} holidays: {start} and {n}, or {first} to {last}")


def test_schedules(results, library, numbers, cases):
    """The next and the last moment of schedules beside croniter's; how many answers were left out."""
    left_out = 0
    for _ in range(cases):
        text = " ".join(field(numbers, low, high, place in (2, 4)) for place, (low, high) in enumerate(RANGES))
        start = EPOCH + datetime.timedelta(seconds=numbers.randrange(10**9, 3 * 10**9))
        schedule, fault = Schedule(), Fault()
        is_read = library.calendar_schedule_read(text.encode(), len(text), ctypes.byref(schedule), ctypes.byref(fault))
        for name in ("next", "prev"):
            at = Moment(int((start - EPOCH).total_seconds()), 0)
            ours = getattr(library, f"calendar_schedule_{name}")(ctypes.byref(schedule), at)
            theirs = peer(text, start, name)
            if is_left_out(theirs, ours, name):
                left_out += 1
                continue
            is_same = is_read and ours.nanos == 0 and ours.seconds == theirs
            results.count(is_same, f"{text}: {name} of {start} is {ours.seconds}, croniter has {theirs}")
    return left_out


def zone_files():
    """The bytes of each zone's file, by its name."""
    found = {}
    for folder, name in itertools.product(zoneinfo.TZPATH, sorted(zoneinfo.available_timezones())):
        if name not in found and os.path.isfile(f"{folder}/{name}"):
            with open(f"{folder}/{name}", "rb") as it:
                found[name] = it.read()
    return found


def seconds_of(offset):
    """A duration in whole seconds."""
    return offset // datetime.timedelta(seconds=1)


def local_peer(zone, local):
    """The offsets of zoneinfo at the instants that show a local time, the earlier instant first."""
    found = set()
    for fold in (0, 1):
        offset = local.replace(tzinfo=zone, fold=fold).utcoffset()
        shown = (local - offset).replace(tzinfo=datetime.timezone.utc).astimezone(zone)
        if shown.replace(tzinfo=None) == local:
            found.add(seconds_of(offset))
    return sorted(found, reverse=True)


def test_zones(results, library, numbers, cases):
    """The offsets of instants and of local times beside zoneinfo's."""
    library.calendar_zone_offsets_of_local.restype, library.calendar_zone_holds_until.restype = Offsets, ctypes.c_int64
    files = zone_files()
    results.count(len(files) > 300, f"{len(files)} zones have files in {zoneinfo.TZPATH}")
    for _ in range(cases if files else 0):
        name = numbers.choice(sorted(files))
        zone, rule = zoneinfo.ZoneInfo(name), files[name].rstrip(b"\n").rpartition(b"\n")[2]
        is_late = bool(rule) and numbers.random() < 0.1
        given = rule if is_late else files[name]
        given = given, ctypes.c_size_t(len(given))
        at = numbers.randrange(*((2_200_000_000, 9_000_000_000) if is_late else (-2_500_000_000, 5_000_000_000)))
        until = library.calendar_zone_holds_until(*given, ctypes.c_int64(at))
        if numbers.randrange(2) and until < 2**40:
            at = until + numbers.choice((-1, 0, numbers.randrange(-9_000, 9_000)))
        utc = EPOCH + datetime.timedelta(seconds=at)
        theirs = seconds_of(utc.replace(tzinfo=datetime.timezone.utc).astimezone(zone).utcoffset())
        ours = library.calendar_zone_offset_at(*given, ctypes.c_int64(at))
        local = library.calendar_zone_offsets_of_local(*given, ctypes.c_int64(at))
        found = [local.earlier, local.later][: local.count]
        is_same = (ours, found) == (theirs, local_peer(zone, utc))
        results.count(is_same, f"{name} at {at}: {ours} and {found}, zoneinfo has {theirs} and {local_peer(zone, utc)}")


def listed(numbers, choices, most=3):
    """Some of the choices, as a list of a rule."""
    return ",".join(str(it) for it in numbers.sample(choices, numbers.randint(1, most)))


def rule(numbers):
    """The text of a rule."""
    frequency = numbers.choice(("DAILY", "WEEKLY", "MONTHLY", "YEARLY"))
    parts = [f"FREQ={frequency}", *([f"INTERVAL={numbers.randint(2, 5)}"] if numbers.random() < 0.4 else [])]
    has_numbers, is_by_weeks = frequency in ("MONTHLY", "YEARLY"), frequency == "YEARLY" and numbers.random() < 0.2
    if numbers.random() < 0.3 and not is_by_weeks:
        parts.append(f"BYMONTH={listed(numbers, range(1, 13))}")
    if numbers.random() < 0.4 and frequency != "WEEKLY" and not is_by_weeks:
        parts.append(f"BYMONTHDAY={listed(numbers, [*range(1, 32), *range(-31, 0)])}")
    if numbers.random() < 0.4 or is_by_weeks:
        places = (1, 2, 4, -1, -2) if has_numbers and not is_by_weeks and numbers.random() < 0.5 else ("",)
        days = [f"{n}{day}" for day in WEEKDAYS for n in places]
        parts.append(f"BYDAY={listed(numbers, days)}")
    if is_by_weeks:
        parts.append(f"BYWEEKNO={listed(numbers, range(2, 52))}")
    if has_numbers and len(parts) > 2 and parts[-1].startswith("BY") and numbers.random() < 0.3:
        parts.append(f"BYSETPOS={listed(numbers, (1, 2, 3, -1, -2), 2)}")
    if numbers.random() < 0.3:
        parts.append(f"COUNT={numbers.randint(1, 15)}")
    return ";".join(parts)


def rule_peer(given):
    """The first instances by dateutil of a rule from its start to a day, as numbers of days."""
    text, start, until = given
    # (COUNT beside UNTIL, which no text of a rule has)
    warnings.simplefilter("ignore", DeprecationWarning)
    found = rrule.rrulestr(text, dtstart=start).replace(until=until)
    return [it.toordinal() for it in itertools.islice(found, INSTANCES)]


def test_rules(results, library, numbers, cases):
    """The first instances of rules beside dateutil's."""
    library.calendar_rule_instances.restype = ctypes.c_size_t
    out, room = (ctypes.c_int32 * INSTANCES)(), ctypes.c_size_t(INSTANCES)
    given = []
    for _ in range(cases):
        text, start = rule(numbers), EPOCH + datetime.timedelta(days=numbers.randrange(10_000, 30_000))
        given.append((text, start, start + datetime.timedelta(days=11_000)))
    with multiprocessing.Pool() as processes:
        for (text, start, until), theirs in zip(given, processes.imap(rule_peer, given, 50)):
            days = start.toordinal(), start.toordinal(), until.toordinal()
            found = library.calendar_rule_instances(text.encode(), ctypes.c_size_t(len(text)), *days, out, room)
            results.count(out[:found] == theirs, f"{text} from {start}: {out[:found]}, dateutil has {theirs}")


def main():
    restart_without(croniter)
    if croniter is None:
        print("not run: checks/packages/layers_peers.py, which needs python3-croniter, python3-dateutil and python3-numpy\n0 passed, 0 failed")
        return 0
    cases = int(sys.argv[1]) if len(sys.argv) > 1 else 20_000
    results, numbers = Results(), random.Random(int(sys.argv[2]) if len(sys.argv) > 2 else 1)
    with tempfile.TemporaryDirectory(prefix="layers-peers-") as room:
        found = take_library(results, LAYERS)
        if found:
            library = load(found, room)
            left_out = test_schedules(results, library, numbers, cases)
            print(f"{left_out} answers on schedules were left out")
            test_open_days(results, library, numbers, cases)
            test_zones(results, library, numbers, cases)
            test_rules(results, library, numbers, cases)
    print(f"{results.passed} passed, {results.failed} failed")
    return 1 if results.failed else 0


if __name__ == "__main__":
    sys.exit(main())
