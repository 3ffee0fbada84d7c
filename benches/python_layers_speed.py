#!/usr/bin/env python3
"""Measures schedules, rules, open days and time zones from Python beside croniter, dateutil, numpy and zoneinfo, in one run.

    benches/python_layers_speed.py [ROUNDS]        (seven rounds if left out)

It needs croniter, dateutil and numpy, of this interpreter or Debian's, what the wheel needs, and the static libraries that `rt lib`
leaves in crates/calendar_c/out and crates/layers_c/out.

What ours answer has to be what the others answer before any is timed. Both take turns in each round, and the best one counts, by
processor time. A row has the time of a call, or of an instance of a rule, of ours and of the other.
"""
import datetime
import itertools
import os
import random
import sys
import tempfile
import time
import zipfile
import zoneinfo

TOP = os.path.dirname(os.path.dirname(os.path.abspath(__file__)))
sys.path.insert(0, os.path.join(TOP, "tools"))
import packages  # noqa: E402
from debian import restart_without  # noqa: E402
from packages import python  # noqa: E402

try:
    import croniter
    import numpy
    from dateutil import rrule
except ImportError:
    restart_without(None)
    sys.exit("croniter, dateutil and numpy are wanted: tools/setup installs Debian's")

LIBRARIES = {packages.CALENDAR: "calendar_c", packages.LAYERS: "layers_c"}
FIRST = datetime.datetime(2024, 3, 1, 0, 0, 30)
# Schedules, with how many starts there are for croniter.
SCHEDULES = {"* * * * *": 400, "*/15 9-17 * * 1-5": 400, "30 4 1,15 * 5": 200, "0 0 29 2 *": 40}
RULES = {
    "FREQ=DAILY": {"freq": rrule.DAILY},
    "FREQ=WEEKLY;INTERVAL=2;BYDAY=TU,FR": {"freq": rrule.WEEKLY, "interval": 2, "byweekday": (rrule.TU, rrule.FR)},
    "FREQ=MONTHLY;BYDAY=-1FR": {"freq": rrule.MONTHLY, "byweekday": rrule.FR(-1)},
    "FREQ=YEARLY;BYMONTH=2;BYMONTHDAY=29": {"freq": rrule.YEARLY, "bymonth": 2, "bymonthday": 29},
}
INSTANCES = 2_000
OURS_MORE = 20


def install(folder):
    """Makes the wheel and finds the package in it."""
    for name, crate in LIBRARIES.items():
        library = os.path.join(TOP, "crates", crate, "out", f"lib{crate}.a")
        if not os.path.exists(library):
            sys.exit(f"there is no {library}: run `rt lib` in crates/{crate}")
        packages.build(library, folder, name)
    _, wheel = sorted(python.make(TOP, folder, f"{folder}/dist"))
    with zipfile.ZipFile(wheel) as it:
        it.extractall(f"{folder}/python")
    sys.path.insert(0, f"{folder}/python")
    import proved_calendar

    return proved_calendar


def nanos(call, count, rounds):
    """The processor time of one of so many answers that a call gives, in its best round."""
    best = None
    for _ in range(rounds):
        began = time.process_time_ns()
        call()
        took = time.process_time_ns() - began
        best = took if best is None else min(best, took)
    return best / count


def tell(name, ours, theirs):
    print(f"| {name} | {ours:,.0f} | {theirs:,.0f} | {theirs / ours:,.1f} |", flush=True)


def wanted(name, ours, theirs):
    """Ends the program if the answers differ."""
    if ours != theirs:
        sys.exit(f"{name}: {ours[:3]} and {theirs[:3]}")


def time_schedules(ours, rounds):
    """The next moment from starts over a year, by one schedule of ours, and by one of croniter's or one that is made for each start."""
    for text, count in SCHEDULES.items():
        starts = [FIRST + datetime.timedelta(minutes=it * (525_600 // count)) for it in range(count)]
        moments, schedule = [ours.DateTime.from_datetime(it) for it in starts], ours.Schedule(text)
        next_of = croniter.croniter(text, FIRST)
        wanted(text, [schedule.next_after(it) for it in moments], [next_of.get_next(datetime.datetime, it) for it in starts])
        many = moments * OURS_MORE
        mine = nanos(lambda: [schedule.next_after(it) for it in many], len(many), rounds)
        tell(f"`{text}`, next moment", mine, nanos(lambda: [next_of.get_next(datetime.datetime, it) for it in starts], count, rounds))
        tell(f"`{text}`, croniter made anew", mine, nanos(lambda: [croniter.croniter(text, it).get_next(datetime.datetime) for it in starts], count, rounds))


def time_rules(ours, rounds):
    """The first instances of rules, one after another."""
    for text, parts in RULES.items():
        theirs = rrule.rrule(dtstart=datetime.datetime(2024, 1, 1), **parts)
        rule = ours.Rule(text, ours.DateTime(2024, 1, 1))
        # (dateutil ends with the year 9999)
        first = list(itertools.islice(theirs, INSTANCES))
        found = len(first)
        wanted(text, list(itertools.islice(rule, found)), first)
        mine = nanos(lambda: [*itertools.islice(rule, found)], found, rounds)
        tell(f"`{text}`, an instance", mine, nanos(lambda: [*itertools.islice(theirs, found)], found, rounds))


def time_open_days(ours, rounds):
    """Open days of single dates, by ten holidays a year."""
    days = numpy.arange("2020", "2030", 37, dtype="M8[D]")
    calendar, theirs = ours.BusinessCalendar(days.tolist()), numpy.busdaycalendar(holidays=days)
    starts = [calendar.roll(ours.Date(2020, 1, 1) + 3 * it, "following") for it in range(1000)]
    their_starts = [numpy.datetime64(str(it), "D") for it in starts]
    wanted("add", [str(calendar.add(it, 30)) for it in starts], [str(numpy.busday_offset(it, 30, busdaycal=theirs)) for it in their_starts])
    for name, call, their_call in [
        ("is open", calendar.is_open, lambda it: numpy.is_busday(it, busdaycal=theirs)),
        ("add 30 open days", lambda it: calendar.add(it, 30), lambda it: numpy.busday_offset(it, 30, busdaycal=theirs)),
    ]:
        mine = nanos(lambda: [call(it) for it in starts], 1000, rounds)
        tell(f"{name}, with {len(calendar.holidays)} holidays", mine, nanos(lambda: [their_call(it) for it in their_starts], 1000, rounds))


def time_own_zone(ours, rounds, their_zone, moments, theirs, to_zone):
    """The same moments by a Zone, in order and not, and back to UTC; how long zoneinfo takes to its clock is known."""
    zone, utc, count = ours.Zone(their_zone.key), datetime.timezone.utc, len(moments)
    shown, theirs_shown = [it.astimezone(zone) for it in moments], [it.astimezone(their_zone) for it in theirs]
    wanted("Zone", [(it.replace(tzinfo=None), it.fold) for it in shown], [(it.replace(tzinfo=None), it.fold) for it in theirs_shown])
    wanted("Zone, back", [it.astimezone(utc) for it in shown], [it.astimezone(utc) for it in theirs_shown])
    mixed = random.Random(67).sample(moments, count)
    tell("`astimezone(Zone)`", nanos(lambda: [it.astimezone(zone) for it in moments], count, rounds), to_zone)
    tell("`astimezone(Zone)`, in any order", nanos(lambda: [it.astimezone(zone) for it in mixed], count, rounds), to_zone)
    back = nanos(lambda: [it.astimezone(utc) for it in theirs_shown], count, rounds)
    tell("`astimezone(utc)` from a `Zone`", nanos(lambda: [it.astimezone(utc) for it in shown], count, rounds), back)
    tell("`utcoffset` in a `Zone`", nanos(lambda: [it.utcoffset() for it in shown], count, rounds), nanos(lambda: [it.utcoffset() for it in theirs_shown], count, rounds))


def time_zones(ours, rounds):
    """Times of UTC by New York's clock, one by one and as a column, and their offsets."""
    from proved_calendar import columns

    zone, utc, count = zoneinfo.ZoneInfo("America/New_York"), datetime.timezone.utc, 10_000
    column = numpy.datetime64("1970", "s") + numpy.arange(count) * 210_971
    theirs = [it.replace(tzinfo=utc) for it in column.tolist()]
    moments = [ours.DateTime.from_datetime(it) for it in theirs]
    wanted("astimezone", [it.astimezone(zone) for it in moments], [it.astimezone(zone) for it in theirs])
    offsets = [it.astimezone(zone).utcoffset() for it in theirs]
    wanted("offsets", columns.offsets(column, zone).tolist(), offsets)
    of_theirs = nanos(lambda: [it.astimezone(zone).utcoffset() for it in theirs], count, rounds)
    to_zone = nanos(lambda: [it.astimezone(zone) for it in theirs], count, rounds)
    tell("`astimezone` by zoneinfo's class", nanos(lambda: [it.astimezone(zone) for it in moments], count, rounds), to_zone)
    time_own_zone(ours, rounds, zone, moments, theirs, to_zone)
    tell("`columns.offsets`, all different", nanos(lambda: columns.offsets(column, zone), count, rounds), of_theirs)
    for name, step in (("each hour", 3_600), ("each minute", 60)):
        often = column[:1] + numpy.arange(count) * numpy.timedelta64(step, "s")
        many = [it.replace(tzinfo=utc) for it in often.tolist()]
        mine = nanos(lambda often=often: columns.offsets(often, zone), count, rounds)
        tell(f"`columns.offsets`, {name}", mine, nanos(lambda many=many: [it.astimezone(zone).utcoffset() for it in many], count, rounds))


def main():
    rounds = int(sys.argv[1]) if len(sys.argv) > 1 else 7
    with tempfile.TemporaryDirectory(prefix="python-layers-") as folder:
        ours = install(folder)
        print("| Call | Ours, ns | Theirs, ns | Ratio |\n|---|---|---|---|")
        for it in (time_schedules, time_rules, time_open_days, time_zones):
            it(ours, rounds)
    return 0


if __name__ == "__main__":
    sys.exit(main())
