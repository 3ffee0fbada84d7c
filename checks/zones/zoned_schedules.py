#!/usr/bin/env python3
"""Holds zoned_cron to a cron that is run here, minute by minute over Python's zoneinfo, and to croniter where Debian has it.

    python3 -m checks.zones.zoned_schedules [--zones N] [--years N]      (all of 22 zones, and the one or two years that are named below, if left out)

The cron here keeps the last local minute that it has dealt with, as cronie does. If the clock has been set ahead, it runs the jobs of the
minutes in between at once. If the clock has been set back, it runs no job again until the clock is past that minute. A clock that has been set ahead
by three hours, or back by more, has been corrected: then it goes on from what the clock shows. A job that
follows the clock runs at each minute that the clock shows: one whose minutes or hours begin with `*`. The later instant of two is found by the same walk, from the end back.
The zones have gaps and folds of a quarter of an hour, of half an hour, of one hour and of two, at midnight too. Some have four changes in a year,
one that stays, or a day that the clock skips. In Casey the clock was set by just three hours, and in Kwajalein by almost a day.
Some days around each change are gone through by `next_after` and by `prev_before`, and some hours by `is_due` at each half minute. For schedules
with few times the whole year is gone through by `next_after`: for each zone for a third of them, or for all if --years is given, which then counts
from the first year of the zone. A small program answers, in a copy of the crates: proved by `rt run`, or by `rt try` where the crates are not
proved here.

croniter 1.3.5 is asked for the next instant after 20,000 starts that lie around the changes of all zones. It reckons with local time and sets the
answer right by the offsets at the start and at its answer. Where it answers otherwise, the difference is counted as one of these:
- `past`: its answer is no later than the start. It takes a start in the second hour of a fold for one in the first.
- `unplanned`: at its answer the clock shows no planned minute. The answer lies too early or too late by as much as the clock was set. A time in a
  gap goes by the offset before the gap, while cronie runs it at the first instant behind the gap. One that follows the clock runs there too.
- `left out`: the clock shows a planned minute, but a firing before it is left out, such as the one for a gap.
We go by cronie in all of them. Any other difference is a failure.
"""
import argparse
import collections
import datetime
import itertools
import os
import subprocess
import sys
import tempfile
import zoneinfo

from debian import PYTHON
from repositories import answers_of, put_program

# The lines of one run.
LINES = 150
HOUR = 3_600
DAY = 86_400
# The minutes by which a clock is set at least ahead, or by more than which back, where it has been corrected.
CORRECTION = 180
EPOCH = datetime.date(1970, 1, 1)
# Zones, each with its years.
ZONES = (("Australia/Lord_Howe", (2023,)), ("America/New_York", (2023,)), ("Antarctica/Troll", (2023,)), ("Europe/Berlin", (2023,)),
         ("Africa/Casablanca", (2012,)), ("Pacific/Apia", (2011,)), ("Europe/Dublin", (2023,)), ("Asia/Tehran", (2021,)), ("Asia/Kathmandu", (1986,)),
         ("America/St_Johns", (2006,)), ("America/Santiago", (2022,)), ("Asia/Gaza", (2023,)), ("America/Sao_Paulo", (2017,)), ("Pacific/Chatham", (2023,)),
         ("Atlantic/Azores", (2023,)), ("America/Godthab", (2023,)), ("Europe/Moscow", (2011, 2014)), ("Asia/Pyongyang", (2015, 2018)),
         ("America/Caracas", (2007, 2016)), ("Pacific/Kiritimati", (1994, 1995)),
         ("Antarctica/Casey", (2009, 2010)), ("Pacific/Kwajalein", (1969, 1993)))
FIELDS = ((0, 59), (0, 23), (1, 31), (1, 12), (0, 6))
# Schedules with fixed times, near the changes and at all times, and such as follow the clock.
SPARSE = ("30 2 * * *", "0 2 * * *", "15 1,2 * * *", "0,30 0-3 * * *", "45 23 * * *", "0 3 * * 0", "59 1 31 * *", "30 12 30,31 12 *", "15 2 29 10,3 *")
DENSE = ("*/20 0-22 * * *", "0-58/7 1-3 * * *", "30 * * * *", "* 2 * * *", "0 */2 * * *", "0-59/20 0-23 * * *")
EACH_MINUTE = "* * * * *"
# By each policy: a time of the gap or the fold, and a few.
ALL_WAYS = SPARSE[:1] + SPARSE[2:3]
CRONITER_CALLS = 20_000
# The seconds from one start to the next, as the program has them.
STEP = 2_713
CRONITER = """
import datetime
import sys
import zoneinfo
from croniter import croniter

step = int(sys.argv[1])
for line in sys.stdin.read().splitlines():
    name, _, _, _, start, end, text = line.split(" ", 6)
    zone = zoneinfo.ZoneInfo(name)
    starts = (datetime.datetime.fromtimestamp(it, datetime.timezone.utc).astimezone(zone) for it in range(int(start), int(end), step))
    print(*(int(croniter(text, it).get_next(datetime.datetime).timestamp()) for it in starts))
"""
POLICIES = [(gap, fold) for gap in ("skip", "after", "short") for fold in ("earlier", "later", "both", "short")]
# The steps that a program goes at most from a start to an end, so that a proof knows that it ends.
MOST_STEPS = "1_000_000"
# How a program goes through the instants of `PLAN` from `start` to `end`, and back.
WALKS = r'''        "next" => {
            let mut from = zone.timestamp_opt(start.saturating_sub(1), 999_999_999);
            for _ in 0..STEPS {
                let Some(instant) = from else {
                    break;
                };
                from = None;
                if let Some(next) = PLAN.next_after(instant) {
                    if next.timestamp() < end {
                        print!(rt; "{} ", next.timestamp())?;
                        from = Some(next);
                    }
                }
            }
        }
        "prev" => {
            let mut from = zone.timestamp_opt(end.saturating_sub(1), 1);
            for _ in 0..STEPS {
                let Some(instant) = from else {
                    break;
                };
                from = None;
                if let Some(prev) = PLAN.prev_before(instant) {
                    if start <= prev.timestamp() {
                        print!(rt; "{} ", prev.timestamp())?;
                        from = Some(prev);
                    }
                }
            }
        }
'''.replace("STEPS", MOST_STEPS)


# Asks for each line's zone, and answers the rest of the line in it.
MAIN = '''fn main(rt: HostRuntime) -> io::Result<()> {
    let Ok(database) = system_database(&rt) else {
        return Ok(());
    };
    for line in BufReader::new(rt.alloc(), rt.reader())?.lines(rt.alloc()) {
        let line = line?;
        let (name, words) = line.as_str().split_once(' ').unwrap_or((line.as_str(), ""));
        match database.zone(&rt, name) {
            Ok(zone) => answer(&rt, &zone.zone(), words)?,
            Err(error) => println!(rt; "= {error}")?,
        }
    }
    Ok(())
}
'''

PROGRAM = r'''//! Answers questions on schedules in a zone, a line each.
#![tactic(auto)]

use chrono_datetime::NaiveDateTime;
use chrono_instant::{FromTimestamp, Timestamp};
use std::io::{self, BufRead, BufReader};
use zone_database::system_database;
use zoned_cron::{Fold, Gap, InZone, Policy, TimeZone, ZonedSchedule, read_schedule};

''' + MAIN + r'''
// Answers `CALL GAP FOLD START END SCHEDULE`.
fn answer<Z: TimeZone>(rt: &HostRuntime, zone: Z, words: &str) -> io::Result<()> {
    let (call, words) = words.split_once(' ').unwrap_or((words, ""));
    let (gap, words) = words.split_once(' ').unwrap_or((words, ""));
    let (fold, words) = words.split_once(' ').unwrap_or((words, ""));
    let (start, words) = words.split_once(' ').unwrap_or((words, ""));
    let (end, text) = words.split_once(' ').unwrap_or((words, ""));
    let Ok(schedule) = read_schedule(text.as_bytes()) else {
        return println!(rt; "= no schedule");
    };
    let gap = match gap {
        "skip" => Gap::Skip,
        "short" => Gap::FirstAfterShort,
        _ => Gap::FirstAfter,
    };
    let policy = match fold {
        "vixie" => Policy::vixie(&schedule),
        "earlier" => Policy { gap, fold: Fold::Earlier },
        "later" => Policy { gap, fold: Fold::Later },
        "short" => Policy { gap, fold: Fold::EarlierOfShort },
        _ => Policy { gap, fold: Fold::Both },
    };
    let (start, end): (i64, i64) = (start.parse().unwrap_or(0), end.parse().unwrap_or(0));
    let zoned = ZonedSchedule::new(schedule, zone, policy);
    print!(rt; "= ")?;
    match call {
WALKS        "first" => {
            let mut second = start;
            for _ in 0..STEPS {
                if second >= end {
                    break;
                }
                if let Some(instant) = zone.timestamp_opt(second, 0) {
                    if let Some(next) = zoned.next_after(instant) {
                        print!(rt; "{} ", next.timestamp())?;
                    }
                }
                second = second.saturating_add(2_713);
            }
        }
        _ => {
            let mut second = start;
            for _ in 0..STEPS {
                if second >= end {
                    break;
                }
                if let Some(instant) = zone.timestamp_opt(second, 0) {
                    if zoned.is_due(instant) {
                        print!(rt; "{second} ")?;
                    }
                }
                second = second.saturating_add(30);
            }
        }
    }
    println!(rt; "")
}
'''.replace("WALKS", WALKS.replace("PLAN", "zoned")).replace("STEPS", MOST_STEPS)
USES = ["chrono_datetime", "chrono_instant", "zone", "zone_database", "zoned_cron"]


def numbers_of(field, low, high):
    """The numbers that a field lists."""
    listed = set()
    for item in field.split(","):
        span, _, step = item.partition("/")
        first, last = (low, high) if span == "*" else (int(it) for it in (span.split("-") * 2)[:2])
        listed |= set(range(first, last + 1, int(step or 1)))
    return listed


class Schedule:
    """A schedule by its text: which local minutes are planned, and whether it follows the clock."""

    def __init__(self, text):
        fields = text.split()
        self.minutes, self.hours, self.days, self.months, self.weekdays = (numbers_of(it, *ends) for it, ends in zip(fields, FIELDS))
        self.either = not (fields[2].startswith("*") or fields[4].startswith("*"))
        self.times = {60 * hour + minute for hour in self.hours for minute in self.minutes}
        self.follows_clock = any(it.startswith("*") for it in fields[:2])
        self.known = {}

    def has_day(self, day):
        """Whether a day, counted from 1970, is the schedule's."""
        if day not in self.known:
            date = EPOCH + datetime.timedelta(day)
            by_day, by_weekday = date.day in self.days, date.isoweekday() % 7 in self.weekdays
            self.known[day] = date.month in self.months and (by_day or by_weekday if self.either else by_day and by_weekday)
        return self.known[day]

    def is_planned(self, minute):
        """Whether a local minute, counted from 1970, is planned."""
        return minute % 1440 in self.times and self.has_day(minute // 1440)


def offset_at(zone, second):
    return int(datetime.datetime.fromtimestamp(second, datetime.timezone.utc).astimezone(zone).utcoffset().total_seconds())


def walk(zone, start, end):
    """Each minute from one second to another: its second, and the local minute that the clock shows. No clock is set twice within an hour."""
    after = offset_at(zone, start)
    for hour in range(start, end, HOUR):
        before, after = after, offset_at(zone, hour + HOUR)
        for second in range(hour, hour + HOUR, 60):
            yield second, (second + (before if before == after else offset_at(zone, second))) // 60


def cron(minutes, schedule, gap, fold):
    """The seconds at which jobs run, of minutes that were walked."""
    run = set()
    shown = dealt_with = minutes[0][1] - 1
    for second, local in minutes:
        caught_up = gap == "after" or gap == "short" and local - shown - 1 < CORRECTION
        if caught_up and local > dealt_with + 1 and any(schedule.is_planned(it) for it in range(dealt_with + 1, local)):
            run.add(second)
        if fold == "short" and shown + 1 - local > CORRECTION:
            dealt_with = local - 1
        if (fold == "both" or fold in ("earlier", "short") and local > dealt_with) and schedule.is_planned(local):
            run.add(second)
        dealt_with = max(dealt_with, local)
        shown = local
    if fold == "later":
        dealt_with = minutes[-1][1] + 1
        for second, local in reversed(minutes):
            if local < dealt_with and schedule.is_planned(local):
                run.add(second)
            dealt_with = min(dealt_with, local)
    return sorted(run)


def policy_of(schedule, gap, fold):
    """The policy by its two words; cronie's is told by the schedule."""
    if fold != "vixie":
        return gap, fold
    return ("skip", "both") if schedule.follows_clock else ("short", "short")


def questions(zone, year, texts):
    """Questions on a year of a zone, each with what the program has to answer; and the changes in the year."""
    start, end = ((datetime.date(it, 1, 1) - EPOCH).days * DAY for it in (year, year + 1))
    # (some days more on each side, so that the walk begins and ends with no change in sight)
    minutes = list(walk(zone, start - 3 * DAY, end + 3 * DAY))
    changes = [after[0] for before, after in itertools.pairwise(minutes) if after[1] != before[1] + 1]
    asked = [row for text in texts for row in of_window("next", minutes, start, end, text, "-", "vixie")]
    for change in changes:
        asked += of_change([it for it in minutes if abs(it[0] - change) <= 3 * DAY], change)
    return asked, changes


def of_change(near, change):
    """Questions on the days and the hours around a change."""
    for text in SPARSE:
        for gap, fold in [("-", "vixie"), *(POLICIES if text in ALL_WAYS else ())]:
            for call in ("next", "prev"):
                yield from of_window(call, near, change - DAY, change + DAY, text, gap, fold)
            yield from of_window("due", near, change - 3 * HOUR, change + 3 * HOUR, text, gap, fold)
    for text in DENSE:
        for call, before in (("next", HOUR), ("prev", HOUR), ("due", 3 * HOUR)):
            yield from of_window(call, near, change - before, change + before, text, "-", "vixie")
    for call, before in (("next", 3 * HOUR), ("prev", 120), ("due", 3 * HOUR)):
        yield from of_window(call, near, change - before, change + before, EACH_MINUTE, "-", "vixie")


def of_window(call, minutes, start, end, text, gap, fold):
    """A question on the instants between two, and its answer."""
    run = [it for it in runs_of(tuple(minutes[:1] + minutes[-1:]), minutes, text, gap, fold) if start <= it < end]
    yield f"{call} {gap} {fold} {start} {end} {text}", " ".join(map(str, run[::-1] if call == "prev" else run))


KEPT = {}


def runs_of(ends, minutes, text, gap, fold):
    """The seconds at which jobs run, of minutes that are told by their ends; the last ones are kept."""
    if KEPT.get("ends") != ends:
        KEPT.clear()
        KEPT["ends"] = ends
    if (text, gap, fold) not in KEPT:
        schedule = Schedule(text)
        KEPT[text, gap, fold] = cron(minutes, schedule, *policy_of(schedule, gap, fold))
    return KEPT[text, gap, fold]


def differing(rows, answers):
    return [f"{it}: {a}, not {b}" for (it, b), a in zip(rows, answers) if a != b]


def end(rows, answers, compared=0, others=(), find=differing):
    """Prints what differs and what others found, once a row with another answer is found, and ends. `compared` counts what others compared."""
    own = find(rows, answers)
    wrong = [*own, *others]
    for it in wrong[:20]:
        print(f"FAILED: {it[:300]}")
    changed = [(rows[0][0], f"{answers[0]} 0"), *rows[1:]]
    if len(find(changed, answers)) != len(own) + (answers[0] == rows[0][1]):
        sys.exit("a changed answer is not found")
    print(f"{len(rows) + compared - len(wrong)} passed, {len(wrong)} failed")
    sys.exit(bool(wrong))


def croniter_rows(changes, most):
    """Questions to which croniter answers too: the next instants after starts around the changes, about so many."""
    texts = [*SPARSE, *DENSE, EACH_MINUTE]
    starts = most // (len(changes) * len(texts)) + 1
    for name, change in changes:
        for place, text in enumerate(texts):
            start = change - starts * STEP // 2 + 97 * place
            yield f"{name} first - vixie {start} {start + starts * STEP} {text}"


def croniter_answers(rows):
    """What Debian's croniter answers to them, or None if it is not there."""
    asked = [PYTHON, "-c", CRONITER, str(STEP)]
    ran = subprocess.run(asked, input="\n".join(rows), stdout=subprocess.PIPE, stderr=subprocess.DEVNULL, text=True) if os.path.exists(PYTHON) else None
    return [it.split() for it in ran.stdout.splitlines()] if ran and ran.returncode == 0 else None


def kind_of(zone, schedule, start, ours, theirs):
    """How an answer of croniter differs, or None if for no reason that is listed."""
    local = (theirs + offset_at(zone, theirs)) // 60
    if theirs <= start:
        return "past"
    if not schedule.is_planned(local):
        return "unplanned"
    return "left out" if ours < theirs else None


def beside_croniter(rows, answers):
    """Counts how croniter answers otherwise; how many answers were compared, and the differences that are not listed."""
    told = croniter_answers(rows)
    if told is None:
        print("not run: schedules in zones beside croniter, since there is no python3-croniter")
        return 0, []
    counts, others, compared = collections.Counter(), [], 0
    for row, ours, theirs in zip(rows, answers, told):
        name, _, _, _, start, _, text = row.split(" ", 6)
        zone, schedule = zoneinfo.ZoneInfo(name), Schedule(text)
        for place, pair in enumerate(zip(map(int, ours.split()), map(int, theirs))):
            compared += 1
            if pair[0] != pair[1]:
                kind = kind_of(zone, schedule, int(start) + place * STEP, *pair)
                counts[kind] += 1
                others += [] if kind else [f"{row}: after {int(start) + place * STEP} {pair[0]}, and croniter {pair[1]}"]
        if len(ours.split()) != len(theirs):
            others.append(f"{row}: {len(ours.split())} answers, and {len(theirs)} of croniter")
    print(f"croniter: {compared} answers, of which it has {sum(counts.values())} otherwise: " + ", ".join(f"{n} {it}" for it, n in sorted(counts.items(), key=str)))
    return compared, others


def main():
    parser = argparse.ArgumentParser(description=__doc__.partition("\n")[0])
    parser.add_argument("--zones", type=int, default=len(ZONES))
    parser.add_argument("--years", type=int)
    options = parser.parse_args()
    if not zoneinfo.available_timezones():
        print("not run: checks/zones/zoned_schedules.py, which needs a database of time zones\n0 passed, 0 failed")
        return
    zones, rows, changes = ZONES[: options.zones], [], []
    for place, (name, years) in enumerate(zones):
        for year in range(years[0], years[0] + options.years) if options.years else years:
            asked, found = questions(zoneinfo.ZoneInfo(name), year, SPARSE if options.years else SPARSE[place % 3 :: 3])
            rows += [(f"{name} {it}", run) for it, run in asked]
            changes += [(name, it) for it in found]
    beside = list(croniter_rows(changes, CRONITER_CALLS))
    with tempfile.TemporaryDirectory(prefix="zoned_schedules-") as room:
        folder = put_program(room, "firings", USES, PROGRAM)
        answers = [it.strip() for it in answers_of(room, folder, USES, [*(it for it, _ in rows), *beside], LINES)]
    for name, _ in zones:
        pairs = [pair for pair in zip(rows, answers) if pair[0][0].startswith(name)]
        print(f"{name}: {len(pairs)} lines, {sum(a != b for (_, b), a in pairs)} answered otherwise")
    compared, others = beside_croniter(beside, answers[len(rows) :])
    end(rows, answers, compared, others)


if __name__ == "__main__":
    main()
