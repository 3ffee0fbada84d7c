#!/usr/bin/env python3
"""Holds zoned_rules to dateutil's rules over local times, which two sentences of RFC 5545 lead to instants by Python's zoneinfo.

    python3 -m checks.zones.zoned_rules [--zones N] [--years N] [--lines N] [--seed N]

All changes of N zones of six are gone through, in so many years of each (2 and 1, if left out). N lines more are drawn by chance near changes
of all six zones from 2000 to 2029 (20,000, if left out). A line asks about seven questions.

dateutil's `rrule` gives the local times of a rule, with no zone. Each stands for an instant by RFC 5545, 3.3.5: the first at which the clock
shows it, or by the offset before the gap. Instants that are one count once. A local time counts that is no earlier than the start by the clock, and
whose instant is no earlier than the start's.
A rule by hours, minutes or seconds is FREQ=HOURLY, MINUTELY or SECONDLY with INTERVAL there, and steps of the clock here. dateutil refuses an
interval that never meets a list of the rule, where the program finds no instance.
COUNT and UNTIL are held to the instants here, not to the local times. Of some rules one instant is made an exception, and the instant ten
minutes behind it is set beside the rule. The zones have gaps and folds of half an hour, of one hour and of two, four
changes in a year, and a day that the clock skips. Some days around each change are gone through by `next_after` and by `prev_before`, and
some hours by `is_instance` at each quarter of an hour. A small program answers, in a copy of the crates. Where they are proved here, `rt run`
proves it too, and its answers take seconds. Otherwise `rt try` runs it unproved, a hundred times as slowly.

dateutil is also asked for the instants of `next` itself, with the zone at the start. Where it answers otherwise, it is for one of these reasons:
- `order`: it lists the instants in the order of the local times. A gap moves some behind later ones, or twice onto one.
- `count` and `until`: COUNT counts local times there, and a rule ends at the first local time that is past UNTIL.
- `start`: the clock skips the start. A later local time may then stand for an earlier instant than the start. dateutil lists it.
We list each instant once, in order, and hold the bounds to them. Any other difference is a failure.
"""
import argparse
import collections
import datetime
import functools
import itertools
import random
import tempfile
import zoneinfo

from checks.zones.zoned_schedules import MAIN, MOST_STEPS, WALKS, end
from debian import restart_without
from repositories import answers_of, put_program

try:
    import dateutil.rrule
except ImportError:
    dateutil = None

# The lines of one run.
LINES = 6
QUARTER = 900
HOUR = 3_600
DAY = 86_400
EPOCH = datetime.datetime(1970, 1, 1)
# Zones, each with its first year here.
ZONES = (("Australia/Lord_Howe", 2023), ("America/New_York", 2023), ("Antarctica/Troll", 2023), ("Europe/Berlin", 2023), ("Africa/Casablanca", 2012),
         ("Pacific/Apia", 2011))
# Rules of days, each with the hours, the minutes and the seconds that it lists. A rule that counts hours, minutes or seconds has its unit and its
# interval behind them.
RULES = (
    ("FREQ=DAILY", "", "", ""),
    ("FREQ=DAILY", "2", "30", "0"),
    ("FREQ=DAILY", "0,1,2,3,23", "0,15,30,59", ""),
    ("FREQ=DAILY;INTERVAL=2", "2,3", "30", "0,59"),
    ("FREQ=WEEKLY;BYDAY=SU", "1,2", "0,30", ""),
    ("FREQ=MONTHLY;BYDAY=-1SU", "2", "", "30"),
    ("FREQ=MONTHLY;BYMONTHDAY=29,30,31", "", "0,45", ""),
    ("FREQ=MONTHLY;BYDAY=SA,SU;BYSETPOS=-1,-2", "", "", ""),
    ("FREQ=YEARLY;BYMONTH=3,4,9,10,11,12", "2", "15", ""),
    ("FREQ=DAILY", "", "", "", "H1"),
    ("FREQ=DAILY", "", "0,15", "", "H1"),
    ("FREQ=DAILY;BYDAY=SA,SU", "", "", "", "H5"),
    ("FREQ=DAILY", "1,2,3", "", "0,30", "H7"),
    ("FREQ=DAILY;BYMONTHDAY=-1,1,2,3,4,26,27", "", "", "", "H26"),
    ("FREQ=DAILY", "", "", "", "M30"),
    ("FREQ=DAILY;BYMONTH=1,3,4,9,10,11,12", "2", "", "", "M45"),
    ("FREQ=DAILY;BYDAY=SU,MO", "", "30", "0", "M50"),
    ("FREQ=DAILY", "0,1,2,3,4", "", "", "M1501"),
    ("FREQ=DAILY", "", "", "0,30", "S1800"),
    ("FREQ=DAILY", "", "", "", "S5400"),
    ("FREQ=DAILY;BYDAY=SU", "1,2,3", "0,29,30,31", "", "S97"),
    ("FREQ=DAILY", "", "", "", "S90061"),
)
# The words of FREQ.
UNITS = {"H": "HOURLY", "M": "MINUTELY", "S": "SECONDLY"}
# The years of changes that are drawn, and rules of days for them.
DRAWN = (2_000, 2_030)
DAYS = ("FREQ=DAILY", "FREQ=DAILY;INTERVAL=3", "FREQ=WEEKLY;BYDAY=SU", "FREQ=WEEKLY;INTERVAL=2;BYDAY=SA,SU,MO", "FREQ=MONTHLY;BYDAY=1SU,2SU,-1SU", "FREQ=MONTHLY;BYMONTHDAY=1,2,-1,-2",
        "FREQ=MONTHLY;BYDAY=SU;BYMONTHDAY=8,9,10,11,12,13,14", "FREQ=YEARLY;BYDAY=SU", "FREQ=YEARLY;BYMONTH=3,4,10,11,12;BYDAY=-1SU,-1SA,1SU", "FREQ=DAILY;BYDAY=MO,SU")
# The starts, as hours, minutes and seconds.
STARTS = ((2, 30, 0), (0, 0, 0), (3, 0, 1), (1, 45, 59), (23, 15, 0))
PROGRAM = r'''//! Answers questions on rules in a zone, a line each.
#![tactic(auto)]

use chrono_datetime::NaiveDateTime;
use chrono_instant::{FromTimestamp, Timestamp};
use chrono_sets::NumberSet;
use std::io::{self, BufRead, BufReader};
use zone_database::system_database;
use zoned_rules::{Bound, ClockSteps, ClockUnit, DayTimes, InZone, LocalRule, TimeZone, ZonedRecurrence, ZonedRule, instant_of, read_rule};

''' + MAIN + r'''
// The numbers that commas separate.
fn listed(text: &str) -> NumberSet {
    let mut set = NumberSet::none();
    let mut rest = text;
    for _ in 0..64 {
        let (first, others) = rest.split_once(',').unwrap_or((rest, ""));
        let number: u32 = first.parse().unwrap_or(64);
        if number < 64 {
            set = set.with(number);
        }
        rest = others;
    }
    set
}

// The steps that a letter and a number name.
fn steps_of(text: &str) -> ClockSteps {
    let unit = match text.as_bytes().first() {
        Some(b'H') => ClockUnit::Hour,
        Some(b'M') => ClockUnit::Minute,
        Some(b'S') => ClockUnit::Second,
        _ => ClockUnit::Day,
    };
    let interval = match text.get(1..) {
        Some(number) => number.parse().unwrap_or(1),
        None => 1,
    };
    ClockSteps { unit, interval }
}

// Answers `CALL START END DTSTART BOUND NUMBER HOURS MINUTES SECONDS STEPS RULE`.
fn answer<Z: TimeZone>(rt: &HostRuntime, zone: Z, words: &str) -> io::Result<()> {
    let (call, words) = words.split_once(' ').unwrap_or((words, ""));
    let (start, words) = words.split_once(' ').unwrap_or((words, ""));
    let (end, words) = words.split_once(' ').unwrap_or((words, ""));
    let (local, words) = words.split_once(' ').unwrap_or((words, ""));
    let (bound, words) = words.split_once(' ').unwrap_or((words, ""));
    let (number, words) = words.split_once(' ').unwrap_or((words, ""));
    let (hours, words) = words.split_once(' ').unwrap_or((words, ""));
    let (minutes, words) = words.split_once(' ').unwrap_or((words, ""));
    let (seconds, words) = words.split_once(' ').unwrap_or((words, ""));
    let (steps, text) = words.split_once(' ').unwrap_or((words, ""));
    let Ok(days) = read_rule(text.as_bytes()) else {
        return println!(rt; "= no rule");
    };
    let (start, end): (i64, i64) = (start.parse().unwrap_or(0), end.parse().unwrap_or(0));
    let Some(local) = NaiveDateTime::from_timestamp(local.parse().unwrap_or(0), 0) else {
        return println!(rt; "= no start");
    };
    let bound = match bound {
        "count" => Bound::Count(number.parse().unwrap_or(0)),
        "until" => match NaiveDateTime::from_timestamp(number.parse().unwrap_or(0), 0) {
            Some(last) => Bound::Until(last),
            None => Bound::Never,
        },
        _ => Bound::Never,
    };
    let except: i64 = number.parse().unwrap_or(0);
    let times = DayTimes {
        hours: listed(hours),
        minutes: listed(minutes),
        seconds: listed(seconds),
    };
    let Some(plan) = LocalRule::by_clock(steps_of(steps), days, times, local) else {
        return println!(rt; "= refused");
    };
    let rule = ZonedRule::new(plan, zone, bound);
    print!(rt; "= ")?;
    match call {
WALKS        "set" => {
            // (the bound's number is the exception)
            let (Some(left_out), Some(beside)) = (zone.timestamp_opt(except, 0), zone.timestamp_opt(except.saturating_add(600), 0)) else {
                return println!(rt; "no instants");
            };
            let (mut dates, mut exceptions) = (Vec::new(rt.alloc()), Vec::new(rt.alloc()));
            if dates.push(beside).is_err() || exceptions.push(left_out).is_err() {
                return println!(rt; "no memory");
            }
            let set = ZonedRecurrence {
                rule,
                dates: &dates,
                exceptions: &exceptions,
            };
            let mut from = zone.timestamp_opt(start.saturating_sub(1), 999_999_999);
            for _ in 0..STEPS {
                let Some(instant) = from else {
                    break;
                };
                from = None;
                if let Some(next) = set.next_after(instant) {
                    if next.timestamp() < end && set.is_instance(next) {
                        print!(rt; "{} ", next.timestamp())?;
                        from = Some(next);
                    }
                }
            }
            let mut to = zone.timestamp_opt(end.saturating_sub(1), 1);
            for _ in 0..STEPS {
                let Some(instant) = to else {
                    break;
                };
                to = None;
                if let Some(prev) = set.prev_before(instant) {
                    if start <= prev.timestamp() {
                        print!(rt; "{} ", prev.timestamp())?;
                        to = Some(prev);
                    }
                }
            }
        }
        "local" => {
            let mut second = start;
            for _ in 0..STEPS {
                if second >= end {
                    break;
                }
                if let Some(shown) = NaiveDateTime::from_timestamp(second, 0) {
                    if let Some(instant) = instant_of(zone, shown) {
                        print!(rt; "{} ", instant.timestamp())?;
                    }
                }
                second = second.saturating_add(900);
            }
        }
        _ => {
            let mut second = start;
            for _ in 0..STEPS {
                if second >= end {
                    break;
                }
                if let Some(instant) = zone.timestamp_opt(second, 0) {
                    if rule.is_instance(instant) {
                        print!(rt; "{second} ")?;
                    }
                }
                second = second.saturating_add(900);
            }
        }
    }
    println!(rt; "")
}
'''.replace("WALKS", WALKS.replace("PLAN", "rule")).replace("STEPS", MOST_STEPS)
USES = ["chrono_sets", "chrono_datetime", "chrono_instant", "zone", "zone_database", "zoned_rules"]


def seconds_of(naive):
    """The seconds from 1970 of a date-time with no zone."""
    return int((naive - EPOCH).total_seconds())


def ahead(zone, second):
    """How far the clock is ahead of UTC at a second."""
    return int(datetime.datetime.fromtimestamp(second, zone).utcoffset().total_seconds())


def stands_for(zone, local):
    """The instant that a local second stands for: the first one that shows it, or else by the offset before the gap."""
    offsets = {ahead(zone, it) for it in (local - DAY, local + DAY)} | {ahead(zone, local - it) for it in range(-14 * HOUR, 14 * HOUR, QUARTER)}
    shown = [local - it for it in offsets if ahead(zone, local - it) == it]
    if shown:
        return min(shown)
    low, high = local - DAY, local + DAY
    while high - low > 1:
        middle = (low + high) // 2
        low, high = (middle, high) if middle + ahead(zone, middle) < local else (low, middle)
    return local - ahead(zone, low)


class Known:
    """The instants of local seconds of a zone, each found once."""

    def __init__(self, zone):
        self.zone, self.found, self.steady = zone, {}, {}

    def __getitem__(self, local):
        day = local // DAY
        if day not in self.steady:
            self.steady[day] = {ahead(self.zone, it) for it in range((day - 2) * DAY, (day + 3) * DAY, QUARTER)}
        if len(self.steady[day]) == 1:
            return local - min(self.steady[day])
        if local not in self.found:
            self.found[local] = stands_for(self.zone, local)
        return self.found[local]


def instances(known, rule, start, end):
    """The instants of a rule from a local start on, in order, up to one at least."""
    from dateutil.rrule import rrulestr
    text, hours, minutes, seconds = rule[:4]
    parts = [f"{name}={numbers}" for name, numbers in (("BYHOUR", hours), ("BYMINUTE", minutes), ("BYSECOND", seconds)) if numbers]
    if rule[4:]:
        text = text.replace("FREQ=DAILY", f"FREQ={UNITS[rule[4][0]]};INTERVAL={rule[4][1:]}")
    begun = known[seconds_of(start)]
    last = EPOCH + datetime.timedelta(seconds=end + 2 * DAY)
    found = set()
    try:
        rrule = rrulestr(";".join([text, *parts]), dtstart=start)
        found.update(known[seconds_of(it)] for it in itertools.takewhile(lambda it: it <= last, rrule))
    except ValueError as error:
        # (it refuses an interval that never meets a list, where we find no instance)
        if "empty set" not in str(error) and "empty rule" not in str(error):
            raise
    return sorted(it for it in found if begun <= it)


def questions(name, first, years):
    """Questions on a zone, each with what the program has to answer."""
    zone = zoneinfo.ZoneInfo(name)
    known = Known(zone)
    for year in range(first, first + years):
        start, end = (seconds_of(datetime.datetime(it, 1, 1)) for it in (year, year + 1))
        walked = [(it, ahead(zone, it)) for it in range(start, end + 1, QUARTER)]
        for before, after in itertools.pairwise(walked):
            if before[1] != after[1]:
                yield from of_change(known, after[0])


def of_change(known, change):
    """Questions on the days and the hours around a change."""
    near = change + ahead(known.zone, change)
    shown = [known[it] for it in range(near - 4 * HOUR, near + 4 * HOUR, QUARTER)]
    yield f"local {near - 4 * HOUR} {near + 4 * HOUR} 0 - 0 - - - D1 FREQ=DAILY", " ".join(map(str, shown))
    day = EPOCH + datetime.timedelta(days=near // DAY)
    for number, rule in enumerate(RULES):
        # (one start of a rule with steps, since there are many of its instances)
        for back, clock in list(zip((1, 0, 9), STARTS[number % 3:]))[:1 if rule[4:] else 3]:
            start = (day - datetime.timedelta(days=back)).replace(hour=clock[0], minute=clock[1], second=clock[2])
            yield from of_rule(known, rule, start, change, back == 1)


def of_rule(known, rule, start, change, all_bounds):
    """Questions on a rule around a change: with no end, or with COUNT, with UNTIL, and with an exception and an instant beside it, too."""
    found = instances(known, rule, start, change + 4 * DAY)
    some = [it for it in found if it < change + DAY]
    bounds = [("-", 0, found), ("count", len(some), some)]
    if some:
        bounds.append(("until", some[-1], some))
        bounds.append(("until", some[-1] - 1, some[:-1]))
    if not all_bounds:
        bounds = bounds[:1]
    near = [it for it in found if change - 2 * DAY <= it < change + 2 * DAY]
    if all_bounds and near:
        number = near[len(near) // 3]
        within = sorted({*(it for it in found if it != number), number + 600})
        low, high = number - 6 * HOUR, number + DAY
        listed = [it for it in within if low <= it < high]
        yield line_of("set", low, high, start, "-", number, rule), " ".join(map(str, listed + listed[::-1]))
    for bound, number, within in bounds:
        # (a call with COUNT counts from the start on, so that few are asked)
        wide = (2 * DAY, 2 * DAY) if bound == "-" and len(found) < 60 else (3 * HOUR, DAY) if bound != "count" else (HOUR, 3 * HOUR)
        for call, (before, behind) in (("next", wide), ("prev", wide), ("is", (HOUR, 2 * HOUR))):
            if call == "is" and bound != "-":
                continue
            low, high = change - before, change + behind
            listed = [it for it in within if low <= it < high and (call != "is" or (it - low) % QUARTER == 0)]
            yield line_of(call, low, high, start, bound, number, rule), " ".join(map(str, listed[::-1] if call == "prev" else listed))


def changes_of(zone):
    """The first seconds of a zone's offsets in the years of DRAWN."""
    first, last = (seconds_of(datetime.datetime(it, 1, 1)) for it in DRAWN)
    for low, high in itertools.pairwise(range(first, last, DAY // 2)):
        if ahead(zone, low) != ahead(zone, high):
            while high - low > 1:
                middle = (low + high) // 2
                low, high = (middle, high) if ahead(zone, middle) == ahead(zone, low) else (low, middle)
            yield high


def some_of(draw, numbers, most):
    """Some of the numbers, between commas."""
    return ",".join(map(str, sorted(draw.sample(numbers, draw.randint(1, most))))) if draw.random() < 0.6 else ""


def drawn_rule(draw):
    """A rule of RULES, or one drawn by chance."""
    if draw.random() < 0.2:
        return draw.choice([it for it in RULES if it[4:] != ("S97",)])
    hours, minutes, seconds = some_of(draw, range(5), 3), some_of(draw, (0, 15, 29, 30, 31, 45, 59), 3), some_of(draw, (0, 1, 30, 59), 2)
    if draw.random() < 0.6:
        return draw.choice(DAYS), hours, minutes, seconds
    unit, least, most = draw.choice((("H", 1, 50), ("M", 5, 3_000), ("S", 600, 180_000)))
    text = draw.choice(("FREQ=DAILY", "FREQ=DAILY;BYDAY=SA,SU", "FREQ=DAILY;BYDAY=SU,MO,TU,FR", "FREQ=DAILY;BYMONTH=3,4,9,10,11,12"))
    return text, hours, minutes, seconds, f"{unit}{draw.randint(least, most)}"


def drawn(count, seed):
    """So many questions around changes, of zones, rules and starts drawn by chance."""
    draw = random.Random(seed)
    zones = [(name, Known(zoneinfo.ZoneInfo(name))) for name, _ in ZONES]
    changes = {name: list(changes_of(known.zone)) for name, known in zones}
    rows = []
    while len(rows) < count:
        name, known = draw.choice(zones)
        change = draw.choice(changes[name])
        shown = EPOCH + datetime.timedelta(seconds=change + ahead(known.zone, change), days=-draw.randint(0, 9))
        start = shown.replace(hour=draw.choice((0, 1, 2, 3, 12, 23)), minute=draw.choice((0, 15, 30, 59)), second=draw.choice((0, 0, 1, 59)))
        rows += [(f"{name} {it}", run) for it, run in of_rule(known, drawn_rule(draw), start, change, True)]
    return rows[:count]


def rule_in(row):
    """The rule of a question, as RULES has it, and its start."""
    start, _, _, *parts, steps, text = row.split(" ", 10)[3:]
    return (text, *("" if it == "-" else it[:-1] for it in parts), *([steps] if steps != "D1" else [])), EPOCH + datetime.timedelta(seconds=int(start))


@functools.lru_cache(maxsize=8)
def of_dateutil(zone, rule, start, bound, last):
    """The instants that Python gives for dateutil's times of a rule, up to a last one, where the start has the zone and the text has the bound."""
    from dateutil.rrule import rrulestr
    text, *numbers = rule[:4]
    parts = [f"{name}={it}" for name, it in zip(("BYHOUR", "BYMINUTE", "BYSECOND"), numbers) if it]
    if rule[4:]:
        text = text.replace("FREQ=DAILY", f"FREQ={UNITS[rule[4][0]]};INTERVAL={rule[4][1:]}")
    try:
        found = rrulestr(";".join([text, *parts]) + bound, dtstart=start.replace(tzinfo=zone))
        return [int(it.timestamp()) for it in itertools.takewhile(lambda it: it.replace(tzinfo=None) <= last, found)]
    except ValueError as error:
        if "empty set" not in str(error) and "empty rule" not in str(error):
            raise
        return []


def ended(found, bound, number):
    """The instants that COUNT or UNTIL leaves of a rule's."""
    found = sorted({*found})
    return found[:number] if bound == "count" else [it for it in found if bound != "until" or it <= number]


def kind_of(known, row, ours):
    """How dateutil's own answer to a question on `next` differs: "" if it does not, and None if for no reason that is listed."""
    low, high, _, bound, number = row.split(" ", 6)[1:6]
    low, high, number = int(low), int(high), int(number)
    rule, start = rule_in(row)
    last = EPOCH + datetime.timedelta(days=high // DAY + 4)
    texts = {"count": f";COUNT={number}", "until": f";UNTIL={EPOCH + datetime.timedelta(seconds=number):%Y%m%dT%H%M%SZ}"}
    begun = known[seconds_of(start)]
    whole = of_dateutil(known.zone, rule, start, "", last)
    readings = {
        "": lambda: of_dateutil(known.zone, rule, start, texts.get(bound, ""), last),
        "order": lambda: sorted({*of_dateutil(known.zone, rule, start, texts.get(bound, ""), last)}),
        bound: lambda: ended(whole, bound, number),
        "start": lambda: ended(instances(known, rule, start, high), bound, number) if is_skipped(known.zone, start, begun) else [],
    }
    return next((kind for kind, told in readings.items() if [it for it in told() if low <= it < high] == ours), None)


def is_skipped(zone, start, second):
    """Whether the clock does not show a start at the second that it stands for."""
    return second + ahead(zone, second) != seconds_of(start)


def beside_dateutil(rows, answers):
    """Counts how dateutil itself answers otherwise; how many answers were compared, and the differences that are not listed."""
    known, counts, others, compared = {}, collections.Counter(), [], 0
    for (row, _), answer in zip(rows, answers):
        name, row = row.split(" ", 1)
        # (dateutil goes on to the year 9999 where a rule by the clock has no instance)
        if row.startswith("next") and (answer or " D1 " in row):
            ours = [int(it) for it in answer.split()]
            kind = kind_of(known.setdefault(name, Known(zoneinfo.ZoneInfo(name))), row, ours)
            compared += len(ours) + 1
            counts[kind] += 1
            others += [] if kind is not None else [f"{name} {row}: {answer}, and dateutil has not"]
    print(f"dateutil with the zone: {compared} answers to {sum(counts.values())} lines, of which it has otherwise " + ", ".join(f"{n} {it}" for it, n in sorted(counts.items(), key=str) if it))
    return compared, others


def line_of(call, low, high, start, bound, number, rule):
    """A question as the program reads it."""
    parts = " ".join(f"{it}," if it else "-" for it in rule[1:4])
    steps = rule[4] if rule[4:] else "D1"
    return f"{call} {low} {high} {seconds_of(start)} {bound} {number} {parts} {steps} {rule[0]}"


def main():
    parser = argparse.ArgumentParser(description=__doc__.partition("\n")[0])
    parser.add_argument("--zones", type=int, default=2)
    parser.add_argument("--years", type=int, default=1)
    parser.add_argument("--lines", type=int, default=20_000)
    parser.add_argument("--seed", type=int, default=1)
    options = parser.parse_args()
    restart_without(dateutil)
    if dateutil is None:
        print("not run: checks/zones/zoned_rules.py, which needs dateutil\n0 passed, 0 failed")
        return
    if not zoneinfo.available_timezones():
        print("not run: checks/zones/zoned_rules.py, which needs a database of time zones\n0 passed, 0 failed")
        return
    rows = [(f"{name} {it}", run) for name, first in ZONES[: options.zones] for it, run in questions(name, first, options.years)]
    rows += drawn(options.lines, options.seed)
    with tempfile.TemporaryDirectory(prefix="zoned_rules-") as room:
        folder = put_program(room, "instants", USES, PROGRAM)
        answers = [it.strip() for it in answers_of(room, folder, USES, [it for it, _ in rows], LINES)]
    compared, others = beside_dateutil(rows, answers)
    for name, _ in ZONES:
        asked = [pair for pair in zip(rows, answers) if pair[0][0].startswith(name)]
        calls = sum(len(run.split()) + 1 if " is " not in it else 12 for (it, run), _ in asked)
        print(f"{name}: {len(asked)} lines, {calls} questions, {sum(a != b for (_, b), a in asked)} lines answered otherwise")
    end(rows, answers, compared, others)


if __name__ == "__main__":
    main()
