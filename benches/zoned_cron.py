#!/usr/bin/env python3
"""Measures the next and the previous instant of a schedule in a zone, beside the same schedule in local time, in one run.

    benches/zoned_cron.py [COUNT]        (100,000 calls, if left out)

`naive` is the schedule in local time, `fixed` the same in a zone of one offset, and `rule` in New York by its rule. `next` and `prev` are asked
at pseudo-random seconds of the years 1970 to 2106, and `run` gives one instant after another from 2024 on, as the iterator does.
First the instants of 2024 are compared: those of `rule` with a cron over Python's zoneinfo, and those of the other two with the minutes planned.
The best of seven rounds counts, less the time of making the starts, which the iterator does not need. A small program takes the times itself. `rt run` proves and builds it, here each
time, over what `rt lib` has left of the libraries. An unproved build has checks, which take a hundred times as long as the calls.
"""
import argparse
import itertools
import os
import subprocess
import sys
import tempfile
import zoneinfo

TOP = os.path.dirname(os.path.dirname(os.path.abspath(__file__)))
sys.path += [TOP]
from repositories import build_proved, put_program  # noqa: E402
from checks.zones.zoned_schedules import DAY, Schedule, cron, policy_of, walk  # noqa: E402

TEXTS = ("30 2 * * *", "*/15 9-17 * * 1-5", "30 4 1,15 * 5")
USED = ["chrono_datetime", "chrono_instant", "zone_rule", "zoned_cron"]
CALLS = ("next", "prev", "run")
ZONES = ("naive", "fixed", "rule")
ROUNDS = 7
# From 1 January 2024 to 1 January 2025, in UTC, and the offset of the fixed zone.
FIRST, END, OFFSET = 1_704_067_200, 1_735_689_600, -18_000
PROGRAM = r'''//! Answers `CALL ZONE COUNT SCHEDULE` by the sum of the answers and the nanoseconds that they took.
#![tactic(auto)]

use chrono_datetime::{NaiveDateTime, Weekday};
use chrono_instant::{FromTimestamp, Timestamp};
use std::io::{self, BufRead, BufReader};
use std::time::{Duration, Instant};
use zone_rule::{Change, Daylight, RuleDay, ZoneRule};
use zoned_cron::{FixedOffset, InZone, Policy, Schedule, TimeZone, ZonedSchedule, read_schedule};

fn main(rt: HostRuntime) -> io::Result<()> {
    for line in BufReader::new(rt.alloc(), rt.reader())?.lines(rt.alloc()) {
        let line = line?;
        let (call, words) = line.as_str().split_once(' ').unwrap_or((line.as_str(), ""));
        let (zone, words) = words.split_once(' ').unwrap_or((words, ""));
        let (count, text) = words.split_once(' ').unwrap_or((words, ""));
        let count: u32 = count.parse().unwrap_or(0);
        let Ok(schedule) = read_schedule(text.as_bytes()) else {
            return println!(rt; "= no schedule");
        };
        let begun = Instant::now(&rt)?;
        let sum = sum_of(call, zone, count, &schedule);
        let taken: Duration = begun.elapsed(&rt)?;
        println!(rt; "= {} {}", sum.unwrap_or(-1), taken.as_nanos())?;
    }
    Ok(())
}

fn sum_of(call: &str, zone: &str, count: u32, schedule: &Schedule) -> Option<i64> {
    let fixed = FixedOffset::east_opt(-18_000)?;
    let begins = Change::new(RuleDay::Week { month: 3, week: 2, weekday: Weekday::Sun }, 7_200)?;
    let ends = Change::new(RuleDay::Week { month: 11, week: 1, weekday: Weekday::Sun }, 7_200)?;
    let daylight = Daylight { offset: FixedOffset::east_opt(-14_400)?, begins, ends };
    let rule = ZoneRule { standard: fixed, daylight: Some(daylight) };
    match zone {
        "naive" => naive_sum(call, count, schedule),
        "fixed" => zoned_sum(call, count, ZonedSchedule::new(*schedule, fixed, Policy::vixie(schedule))),
        _ => zoned_sum(call, count, ZonedSchedule::new(*schedule, rule, Policy::vixie(schedule))),
    }
}

fn next_drawn(drawn: u64) -> u64 {
    drawn
        .wrapping_mul(6_364_136_223_846_793_005)
        .wrapping_add(1_442_695_040_888_963_407)
}

fn naive_sum(call: &str, count: u32, schedule: &Schedule) -> Option<i64> {
    let mut drawn: u64 = 1;
    let mut sum: i64 = 0;
    let mut last = NaiveDateTime::from_timestamp(1_704_067_199 - 18_000, 0)?;
    for _ in 0..count {
        drawn = next_drawn(drawn);
        let start = NaiveDateTime::from_timestamp((drawn >> 32) as i64, 0)?;
        let found = match call {
            "next" => schedule.next_after(start)?,
            "prev" => schedule.prev_before(start)?,
            "run" => schedule.next_after(last)?,
            _ => start,
        };
        last = found;
        sum = sum.wrapping_add(found.timestamp());
    }
    Some(sum)
}

fn zoned_sum<Z: TimeZone>(call: &str, count: u32, schedule: ZonedSchedule<Z>) -> Option<i64> {
    let mut drawn: u64 = 1;
    let mut sum: i64 = 0;
    let mut firings = schedule.after(schedule.zone.timestamp_opt(1_704_067_199, 0)?);
    for _ in 0..count {
        drawn = next_drawn(drawn);
        let found = match call {
            "run" => firings.next()?,
            "next" => schedule.next_after(schedule.zone.timestamp_opt((drawn >> 32) as i64, 0)?)?,
            "prev" => schedule.prev_before(schedule.zone.timestamp_opt((drawn >> 32) as i64, 0)?)?,
            _ => schedule.zone.timestamp_opt((drawn >> 32) as i64, 0)?,
        };
        sum = sum.wrapping_add(found.timestamp());
    }
    Some(sum)
}
'''


def planned(text):
    """The instants of 2024 by each zone, as a reading apart from the library has them."""
    schedule, zone = Schedule(text), zoneinfo.ZoneInfo("America/New_York")
    minutes = list(walk(zone, FIRST - DAY, END))
    local = [60 * it for it in range((FIRST + OFFSET) // 60, (END + OFFSET) // 60) if schedule.is_planned(it)]
    run = [it for it in cron(minutes, schedule, *policy_of(schedule, "-", "vixie")) if it >= FIRST]
    return {"naive": local, "fixed": [it - OFFSET for it in local], "rule": run}


def answers(program, lines):
    """The sum and the nanoseconds of each line."""
    ran = subprocess.run([program], input="".join(f"{it}\n" for it in lines), stdout=subprocess.PIPE, text=True, check=True)
    return [tuple(map(int, line[2:].split())) for line in ran.stdout.splitlines()]


def main():
    parser = argparse.ArgumentParser(description=__doc__.partition("\n")[0])
    parser.add_argument("count", nargs="?", type=int, default=100_000)
    count = parser.parse_args().count
    wanted = {(text, zone): run for text in TEXTS for zone, run in planned(text).items()}
    measured = list(itertools.product(("start", *CALLS), ZONES, TEXTS))
    with tempfile.TemporaryDirectory(prefix="zoned_cron-") as room:
        program = build_proved(room, put_program(room, "timed", USED, PROGRAM), USED)
        compared = [f"run {zone} {len(run)} {text}" for (text, zone), run in wanted.items()]
        lines = [f"{call} {zone} {count} {text}" for _ in range(ROUNDS) for call, zone, text in measured]
        told = answers(program, compared + lines)
    for line, run, (said, _) in zip(compared, wanted.values(), told):
        if said != sum(run):
            sys.exit(f"{line}: the sums are not the same, {said} and {sum(run)}, so nothing is told")
    best = {}
    for row, (_, nanos) in zip(measured * ROUNDS, told[len(compared) :]):
        best[row] = min(nanos / count, best.get(row, nanos / count))
    print("| Call | Schedule | naive, ns | fixed, ns, ratio | rule, ns, ratio |\n|---|---|---|---|---|")
    for call, text in itertools.product(CALLS, TEXTS):
        taken = [best[call, zone, text] - (best["start", zone, text] if call != "run" or zone == "naive" else 0) for zone in ZONES]
        beside = " | ".join(f"{it:.0f}, {it / taken[0]:.2f}" for it in taken[1:])
        print(f"| `{call}` | `{text}` | {taken[0]:.0f} | {beside} |")


if __name__ == "__main__":
    main()
