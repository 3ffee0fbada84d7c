#!/usr/bin/env python3
"""Measures the calls of a time zone, and beside them Python's zoneinfo, chrono's `Local` and the kit's jiff_tz.

    benches/zones_speed.py [--zone NAME] [COUNT]        (America/New_York and 100,000, if left out)

`offset` is the offset at an instant, `local` the instants of a local time, each at pseudo-random seconds of the years 1901 to 2038,
and `later_` before them of 2038 to 2174, where the rule holds. `read` is the reading of the zone's file. All answers are first
compared with zoneinfo's, whose class in C answers the same questions: `utcoffset` of a date-time in UTC, and of both folds of a
local one. Ours are counted in instructions too, by valgrind, which a busy machine does not change. The programs take turns, and the
best of seven rounds counts, by processor time, less that of drawing the seconds and making the others' instants and date-times of
them. chrono reads no file that it is handed.

It proves and builds benches/timed_zone over what is proved of the libraries here. It needs valgrind and a database of time zones. chrono is
measured if there is librust-chrono-dev with cargo, and jiff_tz once `rt run` has proved a small program over it, here each time.
"""
import argparse
import datetime
import os
import re
import resource
import subprocess
import sys
import tempfile
import time
import zoneinfo

TOP = os.path.dirname(os.path.dirname(os.path.abspath(__file__)))
sys.path[:0] = [f"{TOP}/tools"]
from debian import build_over_chrono, why_no_chrono  # noqa: E402
from repositories import build_apart, put_program  # noqa: E402

ROUNDS = 7
# Calls of each whose answers are compared before any is timed.
COMPARED = 20_000
CALLS = ("offset", "local", "later_offset", "later_local")
EPOCH = datetime.datetime(1970, 1, 1)
UTC = datetime.timezone.utc
# What draws the seconds of a call alone, and makes of them what the call is asked with.
DRAWN = {"jiff_tz": {"offset": "instant", "local": "clock", "later_offset": "instant", "later_local": "clock"}}
JIFF = r'''//! `jiff_zones CALL COUNT` makes one call of jiff_tz so many times and prints the sum of its answers. The zone is standard input.
#![tactic(auto)]

use jiff_core::civil::DateTime;
use jiff_core::{Offset, Timestamp};
use jiff_tz::{AmbiguousOffset, TimeZone, Tzif};
use std::alloc::Global;
use std::env;
use std::io::{self, Read};

#[derive(Clone, Copy)]
enum Call {
    Instant,
    Clock,
    Offset,
    Local,
}

fn main(rt: HostRuntime) -> io::Result<()> {
    let words: Vec<_, _> = env::args(&rt)?.skip(1).collect(rt.alloc())?;
    let mut bytes = Vec::new(rt.alloc());
    rt.reader().read_to_end(&mut bytes)?;
    if let [name, count] = words.as_slice() {
        let count: u32 = count.as_str().parse().unwrap_or(0);
        println!(rt;
            "{}",
            sum_named(rt.alloc(), name.as_str(), count, bytes.as_slice())
        )?;
    }
    Ok(())
}

fn sum_named(alloc: Global, name: &str, count: u32, bytes: &[u8]) -> i64 {
    if name == "read" {
        return sum_of_reads(alloc, count, bytes);
    }
    let Ok(tzif) = Tzif::parse(alloc, None, bytes) else {
        return 0;
    };
    let zone = TimeZone::Tzif(&tzif);
    match name {
        "clock" => sum_of(zone, Call::Clock, -2_147_483_648, count),
        "offset" => sum_of(zone, Call::Offset, -2_147_483_648, count),
        "local" => sum_of(zone, Call::Local, -2_147_483_648, count),
        "later_offset" => sum_of(zone, Call::Offset, 2_147_483_648, count),
        "later_local" => sum_of(zone, Call::Local, 2_147_483_648, count),
        _ => sum_of(zone, Call::Instant, -2_147_483_648, count),
    }
}

fn sum_of_reads(alloc: Global, count: u32, bytes: &[u8]) -> i64 {
    let mut sum: i64 = 0;
    for _ in 0..count {
        sum = sum.wrapping_add(match Tzif::parse(alloc, None, bytes) {
            Ok(_) => 1,
            Err(_) => 0,
        });
    }
    sum
}

fn sum_of(zone: TimeZone<'_>, call: Call, start: i64, count: u32) -> i64 {
    let mut drawn: u64 = 1;
    let mut sum: i64 = 0;
    for _ in 0..count {
        drawn = drawn
            .wrapping_mul(6_364_136_223_846_793_005)
            .wrapping_add(1_442_695_040_888_963_407);
        let second = ((drawn >> 32) as i64).wrapping_add(start);
        sum = sum.wrapping_add(answer(zone, call, second));
    }
    sum
}

fn answer(zone: TimeZone<'_>, call: Call, second: i64) -> i64 {
    let Ok(instant) = Timestamp::from_nanosecond(i128::from(second) * 1_000_000_000) else {
        return 0;
    };
    match call {
        Call::Instant => second,
        Call::Offset => i64::from(zone.to_offset(instant).seconds),
        Call::Clock => sum_of_clock(Offset::UTC.to_datetime(instant)),
        Call::Local => sum_of_offsets(zone.to_ambiguous_offset(Offset::UTC.to_datetime(instant))),
    }
}

fn sum_of_clock(clock: DateTime) -> i64 {
    i64::from(clock.date.year)
}

fn sum_of_offsets(offsets: AmbiguousOffset) -> i64 {
    match offsets {
        AmbiguousOffset::Unambiguous { offset } => i64::from(offset.seconds),
        AmbiguousOffset::Gap { .. } => 1,
        AmbiguousOffset::Fold { before, after } => {
            i64::from(before.seconds)
                .wrapping_add(i64::from(after.seconds))
                .wrapping_add(2)
        }
    }
}
'''


def path_of(name):
    for folder in zoneinfo.TZPATH:
        path = os.path.join(folder, name)
        if os.path.isfile(path):
            return path
    sys.exit(f"there is no zone {name}")


def drawn_seconds(call, count):
    """The seconds that timed_zone draws."""
    drawn, start = 1, 2**31 if call.startswith("later") else -(2**31)
    for _ in range(count):
        drawn = (drawn * 6_364_136_223_846_793_005 + 1_442_695_040_888_963_407) % 2**64
        yield (drawn >> 32) + start


def questions(zone, call, count):
    """What zoneinfo is asked: date-times in UTC, or local ones with both folds."""
    seconds = (EPOCH + datetime.timedelta(seconds=it) for it in drawn_seconds(call, count))
    if call.endswith("offset"):
        return [it.replace(tzinfo=UTC) for it in seconds]
    return [(it.replace(tzinfo=zone), it.replace(tzinfo=zone, fold=1)) for it in seconds]


def answers(zone, call, asked):
    if call.endswith("offset"):
        return [it.astimezone(zone).utcoffset() for it in asked]
    return [(first.utcoffset(), second.utcoffset()) for first, second in asked]


def sum_of(call, answered):
    """The sum of the answers, as timed_zone makes it: 1 for no instant, and the sum of the offsets and 2 for two of them."""
    if call.endswith("offset"):
        return sum(int(it.total_seconds()) for it in answered)
    pairs = ((int(a.total_seconds()), int(b.total_seconds())) for a, b in answered)
    return sum(a if a == b else a + b + 2 if b < a else 1 for a, b in pairs)


def run(program, call, count, data):
    return subprocess.run([program, call, str(count)], input=data, stdout=subprocess.PIPE, check=True).stdout


def processor_time(program, call, count, data):
    def spent():
        used = resource.getrusage(resource.RUSAGE_CHILDREN)
        return used.ru_utime + used.ru_stime

    before = spent()
    run(program, call, count, data)
    return spent() - before


def instructions(program, call, count, data):
    words = ["valgrind", "--tool=callgrind", f"--callgrind-out-file={os.devnull}", program, call, str(count)]
    ran = subprocess.run(words, input=data, stdout=subprocess.DEVNULL, stderr=subprocess.PIPE, check=True)
    return int(re.search(rb"Collected *: *(\d+)", ran.stderr).group(1))


def best_of(call):
    times = []
    for _ in range(ROUNDS):
        start = time.process_time()
        call()
        times.append(time.process_time() - start)
    return min(times)


def programs(room):
    """The programs that are measured."""
    found = {"ours": build_apart(room, "benches/timed_zone")}
    if not why_no_chrono():
        found["chrono"] = build_over_chrono(room, "benches/chrono_zones")
    folder = put_program(room, "jiff_zones", [], JIFF, ("jiff_core", "jiff_tz"))
    if subprocess.run(["rt", "run"], cwd=folder, stdin=subprocess.DEVNULL, stdout=subprocess.DEVNULL, stderr=subprocess.DEVNULL, check=False).returncode == 0:
        found["jiff_tz"] = os.path.join(folder, "out", "jiff_zones")
    return found


def compare_sums(found, zone, data):
    """Ends the program unless each has the answers of zoneinfo."""
    for call in CALLS:
        wanted = sum_of(call, answers(zone, call, questions(zone, call, COMPARED)))
        for who, program in found.items():
            said = int(run(program, call, COMPARED, data))
            if wanted != said:
                sys.exit(f"{who}, {call}: the sums are not the same, {said} and {wanted}, so nothing was timed")


def best_times(found, count, data):
    """The nanoseconds of a call by each program."""
    taken = {}
    for _ in range(ROUNDS):
        for who, program in found.items():
            names = {*CALLS, *(DRAWN.get(who, {}).get(it, "none") for it in CALLS), *(["read"] if who != "chrono" else [])}
            for call in names:
                several = {"chrono": 2 * count}.get(who, count // 10 if call == "read" else 10 * count)
                spent = processor_time(program, call, several, data) / several * 1e9
                taken[who, call] = min(spent, taken.get((who, call), spent))
    less = {(who, call): spent - taken[who, DRAWN.get(who, {}).get(call, "none")] for (who, call), spent in taken.items() if call in CALLS}
    return {**less, **{it: spent for it, spent in taken.items() if it[1] == "read"}}


def main():
    parser = argparse.ArgumentParser(description=__doc__.partition("\n")[0])
    parser.add_argument("--zone", default="America/New_York")
    parser.add_argument("count", nargs="?", type=int, default=100_000)
    options = parser.parse_args()
    os.environ["TZ"] = options.zone
    path, zone = path_of(options.zone), zoneinfo.ZoneInfo(options.zone)
    with open(path, "rb") as it:
        data = it.read()
    count = options.count
    with tempfile.TemporaryDirectory(prefix="zones-") as room:
        found = programs(room)
        compare_sums(found, zone, data)
        taken = best_times(found, count, data)
        ours = found["ours"]
        counted = {it: (instructions(ours, it, count // 10, data) - instructions(ours, it, 1, data)) / (count // 10 - 1) for it in ("none", *CALLS, "read")}
    for call in CALLS:
        asked = questions(zone, call, min(count, 20_000))
        taken["zoneinfo", call] = best_of(lambda: answers(zone, call, asked)) / len(asked) * 1e9
    taken["zoneinfo", "read"] = best_of(lambda: [zoneinfo.ZoneInfo.no_cache(options.zone) for _ in range(100)]) / 100 * 1e9
    others = [it for it in ("zoneinfo", "chrono", "jiff_tz") if (it, "offset") in taken]
    print("| Call | instructions | ns | " + " | ".join(f"{it}, ns, ratio" for it in others) + " |\n|---|---|---" + "|---" * len(others) + "|")
    for call in (*CALLS, "read"):
        ours = taken["ours", call]
        beside = [f"{taken[it, call]:.0f}, {taken[it, call] / ours:.1f}" if (it, call) in taken else "" for it in others]
        print(f"| `{call}` | {counted[call] - (call != 'read') * counted['none']:.0f} | {ours:.1f} | " + " | ".join(beside) + " |")


if __name__ == "__main__":
    main()
