#!/usr/bin/env python3
"""Counts the instructions of writing and of reading a date-time by a pattern, beside chrono, in one run.

    benches/patterns_speed.py [--chrono FOLDER] [COUNT]      (10,000 calls of each, if left out)

`write` makes a text of at most 64 bytes, and chrono appends it to a `String` with room for it. `read` reads a text of 19 bytes as a
date-time. What draws the date-time or the text and adds up the answers is counted by itself and taken off. A pattern is checked once
here, before all calls; chrono reads its pattern in each call. All sums of answers have to be the same before any are counted. valgrind
counts, so a busy machine changes nothing.

A small program over crates/chrono_pattern is proved here, in a copy of the crates, and benches/chrono_patterned is its twin over
librust-chrono-dev with cargo. FOLDER is the package of another version of chrono than Debian's.
"""
import argparse
import os
import re
import subprocess
import sys
import tempfile

TOP = os.path.dirname(os.path.dirname(os.path.abspath(__file__)))
sys.path += [os.path.join(TOP, "tools"), TOP]
from debian import build_over_chrono, why_no_chrono  # noqa: E402
from repositories import put_program  # noqa: E402

PATTERNS = ("%F %T", "%Y-%m-%d %H:%M:%S")
# The calls, and what each draws and adds up.
CALLS = {"write": "draw_moment", "read": "draw_text"}
# Calls of each whose answers are compared before any are counted.
COMPARED = 20_000
PROGRAM = r'''//! `timed_patterns CALL COUNT PATTERN` makes one call of a pattern so many times and prints the sum of its answers.
#![tactic(auto)]

use chrono_datetime::{Datelike, NaiveDate, NaiveDateTime, NaiveTime, Timelike};
use chrono_pattern::Pattern;
use std::env;
use std::io;

#[derive(Clone, Copy)]
enum Call {
    DrawMoment,
    DrawText,
    Write,
    Read,
}

fn main(rt: HostRuntime) -> io::Result<()> {
    let words: Vec<_, _> = env::args(&rt)?.skip(1).collect(rt.alloc())?;
    if let [name, count, pattern] = words.as_slice() {
        let count: u32 = count.as_str().parse().unwrap_or(0);
        if let Ok(pattern) = &Pattern::new(pattern.as_str().as_bytes()) {
            println!(rt; "{}", sum_of(pattern, call_named(name.as_str()), count))?;
        }
    }
    Ok(())
}

fn call_named(name: &str) -> Call {
    match name {
        "write" => Call::Write,
        "read" => Call::Read,
        "draw_text" => Call::DrawText,
        _ => Call::DrawMoment,
    }
}

fn sum_of(pattern: &Pattern<'_>, call: Call, count: u32) -> u64 {
    let mut drawn: u64 = 1;
    let mut sum: u64 = 0;
    for _ in 0..count {
        drawn = next_drawn(drawn);
        sum = sum.wrapping_add(match call {
            Call::Write => match pattern.format::<64>(moment_of(drawn)) {
                Some(text) => sum_of_bytes(text.as_bytes()),
                None => 1,
            },
            Call::Read => match pattern.parse_date_time(&text_of(drawn)) {
                Ok(moment) => sum_of_moment(moment),
                Err(_) => 1,
            },
            Call::DrawText => sum_of_bytes(&text_of(drawn)),
            Call::DrawMoment => sum_of_moment(moment_of(drawn)),
        });
    }
    sum
}

// The number drawn behind another, by Knuth's generator MMIX.
#[inline]
fn next_drawn(drawn: u64) -> u64 {
    drawn
        .wrapping_mul(6_364_136_223_846_793_005)
        .wrapping_add(1_442_695_040_888_963_407)
}

// A date-time of the years 1800 to 2199.
fn moment_of(drawn: u64) -> NaiveDateTime {
    let day = 657_072_i32.wrapping_add(((drawn >> 32) % 146_097) as i32);
    let second = ((drawn >> 16) % 86_400) as u32;
    let date = match NaiveDate::from_num_days_from_ce_opt(day) {
        Some(date) => date,
        None => NaiveDate::MIN,
    };
    let time = match NaiveTime::from_num_seconds_from_midnight_opt(second, 0) {
        Some(time) => time,
        None => NaiveTime::MIN,
    };
    NaiveDateTime::new(date, time)
}

// What is drawn for a text, whose day may be one that the month lacks.
fn text_of(drawn: u64) -> [u8; 19] {
    let year = (drawn >> 56) % 100;
    let month = (drawn >> 48) % 12 + 1;
    let day = (drawn >> 40) % 31 + 1;
    let hour = (drawn >> 32) % 24;
    let minute = (drawn >> 24) % 60;
    let second = (drawn >> 16) % 60;
    [
        b'2',
        b'0',
        tens(year),
        ones(year),
        b'-',
        tens(month),
        ones(month),
        b'-',
        tens(day),
        ones(day),
        b' ',
        tens(hour),
        ones(hour),
        b':',
        tens(minute),
        ones(minute),
        b':',
        tens(second),
        ones(second),
    ]
}

#[inline]
fn tens(number: u64) -> u8 {
    b'0'.wrapping_add((number / 10 % 10) as u8)
}

#[inline]
fn ones(number: u64) -> u8 {
    b'0'.wrapping_add((number % 10) as u8)
}

#[inline]
fn sum_of_bytes(text: &[u8]) -> u64 {
    match (text.first_chunk::<8>(), text.last_chunk::<8>()) {
        (Some(first), Some(last)) => u64::from_le_bytes(*first)
            .wrapping_add(u64::from_le_bytes(*last).wrapping_mul(3))
            .wrapping_add(text.len() as u64),
        _ => 0,
    }
}

#[inline]
fn sum_of_moment(moment: NaiveDateTime) -> u64 {
    u64::from(moment.date().num_days_from_ce().unsigned_abs())
        .wrapping_mul(86_400)
        .wrapping_add(u64::from(moment.time().num_seconds_from_midnight()))
}
'''


def build_ours(room):
    folder = put_program(room, "timed_patterns", ["chrono_pattern", "chrono_datetime"], PROGRAM)
    ran = subprocess.run(["rt", "run"], cwd=folder, stdin=subprocess.DEVNULL, stdout=subprocess.PIPE, stderr=subprocess.STDOUT, text=True, check=False)
    program = os.path.join(folder, "out", "timed_patterns")
    if not os.path.exists(program):
        sys.exit(f"the program is not proved:\n{ran.stdout[-3000:]}")
    return program


def sum_of(program, call, count, pattern):
    return subprocess.run([program, call, str(count), pattern], stdout=subprocess.PIPE, check=True).stdout


def instructions(program, call, count, pattern):
    words = ["valgrind", "--tool=callgrind", f"--callgrind-out-file={os.devnull}", program, call, str(count), pattern]
    ran = subprocess.run(words, stdout=subprocess.DEVNULL, stderr=subprocess.PIPE, check=True)
    return int(re.search(rb"Collected *: *(\d+)", ran.stderr).group(1))


def of_a_call(program, call, count, pattern):
    """The instructions of a call, less those of drawing and adding up."""

    def counted(call):
        return (instructions(program, call, count + 1, pattern) - instructions(program, call, 1, pattern)) / count

    return counted(call) - counted(CALLS[call])


def main():
    parser = argparse.ArgumentParser(description=__doc__.partition("\n")[0])
    parser.add_argument("--chrono", metavar="FOLDER", help="the package of another version of chrono than Debian's")
    parser.add_argument("count", nargs="?", type=int, default=10_000)
    options = parser.parse_args()
    if missing := why_no_chrono():
        sys.exit(f"chrono is not measured: {missing}")
    with tempfile.TemporaryDirectory(prefix="patterns-") as room:
        chrono = build_over_chrono(room, "benches/chrono_patterned", options.chrono)
        ours = build_ours(room)
        for pattern in PATTERNS:
            for call in (*CALLS, *CALLS.values()):
                if sum_of(ours, call, COMPARED, pattern) != sum_of(chrono, call, COMPARED, pattern):
                    sys.exit(f"{call}, {pattern}: the sums are not the same, so nothing was counted")
        print("| Pattern | Call | instructions | chrono | ratio |\n|---|---|---|---|---|")
        for pattern in PATTERNS:
            for call in CALLS:
                mine, other = (of_a_call(it, call, options.count, pattern) for it in (ours, chrono))
                print(f"| `{pattern}` | `{call}` | {mine:.0f} | {other:.0f} | {other / mine:.2f} |")


if __name__ == "__main__":
    main()
