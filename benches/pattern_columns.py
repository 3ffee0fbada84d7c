#!/usr/bin/env python3
"""Counts the instructions of an element of the columns of texts in layouts, beside the column of ISO texts, in one run.

    benches/pattern_columns.py [COUNT]      (40 columns of 4,096 elements, if left out)

Each call reads or writes the texts of the same 4,096 dates. One date in eight is missing, and its text names no date. The sums of
what the calls read have to be the same before any are counted, and so have those of the digits that they write. What one call costs
with all around it is taken off. valgrind counts, so a busy machine changes nothing.

A small program over crates/pattern_columns is proved here, in a copy of the crates.
"""
import argparse
import os
import re
import subprocess
import sys
import tempfile

TOP = os.path.dirname(os.path.dirname(os.path.abspath(__file__)))
sys.path.append(TOP)
from repositories import put_program  # noqa: E402

# How many elements a column of the program has.
LENGTH = 4096
# The call that the others of its kind are held to, and those.
KINDS = {"read_iso": ["read_day_first", "read_compact"], "write_iso": ["write_day_first", "write_compact"]}
PROGRAM = r'''//! `timed_layouts CALL COUNT` makes one call over a column so many times and prints the sum of its answers.
#![tactic(auto)]

use chrono_columns::{NONE, read_dates, write_dates};
use pattern_columns::{
    DateLayout, DateOrder, read_compact_dates, read_layout_dates, write_compact_dates,
    write_layout_dates,
};
use std::env;
use std::io;

const LENGTH: usize = 4096;

const LAYOUT: DateLayout = DateLayout { order: DateOrder::DayMonthYear, separator: b'/' };

fn main(rt: HostRuntime) -> io::Result<()> {
    let words: Vec<_, _> = env::args(&rt)?.skip(1).collect(rt.alloc())?;
    if let [name, count] = words.as_slice() {
        let count: u32 = count.as_str().parse().unwrap_or(0);
        println!(rt; "{}", sum_of(name.as_str(), count))?;
    }
    Ok(())
}

fn sum_of(name: &str, count: u32) -> u64 {
    let mut dates = [0; LENGTH];
    put_dates(&mut dates);
    match name {
        "read_iso" => sum_of_iso_read(&mut dates, count),
        "read_day_first" => sum_of_layout_read(&mut dates, count),
        "read_compact" => sum_of_compact_read(&mut dates, count),
        "write_iso" => sum_of_iso_written(&dates, count),
        "write_day_first" => sum_of_layout_written(&dates, count),
        _ => sum_of_compact_written(&dates, count),
    }
}

fn sum_of_iso_read(dates: &mut [i32; LENGTH], count: u32) -> u64 {
    let mut texts = [[0; 10]; LENGTH];
    write_iso(dates.as_slice(), &mut texts);
    for _ in 0..count {
        read_iso(&texts, dates.as_mut_slice());
    }
    sum_of_numbers(dates.as_slice())
}

fn sum_of_layout_read(dates: &mut [i32; LENGTH], count: u32) -> u64 {
    let mut texts = [[0; 10]; LENGTH];
    write_day_first(dates.as_slice(), &mut texts);
    for _ in 0..count {
        read_day_first(&texts, dates.as_mut_slice());
    }
    sum_of_numbers(dates.as_slice())
}

fn sum_of_compact_read(dates: &mut [i32; LENGTH], count: u32) -> u64 {
    let mut texts = [[0; 8]; LENGTH];
    write_compact(dates.as_slice(), &mut texts);
    for _ in 0..count {
        read_compact(&texts, dates.as_mut_slice());
    }
    sum_of_numbers(dates.as_slice())
}

fn sum_of_iso_written(dates: &[i32; LENGTH], count: u32) -> u64 {
    let mut texts = [[0; 10]; LENGTH];
    for _ in 0..count {
        write_iso(dates.as_slice(), &mut texts);
    }
    let mut sum: u64 = 0;
    for text in &texts {
        sum = sum.wrapping_add(sum_of_digits(text));
    }
    sum
}

fn sum_of_layout_written(dates: &[i32; LENGTH], count: u32) -> u64 {
    let mut texts = [[0; 10]; LENGTH];
    for _ in 0..count {
        write_day_first(dates.as_slice(), &mut texts);
    }
    let mut sum: u64 = 0;
    for text in &texts {
        sum = sum.wrapping_add(sum_of_digits(text));
    }
    sum
}

fn sum_of_compact_written(dates: &[i32; LENGTH], count: u32) -> u64 {
    let mut texts = [[0; 8]; LENGTH];
    for _ in 0..count {
        write_compact(dates.as_slice(), &mut texts);
    }
    let mut sum: u64 = 0;
    for text in &texts {
        sum = sum.wrapping_add(sum_of_digits(text));
    }
    sum
}

// Each call, of a column and one as long.
fn read_iso(texts: &[[u8; 10]], dates: &mut [i32]) {
    if texts.len() == dates.len() {
        read_dates(texts, dates);
    }
}

fn read_day_first(texts: &[[u8; 10]], dates: &mut [i32]) {
    if texts.len() == dates.len() {
        read_layout_dates(LAYOUT, texts, dates);
    }
}

fn read_compact(texts: &[[u8; 8]], dates: &mut [i32]) {
    if texts.len() == dates.len() {
        read_compact_dates(texts, dates);
    }
}

fn write_iso(dates: &[i32], texts: &mut [[u8; 10]]) {
    if texts.len() == dates.len() {
        write_dates(dates, texts);
    }
}

fn write_day_first(dates: &[i32], texts: &mut [[u8; 10]]) {
    if texts.len() == dates.len() {
        write_layout_dates(LAYOUT, dates, texts);
    }
}

fn write_compact(dates: &[i32], texts: &mut [[u8; 8]]) {
    if texts.len() == dates.len() {
        write_compact_dates(dates, texts);
    }
}

// Dates of the years 1800 to 2199; one in eight is missing.
fn put_dates(dates: &mut [i32; LENGTH]) {
    let mut drawn: u64 = 1;
    for i in 0..LENGTH {
        drawn = next_drawn(drawn);
        dates[i] = if i % 8 == 6 {
            NONE
        } else {
            657_072_i32.wrapping_add(((drawn >> 32) % 146_097) as i32)
        };
    }
}

// The number drawn behind another, by Knuth's generator MMIX.
#[inline]
fn next_drawn(drawn: u64) -> u64 {
    drawn
        .wrapping_mul(6_364_136_223_846_793_005)
        .wrapping_add(1_442_695_040_888_963_407)
}

fn sum_of_numbers(numbers: &[i32]) -> u64 {
    let mut sum: u64 = 0;
    for number in numbers {
        sum = sum.wrapping_mul(31).wrapping_add(u64::from(number.unsigned_abs()));
    }
    sum
}

// The sum of the digits of a text.
fn sum_of_digits(text: &[u8]) -> u64 {
    let mut sum: u64 = 0;
    for byte in text {
        if byte.is_ascii_digit() {
            sum = sum.wrapping_add(u64::from(*byte));
        }
    }
    sum
}
'''


def build(room):
    folder = put_program(room, "timed_layouts", ["chrono_columns", "pattern_columns"], PROGRAM)
    ran = subprocess.run(["rt", "run"], cwd=folder, stdin=subprocess.DEVNULL, stdout=subprocess.PIPE, stderr=subprocess.STDOUT, text=True, check=False)
    program = os.path.join(folder, "out", "timed_layouts")
    if not os.path.exists(program):
        sys.exit(f"the program is not proved:\n{ran.stdout[-3000:]}")
    return program


def sum_of(program, call):
    return subprocess.run([program, call, "1"], stdout=subprocess.PIPE, check=True).stdout


def instructions(program, call, count):
    words = ["valgrind", "--tool=callgrind", f"--callgrind-out-file={os.devnull}", program, call, str(count)]
    ran = subprocess.run(words, stdout=subprocess.DEVNULL, stderr=subprocess.PIPE, check=True)
    return int(re.search(rb"Collected *: *(\d+)", ran.stderr).group(1))


def of_an_element(program, call, count):
    return (instructions(program, call, count + 1) - instructions(program, call, 1)) / count / LENGTH


def main():
    parser = argparse.ArgumentParser(description=__doc__.partition("\n")[0])
    parser.add_argument("count", nargs="?", type=int, default=40)
    options = parser.parse_args()
    with tempfile.TemporaryDirectory(prefix="layouts-") as room:
        program = build(room)
        for iso, others in KINDS.items():
            if any(sum_of(program, it) != sum_of(program, iso) for it in others):
                sys.exit(f"{iso}: the sums are not the same, so nothing was counted")
        print("| Call | instructions | ISO | ratio |\n|---|---|---|---|")
        for iso, others in KINDS.items():
            least = of_an_element(program, iso, options.count)
            for call in others:
                mine = of_an_element(program, call, options.count)
                print(f"| `{call}` | {mine:.1f} | {least:.1f} | {mine / least:.2f} |")


if __name__ == "__main__":
    main()
