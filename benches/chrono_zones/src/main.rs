//! What `benches/zones_speed.py` measures of chrono: `chrono_zones CALL COUNT` makes one call of `Local` so many times and prints the sum.
//!
//! The zone is that of `TZ`. The calls and the seconds are those of `benches/timed_zone`.

use chrono::{FixedOffset, Local, LocalResult, NaiveDateTime, TimeZone};
use std::env;

fn seconds_of(offset: FixedOffset) -> i64 {
    i64::from(offset.local_minus_utc())
}

fn sum_of_offsets(offsets: LocalResult<FixedOffset>) -> i64 {
    match offsets {
        LocalResult::None => 1,
        LocalResult::Single(only) => seconds_of(only),
        LocalResult::Ambiguous(first, second) => seconds_of(first) + seconds_of(second) + 2,
    }
}

fn sum_of(call: &str, count: u64) -> i64 {
    let start: i64 = if call.starts_with("later") { 1 << 31 } else { -(1 << 31) };
    let mut drawn: u64 = 1;
    let mut sum: i64 = 0;
    for _ in 0..count {
        drawn = drawn.wrapping_mul(6_364_136_223_846_793_005).wrapping_add(1_442_695_040_888_963_407);
        let time = NaiveDateTime::from_timestamp_opt((drawn >> 32) as i64 + start, 0).unwrap();
        sum = sum.wrapping_add(match call {
            "offset" | "later_offset" => seconds_of(Local.offset_from_utc_datetime(&time)),
            "local" | "later_local" => sum_of_offsets(Local.offset_from_local_datetime(&time)),
            _ => time.timestamp(),
        });
    }
    sum
}

fn main() {
    let words: Vec<String> = env::args().collect();
    println!("{}", sum_of(&words[1], words[2].parse().unwrap()));
}
