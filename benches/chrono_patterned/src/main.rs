//! `chrono_patterned CALL COUNT PATTERN` makes one call of chrono so many times and prints the sum of its answers: the twin of the program that
//! `benches/patterns_speed.py` writes over `chrono_pattern`.

use chrono::{Datelike, NaiveDate, NaiveDateTime, NaiveTime, Timelike};
use std::env;
use std::fmt::Write;
use std::str;

/// The number drawn behind another, by Knuth's generator MMIX.
fn next_drawn(drawn: u64) -> u64 {
    drawn.wrapping_mul(6_364_136_223_846_793_005).wrapping_add(1_442_695_040_888_963_407)
}

/// A date-time of the years 1800 to 2199.
fn moment_of(drawn: u64) -> NaiveDateTime {
    let day = 657_072 + ((drawn >> 32) % 146_097) as i32;
    let second = ((drawn >> 16) % 86_400) as u32;
    let date = NaiveDate::from_num_days_from_ce_opt(day).unwrap();
    NaiveDateTime::new(date, NaiveTime::from_num_seconds_from_midnight_opt(second, 0).unwrap())
}

/// What is drawn for a text, whose day may be one that the month lacks.
fn text_of(drawn: u64) -> [u8; 19] {
    let digits = |number: u64| [b'0' + (number / 10) as u8, b'0' + (number % 10) as u8];
    let [y, z] = digits((drawn >> 56) % 100);
    let [m, n] = digits((drawn >> 48) % 12 + 1);
    let [d, e] = digits((drawn >> 40) % 31 + 1);
    let [h, i] = digits((drawn >> 32) % 24);
    let [j, k] = digits((drawn >> 24) % 60);
    let [s, t] = digits((drawn >> 16) % 60);
    [b'2', b'0', y, z, b'-', m, n, b'-', d, e, b' ', h, i, b':', j, k, b':', s, t]
}

fn sum_of_bytes(text: &[u8]) -> u64 {
    match (text.first_chunk::<8>(), text.last_chunk::<8>()) {
        (Some(first), Some(last)) => u64::from_le_bytes(*first).wrapping_add(u64::from_le_bytes(*last).wrapping_mul(3)).wrapping_add(text.len() as u64),
        _ => 0,
    }
}

fn sum_of_moment(moment: NaiveDateTime) -> u64 {
    (moment.date().num_days_from_ce() as u64).wrapping_mul(86_400).wrapping_add(u64::from(moment.time().num_seconds_from_midnight()))
}

fn main() {
    let words: Vec<String> = env::args().collect();
    let (count, pattern): (u32, &str) = (words[2].parse().unwrap(), &words[3]);
    let (mut drawn, mut sum) = (1, 0u64);
    let mut text = String::with_capacity(64);
    for _ in 0..count {
        drawn = next_drawn(drawn);
        sum = sum.wrapping_add(match words[1].as_str() {
            "write" => {
                text.clear();
                write!(text, "{}", moment_of(drawn).format(pattern)).unwrap();
                sum_of_bytes(text.as_bytes())
            }
            "read" => match NaiveDateTime::parse_from_str(str::from_utf8(&text_of(drawn)).unwrap(), pattern) {
                Ok(moment) => sum_of_moment(moment),
                Err(_) => 1,
            },
            "draw_text" => sum_of_bytes(&text_of(drawn)),
            _ => sum_of_moment(moment_of(drawn)),
        });
    }
    println!("{sum}");
}
