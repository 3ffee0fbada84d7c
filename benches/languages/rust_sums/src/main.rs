//! Sums of the answers of `proved_calendar` and of chrono to the same calls: `rust_sums CALL COUNT` makes a call so many times on
//! pseudo-random arguments and prints the sum of its answers.

#[path = "../../../chrono_timed/src/arguments.rs"]
mod arguments;

use std::env;
use std::fmt::{Display, Write};
use std::process::ExitCode;

use arguments::{day, table, Generator, SIZE};
use chrono::{Datelike, Days, Months, NaiveDate, NaiveDateTime, Timelike};
use proved_calendar::{Date, DateTime, Duration};

fn name(generator: &mut Generator) -> (i32, u32, u32) {
    let year = 1_800 + generator.below(400) as i32;
    let month = 1 + generator.below(12) as u32;
    (year, month, 1 + generator.below(28) as u32)
}

fn seconds(generator: &mut Generator) -> i64 {
    generator.below(2_000_000_001) as i64 - 1_000_000_000
}

fn ours(day: i32) -> Date {
    Date::from_number(day).unwrap()
}

fn theirs(day: i32) -> NaiveDate {
    NaiveDate::from_num_days_from_ce_opt(day).unwrap()
}

fn our_moment(generator: &mut Generator) -> DateTime {
    let date = ours(day(generator));
    DateTime::new(date, generator.below(86_400) as u32, 0).unwrap()
}

fn their_moment(generator: &mut Generator) -> NaiveDateTime {
    let date = theirs(day(generator));
    let second = chrono::Duration::seconds(generator.below(86_400) as i64);
    date.and_hms_opt(0, 0, 0).unwrap() + second
}

/// The same number for the same year, month and day, whoever names them.
fn of_name(year: i32, month: u32, day: u32) -> u64 {
    (i64::from(year) * 512 + i64::from(month * 32 + day)) as u64
}

fn of_number(number: i32) -> u64 {
    i64::from(number) as u64
}

fn of_ours(date: Option<Date>) -> u64 {
    date.map_or(0, |date| of_number(date.number()))
}

fn of_theirs(date: Option<NaiveDate>) -> u64 {
    date.map_or(0, |date| of_number(date.num_days_from_ce()))
}

/// The last digits of a value's text, which is printed in the room of the last one.
fn of_text(room: &mut String, value: impl Display) -> u64 {
    room.clear();
    write!(room, "{value}").unwrap();
    room.bytes().rev().take(2).map(u64::from).sum()
}

/// The sum of what is answered of so many places of tables.
fn sum(mut generator: Generator, count: u64, mut answer: impl FnMut(usize, usize) -> u64) -> u64 {
    let mut sum: u64 = 0;
    for _ in 0..count {
        let drawn = generator.draw();
        sum = sum.wrapping_add(answer(
            (drawn >> 54) as usize,
            (drawn >> 44) as usize % SIZE,
        ));
    }
    sum
}

fn sum_of_names(call: &str, mut generator: Generator, count: u64) -> Option<u64> {
    let names = table(&mut generator, name);
    Some(match call {
        "ours.name_to_number" => sum(generator, count, |i, _| {
            let (year, month, day) = names[i];
            of_ours(Date::from_ymd(year, month, day))
        }),
        "theirs.name_to_number" => sum(generator, count, |i, _| {
            let (year, month, day) = names[i];
            of_theirs(NaiveDate::from_ymd_opt(year, month, day))
        }),
        _ => return None,
    })
}

fn sum_of_ours(call: &str, mut generator: Generator, count: u64) -> Option<u64> {
    let days = table(&mut generator, day);
    let moves = table(&mut generator, |it| it.below(100_001));
    let dates = days.map(ours);
    let texts = dates.map(|it| it.to_string());
    let mut room = String::with_capacity(32);
    Some(match call {
        "ours.number_to_name" => sum(generator, count, |i, _| {
            let date = ours(days[i]);
            of_name(date.year(), date.month(), date.day())
        }),
        "ours.iso_week" => sum(generator, count, |i, _| {
            of_name(dates[i].iso_year(), dates[i].iso_week(), 0)
        }),
        "ours.add_days" => sum(generator, count, |i, j| {
            of_ours(dates[i].checked_add_days(moves[j] as i64))
        }),
        "ours.add_months" => sum(generator, count, |i, j| {
            of_ours(dates[i].checked_add_months(moves[j] as i64 % 1_200))
        }),
        "ours.write_date" => sum(generator, count, |i, _| of_text(&mut room, dates[i])),
        "ours.read_date" => sum(generator, count, |i, _| of_ours(texts[i].parse().ok())),
        _ => return None,
    })
}

fn sum_of_theirs(call: &str, mut generator: Generator, count: u64) -> Option<u64> {
    let days = table(&mut generator, day);
    let moves = table(&mut generator, |it| it.below(100_001));
    let dates = days.map(theirs);
    let texts = dates.map(|it| it.to_string());
    let mut room = String::with_capacity(32);
    Some(match call {
        "none" => sum(generator, count, |i, j| of_number(days[i]) ^ moves[j]),
        "theirs.number_to_name" => sum(generator, count, |i, _| {
            let date = theirs(days[i]);
            of_name(date.year(), date.month(), date.day())
        }),
        "theirs.iso_week" => sum(generator, count, |i, _| {
            let week = dates[i].iso_week();
            of_name(week.year(), week.week(), 0)
        }),
        "theirs.add_days" => sum(generator, count, |i, j| {
            of_theirs(dates[i].checked_add_days(Days::new(moves[j])))
        }),
        "theirs.add_months" => sum(generator, count, |i, j| {
            of_theirs(dates[i].checked_add_months(Months::new(moves[j] as u32 % 1_200)))
        }),
        "theirs.write_date" => sum(generator, count, |i, _| of_text(&mut room, dates[i])),
        "theirs.read_date" => sum(generator, count, |i, _| of_theirs(texts[i].parse().ok())),
        _ => return None,
    })
}

fn sum_of_our_moments(call: &str, mut generator: Generator, count: u64) -> Option<u64> {
    let moments = table(&mut generator, our_moment);
    let lengths = table(&mut generator, |it| {
        Duration::from_seconds(seconds(it)).unwrap()
    });
    Some(match call {
        "ours.date_time_add" => sum(generator, count, |i, j| {
            let end = moments[i].checked_add(lengths[j]);
            end.map_or(0, |it| {
                of_number(it.date().number()) + u64::from(it.second_of_day())
            })
        }),
        "ours.date_time_since" => sum(generator, count, |i, j| {
            (moments[i] - moments[j]).seconds() as u64
        }),
        _ => return None,
    })
}

fn sum_of_their_moments(call: &str, mut generator: Generator, count: u64) -> Option<u64> {
    let moments = table(&mut generator, their_moment);
    let lengths = table(&mut generator, |it| chrono::Duration::seconds(seconds(it)));
    Some(match call {
        "theirs.date_time_add" => sum(generator, count, |i, j| {
            let end = moments[i].checked_add_signed(lengths[j]);
            end.map_or(0, |it| {
                of_number(it.num_days_from_ce()) + u64::from(it.num_seconds_from_midnight())
            })
        }),
        "theirs.date_time_since" => sum(generator, count, |i, j| {
            (moments[i] - moments[j]).num_seconds() as u64
        }),
        _ => return None,
    })
}

/// The sum of the answers of the call with a name.
fn sum_of_answers(call: &str, count: u64) -> Option<u64> {
    [
        sum_of_names,
        sum_of_ours,
        sum_of_theirs,
        sum_of_our_moments,
        sum_of_their_moments,
    ]
    .into_iter()
    .find_map(|sum_of| sum_of(call, Generator::new(), count))
}

fn main() -> ExitCode {
    let words: Vec<String> = env::args().skip(1).collect();
    let answer = match words.as_slice() {
        [call, count] => count
            .parse()
            .ok()
            .and_then(|count| sum_of_answers(call, count)),
        _ => None,
    };
    let Some(answer) = answer else {
        eprintln!("usage: rust_sums CALL COUNT");
        return ExitCode::from(2);
    };
    println!("{answer}");
    ExitCode::SUCCESS
}
