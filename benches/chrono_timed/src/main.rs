//! The twin of `crates/chrono_timed` over chrono: what `benches/calls.py` compares with.
//!
//! `chrono_timed CALL COUNT ..` makes each call so many times on the arguments that the other draws too, and prints the sum
//! of its answers, which has to be the same.

mod arguments;
mod formulas;
#[cfg(feature = "instants")]
mod instants;
mod written;

use arguments::{day, far_day, table, Generator, SIZE};
use chrono::{Datelike, Days, Duration, Months, NaiveDate, NaiveDateTime, NaiveTime, Timelike};
use std::env;
use std::process::ExitCode;
use written::{LaterDuration, Written};

fn first(drawn: u64) -> usize {
    (drawn >> 54) as usize
}

fn second(drawn: u64) -> usize {
    (drawn >> 44) as usize % SIZE
}

fn date(generator: &mut Generator) -> NaiveDate {
    NaiveDate::from_num_days_from_ce_opt(day(generator)).unwrap()
}

fn name(generator: &mut Generator) -> (i32, u32, u32) {
    let year = 1_800 + generator.below(400) as i32;
    let month = 1 + generator.below(12) as u32;
    let day = 1 + generator.below(31) as u32;
    (year, month, day)
}

fn text(generator: &mut Generator) -> [u8; 10] {
    let text = date(generator).to_string();
    text.as_bytes().try_into().unwrap()
}

fn time(generator: &mut Generator) -> NaiveTime {
    let second = generator.below(86_400) as u32;
    let nano = generator.below(1_000_000_000) as u32;
    NaiveTime::from_num_seconds_from_midnight_opt(second, nano).unwrap()
}

fn moment(generator: &mut Generator) -> NaiveDateTime {
    let date = date(generator);
    NaiveDateTime::new(date, time(generator))
}

fn far_date(generator: &mut Generator) -> NaiveDate {
    NaiveDate::from_num_days_from_ce_opt(far_day(generator)).unwrap()
}

fn far_moment(generator: &mut Generator) -> NaiveDateTime {
    let date = far_date(generator);
    NaiveDateTime::new(date, time(generator))
}

fn months(generator: &mut Generator) -> Months {
    Months::new(generator.below(1_201) as u32)
}

fn days(generator: &mut Generator) -> Days {
    Days::new(generator.below(100_001))
}

fn few_days(generator: &mut Generator) -> Days {
    Days::new(1 + generator.below(30))
}

fn duration(generator: &mut Generator) -> Duration {
    let seconds = generator.below(2_000_000_001) as i64 - 1_000_000_000;
    let nanos = generator.below(1_000_000_000) as i64;
    Duration::seconds(seconds) + Duration::nanoseconds(nanos)
}

fn seconds_and_nanos(generator: &mut Generator) -> (i64, u32) {
    let seconds = generator.below(2_000_000_001) as i64 - 1_000_000_000;
    (seconds, generator.below(1_000_000_000) as u32)
}

fn of_year(year: i32, part: u32) -> u64 {
    (i64::from(year) * 512 + i64::from(part)) as u64
}

fn of_name(year: i32, month: u32, day: u32) -> u64 {
    of_year(year, month * 32 + day)
}

fn of_date(date: Option<NaiveDate>) -> u64 {
    date.map_or(0, |date| of_year(date.year(), date.ordinal()))
}

fn of_time(time: NaiveTime) -> u64 {
    u64::from(time.num_seconds_from_midnight()) * 0x1_0000_0000 + u64::from(time.nanosecond())
}

fn of_moment(moment: Option<NaiveDateTime>) -> u64 {
    moment.map_or(0, |moment| {
        of_date(Some(moment.date())).wrapping_add(of_time(moment.time()))
    })
}

/// The nanoseconds past the whole seconds, which chrono 0.4.23 has no call for. After a difference of date-times this took
/// no time that could be measured.
fn subsec_nanos(duration: Duration) -> i64 {
    (duration - Duration::seconds(duration.num_seconds()))
        .num_nanoseconds()
        .unwrap()
}

fn of_duration(duration: Duration) -> u64 {
    (duration.num_seconds() as u64)
        .wrapping_mul(0x1_0000_0000)
        .wrapping_add(subsec_nanos(duration) as u64)
}

/// The sum of what `answer` makes of so many drawn numbers.
fn sum(mut generator: Generator, count: u64, answer: impl Fn(u64) -> u64) -> u64 {
    let mut sum: u64 = 0;
    for _ in 0..count {
        sum = sum.wrapping_add(answer(generator.draw()));
    }
    sum
}

/// No call: what every sum takes besides its call.
fn nothing(mut generator: Generator, count: u64) -> u64 {
    let days = table(&mut generator, day);
    sum(generator, count, |drawn| {
        i64::from(days[first(drawn)]) as u64
    })
}

/// What is read of one date.
fn read(count: u64, answer: impl Fn(NaiveDate) -> u64) -> u64 {
    let mut generator = Generator::new();
    let dates = table(&mut generator, date);
    sum(generator, count, |drawn| answer(dates[first(drawn)]))
}

/// What is found of two dates.
fn of_two(count: u64, answer: impl Fn(NaiveDate, NaiveDate) -> u64) -> u64 {
    let mut generator = Generator::new();
    let dates = table(&mut generator, date);
    sum(generator, count, |drawn| {
        answer(dates[first(drawn)], dates[second(drawn)])
    })
}

/// What is found of a day number.
fn of_number(count: u64, answer: impl Fn(i32) -> u64) -> u64 {
    let mut generator = Generator::new();
    let days = table(&mut generator, day);
    sum(generator, count, |drawn| answer(days[first(drawn)]))
}

fn from_ymd(count: u64, answer: impl Fn(NaiveDate) -> u64) -> u64 {
    let mut generator = Generator::new();
    let names = table(&mut generator, name);
    sum(generator, count, |drawn| {
        let (year, month, day) = names[first(drawn)];
        NaiveDate::from_ymd_opt(year, month, day).map_or(0, &answer)
    })
}

fn add_days(count: u64, pick: impl Fn(&mut Generator) -> Days) -> u64 {
    let mut generator = Generator::new();
    let dates = table(&mut generator, date);
    let days = table(&mut generator, pick);
    sum(generator, count, |drawn| {
        of_date(dates[first(drawn)].checked_add_days(days[second(drawn)]))
    })
}

/// Every second move goes back: the lowest binary digit of a drawn number alternates.
fn add_months(count: u64, pick: impl Fn(&mut Generator) -> NaiveDate) -> u64 {
    let mut generator = Generator::new();
    let dates = table(&mut generator, pick);
    let months = table(&mut generator, months);
    sum(generator, count, |drawn| {
        let date = dates[first(drawn)];
        let months = months[second(drawn)];
        of_date(if drawn % 2 == 0 {
            date.checked_add_months(months)
        } else {
            date.checked_sub_months(months)
        })
    })
}

fn time_add(mut generator: Generator, count: u64) -> u64 {
    let times = table(&mut generator, time);
    let durations = table(&mut generator, duration);
    sum(generator, count, |drawn| {
        let (time, seconds) = times[first(drawn)].overflowing_add_signed(durations[second(drawn)]);
        of_time(time).wrapping_add(seconds as u64)
    })
}

fn moment_add(count: u64, pick: impl Fn(&mut Generator) -> NaiveDateTime) -> u64 {
    let mut generator = Generator::new();
    let moments = table(&mut generator, pick);
    let durations = table(&mut generator, duration);
    sum(generator, count, |drawn| {
        of_moment(moments[first(drawn)].checked_add_signed(durations[second(drawn)]))
    })
}

fn moment_diff(mut generator: Generator, count: u64) -> u64 {
    let moments = table(&mut generator, moment);
    sum(generator, count, |drawn| {
        of_duration(moments[first(drawn)].signed_duration_since(moments[second(drawn)]))
    })
}

/// Read in milliseconds, which takes either library as long, unlike what stands for `subsec_nanos`.
fn duration_add(mut generator: Generator, count: u64) -> u64 {
    let durations = table(&mut generator, duration);
    sum(generator, count, |drawn| {
        durations[first(drawn)]
            .checked_add(&durations[second(drawn)])
            .map_or(0, |sum| sum.num_milliseconds() as u64)
    })
}

/// A duration of so many seconds, rounded down, and nanoseconds past them, and its whole seconds, rounded towards zero, by
/// hand: the `TimeDelta::new` and `num_seconds` of later versions, as chrono 0.4.23 has no `new`.
fn new_and_whole_seconds(seconds: i64, nanos: u32) -> Option<i64> {
    let (last, nanos_of_last) = (i64::MAX / 1_000, (i64::MAX % 1_000) as u32 * 1_000_000);
    let (first, nanos_of_first) = (-last - 1, 1_000_000_000 - nanos_of_last);
    if seconds < first || seconds > last || nanos >= 1_000_000_000 {
        return None;
    }
    if (seconds == last && nanos > nanos_of_last) || (seconds == first && nanos < nanos_of_first) {
        return None;
    }
    Some(if seconds < 0 && nanos > 0 {
        seconds + 1
    } else {
        seconds
    })
}

fn new_num_seconds(mut generator: Generator, count: u64) -> u64 {
    let parts = table(&mut generator, seconds_and_nanos);
    sum(generator, count, |drawn| {
        let (seconds, nanos) = parts[first(drawn)];
        new_and_whole_seconds(seconds, nanos).map_or(0, |whole| whole as u64)
    })
}

/// What is read of values printed into an array.
fn print<T: Copy + std::fmt::Display>(count: u64, pick: impl Fn(&mut Generator) -> T) -> u64 {
    let mut generator = Generator::new();
    let values = table(&mut generator, pick);
    let written = std::cell::RefCell::new(Written::new());
    sum(generator, count, |drawn| {
        written.borrow_mut().of(values[first(drawn)])
    })
}

/// The digits of a text `YYYY-MM-DD` read by hand, with no check of them or of what stands between.
fn read_date(text: &[u8; 10]) -> Option<NaiveDate> {
    let digit = |place: usize| u32::from(text[place] - b'0');
    let pair = |place: usize| 10 * digit(place) + digit(place + 1);
    NaiveDate::from_ymd_opt((100 * pair(0) + pair(2)) as i32, pair(5), pair(8))
}

fn read_dates(mut generator: Generator, count: u64) -> u64 {
    let texts = table(&mut generator, text);
    sum(generator, count, |drawn| {
        read_date(&texts[first(drawn)]).map_or(0, |date| i64::from(date.num_days_from_ce()) as u64)
    })
}

/// The sum of the answers of a call of a date to so many drawn arguments.
fn sum_of_dates(name: &str, count: u64) -> Option<u64> {
    Some(match name {
        "year" => read(count, |date| i64::from(date.year()) as u64),
        "ordinal" => read(count, |date| u64::from(date.ordinal())),
        "month" => read(count, |date| u64::from(date.month())),
        "day" => read(count, |date| u64::from(date.day())),
        "weekday" => read(count, |date| {
            u64::from(date.weekday().num_days_from_monday())
        }),
        "year_month_day" => read(count, |date| of_name(date.year(), date.month(), date.day())),
        "iso_week" => read(count, |date| {
            let week = date.iso_week();
            of_year(week.year(), week.week())
        }),
        "to_days" => read(count, |date| i64::from(date.num_days_from_ce()) as u64),
        "succ" => read(count, |date| of_date(date.succ_opt())),
        "from_days" => of_number(count, |days| {
            NaiveDate::from_num_days_from_ce_opt(days)
                .map_or(0, |date| of_name(date.year(), date.month(), date.day()))
        }),
        "from_ymd" => from_ymd(count, |date| of_date(Some(date))),
        "ymd_to_days" => from_ymd(count, |date| i64::from(date.num_days_from_ce()) as u64),
        "diff" => of_two(count, |a, b| a.signed_duration_since(b).num_days() as u64),
        "compare" => of_two(count, |a, b| u64::from(a < b)),
        "add_few_days" => add_days(count, few_days),
        "add_days" => add_days(count, days),
        "add_months" => add_months(count, date),
        _ => return None,
    })
}

/// The same of a bare formula for one field of a day number: the least that its divisions cost.
fn sum_of_formulas(name: &str, count: u64) -> Option<u64> {
    Some(match name {
        "year" => of_number(count, |days| i64::from(formulas::year(days)) as u64),
        "ordinal" => of_number(count, |days| u64::from(formulas::ordinal(days))),
        "month" => of_number(count, |days| u64::from(formulas::month_day(days).0)),
        "day" => of_number(count, |days| u64::from(formulas::month_day(days).1)),
        "weekday" => of_number(count, |days| u64::from(formulas::weekday(days))),
        _ => return None,
    })
}

/// The sum of the answers of the call with a name.
fn sum_of_answers(name: &str, count: u64) -> Option<u64> {
    let generator = Generator::new();
    Some(match name {
        "none" => nothing(generator, count),
        "time_add" => time_add(generator, count),
        "moment_add" => moment_add(count, moment),
        "far_moment_add" => moment_add(count, far_moment),
        "far_add_months" => add_months(count, far_date),
        "moment_diff" => moment_diff(generator, count),
        "duration_add" => duration_add(generator, count),
        "new_num_seconds" => new_num_seconds(generator, count),
        "print_date" => print(count, far_date),
        "print_moment" => print(count, far_moment),
        "print_duration" => print(count, |generator| LaterDuration::new(duration(generator))),
        "read_date" => read_dates(generator, count),
        #[cfg(feature = "instants")]
        "timestamp" | "to_offset" | "write_rfc3339" | "read_rfc3339" => {
            instants::sum_of_answers(name, generator, count)?
        }
        _ => match name.split_once('.') {
            Some(("formula", name)) => sum_of_formulas(name, count)?,
            _ => sum_of_dates(name, count)?,
        },
    })
}

/// Prints a sum for each pair of words; `None` if one names no call or no number.
fn run(words: &[String]) -> Option<()> {
    for pair in words.chunks(2) {
        let [name, count] = pair else {
            return None;
        };
        println!("{}", sum_of_answers(name, count.parse().ok()?)?);
    }
    Some(())
}

fn main() -> ExitCode {
    let words: Vec<String> = env::args().skip(1).collect();
    if words.is_empty() || run(&words).is_none() {
        eprintln!("usage: chrono_timed CALL COUNT ..");
        return ExitCode::from(2);
    }
    ExitCode::SUCCESS
}
