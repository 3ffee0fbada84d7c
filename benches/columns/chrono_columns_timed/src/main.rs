//! The columns of the calendar by chrono, one date after another: N ROUNDS, a line `CALL chrono NANOSECONDS` for each.

use chrono::{Datelike, Days, Months, NaiveDate};

extern "C" {
    /// The processor time of this program in millionths of a second, of C's library.
    fn clock() -> i64;
}

/// The processor time of this program in nanoseconds.
fn now() -> f64 {
    // SAFETY: it takes nothing, and only reads a clock.
    (unsafe { clock() }) as f64 * 1e3
}

/// Columns of the same length.
struct Columns {
    dates: Vec<i32>,
    years: Vec<i32>,
    months: Vec<u8>,
    days: Vec<u8>,
    numbers: Vec<i32>,
    ordinals: Vec<u16>,
}

const NONE: i32 = i32::MIN;

fn date(number: i32) -> Option<NaiveDate> {
    NaiveDate::from_num_days_from_ce_opt(number)
}

fn weekdays(it: &mut Columns) {
    for (date_number, out) in it.dates.iter().zip(&mut it.days) {
        *out = date(*date_number).map_or(0, |date| date.weekday().number_from_monday() as u8);
    }
}

fn years(it: &mut Columns) {
    for (date_number, out) in it.dates.iter().zip(&mut it.numbers) {
        *out = date(*date_number).map_or(NONE, |date| date.year());
    }
}

fn ordinals(it: &mut Columns) {
    for (date_number, out) in it.dates.iter().zip(&mut it.ordinals) {
        *out = date(*date_number).map_or(0, |date| date.ordinal() as u16);
    }
}

fn iso_weeks(it: &mut Columns) {
    for ((date_number, year), week) in it.dates.iter().zip(&mut it.numbers).zip(&mut it.days) {
        (*year, *week) = date(*date_number).map_or((NONE, 0), |date| (date.iso_week().year(), date.iso_week().week() as u8));
    }
}

fn split(it: &mut Columns) {
    for (i, date_number) in it.dates.iter().enumerate() {
        let names = date(*date_number).map_or((NONE, 0, 0), |date| (date.year(), date.month() as u8, date.day() as u8));
        (it.years[i], it.months[i], it.days[i]) = names;
    }
}

fn join(it: &mut Columns) {
    for (i, out) in it.numbers.iter_mut().enumerate() {
        let named = NaiveDate::from_ymd_opt(it.years[i], it.months[i].into(), it.days[i].into());
        *out = named.map_or(NONE, |date| date.num_days_from_ce());
    }
}

fn add_days(it: &mut Columns) {
    for (date_number, out) in it.dates.iter().zip(&mut it.numbers) {
        let moved = date(*date_number).and_then(|date| date.checked_add_days(Days::new(1000)));
        *out = moved.map_or(NONE, |date| date.num_days_from_ce());
    }
}

fn add_months(it: &mut Columns) {
    for (date_number, out) in it.dates.iter().zip(&mut it.numbers) {
        let moved = date(*date_number).and_then(|date| date.checked_add_months(Months::new(7)));
        *out = moved.map_or(NONE, |date| date.num_days_from_ce());
    }
}

const CALLS: [(&str, fn(&mut Columns)); 8] = [
    ("weekdays", weekdays),
    ("years", years),
    ("ordinals", ordinals),
    ("iso_weeks", iso_weeks),
    ("split", split),
    ("join", join),
    ("add_days", add_days),
    ("add_months", add_months),
];

fn main() {
    let mut words = std::env::args().skip(1).map(|it| it.parse::<usize>().unwrap());
    let (n, rounds) = (words.next().unwrap(), words.next().unwrap());
    let repeats = (1_000_000 / n).max(1);
    let mut state = 88_172_645_463_325_252u64;
    let mut draw = || {
        state ^= state << 13;
        state ^= state >> 7;
        state ^= state << 17;
        state
    };
    let mut columns = Columns {
        dates: (0..n).map(|_| 657_073 + (draw() % 146_097) as i32).collect(),
        years: vec![0; n],
        months: vec![0; n],
        days: vec![0; n],
        numbers: vec![0; n],
        ordinals: vec![0; n],
    };
    split(&mut columns);
    join(&mut columns);
    assert!(columns.numbers == columns.dates, "the answers are not the same, so nothing was timed");
    for (name, call) in CALLS {
        if name == "join" {
            split(&mut columns);
        }
        let mut best = f64::MAX;
        for _ in 0..rounds {
            let began = now();
            for _ in 0..repeats {
                call(std::hint::black_box(&mut columns));
            }
            best = best.min((now() - began) / repeats as f64 / n as f64);
        }
        println!("{name} chrono {best:.3}");
    }
}
