//! What chrono writes by the patterns of `checks/layers/patterns.py`, and reads by those of `checks/layers/patterns_read.py`.
//!
//! A line has the day number, the second, its fraction, the offset in seconds and the pattern. The answer is the text, `!` where chrono has
//! no such pattern, and `-` where it has no such date-time. With the word `read` a line has the pattern, `|` and the text. The answer is the
//! date, and the date-time with its offset, each `!` where chrono reads none.

use chrono::{DateTime, FixedOffset, NaiveDate, NaiveDateTime, NaiveTime, TimeZone};
use std::fmt::Write as _;
use std::io::{self, BufRead, BufWriter, Write};

/// The date-time and the pattern of a line.
fn parts(line: &str) -> Option<(DateTime<FixedOffset>, &str)> {
    let mut words = line.splitn(5, ' ');
    let date = NaiveDate::from_num_days_from_ce_opt(words.next()?.parse().ok()?)?;
    let second = words.next()?.parse().ok()?;
    let fraction = words.next()?.parse().ok()?;
    let time = NaiveTime::from_num_seconds_from_midnight_opt(second, fraction)?;
    let offset = FixedOffset::east_opt(words.next()?.parse().ok()?)?;
    let moment = offset.from_local_datetime(&NaiveDateTime::new(date, time)).single()?;
    Some((moment, words.next()?))
}

/// What is read, or `!` for nothing.
fn written<T: std::fmt::Debug, E>(read: Result<T, E>) -> String {
    read.map_or_else(|_| "!".to_owned(), |it| format!("{it:?}"))
}

/// The date that a text gives by its pattern, and the date-time with its offset.
fn read(line: &str) -> String {
    let (pattern, text) = line.split_once('|').unwrap_or((line, ""));
    let date = written(NaiveDate::parse_from_str(text, pattern));
    format!("{date} {}", written(DateTime::parse_from_str(text, pattern)))
}

fn main() -> io::Result<()> {
    let reads = std::env::args().nth(1).as_deref() == Some("read");
    let mut out = BufWriter::new(io::stdout().lock());
    for line in io::stdin().lock().lines() {
        let line = line?;
        if reads {
            writeln!(out, "{}", read(&line))?;
            continue;
        }
        let mut text = String::new();
        match parts(&line) {
            Some((moment, pattern)) if write!(text, "{}", moment.format(pattern)).is_ok() => writeln!(out, "{text}")?,
            Some(_) => writeln!(out, "!")?,
            None => writeln!(out, "-")?,
        }
    }
    out.flush()
}
