//! The plainest good Rust program over chrono that answers caltool's commands: what `benches/lines.py` compares with.
//!
//! It checks the types of numbers as `parse` does and answers `error` where a line does not parse.

use chrono::{Datelike, Days, Duration, Months, NaiveDate, NaiveDateTime, Weekday};
use std::fmt::Write as _;
use std::io::{self, BufRead, BufWriter, Write};
use std::str::{FromStr, SplitAsciiWhitespace};

/// More days than there are in chrono's range, at which version 0.4.23 does not panic.
const ALL_DAYS: u64 = 200_000_000;
const WEEK: [Weekday; 7] =
    [Weekday::Mon, Weekday::Tue, Weekday::Wed, Weekday::Thu, Weekday::Fri, Weekday::Sat, Weekday::Sun];

fn next<T: FromStr>(words: &mut SplitAsciiWhitespace) -> Option<T> {
    words.next()?.parse().ok()
}

fn weekday(words: &mut SplitAsciiWhitespace) -> Option<Weekday> {
    WEEK.get(next::<usize>(words)?.checked_sub(1)?).copied()
}

/// Whether chrono 0.4.45 has the date: its range is a year shorter at each end.
fn in_range(date: &NaiveDate) -> bool {
    (-262_143..=262_142).contains(&date.year())
}

fn ymd(words: &mut SplitAsciiWhitespace) -> Option<Option<NaiveDate>> {
    let date = NaiveDate::from_ymd_opt(next(words)?, next(words)?, next(words)?);
    Some(date.filter(in_range))
}

fn moment(words: &mut SplitAsciiWhitespace) -> Option<Option<NaiveDateTime>> {
    let date = ymd(words)?;
    let (h, m, s, n) = (next(words)?, next(words)?, next(words)?, next(words)?);
    let is_time = n < 1_000_000_000 || s == 59;
    Some(date.filter(|_| is_time).and_then(|date| date.and_hms_nano_opt(h, m, s, n)))
}

fn duration(secs: i64, nanos: u32) -> Option<Duration> {
    if nanos >= 1_000_000_000 || secs.unsigned_abs() > i64::MAX as u64 / 1_000 {
        return None;
    }
    Duration::seconds(secs).checked_add(&Duration::nanoseconds(i64::from(nanos)))
}

fn date_line(date: Option<NaiveDate>, out: &mut String) {
    match date.filter(in_range) {
        Some(date) => {
            let _ = write!(
                out,
                "{} {} {} {:?} {}",
                date,
                date.num_days_from_ce(),
                date.weekday(),
                date.iso_week(),
                date.ordinal()
            );
        }
        None => out.push_str("none"),
    }
}

fn end_of_week(date: Option<NaiveDate>, out: &mut String) {
    match date.filter(in_range) {
        Some(date) => {
            let _ = write!(out, "{date}");
        }
        None => out.push_str("none"),
    }
}

fn week_line(date: Option<NaiveDate>, start: Weekday, out: &mut String) {
    let Some(date) = date else {
        return out.push_str("none");
    };
    let back = (7 + date.weekday().num_days_from_monday() - start.num_days_from_monday()) % 7;
    end_of_week(date.checked_sub_days(Days::new(u64::from(back))), out);
    out.push(' ');
    end_of_week(date.checked_add_days(Days::new(u64::from(6 - back))), out);
}

/// The duration as chrono 0.4.45 writes it, in seconds alone.
fn duration_line(duration: Duration, out: &mut String) {
    let secs = duration.num_seconds();
    let nanos = (duration - Duration::seconds(secs)).num_nanoseconds().unwrap_or(0);
    if secs == 0 && nanos == 0 {
        return out.push_str("P0D");
    }
    let sign = if secs < 0 || nanos < 0 { "-" } else { "" };
    let _ = write!(out, "{sign}PT{}", secs.unsigned_abs());
    if nanos != 0 {
        let fraction = format!("{:09}", nanos.unsigned_abs());
        let _ = write!(out, ".{}", fraction.trim_end_matches('0'));
    }
    out.push('S');
}

fn set_line(words: &mut SplitAsciiWhitespace, out: &mut String) -> Option<()> {
    let start = weekday(words)?.num_days_from_monday();
    let mut set = [false; 7];
    for word in words {
        set[word.parse::<usize>().ok().filter(|day| (1..=7).contains(day))? - 1] = true;
    }
    let days: Vec<String> = WEEK.iter().zip(set).filter(|(_, is_in)| *is_in).map(|(day, _)| day.to_string()).collect();
    let _ = write!(out, "[{}]", days.join(", "));
    for step in 0..7 {
        let day = ((start + step) % 7) as usize;
        if set[day] {
            let _ = write!(out, " {}", WEEK[day]);
        }
    }
    Some(())
}

fn answer(line: &str, out: &mut String) -> Option<()> {
    let words = &mut line.split_ascii_whitespace();
    match words.next()? {
        "ymd" => date_line(ymd(words)?, out),
        "yo" => date_line(NaiveDate::from_yo_opt(next(words)?, next(words)?), out),
        "iwd" => {
            let (year, week) = (next(words)?, next(words)?);
            date_line(NaiveDate::from_isoywd_opt(year, week, weekday(words)?), out)
        }
        "day" => date_line(NaiveDate::from_num_days_from_ce_opt(next(words)?), out),
        "wom" => {
            let (year, month) = (next(words)?, next(words)?);
            let weekday = weekday(words)?;
            date_line(NaiveDate::from_weekday_of_month_opt(year, month, weekday, next(words)?), out)
        }
        "days" => {
            let date = ymd(words)?;
            let k: i64 = next(words)?;
            let moved = date.and_then(|date| {
                let days = Days::new(k.unsigned_abs().min(ALL_DAYS));
                if k < 0 { date.checked_sub_days(days) } else { date.checked_add_days(days) }
            });
            date_line(moved, out)
        }
        "months" => {
            let date = ymd(words)?;
            let k: i64 = next(words)?;
            let months = Months::new(u32::try_from(k.unsigned_abs()).ok()?);
            let moved = date.and_then(|date| {
                if k < 0 { date.checked_sub_months(months) } else { date.checked_add_months(months) }
            });
            date_line(moved, out)
        }
        "week" => {
            let date = ymd(words)?;
            week_line(date, weekday(words)?, out)
        }
        "move" => {
            let start = moment(words)?;
            let (secs, nanos) = (next(words)?, next(words)?);
            let moved = start.and_then(|start| start.checked_add_signed(duration(secs, nanos)?));
            match moved.filter(|end| in_range(&end.date())) {
                Some(end) => {
                    let _ = write!(out, "{end:?}");
                }
                None => out.push_str("none"),
            }
        }
        "diff" => {
            let (first, second) = (moment(words)?, moment(words)?);
            match first.zip(second) {
                Some((first, second)) => duration_line(first.signed_duration_since(second), out),
                None => out.push_str("none"),
            }
        }
        "since" => {
            let (date, from) = (ymd(words)?, ymd(words)?);
            match date.zip(from).and_then(|(date, from)| date.years_since(from)) {
                Some(years) => {
                    let _ = write!(out, "{years}");
                }
                None => out.push_str("none"),
            }
        }
        "set" => set_line(words, out)?,
        _ => return None,
    }
    if words.next().is_none() { Some(()) } else { None }
}

fn main() -> io::Result<()> {
    let mut input = io::stdin().lock();
    let mut output = BufWriter::with_capacity(1 << 16, io::stdout().lock());
    let (mut line, mut text) = (String::new(), String::new());
    while input.read_line(&mut line)? > 0 {
        text.clear();
        if answer(line.trim_end_matches('\n'), &mut text).is_none() {
            text.clear();
            text.push_str("error");
        }
        text.push('\n');
        output.write_all(text.as_bytes())?;
        line.clear();
    }
    output.flush()
}
