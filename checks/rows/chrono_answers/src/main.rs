//! What chrono answers to the calls that `crates/rows_chrono/stdin` has rows of, and how it reads the texts of
//! `crates/rows_layers/stdin`, for `checks/rows/rows.py` and `checks/rows/texts.py`.
//!
//! It reads a call with its arguments, or a kind of text and a text, from each line of standard input, as they stand in a row,
//! and writes the answer in the words of a row: `-` where version 0.4.23 lacks the call or means something else by it, `!` where
//! it panics, and `?` for a single word that it is not asked for.
//!
//! That version has one more year at each end of its calendar and one more duration below the others, so a date of these years
//! and that duration are `none`.

mod date_times;
mod dates;
mod durations;
mod names;
mod texts;
mod times;
mod words;

use std::io::{self, BufRead, BufWriter, Write};
use std::panic;

/// The answer to the call of a line, if chrono has a call of that meaning.
fn answer(line: &str) -> Option<String> {
    let (call, text) = line.split_once(' ').unwrap_or((line, ""));
    let Some((owner, name)) = call.split_once('.') else {
        return texts::read(call, text);
    };
    let mut words = text.split_ascii_whitespace();
    let words = &mut words;
    let answer = match owner {
        "Weekday" => names::of_weekday(name, words),
        "Month" => names::of_month(name, words),
        "Months" => names::of_months(name, words),
        "TimeDelta" => durations::answer(name, words),
        "NaiveTime" => times::answer(name, words),
        "NaiveDate" => dates::answer(name, words),
        "NaiveWeek" => dates::of_week(name, words),
        "IsoWeek" => dates::of_iso_weeks(name, words),
        "NaiveDateTime" => date_times::answer(name, words),
        _ => None,
    };
    answer.filter(|_| words.next().is_none())
}

fn main() -> io::Result<()> {
    panic::set_hook(Box::new(|_| ()));
    let mut out = BufWriter::new(io::stdout().lock());
    for line in io::stdin().lock().lines() {
        let line = line?;
        match panic::catch_unwind(|| answer(&line)) {
            Ok(answer) => writeln!(out, "{}", answer.as_deref().unwrap_or("-"))?,
            Err(_) => writeln!(out, "!")?,
        }
    }
    out.flush()
}
