//! caltool's commands over chrono, tuned by hand: its own reader of numbers and writer of bytes, two buffers of 64 KiB.
//!
//! What `benches/lines.py` holds caltool to. A line is read once, into a name and an array of whole numbers; these then get their
//! types by the name, and the answer is written straight into the output's buffer.

use chrono::{Datelike, Days, Duration, Months, NaiveDate, NaiveDateTime, Timelike, Weekday};
use std::io::{self, Read, Write};

/// The bytes that are read, and about those that are written, at a time.
const SIZE: usize = 1 << 16;
/// The longest line that is read.
const LONGEST: usize = 120;
/// More days than there are in chrono's range.
const ALL_DAYS: u64 = 200_000_000;
/// The digits of the numbers below 100.
const PAIRS: [[u8; 2]; 100] = pairs();

const fn pairs() -> [[u8; 2]; 100] {
    let mut pairs = [[b'0'; 2]; 100];
    let mut at = 0;
    while at < 100 {
        pairs[at] = [b'0' + (at / 10) as u8, b'0' + (at % 10) as u8];
        at += 1;
    }
    pairs
}

/// The end of the output, with room for the longest answer.
struct Out {
    bytes: Box<[u8; SIZE + 512]>,
    end: usize,
}

impl Out {
    #[inline(always)]
    fn put(&mut self, bytes: &[u8]) {
        self.bytes[self.end..self.end + bytes.len()].copy_from_slice(bytes);
        self.end += bytes.len();
    }

    #[inline(always)]
    fn two(&mut self, value: u32) {
        self.put(&PAIRS[value as usize]);
    }

    /// A number with no zeros before it.
    #[inline(always)]
    fn natural(&mut self, mut value: u64) {
        let mut digits = [0; 20];
        let mut at = 20;
        while value >= 100 {
            at -= 2;
            digits[at..at + 2].copy_from_slice(&PAIRS[(value % 100) as usize]);
            value /= 100;
        }
        if value >= 10 {
            at -= 2;
            digits[at..at + 2].copy_from_slice(&PAIRS[value as usize]);
        } else {
            at -= 1;
            digits[at] = b'0' + value as u8;
        }
        self.put(&digits[at..]);
    }

    /// A year of at least four digits, with a sign if it is not from 0 to 9999.
    #[inline(always)]
    fn year(&mut self, year: i32) {
        let size = year.unsigned_abs();
        if (0..=9999).contains(&year) {
            self.two(size / 100);
            self.two(size % 100);
            return;
        }
        self.put(if year < 0 { b"-" } else { b"+" });
        if size <= 9999 {
            self.two(size / 100);
            self.two(size % 100);
        } else {
            self.natural(u64::from(size));
        }
    }

    #[inline(always)]
    fn date(&mut self, date: NaiveDate) {
        self.year(date.year());
        self.put(b"-");
        self.two(date.month());
        self.put(b"-");
        self.two(date.day());
    }

    #[inline(always)]
    fn weekday(&mut self, index: u32) {
        self.put([b"Mon", b"Tue", b"Wed", b"Thu", b"Fri", b"Sat", b"Sun"][index as usize]);
    }

    /// All that a date is answered by.
    #[inline(always)]
    fn dated(&mut self, date: Option<NaiveDate>) {
        let Some(date) = date.filter(in_range) else {
            return self.put(b"none");
        };
        self.date(date);
        let days = date.num_days_from_ce();
        self.put(if days < 0 { b" -" } else { b" " });
        self.natural(u64::from(days.unsigned_abs()));
        self.put(b" ");
        self.weekday(date.weekday().num_days_from_monday());
        self.put(b" ");
        let week = date.iso_week();
        self.year(week.year());
        self.put(b"-W");
        self.two(week.week());
        self.put(b" ");
        self.natural(u64::from(date.ordinal()));
    }

    /// A fraction of a second in so many digits.
    #[inline(always)]
    fn fraction(&mut self, mut value: u32, places: usize) {
        let mut digits = [b'.'; 10];
        for at in (1..=places).rev() {
            digits[at] = b'0' + (value % 10) as u8;
            value /= 10;
        }
        self.put(&digits[..=places]);
    }

    /// A date-time, with a fraction in 0, 3, 6 or 9 digits.
    #[inline(always)]
    fn moment(&mut self, at: NaiveDateTime) {
        self.date(at.date());
        self.put(b"T");
        self.two(at.hour());
        self.put(b":");
        self.two(at.minute());
        self.put(b":");
        let leap = at.nanosecond() / 1_000_000_000;
        self.two(at.second() + leap);
        match at.nanosecond() % 1_000_000_000 {
            0 => {}
            nanos if nanos % 1_000_000 == 0 => self.fraction(nanos / 1_000_000, 3),
            nanos if nanos % 1_000 == 0 => self.fraction(nanos / 1_000, 6),
            nanos => self.fraction(nanos, 9),
        }
    }

    /// A duration in seconds, with no zeros at the end of its fraction.
    #[inline(always)]
    fn duration(&mut self, duration: Duration) {
        let whole = duration.num_seconds();
        let nanos = (duration - Duration::seconds(whole)).num_nanoseconds().unwrap_or(0);
        if whole == 0 && nanos == 0 {
            return self.put(b"P0D");
        }
        self.put(if whole < 0 || nanos < 0 { b"-PT" } else { b"PT" });
        self.natural(whole.unsigned_abs());
        let (mut nanos, mut places) = (nanos.unsigned_abs() as u32, 9);
        if nanos > 0 {
            while nanos % 10 == 0 {
                nanos /= 10;
                places -= 1;
            }
            self.fraction(nanos, places);
        }
        self.put(b"S");
    }
}

/// Whether chrono 0.4.45 has the date: its range is a year shorter at each end.
#[inline(always)]
fn in_range(date: &NaiveDate) -> bool {
    (-262_143..=262_142).contains(&date.year())
}

/// The numbers of a line. A number that fits no `i64` is one that fits no other type either.
struct Numbers {
    values: [i64; LONGEST / 2],
    len: usize,
}

impl Numbers {
    /// Reads the words after the name, each after one space; whether they all are numbers.
    #[inline(always)]
    fn read(&mut self, mut text: &[u8]) -> Option<()> {
        self.len = 0;
        while let [b' ', rest @ ..] = text {
            let (negative, digits) = match rest {
                [b'-', digits @ ..] => (true, digits),
                _ => (false, rest),
            };
            let mut size = 0u64;
            let mut at = 0;
            while let Some(digit) = digits.get(at).map(|byte| byte.wrapping_sub(b'0')).filter(|&digit| digit < 10) {
                // (no number that 19 digits write is cut; a longer one is read again)
                size = size.wrapping_mul(10).wrapping_add(u64::from(digit));
                at += 1;
            }
            if at == 0 {
                return None;
            }
            let value = if at < 19 {
                if negative { -(size as i64) } else { size as i64 }
            } else {
                std::str::from_utf8(&rest[..at + usize::from(negative)]).ok()?.parse().ok()?
            };
            *self.values.get_mut(self.len)? = value;
            self.len += 1;
            text = &digits[at..];
        }
        if text.is_empty() { Some(()) } else { None }
    }

    #[inline(always)]
    fn exactly<const N: usize>(&self) -> Option<&[i64; N]> {
        if self.len == N { self.values.first_chunk() } else { None }
    }
}

#[inline(always)]
fn i32_of(value: i64) -> Option<i32> {
    i32::try_from(value).ok()
}

#[inline(always)]
fn u32_of(value: i64) -> Option<u32> {
    u32::try_from(value).ok()
}

#[inline(always)]
fn weekday_of(value: i64) -> Option<Weekday> {
    Some(match value {
        1 => Weekday::Mon,
        2 => Weekday::Tue,
        3 => Weekday::Wed,
        4 => Weekday::Thu,
        5 => Weekday::Fri,
        6 => Weekday::Sat,
        7 => Weekday::Sun,
        _ => return None,
    })
}

/// A date by its name. The outer `None` is a number that does not fit, the inner one a date that does not exist.
#[inline(always)]
fn date_of(year: i64, month: i64, day: i64) -> Option<Option<NaiveDate>> {
    let date = NaiveDate::from_ymd_opt(i32_of(year)?, u32_of(month)?, u32_of(day)?);
    Some(date.filter(in_range))
}

#[inline(always)]
fn moment_of(&[y, m, d, hour, minute, second, nano]: &[i64; 7]) -> Option<Option<NaiveDateTime>> {
    let date = date_of(y, m, d)?;
    let (hour, minute, second, nano) = (u32_of(hour)?, u32_of(minute)?, u32_of(second)?, u32_of(nano)?);
    let is_time = nano < 1_000_000_000 || second == 59;
    Some(date.filter(|_| is_time).and_then(|date| date.and_hms_nano_opt(hour, minute, second, nano)))
}

/// Answers a line; `None` if it is no command.
#[inline(always)]
fn answer(line: &[u8], numbers: &mut Numbers, out: &mut Out) -> Option<()> {
    if line.len() > LONGEST {
        return None;
    }
    let name = line.iter().position(|&byte| byte == b' ')?;
    numbers.read(&line[name..])?;
    match &line[..name] {
        b"ymd" => {
            let &[y, m, d] = numbers.exactly()?;
            out.dated(date_of(y, m, d)?);
        }
        b"yo" => {
            let &[y, o] = numbers.exactly()?;
            out.dated(NaiveDate::from_yo_opt(i32_of(y)?, u32_of(o)?));
        }
        b"iwd" => {
            let &[y, w, d] = numbers.exactly()?;
            let day = weekday_of(d)?;
            out.dated(NaiveDate::from_isoywd_opt(i32_of(y)?, u32_of(w)?, day));
        }
        b"day" => {
            let &[days] = numbers.exactly()?;
            out.dated(NaiveDate::from_num_days_from_ce_opt(i32_of(days)?));
        }
        b"wom" => {
            let &[y, m, d, k] = numbers.exactly()?;
            let (day, k) = (weekday_of(d)?, u8::try_from(k).ok()?);
            out.dated(NaiveDate::from_weekday_of_month_opt(i32_of(y)?, u32_of(m)?, day, k));
        }
        b"days" => {
            let &[y, m, d, k] = numbers.exactly()?;
            // (chrono 0.4.23 panics at counts that no range of dates has)
            let days = Days::new(k.unsigned_abs().min(ALL_DAYS));
            let moved = |date: NaiveDate| if k < 0 { date.checked_sub_days(days) } else { date.checked_add_days(days) };
            out.dated(date_of(y, m, d)?.and_then(moved));
        }
        b"months" => {
            let &[y, m, d, k] = numbers.exactly()?;
            let months = Months::new(u32::try_from(k.unsigned_abs()).ok()?);
            let moved =
                |date: NaiveDate| if k < 0 { date.checked_sub_months(months) } else { date.checked_add_months(months) };
            out.dated(date_of(y, m, d)?.and_then(moved));
        }
        b"week" => {
            let &[y, m, d, start] = numbers.exactly()?;
            let (date, start) = (date_of(y, m, d)?, weekday_of(start)?);
            week(date, start, out);
        }
        b"move" => {
            let &[y, m, d, hour, minute, second, nano, secs, nanos] = numbers.exactly()?;
            let start = moment_of(&[y, m, d, hour, minute, second, nano])?;
            let nanos = u32_of(nanos)?;
            let moved = start.and_then(|start| start.checked_add_signed(duration_of(secs, nanos)?));
            match moved.filter(|to| in_range(&to.date())) {
                Some(to) => out.moment(to),
                None => out.put(b"none"),
            }
        }
        b"diff" => {
            let &[y, m, d, hour, minute, second, nano, ..] = numbers.exactly::<14>()?;
            let first = moment_of(&[y, m, d, hour, minute, second, nano])?;
            let &[_, _, _, _, _, _, _, y, m, d, hour, minute, second, nano] = numbers.exactly()?;
            let second = moment_of(&[y, m, d, hour, minute, second, nano])?;
            match first.zip(second) {
                Some((first, second)) => out.duration(first.signed_duration_since(second)),
                None => out.put(b"none"),
            }
        }
        b"since" => {
            let &[y, m, d, from_y, from_m, from_d] = numbers.exactly()?;
            let dates = (date_of(y, m, d)?, date_of(from_y, from_m, from_d)?);
            match dates.0.zip(dates.1).and_then(|(date, from)| date.years_since(from)) {
                Some(years) => out.natural(u64::from(years)),
                None => out.put(b"none"),
            }
        }
        b"set" => set(&numbers.values[..numbers.len], out)?,
        _ => return None,
    }
    Some(())
}

/// The duration of so many seconds and nanoseconds, if the nanoseconds are below a second and it is in range.
#[inline(always)]
fn duration_of(secs: i64, nanos: u32) -> Option<Duration> {
    if nanos >= 1_000_000_000 || secs.unsigned_abs() > i64::MAX as u64 / 1_000 {
        return None;
    }
    Duration::seconds(secs).checked_add(&Duration::nanoseconds(i64::from(nanos)))
}

/// The first and the last day of the week of a date.
#[inline(always)]
fn week(date: Option<NaiveDate>, start: Weekday, out: &mut Out) {
    let Some(date) = date else {
        return out.put(b"none");
    };
    let back = (7 + date.weekday().num_days_from_monday() - start.num_days_from_monday()) % 7;
    let ends = [
        date.checked_sub_days(Days::new(u64::from(back))),
        date.checked_add_days(Days::new(u64::from(6 - back))),
    ];
    for (at, end) in ends.into_iter().enumerate() {
        if at > 0 {
            out.put(b" ");
        }
        match end.filter(in_range) {
            Some(end) => out.date(end),
            None => out.put(b"none"),
        }
    }
}

/// A set of weekdays, and its walk from the first number on.
#[inline(always)]
fn set(numbers: &[i64], out: &mut Out) -> Option<()> {
    let (&start, days) = numbers.split_first()?;
    let start = weekday_of(start)?.num_days_from_monday();
    let mut set = 0u8;
    for &day in days {
        set |= 1 << weekday_of(day)?.num_days_from_monday();
    }
    out.put(b"[");
    let mut first = true;
    for day in 0..7 {
        if set >> day & 1 == 1 {
            out.put(if first { b"" } else { b", " });
            out.weekday(day);
            first = false;
        }
    }
    out.put(b"]");
    for step in 0..7 {
        let day = (start + step) % 7;
        if set >> day & 1 == 1 {
            out.put(b" ");
            out.weekday(day);
        }
    }
    Some(())
}

fn main() -> io::Result<()> {
    let (mut input, mut output) = (io::stdin().lock(), io::stdout().lock());
    let mut bytes = vec![0; SIZE];
    let mut held = 0;
    let mut numbers = Numbers { values: [0; LONGEST / 2], len: 0 };
    let mut out = Out { bytes: Box::new([0; SIZE + 512]), end: 0 };
    loop {
        // (a line that fills the buffer is too long whatever follows)
        if held == SIZE {
            held = LONGEST + 1;
        }
        let read = input.read(&mut bytes[held..])?;
        let end = held + read;
        let mut rest = &bytes[..end];
        while let Some(len) = newline(rest) {
            answer_line(&rest[..len], &mut numbers, &mut out);
            rest = &rest[len + 1..];
            if out.end > SIZE {
                output.write_all(&out.bytes[..out.end])?;
                out.end = 0;
            }
        }
        if read == 0 && !rest.is_empty() {
            answer_line(rest, &mut numbers, &mut out);
        }
        output.write_all(&out.bytes[..out.end])?;
        out.end = 0;
        if read == 0 {
            return output.flush();
        }
        let from = end - rest.len();
        bytes.copy_within(from..end, 0);
        held = end - from;
    }
}

fn answer_line(line: &[u8], numbers: &mut Numbers, out: &mut Out) {
    let start = out.end;
    if answer(line, numbers, out).is_none() {
        out.end = start;
        out.put(b"error");
    }
    out.put(b"\n");
}

/// Where the first newline is, found eight bytes at a time.
#[inline(always)]
fn newline(bytes: &[u8]) -> Option<usize> {
    const ONES: u64 = u64::MAX / 255;
    let mut at = 0;
    while let Some(eight) = bytes.get(at..at + 8) {
        let word = u64::from_le_bytes(eight.try_into().unwrap()) ^ (ONES * b'\n' as u64);
        let found = word.wrapping_sub(ONES) & !word & (ONES << 7);
        if found != 0 {
            return Some(at + found.trailing_zeros() as usize / 8);
        }
        at += 8;
    }
    bytes[at..].iter().position(|&byte| byte == b'\n').map(|past| at + past)
}
