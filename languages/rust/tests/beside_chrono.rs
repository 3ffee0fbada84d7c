//! The module `chrono` beside Debian's chrono 0.4.23, on generated values, patterns and texts.

use std::fmt::Write;

/// Cases of each kind.
const CASES: u64 = 20_000;

/// A source of numbers, the same in each run.
struct Source(u64);

impl Source {
    fn next(&mut self) -> u64 {
        self.0 = self.0.wrapping_add(0x9E37_79B9_7F4A_7C15);
        let mixed = (self.0 ^ self.0 >> 30).wrapping_mul(0xBF58_476D_1CE4_E5B9);
        let mixed = (mixed ^ mixed >> 27).wrapping_mul(0x94D0_49BB_1331_11EB);
        mixed ^ mixed >> 31
    }

    /// A number from the first to the last.
    fn from(&mut self, first: i64, last: i64) -> i64 {
        first + (self.next() % (last - first + 1) as u64) as i64
    }

    fn one_of<T: Copy>(&mut self, those: &[T]) -> T {
        those[self.from(0, those.len() as i64 - 1) as usize]
    }
}

/// A generated case.
#[derive(Debug)]
struct Case {
    /// Year, month and day, which may not exist.
    date: (i32, u32, u32),
    other: (i32, u32, u32),
    /// Hour, minute and second, which may not exist.
    clock: (u32, u32, u32),
    /// Nanoseconds; in a leap second 1,000,000,000 and more.
    nanos: u32,
    /// A length, in milliseconds and nanoseconds.
    length: (i64, i64),
    small: u32,
    weekday: u8,
    /// Seconds ahead of UTC.
    offset: i32,
    pattern: String,
    /// What of a text is changed: a place and a character.
    change: Option<(usize, char)>,
}

/// The dates that both have.
const YEARS: (i64, i64) = (-262_143, 262_142);

const SPECIFIERS: [&str; 60] = [
    "%Y", "%C", "%y", "%m", "%b", "%B", "%h", "%d", "%e", "%a", "%A", "%w", "%u", "%G", "%g", "%V",
    "%j", "%D", "%x", "%F", "%v", "%H", "%k", "%I", "%l", "%P", "%p", "%M", "%S", "%f", "%.f",
    "%.3f", "%.6f", "%.9f", "%3f", "%6f", "%9f", "%R", "%T", "%X", "%r", "%Z", "%z", "%:z", "%::z",
    "%:::z", "%c", "%+", "%s", "%t", "%n", "%%", "%-d", "%_m", "%0e", "%-Y", "%_Y", "%_j", "%-H",
    "%_f",
];

/// Whole patterns, which texts can be read by.
const PATTERNS: [&str; 16] = [
    "%Y-%m-%d %H:%M:%S",
    "%Y-%m-%dT%H:%M:%S%.f%z",
    "%d %b %Y %I:%M %p",
    "%a, %d %B %Y %T %:z",
    "%G-W%V-%u %R",
    "%Y %j %H%M%S",
    "%y%m%d %H:%M:%S.%f",
    "%C%y/%m/%d %k:%M",
    "%Y %j %w %T",
    "%Y %j %a %T%.3f",
    "%s",
    "%s %S",
    "%F %T %s",
    "%c",
    "%+",
    "%D %r",
];

fn pattern(source: &mut Source) -> String {
    if source.from(0, 1) == 0 {
        return source.one_of(&PATTERNS).to_string();
    }
    let mut pattern = String::new();
    for _ in 0..source.from(1, 6) {
        pattern += source.one_of(&SPECIFIERS);
        pattern += source.one_of(&["", "-", " ", ":", "é", "  x "]);
    }
    pattern
}

fn date(source: &mut Source) -> (i32, u32, u32) {
    let (first, last) = source.one_of(&[
        (1_900, 2_100),
        (-9, 9),
        (9_990, 10_010),
        YEARS,
        (-262_143, -262_143),
    ]);
    let last = if source.from(0, 20) == 0 {
        YEARS.1
    } else {
        last
    };
    let year = source.from(first, last) as i32;
    let day = if source.from(0, 3) == 0 {
        source.from(27, 32)
    } else {
        source.from(0, 31)
    };
    (year, source.from(0, 13) as u32, day as u32)
}

fn case(source: &mut Source) -> Case {
    let mut clock = (
        source.from(0, 24) as u32,
        source.from(0, 60) as u32,
        source.from(0, 60) as u32,
    );
    let mut nanos = source.from(0, 999_999_999) as u32;
    nanos -= nanos % source.one_of(&[1, 1_000, 1_000_000, 1_000_000_000]);
    if source.from(0, 3) == 0 {
        (clock.2, nanos) = (59, nanos + 1_000_000_000);
    }
    let reach = source.one_of(&[2_000, 200_000, 100_000_000, 40_000_000_000, i64::MAX]);
    Case {
        date: date(source),
        other: date(source),
        clock,
        nanos,
        length: (
            source.from(-(reach - 1) / 2, reach / 2) * 2,
            source.from(-2_000_000_000, 2_000_000_000),
        ),
        small: source.one_of(&[0, 1, 2, 11, 12, 13, 59, 60, 365, 366, 5_000, u32::MAX - 1]),
        weekday: source.from(0, 6) as u8,
        offset: source.from(-86_400, 86_400) as i32 / source.one_of(&[1, 2])
            * source.one_of(&[0, 1, 1]),
        pattern: pattern(source),
        change: (source.from(0, 2) == 0).then(|| {
            (
                source.from(0, 25) as usize,
                source.one_of(&['0', '9', ' ', '-', ':', 'Z', '+', 'a', '.', 'é', 'T']),
            )
        }),
    }
}

/// The text with a character changed.
fn changed(text: &str, change: Option<(usize, char)>) -> String {
    let place = |(at, other)| {
        text.chars()
            .enumerate()
            .map(move |(it, old)| if it == at { other } else { old })
            .collect()
    };
    change.map_or(text.to_string(), place)
}

/// The same calls of both libraries.
macro_rules! answers {
    ($name:ident, $($library:tt)*) => {
        #[allow(deprecated)]
        mod $name {
            use std::fmt::Write;

            use $($library)*::format::ParseErrorKind;
            use $($library)*::*;

            use super::{changed, Case, YEARS};

            const WEEKDAYS: [Weekday; 7] = [
                Weekday::Mon, Weekday::Tue, Weekday::Wed, Weekday::Thu, Weekday::Fri, Weekday::Sat, Weekday::Sun,
            ];

            /// The value, unless its year is one that only one library has.
            fn known<T: Datelike>(found: Option<T>) -> Option<T> {
                found.filter(|it| (YEARS.0..=YEARS.1).contains(&i64::from(it.year())))
            }

            fn length(case: &Case) -> Duration {
                let millis = Duration::milliseconds(case.length.0);
                millis.checked_add(&Duration::nanoseconds(case.length.1)).unwrap_or(millis)
            }

            fn time(case: &Case) -> Option<NaiveTime> {
                let (hour, minute, second) = case.clock;
                NaiveTime::from_hms_nano_opt(hour, minute, second, case.nanos)
            }

            pub fn of_dates(case: &Case) -> Option<String> {
                let mut out = String::new();
                let (year, month, day) = case.date;
                let small = case.small;
                let weekday = WEEKDAYS[usize::from(case.weekday)];
                let other = NaiveDate::from_ymd_opt(case.other.0, case.other.1, case.other.2);
                write!(out, "{:?}", known(NaiveDate::from_isoywd_opt(year, month * 4 + day, weekday))).ok()?;
                write!(out, "{:?}", NaiveDate::from_yo_opt(year, month * 31 + day)).ok()?;
                write!(out, "{:?}", NaiveDate::from_weekday_of_month_opt(year, month, weekday, day as u8)).ok()?;
                let Some(date) = NaiveDate::from_ymd_opt(year, month, day) else {
                    return Some(out + "no date");
                };
                write!(out, "{date} {:?} {:?} {:?}", date.iso_week(), date.weekday(), date.year_ce()).ok()?;
                write!(out, " {} {} {} {}", date.month0(), date.day0(), date.ordinal(), date.num_days_from_ce()).ok()?;
                write!(out, " {:?}", known(date.checked_add_months(Months::new(small)))).ok()?;
                write!(out, " {:?}", known(date.checked_sub_months(Months::new(small)))).ok()?;
                write!(out, " {:?}", known(date.checked_add_days(Days::new(small.into())))).ok()?;
                write!(out, " {:?}", known(date.checked_sub_days(Days::new(small.into())))).ok()?;
                write!(out, " {:?}", known(date.checked_add_signed(length(case)))).ok()?;
                write!(out, " {:?}", known(date.checked_sub_signed(length(case)))).ok()?;
                write!(out, " {:?} {:?}", known(date.with_year(case.other.0)), date.with_month(case.other.1)).ok()?;
                write!(out, " {:?} {:?}", date.with_day(case.other.2), date.with_ordinal(small)).ok()?;
                write!(out, " {:?} {:?}", known(date.succ_opt()), known(date.pred_opt())).ok()?;
                if (-262_000..262_000).contains(&year) {
                    let week = date.week(weekday);
                    write!(out, " {:?}", week.days()).ok()?;
                    write!(out, " {:?}", date.iter_days().skip(small as usize % 100).next()).ok()?;
                    write!(out, " {:?}", date.iter_weeks().rev().nth(small as usize % 100)).ok()?;
                }
                if let Some(other) = other {
                    let apart = date.signed_duration_since(other);
                    write!(out, " {} {:?} {:?}", apart.num_days(), date.years_since(other), date.cmp(&other)).ok()?;
                }
                Some(out)
            }

            pub fn of_times(case: &Case) -> Option<String> {
                let mut out = String::new();
                let Some(time) = time(case) else {
                    return Some("no time".to_string());
                };
                let length = length(case);
                write!(out, "{time} {:?} {:?}", time.hour12(), time.num_seconds_from_midnight()).ok()?;
                write!(out, " {:?}", time.overflowing_add_signed(length)).ok()?;
                write!(out, " {:?}", time.overflowing_sub_signed(length)).ok()?;
                let other = time.with_hour(case.other.1).and_then(|it| it.with_second(case.other.2));
                let other = other.and_then(|it| it.with_nanosecond(case.nanos ^ 1_234));
                if let Some(other) = other {
                    let (one, back) = (time.signed_duration_since(other), other.signed_duration_since(time));
                    write!(out, " {:?} {:?}", one.num_nanoseconds(), back.num_nanoseconds()).ok()?;
                    write!(out, " {other} {:?} {:?}", other.overflowing_add_signed(length), time.cmp(&other)).ok()?;
                    write!(out, " {:?} {:?}", other.trunc_subsecs(case.weekday.into()), other + length).ok()?;
                }
                write!(out, " {:?}", time.round_subsecs(case.weekday.into())).ok()?;
                if let Some(date) = NaiveDate::from_ymd_opt(case.date.0, case.date.1, case.date.2) {
                    let moment = date.and_time(other.unwrap_or(time));
                    write!(out, " {moment} {moment:?} {} {}", moment.timestamp(), moment.timestamp_millis()).ok()?;
                    write!(out, " {:?}", known(moment.checked_add_signed(length))).ok()?;
                    write!(out, " {:?}", known(moment.checked_sub_signed(length))).ok()?;
                    write!(out, " {:?}", known(moment.checked_add_months(Months::new(case.small)))).ok()?;
                    let days = NaiveDate::from_ymd_opt(case.other.0, case.other.1, case.other.2);
                    if let Some(base) = days.map(|it| it.and_time(time)) {
                        let apart = moment.signed_duration_since(base);
                        write!(out, " {} {:?}", apart.num_seconds(), apart.num_nanoseconds()).ok()?;
                        write!(out, " {:?}", moment.cmp(&base)).ok()?;
                    }
                }
                Some(out)
            }

            pub fn of_lengths(case: &Case) -> Option<String> {
                let mut out = String::new();
                let length = length(case);
                let other = Duration::microseconds(case.length.0 ^ 12_345);
                let whole = (length.num_weeks(), length.num_days(), length.num_hours(), length.num_minutes());
                write!(out, "{whole:?} {} {}", length.num_seconds(), length.num_milliseconds()).ok()?;
                write!(out, " {:?} {:?}", length.num_microseconds(), length.num_nanoseconds()).ok()?;
                for it in [length.checked_add(&other), length.checked_sub(&other), Some(length.abs()), Some(-other)] {
                    write!(out, " {:?}", it.map(|it| (it.num_milliseconds(), it.num_nanoseconds()))).ok()?;
                }
                if case.small > 0 {
                    let part = length / (case.small % 1_000 + 1) as i32;
                    write!(out, " {:?}", (part.num_milliseconds(), part.num_nanoseconds())).ok()?;
                }
                write!(out, " {:?} {:?}", length.cmp(&other), length.to_std().ok()).ok()?;
                Some(out)
            }

            /// The text by a pattern, or that there is none.
            fn written(text: impl std::fmt::Display) -> String {
                let mut out = String::new();
                write!(out, "{text}").map_or("no text".to_string(), |()| out)
            }

            pub fn of_patterns(case: &Case) -> Option<String> {
                let mut out = String::new();
                let date = NaiveDate::from_ymd_opt(case.date.0, case.date.1, case.date.2)?;
                let moment = date.and_time(time(case)?);
                let pattern = &case.pattern;
                writeln!(out, "{}", written(date.format(pattern))).ok()?;
                writeln!(out, "{}", written(moment.time().format(pattern))).ok()?;
                writeln!(out, "{}", written(moment.format(pattern))).ok()?;
                if (-262_000..262_000).contains(&case.date.0) {
                    let zone = FixedOffset::east_opt(case.offset)?;
                    let zoned = zone.from_utc_datetime(&moment);
                    writeln!(out, "{} {zoned} {zoned:?}", written(zoned.format(pattern))).ok()?;
                    writeln!(out, "{:?} {}", zoned.with_timezone(&Utc), zoned.naive_utc()).ok()?;
                    writeln!(out, "{:?} {:?}", zoned.with_hour(case.other.1), zoned.with_day(case.other.2)).ok()?;
                    writeln!(out, "{:?}", zoned.checked_add_months(Months::new(case.small % 999))).ok()?;
                    let step = Duration::milliseconds(i64::from(case.small % 100_000) + 1);
                    let rounded = (zoned.duration_round(step).ok(), zoned.duration_trunc(step).ok());
                    writeln!(out, "{rounded:?}").ok()?;
                    writeln!(out, "{}", zoned.to_rfc3339_opts(SecondsFormat::AutoSi, true)).ok()?;
                    if (1..9_999).contains(&case.date.0) {
                        writeln!(out, "{}", zoned.to_rfc2822()).ok()?;
                    }
                }
                Some(out)
            }

            /// What was read, unless its year is one that only one library has.
            fn read<T: std::fmt::Debug>(found: Result<T, ParseError>, year: impl Fn(&T) -> i32) -> String {
                match found {
                    Ok(it) if (YEARS.0..=YEARS.1).contains(&i64::from(year(&it))) => format!("{it:?}"),
                    Ok(_) => "OutOfRange".to_string(),
                    Err(refused) => format!("{:?}", refused.kind()),
                }
            }

            /// The texts that a case is read from: by its pattern, and by the forms of each type.
            pub fn texts(case: &Case) -> Option<Vec<String>> {
                let date = NaiveDate::from_ymd_opt(case.date.0, case.date.1, case.date.2)?;
                let moment = date.and_time(time(case)?);
                let zone = FixedOffset::east_opt(case.offset)?;
                let zoned = known(Some(zone.from_utc_datetime(&moment)).filter(|it| it.year().abs() < 262_000))?;
                let mut texts = vec![written(zoned.format(&case.pattern)), written(date), format!("{moment:?}")];
                texts.push(format!("{zoned:?}"));
                texts.push(moment.time().to_string());
                if (1..9_999).contains(&zoned.year()) {
                    texts.push(zoned.to_rfc2822());
                }
                Some(texts.iter().map(|it| changed(it, case.change)).collect())
            }

            /// Whether a text with a small `t` is read by each way.
            pub fn of_small_t() -> [bool; 4] {
                let text = "2024-02-29t12:00:00Z";
                [
                    DateTime::parse_from_rfc3339(text).is_ok(),
                    text.parse::<DateTime<FixedOffset>>().is_ok(),
                    text.parse::<DateTime<Utc>>().is_ok(),
                    text[..19].parse::<NaiveDateTime>().is_ok(),
                ]
            }

            pub fn of_texts(pattern: &str, text: &str) -> String {
                let mut out = String::new();
                out += &read(NaiveDate::parse_from_str(text, pattern), |it| it.year());
                out += &read(NaiveTime::parse_from_str(text, pattern), |_| 0);
                out += &read(NaiveDateTime::parse_from_str(text, pattern), |it| it.year());
                out += &read(DateTime::parse_from_str(text, pattern), |it| it.year());
                out += &read(Utc.datetime_from_str(text, pattern), |it| it.year());
                out += "\n";
                out += &read(text.parse::<NaiveDate>(), |it| it.year());
                if text.matches(':').count() > 1 {
                    out += &read(text.parse::<NaiveTime>(), |_| 0);
                }
                out += &read(text.parse::<NaiveDateTime>(), |it| it.year());
                out += &read(text.parse::<DateTime<FixedOffset>>(), |it| it.year());
                out += "\n";
                out += &read(DateTime::parse_from_rfc3339(text), |it| it.year());
                out += &read(DateTime::parse_from_rfc2822(text), |it| it.year());
                assert!(!out.contains(&format!("{:?}", ParseErrorKind::BadFormat)) || pattern.contains('%'));
                out
            }
        }
    };
}

answers!(ours, proved_calendar::chrono);
answers!(theirs, chrono);

/// Compares two answers to each case, of which so many have to have one.
fn compare<T: PartialEq + std::fmt::Debug>(
    seed: u64,
    least: u64,
    ours: impl Fn(&Case) -> Option<T>,
    theirs: impl Fn(&Case) -> Option<T>,
) {
    let mut source = Source(seed);
    let (mut answered, mut wrong) = (0, String::new());
    let mut count = 0;
    for _ in 0..CASES {
        let case = case(&mut source);
        let (one, other) = (ours(&case), theirs(&case));
        answered += u64::from(one.is_some());
        if one != other {
            count += 1;
            if count <= 20 {
                writeln!(wrong, "{case:?}\n  here   {one:?}\n  chrono {other:?}").unwrap();
            }
        }
    }
    assert!(wrong.is_empty(), "{count} differ:\n{wrong}");
    assert!(answered >= least, "only {answered} cases have an answer");
}

#[test]
fn dates() {
    compare(1, CASES, ours::of_dates, theirs::of_dates);
}

#[test]
fn times() {
    compare(2, CASES, ours::of_times, theirs::of_times);
}

#[test]
fn lengths() {
    compare(3, CASES, ours::of_lengths, theirs::of_lengths);
}

#[test]
fn patterns() {
    compare(4, CASES / 2, ours::of_patterns, theirs::of_patterns);
}

/// What chrono reads. It panics at names beside a character that is not ASCII, where this crate only has not to.
fn read_by_chrono(pattern: &str, text: &str) -> String {
    if text.is_ascii() {
        theirs::of_texts(pattern, text)
    } else {
        ours::of_texts(pattern, text)
    }
}

/// What README says of rounding, and of a small `t` before the time.
#[test]
fn known_differences() {
    let (day, hour) = ((2024, 2, 29), (12, 34, 56));
    let ours = {
        use proved_calendar::chrono::{
            DurationRound, NaiveDate, NaiveDateTime, RoundingError, TimeDelta,
        };
        let date = NaiveDate::from_ymd_opt(day.0, day.1, day.2).unwrap();
        let moment = date.and_hms_opt(hour.0, hour.1, hour.2).unwrap();
        for length in [TimeDelta::zero(), TimeDelta::minutes(-15), TimeDelta::MIN] {
            let refused = Err(RoundingError::DurationExceedsLimit);
            assert_eq!(
                (moment.duration_round(length), moment.duration_trunc(length)),
                (refused, refused)
            );
        }
        let (first, quarter) = (NaiveDateTime::UNIX_EPOCH, TimeDelta::minutes(15));
        assert_eq!(
            (first.duration_round(quarter), first.duration_trunc(quarter)),
            (Ok(first), Ok(first))
        );
        ours::of_small_t()
    };
    let theirs = {
        use chrono::{Duration, DurationRound, NaiveDate, NaiveDateTime, RoundingError};
        let date = NaiveDate::from_ymd_opt(day.0, day.1, day.2).unwrap();
        let moment = date.and_hms_opt(hour.0, hour.1, hour.2).unwrap();
        assert_eq!(moment.duration_round(Duration::zero()), Ok(moment));
        assert!(std::panic::catch_unwind(|| moment.duration_trunc(Duration::zero())).is_err());
        let (first, quarter) = (
            NaiveDateTime::from_timestamp_opt(0, 0).unwrap(),
            Duration::minutes(15),
        );
        let refused = Err(RoundingError::DurationExceedsTimestamp);
        assert_eq!(
            (first.duration_round(quarter), first.duration_trunc(quarter)),
            (refused, refused)
        );
        theirs::of_small_t()
    };
    assert_eq!(
        (ours, theirs),
        ([true, true, true, false], [true, false, false, false])
    );
}

#[test]
fn texts() {
    let mut source = Source(5);
    let (mut count, mut wrong) = (0, String::new());
    for _ in 0..CASES / 4 {
        let case = case(&mut source);
        for text in theirs::texts(&case).unwrap_or_default() {
            let (one, other) = (
                ours::of_texts(&case.pattern, &text),
                read_by_chrono(&case.pattern, &text),
            );
            count += 1;
            if one != other && wrong.len() < 3_000 {
                writeln!(
                    wrong,
                    "{text:?} by {:?}\n{one}\nchrono\n{other}",
                    case.pattern
                )
                .unwrap();
            }
        }
    }
    assert!(wrong.is_empty(), "{wrong}");
    assert!(count >= 10_000, "only {count} texts are compared");
}
