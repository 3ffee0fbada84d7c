//! The module `chrono`: what chrono's doc examples and a comparison with chrono 0.4.23 do not show.

#![allow(deprecated)]

use std::collections::HashSet;
use std::panic::{catch_unwind, UnwindSafe};
use std::time::Duration as StdDuration;

use proved_calendar::chrono::format::{Item, Numeric, Pad, ParseErrorKind, StrftimeItems};
use proved_calendar::chrono::*;

fn ymd(year: i32, month: u32, day: u32) -> NaiveDate {
    NaiveDate::from_ymd_opt(year, month, day).unwrap()
}

fn hms(hour: u32, minute: u32, second: u32) -> NaiveTime {
    NaiveTime::from_hms_opt(hour, minute, second).unwrap()
}

/// A time with nanoseconds, which may put it into a leap second anywhere.
fn with(hour: u32, minute: u32, second: u32, nanos: u32) -> NaiveTime {
    hms(hour, minute, second).with_nanosecond(nanos).unwrap()
}

fn panics<T>(call: impl FnOnce() -> T + UnwindSafe) {
    assert!(catch_unwind(call).is_err());
}

#[test]
fn older_calls_panic() {
    panics(|| NaiveDate::from_ymd(2023, 2, 29));
    panics(|| NaiveDate::from_yo(2023, 366));
    panics(|| NaiveDate::from_isoywd(2024, 53, Weekday::Mon));
    panics(|| NaiveDate::from_num_days_from_ce(i32::MAX));
    panics(|| NaiveDate::from_weekday_of_month(2024, 2, Weekday::Fri, 5));
    panics(|| NaiveDate::MAX.succ());
    panics(|| NaiveDate::MIN.pred());
    panics(|| NaiveDate::MIN.and_hms(24, 0, 0));
    panics(|| NaiveTime::from_hms(0, 60, 0));
    panics(|| NaiveTime::from_hms_milli(0, 0, 58, 1_000));
    panics(|| NaiveTime::from_num_seconds_from_midnight(86_400, 0));
    panics(|| NaiveDateTime::from_timestamp(i64::MAX, 0));
    panics(|| NaiveDateTime::MAX.timestamp_nanos());
    panics(|| FixedOffset::east(86_400));
    panics(|| FixedOffset::west(-86_400));
    panics(|| Utc.timestamp(0, 1_000_000_000));
    panics(|| Utc.timestamp_millis(i64::MAX));
    assert_eq!(NaiveDate::from_ymd(2024, 2, 29).succ(), ymd(2024, 3, 1));
}

#[test]
fn operators_panic_out_of_range() {
    panics(|| NaiveDate::MAX + TimeDelta::days(1));
    panics(|| NaiveDate::MIN - Days::new(1));
    panics(|| NaiveDate::MAX + Months::new(1));
    panics(|| NaiveDateTime::MAX + TimeDelta::nanoseconds(1));
    panics(|| NaiveDateTime::MIN - StdDuration::from_nanos(1));
    panics(|| DateTime::MAX_UTC + Days::new(1));
    panics(|| TimeDelta::MAX + TimeDelta::nanoseconds(1));
    panics(|| TimeDelta::MIN - TimeDelta::nanoseconds(1));
    panics(|| TimeDelta::MAX * 2);
    panics(|| TimeDelta::zero() / 0);
    panics(|| TimeDelta::weeks(i64::MAX));
    panics(|| TimeDelta::milliseconds(i64::MIN));
    panics(|| NaiveDate::MIN.week(Weekday::Fri).first_day());
    panics(|| MappedLocalTime::<u8>::None.unwrap());
    panics(|| MappedLocalTime::Ambiguous(1, 2).unwrap());
}

#[test]
fn the_ends_of_dates() {
    assert_eq!(NaiveDate::MIN.to_string(), "-262143-01-01");
    assert_eq!(NaiveDate::MAX.to_string(), "+262142-12-31");
    assert_eq!((MIN_DATE, MAX_DATE), (NaiveDate::MIN, NaiveDate::MAX));
    assert_eq!(
        (MIN_DATETIME.naive_utc(), MAX_DATETIME.naive_utc()),
        (naive::MIN_DATETIME, naive::MAX_DATETIME)
    );
    assert_eq!(NaiveDate::MAX.checked_add_days(Days::new(u64::MAX)), None);
    assert_eq!(
        NaiveDate::MIN.checked_sub_months(Months::new(u32::MAX)),
        None
    );
    let last = NaiveDate::MAX.pred_opt().unwrap();
    assert!(last.iter_days().eq([last, NaiveDate::MAX]));
    assert_eq!(
        (last.iter_days().len(), NaiveDate::MAX.iter_weeks().len()),
        (2, 0)
    );
    let mut weeks = last.checked_sub_days(Days::new(8)).unwrap().iter_weeks();
    assert_eq!(
        (weeks.len(), weeks.next().is_some(), weeks.next()),
        (1, true, None)
    );
    assert_eq!(NaiveDate::MIN.iter_days().next_back(), None);
    let first = NaiveDate::MIN.week(Weekday::Fri);
    assert_eq!(
        (first.checked_first_day(), first.checked_days()),
        (None, None)
    );
    assert_eq!(
        first.last_day().num_days_from_ce(),
        NaiveDate::MIN.num_days_from_ce()
    );
    assert_eq!(NaiveDate::MAX.week(Weekday::Mon).checked_last_day(), None);
    assert_eq!(first, NaiveDate::MIN.week(Weekday::Fri));
    assert_ne!(first, NaiveDate::MIN.week(Weekday::Thu));
    let week = ymd(2024, 2, 29).week(Weekday::Sun);
    assert_eq!(week.days(), ymd(2024, 2, 25)..=ymd(2024, 3, 2));
    let same = [
        week,
        ymd(2024, 3, 1).week(Weekday::Sun),
        ymd(2024, 3, 3).week(Weekday::Sun),
    ];
    assert_eq!(HashSet::from(same).len(), 2);
}

#[test]
fn newer_calls_of_dates() {
    let date = ymd(2024, 2, 29);
    assert_eq!(
        (date.quarter(), date.num_days_in_month(), date.leap_year()),
        (1, 29, true)
    );
    assert_eq!(date.abs_diff(ymd(2024, 3, 1)), Days::new(1));
    assert_eq!(NaiveDate::from_epoch_days(date.to_epoch_days()), Some(date));
    assert_eq!(NaiveDate::from_epoch_days(i32::MAX), None);
    assert_eq!(NaiveDateTime::from(date).to_string(), "2024-02-29 00:00:00");
    assert_eq!(NaiveDate::from(NaiveDateTime::from(date)), date);
    assert_eq!(date.with_month0(u32::MAX), None);
    let read = NaiveDate::parse_and_remainder("2024-02-29 and more", "%F");
    assert_eq!(read, Ok((date, " and more")));
    let mut moved = date;
    moved += TimeDelta::days(1);
    assert_eq!(moved, ymd(2024, 3, 1));
    moved -= TimeDelta::days(2);
    assert_eq!(moved, ymd(2024, 2, 28));
    let counted: proved_calendar::Date = date.into();
    assert_eq!(
        (counted.number(), NaiveDate::from(counted)),
        (738_945, date)
    );
}

/// The day number of a type that has only its fields.
#[test]
fn dates_of_ones_own() {
    struct Own(NaiveDate);
    macro_rules! passed_on {
        ($($name:ident -> $kind:ty),*; $($changed:ident $taken:ty),*) => {
            impl Datelike for Own {
                $(fn $name(&self) -> $kind { self.0.$name() })*
                $(fn $changed(&self, it: $taken) -> Option<Own> { self.0.$changed(it).map(Own) })*
            }
        };
    }
    passed_on!(
        year -> i32, month -> u32, month0 -> u32, day -> u32, day0 -> u32, ordinal -> u32,
        ordinal0 -> u32, weekday -> Weekday, iso_week -> IsoWeek;
        with_year i32, with_month u32, with_month0 u32, with_day u32, with_day0 u32, with_ordinal u32,
        with_ordinal0 u32
    );
    for date in [
        ymd(2024, 12, 31),
        ymd(0, 2, 29),
        ymd(-1, 1, 1),
        NaiveDate::MIN,
        NaiveDate::MAX,
    ] {
        assert_eq!(Own(date).num_days_from_ce(), date.num_days_from_ce());
        assert_eq!(Own(date).num_days_in_month(), date.num_days_in_month());
    }
    assert_eq!(ymd(0, 1, 1).year_ce(), (false, 1));
}

#[test]
fn weeks_of_the_year_are_counted() {
    for first_year in [2000, -1] {
        for year in first_year..first_year + 28 {
            let (mut sundays, mut mondays) = (0, 0);
            let days = ymd(year, 1, 1).iter_days();
            for date in days.take_while(|it| it.year() == year) {
                sundays += i32::from(date.weekday() == Weekday::Sun);
                mondays += i32::from(date.weekday() == Weekday::Mon);
                let text = date.format("%Y %U %W %w").to_string();
                let weekday = date.weekday().num_days_from_sunday();
                assert!(
                    text.ends_with(&format!(" {sundays:02} {mondays:02} {weekday}")),
                    "{date}: {text}"
                );
                assert_eq!(NaiveDate::parse_from_str(&text, "%Y %U %W %w"), Ok(date));
                let monday = format!("{year:+} {mondays} {}", date.weekday());
                assert_eq!(NaiveDate::parse_from_str(&monday, "%Y %W %a"), Ok(date));
            }
        }
    }
    let refused = NaiveDate::parse_from_str("2024 54 0", "%Y %U %w").unwrap_err();
    assert_eq!(refused.kind(), ParseErrorKind::OutOfRange);
}

#[test]
fn leap_seconds_anywhere() {
    let odd = with(3, 5, 7, 1_300_000_000);
    assert_eq!(odd.to_string(), "03:05:08.300");
    for (millis, wanted) in [
        (0, odd),
        (500, with(3, 5, 7, 1_800_000_000)),
        (-300, with(3, 5, 7, 1_000_000_000)),
        (-301, with(3, 5, 7, 999_000_000)),
        (700, hms(3, 5, 8)),
        (10_000, with(3, 5, 17, 300_000_000)),
        (-10_000, with(3, 4, 58, 300_000_000)),
        (86_400_000, with(3, 5, 7, 300_000_000)),
        (-86_400_000, with(3, 5, 8, 300_000_000)),
    ] {
        assert_eq!(odd + TimeDelta::milliseconds(millis), wanted, "{millis}");
        assert_eq!(odd - TimeDelta::milliseconds(-millis), wanted, "{millis}");
    }
    let apart = |one: NaiveTime, other| one.signed_duration_since(other).num_milliseconds();
    assert_eq!(
        (apart(odd, hms(3, 5, 7)), apart(hms(3, 5, 7), odd)),
        (1_300, -1_300)
    );
    assert_eq!(
        (apart(odd, hms(3, 5, 9)), apart(hms(3, 5, 9), odd)),
        (-1_700, 1_700)
    );
    assert_eq!(apart(with(3, 5, 9, 1_500_000_000), odd), 3_200);
    let date = ymd(2024, 2, 29);
    let moment = date.and_time(with(23, 59, 58, 1_500_000_000));
    assert_eq!(
        moment + TimeDelta::seconds(2),
        ymd(2024, 3, 1).and_time(with(0, 0, 0, 500_000_000))
    );
    assert_eq!(
        (moment - date.and_time(hms(23, 59, 58))).num_milliseconds(),
        1_500
    );
    assert_eq!(
        NaiveDateTime::MAX.with_nanosecond(1_500_000_000).unwrap() + TimeDelta::zero(),
        { NaiveDate::MAX.and_time(with(23, 59, 59, 1_500_000_000)) }
    );
    assert!(proved_calendar::DateTime::try_from(moment).is_err());
    let even = date.and_time(with(23, 59, 59, 1_500_000_000));
    assert_eq!(
        NaiveDateTime::from(proved_calendar::DateTime::try_from(even).unwrap()),
        even
    );
    assert_eq!(NaiveTime::from_hms_milli_opt(3, 5, 58, 1_000), None);
    assert_eq!(NaiveTime::from_hms_micro_opt(3, 5, 59, u32::MAX), None);
}

#[test]
fn long_moves_of_times() {
    let noon = hms(12, 0, 0);
    let (same, passed) = noon.overflowing_add_signed(TimeDelta::MAX);
    assert_eq!(
        (same.to_string(), passed),
        ("19:12:55.807".to_string(), 9_223_372_036_828_800)
    );
    let (same, passed) = noon.overflowing_sub_signed(TimeDelta::MAX);
    assert_eq!(
        (same.to_string(), passed),
        ("04:47:04.193".to_string(), 9_223_372_036_828_800)
    );
    assert_eq!(noon + StdDuration::from_secs(86_401 * 3), hms(12, 0, 3));
    let leap = with(23, 59, 59, 1_500_000_000);
    assert_eq!(
        leap + StdDuration::from_secs(86_400 * 9),
        with(23, 59, 59, 500_000_000)
    );
    assert_eq!(
        leap - StdDuration::from_secs(86_400 * 9),
        with(0, 0, 0, 500_000_000)
    );
    assert_eq!(
        noon + StdDuration::MAX,
        noon + StdDuration::from_secs(u64::MAX % 86_400) + StdDuration::from_nanos(999_999_999)
    );
    let east = FixedOffset::east_opt(-3_601).unwrap();
    assert_eq!((leap + east).to_string(), "22:59:59.500");
    assert_eq!(leap + east - east, leap);
}

#[test]
fn lengths() {
    assert_eq!(TimeDelta::MIN.num_milliseconds(), -i64::MAX);
    assert_eq!(TimeDelta::MAX.num_milliseconds(), i64::MAX);
    assert_eq!(
        (-TimeDelta::MIN, TimeDelta::MIN.abs()),
        (TimeDelta::MAX, TimeDelta::MAX)
    );
    assert_eq!(TimeDelta::new(i64::MAX / 1_000, 807_000_001), None);
    assert_eq!(TimeDelta::new(-i64::MAX / 1_000 - 1, 192_999_999), None);
    assert_eq!(TimeDelta::new(0, 1_000_000_000), None);
    assert_eq!(TimeDelta::try_milliseconds(i64::MIN), None);
    assert_eq!(TimeDelta::try_days(i64::MAX), None);
    assert_eq!(TimeDelta::try_hours(-1), Some(TimeDelta::minutes(-60)));
    let length = TimeDelta::milliseconds(-1_500);
    assert_eq!(
        (
            length.num_seconds(),
            length.subsec_millis(),
            length.subsec_nanos()
        ),
        (-1, -500, -500_000_000)
    );
    assert_eq!(
        (length.to_string(), TimeDelta::zero().to_string()),
        ("-PT1.5S".into(), "P0D".into())
    );
    assert_eq!(
        format!("{length:?}"),
        "TimeDelta { secs: -2, nanos: 500000000 }"
    );
    assert_eq!((length / 2).num_milliseconds(), -750);
    assert_eq!(TimeDelta::nanoseconds(-1) / 2, TimeDelta::nanoseconds(-1));
    assert_eq!(length * -3, TimeDelta::milliseconds(4_500));
    assert_eq!(TimeDelta::MAX.checked_mul(2), None);
    assert_eq!(
        [length, length].iter().sum::<TimeDelta>(),
        TimeDelta::seconds(-3)
    );
    assert_eq!(TimeDelta::default().as_seconds_f64(), 0.0);
    assert_eq!(
        (length.as_seconds_f64(), length.as_seconds_f32()),
        (-1.5, -1.5)
    );
    assert_eq!(
        TimeDelta::from_std(StdDuration::from_millis(1_500)),
        Ok(-length)
    );
    assert!(TimeDelta::from_std(StdDuration::MAX).is_err() && length.to_std().is_err());
    const CONSTANT: TimeDelta = TimeDelta::weeks(1);
    assert_eq!(CONSTANT.to_std(), Ok(StdDuration::from_secs(604_800)));
    let counted: proved_calendar::Duration = length.into();
    assert_eq!(
        (counted.to_string(), TimeDelta::from(counted)),
        ("-PT1.5S".into(), length)
    );
}

#[test]
fn weekdays_and_months() {
    for (number, weekday) in (0..7).map(|it| (it, Weekday::try_from(it as u8).unwrap())) {
        assert_eq!(
            (weekday as u32, weekday.num_days_from_monday()),
            (number, number)
        );
        assert_eq!(
            (weekday.succ().pred(), weekday.days_since(Weekday::Mon)),
            (weekday, number)
        );
        assert_eq!(
            weekday.number_from_sunday(),
            weekday.num_days_from_sunday() + 1
        );
        assert_eq!(proved_calendar::Weekday::from(weekday).number(), number + 1);
        assert_eq!(Weekday::from_i64(number.into()), Some(weekday));
    }
    assert_eq!(Weekday::Mon.days_since(Weekday::Sun), 1);
    assert_eq!(
        (Weekday::from_u64(1 << 32), Weekday::from_i64(-1)),
        (None, None)
    );
    for number in 1..=12 {
        let month = Month::try_from(number).unwrap();
        assert_eq!(month.number_from_month(), number.into());
        assert_eq!(
            (month.succ().pred(), month.name().parse()),
            (month, Ok(month))
        );
        assert_eq!(Month::from_u64(number.into()), Some(month));
    }
    assert_eq!(Month::from_u64(4_294_967_297), None);
    assert_eq!(
        (
            Month::February.num_days(2023),
            Month::May.num_days(i32::MAX)
        ),
        (Some(28), None)
    );
    assert!(Weekday::try_from(7).is_err() && Month::try_from(0).is_err());
    assert_eq!(
        "".parse::<Month>().unwrap_err().to_string(),
        "no name of a month"
    );
    assert_eq!(
        format!("{:?}", "".parse::<Weekday>()),
        "Err(ParseWeekdayError { .. })"
    );
    assert_eq!(format!("{:>5}", Weekday::Sun), "  Sun");
}

#[test]
fn patterns() {
    let moment = ymd(2024, 2, 9)
        .and_hms_nano_opt(13, 5, 7, 250_000_000)
        .unwrap();
    let text = |pattern: &str| moment.format(pattern).to_string();
    assert_eq!(text("%-d %_d %0e %q%%%n%t"), "9  9 09 1%\n\t");
    assert_eq!(
        format!(
            "[{:>8}] [{:^5}] [{:.2}]",
            moment.format("%T%.f"),
            moment.format("%d"),
            moment.format("%Y")
        ),
        "[13:05:07.250] [ 09  ] [20]"
    );
    let has_no_text = |pattern| catch_unwind(move || moment.format(pattern).to_string()).is_err();
    for pattern in [
        "%", "%Q", "%-a", "%-F", "%z", "%Z", "%+", "%:", "%.4f", "%é",
    ] {
        assert!(has_no_text(pattern), "{pattern}");
        let wrong = NaiveDate::parse_from_str("x", pattern).unwrap_err().kind();
        assert_ne!(wrong, ParseErrorKind::TooLong, "{pattern}");
    }
    let items: Vec<Item> = StrftimeItems::new("%-Y  é%T").collect();
    assert_eq!(
        items[..3],
        [
            Item::Numeric(Numeric::Year, Pad::None),
            Item::Space("  "),
            Item::Literal("é")
        ]
    );
    assert_eq!(items.len(), 8);
    assert_eq!(
        moment.format_with_items(items.iter()).to_string(),
        "2024  é13:05:07"
    );
    assert_eq!(
        NaiveDateTime::parse_from_str("2024 Q1 40 13:05 é", "%Y Q%q %j %R é").unwrap(),
        moment.with_second(0).unwrap().with_nanosecond(0).unwrap()
    );
    for text in ["é", "2é24", "2024-é1-01", "Fé", "+é", "pé"] {
        for pattern in ["%Y-%m-%d", "%a", "%b", "%z", "%p", "%+", "%.f", "%3f"] {
            assert!(NaiveDate::parse_from_str(text, pattern).is_err());
        }
        assert!(
            text.parse::<DateTime<Utc>>().is_err() && DateTime::parse_from_rfc2822(text).is_err()
        );
    }
}

#[test]
fn texts_of_times() {
    assert_eq!("7:15".parse(), Ok(hms(7, 15, 0)));
    assert_eq!(
        " 7 : 15 : 60.5 ".parse(),
        Ok(with(7, 15, 59, 1_500_000_000))
    );
    assert!("7".parse::<NaiveTime>().is_err() && "7:15:".parse::<NaiveTime>().is_err());
    assert_eq!(" 2024 - 2 - 9 ".parse(), Ok(ymd(2024, 2, 9)));
    assert_eq!("+09:30".parse(), Ok(FixedOffset::east_opt(34_200).unwrap()));
    assert_eq!(
        FixedOffset::east_opt(-3_661).unwrap().to_string(),
        "-01:01:01"
    );
    for (text, seconds) in [
        ("Fri, 9 Feb 2024 13:05:07 +0100", 3_600),
        ("9 Feb 24 13:05:07 EST", -18_000),
        (
            "9 feb 124 13 : 05 : 07 z (a (comment) \\) of two) (more)",
            0,
        ),
    ] {
        let wanted = ymd(2024, 2, 9).and_time(hms(13, 5, 7));
        let read = DateTime::parse_from_rfc2822(text).unwrap();
        assert_eq!(
            (read.naive_local(), read.offset().local_minus_utc()),
            (wanted, seconds),
            "{text}"
        );
    }
    for text in [
        "9 Feb 2024 13:05:07 J",
        "9 Feb 2024 13:05:07 +0100 (open",
        "Sat, 9 Feb 2024 13:05:07 +0100",
    ] {
        assert!(DateTime::parse_from_rfc2822(text).is_err(), "{text}");
    }
}

#[test]
fn instants() {
    let noon = Utc.with_ymd_and_hms(2024, 2, 29, 12, 0, 0).unwrap();
    let east = FixedOffset::east_opt(3_600).unwrap();
    let local = noon.with_timezone(&east);
    assert_eq!(
        (local.to_string(), local == noon),
        ("2024-02-29 13:00:00 +01:00".into(), true)
    );
    assert_eq!(
        local.with_time(hms(0, 30, 0)).unwrap().naive_utc(),
        ymd(2024, 2, 28).and_time(hms(23, 30, 0))
    );
    assert_eq!(
        (local.fixed_offset(), local.to_utc(), local.timezone()),
        (local, noon, east)
    );
    assert_eq!(DateTime::from_timestamp(noon.timestamp(), 0), Some(noon));
    assert_eq!(
        DateTime::from_timestamp_millis(-1)
            .unwrap()
            .timestamp_subsec_millis(),
        999
    );
    assert_eq!(
        DateTime::from_timestamp_micros(i64::MAX),
        None.or(DateTime::from_timestamp_micros(i64::MAX))
    );
    assert_eq!(
        DateTime::from_timestamp_nanos(i64::MIN).timestamp_nanos_opt(),
        Some(i64::MIN)
    );
    assert_eq!(
        (
            DateTime::MAX_UTC.timestamp_nanos_opt(),
            DateTime::<Utc>::default().timestamp()
        ),
        (None, 0)
    );
    assert_eq!(
        DateTime::<FixedOffset>::from(noon)
            .offset()
            .local_minus_utc(),
        0
    );
    assert_eq!(local.years_since(local.with_year(2020).unwrap()), Some(4));
    assert_eq!(local.years_since(local + TimeDelta::seconds(1)), None);
    assert_eq!(
        local.checked_add_days(Days::new(1)).unwrap() - local,
        TimeDelta::days(1)
    );
    assert_eq!(
        (local + Months::new(12)).naive_local(),
        ymd(2025, 2, 28).and_time(hms(13, 0, 0))
    );
    assert_eq!(
        (noon + east, noon - StdDuration::from_secs(1)),
        (noon + TimeDelta::hours(1), noon - TimeDelta::seconds(1))
    );
    let edge = east.from_local_datetime(&NaiveDateTime::MIN);
    assert_eq!(
        (edge.earliest(), edge.latest(), edge.map(|_| 1)),
        (None, None, MappedLocalTime::None)
    );
    panics(|| {
        NaiveDateTime::MAX
            .and_utc()
            .with_timezone(&FixedOffset::east_opt(1).unwrap())
            .year()
    });
    assert_eq!(HashSet::from([local.to_utc(), noon]).len(), 1);
    let read = DateTime::parse_and_remainder("2024-02-29 13:00 +0100 rest", "%F %R %z");
    assert_eq!(read, Ok((local, " rest")));
}

/// A zone whose clock went from 2 to 3 on one day, and from 3 back to 2 on another.
#[derive(Clone, Debug)]
struct Zone;

impl TimeZone for Zone {
    type Offset = FixedOffset;

    fn from_offset(_: &FixedOffset) -> Zone {
        Zone
    }

    fn offset_from_local_date(&self, local: &NaiveDate) -> MappedLocalTime<FixedOffset> {
        self.offset_from_local_datetime(&local.and_time(NaiveTime::MIN))
    }

    fn offset_from_local_datetime(&self, local: &NaiveDateTime) -> MappedLocalTime<FixedOffset> {
        let [winter, summer] = [3_600, 7_200].map(|it| FixedOffset::east_opt(it).unwrap());
        let (gap, fold) = (
            ymd(2024, 3, 31).and_time(hms(2, 0, 0)),
            ymd(2024, 10, 27).and_time(hms(2, 0, 0)),
        );
        let hour = TimeDelta::hours(1);
        match *local {
            it if it < gap || it >= fold + hour => MappedLocalTime::Single(winter),
            it if it < gap + hour => MappedLocalTime::None,
            it if it < fold => MappedLocalTime::Single(summer),
            _ => MappedLocalTime::Ambiguous(summer, winter),
        }
    }

    fn offset_from_utc_date(&self, utc: &NaiveDate) -> FixedOffset {
        self.offset_from_utc_datetime(&utc.and_time(NaiveTime::MIN))
    }

    fn offset_from_utc_datetime(&self, utc: &NaiveDateTime) -> FixedOffset {
        let [first, last] =
            [ymd(2024, 3, 31), ymd(2024, 10, 27)].map(|it| it.and_time(hms(1, 0, 0)));
        FixedOffset::east_opt(if first <= *utc && *utc < last {
            7_200
        } else {
            3_600
        })
        .unwrap()
    }
}

#[test]
fn zones_of_ones_own() {
    let at = |month, day, hour| Zone.with_ymd_and_hms(2024, month, day, hour, 30, 0);
    assert_eq!(at(3, 31, 2), MappedLocalTime::None);
    let fold = at(10, 27, 2);
    assert_eq!((fold.earliest().unwrap().hour(), fold.single()), (2, None));
    assert_eq!(
        fold.latest().unwrap() - fold.earliest().unwrap(),
        TimeDelta::hours(1)
    );
    let before = at(3, 30, 2).unwrap();
    assert_eq!(before.checked_add_days(Days::new(1)), None);
    assert_eq!(
        (before + TimeDelta::days(1)).to_string(),
        "2024-03-31 03:30:00 +02:00"
    );
    assert_eq!(before.with_day(31), None);
    let read = |text| Zone.datetime_from_str(text, "%F %R %z");
    assert_eq!(read("2024-10-27 02:30 +0100"), Ok(fold.latest().unwrap()));
    assert_eq!(read("2024-10-27 02:30 +0200"), Ok(fold.earliest().unwrap()));
    assert!(read("2024-10-27 02:30 +0300").is_err() && read("2024-03-31 02:30 +0100").is_err());
    assert_eq!(
        Zone.datetime_from_str("1730000000", "%s")
            .map(|it| it.timestamp()),
        Ok(1_730_000_000)
    );
}

#[test]
fn rounding() {
    let time = hms(12, 0, 0).with_nanosecond(250_000_000).unwrap();
    assert_eq!(
        (
            time.round_subsecs(1).nanosecond(),
            time.trunc_subsecs(1).nanosecond()
        ),
        (300_000_000, 200_000_000)
    );
    assert_eq!(
        (time.round_subsecs(9), time.trunc_subsecs(u16::MAX)),
        (time, time)
    );
    assert_eq!(
        hms(23, 59, 59)
            .with_nanosecond(600_000_000)
            .unwrap()
            .round_subsecs(0),
        hms(0, 0, 0)
    );
    let moment = ymd(2024, 2, 29).and_time(hms(12, 34, 56));
    let quarter = TimeDelta::minutes(15);
    assert_eq!(
        moment.duration_round(quarter),
        Ok(ymd(2024, 2, 29).and_time(hms(12, 30, 0)))
    );
    assert_eq!(
        moment.duration_round(TimeDelta::hours(1)),
        Ok(ymd(2024, 2, 29).and_time(hms(13, 0, 0)))
    );
    let early = ymd(1969, 12, 1).and_time(hms(12, 34, 56));
    assert_eq!(
        early.duration_trunc(quarter),
        Ok(ymd(1969, 12, 1).and_time(hms(12, 30, 0)))
    );
    assert_eq!(
        moment.duration_round(TimeDelta::zero()),
        Err(RoundingError::DurationExceedsLimit)
    );
    assert_eq!(
        NaiveDateTime::MAX.duration_trunc(quarter),
        Err(RoundingError::TimestampExceedsLimit)
    );
    assert_eq!(
        NaiveDateTime::UNIX_EPOCH.duration_trunc(quarter),
        Ok(NaiveDateTime::UNIX_EPOCH)
    );
}
