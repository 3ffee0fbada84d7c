//! Calls every function of `calendar_layers.h` through this crate, with answers that are known from outside: a test for each
//! function, named after it, and then what Rust adds.

use proved_calendar::{
    columns, BoundedCalendar, BusinessCalendar, CalendarText, Date, DateTime, DayCount, Dialect,
    KnownCalendar, LocalOffsets, Pattern, Roll, Rule, RuleSet, Schedule, TimedSchedule, Weekday,
    WeekdaySet, YearsError, Zone,
};
use std::time::{Duration, Instant};
use Weekday::{Fri, Sat, Sun};

fn date(text: &str) -> Date {
    text.parse().unwrap()
}

fn moment(text: &str) -> DateTime {
    text.parse().unwrap()
}

fn schedule(text: &str) -> Schedule {
    text.parse().unwrap()
}

fn text(found: Option<impl ToString>) -> String {
    found.map_or_else(|| String::from("none"), |it| it.to_string())
}

/// The last second of the calendar.
const END: &str = "+262142-12-31T23:59:59";

#[test]
fn schedule_read() {
    for text in [
        "30 4 1,15 * fri",
        "0 0 L-3,15W,LW * 5L,7#2",
        "@daily",
        "*/15 9-17 * * mon-fri",
    ] {
        assert!(text.parse::<Schedule>().is_ok(), "{text}");
    }
    assert_eq!(schedule("30 4 15,1 * 5"), schedule("30 4 1,15 * fri"));
    assert_ne!(schedule("30 4 1,15 * *"), schedule("30 4 1,15 * fri"));
    for (text, field, start, end) in [
        ("0 25,7 * * *", Some(2), 2, 4),
        ("5,60 * * * *", Some(1), 2, 4),
        ("* * * *", None, 7, 7),
        ("* * * foo *", Some(4), 6, 9),
        ("* * * * */0", Some(5), 10, 11),
        ("* * * * * *", None, 10, 11),
        ("", None, 0, 0),
        ("@reboot", None, 0, 7),
        ("0 ä,99 * * *", Some(2), 2, 4),
    ] {
        let wrong = text.parse::<Schedule>().unwrap_err();
        assert_eq!(
            (wrong.field(), wrong.start(), wrong.end()),
            (field, start, end),
            "{text}"
        );
    }
}

#[test]
fn schedule_fault_text() {
    for (text, sentence) in [
        ("0 25 * * *", "hour, byte 2: a number that is out of range"),
        ("* * * *", "byte 7: too few fields"),
        (
            "0 0 30-2 * *",
            "day of the month, byte 7: a range whose end is below its beginning",
        ),
    ] {
        assert_eq!(text.parse::<Schedule>().unwrap_err().to_string(), sentence);
    }
    let wrong = "* * * *".parse::<Schedule>().unwrap_err();
    assert_eq!(format!("{wrong:>24}|"), "  byte 7: too few fields|");
    let long = "9".repeat(5_000);
    assert!(long.parse::<Schedule>().unwrap_err().to_string().len() > 20);
}

#[test]
fn schedule_next() {
    // 1 March 2024 is a Friday
    let office = schedule("0 9 * * mon-fri");
    for (start, wanted) in [
        ("2024-03-01T00:00:00", "2024-03-01T09:00:00"),
        ("2024-03-01T09:00:00", "2024-03-04T09:00:00"),
        ("2024-03-01T08:59:59.999", "2024-03-01T09:00:00"),
        (END, "none"),
    ] {
        assert_eq!(text(office.next_after(moment(start))), wanted);
    }
    assert_eq!(
        text(schedule("0 0 29 2 *").next_after(moment("2096-02-29T00:00:00"))),
        "2104-02-29T00:00:00"
    );
    assert_eq!(
        schedule("0 0 30 2 *").next_after(moment("2024-03-01T00:00:00")),
        None
    );
}

#[test]
fn schedule_prev() {
    let office = schedule("0 9 * * mon-fri");
    for (start, wanted) in [
        ("2024-03-04T00:00:00", "2024-03-01T09:00:00"),
        ("2024-03-01T09:00:00", "2024-02-29T09:00:00"),
        ("-262143-01-01T00:00:00", "none"),
    ] {
        assert_eq!(text(office.prev_before(moment(start))), wanted);
    }
}

#[test]
fn schedule_is_due() {
    let office = schedule("0 9 * * mon-fri");
    for (at, wanted) in [
        ("2024-03-01T09:00:00", true),
        ("2024-03-01T09:00:30", false),
        ("2024-03-01T09:00:00.001", false),
        ("2024-03-02T09:00:00", false),
    ] {
        assert_eq!(office.is_due(moment(at)), wanted, "{at}");
    }
}

#[test]
fn schedule_due() {
    let office = schedule("0 9 * * mon-fri");
    let between = |until: &str| {
        let found = office.between(moment("2024-03-01T00:00:00"), moment(until));
        found.map(|it| it.to_string()).collect::<Vec<_>>().join(" ")
    };
    assert_eq!(
        between("2024-03-05T00:00:00"),
        "2024-03-01T09:00:00 2024-03-04T09:00:00"
    );
    assert_eq!(between("2024-03-01T09:00:00"), "2024-03-01T09:00:00");
    assert_eq!(between("2024-03-01T08:59:59"), "");
    assert_eq!(between("2024-02-01T00:00:00"), "");
    // as many as are found at once, and some more
    let minutes = schedule("* * * * *");
    for count in [1, 2, 5, 6, 20, 21, 85, 86, 1_000] {
        let start = moment("2024-02-29T23:00:00");
        let until = Date::from_ymd(2024, 2, 29)
            .unwrap()
            .at(23, 0, 0, 0)
            .unwrap();
        let until = until
            .checked_add(proved_calendar::Duration::from_seconds(60 * count).unwrap())
            .unwrap();
        let found: Vec<DateTime> = minutes.between(start, until).collect();
        assert_eq!((found.len(), found.last()), (count as usize, Some(&until)));
        assert!(found.windows(2).all(|it| it[0] < it[1]));
    }
}

#[test]
fn times_of_schedules() {
    let rare = schedule("59 23 31 12 *");
    let mut times = rare.after(moment("+262140-12-31T23:59:00"));
    let years: Vec<i32> = times.by_ref().map(|it| it.date().year()).collect();
    assert_eq!(years, [262_141, 262_142]);
    assert_eq!((times.next(), times.next()), (None, None));
    let leap_days = schedule("0 0 29 2 *").after(moment("2000-01-01T00:00:00"));
    assert!(leap_days
        .clone()
        .take(200)
        .zip(leap_days.skip(1))
        .all(|(one, other)| one < other));
}

/// Good Friday and Easter Monday of 2024.
fn easter_days() -> [Date; 2] {
    [date("2024-03-29"), date("2024-04-01")]
}

fn weekend() -> WeekdaySet {
    WeekdaySet::from([Sat, Sun])
}

#[test]
fn is_open_day() {
    let days = easter_days();
    let calendar = BusinessCalendar::new(weekend(), &days).unwrap();
    let open = [
        "2024-03-28",
        "2024-03-29",
        "2024-03-30",
        "2024-03-31",
        "2024-04-01",
        "2024-04-02",
    ]
    .map(|it| calendar.is_open(date(it)));
    assert_eq!(open, [true, false, false, false, false, true]);
    assert!(!BusinessCalendar::new(WeekdaySet::from([Fri]), &[])
        .unwrap()
        .is_open(days[0]));
}

#[test]
fn add_open_days() {
    let days = easter_days();
    let calendar = BusinessCalendar::new(weekend(), &days).unwrap();
    for (start, n, wanted) in [
        ("2024-03-28", 1, "2024-04-02"),
        ("2024-03-28", 2, "2024-04-03"),
        ("2024-04-02", -1, "2024-03-28"),
        ("2024-03-29", 0, "2024-04-02"),
        ("2024-03-30", 1, "2024-04-02"),
        ("2024-03-30", -1, "2024-03-28"),
        ("2024-03-30", i64::MAX, "none"),
        ("2024-03-30", i64::MIN, "none"),
    ] {
        assert_eq!(text(calendar.add_open_days(date(start), n)), wanted);
    }
    let closed = BusinessCalendar::new(WeekdaySet::from(Weekday::ALL), &[]).unwrap();
    assert_eq!(closed.add_open_days(days[0], 0), None);
}

#[test]
fn open_days_between() {
    let days = easter_days();
    let calendar = BusinessCalendar::new(weekend(), &days).unwrap();
    let [first, last] = [date("2024-03-01"), date("2024-04-02")];
    assert_eq!(
        (
            calendar.open_days(first, last),
            calendar.open_days(last, first)
        ),
        (20, -20)
    );
    assert_eq!(
        BusinessCalendar::new(weekend(), &[])
            .unwrap()
            .open_days(first, last),
        22
    );
    assert_eq!(
        BusinessCalendar::new(WeekdaySet::default(), &[])
            .unwrap()
            .open_days(Date::MIN, Date::MAX),
        191_491_528
    );
}

#[test]
fn roll() {
    let days = easter_days();
    let calendar = BusinessCalendar::new(weekend(), &days).unwrap();
    for (start, roll, wanted) in [
        ("2024-03-29", Roll::Unadjusted, "2024-03-29"),
        ("2024-03-29", Roll::Following, "2024-04-02"),
        ("2024-03-29", Roll::Preceding, "2024-03-28"),
        ("2024-03-31", Roll::ModifiedFollowing, "2024-03-28"),
        ("2024-04-01", Roll::ModifiedPreceding, "2024-04-02"),
        ("2024-03-31", Roll::NearestIsda, "2024-04-02"),
        ("2024-03-29", Roll::NearestQuantLib, "2024-03-28"),
        ("2024-03-28", Roll::Following, "2024-03-28"),
    ] {
        assert_eq!(text(calendar.roll(date(start), roll)), wanted, "{roll:?}");
    }
    let closed = BusinessCalendar::new(WeekdaySet::from(Weekday::ALL), &[]).unwrap();
    assert_eq!(closed.roll(days[0], Roll::Following), None);
}

fn pattern(text: &str) -> Pattern {
    text.parse().unwrap()
}

#[test]
fn pattern_check() {
    for text in ["%d.%m.%Y", "100%%", "", "Montag %e. März", "%s %z"] {
        assert_eq!(pattern(text).to_string(), text);
        assert_eq!(pattern(text).as_str(), text);
    }
    for (text, start, sentence) in [
        ("%Y-%Q", 3, "byte 3: an unknown specifier"),
        ("ä%Y-%Q", 5, "byte 5: an unknown specifier"),
        ("100%", 3, "byte 3: the bytes end within a specifier"),
    ] {
        let wrong = text.parse::<Pattern>().unwrap_err();
        let place = (wrong.field(), wrong.start(), wrong.end());
        assert_eq!(place, (None, start, text.len()), "{text}");
        assert_eq!(wrong.to_string(), sentence);
    }
    let wrong = "%Q".parse::<Pattern>().unwrap_err();
    assert_eq!(format!("{wrong:>30}|"), "  byte 0: an unknown specifier|");
}

#[test]
fn pattern_fault_text() {
    let [wrong, cut] = ["%Y-%Q", "100%"].map(|it| it.parse::<Pattern>().unwrap_err());
    assert_eq!(wrong.to_string(), "byte 3: an unknown specifier");
    assert_eq!(
        format!("{cut:>41}|"),
        " byte 3: the bytes end within a specifier|"
    );
    let late = pattern("%d.%m.%Y").parse_date("1.13.2024").unwrap_err();
    assert_eq!(late.to_string(), "byte 2: the field has no such value");
}

#[test]
fn format_date() {
    let leap_day = date("2024-02-29");
    for (by, wanted) in [
        ("%d.%m.%Y", "29.02.2024"),
        (
            "%A %-e %B, week %V of %G, day %j",
            "Thursday 29 February, week 09 of 2024, day 060",
        ),
        ("%-e. März", "29. März"),
        ("", ""),
        ("%H", "none"),
        ("%z", "none"),
    ] {
        assert_eq!(text(pattern(by).format_date(leap_day)), wanted);
    }
    assert_eq!(text(pattern("%F").format_date(Date::MIN)), "-262143-01-01");
    // the longest text
    let years = |count| "%Y".repeat(count);
    let longest = pattern(&years(250)).format_date(leap_day).unwrap();
    assert_eq!(longest, "2024".repeat(250));
    assert_eq!(pattern(&(years(250) + "x")).format_date(leap_day), None);
}

#[test]
fn format_date_time() {
    for (at, by, wanted) in [
        (
            "2024-03-01T13:00:00",
            "%I:%M %p, %s",
            "01:00 PM, 1709298000",
        ),
        ("2024-02-29T23:59:60.5", "%T%.f", "23:59:60.500"),
        ("2024-02-29T23:59:59", "%F %R", "2024-02-29 23:59"),
        ("2024-02-29T23:59:59", "%z", "none"),
    ] {
        assert_eq!(text(pattern(by).format_date_time(moment(at))), wanted);
    }
    let longest = pattern(&"%H".repeat(500)).format_date_time(moment(END));
    assert_eq!(longest.unwrap(), "23".repeat(500));
}

/// Texts with what is wrong with them as dates: the pattern, the text, where, and the sentence.
const NO_DATES: [(&str, &str, usize, &str); 6] = [
    ("%d.%m.%Y", "29.2.2023", 9, "no value fits all fields"),
    ("%d.%m.%Y", "29-2", 2, "the pattern has no such text there"),
    ("%d.%m.%Y", "29.13", 3, "the field has no such value"),
    ("%d.%m.%Y", "29.", 3, "the text ends too soon"),
    (
        "%d.%m.%Y",
        "29.2.2024x",
        9,
        "the text goes on behind the end of the pattern",
    ),
    (
        "%d.%m.",
        "29.2.",
        0,
        "the fields do not suffice for the value",
    ),
];

#[test]
fn parse_date() {
    for (by, of, wanted) in [
        ("%d %b %Y", "29 feb 2024", "2024-02-29"),
        ("%d.%m.%Y", "29.2.2024", "2024-02-29"),
        (
            "%A, week %V of %G",
            "Thursday, week 09 of 2024",
            "2024-02-29",
        ),
        ("%Y-%j", "2024-060", "2024-02-29"),
    ] {
        assert_eq!(pattern(by).parse_date(of), Ok(date(wanted)), "{by}");
    }
    for (by, of, start, sentence) in NO_DATES {
        let wrong = pattern(by).parse_date(of).unwrap_err();
        let place = (wrong.field(), wrong.start(), wrong.end());
        assert_eq!(place, (None, start, of.len()), "{by}");
        assert_eq!(wrong.to_string(), format!("byte {start}: {sentence}"));
    }
}

/// Texts by a pattern with an offset, and the local date-time and the offset that they have.
const ZONED: [(&str, &str, &str, i32); 4] = [
    (
        "%F %R %z",
        "2024-03-01 13:00 +0530",
        "2024-03-01T13:00:00",
        19_800,
    ),
    (
        "%FT%T%.f%:z",
        "2024-02-29T23:59:60.5-09:30",
        "2024-02-29T23:59:60.500",
        -34_200,
    ),
    ("%+", "2024-03-01T00:00:00Z", "2024-03-01T00:00:00", 0),
    ("%s %z", "1709298000 +0100", "2024-03-01T14:00:00", 3_600),
];

#[test]
fn pattern_names_offset() {
    for (by, named) in [
        ("%F %T %z", true),
        ("%s", false),
        ("%F %Z", false),
        ("%d.%m.%Y", false),
    ] {
        assert_eq!(pattern(by).has_offset(), named, "{by}");
    }
}

#[test]
fn parse_zoned() {
    for (by, of, wanted, offset) in ZONED {
        assert!(pattern(by).has_offset(), "{by}");
        assert_eq!(
            pattern(by).parse_zoned(of),
            Ok((moment(wanted), offset)),
            "{by}"
        );
        let lost = pattern(by).parse_date_time(of).unwrap_err();
        assert_eq!(
            lost.to_string(),
            "the pattern reads an offset, which parse_zoned keeps"
        );
        assert_eq!(
            (lost.start(), lost.end(), lost.field()),
            (0, of.len(), None)
        );
    }
    assert_eq!(
        pattern("%s").parse_zoned("0"),
        Ok((moment("1970-01-01T00:00:00"), 0))
    );
    assert!(!pattern("%s").has_offset() && !pattern("%F %Z").has_offset());
    for (by, of, start, sentence) in [
        (
            "%F %R",
            "2024-03-01 13:00",
            0,
            "the fields do not suffice for the value",
        ),
        ("%F %R %z", "2024-03-01 13:00", 16, "the text ends too soon"),
        (
            "%F %R %z",
            "2024-03-01 13:00 +2400",
            17,
            "the field has no such value",
        ),
    ] {
        let wrong = pattern(by).parse_zoned(of).unwrap_err();
        assert_eq!(
            wrong.to_string(),
            format!("byte {start}: {sentence}"),
            "{by}"
        );
    }
}

#[test]
fn parse_date_time() {
    for (by, of, wanted) in [
        ("%F %R", "2024-03-01 13:00", "2024-03-01T13:00:00"),
        (
            "%FT%T%.f",
            "2024-02-29T23:59:60.5",
            "2024-02-29T23:59:60.500",
        ),
        (
            "%I:%M %p, %d %b %Y",
            "1:00 pm, 1 Mar 2024",
            "2024-03-01T13:00:00",
        ),
        ("%s", "1709298000", "2024-03-01T13:00:00"),
    ] {
        assert_eq!(pattern(by).parse_date_time(of), Ok(moment(wanted)), "{by}");
    }
    for (by, of, start, sentence) in [
        (
            "%F",
            "2024-02-29",
            0,
            "the fields do not suffice for the value",
        ),
        ("%F %R", "2023-02-29 13:00", 16, "no value fits all fields"),
        (
            "%F %R",
            "2024-02-29 25:00",
            11,
            "the field has no such value",
        ),
        ("%F %R", "2024-02-29 ", 11, "the text ends too soon"),
        (
            "%F %R",
            "2024-02-29T13:00",
            10,
            "the pattern has no such text there",
        ),
    ] {
        let wrong = pattern(by).parse_date_time(of).unwrap_err();
        assert_eq!(
            wrong.to_string(),
            format!("byte {start}: {sentence}"),
            "{by}"
        );
        assert_eq!((wrong.start(), wrong.end()), (start, of.len()), "{by}");
    }
}

#[test]
fn day_count() {
    for (kind, from, to, numerator, denominator) in [
        (DayCount::Actual360, "2024-01-31", "2024-03-01", 30, 360),
        (
            DayCount::Actual365Fixed,
            "2024-01-31",
            "2024-03-01",
            30,
            365,
        ),
        (DayCount::Thirty360, "2024-02-28", "2024-03-31", 33, 360),
        (DayCount::ThirtyE360, "2024-02-28", "2024-03-31", 32, 360),
        (DayCount::Actual360, "2024-03-01", "2024-01-31", -30, 360),
    ] {
        let found = kind.fraction(date(from), date(to));
        assert_eq!(
            found.numerator * denominator,
            found.denominator * numerator,
            "{kind:?}"
        );
    }
    let part = DayCount::ActualActualIsda.fraction(date("2023-12-31"), date("2024-01-02"));
    assert!((part.value() - (1.0 / 365.0 + 1.0 / 366.0)).abs() < 1e-15);
}

#[test]
fn holidays_fault_text() {
    let saturday = [date("2024-03-30")];
    let wrong = BusinessCalendar::new(weekend(), &saturday).unwrap_err();
    assert_eq!(format!("{wrong:>28}|"), " holiday 0 is on the weekend|");
    let twice = BusinessCalendar::new(weekend(), &[easter_days()[0]; 2]).unwrap_err();
    assert_eq!(
        twice.to_string(),
        "holiday 1 does not come after the one before"
    );
}

#[test]
fn holidays_check() {
    let days = easter_days();
    let [friday, monday] = days;
    let saturday = date("2024-03-30");
    for (holidays, index, sentence) in [
        (
            &[monday, friday][..],
            1,
            "holiday 1 does not come after the one before",
        ),
        (
            &[friday, friday],
            1,
            "holiday 1 does not come after the one before",
        ),
        (
            &[friday, saturday, monday],
            1,
            "holiday 1 is on the weekend",
        ),
    ] {
        let wrong = BusinessCalendar::new(weekend(), holidays).unwrap_err();
        assert_eq!(
            (wrong.index(), wrong.to_string().as_str()),
            (index, sentence)
        );
    }
    let most: Vec<Date> = (0..1_001)
        .map(|it| Date::from_number(738_945 + it).unwrap())
        .collect();
    let none = WeekdaySet::default();
    assert!(BusinessCalendar::new(none, &most[1..]).is_ok());
    let wrong = BusinessCalendar::new(none, &most).unwrap_err();
    assert_eq!(
        (wrong.index(), wrong.to_string().as_str()),
        (1_000, "holiday 1000 is one too many")
    );
    let calendar = BusinessCalendar::new(weekend(), &days).unwrap();
    assert_eq!(
        (calendar.weekend(), calendar.holidays()),
        (weekend(), &days[..])
    );
}

#[test]
fn holidays_of() {
    let mut out = [Date::MIN; 30];
    let texts = |days: &[Date]| {
        days.iter()
            .map(|it| it.to_string())
            .collect::<Vec<_>>()
            .join(" ")
    };
    let target = KnownCalendar::Target
        .holidays(2024..=2024, weekend(), &mut out)
        .unwrap();
    assert_eq!(
        texts(target),
        "2024-01-01 2024-03-29 2024-04-01 2024-05-01 2024-12-25 2024-12-26"
    );
    // (Independence Day of 2026 is a Saturday, and kept on Friday)
    let federal = KnownCalendar::UsFederal
        .holidays(2026..=2026, weekend(), &mut out)
        .unwrap();
    assert!(federal.contains(&date("2026-07-03")) && federal.len() == 11);
    let england = KnownCalendar::EnglandAndWales
        .holidays(2024..=2025, weekend(), &mut out)
        .unwrap();
    assert!(
        england.contains(&date("2024-08-26"))
            && england.contains(&date("2025-04-21"))
            && england.len() == 16
    );
    // (Christmas Day of 2021 was a Saturday: the exchange was closed on Friday, and Fedwire open)
    let christmas_eve = date("2021-12-24");
    for (calendar, is_closed) in [(KnownCalendar::Nyse, true), (KnownCalendar::Fedwire, false)] {
        let days = calendar.holidays(2021..=2021, weekend(), &mut out).unwrap();
        assert_eq!(days.contains(&christmas_eve), is_closed, "{calendar:?}");
    }
    // (31 October 2017, Whit Monday of 2024, and 6 May for a Sunday)
    for (calendar, year, day) in [
        (KnownCalendar::Germany, 2017, "2017-10-31"),
        (KnownCalendar::France, 2024, "2024-05-20"),
        (KnownCalendar::Japan, 2026, "2026-05-06"),
    ] {
        let days = calendar.holidays(year..=year, weekend(), &mut out).unwrap();
        assert!(days.contains(&date(day)), "{calendar:?}");
    }
    assert_eq!(
        KnownCalendar::Target.holidays(2024..=2024, weekend(), &mut out[..5]),
        None
    );
    assert_eq!(
        KnownCalendar::Target.holidays(300_000..=300_000, weekend(), &mut out),
        None
    );
}

#[test]
fn holidays_first_year() {
    for (calendar, first) in [
        (KnownCalendar::UsFederal, 1971),
        (KnownCalendar::Target, 1999),
        (KnownCalendar::EnglandAndWales, 1978),
        (KnownCalendar::Fedwire, 1971),
        (KnownCalendar::Nyse, 1998),
        (KnownCalendar::Germany, 1995),
        (KnownCalendar::France, 1982),
        (KnownCalendar::Japan, 2007),
    ] {
        assert_eq!(calendar.first_year(), first, "{calendar:?}");
        let mut out = [Date::MIN; 50];
        let known = calendar.within(first - 9..=first, weekend(), &mut out);
        assert_eq!(known.unwrap().years(), first..=first);
    }
}

#[test]
fn is_open_day_within() {
    let mut out = [Date::MIN; 30];
    let target = KnownCalendar::Target
        .within(2024..=2026, weekend(), &mut out)
        .unwrap();
    assert_eq!(target.is_open(date("2026-12-31")), Ok(true));
    assert_eq!(target.is_open(date("2024-01-01")), Ok(false));
    for day in ["2023-12-31", "2027-01-01"] {
        let wrong = target.is_open(date(day)).unwrap_err();
        assert_eq!(wrong.years(), 2024..=2026);
        assert_eq!(
            wrong.to_string(),
            "the holidays are known from 2024 to 2026 alone, and another year is looked at"
        );
    }
    assert_eq!(
        target.calendar().holidays().last(),
        Some(&date("2026-12-25"))
    );
    let mut out = [Date::MIN; 30];
    let federal = KnownCalendar::UsFederal
        .within(2021..=2021, weekend(), &mut out)
        .unwrap();
    assert_eq!(federal.is_open(date("2021-12-31")), Ok(false));
    for years in [2024..=300_000, 300_000..=300_001] {
        assert_eq!(
            KnownCalendar::Target.within(years, weekend(), &mut out),
            None
        );
    }
}

#[test]
fn add_open_days_within() {
    let mut out = [Date::MIN; 30];
    let target = KnownCalendar::Target
        .within(2024..=2026, weekend(), &mut out)
        .unwrap();
    let wednesday = date("2026-12-30");
    assert_eq!(target.add_open_days(wednesday, 1), Ok(date("2026-12-31")));
    assert!(target.add_open_days(wednesday, 2).is_err());
    assert!(target.add_open_days(wednesday, i64::MAX).is_err());
    assert!(target.add_open_days(date("2027-01-01"), -1).is_err());
    assert!(target.add_open_days(date("2024-01-02"), -1).is_err());
}

#[test]
fn open_days_between_within() {
    let mut out = [Date::MIN; 30];
    let target = KnownCalendar::Target
        .within(2024..=2026, weekend(), &mut out)
        .unwrap();
    // (261 days of 2026 are no weekends, and five of them holidays)
    let [first, end] = ["2026-01-01", "2027-01-01"].map(date);
    assert_eq!(target.open_days(first, end), Ok(256));
    assert_eq!(target.open_days(end, first), Ok(-256));
    assert_eq!(target.open_days(end, end), Ok(0));
    assert!(target.open_days(first, date("2027-01-02")).is_err());
    assert!(target.open_days(date("2023-12-31"), first).is_err());
}

#[test]
fn roll_within() {
    let calendar = BusinessCalendar::new(weekend(), &[]).unwrap();
    let [one, two] = [2022, 2023].map(|last| BoundedCalendar::new(calendar, 2022..=last));
    // (a Saturday)
    let last = date("2022-12-31");
    for roll in [
        Roll::Preceding,
        Roll::ModifiedFollowing,
        Roll::ModifiedPreceding,
        Roll::NearestIsda,
    ] {
        assert_eq!(one.roll(last, roll), Ok(date("2022-12-30")), "{roll:?}");
    }
    for roll in [Roll::Following, Roll::NearestQuantLib] {
        assert!(one.roll(last, roll).is_err(), "{roll:?}");
    }
    assert_eq!(one.roll(last, Roll::Unadjusted), Ok(last));
    assert_eq!(two.roll(last, Roll::Following), Ok(date("2023-01-02")));
    assert_eq!(
        two.roll(last, Roll::NearestQuantLib),
        Ok(date("2022-12-30"))
    );
}

#[test]
fn easter() {
    for (year, wanted) in [
        (2024, "2024-03-31"),
        (2025, "2025-04-20"),
        (1961, "1961-04-02"),
        (2038, "2038-04-25"),
        (300_000, "none"),
    ] {
        assert_eq!(text(proved_calendar::easter(year)), wanted);
    }
}

/// Days around Easter of 2024, and none.
fn column() -> [i32; 5] {
    ["2024-03-28", "2024-03-29", "2024-03-31", "2024-04-02"]
        .map(|it| date(it).number())
        .into_iter()
        .chain([columns::NO_DATE])
        .collect::<Vec<_>>()
        .try_into()
        .unwrap()
}

#[test]
fn column_is_open_day() {
    let days = easter_days();
    let calendar = BusinessCalendar::new(weekend(), &days).unwrap();
    let mut marks = [true; 5];
    columns::is_open_day(&calendar, &column(), &mut marks);
    assert_eq!(marks, [true, false, false, true, false]);
}

#[test]
fn column_add_open_days() {
    let days = easter_days();
    let calendar = BusinessCalendar::new(weekend(), &days).unwrap();
    let mut moved = [0; 5];
    columns::add_open_days(&calendar, &column(), 1, &mut moved);
    let [second, third] = [date("2024-04-02").number(), date("2024-04-03").number()];
    assert_eq!(moved, [second, second, second, third, columns::NO_DATE]);
}

#[test]
fn column_open_days_between() {
    let days = easter_days();
    let calendar = BusinessCalendar::new(weekend(), &days).unwrap();
    let (mut counts, until) = ([0; 5], [date("2024-04-05").number(); 5]);
    columns::open_days_between(&calendar, &column(), &until, &mut counts);
    assert_eq!(counts, [4, 3, 3, 3, i64::MIN]);
}

#[test]
fn column_roll() {
    let days = easter_days();
    let calendar = BusinessCalendar::new(weekend(), &days).unwrap();
    let mut rolled = [0; 5];
    columns::roll(&calendar, &column(), Roll::ModifiedFollowing, &mut rolled);
    let [before, after] = [date("2024-03-28").number(), date("2024-04-02").number()];
    assert_eq!(rolled, [before, before, before, after, columns::NO_DATE]);
}

/// The holidays of TARGET from 2024 to 2026, and the days from a week before these years to a week after them. Some are no date.
fn known_years(out: &mut [Date]) -> (BoundedCalendar<'_>, Vec<i32>) {
    let known = KnownCalendar::Target.within(2024..=2026, weekend(), out);
    let (first, last) = (date("2023-12-25").number(), date("2027-01-07").number());
    let no_dates = [columns::NO_DATE, i32::MAX, i32::MIN + 1];
    (
        known.unwrap(),
        no_dates.into_iter().chain(first..=last).collect(),
    )
}

/// Whether a column of one date, or of no date, gives what the single call does, or its error.
fn is_answer<T: PartialEq>(
    column: Result<(), YearsError>,
    told: T,
    single: Option<Result<T, YearsError>>,
    none: T,
) -> bool {
    match single {
        Some(Ok(it)) => column.is_ok() && told == it,
        Some(Err(it)) => column == Err(it),
        None => column.is_ok() && told == none,
    }
}

#[test]
fn column_is_open_day_within() {
    let mut out = [Date::MIN; 30];
    let (target, days) = known_years(&mut out);
    for day in &days {
        let mut marks = [true];
        let told = columns::is_open_day_within(&target, &[*day], &mut marks);
        let single = Date::from_number(*day).map(|it| target.is_open(it));
        assert!(is_answer(told, marks[0], single, false), "{day}");
    }
    let (inside, mut marks) = (&days[10..days.len() - 7], [false; 1096]);
    assert_eq!(
        columns::is_open_day_within(&target, inside, &mut marks),
        Ok(())
    );
    assert_eq!(marks.iter().filter(|it| **it).count(), 767);
}

#[test]
fn column_add_open_days_within() {
    let mut out = [Date::MIN; 30];
    let (target, days) = known_years(&mut out);
    for n in [-30, -2, -1, 0, 1, 2, 5, 700, 767, i64::MAX, i64::MIN] {
        for day in &days {
            let mut moved = [0];
            let told = columns::add_open_days_within(&target, &[*day], n, &mut moved);
            let single =
                Date::from_number(*day).map(|it| target.add_open_days(it, n).map(Date::number));
            assert!(
                is_answer(told, moved[0], single, columns::NO_DATE),
                "{day} {n}"
            );
        }
    }
}

#[test]
fn column_open_days_between_within() {
    let mut out = [Date::MIN; 30];
    let (target, days) = known_years(&mut out);
    let [before, first, middle, end] =
        ["2023-12-31", "2024-01-01", "2025-05-01", "2027-01-01"].map(|it| date(it).number());
    for other in [
        before,
        first,
        middle,
        end,
        end + 1,
        columns::NO_DATE,
        i32::MAX,
    ] {
        for day in &days {
            let mut counts = [0];
            let told = columns::open_days_between_within(&target, &[*day], &[other], &mut counts);
            let both = Date::from_number(*day).zip(Date::from_number(other));
            let single = both.map(|(from, to)| target.open_days(from, to));
            assert!(
                is_answer(told, counts[0], single, i64::MIN),
                "{day} {other}"
            );
        }
    }
}

#[test]
fn column_roll_within() {
    let mut out = [Date::MIN; 30];
    let (target, days) = known_years(&mut out);
    for roll in [
        Roll::Unadjusted,
        Roll::Following,
        Roll::Preceding,
        Roll::ModifiedFollowing,
        Roll::ModifiedPreceding,
        Roll::NearestIsda,
        Roll::NearestQuantLib,
    ] {
        for day in &days {
            let mut rolled = [0];
            let told = columns::roll_within(&target, &[*day], roll, &mut rolled);
            let single = Date::from_number(*day).map(|it| target.roll(it, roll).map(Date::number));
            assert!(
                is_answer(told, rolled[0], single, columns::NO_DATE),
                "{day} {roll:?}"
            );
        }
    }
}

#[test]
fn one_of_a_million_in_another_year() {
    let mut out = [Date::MIN; 30];
    let (target, _) = known_years(&mut out);
    let middle = date("2025-06-02").number();
    let (mut dates, ends) = (vec![middle; 1_000_000], vec![middle; 1_000_000]);
    let (mut marks, mut days, mut counts) =
        (vec![true; 1_000_000], ends.clone(), vec![0; 1_000_000]);
    for (place, wrong) in [
        (0, "2023-12-31"),
        (500_000, "2027-01-02"),
        (999_999, "2027-01-02"),
    ] {
        for is_wrong in [true, false] {
            dates[place] = if is_wrong {
                date(wrong).number()
            } else {
                columns::NO_DATE
            };
            let told = [
                columns::is_open_day_within(&target, dates.as_slice(), &mut marks),
                columns::add_open_days_within(&target, dates.as_slice(), 1, &mut days),
                columns::open_days_between_within(
                    &target,
                    dates.as_slice(),
                    ends.as_slice(),
                    &mut counts,
                ),
                columns::roll_within(&target, dates.as_slice(), Roll::Preceding, &mut days),
            ];
            let single = target.is_open(date(wrong)).map(|_| ());
            assert_eq!(told, [if is_wrong { single } else { Ok(()) }; 4], "{place}");
        }
        dates[place] = middle;
    }
}

#[test]
fn column_from_date32() {
    let mut dates = [0; 4];
    columns::from_date32(&[0, -719_162, i32::MAX, i32::MIN], &mut dates);
    assert_eq!(dates, [719_163, 1, columns::NO_DATE, columns::NO_DATE]);
}

#[test]
fn column_to_date32() {
    let mut days = [0; 3];
    columns::to_date32(&[719_163, 1, columns::NO_DATE], &mut days);
    assert_eq!(days, [0, -719_162, columns::NO_DATE]);
}

#[test]
#[should_panic(expected = "different lengths")]
fn columns_of_different_lengths() {
    let calendar = BusinessCalendar::new(weekend(), &[]).unwrap();
    columns::is_open_day(&calendar, &column(), &mut [false; 4]);
}

fn rule(text: &str) -> Rule {
    text.parse().unwrap()
}

#[test]
fn rule_check() {
    for text in [
        "FREQ=MONTHLY;BYDAY=-1FR",
        "freq=daily;count=3",
        "FREQ=YEARLY;BYWEEKNO=20;BYDAY=MO",
    ] {
        assert_eq!(rule(text).to_string(), text);
    }
    for (text, start, end) in [
        ("FREQ=YEARLY;BYMONTH=13", 20, 22),
        ("FREQ=DAILY;BYMONTH=1,13,2", 21, 23),
        ("", 0, 0),
    ] {
        let wrong = text.parse::<Rule>().unwrap_err();
        assert_eq!((wrong.start(), wrong.end()), (start, end), "{text}");
    }
}

#[test]
fn rule_fault_text() {
    let wrong = "FREQ=YEARLY;BYMONTH=13".parse::<Rule>().unwrap_err();
    assert_eq!(wrong.to_string(), "BYMONTH: number out of range");
    assert_eq!(wrong.field(), Some(5));
}

#[test]
fn rule_next() {
    let fridays = rule("FREQ=MONTHLY;BYDAY=-1FR");
    let start = date("2024-01-01");
    for (day, wanted) in [
        ("2024-01-01", "2024-01-26"),
        ("2024-01-26", "2024-02-23"),
        ("2023-01-01", "2024-01-26"),
        ("+262142-12-31", "none"),
    ] {
        assert_eq!(text(fridays.next_after(start, date(day))), wanted);
    }
    assert_eq!(
        rule("FREQ=DAILY;COUNT=3").next_after(start, date("2024-01-03")),
        None
    );
}

#[test]
fn rule_prev() {
    let fridays = rule("FREQ=MONTHLY;BYDAY=-1FR");
    let start = date("2024-01-01");
    for (day, wanted) in [
        ("2024-03-01", "2024-02-23"),
        ("2024-02-23", "2024-01-26"),
        ("2024-01-26", "none"),
    ] {
        assert_eq!(text(fridays.prev_before(start, date(day))), wanted);
    }
}

#[test]
fn rule_is_instance() {
    let thirty_first = rule("FREQ=MONTHLY;BYMONTHDAY=31");
    let days = ["2024-01-31", "2024-02-29", "2024-03-31", "2023-12-31"]
        .map(|it| thirty_first.is_instance(date("2024-01-01"), date(it)));
    assert_eq!(days, [true, false, true, false]);
}

#[test]
fn rule_instances() {
    let daily = rule("FREQ=DAILY");
    let start = date("2024-02-01");
    for count in [1, 2, 5, 6, 20, 21, 85, 86, 1_000] {
        let until = start.checked_add_days(count - 1).unwrap();
        let found: Vec<Date> = daily.instances_between(start, start, until).collect();
        assert_eq!((found.len(), found.last()), (count as usize, Some(&until)));
        assert!(found.windows(2).all(|it| it[1] - it[0] == 1));
    }
    let shown = daily.instances_between(start, date("2024-02-28"), date("2024-03-01"));
    assert_eq!(shown.map(|it| it.day()).collect::<Vec<_>>(), [28, 29, 1]);
    assert_eq!(
        rule("FREQ=WEEKLY;COUNT=3")
            .instances(start)
            .map(|it| it.day())
            .collect::<Vec<_>>(),
        [1, 8, 15]
    );
    assert_eq!(daily.instances(Date::MAX).collect::<Vec<_>>(), [Date::MAX]);
    let mut none = daily.instances_between(start, date("2024-01-01"), date("2024-01-31"));
    assert_eq!((none.next(), none.next()), (None, None));
}

/// The least time of three calls.
fn time_of<T>(call: impl Fn() -> T) -> Duration {
    let times = [(); 3].map(|()| {
        let began = Instant::now();
        call();
        began.elapsed()
    });
    times.into_iter().min().unwrap()
}

#[test]
fn long_counts() {
    let days = 50_000;
    let start = date("2024-01-01");
    let last = start.checked_add_days(days - 1).unwrap();
    let until = rule(&format!("FREQ=DAILY;UNTIL={last}").replace('-', ""));
    let all = || until.instances(start).collect::<Vec<_>>();
    for text in [
        format!("FREQ=DAILY;COUNT={days}"),
        format!("count={days};freq=daily"),
    ] {
        let counted = rule(&text);
        let list = || counted.instances(start).collect::<Vec<_>>();
        assert_eq!(list(), all());
        assert!(time_of(list) < 20 * time_of(all) + Duration::from_millis(20));
        let set = RuleSet::new().with_rule(until.clone(), start);
        let [none, same] = [counted, until.clone()].map(|it| set.clone().without_rule(it, start));
        let none = || assert_eq!(none.instances().next(), None);
        let same = || assert_eq!(same.instances().next(), None);
        assert!(time_of(none) < 20 * time_of(same) + Duration::from_millis(20));
    }
}

/// Central Europe by its rule.
const BERLIN: &str = "CET-1CEST,M3.5.0,M10.5.0/3";

fn zone(text: &str) -> Zone {
    text.parse().unwrap()
}

/// A TZif file of version 1: UTC up to 1970-01-01T00:01:00, and an hour ahead from then on.
fn small_file() -> Vec<u8> {
    let mut bytes = b"TZif".to_vec();
    bytes.resize(44, 0);
    (bytes[35], bytes[39], bytes[43]) = (1, 2, 8);
    bytes.extend([0, 0, 0, 60, 1, 0, 0, 0, 0, 0, 0, 0, 0, 14, 16, 1, 4]);
    bytes.extend(b"GMT\0BST\0");
    bytes
}

#[test]
fn zone_check() {
    assert_eq!(zone(BERLIN).as_bytes(), BERLIN.as_bytes());
    assert_eq!(Zone::from_tzif(small_file()).unwrap().as_bytes().len(), 69);
    for (text, start, end) in [
        ("EST5EDT", 7, 7),
        ("EST", 3, 3),
        ("5", 0, 1),
        ("EST5EDT,M3.2.0,M13.1.0", 15, 22),
        ("", 0, 0),
    ] {
        let wrong = text.parse::<Zone>().unwrap_err();
        assert_eq!(
            (wrong.start(), wrong.end(), wrong.field()),
            (start, end, None),
            "{text}"
        );
    }
    let mut bytes = small_file();
    bytes[48] = 2;
    assert_eq!(Zone::from_tzif(bytes.clone()).unwrap_err().field(), Some(1));
    bytes.truncate(60);
    let wrong = Zone::from_tzif(bytes).unwrap_err();
    assert_eq!((wrong.start(), wrong.end()), (44, 60));
    assert_eq!(format!("{:?}", zone("HST10")), "Zone(\"HST10\")");
}

#[test]
fn zone_fault_text() {
    for (text, sentence) in [
        ("EST5EDT", "the days of daylight time are missing"),
        ("EST", "an offset is missing"),
        ("XXX24", "the offset is a day or more"),
        ("TZif", "the file is cut off"),
    ] {
        assert_eq!(text.parse::<Zone>().unwrap_err().to_string(), sentence);
    }
}

#[test]
fn zone_offset_at() {
    let berlin = zone(BERLIN);
    let changes = [1_711_846_799, 1_711_846_800, 1_729_990_799, 1_729_990_800];
    assert_eq!(
        changes.map(|it| berlin.offset_at(it)),
        [3_600, 7_200, 7_200, 3_600]
    );
    let file = Zone::from_tzif(small_file()).unwrap();
    assert_eq!([59, 60].map(|it| file.offset_at(it)), [0, 3_600]);
    assert_eq!(
        text(berlin.at(moment("2024-03-31T00:59:59.5"))),
        "2024-03-31T01:59:59.500+01:00"
    );
    assert_eq!(
        text(zone("LMT-0:53:28").at(moment("1890-01-01T00:00:00"))),
        "1890-01-01T00:53:28+00:53:28"
    );
    assert_eq!(zone("HST10").at(moment("-262143-01-01T00:00:00")), None);
}

#[test]
fn zone_offsets_of_local() {
    let berlin = zone(BERLIN);
    for (local, offsets) in [
        ("2024-03-31T01:59:59", LocalOffsets::One(3_600)),
        ("2024-03-31T02:00:00", LocalOffsets::None),
        ("2024-03-31T02:59:59", LocalOffsets::None),
        ("2024-03-31T03:00:00", LocalOffsets::One(7_200)),
        ("2024-10-27T01:59:59", LocalOffsets::One(7_200)),
        ("2024-10-27T02:00:00", LocalOffsets::Two(7_200, 3_600)),
        ("2024-10-27T02:59:59.9", LocalOffsets::Two(7_200, 3_600)),
        ("2024-10-27T03:00:00", LocalOffsets::One(3_600)),
    ] {
        assert_eq!(berlin.offsets_of_local(moment(local)), offsets, "{local}");
        let ends = berlin.ends_of_local(moment(local));
        assert_eq!(
            ends.map(|it| it.map(|it| Some(it.offset()))),
            offsets
                .earliest()
                .map(|_| [offsets.earliest(), offsets.latest()])
        );
        assert_eq!(
            berlin.of_local(moment(local)).map(|it| it.offset()),
            offsets.single()
        );
    }
}

#[test]
fn ends_of_local_offsets() {
    let [fold, only, gap] = [
        LocalOffsets::Two(7_200, 3_600),
        LocalOffsets::One(0),
        LocalOffsets::None,
    ];
    assert_eq!(
        [fold, only, gap].map(|it| it.earliest()),
        [Some(7_200), Some(0), None]
    );
    assert_eq!(
        [fold, only, gap].map(|it| it.latest()),
        [Some(3_600), Some(0), None]
    );
}

#[test]
fn zone_holds_until() {
    assert_eq!(zone(BERLIN).holds_until(1_711_846_800), 1_729_990_800);
    assert_eq!(zone("HST10").holds_until(0), i64::MAX);
    assert_eq!(Zone::from_tzif(small_file()).unwrap().holds_until(0), 60);
}

#[test]
fn zone_schedule_next() {
    let (berlin, nightly, hourly) = (zone(BERLIN), schedule("30 2 * * *"), schedule("30 * * * *"));
    let start = |local| berlin.of_local(moment(local)).unwrap();
    assert_eq!(
        text(nightly.next_in_zone(start("2024-03-30T12:00:00"))),
        "2024-03-31T03:00:00+02:00"
    );
    assert_eq!(
        text(nightly.next_in_zone(start("2024-03-31T03:00:00"))),
        "2024-04-01T02:30:00+02:00"
    );
    assert_eq!(
        text(nightly.next_in_zone(start("2024-10-27T01:00:00"))),
        "2024-10-27T02:30:00+02:00"
    );
    let [first, _] = berlin.ends_of_local(moment("2024-10-27T02:30:00")).unwrap();
    assert_eq!(
        text(nightly.next_in_zone(first)),
        "2024-10-28T02:30:00+01:00"
    );
    assert_eq!(
        text(hourly.next_in_zone(first)),
        "2024-10-27T02:30:00+01:00"
    );
    assert_eq!(schedule("0 0 30 2 *").next_in_zone(first), None);
}

#[test]
fn zone_schedule_prev() {
    let (berlin, nightly, hourly) = (zone(BERLIN), schedule("30 2 * * *"), schedule("30 * * * *"));
    let start = |local| berlin.of_local(moment(local)).unwrap();
    assert_eq!(
        text(nightly.prev_in_zone(start("2024-04-01T02:30:00"))),
        "2024-03-31T03:00:00+02:00"
    );
    assert_eq!(
        text(nightly.prev_in_zone(start("2024-03-31T03:00:00"))),
        "2024-03-30T02:30:00+01:00"
    );
    let [first, last] = berlin.ends_of_local(moment("2024-10-27T02:30:00")).unwrap();
    assert_eq!(
        nightly.prev_in_zone(start("2024-10-28T02:30:00")),
        Some(first)
    );
    assert_eq!(hourly.prev_in_zone(last), Some(first));
    assert_eq!(schedule("0 0 30 2 *").prev_in_zone(first), None);
    let nights: Vec<_> = nightly.after_in_zone(first).take(2).collect();
    assert_eq!(text(Some(nights[1])), "2024-10-29T02:30:00+01:00");
    assert_eq!(schedule("0 0 30 2 *").after_in_zone(first).next(), None);
}

#[test]
fn zones_of_rules_are_no_files() {
    let wrong = Zone::from_tzif(*b"HST10").unwrap_err();
    assert_eq!(wrong.to_string(), "no header of a TZif file stands there");
    assert_eq!((wrong.start(), wrong.end()), (0, 5));
    assert!(Zone::from_tzif(*b"").is_err());
}

/// Fridays and the last day of each month, from March 2024 on; 13 March is added, and the 29th left out.
fn meetings() -> RuleSet {
    let start = date("2024-03-01");
    RuleSet::new()
        .with_rule(rule("FREQ=WEEKLY;BYDAY=FR"), start)
        .with_rule(rule("FREQ=MONTHLY;BYMONTHDAY=-1"), start)
        .with_date(date("2024-03-31"))
        .with_date(date("2024-03-13"))
        .with_date(date("2024-03-13"))
        .without_date(date("2024-03-29"))
}

fn march(days: impl Iterator<Item = Date>) -> Vec<u32> {
    days.map(|it| it.day()).collect()
}

#[test]
fn rule_sets() {
    let set = meetings();
    let wanted = [1, 8, 13, 15, 22, 31];
    let [first, last] = ["2024-03-01", "2024-03-31"].map(date);
    assert_eq!(march(set.instances().take(6)), wanted);
    assert_eq!(march(set.instances_between(Date::MIN, last)), wanted);
    let [from, until] = ["2024-03-13", "2024-03-22"].map(date);
    assert_eq!(march(set.instances_between(from, until)), [13, 15, 22]);
    assert_eq!(march(set.instances_between(first, from)), [1, 8, 13]);
    assert_eq!(set.instances_between(until, from).next(), None);
    for day in first.number()..=last.number() {
        let day = Date::from_number(day).unwrap();
        assert_eq!(set.is_instance(day), wanted.contains(&day.day()), "{day}");
        let next = wanted.iter().copied().find(|it| *it > day.day());
        assert_eq!(set.next_after(day).unwrap().day(), next.unwrap_or(5));
        let previous = wanted.iter().rev().copied().find(|it| *it < day.day());
        assert_eq!(set.prev_before(day).map(|it| it.day()), previous);
    }
    assert_eq!(set.next_after(Date::MAX), None);
}

#[test]
fn rule_sets_of_which_all_days_are_left_out() {
    let [start, next, far] = ["2024-01-01", "2024-01-02", "+200000-03-03"].map(date);
    let seldom = rule("FREQ=YEARLY;INTERVAL=1000;BYMONTH=3;BYMONTHDAY=2,3;COUNT=4");
    let weekly = || rule("FREQ=WEEKLY;BYDAY=MO");
    let set = RuleSet::new()
        .with_rule(weekly(), start)
        .with_rule(seldom, start)
        .with_date(far)
        .without_rule(weekly(), start);
    let days: Vec<i32> = set.instances().map(|it| it.year()).collect();
    assert_eq!(days, [2024, 2024, 3024, 3024, 200_000]);
    assert_eq!(set.next_after(far), None);
    assert_eq!(text(set.prev_before(far)), "3024-03-03");
    assert_eq!(set.prev_before(Date::MAX), Some(far));
    let halves = || rule("FREQ=DAILY;INTERVAL=2");
    let none = RuleSet::new()
        .with_rule(rule("FREQ=DAILY"), start)
        .without_rule(halves(), start)
        .without_rule(halves(), next);
    assert_eq!(
        (none.next_after(start), none.prev_before(Date::MAX)),
        (None, None)
    );
    assert_eq!(none.instances().next(), None);
}

#[test]
fn rule_sets_with_few_instances() {
    let start = date("2024-01-01");
    let sundays = RuleSet::new()
        .with_rule(rule("FREQ=DAILY;BYMONTH=2;BYMONTHDAY=29"), start)
        .without_rule(
            rule("FREQ=DAILY;BYMONTH=2;BYMONTHDAY=29;BYDAY=MO,TU,WE,TH,FR,SA"),
            start,
        );
    let years: Vec<i32> = sundays.instances().take(4).map(|it| it.year()).collect();
    assert_eq!(years, [2032, 2060, 2088, 2128]);
    let all = sundays.instances_between(start, date("3000-12-31"));
    assert_eq!(all.count(), 32);
    let last = sundays.prev_before(date("+262000-01-01")).unwrap();
    assert_eq!(last.weekday(), Weekday::Sun);
}

#[test]
fn rule_sets_with_an_end() {
    let [start, left_out] = ["2024-03-01", "2024-03-04"].map(date);
    let daily = RuleSet::new().with_rule(rule("FREQ=DAILY;COUNT=4"), start);
    let set = daily
        .clone()
        .without_rule(rule("FREQ=DAILY;INTERVAL=2"), start)
        .without_date(left_out);
    assert_eq!(march(set.instances()), [2]);
    assert_eq!(set.next_after(date("2024-03-02")), None);
    assert_eq!(text(set.prev_before(Date::MAX)), "2024-03-02");
    assert!(!set.is_instance(start) && !set.is_instance(left_out));
    let ends = daily.clone().with_date(date("2024-03-31"));
    let few = ends.without_rule(rule("FREQ=DAILY;COUNT=2"), date("2024-03-02"));
    assert_eq!(march(few.instances()), [1, 4, 31]);
    assert_eq!(march(few.instances_between(left_out, Date::MAX)), [4, 31]);
    let none = RuleSet::new();
    let mut days = none.instances();
    assert_eq!((days.next(), days.next()), (None, None));
    let ends = none.clone().with_date(Date::MAX).with_date(Date::MIN);
    assert_eq!(ends, none.with_date(Date::MIN).with_date(Date::MAX));
    assert!(daily != set && daily.clone() == daily);
}

const NIGHTS: &str = "DTSTART;TZID=Europe/Berlin:20240330T023000\nRRULE:FREQ=DAILY;BYHOUR=2,17\n";

const MEETINGS: &str =
    "DTSTART;TZID=Europe/Berlin:20240131T090000\r\nRRULE:FREQ=MONTHLY;COUNT=4\r\n\
    RDATE;TZID=Europe/Berlin:20240201T090000\r\nEXDATE;TZID=Europe/Berlin:20240531T090000\r\n";

#[test]
fn text_check() {
    let berlin = zone(BERLIN);
    assert!(CalendarText::new(NIGHTS, &berlin).is_ok());
    let wrong = CalendarText::new("DTSTART:20240131T0900", &berlin).unwrap_err();
    assert_eq!((wrong.start(), wrong.end()), (8, 21));
}

#[test]
fn text_fault_text() {
    let berlin = zone(BERLIN);
    let wrong = CalendarText::new("RRULE:FREQ=DAILY", &berlin).unwrap_err();
    assert_eq!(wrong.to_string(), "DTSTART is missing");
}

#[test]
fn text_zone() {
    let name = CalendarText::zone_name(NIGHTS);
    assert_eq!(name.as_deref(), Some("Europe/Berlin"));
    assert_eq!(CalendarText::zone_name("DTSTART:20240131T090000"), None);
}

#[test]
fn text_next() {
    let berlin = zone(BERLIN);
    let nights = CalendarText::new(NIGHTS, &berlin).unwrap();
    let next = |start| text(nights.next_after(moment(start)));
    assert_eq!(next("2024-01-01T00:00:00"), "2024-03-30T02:30:00+01:00");
    assert_eq!(next("2024-03-30T16:30:00"), "2024-03-31T03:30:00+02:00");
    let once = CalendarText::new("DTSTART:20240131T090000", &berlin).unwrap();
    assert_eq!(once.next_after(moment("2024-01-31T08:00:00")), None);
}

#[test]
fn text_prev() {
    let berlin = zone(BERLIN);
    let nights = CalendarText::new(NIGHTS, &berlin).unwrap();
    let last = nights.prev_before(moment("2024-03-31T01:30:00"));
    assert_eq!(text(last), "2024-03-30T17:30:00+01:00");
    assert_eq!(nights.prev_before(moment("2024-03-30T01:30:00")), None);
}

#[test]
fn text_is_instance() {
    let berlin = zone(BERLIN);
    let meetings = CalendarText::new(MEETINGS, &berlin).unwrap();
    assert!(meetings.is_instance(moment("2024-07-31T07:00:00")));
    assert!(!meetings.is_instance(moment("2024-05-31T07:00:00")));
}

#[test]
fn text_instances() {
    let berlin = zone(BERLIN);
    let meetings = CalendarText::new(MEETINGS, &berlin).unwrap();
    let (start, end) = (moment("2024-01-31T08:00:00"), moment("2024-07-31T07:00:00"));
    let found = meetings.between(start, end);
    let days: Vec<String> = found.iter().map(|it| it.to_string()).collect();
    assert_eq!(
        days,
        [
            "2024-02-01T09:00:00+01:00",
            "2024-03-31T09:00:00+02:00",
            "2024-07-31T09:00:00+02:00"
        ]
    );
    assert_eq!(meetings.after(start).collect::<Vec<_>>(), found);
    let hourly = CalendarText::new(
        "DTSTART:20240101T000000\nRRULE:FREQ=HOURLY;COUNT=200",
        &berlin,
    );
    assert_eq!(
        hourly
            .unwrap()
            .between(moment("2023-01-01T00:00:00"), end)
            .len(),
        200
    );
}

#[test]
fn timed_schedule_check() {
    for (text, dialect, said) in [
        (
            "0,60 * * * * *",
            Dialect::Seconds,
            "second, byte 2: a number that is out of range",
        ),
        (
            "0 0 24 * * *",
            Dialect::Seconds,
            "hour, byte 4: a number that is out of range",
        ),
        (
            "0 0 0 1 * MON",
            Dialect::Quartz,
            "weekday, byte 10: not just one field of days is ?",
        ),
        (
            "0 0 0 1 * ? 2100",
            Dialect::Quartz,
            "year, byte 12: a number that is out of range",
        ),
        (
            "0 0 ? * 7",
            Dialect::Robfig,
            "weekday, byte 8: a number that is out of range",
        ),
    ] {
        let wrong = TimedSchedule::new(text, dialect).unwrap_err();
        assert_eq!(wrong.to_string(), said);
    }
}

#[test]
fn timed_schedule_fault_text() {
    let wrong = TimedSchedule::new("61 * * * * *", Dialect::Seconds).unwrap_err();
    assert_eq!(
        format!("{wrong:<46}|"),
        "second, byte 0: a number that is out of range |"
    );
    let both = TimedSchedule::new("0 0 0 ? * ?", Dialect::Quartz).unwrap_err();
    assert_eq!(
        both.to_string(),
        "weekday, byte 10: not just one field of days is ?"
    );
    let few = TimedSchedule::new("* * * * *", Dialect::Seconds).unwrap_err();
    assert_eq!(few.to_string(), "byte 9: too few fields");
}

#[test]
fn timed_schedule_next() {
    let quarters = TimedSchedule::new("*/15 30 4 * * *", Dialect::Seconds).unwrap();
    let start = moment("2024-02-09T04:30:15");
    assert_eq!(
        quarters.next_after(start),
        Some(moment("2024-02-09T04:30:30"))
    );
    assert_eq!(
        quarters.after(start).nth(2),
        Some(moment("2024-02-10T04:30:00"))
    );
    let weekdays = TimedSchedule::new("0 30 4 ? * MON-FRI 2024-2026", Dialect::Quartz).unwrap();
    assert_eq!(weekdays.next_after(moment("2026-12-31T04:30:00")), None);
    for (dialect, next) in [
        (Dialect::Robfig, "2024-02-21T04:30:00"),
        (Dialect::Crontab, "2024-03-01T04:30:00"),
    ] {
        let days = TimedSchedule::new("30 4 */20 * FRI", dialect).unwrap();
        assert_eq!(
            days.next_after(moment("2024-02-16T04:30:00")),
            Some(moment(next))
        );
    }
}

#[test]
fn timed_schedule_prev() {
    let quarters = TimedSchedule::new("*/15 30 4 * * *", Dialect::Seconds).unwrap();
    let last = quarters.prev_before(moment("2024-02-09T04:30:15"));
    assert_eq!(last, Some(moment("2024-02-09T04:30:00")));
}

#[test]
fn timed_schedule_is_due() {
    let daily = TimedSchedule::new("@daily", Dialect::Crontab).unwrap();
    assert!(daily.is_due(moment("2024-03-01T00:00:00")));
    assert!(!daily.is_due(moment("2024-03-01T00:00:01")));
}
