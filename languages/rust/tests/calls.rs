//! Calls every function of `calendar.h` through this crate, with answers that are known from outside: a test for each
//! function, named after it, and then what Rust adds.

use proved_calendar::{
    columns, days_in_month as days_in, is_leap_year as is_leap, Date, DateTime, Duration, Weekday,
    WeekdaySet,
};
use Weekday::{Fri, Mon, Sat, Sun, Thu, Tue, Wed};

/// 2016-12-31T23:59:59, which a leap second followed.
const LAST_SECOND: i64 = 1_483_228_799;

/// The longest duration, in nanoseconds.
const LONGEST: i128 = i64::MAX as i128 * 1_000_000;

fn ymd(year: i32, month: u32, day: u32) -> Date {
    Date::from_ymd(year, month, day).unwrap()
}

fn dated(number: i32) -> Date {
    Date::from_number(number).unwrap()
}

fn moment(seconds: i64, nanos: u32) -> DateTime {
    DateTime::from_seconds(seconds, nanos).unwrap()
}

fn nanoseconds(count: i128) -> Duration {
    Duration::from_nanoseconds(count).unwrap()
}

/// The numbers of some dates.
fn number(date: Option<Date>) -> Option<i32> {
    date.map(Date::number)
}

/// Each field of the first and the last date, of days around year 0 and of ISO years that begin before or after the
/// year.
const DAYS: [(i32, i32, [u32; 3], Weekday, i32, u32); 12] = [
    (-95_746_129, -262_143, [1, 1, 1], Thu, -262_143, 1),
    (-95_745_765, -262_143, [12, 31, 365], Thu, -262_143, 53),
    (-1_767, -4, [2, 29, 60], Thu, -4, 9),
    (-730, -1, [1, 1, 1], Fri, -2, 53),
    (-365, 0, [1, 1, 1], Sat, -1, 52),
    (0, 0, [12, 31, 366], Sun, 0, 52),
    (1, 1, [1, 1, 1], Mon, 1, 1),
    (733_405, 2008, [12, 29, 364], Mon, 2009, 1),
    (733_775, 2010, [1, 3, 3], Sun, 2009, 53),
    (738_945, 2024, [2, 29, 60], Thu, 2024, 9),
    (3_652_060, 10_000, [1, 1, 1], Sat, 9_999, 52),
    (95_745_399, 262_142, [12, 31, 365], Mon, 262_143, 1),
];

#[test]
fn from_ymd() {
    for (number, year, [month, day, _], ..) in DAYS {
        assert_eq!(ymd(year, month, day).number(), number);
    }
    for (year, month, day) in [
        (2023, 2, 29),
        (1900, 2, 29),
        (-100, 2, 29),
        (2024, 4, 31),
        (2024, 0, 1),
        (2024, 13, 1),
        (2024, 1, 0),
        (-262_144, 12, 31),
        (262_143, 1, 1),
        (i32::MIN, 1, 1),
        (i32::MAX, 12, 31),
        (2024, u32::MAX, u32::MAX),
    ] {
        assert_eq!(Date::from_ymd(year, month, day), None);
    }
}

#[test]
fn from_yo() {
    for (number, year, [_, _, ordinal], ..) in DAYS {
        assert_eq!(Date::from_yo(year, ordinal), Date::from_number(number));
    }
    assert_eq!(number(Date::from_yo(2024, 366)), Some(739_251));
    for (year, ordinal) in [
        (2023, 366),
        (2024, 367),
        (2024, 0),
        (262_143, 1),
        (i32::MIN, 1),
        (2024, u32::MAX),
    ] {
        assert_eq!(Date::from_yo(year, ordinal), None);
    }
}

#[test]
fn from_isoywd() {
    for (number, .., weekday, year, week) in DAYS {
        assert_eq!(
            Date::from_isoywd(year, week, weekday),
            Date::from_number(number)
        );
    }
    assert_eq!(number(Date::from_isoywd(2026, 53, Thu)), Some(739_981));
    for (year, week, weekday) in [
        (-262_143, 1, Wed),
        (262_143, 1, Tue),
        (2024, 53, Mon),
        (2024, 0, Mon),
        (i32::MAX, u32::MAX, Sun),
    ] {
        assert_eq!(Date::from_isoywd(year, week, weekday), None);
    }
}

#[test]
fn from_weekday_of_month() {
    assert_eq!(
        number(Date::from_weekday_of_month(2024, 2, Thu, 5)),
        Some(738_945)
    );
    assert_eq!(
        number(Date::from_weekday_of_month(2024, 2, Thu, 1)),
        Some(738_917)
    );
    assert_eq!(
        Date::from_weekday_of_month(262_142, 12, Mon, 5),
        Some(Date::MAX)
    );
    for (month, weekday, n) in [
        (2, Fri, 5),
        (2, Thu, 0),
        (2, Thu, 6),
        (13, Mon, 1),
        (0, Mon, 1),
        (2, Thu, u32::MAX),
    ] {
        assert_eq!(Date::from_weekday_of_month(2024, month, weekday, n), None);
    }
}

#[test]
fn year() {
    for (number, year, ..) in DAYS {
        assert_eq!(dated(number).year(), year);
    }
}

#[test]
fn month() {
    for (number, _, [month, ..], ..) in DAYS {
        assert_eq!(dated(number).month(), month);
    }
}

#[test]
fn day() {
    for (number, _, [_, day, _], ..) in DAYS {
        assert_eq!(dated(number).day(), day);
    }
}

#[test]
fn ordinal() {
    for (number, _, [.., ordinal], ..) in DAYS {
        assert_eq!(dated(number).ordinal(), ordinal);
    }
}

#[test]
fn weekday() {
    for (number, _, _, weekday, ..) in DAYS {
        assert_eq!(dated(number).weekday(), weekday);
    }
}

#[test]
fn iso_year() {
    for (number, .., year, _) in DAYS {
        assert_eq!(dated(number).iso_year(), year);
    }
}

#[test]
fn iso_week() {
    for (number, .., week) in DAYS {
        assert_eq!(dated(number).iso_week(), week);
    }
}

#[test]
fn is_leap_year() {
    for year in [2024, 2000, 0, -4, -400, i32::MIN] {
        assert!(is_leap(year));
    }
    for year in [2023, 1900, -1, -100, i32::MAX] {
        assert!(!is_leap(year));
    }
}

#[test]
fn days_in_month() {
    for (year, month, days) in [
        (2024, 2, 29),
        (2023, 2, 28),
        (0, 2, 29),
        (-262_143, 1, 31),
        (262_142, 11, 30),
    ] {
        assert_eq!(days_in(year, month), Some(days));
    }
    for (year, month) in [
        (2024, 0),
        (2024, 13),
        (2024, u32::MAX),
        (262_143, 1),
        (i32::MIN, 2),
    ] {
        assert_eq!(days_in(year, month), None);
    }
}

#[test]
fn add_days() {
    assert_eq!(
        dated(738_945).checked_add_days(1),
        Date::from_ymd(2024, 3, 1)
    );
    assert_eq!(
        dated(738_945).checked_add_days(-738_945),
        Date::from_ymd(0, 12, 31)
    );
    assert_eq!(Date::MIN.checked_add_days(191_491_528), Some(Date::MAX));
    assert_eq!(Date::MAX.checked_add_days(-191_491_528), Some(Date::MIN));
    assert_eq!(Date::MAX.checked_add_days(1), None);
    assert_eq!(Date::MIN.checked_add_days(-1), None);
    for days in [i64::MIN, i64::MAX, 1 << 32] {
        assert_eq!(dated(1).checked_add_days(days), None);
    }
}

#[test]
fn add_months() {
    let leap_day = ymd(2024, 2, 29);
    assert_eq!(leap_day.checked_add_months(12), Date::from_ymd(2025, 2, 28));
    assert_eq!(ymd(2024, 1, 31).checked_add_months(1), Some(leap_day));
    assert_eq!(ymd(2024, 3, 31).checked_add_months(-1), Some(leap_day));
    assert_eq!(
        ymd(1, 1, 31).checked_add_months(-11),
        Date::from_ymd(0, 2, 29)
    );
    assert_eq!(
        Date::MIN.checked_add_months(12 * 524_285 + 11),
        Date::from_ymd(262_142, 12, 1)
    );
    assert_eq!(Date::MAX.checked_add_months(1), None);
    assert_eq!(Date::MIN.checked_add_months(-1), None);
    for months in [i64::MIN, i64::MAX, 1 << 32] {
        assert_eq!(leap_day.checked_add_months(months), None);
    }
}

#[test]
fn every_months() {
    let start = ymd(2024, 1, 31);
    assert_eq!(start.every_months(1, 0), Some(start));
    assert_eq!(start.every_months(1, 1), Date::from_ymd(2024, 2, 29));
    assert_eq!(start.every_months(1, 2), Date::from_ymd(2024, 3, 31));
    assert_eq!(start.every_months(-12, 1), Date::from_ymd(2023, 1, 31));
    assert_eq!(start.every_months(i32::MAX, u32::MAX), None);
    assert_eq!(start.every_months(i32::MIN, u32::MAX), None);
}

#[test]
fn years_since() {
    let born = ymd(2000, 2, 29);
    assert_eq!(ymd(2024, 2, 29).years_since(born), Some(24));
    assert_eq!(ymd(2023, 2, 28).years_since(born), Some(22));
    assert_eq!(ymd(2023, 3, 1).years_since(born), Some(23));
    assert_eq!(born.years_since(born), Some(0));
    assert_eq!(Date::MAX.years_since(Date::MIN), Some(524_285));
    assert_eq!(born.years_since(ymd(2000, 3, 1)), None);
}

#[test]
fn week_first_day() {
    let leap_day = ymd(2024, 2, 29);
    assert_eq!(leap_day.week_first_day(Mon), Date::from_ymd(2024, 2, 26));
    assert_eq!(leap_day.week_first_day(Thu), Some(leap_day));
    assert_eq!(leap_day.week_first_day(Fri), Date::from_ymd(2024, 2, 23));
    assert_eq!(Date::MIN.week_first_day(Thu), Some(Date::MIN));
    assert_eq!(Date::MIN.week_first_day(Wed), None);
}

#[test]
fn first_on() {
    let leap_day = ymd(2024, 2, 29);
    assert_eq!(leap_day.first_on([Thu].into()), Some(leap_day));
    assert_eq!(leap_day.first_on([Wed].into()), Date::from_ymd(2024, 3, 6));
    assert_eq!(
        leap_day.first_on([Mon, Sun].into()),
        Date::from_ymd(2024, 3, 3)
    );
    assert_eq!(leap_day.first_on(Weekday::ALL.into()), Some(leap_day));
    assert_eq!(leap_day.first_on(WeekdaySet::default()), None);
    assert_eq!(Date::MAX.first_on([Mon].into()), Some(Date::MAX));
    assert_eq!(Date::MAX.first_on([Tue].into()), None);
}

#[test]
fn days_until() {
    assert_eq!(WeekdaySet::from([Thu]).days_until(Thu), Some(0));
    assert_eq!(WeekdaySet::from([Wed]).days_until(Thu), Some(6));
    assert_eq!(WeekdaySet::from([Mon, Sun]).days_until(Thu), Some(3));
    assert_eq!(WeekdaySet::from([Mon]).days_until(Sun), Some(1));
    assert_eq!(WeekdaySet::default().days_until(Mon), None);
}

/// Dates and their texts.
const DATE_TEXTS: [(i32, &str); 8] = [
    (738_945, "2024-02-29"),
    (1, "0001-01-01"),
    (0, "0000-12-31"),
    (-366, "-0001-12-31"),
    (3_652_059, "9999-12-31"),
    (3_652_060, "+10000-01-01"),
    (-95_746_129, "-262143-01-01"),
    (95_745_399, "+262142-12-31"),
];

#[test]
fn write_date() {
    for (number, text) in DATE_TEXTS {
        assert_eq!(dated(number).to_string(), text);
        assert_eq!(format!("{:?}", dated(number)), text);
        assert_eq!(format!("{:>15}", dated(number)), format!("{text:>15}"));
    }
}

#[test]
fn read_date() {
    for (number, text) in DATE_TEXTS {
        assert_eq!(text.parse(), Ok(dated(number)));
    }
    for text in [
        "",
        "2024",
        "2024-02-2",
        "2024-02-290",
        " 2024-02-29",
        "2024-02-29 ",
        "2024-02-29\0",
        "2024-2-29",
        "2024-02-30",
        "2023-02-29",
        "2024/02/29",
        "2024-02-2:",
        "24-02-29",
        "+2024-02-29",
        "-0000-01-01",
        "02024-02-29",
        "10000-01-01",
        "+262143-01-01",
        "-262144-12-31",
        "-4294965272-02-29",
        "2024-13-29",
        "20240229",
        "2024-060",
        "2024-W09-4",
        "٢٠٢٤-02-29",
    ] {
        let refused = text.parse::<Date>().unwrap_err();
        assert_eq!(refused.to_string(), "no text of a date", "{text}");
    }
}

#[test]
fn date_time_new() {
    assert_eq!(DateTime::new(Date::UNIX_EPOCH, 0, 0), Some(moment(0, 0)));
    assert_eq!(
        DateTime::new(dated(719_162), 86_399, 999_999_999),
        Some(moment(-1, 999_999_999))
    );
    assert_eq!(
        DateTime::new(ymd(2016, 12, 31), 86_399, 1_999_999_999),
        Some(moment(LAST_SECOND, 1_999_999_999))
    );
    assert_eq!(
        DateTime::new(Date::MIN, 0, 0),
        Some(moment(-8_334_601_228_800, 0))
    );
    assert_eq!(
        DateTime::new(Date::MAX, 86_399, 1_000_000_000),
        Some(moment(8_210_266_876_799, 1_000_000_000))
    );
    for (second, nanos) in [
        (86_400, 0),
        (0, 1_000_000_000),
        (58, 1_999_999_999),
        (59, 2_000_000_000),
        (u32::MAX, 0),
        (0, u32::MAX),
    ] {
        assert_eq!(DateTime::new(Date::UNIX_EPOCH, second, nanos), None);
    }
}

#[test]
fn date_time_date() {
    assert_eq!(moment(0, 0).date(), Date::UNIX_EPOCH);
    assert_eq!(moment(-1, 0).date(), ymd(1969, 12, 31));
    assert_eq!(moment(LAST_SECOND, 1_500_000_000).date(), ymd(2016, 12, 31));
    assert_eq!(moment(-8_334_601_228_800, 0).date(), Date::MIN);
    assert_eq!(moment(8_210_266_876_799, 1_999_999_999).date(), Date::MAX);
    for (seconds, nanos) in [
        (-8_334_601_228_801, 0),
        (8_210_266_876_800, 0),
        (0, 1_000_000_000),
        (59, 2_000_000_000),
        (0, u32::MAX),
        (i64::MIN, 0),
        (i64::MAX, 0),
    ] {
        assert_eq!(DateTime::from_seconds(seconds, nanos), None);
    }
}

#[test]
fn date_time_second_of_day() {
    for (seconds, nanos, second_of_day, clock) in [
        (0, 0, 0, [0, 0, 0, 0]),
        (-1, 7, 86_399, [23, 59, 59, 7]),
        (3_661, 1, 3_661, [1, 1, 1, 1]),
        (
            LAST_SECOND,
            1_500_000_000,
            86_399,
            [23, 59, 60, 500_000_000],
        ),
        (LAST_SECOND, 1_000_000_000, 86_399, [23, 59, 60, 0]),
        (
            LAST_SECOND,
            1_999_999_999,
            86_399,
            [23, 59, 60, 999_999_999],
        ),
        (LAST_SECOND, 999_999_999, 86_399, [23, 59, 59, 999_999_999]),
    ] {
        let shown = moment(seconds, nanos);
        assert_eq!(shown.second_of_day(), second_of_day);
        assert_eq!(
            [
                shown.hour(),
                shown.minute(),
                shown.second(),
                shown.nanosecond()
            ],
            clock
        );
        let [hour, minute, second, nanosecond] = clock;
        assert_eq!(
            shown.date().at(hour, minute, second, nanosecond),
            Some(shown)
        );
        assert_eq!((shown.seconds(), shown.nanos()), (seconds, nanos));
    }
    for [hour, minute, second, nanosecond] in [
        [24, 0, 0, 0],
        [0, 60, 0, 0],
        [0, 0, 61, 0],
        [0, 0, 0, 1_000_000_000],
        [0, 0, 59, 1_000_000_000],
        [0, 0, 60, 1_000_000_000],
        [u32::MAX; 4],
    ] {
        assert_eq!(Date::UNIX_EPOCH.at(hour, minute, second, nanosecond), None);
    }
}

#[test]
fn date_time_add() {
    let inside = moment(LAST_SECOND, 1_500_000_000);
    for (start, length, end) in [
        (inside, 300_000_000, moment(LAST_SECOND, 1_800_000_000)),
        (inside, 500_000_000, moment(LAST_SECOND + 1, 0)),
        (inside, -1_000_000_000, moment(LAST_SECOND, 500_000_000)),
        (inside, -500_000_000, moment(LAST_SECOND, 1_000_000_000)),
        (
            moment(LAST_SECOND, 500_000_000),
            1_000_000_000,
            moment(LAST_SECOND + 1, 500_000_000),
        ),
        (moment(0, 0), -1_500_000_000, moment(-2, 500_000_000)),
    ] {
        assert_eq!(start.checked_add(nanoseconds(length)), Some(end));
        assert_eq!(start.checked_sub(nanoseconds(-length)), Some(end));
    }
    let (first, last) = (
        moment(-8_334_601_228_800, 0),
        moment(8_210_266_876_799, 999_999_999),
    );
    assert_eq!(
        first.checked_add(nanoseconds(16_544_868_105_599_999_999_999)),
        Some(last)
    );
    assert_eq!(last.checked_add(nanoseconds(1)), None);
    assert_eq!(first.checked_sub(nanoseconds(1)), None);
    assert_eq!(first.checked_add(nanoseconds(LONGEST)), None);
}

#[test]
fn date_time_since() {
    let inside = moment(LAST_SECOND, 1_500_000_000);
    for (end, base, length) in [
        (moment(1, 0), moment(0, 1), 999_999_999),
        (moment(0, 0), moment(1, 500_000_000), -1_500_000_000),
        (inside, moment(LAST_SECOND, 0), 1_500_000_000),
        (moment(LAST_SECOND, 0), inside, -1_500_000_000),
        (
            moment(LAST_SECOND - 60, 1_500_000_000),
            moment(LAST_SECOND - 59, 0),
            -500_000_000,
        ),
        (
            moment(LAST_SECOND - 58, 0),
            moment(LAST_SECOND - 60, 1_500_000_000),
            1_500_000_000,
        ),
        (moment(LAST_SECOND + 1, 0), inside, -500_000_000),
        (
            moment(8_210_266_876_799, 0),
            moment(-8_334_601_228_800, 0),
            16_544_868_105_599_000_000_000,
        ),
    ] {
        assert_eq!(end - base, nanoseconds(length));
    }
}

/// The fields of date-times, and their texts.
const DATE_TIME_TEXTS: [(i64, u32, &str); 8] = [
    (0, 0, "1970-01-01T00:00:00"),
    (-1, 500_000_000, "1969-12-31T23:59:59.500"),
    (0, 1_000, "1970-01-01T00:00:00.000001"),
    (0, 1, "1970-01-01T00:00:00.000000001"),
    (LAST_SECOND, 1_000_000_000, "2016-12-31T23:59:60"),
    (LAST_SECOND, 1_999_999_999, "2016-12-31T23:59:60.999999999"),
    (-8_334_601_228_800, 0, "-262143-01-01T00:00:00"),
    (
        8_210_266_876_799,
        999_999_999,
        "+262142-12-31T23:59:59.999999999",
    ),
];

#[test]
fn write_date_time() {
    for (seconds, nanos, text) in DATE_TIME_TEXTS {
        assert_eq!(moment(seconds, nanos).to_string(), text);
        assert_eq!(format!("{:?}", moment(seconds, nanos)), text);
        assert_eq!(
            format!("{:>35}", moment(seconds, nanos)),
            format!("{text:>35}")
        );
    }
}

#[test]
fn read_date_time() {
    for (seconds, nanos, text) in DATE_TIME_TEXTS {
        assert_eq!(text.parse(), Ok(moment(seconds, nanos)));
    }
    assert_eq!(
        "2024-02-29 12:00:00.25".parse(),
        Ok(moment(1_709_208_000, 250_000_000))
    );
    for text in [
        "",
        "2024-02-29",
        "2024-02-29T",
        "2024-02-29T12:00",
        "2024-02-29t12:00:00",
        "2024-02-29T24:00:00",
        "2024-02-29T12:60:00",
        "2024-02-29T12:00:61",
        "2024-02-29T12:00:00.",
        "2024-02-29T12:00:00.1234567890",
        "2024-02-29T12:00:00Z",
        "2024-02-29T12:00:00\0",
        "2024-02-30T12:00:00",
        "+262143-01-01T00:00:00",
    ] {
        let refused = text.parse::<DateTime>().unwrap_err();
        assert_eq!(refused.to_string(), "no text of a date-time", "{text}");
    }
}

#[test]
fn numbers() {
    for number in [Date::MIN.number(), -1, 0, 1, Date::MAX.number()] {
        assert_eq!(dated(number).number(), number);
    }
    for number in [-95_746_130, 95_745_400, i32::MIN, i32::MAX] {
        assert_eq!(Date::from_number(number), None);
    }
    assert_eq!(Date::MAX - Date::MIN, 191_491_528);
    assert_eq!(Date::MIN - Date::MAX, -191_491_528);
    assert!(Date::MIN < ymd(0, 12, 31) && ymd(0, 12, 31) < Date::MAX);
    assert!(moment(0, 999_999_999) < moment(1, 0) && moment(59, 1_999_999_999) < moment(60, 0));
    assert_eq!(size_of::<Date>(), 4);
}

#[test]
fn weekdays() {
    for (number, weekday) in (1..).zip(Weekday::ALL) {
        assert_eq!(weekday.number(), number);
        assert_eq!(Weekday::from_number(number), Some(weekday));
        assert!(!WeekdaySet::default().contains(weekday));
        assert!(WeekdaySet::from([weekday, weekday]).contains(weekday));
        assert!(
            !WeekdaySet::from_iter(Weekday::ALL.into_iter().filter(|&it| it != weekday))
                .contains(weekday)
        );
        for other in Weekday::ALL {
            assert_eq!(
                WeekdaySet::from([other]).contains(weekday),
                other == weekday
            );
        }
    }
    for number in [0, 8, u32::MAX] {
        assert_eq!(Weekday::from_number(number), None);
    }
}

#[test]
fn durations() {
    for count in [
        0,
        1,
        -1,
        1_000_000_000,
        -1_000_000_000,
        1_500_000_000,
        -1_500_000_000,
        LONGEST,
        -LONGEST,
    ] {
        assert_eq!(nanoseconds(count).nanoseconds(), count);
        assert_eq!((-nanoseconds(count)).nanoseconds(), -count);
        assert_eq!(
            nanoseconds(count).checked_add(-nanoseconds(count)),
            Some(Duration::ZERO)
        );
    }
    assert_eq!(
        Duration::from_seconds(-2),
        Some(nanoseconds(-2_000_000_000))
    );
    assert_eq!(Duration::from_seconds(i64::MAX), None);
    assert_eq!(Duration::from_nanoseconds(LONGEST + 1), None);
    assert_eq!(Duration::from_nanoseconds(-LONGEST - 1), None);
    assert_eq!(nanoseconds(LONGEST).checked_add(nanoseconds(1)), None);
    assert!(
        nanoseconds(-1) < Duration::ZERO && nanoseconds(1_500_000_000) < nanoseconds(2_000_000_000)
    );
}

/// A column: the known days, numbers just beyond the dates, and others that are none.
const COLUMN: [i32; 17] = {
    let mut column = [columns::NO_DATE; 17];
    let mut at = 0;
    while at < DAYS.len() {
        column[at] = DAYS[at].0;
        at += 1;
    }
    column[13] = -95_746_130;
    column[14] = 95_745_400;
    column[15] = i32::MAX;
    column
};

/// What a column function writes for the column, beside the answer for each date; `none` stands for no date.
fn compare_column<T: Copy + PartialEq + std::fmt::Debug>(
    none: T,
    found: [T; 17],
    wanted: impl Fn(Date) -> Option<T>,
) {
    let wanted = COLUMN.map(|it| Date::from_number(it).and_then(&wanted).unwrap_or(none));
    assert_eq!(found, wanted);
}

#[test]
fn split() {
    for (number, year, [month, day, _], ..) in DAYS {
        assert_eq!(dated(number).year_month_day(), (year, month, day));
    }
}

#[test]
fn column_weekdays() {
    let mut found = [9; 17];
    columns::weekdays(&COLUMN, &mut found);
    compare_column(0, found, |it| Some(it.weekday().number() as u8));
}

#[test]
fn column_years() {
    let mut found = [9; 17];
    columns::years(&COLUMN, &mut found);
    compare_column(columns::NO_DATE, found, |it| Some(it.year()));
}

#[test]
fn column_ordinals() {
    let mut found = [9; 17];
    columns::ordinals(&COLUMN, &mut found);
    compare_column(0, found, |it| Some(it.ordinal() as u16));
}

#[test]
fn column_split() {
    let (mut years, mut months, mut days) = ([9; 17], [9; 17], [9; 17]);
    columns::split(&COLUMN, &mut years, &mut months, &mut days);
    compare_column(columns::NO_DATE, years, |it| Some(it.year()));
    compare_column(0, months, |it| Some(it.month() as u8));
    compare_column(0, days, |it| Some(it.day() as u8));
}

#[test]
fn column_iso_weeks() {
    let (mut years, mut weeks) = ([9; 17], [9; 17]);
    columns::iso_weeks(&COLUMN, &mut years, &mut weeks);
    compare_column(columns::NO_DATE, years, |it| Some(it.iso_year()));
    compare_column(0, weeks, |it| Some(it.iso_week() as u8));
}

#[test]
fn column_join() {
    let mut found = [9; 4];
    columns::join(
        &[2024, 2023, -262_143, 1],
        &[2, 2, 1, 13],
        &[29, 29, 1, 1],
        &mut found,
    );
    let none = columns::NO_DATE;
    assert_eq!(found, [738_945, none, Date::MIN.number(), none]);
}

#[test]
fn column_add_days() {
    let mut found = [9; 17];
    columns::add_days(&COLUMN, -1, &mut found);
    compare_column(columns::NO_DATE, found, |it| {
        number(it.checked_add_days(-1))
    });
}

#[test]
fn column_add_days_in_place() {
    let mut found = COLUMN;
    columns::add_days_in_place(&mut found, 400);
    compare_column(columns::NO_DATE, found, |it| {
        number(it.checked_add_days(400))
    });
}

#[test]
fn column_add_days_each() {
    let mut found = [9; 3];
    columns::add_days_each(&[1, 1, 95_745_399], &[-1, i32::MIN, 1], &mut found);
    assert_eq!(found, [0, columns::NO_DATE, columns::NO_DATE]);
}

#[test]
fn column_add_days_each_in_place() {
    let mut found = [1, 95_745_399];
    columns::add_days_each_in_place(&mut found, &[737_790, 1]);
    assert_eq!(found, [737_791, columns::NO_DATE]);
}

#[test]
fn column_add_months() {
    let mut found = [9; 17];
    columns::add_months(&COLUMN, 12, &mut found);
    compare_column(columns::NO_DATE, found, |it| {
        number(it.checked_add_months(12))
    });
}

#[test]
fn column_add_months_in_place() {
    let mut found = COLUMN;
    columns::add_months_in_place(&mut found, -1);
    compare_column(columns::NO_DATE, found, |it| {
        number(it.checked_add_months(-1))
    });
}

#[test]
fn column_days_between() {
    let mut found = [9; 17];
    columns::days_between(&COLUMN, &[Date::UNIX_EPOCH; 17], &mut found);
    compare_column(columns::NO_DATE, found, |it| Some(it - Date::UNIX_EPOCH));
}

#[test]
fn column_first_on() {
    let mut found = [9; 17];
    let weekend = WeekdaySet::from([Sat, Sun]);
    columns::first_on(&COLUMN, weekend, &mut found);
    compare_column(columns::NO_DATE, found, |it| number(it.first_on(weekend)));
}

#[test]
fn column_from_unix_days() {
    let mut found = [9; 4];
    columns::from_unix_days(&[0, -719_162, i64::MIN, 95_026_237], &mut found);
    assert_eq!(found, [719_163, 1, columns::NO_DATE, columns::NO_DATE]);
}

#[test]
fn column_to_unix_days() {
    let mut found = [9; 17];
    columns::to_unix_days(&COLUMN, &mut found);
    compare_column(i64::MIN, found, |it| Some(i64::from(it - Date::UNIX_EPOCH)));
}

#[test]
fn column_write_dates() {
    let mut found = [[9; 10]; 17];
    columns::write_dates(&COLUMN, &mut found);
    compare_column([0; 10], found, |it| {
        it.to_string().as_bytes().try_into().ok()
    });
}

#[test]
fn column_read_dates() {
    let mut found = [9; 3];
    columns::read_dates(&[*b"2024-02-29", *b"2023-02-29", [0; 10]], &mut found);
    assert_eq!(found, [738_945, columns::NO_DATE, columns::NO_DATE]);
}

#[test]
fn column_count_dates() {
    assert_eq!(columns::count_dates(&COLUMN), 12);
    assert_eq!(columns::count_dates(&[] as &[Date]), 0);
    assert_eq!(columns::dates(&COLUMN), None);
    let dates = columns::dates(&COLUMN[..12]).unwrap();
    assert_eq!(
        dates.iter().map(|it| it.number()).collect::<Vec<_>>(),
        COLUMN[..12]
    );
    let mut years = [9; 12];
    columns::years(dates, &mut years);
    assert_eq!(years, DAYS.map(|it| it.1));
}

#[test]
#[should_panic(expected = "the columns have different lengths")]
fn columns_of_different_lengths() {
    columns::years(&[Date::MIN], &mut [0; 2]);
}
