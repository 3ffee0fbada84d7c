//! What the crate does besides calling the library: sums and texts of durations, names of weekdays, sets and ranges,
//! room.

use proved_calendar::{Date, DateRange, DateTime, Duration, Weekday, WeekdaySet};

const LONGEST: i128 = i64::MAX as i128 * 1_000_000;

fn nanoseconds(count: i128) -> Duration {
    Duration::from_nanoseconds(count).unwrap()
}

fn dated(number: i32) -> Date {
    Date::from_number(number).unwrap()
}

#[test]
fn room() {
    assert_eq!(size_of::<Option<DateTime>>(), size_of::<DateTime>());
    assert_eq!(size_of::<Option<Duration>>(), size_of::<Duration>());
    assert_eq!(
        (
            size_of::<Date>(),
            size_of::<DateTime>(),
            size_of::<Duration>()
        ),
        (4, 16, 16)
    );
}

#[test]
fn sums_of_durations() {
    let lengths = [1, -1_500_000_000, 2_000_000_000, 999_999_999].map(nanoseconds);
    assert_eq!(lengths.iter().sum::<Duration>(), nanoseconds(1_500_000_000));
    assert_eq!(
        lengths.into_iter().sum::<Duration>(),
        nanoseconds(1_500_000_000)
    );
    assert_eq!([].iter().sum::<Duration>(), Duration::ZERO);
    let mut length = nanoseconds(5);
    length += nanoseconds(7);
    assert_eq!(length, nanoseconds(12));
    length -= nanoseconds(20);
    assert_eq!(length, nanoseconds(-8));
    assert_eq!(nanoseconds(3) - nanoseconds(5), nanoseconds(-2));
    assert_eq!(nanoseconds(LONGEST).checked_sub(nanoseconds(-1)), None);
    assert_eq!(nanoseconds(-LONGEST).checked_sub(nanoseconds(1)), None);
}

#[test]
#[should_panic(expected = "the sum of two durations is too long")]
fn too_long_a_sum() {
    let _ = nanoseconds(LONGEST) + nanoseconds(1);
}

#[test]
#[should_panic(expected = "the difference of two durations is too long")]
fn too_long_a_difference() {
    let _ = nanoseconds(-LONGEST) - nanoseconds(1);
}

#[test]
fn texts_of_durations() {
    for (count, text) in [
        (0, "P0D"),
        (1, "PT0.000000001S"),
        (-1, "-PT0.000000001S"),
        (60_000_000_000, "PT60S"),
        (-1_500_000_000, "-PT1.5S"),
        (1_010_000_000, "PT1.01S"),
        (LONGEST, "PT9223372036854775.807S"),
        (-LONGEST, "-PT9223372036854775.807S"),
        (1 - LONGEST, "-PT9223372036854775.806999999S"),
    ] {
        assert_eq!(nanoseconds(count).to_string(), text);
        assert_eq!(format!("{:?}", nanoseconds(count)), text);
        assert_eq!(format!("{:>40}", nanoseconds(count)), format!("{text:>40}"));
        assert_eq!(text.parse(), Ok(nanoseconds(count)));
    }
    assert_eq!("PT1.500S".parse(), Ok(nanoseconds(1_500_000_000)));
    assert_eq!("PT007S".parse(), Ok(nanoseconds(7_000_000_000)));
    for text in [
        "",
        "P",
        "PT",
        "PTS",
        "PT1",
        "1S",
        "PT-1S",
        "--PT1S",
        "+PT1S",
        "PT1.S",
        "PT.5S",
        "PT1.0000000001S",
        "PT1.5.5S",
        "PT1s",
        " PT1S",
        "-P0D",
        "PT9223372036854775.807000001S",
        "PT9223372036854775808S",
        "PT99999999999999999999999999S",
    ] {
        let refused = text.parse::<Duration>().unwrap_err();
        assert_eq!(refused.to_string(), "no text of a duration", "{text}");
    }
}

#[test]
fn names_of_weekdays() {
    let names = [
        "Monday",
        "Tuesday",
        "Wednesday",
        "Thursday",
        "Friday",
        "Saturday",
        "Sunday",
    ];
    for (weekday, name) in Weekday::ALL.into_iter().zip(names) {
        assert_eq!(weekday.name(), name);
        assert_eq!(weekday.to_string(), name[..3]);
        assert_eq!(format!("{weekday:>5}"), format!("{:>5}", &name[..3]));
        for text in [
            name,
            &name[..3],
            &name.to_uppercase(),
            &name[..3].to_lowercase(),
        ] {
            assert_eq!(text.parse(), Ok(weekday));
        }
        for text in [
            &name[..2],
            &name[..4],
            &format!("{name} "),
            &format!("{name}s"),
        ] {
            assert_eq!(
                text.parse::<Weekday>().unwrap_err().to_string(),
                "no text of a weekday"
            );
        }
    }
    assert!("".parse::<Weekday>().is_err());
}

#[test]
fn members_of_sets() {
    for members in 0..128_u32 {
        let weekdays: Vec<Weekday> = (1..=7)
            .filter(|it| members >> (it - 1) & 1 == 1)
            .filter_map(Weekday::from_number)
            .collect();
        let set: WeekdaySet = weekdays.iter().copied().rev().collect();
        assert!(set.iter().eq(weekdays.iter().copied()));
        assert!(set.into_iter().rev().eq(weekdays.iter().rev().copied()));
        assert_eq!(
            (set.len(), set.iter().len(), set.is_empty()),
            (weekdays.len(), weekdays.len(), members == 0)
        );
        let mut extended = WeekdaySet::from([Weekday::Sun]);
        extended.extend(set);
        assert_eq!(
            extended,
            weekdays.into_iter().chain([Weekday::Sun]).collect()
        );
        let mut both = set.iter();
        let (first, last) = (both.next(), both.next_back());
        assert_eq!(
            both.len(),
            set.len() - usize::from(first.is_some()) - usize::from(last.is_some())
        );
    }
}

#[test]
fn ranges_of_dates() {
    let numbers = |dates: DateRange| dates.map(Date::number).collect::<Vec<i32>>();
    assert_eq!(numbers((dated(5)..dated(8)).into()), [5, 6, 7]);
    assert_eq!(numbers((dated(5)..=dated(8)).into()), [5, 6, 7, 8]);
    assert_eq!(numbers((dated(5)..=dated(5)).into()), [5]);
    assert_eq!(numbers((dated(5)..dated(5)).into()), []);
    assert_eq!(numbers((dated(8)..dated(5)).into()), []);
    assert_eq!(numbers((dated(8)..=dated(5)).into()), []);
    let whole = DateRange::from(Date::MIN..=Date::MAX);
    assert_eq!(
        (whole.len(), whole.clone().last()),
        (191_491_529, Some(Date::MAX))
    );
    assert_eq!(whole.clone().nth(191_491_528), Some(Date::MAX));
    assert_eq!(whole.clone().nth(191_491_529), None);
    assert_eq!(whole.clone().nth(usize::MAX), None);
    assert_eq!(whole.step_by(100_000_000).count(), 2);
    let mut short = DateRange::from(dated(5)..dated(8));
    assert_eq!(
        (short.clone().count(), short.clone().last()),
        (3, Some(dated(7)))
    );
    assert_eq!((short.nth(9), short.len(), short.next()), (None, 0, None));
    let mut both = DateRange::from(dated(5)..dated(9));
    assert_eq!(
        (both.next(), both.next_back(), both.len()),
        (Some(dated(5)), Some(dated(8)), 2)
    );
    assert!(
        both.contains(dated(6))
            && both.contains(dated(7))
            && !both.contains(dated(5))
            && !both.contains(dated(8))
    );
    assert_eq!(
        (
            both.next_back(),
            both.next_back(),
            both.next_back(),
            both.next()
        ),
        (Some(dated(7)), Some(dated(6)), None, None)
    );
}
