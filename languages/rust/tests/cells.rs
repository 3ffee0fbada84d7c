//! An example of each layer in Rust. What stands behind `=` is what its line prints. checks/packages/cells.py looks for these parts.

use proved_calendar::{columns, easter, BusinessCalendar, CalendarText, Date, DateTime, DayCount};
use proved_calendar::{Dialect, KnownCalendar, Pattern, Rule, RuleSet, Schedule, TimedSchedule};
use proved_calendar::{Weekday, WeekdaySet, Zone};

fn main() {
    let date = |text: &str| text.parse::<Date>().unwrap();
    let weekend = WeekdaySet::from([Weekday::Sat, Weekday::Sun]);

    // == texts read
    println!("{:?}", "2024-02-29".parse::<Date>().map(Date::day)); // = Ok(29)
    println!("{}", "2023-02-29".parse::<Date>().is_err()); // = true

    // == patterns
    let pattern: Pattern = "%d.%m.%Y".parse().unwrap();
    println!("{}", pattern.format_date(date("2024-02-29")).unwrap()); // = 29.02.2024

    // == schedules
    let schedule: Schedule = "30 4 1,15 * fri".parse().unwrap();
    let start: DateTime = "2024-02-09T04:30:00".parse().unwrap();
    println!("{}", schedule.next_after(start).unwrap()); // = 2024-02-15T04:30:00

    // == schedules in a zone
    let berlin: Zone = "CET-1CEST,M3.5.0,M10.5.0/3".parse().unwrap();
    let nightly: Schedule = "30 2 * * *".parse().unwrap();
    let start = berlin.of_local("2024-03-30T12:00:00".parse().unwrap());
    let night = nightly.next_in_zone(start.unwrap()).unwrap();
    println!("{night}"); // = 2024-03-31T03:00:00+02:00
    println!("{}", nightly.prev_in_zone(night).unwrap()); // = 2024-03-30T02:30:00+01:00

    // == schedules with seconds
    let quarters = TimedSchedule::new("*/15 30 4 * * *", Dialect::Seconds).unwrap();
    let later = quarters.next_after("2024-02-09T04:30:15".parse().unwrap());
    println!("{}", later.unwrap()); // = 2024-02-09T04:30:30

    // == recurrence rules
    let fridays: Rule = "FREQ=MONTHLY;BYDAY=-1FR".parse().unwrap();
    let start = date("2024-01-01");
    println!("{}", fridays.next_after(start, start).unwrap()); // = 2024-01-26
    let set = RuleSet::new().with_rule(fridays, start);
    let later = set
        .with_date(date("2024-02-01"))
        .next_after(date("2024-01-26"));
    println!("{}", later.unwrap()); // = 2024-02-01

    // == rules and calendars in a zone
    let text = "DTSTART;TZID=Europe/Berlin:20240330T023000\nRRULE:FREQ=DAILY\n";
    let daily = CalendarText::new(text, &berlin).unwrap();
    let first = daily
        .next_after("1970-01-01T00:00:00".parse().unwrap())
        .unwrap();
    println!("{first}"); // = 2024-03-30T02:30:00+01:00
    println!("{}", daily.next_after(first.utc()).unwrap()); // = 2024-03-31T03:30:00+02:00

    // == open days
    let days = [date("2024-03-29"), date("2024-04-01")];
    let calendar = BusinessCalendar::new(weekend, &days).unwrap();
    println!("{}", calendar.add_open_days(date("2024-03-28"), 2).unwrap()); // = 2024-04-03

    // == holidays
    let mut found = [Date::MIN; 20];
    let holidays = KnownCalendar::Target
        .holidays(2024..=2024, weekend, &mut found)
        .unwrap();
    println!("{}", holidays[1]); // = 2024-03-29

    // == Easter
    println!("{}", easter(2024).unwrap()); // = 2024-03-31

    // == day counts
    let part = DayCount::Actual360.fraction(date("2024-01-31"), date("2024-03-01"));
    println!("{}/{}", part.numerator, part.denominator); // = 30/360

    // == columns
    let mut moved = [0];
    columns::add_months(&[date("2024-01-31")], 1, &mut moved);
    println!("{}", Date::from_number(moved[0]).unwrap()); // = 2024-02-29

    // == zones
    let berlin: Zone = "CET-1CEST,M3.5.0,M10.5.0/3".parse().unwrap();
    let local: DateTime = "2024-10-27T02:30:00".parse().unwrap();
    println!("{:?}", berlin.offsets_of_local(local)); // = Two(7200, 3600)
}
