//! Compares the layers with the answers of other programs, in the file that PEER_ANSWERS names. checks/packages/peer_answers.py writes it.

use proved_calendar::{BusinessCalendar, Date, DateTime, Rule, Schedule, Weekday, WeekdaySet};

fn dated(number: &str) -> Date {
    Date::from_number(number.parse().unwrap()).unwrap()
}

fn dates(numbers: &str) -> Vec<Date> {
    numbers
        .split(',')
        .filter(|it| !it.is_empty())
        .map(dated)
        .collect()
}

fn seconds_of(found: Option<DateTime>) -> String {
    found.map_or_else(|| String::from("-"), |it| it.seconds().to_string())
}

fn number_of(found: Option<Date>) -> String {
    found.map_or_else(|| String::from("-"), |it| it.number().to_string())
}

/// Compares a schedule's next and last moment; how many answers croniter has.
fn schedule(fields: &[&str]) -> usize {
    let schedule: Schedule = fields[0].parse().unwrap();
    let start = DateTime::from_seconds(fields[1].parse().unwrap(), 0).unwrap();
    let (next, last) = (schedule.next_after(start), schedule.prev_before(start));
    assert_eq!(schedule.after(start).next(), next);
    // (croniter does not find 29 February backwards)
    let is_leap_day = last.is_some_and(|it| (it.date().month(), it.date().day()) == (2, 29));
    let mut count = 0;
    for (ours, theirs, is_left_out) in [(next, fields[2], false), (last, fields[3], is_leap_day)] {
        if theirs != "-" && !is_left_out {
            assert_eq!(seconds_of(ours), theirs, "{} at {start}", fields[0]);
            count += 1;
        }
    }
    count
}

/// Compares the instances of a rule.
fn rule(fields: &[&str]) -> usize {
    let rule: Rule = fields[0].parse().unwrap();
    let (start, day) = (dated(fields[1]), dated(fields[2]));
    assert_eq!(
        number_of(rule.next_after(start, day)),
        fields[3],
        "{rule} from {start} after {day}"
    );
    assert_eq!(
        number_of(rule.prev_before(start, day)),
        fields[4],
        "{rule} from {start} before {day}"
    );
    let wanted = dates(fields[5]);
    let found: Vec<Date> = rule.instances(start).take(wanted.len()).collect();
    assert_eq!(found, wanted, "{rule} from {start}");
    assert!(wanted.iter().all(|it| rule.is_instance(start, *it)));
    3
}

/// Compares moves and counts of open days.
fn open(fields: &[&str]) -> usize {
    let members: u8 = fields[0].parse().unwrap();
    let weekend: WeekdaySet = Weekday::ALL
        .into_iter()
        .filter(|it| members >> (it.number() - 1) & 1 == 1)
        .collect();
    let mut holidays = dates(fields[1]);
    holidays.retain(|it| !weekend.contains(it.weekday()));
    let calendar = BusinessCalendar::new(weekend, &holidays).unwrap();
    let (start, n) = (dated(fields[2]), fields[3].parse().unwrap());
    assert_eq!(
        calendar.add_open_days(start, n),
        Some(dated(fields[4])),
        "{start} and {n}"
    );
    let (first, last) = (dated(fields[5]), dated(fields[6]));
    assert_eq!(
        calendar.open_days(first, last).to_string(),
        fields[7],
        "{first} to {last}"
    );
    2
}

#[test]
fn answers_of_other_programs() {
    let path = std::env::var("PEER_ANSWERS").expect("PEER_ANSWERS names the file of the answers");
    let mut count = 0;
    for line in std::fs::read_to_string(path).unwrap().lines() {
        let fields: Vec<&str> = line.split('\t').collect();
        count += match fields[0] {
            "schedule" => schedule(&fields[1..]),
            "rule" => rule(&fields[1..]),
            "open" => open(&fields[1..]),
            kind => panic!("no answers are of the kind {kind}"),
        };
    }
    assert!(count >= 130_000, "{count} answers");
    println!("{count} answers of other programs");
}
