#!/usr/bin/env python3
"""Holds the instants of calendars' texts to dateutil's rules over local times, in zones near their changes.

    python3 -m checks.zones.calendar_rules [--seed N] [--cases N]      (seed 1 and 600 cases, if left out)

A case is a text with DTSTART in a zone, a random RRULE with times of day, and at times UNTIL or COUNT, RDATE and EXDATE. The start lies some days
before a change of the zone's offset. `calendar_text` reads the text and `calendar_rules` makes a recurrence of it. The instants from four hours
before the change on are asked for, at most twelve. The wanted ones are those of checks/zones/zoned_rules.py: local times by dateutil, instants by
Python's zoneinfo and RFC 5545, 3.3.5. Of the texts of rules some are wrong: they have to be refused for the reason that is wanted.
`rt try` runs a small program unproved, in a copy of the crates. A second comparison with one answer changed has to find that answer.
20,000 cases take a quarter of an hour.
"""
import argparse
import datetime
import itertools
import random
import tempfile
import zoneinfo

from checks.zones.zoned_rules import DAY, EPOCH, HOUR, QUARTER, UNITS, Known, ahead, instances, seconds_of
from checks.zones.zoned_schedules import MAIN, end
from debian import restart_without
from repositories import answers_in_parts, put_program

try:
    import dateutil.rrule
except ImportError:
    dateutil = None

# The lines of one run.
LINES = 100
# COUNT is at most this: each answer counts from the start.
MOST_COUNTED = 100
MOST = 12
ZONES = (("Australia/Lord_Howe", 2023), ("America/New_York", 2023), ("Antarctica/Troll", 2023), ("Europe/Berlin", 2023), ("Africa/Casablanca", 2012),
         ("Pacific/Apia", 2011), ("America/St_Johns", 2006), ("Europe/Dublin", 2023), ("Asia/Gaza", 2023), ("America/Havana", 2023))
# Rules that are wrong, and the error of each.
WRONG = (
    ("FREQ=DAILY;BYHOUR=24", "Part(ByHour)"), ("FREQ=DAILY;BYHOUR=-1", "Part(ByHour)"), ("FREQ=DAILY;BYMINUTE=60", "Part(ByMinute)"),
    ("FREQ=DAILY;BYSECOND=61", "Part(BySecond)"), ("FREQ=DAILY;BYHOUR=1;BYHOUR=2", "Part(ByHour)"), ("FREQ=DAILY;BYMINUTE=", "Part(ByMinute)"),
    ("FREQ=DAILY;UNTIL=20241231", "Until"), ("FREQ=DAILY;UNTIL=20241231T000000", "Until"), ("BYHOUR=3", "Frequency"), ("FREQ=DAILY;FREQ=HOURLY", "Frequency"),
    ("FREQ=DAILY;COUNT=2;UNTIL=20241231T000000Z", "Until"), ("FREQ=HOURLY;BYWEEKNO=3", "NotTogether"), ("FREQ=MINUTELY;BYDAY=1MO", "NotTogether"),
    ("FREQ=SECONDLY;BYMONTH=1;BYSETPOS=1", "NotTogether"), ("FREQ=MONTHLY;BYDAY=MO;BYHOUR=1;BYSETPOS=1", "NotTogether"),
    ("FREQ=WEEKLY;BYMONTHDAY=1;BYHOUR=2", "Days(RuleError { part: Some(ByMonthDay), byte: 12, fault: NotWith(Weekly) })"),
)
PROGRAM = r'''//! Answers `ZONE START TEXT`, with `|` for each line break of the text, by the first instants from START on.
#![tactic(auto)]

use calendar_rules::{read_calendar_text, recurrence_of};
use chrono_instant::Timestamp;
use std::io::{self, BufRead, BufReader};
use zone_database::{Zone, system_database};
use zoned_rules::InZone;

''' + MAIN + r'''
fn answer(rt: &HostRuntime, zone: &Zone, words: &str) -> io::Result<()> {
    let (start, line) = words.split_once(' ').unwrap_or((words, ""));
    let (mut text, mut unfolded, mut rule) = ([0; 1024], [0; 1024], [0; 1024]);
    let mut len = 0;
    for byte in line.as_bytes() {
        if len < 1024 {
            text[len] = if *byte == b'|' { b'\n' } else { *byte };
            len += 1;
        }
    }
    let Some(before) = zone.timestamp_opt(start.parse().unwrap_or(0) - 1, 0) else {
        return println!(rt; "= no start");
    };
    let (mut dates, mut exceptions) = ([before; 4], [before; 4]);
    let calendar = match read_calendar_text(&text[..len], &mut unfolded) {
        Ok(calendar) => calendar,
        Err(error) => return println!(rt; "= {error:?}"),
    };
    match recurrence_of(calendar, zone, &mut rule, &mut dates, &mut exceptions) {
        Ok(set) => {
            print!(rt; "=")?;
            let mut from = before;
            for _ in 0..MOST {
                let Some(next) = set.next_after(from) else {
                    return println!(rt; " none");
                };
                print!(rt; " {}", next.timestamp())?;
                from = next;
            }
            println!(rt; "")
        }
        Err(error) => println!(rt; "= {error:?}"),
    }
}
'''.replace("MOST", str(MOST))


def changes():
    """Each zone with its changes in two years."""
    for name, first in ZONES:
        zone = zoneinfo.ZoneInfo(name)
        start, stop = (seconds_of(datetime.datetime(it, 1, 1)) for it in (first, first + 2))
        walked = [(it, ahead(zone, it)) for it in range(start, stop, QUARTER)]
        known = Known(zone)
        yield from ((name, known, after[0]) for before, after in itertools.pairwise(walked) if before[1] != after[1])


def numbers_of(draw, choices, most):
    """Some numbers of a part in any order, or none."""
    return ",".join(map(str, draw.sample(choices, draw.randint(1, most)))) if draw.random() < 0.5 else ""


def rule_of(draw, day):
    """A rule of days, the numbers of its times of day, and its steps of the clock, if it has some. It has an instance near the day of a change."""
    lists = [draw.choice(["", "", f";BYDAY={','.join(draw.sample(['MO', 'TU', 'WE', 'TH', 'FR', 'SA', 'SU'], draw.randint(1, 6)))}"]),
             draw.choice(["", "", "", f";BYMONTHDAY={day.day},{draw.randint(1, 28)},-{draw.randint(1, 3)}"]),
             draw.choice(["", "", "", f";BYMONTH={day.month},{draw.randint(1, 12)}"])]
    hours = numbers_of(draw, [0, 1, 2, 3, 4, 12, 22, 23], 4)
    minutes = numbers_of(draw, [0, 1, 15, 29, 30, 45, 59], 3)
    seconds = numbers_of(draw, [0, 1, 30, 59], 2)
    if draw.random() < 0.45:
        unit = draw.choice("HHMMS")
        interval = {"H": draw.choice([1, 1, 2, 5, 6, 24, 25]), "M": draw.choice([10, 15, 30, 45, 90, 1501]), "S": draw.choice([900, 1800, 3601])}[unit]
        return (f"FREQ=DAILY{''.join(lists)}", hours, minutes, seconds, f"{unit}{interval}")
    freq = draw.choice([f"DAILY;INTERVAL={draw.choice([1, 2, 3])}", "DAILY", "WEEKLY", "MONTHLY"])
    if freq == "WEEKLY":
        lists[1] = ""
    return (f"FREQ={freq}{''.join(lists)}", hours, minutes, seconds)


def written_rule(draw, rule):
    """The parts of the rule's text, in any order and in letters of either case, but FREQ, which stands in front."""
    text, hours, minutes, seconds = rule[:4]
    parts = [f"{name}={numbers}" for name, numbers in (("BYHOUR", hours), ("BYMINUTE", minutes), ("BYSECOND", seconds)) if numbers]
    freq, *others = text.split(";")
    if rule[4:]:
        freq, others = f"FREQ={UNITS[rule[4][0]]}", [f"INTERVAL={rule[4][1:]}", *others]
    parts += others
    draw.shuffle(parts)
    return [freq.lower() if draw.random() < 0.1 else freq, *parts]


def basic(second):
    """A second as a calendar writes a time."""
    return (EPOCH + datetime.timedelta(seconds=second)).strftime("%Y%m%dT%H%M%S")


def folded(draw, line):
    """A line with a fold at a random place, at times."""
    at = draw.randint(1, len(line) - 1)
    return f"{line[:at]}| {line[at:]}" if draw.random() < 0.2 else line


def case(draw, name, known, change):
    """A question and its answer."""
    day = EPOCH + datetime.timedelta(seconds=change + ahead(known.zone, change))
    rule = rule_of(draw, day)
    start = (day - datetime.timedelta(days=draw.choice([0, 1, 2, 5]))).replace(hour=draw.choice([0, 1, 2, 3, 9, 23]), minute=draw.choice([0, 15, 30, 45]), second=draw.choice([0, 0, 30]))
    try:
        found = instances(known, rule, start, change + 3 * DAY)
    except ValueError:
        # (dateutil refuses an interval that never meets a list of the rule)
        return None
    parts, low = written_rule(draw, rule), change - 4 * HOUR
    bounded = [it for it in found if it < change + DAY]
    is_whole = False
    bound = draw.random()
    if bounded and bound < 0.25:
        last = bounded[-1] - draw.choice([0, 0, 1])
        parts.append(f"UNTIL={basic(last)}Z")
        found, is_whole = [it for it in bounded if it <= last], True
    elif 0 < len(bounded) <= MOST_COUNTED and bound < 0.4:
        parts.append(f"COUNT={len(bounded)}")
        found, is_whole = bounded, True
    lines = [f"DTSTART;TZID={name}:{start.strftime('%Y%m%dT%H%M%S')}", f"RRULE:{';'.join(parts)}"]
    near = [it for it in found if low <= it < change + DAY]
    if near and draw.random() < 0.4:
        out, beside = draw.choice(near), draw.choice(near) + 600
        local = out + ahead(known.zone, out)
        if known[local] == out and draw.random() < 0.5:
            lines.append(f"EXDATE;TZID={name}:{basic(local)}")
        else:
            lines.append(f"EXDATE:{basic(out)}Z")
        lines.append(f"RDATE:{basic(beside)}Z")
        found = sorted({*found, beside} - {out})
    listed = [it for it in found if low <= it < change + 2 * DAY][:MOST]
    if len(listed) < MOST and not is_whole:
        # (so that what lies behind the days that are known here is not asked for)
        return None
    draw.shuffle(lines)
    wanted = " ".join(map(str, listed)) + (" none" if len(listed) < MOST else "")
    return f"{name} {low} {'|'.join(folded(draw, it) for it in lines)}|", wanted.strip()


def wrong_rules():
    """A question and its answer for each rule that is wrong."""
    for rule, error in WRONG:
        yield f"Europe/Berlin 0 DTSTART;TZID=Europe/Berlin:20240101T090000|RRULE:{rule}|", f"Rule({error})"


def main():
    parser = argparse.ArgumentParser(description=__doc__.partition("\n")[0])
    parser.add_argument("--seed", type=int, default=1)
    parser.add_argument("--cases", type=int, default=600)
    options = parser.parse_args()
    restart_without(dateutil)
    if dateutil is None:
        print("not run: checks/zones/calendar_rules.py, which needs dateutil\n0 passed, 0 failed")
        return
    if not zoneinfo.available_timezones():
        print("not run: checks/zones/calendar_rules.py, which needs a database of time zones\n0 passed, 0 failed")
        return
    draw, found = random.Random(options.seed), list(changes())
    rows = [*wrong_rules()]
    while len(rows) < options.cases:
        made = case(draw, *draw.choice(found))
        rows += [made] if made else []
    with tempfile.TemporaryDirectory(prefix="calendar_rules-") as room:
        folder = put_program(room, "instants", ["chrono_instant", "zone_database", "zoned_rules", "calendar_rules"], PROGRAM)
        answers = [it.strip() for it in answers_in_parts(room, folder, [it for it, _ in rows], LINES)]
    print(f"{len(rows)} texts near {len(found)} changes of {len(ZONES)} zones, {sum(it.endswith('none') for _, it in rows)} of them with an end")
    end(rows, answers)


if __name__ == "__main__":
    main()
