#!/usr/bin/env python3
"""Refuses requests for memory while values are printed into texts that grow: each gives the whole text or an error.

    python3 -m checks.layers.memory

The tests below stand in a fresh repository beside copies of the libraries, and run unproved by `rt try --test --fail-alloc N`,
which refuses the N-th request of each test. Each text is printed once for each number of its bytes that there is room for at
first, so that every write in it is once the one that asks for more and is refused. A test passes if its text is whole, and is
refused if it ends by the error of the allocator; anything else, a text cut short above all, fails the check.
The errors of schedules and rules are printed for each fault, field and part. So a `Display` that fails for one of them is found.
That `caltool` itself takes no memory is tried in checks/programs/statuses.py.
"""
import os
import re
import shutil
import subprocess
import sys
import tempfile

from repositories import all_below, copy_crates, listed_crates

USED = ("chrono_datetime", "chrono_cron", "chrono_pattern", "chrono_rules")
# The requests that are refused: for the room, for more where there is some room, and one that no test makes.
FIRST, SECOND, NONE = 1, 2, 40
HEAD = """//! Values printed into texts that grow.
#![tactic(auto)]

#[cfg(test)]
mod tests {
    use chrono_cron::{ScheduleError, ScheduleFault, ScheduleField};
    use chrono_datetime::{Datelike, NaiveDate, NaiveDateTime, NaiveTime, OutOfRange, TimeDelta, Weekday, WeekdaySet};
    use chrono_pattern::{DelayedFormat, Pattern};
    use chrono_rules::{Frequency, RuleError, RuleFault, RulePart};
    use std::fmt::Write;
    use std::process::Abort;
    use std::test::Fail;

    fn delayed(rt: &impl Abort) -> DelayedFormat<'static> {
        let pattern = Pattern::new(b"%a, %F %T").ok().expect(rt, "a pattern");
        pattern.delayed(NaiveDateTime::MAX).expect(rt, "a text")
    }
"""
TEST = """
    #[test]
    fn {name}_in_{room}(rt: HostRuntime) -> Result<(), Fail> {{
        let mut text = String::with_capacity(rt.alloc(), {room})?;
        write!(text, "{form}", {values})?;
        assert_eq!(rt; text.as_str(), "{text}");
        Ok(())
    }}
"""
# Of each text: its name, the values that are printed, how, and what stands there then.
TEXTS = [
    ("weekdays", "Weekday::Mon, Weekday::Sun", "{} {:>10}", "Mon " + " " * 7 + "Sun"),
    ("sets", "WeekdaySet::ALL, WeekdaySet::ALL", "{} {:?}", "[Mon, Tue, Wed, Thu, Fri, Sat, Sun] WeekdaySet(1111111)"),
    ("refusals", "OutOfRange::new(), OutOfRange::new()", "{} {}", "out of range out of range"),
    ("durations", "TimeDelta::MIN, TimeDelta::MAX", "{} {}", "-PT9223372036854775.807S PT9223372036854775.807S"),
    ("times", "NaiveTime::MIN, NaiveTime::MAX", "{} {:?}", "00:00:00 23:59:59.999999999"),
    ("dates", "NaiveDate::MIN, NaiveDate::MAX", "{} {:?}", "-262143-01-01 +262142-12-31"),
    ("iso_weeks", "NaiveDate::MIN.iso_week(), NaiveDate::MAX.iso_week()", "{:?} {:?}", "-262143-W01 +262143-W01"),
    ("date_times", "NaiveDateTime::MIN, NaiveDateTime::MAX", "{} {:?}",
     "-262143-01-01 00:00:00 +262142-12-31T23:59:59.999999999"),
    ("patterns", "delayed(&rt)", "{}", "Mon, +262142-12-31 23:59:59"),
]
# What an error of a schedule says of each field and of each fault, and an error of a rule of each part and of each fault.
FIELDS = {"Minute": "minute", "Hour": "hour", "Day": "day of the month", "Month": "month", "Weekday": "weekday"}
SCHEDULE_FAULTS = {
    "Empty": "nothing stands there", "TooFewFields": "too few fields", "TooManyFields": "too many fields",
    "UnknownNickname": "an unknown nickname", "Interval": "an interval, which is no schedule",
    "Reboot": "the start of a machine, which is no schedule", "TimeZone": "a time zone, which no schedule has",
    "UnknownName": "an unknown name", "LongName": "a name of more than three letters", "NotANumber": "no number of one digit or two",
    "OutOfRange": "a number that is out of range", "RangeTurnedRound": "a range whose end is below its beginning",
    "StepOfZero": "a step of 0", "StepOfNumber": "a step behind a number alone",
}
PARTS = ["Freq", "Interval", "Count", "Until", "ByMonth", "ByMonthDay", "ByDay", "ByYearDay", "ByWeekNo", "BySetPos", "Wkst"]
RULE_FAULTS = {
    "Unknown": "unknown part", "OfHours": "BYHOUR: not in rules over days", "OfMinutes": "BYMINUTE: not in rules over days",
    "OfSeconds": "BYSECOND: not in rules over days", "Extension": "an X- part, which is not read",
    "OfCalendars": "RSCALE: not in rules of RFC 5545", "OfSkips": "SKIP: not in rules of RFC 5545", "Blank": "a blank",
    "Missing": "missing", "Twice": "stands twice", "Empty": "empty", "NotAFrequency": "not DAILY, WEEKLY, MONTHLY or YEARLY",
    "NotANumber": "not a number", "Range": "a range; list each with commas", "OutOfRange": "number out of range",
    "NotADate": "not a date as 19971224", "WithTime": "a time stands behind the date", "NotAWeekday": "not a weekday as MO",
    "BesideCount": "does not go with COUNT", "NumbersBesideWeeks": "number does not go with BYWEEKNO",
    "Alone": "needs another BY part",
} | {
    f"{fault}(Frequency::{name})": f"{text} {name.upper()}"
    for fault, text in (("NotWith", "does not go with"), ("NumbersNotWith", "number does not go with"))
    for name in ("Daily", "Weekly", "Monthly", "Yearly")
}


def schedule_error(field, byte, fault):
    field = f"Some(ScheduleField::{field})" if field else "None"
    return f"ScheduleError {{ field: {field}, byte: {byte}, fault: ScheduleFault::{fault} }}"


def rule_error(part, fault):
    part = f"Some(RulePart::{part})" if part else "None"
    return f"RuleError {{ part: {part}, byte: 0, fault: RuleFault::{fault} }}"


# Each field and part with one fault, and each fault with one field or part and with none.
ERRORS = [
    *((schedule_error(field, 7, "Empty"), f"{text}, byte 7: nothing stands there") for field, text in FIELDS.items()),
    *((schedule_error(None, 10, fault), f"byte 10: {text}") for fault, text in SCHEDULE_FAULTS.items()),
    *((schedule_error("Day", 0, fault), f"day of the month, byte 0: {text}") for fault, text in SCHEDULE_FAULTS.items()),
    *((rule_error(part, "Empty"), f"{part.upper()}: empty") for part in PARTS),
    *((rule_error(None, fault), text) for fault, text in RULE_FAULTS.items()),
    *((rule_error("ByDay", fault), f"BYDAY: {text}") for fault, text in RULE_FAULTS.items()),
]
TEXTS += [
    ("errors", f"{rule_error('ByMonthDay', 'NotWith(Frequency::Weekly)')}, {schedule_error('Month', 12, 'StepOfZero')}", "{} {}",
     "BYMONTHDAY: does not go with WEEKLY month, byte 12: a step of 0"),
]
# Each test: its text, and for how many bytes there is room at first. Of the errors one by one there is room for none.
TESTS = [(text, room) for text in TEXTS for room in range(len(text[-1]))]
TESTS += [((f"error_{k}", value, "{}", text), 0) for k, (value, text) in enumerate(ERRORS)]
# How `rt try` tells of a test, and what it says of one that ended by the allocator's error.
TOLD = re.compile(r"^test tests::(\w+) \.\.\. (ok|FAILED)\n((?:    .*\n)*)", re.M)
REFUSED = re.compile(r"    error: Alloc(Error|Failed)")


def make_repository(room):
    crates = listed_crates()
    libraries = all_below(USED, crates)
    copy_crates(room, libraries)
    os.makedirs(f"{room}/crates/printed/src")
    with open(f"{room}/crates.txt", "w", encoding="utf-8") as it:
        it.writelines(f"{name}: {' '.join(crates[name])}\n" for name in libraries)
        it.write(f"printed: {' '.join(USED)}\n")
    with open(f"{room}/crates/printed/src/lib.rt", "w", encoding="utf-8") as it:
        it.write(HEAD)
        it.writelines(
            TEST.format(name=name, values=values, form=form, text=text, room=room)
            for (name, values, form, text), room in TESTS
        )
        it.write("}\n")


def main():
    if not shutil.which("rt"):
        print("not run: there is no rt, the Rattle kit's command\n0 passed, 1 failed")
        return 1
    tests, passed, refused, failed = len(TESTS), 0, 0, 0
    with tempfile.TemporaryDirectory(prefix="memory-") as room:
        make_repository(room)
        for request in (FIRST, SECOND, NONE):
            words = ["rt", "try", "--test", "--seconds", "600", "--fail-alloc", str(request)]
            ran = subprocess.run(words, cwd=f"{room}/crates/printed", stdout=subprocess.PIPE, stderr=subprocess.STDOUT, text=True)
            told = TOLD.findall(ran.stdout)
            whole = sum(it[1] == "ok" for it in told)
            kept = sum(it[1] != "ok" and bool(REFUSED.match(it[2])) for it in told)
            passed, refused, failed = passed + whole + kept, refused + kept, failed + tests - whole - kept
            if whole + kept != tests or (kept == 0) != (request == NONE):
                others = [f"{name}: {said}" for name, how, said in told if how != "ok" and not REFUSED.match(said)]
                print(f"request {request} refused:\n{''.join(others)[:3000] or ran.stdout[-3000:]}")
                failed += whole + kept == tests
    print(f"{refused} requests for memory were refused in {tests} tests")
    print(f"{passed} passed, {failed} failed")
    return 1 if failed or not refused else 0


if __name__ == "__main__":
    sys.exit(main())
