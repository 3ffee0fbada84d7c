#!/usr/bin/env python3
"""Holds timed_cron to croniter, which reads schedules with seconds too.

    python3 -m checks.layers.timed_schedules [--cases N] [--seed N]      (5,000 cases from seed 1, if left out)

A case is a text of six fields with seconds in front, a start, and the next or the last second at which the schedule is due. The starts are due
seconds, seconds beside them, and others of 30 years. croniter 1.3.5, Debian's, takes the seconds as the last of its six fields, so its text is
another one. Three habits of croniter are known, and no case has what they are about:

  - It lets either field of days do unless one of them is `*`. Here one that begins with `*`, such as `*/2`, restricts nothing: both have to match.
  - It takes a field of days that lists all its numbers, such as `0,1-6`, for `*`. Here only `*` is one, as in cronie.
  - It looks 50 years ahead at most. A schedule that is due on no day is asked of the library alone, which has to say `none`.

A fourth is decided case by case: its `get_prev` can pass over the 29th of February, though its own `match` says that the schedule is due there.

Quartz has no peer here that reads all of it. So its texts, with years or without, are held to days that this script goes through one by one. The
script reads the numbers of each field for itself, from 1 for Sunday. Where a text has only what croniter knows, croniter is asked too, of a text
that lists each number, and of each year by itself. The script has to tell the right answers from those of five wrong readings of Quartz.
Texts that no dialect reads, or that one does not, are asked for their errors.

`rt try` runs a small program unproved, in a copy of the crates.
"""
import argparse
import calendar
import datetime
import random
import tempfile

from checks.zones.zoned_schedules import end
from debian import restart_without
from repositories import answers_in_parts, put_program

try:
    from croniter import croniter
except ImportError:
    croniter = None

# The lines of one run.
LINES = 1_000
FIRST, LAST = (calendar.timegm((year, 1, 1, 0, 0, 0)) for year in (2000, 2030))
FIELDS = ((0, 59), (0, 59), (0, 23), (1, 31), (1, 12), (0, 6))
NEVER = ("0 0 0 30 2 *", "*/5 * * 31 4,6 *", "59 59 23 31 11 *")
PROGRAM = r'''//! Answers questions on schedules with seconds, a line each.
#![tactic(auto)]

use chrono_datetime::NaiveDateTime;
use chrono_instant::{FromTimestamp, Timestamp};
use std::io::{self, BufRead, BufReader};
use timed_cron::{Dialect, read_timed_schedule};

fn main(rt: HostRuntime) -> io::Result<()> {
    for line in BufReader::new(rt.alloc(), rt.reader())?.lines(rt.alloc()) {
        let line = line?;
        let (call, words) = line.as_str().split_once(' ').unwrap_or((line.as_str(), ""));
        let (start, text) = words.split_once(' ').unwrap_or((words, ""));
        answer(&rt, call, start.parse().unwrap_or(0), text)?;
    }
    Ok(())
}

// Answers `CALL START SCHEDULE`, where `reads` asks for no time. A dialect stands in front of the call, unless it is that with seconds.
fn answer(rt: &HostRuntime, call: &str, start: i64, text: &str) -> io::Result<()> {
    let (dialect, call) = match call.split_once('-') {
        Some(("quartz", call)) => (Dialect::Quartz, call),
        Some(("robfig", call)) => (Dialect::Robfig, call),
        Some(("crontab", call)) => (Dialect::Crontab, call),
        _ => (Dialect::Seconds, call),
    };
    if call == "reads" {
        return println!(rt; "= {}", read_timed_schedule(dialect, text.as_bytes()).is_ok());
    }
    let schedule = match read_timed_schedule(dialect, text.as_bytes()) {
        Ok(schedule) => schedule,
        Err(error) => return println!(rt; "= {error}"),
    };
    let Some(start) = NaiveDateTime::from_timestamp(start, 0) else {
        return println!(rt; "= no start");
    };
    let found = match call {
        "next" => schedule.next_after(start),
        _ => schedule.prev_before(start),
    };
    match found {
        Some(moment) => println!(rt; "= {} {}", moment.timestamp(), schedule.is_due(moment)),
        None => println!(rt; "= none"),
    }
}
'''


def item(random_, low, high):
    """An item of a field: a number, a range, or either by steps."""
    first = random_.randint(low, high)
    last = random_.randint(first, high)
    step = random_.randint(1, high - low + 1)
    # (croniter reads a range from a number to itself as the number, and steps behind it as another thing)
    return random_.choice([str(first), f"{first}-{last}" if first < last else str(first), f"{first}-{last}/{step}" if first < last else str(first)])


def field(random_, low, high, wide):
    """A field: `*`, every so many, or a list."""
    if random_.random() < wide:
        return "*"
    if random_.random() < 0.2:
        return f"*/{random_.randint(1, (high - low) // 2 + 1)}"
    return ",".join(item(random_, low, high) for _ in range(random_.choice((1, 1, 2, 3))))


def text_of(random_):
    """A text of six fields in which a field of days is `*`, or neither begins with it."""
    wide = (0.2, 0.3, 0.4, 0.6, 0.7, 0.7)
    fields = [field(random_, *ends, part) for ends, part in zip(FIELDS, wide)]
    for at in (3, 5):
        while fields[at].startswith("*/") or fields[at] != "*" and lists_all(fields[at], *FIELDS[at]):
            fields[at] = item(random_, *FIELDS[at])
    return " ".join(fields)


def lists_all(field_, low, high):
    """Whether a field of numbers and ranges lists all its numbers."""
    listed = set()
    for it in field_.split(","):
        span, _, step = it.partition("/")
        first, last = (int(end) for end in (span.split("-") * 2)[:2])
        listed |= set(range(first, last + 1, int(step or 1)))
    return len(listed) == high - low + 1


def answer_of(call, start, text):
    """croniter's answer, of the text with its seconds behind."""
    second, _, rest = text.partition(" ")
    walk = croniter(f"{rest} {second}", start, max_years_between_matches=50)
    return int(walk.get_next(float) if call == "next" else walk.get_prev(float))


def cases(count, random_):
    """Cases, each with croniter's answer."""
    while count > 0:
        text, start = text_of(random_), random_.randrange(FIRST, LAST)
        try:
            due = answer_of("next", start, text)
        except Exception:  # (croniter finds none)
            continue
        for call, at in (("next", start), ("prev", start), ("next", due), ("prev", due), ("next", due - 1), ("prev", due + 1)):
            try:
                yield f"{call} {at} {text}", f"{answer_of(call, at, text)} true"
            except Exception:
                continue
            count -= 1


def is_leap_day(question, answer):
    """Whether an answer to `prev` is on a 29th of February, and due by croniter's own test."""
    call, _, text = question.split(" ", 2)
    second, _, rest = text.partition(" ")
    if call != "prev" or not answer.endswith(" true"):
        return False
    at = datetime.datetime.fromtimestamp(int(answer.split()[0]), datetime.timezone.utc)
    return (at.month, at.day) == (2, 29) and croniter.match(f"{rest} {second}", at)


NAMES = {name: number for names in (("SUN", "MON", "TUE", "WED", "THU", "FRI", "SAT"), calendar.month_abbr[1:]) for number, name in enumerate(names, 1)}
NAMES = {name.upper(): number for name, number in NAMES.items()}
QUARTZ = ((0, 59), (0, 59), (0, 23), (1, 31), (1, 12), (1, 7), (1970, 2099))
DAY_NAMES = ("L", "LW", "L-3", "L-30", "15W", "1W", "31W", "30W")
WEEKDAY_NAMES = ("L", "6L", "1L", "SATL", "6#3", "1#5", "MON#1", "7#2")
# Readings of Quartz that are wrong, each of which has to change an answer.
WRONG = ("Sunday is 0", "a year is passed over", "? is a number", "L-3 counts from the first", "the last year is left out")


def quartz_item(random_, low, high, by_name):
    """An item of a field of Quartz. Years do not come round."""
    first, last = random_.randint(low, high), random_.randint(low, high)
    if high > 100:
        first, last = sorted((random_.randint(1999, 2035), random_.randint(1999, 2035)))
    shown = [next((name for name, k in NAMES.items() if k == it and (len(NAMES) - 12 if high == 12 else 0) <= list(NAMES).index(name) < (19 if high == 12 else 7)), it)
             if by_name and random_.random() < 0.3 else it for it in (first, last)]
    step = random_.choice(("", "", f"/{random_.randint(1, 12)}"))
    return random_.choice((f"{shown[0]}", f"{shown[0]}{step}", f"{shown[0]}-{shown[1]}{step}", f"*{step or '/3'}"))


def quartz_text(random_):
    """A text of Quartz, of six fields or seven."""
    fields = []
    for place, (low, high) in enumerate(QUARTZ):
        wide = (0.1, 0.2, 0.3, 0.4, 0.6, 0.4, 0.2)[place]
        fields.append("*" if random_.random() < wide else ",".join(quartz_item(random_, low, high, place in (4, 5)) for _ in range(random_.choice((1, 1, 1, 2)))))
    if random_.random() < 0.25:
        fields[3] = random_.choice(DAY_NAMES)
    if random_.random() < 0.35:
        fields[5] = random_.choice(WEEKDAY_NAMES)
    fields[random_.choice((3, 5))] = "?"
    return " ".join(fields[: random_.choice((6, 7))])


def listed_by(field_, low, high, wrong):
    """The numbers that a field of Quartz lists."""
    def number(text):
        return NAMES[text.upper()] if text.upper() in NAMES else int(text)

    if field_ == "?":
        return set(range(low, high + 1)) if wrong != "? is a number" else {low}
    size, listed = high - low + 1, set()
    for it in field_.split(","):
        span, _, step = it.partition("/")
        first, _, last = (str(low), "-", str(high)) if span == "*" else span.partition("-")
        first, last = number(first), number(last) if last else high if step else number(first)
        listed |= {low + (first - low + k) % size for k in range(0, (last - first) % size + 1, int(step or 1))}
    return listed


def nearest_workday(day):
    """The workday of the same month that is nearest to a day."""
    near = (day + datetime.timedelta(k) for k in (0, -1, 1, -2, 2))
    return next(it for it in near if it.month == day.month and it.weekday() < 5)


def is_named(day, names, weekday_names, wrong):
    """Whether a day is the one that the field of days names, or that which the field of weekdays does; None where a field names none."""
    last = calendar.monthrange(day.year, day.month)[1]
    if names == "LW":
        return day == nearest_workday(day.replace(day=last))
    if names == "L" or names.startswith("L-"):
        back = int(names[2:] or 0)
        return day.day == (last - back if wrong != "L-3 counts from the first" or not back else back)
    if names.endswith("W"):
        return int(names[:-1]) <= last and day == nearest_workday(day.replace(day=int(names[:-1])))
    if weekday_names == "L":
        return day.weekday() == 5
    weekday, sharp, nth = weekday_names.partition("#")
    weekday = weekday if sharp else weekday.removesuffix("L")
    place = NAMES[weekday] if weekday in NAMES else int(weekday)
    is_place = day.isoweekday() % 7 + (wrong != "Sunday is 0") == place
    return is_place and ((day.day - 1) // 7 + 1 == int(nth) if sharp else day.day + 7 > last)


class Walked:
    """A schedule with its seconds, minutes and hours in order, which is found day by day."""

    def found(self, call, start):
        """The first due second after a start or the last before it, among 12 years; None if there is none."""
        moment = datetime.datetime.fromtimestamp(start, datetime.timezone.utc).replace(tzinfo=None)
        seconds, minutes, hours = self.times
        times = [datetime.time(h, m, s) for h in hours for m in minutes for s in seconds] if call == "next" else [
            datetime.time(h, m, s) for h in hours[::-1] for m in minutes[::-1] for s in seconds[::-1]]
        for k in range(366 * 12):
            day = moment.date() + datetime.timedelta(k if call == "next" else -k)
            if not self.has(day):
                continue
            for time in times:
                due = datetime.datetime.combine(day, time)
                if (due > moment if call == "next" else due < moment):
                    return calendar.timegm(due.timetuple())
        return None


class Quartz(Walked):
    """A text of Quartz, read by this script."""

    def __init__(self, text, wrong=None):
        fields, self.wrong = text.split(), wrong
        self.times = [sorted(listed_by(it, *ends, wrong)) for it, ends in zip(fields[:3], QUARTZ)]
        self.months = listed_by(fields[4], *QUARTZ[4], wrong)
        self.days, self.weekdays = fields[3], fields[5]
        self.is_named = self.days in DAY_NAMES or self.weekdays in WEEKDAY_NAMES
        if not self.is_named:
            self.listed = listed_by(self.days, *QUARTZ[3], wrong), listed_by(self.weekdays, *QUARTZ[5], wrong)
        self.years = listed_by(fields[6], *QUARTZ[6], wrong) if len(fields) > 6 else None
        if self.years and wrong == "a year is passed over":
            self.years -= {min(self.years)}
        if self.years and wrong == "the last year is left out":
            self.years -= {max(self.years)}

    def has(self, day):
        """Whether it is due on a day."""
        if self.years is not None and day.year not in self.years or day.month not in self.months:
            return False
        if self.is_named:
            return is_named(day, self.days if self.days in DAY_NAMES else "", self.weekdays, self.wrong)
        weekday = day.isoweekday() % 7 + (self.wrong != "Sunday is 0")
        return day.day in self.listed[0] and weekday in self.listed[1]


def croniter_text(text):
    """The text that croniter reads as that of Quartz, but for its years; None if it knows no such text."""
    fields = text.split()[:6]
    if fields[3] in DAY_NAMES[1:] or fields[5] in WEEKDAY_NAMES:
        return None
    shown = [",".join(map(str, sorted(listed_by(it, *ends, None)))) for it, ends in zip(fields, QUARTZ) if it != "L"]
    day = "l" if fields[3] == "L" else "*" if fields[3] == "?" else shown[3]
    month, weekday = shown[-2:]
    weekday = "*" if fields[5] == "?" else ",".join(str(int(it) - 1) for it in weekday.split(","))
    if day != "*" and weekday != "*":
        return None
    return f"{shown[1]} {shown[2]} {day} {month} {weekday} {shown[0]}"


def quartz_cases(count, random_):
    """Cases of Quartz, each with the answer of this script, and whether croniter has another."""
    while count > 0:
        text, start = quartz_text(random_), random_.randrange(FIRST, LAST)
        schedule = Quartz(text)
        due = schedule.found("next", start)
        starts = [start] if due is None else [start, due, due - 1, due + 1]
        for call in ("next", "prev"):
            for at in starts:
                answer = schedule.found(call, at)
                # (None may be later than the script looks)
                if answer is None and schedule.years is None or answer is None and due is None and max(schedule.years) - 2030 > -12:
                    continue
                if answer is None and not is_out(schedule, call, at):
                    continue
                yield f"quartz-{call} {at} {text}", "none" if answer is None else f"{answer} true"
                count -= 1


def is_out(schedule, call, start):
    """Whether no year of a schedule is left on that side of a start but those that were looked at."""
    year = datetime.datetime.fromtimestamp(start, datetime.timezone.utc).year
    return all(abs(it - year) < 11 or (it < year) == (call == "next") for it in schedule.years)


def croniter_differs(question, answer):
    """Whether croniter finds another second than the answer to `next` of Quartz, where it knows the text and the year is the start's or the next."""
    call, start, text = question.split(" ", 2)
    shown = croniter_text(text)
    if call != "quartz-next" or shown is None or answer == "none":
        return False
    due, start = int(answer.split()[0]), int(start)
    year = datetime.datetime.fromtimestamp(due, datetime.timezone.utc).year
    begin = max(start, calendar.timegm((year, 1, 1, 0, 0, 0)) - 1)
    return int(croniter(shown, begin).get_next(float)) != due


# What each dialect says of texts that it does not read.
ERRORS = (
    ("quartz", "0 0 12 * * ? 2100", "year, byte 13: a number that is out of range"),
    ("quartz", "0 0 12 * * ? 1969-2000", "year, byte 13: a number that is out of range"),
    ("quartz", "0 0 12 * * ? 2030-2020", "year, byte 18: a range whose end is below its beginning"),
    ("quartz", "0 0 12 * * *", "weekday, byte 11: not just one field of days is ?"),
    ("quartz", "0 0 12 ? * ? 2024", "weekday, byte 11: not just one field of days is ?"),
    ("quartz", "0 0 12 ? * 0", "weekday, byte 11: a number that is out of range"),
    ("quartz", "0 0 12 ? * 8L", "weekday, byte 11: a number that is out of range"),
    ("quartz", "0 0 12 ? * 6#6", "weekday, byte 13: a number that is out of range"),
    ("quartz", "0 0 12 ? * MON,FOO", "weekday, byte 15: an unknown name"),
    ("quartz", "0 0 12 L-31 * ?", "day of the month, byte 9: a number that is out of range"),
    ("quartz", "0 0 12 32W * ?", "day of the month, byte 7: a number that is out of range"),
    ("quartz", "0 0 12 1,L * ?", "day of the month, byte 9: an unknown name"),
    ("quartz", "? 0 12 * * ?", "second, byte 0: no number of one digit or two"),
    ("quartz", "0 0/0 12 * * ?", "minute, byte 4: a step of 0"),
    ("quartz", "0 0 12 * JANUARY ?", "month, byte 9: a name of more than three letters"),
    ("quartz", "0 0 12 * *", "byte 10: too few fields"),
    ("quartz", "0 0 12 * * ? 2024 1", "byte 18: too many fields"),
    ("quartz", "@daily", "byte 0: an unknown nickname"),
    ("quartz", "60 61 24 32 13 8 1", "second, byte 0: a number that is out of range"),
    *((dialect, f"{front} 0 0 12 * * ?", f"byte 0: {fault}") for dialect in ("quartz", "seconds")
      for front, fault in (("CRON_TZ=UTC", "a time zone, which no schedule has"), ("TZ=UTC", "a time zone, which no schedule has"),
                           ("@reboot", "the start of a machine, which is no schedule"), ("@every", "an interval, which is no schedule"))),
    ("crontab", "CRON_TZ=UTC @daily", "byte 0: a time zone, which no schedule has"),
    ("crontab", "@reboot", "byte 0: the start of a machine, which is no schedule"),
    ("crontab", "@every 5m", "byte 0: an interval, which is no schedule"),
    ("seconds", "0 0 12 * * 2024-2026", "weekday, byte 11: no number of one digit or two"),
)


def found_out(rows):
    """The wrong readings of Quartz that change no answer."""
    asked = [(it.removeprefix("quartz-").split(" ", 2), answer) for it, answer in rows if it.startswith("quartz-")]
    for wrong in WRONG:
        if not any(f"{Quartz(text, wrong).found(call, int(start))} true" != answer for (call, start, text), answer in asked[:600]):
            yield wrong


def differing(rows, answers):
    """What is answered otherwise, and is not decided for the library."""
    return [f"{it}: {a}, not {b}" for (it, b), a in zip(rows, answers) if a != b and not is_leap_day(it, a)]


def main():
    parser = argparse.ArgumentParser(description=__doc__.partition("\n")[0])
    parser.add_argument("--cases", type=int, default=5_000)
    parser.add_argument("--quartz", type=int, default=3_000, help="how many cases of Quartz")
    parser.add_argument("--seed", type=int, default=1)
    options = parser.parse_args()
    restart_without(croniter)
    if croniter is None:
        print("not run: checks/layers/timed_schedules.py, which needs python3-croniter\n0 passed, 0 failed")
        return
    rows = [*cases(options.cases, random.Random(options.seed)), *((f"{call} {FIRST} {text}", "none") for text in NEVER for call in ("next", "prev"))]
    quartz = list(quartz_cases(options.quartz, random.Random(options.seed)))
    unlike = [f"{it}: croniter has not {answer}" for it, answer in quartz if croniter_differs(it, answer)]
    unlike += [f"{it}: changes no answer" for it in found_out(quartz)]
    rows += [*quartz, *((f"{dialect}-next 0 {text}", error) for dialect, text, error in ERRORS)]
    with tempfile.TemporaryDirectory(prefix="timed_schedules-") as room:
        folder = put_program(room, "timed", ["chrono_datetime", "chrono_instant", "timed_cron"], PROGRAM)
        answers = [it.strip() for it in answers_in_parts(room, folder, [it for it, _ in rows], LINES)]
    wrong = differing(rows, answers)
    print(f"{sum(a != b for (_, b), a in zip(rows, answers)) - len(wrong)} answers on a 29th of February that croniter passes over")
    print(f"croniter was asked for {sum(croniter_text(it.split(' ', 2)[2]) is not None for it, _ in quartz)} answers of Quartz too")
    end(rows, answers, others=unlike, find=differing)


if __name__ == "__main__":
    main()
