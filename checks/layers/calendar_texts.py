#!/usr/bin/env python3
"""Holds the reading and the writing of calendars' texts to an own reader, to icalendar and to dateutil, on random texts.

    python3 -m checks.layers.calendar_texts [--seed N] [--texts N]      (seed 1 and 4,000 texts, if left out)

A text has DTSTART, and mostly RRULE, RDATE and EXDATE, in any order, with folds at any place. Half of the texts have a byte changed, left out
or put in. The wanted answer is this file's own: the parts, or the byte of the first error and its reason. What is read is written and folded
again, and has to be the lines that this file makes. icalendar and dateutil read each text that has no byte changed, if they are there, and
have to find the same times. The reasons of differences stand in the tables below. `rt try` runs a small program unproved, in a copy of the
crates. A second comparison with one answer changed has to find that answer.
"""
import argparse
import random
import re
import tempfile

from checks.layers.patterns import differing
from debian import restart_without
from repositories import answers_in_parts, put_program

try:
    import icalendar
except ImportError:
    icalendar = None
try:
    import dateutil.rrule
except ImportError:
    dateutil = None

# The lines of one run: what `rt try` hands on has at most a mebibyte.
LINES = 1_000
LONGEST = 75
ZONES = (b"Europe/Berlin", b"America/New_York", b"Asia/Tokyo", b"Australia/Lord_Howe")
# Names that no other program is asked about: of one byte, with blanks, with bytes of UTF-8, and longer than a line.
ODD_ZONES = (b"Z", b"W. Europe Standard Time", "Zürich".encode(), b"/example.org/" + b"Long/" * 14 + b"Name")
RULES = (b"FREQ=DAILY", b"FREQ=WEEKLY;BYDAY=MO,WE,FR;WKST=SU", b"FREQ=MONTHLY;BYDAY=-1FR;COUNT=10", b"FREQ=YEARLY;BYMONTH=3;BYDAY=-1SU",
         b"FREQ=DAILY;UNTIL=20301224T000000Z", b"FREQ=MONTHLY;BYMONTHDAY=" + b",".join(b"%d" % n for n in range(1, 29)))
NAMES = {b"DTSTART": "start", b"RRULE": "rule", b"RDATE": "dates", b"EXDATE": "exceptions"}
# Bytes that are put in.
NEAR = b"\r\n \t:;,=\"0159ATZaz-+/\x7f\xc3\x00"
PROGRAM = r'''//! Reads texts of calendars, a line of hexadecimal digits each, and writes them again.
#![tactic(auto)]

use calendar_text::{CalendarLines, CalendarTime, TimeList, fold, read_calendar_text, read_calendar_time};
use std::io::{self, BufRead, BufReader};

fn main(rt: HostRuntime) -> io::Result<()> {
    for line in BufReader::new(rt.alloc(), rt.reader())?.lines(rt.alloc()) {
        let line = line?;
        let mut text = [0; 4096];
        let len = decode(line.as_str().as_bytes(), &mut text);
        answer(&rt, &text[..len])?;
    }
    Ok(())
}

// The bytes that hexadecimal digits write.
fn decode(digits: &[u8], text: &mut [u8; 4096]) -> usize {
    let mut len = 0;
    while len < 4096 && 2 * len + 1 < digits.len() {
        text[len] = 16 * digit(digits[2 * len]) + digit(digits[2 * len + 1]);
        len += 1;
    }
    len
}

fn digit(byte: u8) -> u8 {
    if byte < b'a' { byte - b'0' } else { byte - b'a' + 10 }
}

fn answer(rt: &HostRuntime, text: &[u8]) -> io::Result<()> {
    let mut buffer = [0; 4096];
    let calendar = match read_calendar_text(text, &mut buffer) {
        Ok(calendar) => calendar,
        Err(error) => return println!(rt; "= {} {:?}", error.byte, error.fault),
    };
    print!(rt; "= ")?;
    print_time(rt, calendar.start)?;
    print_bytes(rt, calendar.zone)?;
    print_bytes(rt, calendar.rule)?;
    let (dates, date_count) = print_times(rt, calendar.dates)?;
    let (exceptions, exception_count) = print_times(rt, calendar.exceptions)?;
    let lines = CalendarLines {
        start: calendar.start,
        zone: calendar.zone,
        rule: calendar.rule,
        dates: &dates[..date_count],
        exceptions: &exceptions[..exception_count],
    };
    let mut plain = [0; 8192];
    let mut folded = [0; 8192];
    let Some(len) = lines.write(&mut plain) else {
        return println!(rt; "; no room");
    };
    match fold(&plain[..len], &mut folded) {
        Some(end) => print_bytes(rt, Some(&folded[..end]))?,
        None => print!(rt; "; no room")?,
    }
    println!(rt; "")
}

// Prints a time.
fn print_time(rt: &HostRuntime, time: CalendarTime) -> io::Result<()> {
    match time {
        CalendarTime::Date(date) => print!(rt; "{date:?} "),
        CalendarTime::Local(moment) => print!(rt; "{moment:?} "),
        CalendarTime::Utc(moment) => print!(rt; "{moment:?}Z "),
    }
}

// Prints bytes.
fn print_bytes(rt: &HostRuntime, bytes: Option<&[u8]>) -> io::Result<()> {
    print!(rt; "; ")?;
    let Some(bytes) = bytes else {
        return print!(rt; "none");
    };
    for byte in bytes {
        print!(rt; "{byte:02x}")?;
    }
    Ok(())
}

// Prints the times that a list has left, and keeps them.
fn print_times(rt: &HostRuntime, list: TimeList<'_>) -> io::Result<([CalendarTime; 64], usize)> {
    let Some(none) = read_calendar_time(b"20000101") else {
        return Err(io::ErrorKind::InvalidData.into());
    };
    let mut times = [none; 64];
    let mut count = 0;
    print!(rt; "; ")?;
    for time in list {
        print_time(rt, time)?;
        if count < 64 {
            times[count] = time;
            count += 1;
        }
    }
    Ok((times, count))
}
'''


class Wrong(Exception):
    """Where in the unfolded text an error is, and why."""


def unfold(text):
    """The unfolded text, and where each of its bytes stands in the text, and where the text ends."""
    kept, at = [], 0
    for found in re.finditer(rb"\r?\n[ \t]|\r\n", text):
        kept += range(at, found.start())
        if found[0] == b"\r\n":
            kept.append(found.start() + 1)
        at = found.end()
    kept += range(at, len(text))
    return bytes(text[it] for it in kept), [*kept, len(text)]


def is_day(year, month, day):
    """Whether there is the day."""
    if not 1 <= month <= 12:
        return False
    leap = year % 4 == 0 and (year % 100 != 0 or year % 400 == 0)
    return 1 <= day <= (31, 29 if leap else 28, 31, 30, 31, 30, 31, 31, 30, 31, 30, 31)[month - 1]


def time_of(word):
    """The kind of a time, its text in ISO 8601, and the text that is written for it; None if it is none."""
    found = re.fullmatch(rb"([0-9]{4})([0-9]{2})([0-9]{2})(?:[Tt]([0-9]{2})([0-9]{2})([0-9]{2})([Zz]?))?", word)
    if not found or not is_day(*(int(it) for it in found.groups()[:3])):
        return None
    year, month, day = (it.decode() for it in found.groups()[:3])
    if found[4] is None:
        return "date", f"{year}-{month}-{day}", f"{year}{month}{day}"
    hour, minute, second = (int(it) for it in found.groups()[3:6])
    if hour > 23 or minute > 59 or second > 60:
        return None
    second, utc = min(second, 59), "Z" if found[7] else ""
    return "utc" if utc else "local", f"{year}-{month}-{day}T{hour:02}:{minute:02}:{second:02}{utc}", f"{year}{month}{day}T{hour:02}{minute:02}{second:02}{utc}"


def parameters_of(head):
    """The name of the zone and the type of values that a line's parameters have."""
    name, *parameters = head.split(b";")
    at, zone, kind = len(name), None, None
    for it in parameters:
        at += 1
        if it[:5].upper() == b"TZID=":
            if zone is not None:
                raise Wrong(at, "ParameterTwice")
            if kind == b"DATE":
                raise Wrong(at, "ZoneOfDate")
            zone = it[5:]
            good = re.match(rb'[\t !#-+\--9<-~\x80-\xff]*', zone).end()
            if not zone or good < len(zone):
                raise Wrong(at + 5 + good, "NotAZoneName")
        elif it[:6].upper() == b"VALUE=":
            if kind is not None:
                raise Wrong(at, "ParameterTwice")
            kind = it[6:].upper()
            if kind == b"DATE" and zone is not None:
                raise Wrong(at, "ZoneOfDate")
            if kind not in (b"DATE", b"DATE-TIME"):
                raise Wrong(at + 6, "UnknownValueType")
        else:
            raise Wrong(at, "UnknownParameter")
        at += len(it)
    return zone, kind


def times_of(line, at, start, one):
    """The times of a line that begins at a byte, and its zone. The start is the zone and the kind of DTSTART's time; `one` asks for one time."""
    head, _, value = line.partition(b":")
    try:
        zone, kind = parameters_of(head)
    except Wrong as wrong:
        raise Wrong(at + wrong.args[0], wrong.args[1]) from None
    at, times = at + len(head) + 1, []
    for word in [value] if one else value.split(b","):
        time = time_of(word)
        if time is None:
            raise Wrong(at, "NotATime")
        if (time[0] == "date") != (kind == b"DATE") or (time[0] == "utc" and zone is not None):
            raise Wrong(at, "OtherKind")
        if time[0] == "local" and not one and start != (zone and zone.upper(), "local"):
            raise Wrong(at, "OtherZone")
        times.append(time)
        at += len(word) + 1
    return times, zone


def start_of(lines):
    """The zone of the first DTSTART and the kind of its time, as far as they can be told."""
    line = next((it for it in lines if re.match(b"[^:;]*", it)[0].upper() == b"DTSTART"), None)
    if line is None:
        return None
    head, _, value = line.partition(b":")
    zones = [it[5:] for it in head.split(b";")[1:] if it[:5].upper() == b"TZID="]
    time = time_of(value)
    return zones[0].upper() if zones else None, time and time[0]


def read(text):
    """The parts of an unfolded text."""
    lines = text.split(b"\n")
    start = start_of(lines)
    if start is None:
        raise Wrong(len(text), "NoStart")
    parts, at = {"dates": [], "exceptions": []}, 0
    for line in lines:
        if line:
            read_line(line, at, start, parts)
        at += len(line) + 1
    if "start" not in parts:
        raise Wrong(len(text), "NoStart")
    return parts


def read_line(line, at, start, parts):
    """Puts what a line has to the parts."""
    head, colon, value = line.partition(b":")
    if not colon:
        raise Wrong(at + len(line), "NoColon")
    name = NAMES.get(head.partition(b";")[0].upper())
    if name is None:
        raise Wrong(at, "UnknownProperty")
    if name in ("start", "rule") and name in parts:
        raise Wrong(at, "PropertyTwice")
    if name == "start":
        (parts["start"],), parts["zone"] = times_of(line, at, start, True)
    elif name == "rule":
        if b";" in head:
            raise Wrong(at + head.index(b";") + 1, "UnknownParameter")
        good = re.match(b"[0-9A-Za-z=;,+-]*", value).end()
        if not value or good < len(value):
            raise Wrong(at + len(head) + 1 + good, "NotARule")
        parts["rule"] = value
    else:
        parts[name] += times_of(line, at, start, False)[0]


def line_of(name, zone, time):
    """A line with a time."""
    kind, _, text = time
    parameter = b";VALUE=DATE" if kind == "date" else b";TZID=" + zone if kind == "local" and zone is not None else b""
    return name + parameter + b":" + text.encode()


def written(parts):
    """The lines that are to be written, folded."""
    lines = [line_of(b"DTSTART", parts["zone"], parts["start"])]
    if "rule" in parts:
        lines.append(b"RRULE:" + parts["rule"])
    lines += [line_of(b"RDATE", parts["zone"], it) for it in parts["dates"]] + [line_of(b"EXDATE", parts["zone"], it) for it in parts["exceptions"]]
    folded = b""
    for line in lines:
        folded += line[:LONGEST] + b"".join(b"\r\n " + line[at : at + LONGEST - 1] for at in range(LONGEST, len(line), LONGEST - 1)) + b"\r\n"
    return folded


def answer(text):
    """The wanted answer, and the parts if there are any."""
    unfolded, places = unfold(text)
    try:
        parts = read(unfolded)
    except Wrong as wrong:
        return f"{places[wrong.args[0]]} {wrong.args[1]}", None
    texts = [parts["start"][1], *("none" if it is None else it.hex() for it in (parts["zone"], parts.get("rule"))),
             *(" ".join(it[1] for it in parts[name]) for name in ("dates", "exceptions")), written(parts).hex()]
    return clean("; ".join(texts)), parts


def clean(told):
    """An answer with one blank at most between words."""
    return re.sub(" +", " ", told.replace(" ;", ";")).strip()


def some_case(luck, word):
    """A word, seldom in other cases."""
    return word if luck.random() < 0.8 else bytes(luck.choice((it, ord(chr(it).lower()))) for it in word)


def some_time(luck, kind):
    """A time of a kind."""
    day = b"%04d%02d%02d" % (luck.choice((1, 1970, 1997, 2024, 9999)), luck.randrange(1, 13), luck.randrange(1, 29))
    clock = b"T%02d%02d%02d" % (luck.randrange(24), luck.randrange(60), luck.randrange(60))
    return {"date": day, "local": day + clock, "utc": day + clock + b"Z"}[kind]


def some_parameters(luck, zone, kind):
    """The parameters of a time of a kind, in any order."""
    some = [some_case(luck, b"VALUE=DATE")] if kind == "date" else []
    if kind == "local" and zone is not None:
        some.append(some_case(luck, b"TZID=") + zone)
    if kind != "date" and luck.random() < 0.2:
        some.append(b"VALUE=DATE-TIME")
    luck.shuffle(some)
    return b"".join(b";" + it for it in some)


def some_text(luck, zones):
    """A text of a calendar."""
    zone, kind = luck.choice((None, *zones)), luck.choice(("date", "local", "local", "local", "utc"))
    lines = [some_case(luck, b"DTSTART") + some_parameters(luck, zone, kind) + b":" + some_time(luck, kind)]
    if luck.random() < 0.8:
        lines.append(some_case(luck, b"RRULE") + b":" + luck.choice(RULES))
    for name in (b"RDATE", b"EXDATE"):
        for _ in range(luck.choice((0, 0, 1, 1, 2))):
            of = luck.choice((kind, kind, kind, kind, "utc", "date"))
            times = b",".join(some_time(luck, of) for _ in range(luck.randrange(1, 5)))
            lines.append(some_case(luck, name) + some_parameters(luck, zone, of) + b":" + times)
    luck.shuffle(lines)
    return b"".join(with_folds(luck, it) + luck.choice((b"\r\n", b"\r\n", b"\n")) for it in lines)


def with_folds(luck, line):
    """A line with folds at some places."""
    for _ in range(luck.choice((0, 0, 1, 3))):
        at = luck.randrange(1, len(line))
        # (not within a fold that is there)
        if b"\n" not in line[max(0, at - 3) : at + 2]:
            line = line[:at] + luck.choice((b"\r\n ", b"\r\n\t", b"\n ", b"\n\t")) + line[at:]
    return line


def changed(luck, text):
    """A text with a byte changed, left out or put in, or with a line twice."""
    at = luck.randrange(len(text))
    some = bytes([luck.choice(NEAR)])
    return luck.choice((text[:at] + some + text[at + 1 :], text[:at] + text[at + 1 :], text[:at] + some + text[at:], text + text[: at // 2] + b"\r\n" + text))


def iso(time):
    """A date or date-time of Python as this file writes it. No zone of the texts has the offset of UTC."""
    text = time.isoformat()
    if "T" not in text or time.tzinfo is None:
        return text
    return text[:19] + ("" if time.utcoffset() else "Z")


def by_icalendar(text):
    """What icalendar finds: the start, and the times of the lists."""
    event = icalendar.Event.from_ical(b"BEGIN:VEVENT\r\n" + text + b"END:VEVENT\r\n")
    found = [[iso(event["DTSTART"].dt)]]
    for name in ("RDATE", "EXDATE"):
        some = event.get(name, [])
        found.append([iso(it.dt) for one in (some if isinstance(some, list) else [some]) for it in one.dts])
    return found


def by_dateutil(text):
    """What dateutil finds: the start, and the times of the lists."""
    rules = dateutil.rrule.rrulestr(text.decode(), unfold=True, forceset=True)
    return [[iso(rules._rrule[0]._dtstart)], [iso(it) for it in rules._rdate], [iso(it) for it in rules._exdate]]


def peers(texts, answers):
    """What the other readers find otherwise, of texts with no byte changed; how many were compared."""
    wrong, compared = [], 0
    for text, parts in zip(texts, answers):
        wanted = [[parts["start"][1]], [it[1] for it in parts["dates"]], [it[1] for it in parts["exceptions"]]]
        if icalendar:
            compared += 1
            if by_icalendar(text) != wanted:
                wrong.append(f"icalendar: {text}: {by_icalendar(text)}, not {wanted}")
        if dateutil and fits_dateutil(text, parts):
            compared += 1
            if by_dateutil(text) != wanted:
                wrong.append(f"dateutil: {text}: {by_dateutil(text)}, not {wanted}")
    return wrong, compared


def fits_dateutil(text, parts):
    """Whether dateutil reads the text. It needs a rule, takes no parameters but a zone, and none at RDATE. It unfolds a blank alone, and looks for
    the names of zones before that, in capital letters. Beside a start with no zone it takes no UNTIL in UTC.
    """
    kinds, zone = {it[0] for it in (parts["start"], *parts["dates"], *parts["exceptions"])}, parts["zone"]
    if "rule" not in parts or len(kinds) > 1 or b"\t" in text or b"VALUE" in unfold(text)[0].upper():
        return False
    named = unfold(text)[0].upper().count(b"TZID=")
    if zone is not None and (parts["dates"] or text.count(b"TZID=" + zone + b":") != named):
        return False
    return zone is not None or kinds == {"utc"} or b"UNTIL" not in parts["rule"]


def main():
    parser = argparse.ArgumentParser(description=__doc__.partition("\n")[0])
    parser.add_argument("--seed", type=int, default=1)
    parser.add_argument("--texts", type=int, default=4_000)
    options = parser.parse_args()
    restart_without(icalendar)
    luck = random.Random(options.seed)
    plain = [some_text(luck, ZONES) for _ in range(options.texts // 4)]
    texts = plain + [some_text(luck, ZONES + ODD_ZONES) for _ in range(options.texts // 4)]
    texts += [changed(luck, luck.choice(texts)) for _ in range(options.texts - len(texts))]
    wanted = [answer(it) for it in texts]
    with tempfile.TemporaryDirectory(prefix="calendar_texts-") as room:
        folder = put_program(room, "calendars", ["calendar_text"], PROGRAM)
        told = [clean(it) for it in answers_in_parts(room, folder, [it.hex() for it in texts], LINES)]
    wrong, compared = peers(plain, [parts for _, parts in wanted[: len(plain)]])
    own = differing(texts, told, [it for it, _ in wanted])
    changed_one = ["", *(it for it, _ in wanted[1:])]
    if len(differing(texts, told, changed_one)) != len(own) + (told[0] == wanted[0][0]):
        raise SystemExit("a changed answer is not found")
    for it in (own + wrong)[:20]:
        print(f"FAILED: {it[:600]}")
    print(f"{sum(parts is not None for _, parts in wanted)} of {len(texts)} texts are read; other readers were asked {compared} times")
    print(f"{len(texts) + compared - len(own) - len(wrong)} passed, {len(own) + len(wrong)} failed")
    raise SystemExit(bool(own or wrong))


if __name__ == "__main__":
    main()
