#!/usr/bin/env python3
"""Holds zone_table, zone_rule, zone_text, zone_file and zone to Python's zoneinfo, over all zones of the system's database.

    python3 -m checks.zones.zones [--seed N] [--lines N] [--mutated N]      (seed 1, 20,000 lines and 200,000 files, if left out)

Each zone's file is read by zone_file, which makes a table, and here once more. The text at its end is read by zone_text, which
makes the rule. Up to the last row an answer is asked of the table, from there on of the rule, and everywhere of the whole zone. An offset is that of zoneinfo at the instant. The offsets of a local time are
those of the zone's offsets at whose instant zoneinfo gives them again. The next and the previous change are read off the rows,
and zoneinfo has to change there. Rules are asked past the year 9999 and before it begins too, and so are texts made here at
random. For these a second reading counts days and tries nine years. It also says which texts and files with one byte changed are right. `rt try` runs a small program unproved, in a copy of the
crates: it answers the lines, and what differs is printed. A second run of the same lines with one answer changed has to find it.

Then benches/timed_zone reads files with up to four bytes changed, with all its checks at run time. None may stop it, and in each zone that
it makes of one an instant has to be among those of its own local time.
"""
import argparse
import datetime
import functools
import itertools
import os
import random
import re
import struct
import subprocess
import sys
import tempfile
import zoneinfo

from repositories import put_apart, put_program

UTC = datetime.timezone.utc
DAY = 86_400
# What zoneinfo has, two days from the ends of its years.
FIRST, LAST = -62_135_596_800 + 2 * DAY, 253_402_300_799 - 2 * DAY
# Zones whose files are changed: with rules north and south of the equator, and with one offset.
MUTATED = ("America/New_York", "Europe/Dublin", "Asia/Jerusalem", "Australia/Lord_Howe", "Asia/Tehran")
# About so many questions are asked in one run.
MOST_OF_PART = 10_000
PROGRAM = r'''//! Answers questions on zones, a line each.
#![tactic(auto)]

use std::io::{self, BufRead, BufReader};
use zone::Zone;
use zone_rule::{FixedOffset, MappedLocalTime, ZoneRule};
use zone_table::{Row, first_unordered, next_change, offset_of_instant, offsets_of_local, previous_change};
use zone_text::{ZoneText, read};

fn main(rt: HostRuntime) -> io::Result<()> {
    let utc = FixedOffset::east_opt(0).unwrap();
    let (mut first, mut rule, mut has_rule) = (utc, ZoneRule { standard: utc, daylight: None }, false);
    let (mut rows, mut bytes) = (Vec::new(rt.alloc()), Vec::new(rt.alloc()));
    for line in BufReader::new(rt.alloc(), rt.reader())?.lines(rt.alloc()) {
        let line = line?;
        let mut words = line.as_str().split_ascii_whitespace();
        let call = words.next().unwrap_or("");
        let number: i64 = words.next().unwrap_or("").parse().unwrap_or(0);
        match call {
            "file" => {
                has_rule = false;
                bytes.clear();
                for pair in line.as_str()[5..].as_bytes().chunks_exact(2) {
                    bytes.push(digit_of(pair[0]) * 16 + digit_of(pair[1]))?;
                }
                match zone_file::read(bytes.as_slice()) {
                    Ok(file) => {
                        rows.clear();
                        for _ in 0..file.places.len() {
                            rows.push(Row { second: 0, offset: utc })?;
                        }
                        let filled = file.read_rows(rows.as_mut_slice());
                        if filled.is_err() {
                            rows.clear();
                        }
                        first = file.kind(0).map(|kind| kind.offset).unwrap_or(utc);
                        print!(rt; "= {} {} {:?} {}", file.version, mark_of(file.footer), filled, rows_mark(rows.as_slice()))?;
                        for place in 0..(file.kinds.len() / 6).min(256) {
                            match file.kind(place as u8) {
                                Some(kind) => print!(rt; " {}/{}/{}", kind.offset.local_minus_utc(), kind.is_dst, mark_of(kind.name))?,
                                None => print!(rt; " none")?,
                            }
                        }
                        println!(rt; "")?
                    }
                    Err(error) => println!(rt; "= none {}", error.byte <= bytes.len())?,
                }
            }
            "whytext" => match read(line.as_str()[8..].as_bytes()) {
                Ok(_) => println!(rt; "= none")?,
                Err(error) => println!(rt; "= {:?} {}", error.fault, error.byte)?,
            },
            "whyfile" => {
                bytes.clear();
                for pair in line.as_str()[8..].as_bytes().chunks_exact(2) {
                    bytes.push(digit_of(pair[0]) * 16 + digit_of(pair[1]))?;
                }
                match zone_file::read(bytes.as_slice()) {
                    Ok(_) => println!(rt; "= none")?,
                    Err(error) => println!(rt; "= {:?} {}", error.fault, error.byte)?,
                }
            }
            "ordered" => println!(rt; "= {:?}", first_unordered(first, rows.as_slice()))?,
            "text" => match read(line.as_str()[5..].as_bytes()) {
                Ok(zone) => {
                    rule = zone.rule;
                    has_rule = true;
                    let text = zone.to_text();
                    let written = text.as_ref().map(|it| it.as_str()).unwrap_or("none");
                    println!(rt; "= {} {} {:?} {written}", name_of(zone.standard_name), name_of(zone.daylight_name), zone.rule)?
                }
                Err(error) => println!(rt; "= none {}", error.byte <= line.as_str().len() - 5)?,
            },
            "at" => {
                let shown = seconds_of(offsets_of_local(first, rows.as_slice(), number));
                println!(rt; "= {} {:?}", offset_of_instant(first, rows.as_slice(), number).local_minus_utc(), shown)?
            }
            "whole" => match Zone::new(first, rows.as_slice(), if has_rule { Some(rule) } else { None }) {
                Ok(zone) => {
                    let shown = seconds_of(zone.offsets_of_local(number));
                    println!(rt; "= {} {:?}", zone.offset_of_instant(number).local_minus_utc(), shown)?
                }
                Err(fault) => println!(rt; "= {fault:?}")?,
            },
            "changes" => println!(rt; "= {:?} {:?}", next_change(first, rows.as_slice(), number), previous_change(first, rows.as_slice(), number))?,
            _ => {
                let shown = seconds_of(rule.offsets_of_local(number));
                println!(rt; "= {} {:?}", rule.offset_of_instant(number).local_minus_utc(), shown)?
            }
        }
    }
    Ok(())
}

fn seconds_of(offsets: MappedLocalTime<FixedOffset>) -> (Option<i32>, Option<i32>) {
    match offsets {
        MappedLocalTime::None => (None, None),
        MappedLocalTime::Single(it) => (Some(it.local_minus_utc()), None),
        MappedLocalTime::Ambiguous(a, b) => (Some(a.local_minus_utc()), Some(b.local_minus_utc())),
    }
}

fn digit_of(byte: u8) -> u8 {
    if byte < 97 { byte - 48 } else { byte - 87 }
}

// A number that tells bytes apart.
fn mark_of(bytes: &[u8]) -> u64 {
    let mut mark = bytes.len() as u64;
    for byte in bytes {
        mark = mark.wrapping_mul(31).wrapping_add(u64::from(*byte));
    }
    mark
}

fn rows_mark(rows: &[Row]) -> i64 {
    let mut mark = 0i64;
    for row in rows {
        mark = mark.wrapping_mul(31).wrapping_add(row.second).wrapping_mul(31).wrapping_add(i64::from(row.offset.local_minus_utc()));
    }
    mark
}

fn name_of(bytes: &[u8]) -> &str {
    str::from_utf8(bytes).unwrap_or("?")
}
'''


def year_day(year):
    """The days from 1 January 1970 to 1 January of the year, in any year: by steps of 400 years, and then by datetime."""
    cycles, rest = divmod(year - 2000, 400)
    return (datetime.date(2000 + rest, 1, 1) - datetime.date(1970, 1, 1)).days + 146_097 * cycles


def year_of(second):
    cycles, rest = divmod(second // DAY - 10_957, 146_097)
    return (datetime.date(2000, 1, 1) + datetime.timedelta(days=rest)).year + 400 * cycles


@functools.cache
def days_of_month(year, month):
    """The days of the month, counted from 1 January as 0."""
    first = datetime.date(year, 1, 1)
    return [it for it in range(366) if (first + datetime.timedelta(days=it)).timetuple()[:2] == (year, month)]


class Rule:
    """A rule: two names, an offset, and an offset of daylight time with two changes, each a day as three numbers and a second."""

    NAME, SIZE, CHANGE = r"(?:<([A-Za-z0-9+-]{3,})>|([A-Za-z]{3,}))", r"([+-]?\d+(?::\d+){0,2})", r"(M(?!0+\.)\d+\.\d+\.\d+|J?\d+)(?:/([+-]?\d+(?::\d+){0,2}))?"
    TEXT = re.compile(rf"{NAME}{SIZE}(?:{NAME}{SIZE}?,{CHANGE},{CHANGE})?", re.A)

    def __init__(self, names, standard, daylight=None, begins=None, ends=None):
        self.names, self.standard, self.daylight, self.begins, self.ends = names, standard, daylight, begins, ends

    @classmethod
    def read(cls, text):
        """The rule that a text is of, or None."""
        found = cls.TEXT.fullmatch(text)
        if not found:
            return None
        name, other, offset, name2, other2, offset2, day, time, day2, time2 = found.groups()
        standard = -cls.seconds(offset)
        if not day:
            rule = cls((name or other, ""), standard)
        else:
            daylight = -cls.seconds(offset2) if offset2 else standard + 3_600
            rule = cls((name or other, name2 or other2), standard, daylight, cls.change(day, time), cls.change(day2, time2))
        numbers = [int(it) for part in (offset, offset2, time, time2) if part for it in part.split(":")[1:]]
        return rule if max(numbers, default=0) < 60 and rule.in_range() else None

    def in_range(self):
        changes = [it for it in (self.begins, self.ends) if it]
        days = {1: (1, 365), 0: (0, 365)}
        fit = all((1 <= month <= 12 and 1 <= week // 10 <= 5 and day <= 6) if month else days[week][0] <= day <= days[week][1] for month, week, day, _ in changes)
        return fit and all(abs(it[3]) < 7 * DAY for it in changes) and all(abs(it) < DAY for it in self.offsets())

    @staticmethod
    def seconds(text):
        sign, parts = -1 if text[0] == "-" else 1, [int(it) for it in text.lstrip("+-").split(":")]
        return sign * sum(it * 60 ** (2 - at) for at, it in enumerate(parts))

    @classmethod
    def change(cls, day, time):
        second = cls.seconds(time) if time else 7_200
        if day[0] == "M":
            month, week, weekday = map(int, day[1:].split("."))
            return month, 10 * week, weekday, second
        return (0, 1, int(day[1:]), second) if day[0] == "J" else (0, 0, int(day), second)

    @staticmethod
    def clock(seconds):
        """Hours, and minutes and seconds where they are not 0, with a `-` if it is negative."""
        size = abs(seconds)
        parts = [size // 3_600, size // 60 % 60, size % 60]
        while len(parts) > 1 and not parts[-1]:
            parts.pop()
        return "-" * (seconds < 0) + ":".join(f"{it:02}" if at else str(it) for at, it in enumerate(parts))

    @classmethod
    def date(cls, change):
        month, week, day, second = change
        return (f"M{month}.{week // 10}.{day}" if month else "J" * week + str(day)) + (f"/{cls.clock(second)}" if second != 7_200 else "")

    def text(self):
        names = [it if it.isalpha() else f"<{it}>" for it in self.names]
        text = names[0] + self.clock(-self.standard)
        if self.daylight is None:
            return text
        return text + names[1] + ("" if self.daylight == self.standard + 3_600 else self.clock(-self.daylight)) + f",{self.date(self.begins)},{self.date(self.ends)}"

    def told(self):
        """The names, the rule and its text, as the program tells them."""
        offset = lambda it: f"{'-' if it < 0 else '+'}{abs(it) // 3_600:02}:{abs(it) // 60 % 60:02}" + (f":{abs(it) % 60:02}" if it % 60 else "")  # noqa: E731
        days = ("Sun", "Mon", "Tue", "Wed", "Thu", "Fri", "Sat")

        def change(it):
            month, week, day, second = it
            told = f"Week {{ month: {month}, week: {week // 10}, weekday: {days[day]} }}" if month else f"{'Julian' if week else 'FromZero'}({day})"
            return f"Change {{ day: {told}, second: {second} }}"

        daylight = "None"
        if self.daylight is not None:
            daylight = f"Some(Daylight {{ offset: {offset(self.daylight)}, begins: {change(self.begins)}, ends: {change(self.ends)} }})"
        return f"{self.names[0]} {self.names[1]} ZoneRule {{ standard: {offset(self.standard)}, daylight: {daylight} }} {self.text()}"

    @staticmethod
    def shown(change, year):
        """What the clock shows at the change, in seconds."""
        month, week, day, second = change
        if month:
            first = year_day(year)
            # The year 2000 + y % 400 has the same days.
            fitting = [first + it for it in days_of_month(2000 + year % 400, month) if (first + it + 4) % 7 == day]
            return fitting[min(week // 10, len(fitting)) - 1] * DAY + second
        leap = year_day(year + 1) - year_day(year) == 366
        return (year_day(year) + (day - 1 + (leap and day >= 60) if week else day)) * DAY + second

    def changes(self, year):
        if self.daylight is None:
            return []
        return [(self.shown(self.ends, year) - self.daylight, 0, self.standard), (self.shown(self.begins, year) - self.standard, 1, self.daylight)]

    def at(self, second):
        year = year_of(second)
        come = [it for near in range(year - 4, year + 5) for it in self.changes(near) if it[0] <= second]
        return max(come)[2] if come else self.standard

    def offsets(self):
        return {self.standard} if self.daylight is None else {self.standard, self.daylight}


def file_parts(data):
    """The version of a TZif file, its times, the places of their kinds, its kinds, its names and its footer, or None."""

    def block(at, size):
        if data[at : at + 4] != b"TZif" or len(data) < at + 44:
            return None
        isut, isstd, leap, times, kinds, chars = struct.unpack(">6L", data[at + 20 : at + 44])
        ends = list(itertools.accumulate((times * size, times, kinds * 6, chars, leap * (size + 4) + isstd + isut), initial=at + 44))
        if ends[-1] > len(data):
            return None
        found, places, types, names, _ = (data[a:b] for a, b in itertools.pairwise(ends))
        fit = kinds and chars and isut in (0, kinds) and isstd in (0, kinds) and not leap
        return fit, struct.unpack(f">{times}{'l' if size == 4 else 'q'}", found), places, list(struct.iter_unpack(">lBB", types)), names, ends[-1]

    first = block(0, 4)
    if not first:
        return None
    if not data[4]:
        return (0, *first[1:5], b"") if first[0] and first[5] == len(data) else None
    second = block(first[5], 8) if data[4:5] in b"234" and data[first[5] + 4 : first[5] + 5] == data[4:5] else None
    tail = data[second[5] :] if second else b""
    return (data[4], *second[1:5], tail[1:-1]) if second and second[0] and len(tail) > 1 and tail[:1] == tail[-1:] == b"\n" else None


def mark(numbers, start=0):
    for it in numbers:
        start = (start * 31 + it) % 2**64
    return start


def told_file(data):
    """What the program tells of a file."""
    parts = file_parts(data)
    if not parts:
        return "none true"
    version, seconds, places, kinds, names, footer = parts
    told = lambda it: str(mark(it, len(it)))  # noqa: E731
    bad = [at for at, it in enumerate(places) if it >= len(kinds) or abs(kinds[it][0]) >= DAY]
    rows = [] if bad else [it for second, place in zip(seconds, places) for it in (second, kinds[place][0])]
    number = mark(rows)
    words = [str(version), told(footer), f"Err(NoRow({bad[0]}))" if bad else f"Ok({len(places)})", str(number - (number >> 63 << 64))]
    for offset, dst, at in kinds[:256]:
        end = names.find(b"\0", at)
        words.append(f"{offset}/{'true' if dst else 'false'}/{told(names[at:end])}" if abs(offset) < DAY and dst < 2 and end >= 0 else "none")
    return " ".join(words)


def changed_file(draw, data):
    """A file with a byte changed, left out or put in, or cut off, and what the program tells of it."""
    at = draw.choice((draw.randrange(len(data)), draw.randrange(44), len(data) - 1 - draw.randrange(20)))
    data = data[:at] + draw.choice((bytes((draw.randrange(256),)), bytes((data[at] ^ 1 << draw.randrange(8),)), b"", data[at : at + 1] * 2)) + data[at + 1 :]
    data = data[: draw.randrange(len(data))] if draw.random() < 0.1 else data
    return f"file {data.hex()}", told_file(data)


class Zone:
    """A zone of the database: its rows, its rule, and zoneinfo's reading of it."""

    def __init__(self, name, path):
        with open(path, "rb") as it:
            self.data = it.read()
        parts = file_parts(self.data)
        assert parts, name
        _, seconds, kinds, offsets, _, footer = parts
        offsets = [it[0] for it in offsets]
        self.footer = footer.decode()
        self.rule = Rule.read(self.footer) if self.footer else None
        assert self.rule or not self.footer, name
        # Rows below zoneinfo's years stand for the beginning of time.
        self.first = offsets[0]
        self.rows = [(second, offsets[kind]) for second, kind in zip(seconds, kinds)]
        self.info = zoneinfo.ZoneInfo(name)

    def at(self, second):
        return int(datetime.datetime.fromtimestamp(second, UTC).astimezone(self.info).utcoffset().total_seconds())

    def offsets(self):
        return {self.first, *(offset for _, offset in self.rows)} | (self.rule.offsets() if self.rule else set())

    def changes(self, second):
        """The next and the previous change; zoneinfo changes there too."""
        held, after, before = self.first, None, None
        for at, offset in self.rows:
            if offset != held:
                if at <= second:
                    before = at
                elif after is None:
                    after = at
            held = offset
        for at in (after, before):
            assert at is None or at <= FIRST or self.at(at - 1) != self.at(at), (self.info.key, at)
        return after, before


def told(at, offsets, second):
    """The offset at an instant, and those of the same second as a local time."""
    found = sorted((it for it in offsets if at(second - it) == it), reverse=True)
    some = [f"Some({it})" for it in found] + ["None"] * 2
    assert len(found) <= 2, (second, found)
    return f"{at(second)} ({some[0]}, {some[1]})"


def option(number):
    return "None" if number is None else f"Some({number})"


def near(draw, seconds, offsets):
    """A second at one of those, as an instant or as a local time, or near to it."""
    return draw.choice(seconds) + draw.choice((0, *offsets)) + draw.choice((0, 0, -1, 1, draw.randrange(-7_200, 7_200), draw.randrange(-10**6, 10**6)))


def of_zone(draw, zone, lines):
    """Questions to a zone, each with its answer."""
    offsets = sorted(zone.offsets())
    last = zone.rows[-1][0] if zone.rows else FIRST
    found = []
    for _ in range(2):
        yield changed_file(draw, zone.data)
    yield f"file {zone.data.hex()}", told_file(zone.data)
    yield "ordered", "None"
    if zone.rows:
        # Up to two days before the last row all instants lie before it.
        seconds = [near(draw, [at for at, _ in zone.rows], offsets) for _ in range(lines)]
        found = [it for it in seconds if FIRST < it < last - 2 * DAY]
    for second in found:
        yield f"at {second}", told(zone.at, offsets, second)
        if draw.random() < 0.3:
            after, before = zone.changes(second)
            yield f"changes {second}", f"{option(after)} {option(before)}"
    if zone.rule and (not zone.rows or zone.rule.at(last) == zone.rows[-1][1]):
        yield from of_rule(draw, zone.rule, lines, zone.footer, zone.at, max(last, FIRST) + 2 * DAY)
    elif zone.rule:
        yield f"text {zone.footer}", zone.rule.told()
    yield from of_whole(draw, zone, lines, offsets)


def of_whole(draw, zone, lines, offsets):
    """Questions to the rows and the rule in one, each with its answer: at the rows, at the last one, and behind it."""
    changes = [at for year in (2037, 2038, draw.randrange(2040, 9_990)) for at, _, _ in zone.rule.changes(year)] if zone.rule else []
    if zone.rule and zone.rows:
        last, offset = zone.rows[-1]
        soon = (it for year in range(year_of(last) - 1, year_of(last) + 2) for it, _, _ in zone.rule.changes(year))
        if zone.rule.at(last) != offset or any(last < it <= last + 2 * DAY and zone.rule.at(it) != offset for it in soon):
            yield "whole 0", "NotJoined"
            return
    seconds = [at for at, _ in zone.rows] + [at for at, _ in zone.rows[-1:]] * 9 + changes * 9 + [0]
    for second in [near(draw, seconds, offsets) for _ in range(lines)]:
        if FIRST < second < LAST:
            yield f"whole {second}", told(zone.at, offsets, second)


def of_rule(draw, rule, lines, text=None, at=None, since=0):
    """Questions to a rule, each with its answer: from a second on by zoneinfo in its years, and else by the second reading."""
    text = text or rule.text()
    yield f"text {text}", rule.told()
    for _ in range(lines):
        year = draw.choice((draw.randrange(2040, 2500), draw.randrange(2040, 9_990), draw.randrange(-262_143, 262_143), draw.randrange(-10**9, 10**9)))
        changes = [it[0] for it in rule.changes(year)] + [year_day(year) * DAY]
        second = near(draw, changes, rule.offsets())
        if at and since < second < LAST:
            assert at(second) == rule.at(second), (text, second)
            yield f"ruled {second}", told(at, rule.offsets(), second)
        else:
            yield f"ruled {second}", told(rule.at, rule.offsets(), second)


def made_rule(draw):
    """A rule with hours on other days, in other years, and offsets of any size."""
    month = lambda: (draw.randrange(1, 13), 10 * draw.randrange(1, 6), draw.randrange(7))  # noqa: E731
    julian = lambda: (0, 1, draw.choice((1, 59, 60, 61, 365, draw.randrange(1, 366))))  # noqa: E731
    counted = lambda: (0, 0, draw.choice((0, 58, 59, 60, 364, 365, draw.randrange(366))))  # noqa: E731
    hours = lambda: draw.choice((0, 7_200, -3_600, 604_799, -604_799, draw.randrange(-604_799, 604_800)))  # noqa: E731
    change = lambda: (*draw.choice((month, julian, counted))(), hours())  # noqa: E731
    standard = draw.choice((0, -18_000, draw.randrange(-DAY + 1, DAY)))
    daylight = draw.choice((standard + 3_600, standard - 3_600, standard, draw.randrange(-DAY + 1, DAY)))
    name = lambda: "".join(draw.choices(draw.choice(("ABCxyz", "AZaz019+-")), k=draw.randrange(3, 9)))  # noqa: E731
    if draw.random() < 0.1:
        return Rule((name(), ""), standard)
    return Rule((name(), name()), standard, max(1 - DAY, min(DAY - 1, daylight)), change(), change())


def changed_text(draw, text):
    """A text with a byte changed, left out or put in, and what it is a rule of."""
    at, byte = draw.randrange(len(text)), draw.choice("0123456789:+-/.,<>MJABz")
    text = text[:at] + draw.choice((byte, byte + text[at], "")) + text[at + 1 :]
    rule = Rule.read(text)
    return f"text {text}", rule.told() if rule else "none true"


def faults():
    """Texts and files with each fault, and what the program has to say."""
    text = {"": "NoName 0", "EST": "NoOffset 3", "XXX24": "OffsetOfDay 3", "EST5EDT": "NoDays 7", "EST5EDT,M3.2.0,M13.1.0": "NoChange 15", "EST5ED,M3.2.0,M11.1.0": "NoName 4"}
    yield from ((f"whytext {it}", why) for it, why in text.items())
    header = lambda version, leap=0, kinds=1, chars=4, isut=0: b"TZif" + version + bytes(15) + struct.pack(">6L", isut, 0, leap, 0, kinds, chars)  # noqa: E731
    data = bytes(6) + b"UTC\0"
    utc = header(b"2") + data
    whole = utc + utc + b"\nUTC0\n"
    files = [(b"?" * 60, "NoHeader 0"), (b"GIF89a", "CutOff 0"), (header(b"5") + data, "UnknownVersion 0"), (header(b"\0", kinds=0) + data[6:], "WrongCounts 0")]
    files += [(header(b"\0", isut=3) + data + bytes(3), "WrongCounts 0"), (header(b"\0", leap=1) + data + bytes(8), "LeapSeconds 0")]
    files += [(utc + utc, f"WrongFooter {2 * len(utc)}"), (whole[:-1], f"WrongFooter {2 * len(utc)}"), (whole, "none"), (utc[:-1], f"CutOff {44}")]
    files += [(utc + b"?" * 60, f"NoHeader {len(utc)}"), (utc + header(b"3") + data + b"\nUTC0\n", f"OtherVersion {len(utc)}")]
    yield from ((f"whyfile {it.hex()}", why) for it, why in files)


def always_daylight():
    """Questions to the zone of CPython's test_one_zone_dst: its one row, and a rule that begins daylight time again an hour later, show one offset."""
    text = "STD0DST-1,0/0,J365/25"
    rule = Rule.read(text)
    blocks = [b"TZif2" + bytes(15) + struct.pack(f">6L{size}BlBB", 0, 0, 0, 1, 1, 4, -3_600, 0, 3_600, 1, 0) + b"DST\0" for size in "lq"]
    data = b"".join(blocks) + f"\n{text}\n".encode()
    yield f"file {data.hex()}", told_file(data)
    yield f"text {text}", rule.told()
    yield from ((f"whole {second}", told(lambda _: 3_600, {0, 3_600}, second)) for second in (-3_601, -3_600, -1, 0, 31_535_999, 31_536_000, 31_539_600))


def zones():
    for name in sorted(zoneinfo.available_timezones()):
        for folder in zoneinfo.TZPATH:
            path = os.path.join(folder, name)
            if os.path.isfile(path):
                yield Zone(name, path)
                break


def answers_of(room, groups):
    """What the program answers. It is built once, and runs for each part: some groups of questions, since one sets what the next asks.

    `rt try` hands on no more than a mebibyte of one run.
    """
    folder = put_program(room, "zones", ["chrono_datetime", "zone_table", "zone_rule", "zone_text", "zone_file", "zone"], PROGRAM)
    parts = [[]]
    for group in groups:
        if sum(map(len, parts[-1])) > MOST_OF_PART:
            parts.append([])
        parts[-1].append(group)
    os.mkdir(f"{room}/parts")
    for at, part in enumerate(parts):
        with open(f"{room}/parts/{at:06}", "w", encoding="utf-8") as it:
            it.writelines(f"{question}\n" for group in part for question, _ in group)
    said = subprocess.run(["rt", "try", "--seconds", "1200", "--cases", f"{room}/parts"], cwd=folder, stdout=subprocess.PIPE, stderr=subprocess.STDOUT, text=True, errors="replace").stdout
    return [line[2:] for line in said.splitlines() if line.startswith("= ")]


def differing(questions, answers, wanted):
    return [f"{it}: {a}, not {b}" for it, a, b in zip(questions, answers, wanted) if a != b]


def mutated(room, zones, seed, count):
    """What goes wrong in reading changed files, and how many were read."""
    cases = os.path.join(room, "cases")
    os.mkdir(cases)
    timed = put_apart(f"{room}/changed", "benches/timed_zone")
    found = [it for it in zones if it.info.key in MUTATED]
    for zone in found:
        path = os.path.join(cases, zone.info.key.replace("/", "_"))
        with open(path, "wb") as it:
            it.write(zone.data)
        with open(f"{path}.args", "w") as it:
            it.write(f"mutate\n{count // len(found)}\n{seed}\n")
    ran = subprocess.run(["rt", "try", "--seconds", "1200", "--cases", cases], cwd=timed, stdout=subprocess.PIPE, stderr=subprocess.STDOUT, text=True, errors="replace")
    counts = re.findall(r"^Counts \{ read: (\d+), .*wrong: (\d+), refused: (\d+),", ran.stdout, re.M)
    if ran.returncode or len(counts) != len(found) or any(int(wrong) for _, wrong, _ in counts):
        sys.exit(f"a changed file stops timed_zone, or makes a wrong zone:\n{ran.stdout[-3000:]}")
    return sum(int(it) for it, _, _ in counts), sum(int(it) for _, _, it in counts)


def main():
    parser = argparse.ArgumentParser(description=__doc__.partition("\n")[0])
    parser.add_argument("--seed", type=int, default=1)
    parser.add_argument("--lines", type=int, default=20_000)
    parser.add_argument("--mutated", type=int, default=200_000)
    options = parser.parse_args()
    draw = random.Random(options.seed)
    known = list(zones())
    if not known:
        print("not run: checks/zones/zones.py, which needs a database of time zones")
        return
    each = max(1, options.lines // (3 * len(known)))
    groups = [list(of_zone(draw, zone, each)) for zone in known] + [list(faults()), list(always_daylight())]
    lines = sum(map(len, groups))
    while lines < options.lines:
        rule = made_rule(draw)
        groups.append([*of_rule(draw, rule, 20), *(changed_text(draw, rule.text()) for _ in range(10))])
        lines += len(groups[-1])
    rows = [it for group in groups for it in group]
    questions, wanted = [it for it, _ in rows], [it for _, it in rows]
    with tempfile.TemporaryDirectory(prefix="zones-") as room:
        answers = answers_of(room, groups)
        read, refused = mutated(room, known, options.seed, options.mutated)
    if len(answers) != len(wanted):
        sys.exit(f"{len(answers)} answers for {len(wanted)} lines")
    wrong = differing(questions, answers, wanted)
    for it in wrong[:20]:
        print(f"FAILED: {it[:300]}")
    changed = ["", *wanted[1:]]
    if len(differing(questions, answers, changed)) != len(wrong) + 1 and answers[0] == wanted[0]:
        sys.exit("a changed answer is not found")
    print(f"{len(known)} zones, {read + refused} changed files, of which {refused} are refused")
    print(f"{len(wanted) - len(wrong)} passed, {len(wrong)} failed")
    sys.exit(bool(wrong))


if __name__ == "__main__":
    main()
