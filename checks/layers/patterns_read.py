#!/usr/bin/env python3
"""Holds the reading of texts by patterns to an own reader, to Python's strptime and to Debian's chrono, on random patterns and texts.

    python3 -m checks.layers.patterns_read [--seed N] [--lines N] [--rounds N]      (seed 1, 20,000 lines and one round, if left out)

A text is one that its pattern writes, often with a byte changed, left out or put in. It is read whole, and its front alone: as a date, as
a time of day, as a date-time and as one with its offset. The wanted answer is this file's own. Where it is a date, its fields are compared
with all dates that fit, by their names. Where the specifiers name no such value, nothing may be read. Python's strptime has to read the same date, and the same date-time with its offset, wherever it has all
specifiers of a pattern and reads the text. Debian's chrono has to read the same, or nothing where nothing is wanted. All lines are asked of it.
Where it answers otherwise, one of `DIFFERENCES` has to say why, and it has to do so at the line of each of these. `rt try` runs a small program unproved, in a copy of the crates. A second run of the same lines with one answer changed
has to find that answer. Each round has as many lines of its own, by the next seed.
"""
import datetime
import re
import subprocess
import tempfile

from checks.layers.patterns import EPOCH, FIRST, GROUPS, LAST, MONTHS, NANOS, PART, SPECIFIER, WEEKDAYS, Moment, answer, chrono_program, offset_text, options_of, run_rounds
from repositories import answers_in_parts, put_program

SINGLES = {"h": "%b", "n": "\n", "t": "\t"}
# The part of a number, and its least and greatest value.
PARTS = {
    "Y": ("year", -999_999_999, 999_999_999), "C": ("century", 0, 99), "y": ("place", 0, 99), "q": ("quarter", 1, 4), "m": ("month", 1, 12),
    "d": ("day", 1, 31), "e": ("day", 1, 31), "j": ("ordinal", 1, 366), "u": ("weekday", 1, 7), "G": ("isoyear", -999_999_999, 999_999_999),
    "g": ("isoplace", 0, 99), "V": ("isoweek", 1, 53), "U": ("from_sunday", 0, 53), "W": ("from_monday", 0, 53), "M": ("minute", 0, 59), "S": ("second", 0, 60), "f": ("nanos", 0, 999_999_999),
}
WIDTHS = {"Y": 4, "G": 4, "j": 3, "q": 1, "u": 1, "w": 1, "f": 9}
BLANKS = " \t\n\v\f\r"
# What Python's strptime reads as chrono's patterns do.
OF_PYTHON = "YmdjbBaAHIMSpyz"
# The seconds from 1970 that dates have.
FIRST_SECOND, LAST_SECOND = (FIRST - EPOCH) * 86_400, (LAST - EPOCH) * 86_400 + 86_399
PROGRAM = r'''//! Reads dates by patterns, a line each.
#![tactic(auto)]

use chrono_pattern::Pattern;
use std::io::{self, BufRead, BufReader};

fn main(rt: HostRuntime) -> io::Result<()> {
    for line in BufReader::new(rt.alloc(), rt.reader())?.lines(rt.alloc()) {
        let line = line?;
        let Some((pattern, text)) = line.as_str().split_once('|') else { return Ok(()); };
        match Pattern::new(pattern.as_bytes()) {
            Ok(pattern) => {
                match pattern.read_parts(text.as_bytes()) {
                    Ok(parts) => match parts.to_date() {
                        Ok(date) => print!(rt; "= {date}")?,
                        Err(cause) => print!(rt; "= {cause:?}")?,
                    },
                    Err(error) => print!(rt; "= {:?} {}", error.cause, error.byte)?,
                }
                match pattern.parse_date(text.as_bytes()) {
                    Ok(it) => print!(rt; "; {it}")?,
                    Err(error) => print!(rt; "; {:?} {}", error.cause, error.byte)?,
                }
                match pattern.parse_date_and_remainder(text.as_bytes()) {
                    Ok((it, rest)) => print!(rt; "; {it} + {}", rest.len())?,
                    Err(error) => print!(rt; "; {:?} {}", error.cause, error.byte)?,
                }
                match pattern.parse_time(text.as_bytes()) {
                    Ok(it) => print!(rt; "; {it:?}")?,
                    Err(error) => print!(rt; "; {:?} {}", error.cause, error.byte)?,
                }
                match pattern.parse_time_and_remainder(text.as_bytes()) {
                    Ok((it, rest)) => print!(rt; "; {it:?} + {}", rest.len())?,
                    Err(error) => print!(rt; "; {:?} {}", error.cause, error.byte)?,
                }
                match pattern.parse_date_time(text.as_bytes()) {
                    Ok(it) => print!(rt; "; {it:?}")?,
                    Err(error) => print!(rt; "; {:?} {}", error.cause, error.byte)?,
                }
                match pattern.parse_date_time_and_remainder(text.as_bytes()) {
                    Ok((it, rest)) => print!(rt; "; {it:?} + {}", rest.len())?,
                    Err(error) => print!(rt; "; {:?} {}", error.cause, error.byte)?,
                }
                match pattern.parse_zoned(text.as_bytes()) {
                    Ok(it) => print!(rt; "; {it:?}")?,
                    Err(error) => print!(rt; "; {:?} {}", error.cause, error.byte)?,
                }
                match pattern.parse_zoned_and_remainder(text.as_bytes()) {
                    Ok((it, rest)) => print!(rt; "; {it:?} + {}", rest.len())?,
                    Err(error) => print!(rt; "; {:?} {}", error.cause, error.byte)?,
                }
                println!(rt; "")?
            }
            Err(_) => println!(rt; "= no pattern")?,
        }
    }
    Ok(())
}
'''


class Wrong(Exception):
    """What is wrong with a text, and where."""


class Reader:
    """A text that is read, and the parts that it gives."""

    def __init__(self, text):
        self.text, self.at, self.parts = text, 0, {}

    def fail(self, cause, at=None):
        raise Wrong(f"{cause} {self.at if at is None else at}")

    def put(self, name, value, least, most, at):
        if not least <= value <= most:
            self.fail("OutOfRange", at)
        if self.parts.setdefault(name, value) != value:
            self.fail("Impossible", at)

    def blanks(self):
        while self.at < len(self.text) and self.text[self.at] in BLANKS:
            self.at += 1

    def byte(self, byte):
        if byte in BLANKS:
            return self.blanks()
        if self.at == len(self.text):
            self.fail("TooShort")
        if self.text[self.at] != byte:
            self.fail("Invalid")
        self.at += 1

    def digits(self, most):
        found = re.compile(f"[0-9]{{1,{most}}}").match(self.text, self.at)
        if not found:
            self.fail("TooShort" if self.at == len(self.text) else "Invalid")
        return found[0]

    def number(self, code):
        self.blanks()
        sign, width = "", WIDTHS.get(code, 2)
        if code in "YG" and self.text[self.at : self.at + 1] in ("-", "+"):
            sign, width = self.text[self.at], 9
            self.at += 1
        found, at = self.digits(width), self.at
        value = -int(found) if sign == "-" else int(found)
        if code in "Hk":
            self.put("half", value // 12, 0, 1, at)
            self.put("hour", value % 12, 0, 11, at)
        elif code in "Il":
            self.put("hour", {0: 12, 12: 0}.get(value, value), 0, 11, at)
        elif code == "w":
            self.put("weekday", {0: 7, 7: 8}.get(value, value), 1, 7, at)
        else:
            name, least, most = PARTS[code]
            self.put(name, value, least, most, at)
        self.at += len(found)

    def name(self, names, whole, part):
        at, letters = self.at, self.text[self.at : self.at + 3].lower()
        if len(letters) < 3:
            self.fail("TooShort")
        found = [k for k, it in enumerate(names) if it[:3].lower() == letters]
        if not found:
            self.fail("Invalid")
        name = names[found[0]]
        self.put(part, found[0] + 1, 1, len(names), at)
        self.at += len(name) if whole and self.text[at : at + len(name)].lower() == name.lower() else 3

    def half(self):
        letters = self.text[self.at : self.at + 2].lower()
        if len(letters) < 2:
            self.fail("TooShort")
        if letters not in ("am", "pm"):
            self.fail("Invalid")
        self.put("half", int(letters == "pm"), 0, 1, self.at)
        self.at += 2

    def fraction(self, form):
        if form.startswith("."):
            if self.text[self.at : self.at + 1] != ".":
                return
            self.at += 1
            found = re.compile("[0-9]*").match(self.text, self.at)[0]
            if not found:
                self.digits(1)
            kept = found[:9]
        else:
            count = int(form)
            if len(self.text) - self.at < count:
                self.fail("TooShort")
            found = kept = self.text[self.at : self.at + count]
            if not re.fullmatch("[0-9]*", kept):
                self.fail("Invalid")
        self.put("nanos", int(kept.ljust(9, "0")), 0, 999_999_999, self.at)
        self.at += len(found)

    def two(self, most):
        """Two digits, which write at most so much."""
        found = self.text[self.at : self.at + 2]
        if len(found) < 2:
            self.fail("TooShort")
        if not re.fullmatch("[0-9]{2}", found):
            self.fail("Invalid")
        if int(found) > most:
            self.fail("OutOfRange")
        self.at += 2
        return int(found)

    def offset(self, form, utc=""):
        """An offset by `%z` with so many colons, or UTC by one of its names."""
        self.blanks()
        start = self.at
        if named := utc and re.compile(utc, re.I).match(self.text, start):
            self.put("offset", 0, 0, 0, start)
            self.at += len(named[0])
            return
        if start == len(self.text):
            self.fail("TooShort")
        if self.text[start] not in "+-":
            self.fail("Invalid")
        self.at += 1
        size = self.two(99) * 3600
        gap = re.compile(r"[: \t-\r]*(?=([0-9])?)").match(self.text, self.at)
        if form not in (":::", "#") or gap[1]:
            self.at = gap.end()
            size += self.two(59) * 60
        if form == "::" and self.text[self.at : self.at + 1] == ":":
            self.at += 1
            size += self.two(59)
        self.put("offset", -size if self.text[start] == "-" else size, -86_399, 86_399, start)

    def stamp(self):
        """The seconds from 1970."""
        self.blanks()
        if self.at == len(self.text):
            self.fail("TooShort")
        sign = self.text[self.at] if self.text[self.at] in "+-" else ""
        self.at += len(sign)
        found = re.compile("[0-9]*").match(self.text, self.at)[0]
        if not found:
            self.fail("TooShort" if self.at == len(self.text) else "Invalid")
        if len(found) > 18:
            self.fail("OutOfRange")
        self.put("stamp", int(sign + found), FIRST_SECOND, LAST_SECOND, self.at)
        self.at += len(found)

    def whole(self):
        """A date, a time of day and an offset."""
        self.pattern("%Y-%m-%d")
        if self.at == len(self.text):
            self.fail("TooShort")
        if self.text[self.at] not in "Tt ":
            self.fail("Invalid")
        self.at += 1
        self.pattern("%H:%M:%S%.f")
        self.offset(":", "z|utc")

    def item(self, found):
        _, code, other, form = found.groups()
        if code == "s":
            self.stamp()
        elif code:
            self.number(code)
        elif other == "+":
            self.whole()
        elif other == "Z":
            self.at = re.compile(r"[^ \t-\r]*").match(self.text, self.at).end()
        elif other and other[-1] == "z":
            self.offset(other[:-1], "z" if other == "#z" else "")
        elif other in GROUPS or other in SINGLES:
            self.pattern(GROUPS.get(other) or SINGLES[other])
        elif other in ("B", "b"):
            self.name(MONTHS, other == "B", "month")
        elif other in ("A", "a"):
            self.name(WEEKDAYS, other == "A", "weekday")
        elif other in ("p", "P"):
            self.half()
        elif other == "%":
            self.byte("%")
        else:
            self.fraction(form)

    def pattern(self, pattern):
        at = 0
        while at < len(pattern):
            found = SPECIFIER.match(pattern, at)
            if found:
                self.item(found)
                at = found.end()
            else:
                self.byte(pattern[at])
                at += 1


def names_in(pattern):
    """The parts that each text of a pattern gives. A fraction with a point may be left out."""
    names = set()
    for _, code, other, form in re.findall(SPECIFIER.pattern, pattern):
        if other in GROUPS or other in SINGLES:
            names |= names_in(GROUPS.get(other) or SINGLES[other])
        else:
            names |= names_by(code or other or form)
    return names


def names_by(code):
    """The parts that each text of a specifier gives, of one that stands for no others."""
    several = {"H": {"half", "hour"}, "k": {"half", "hour"}, "I": {"hour"}, "l": {"hour"}, "w": {"weekday"}, "s": {"stamp"}, "p": {"half"}, "P": {"half"}, "Z": set(), "%": set()}
    words = {"B": {"month"}, "b": {"month"}, "A": {"weekday"}, "a": {"weekday"}}
    if code in PARTS:
        return {PARTS[code][0]}
    if code.endswith("z"):
        return {"offset"}
    if code[0] in ".369":
        return set() if code[0] == "." else {"nanos"}
    return several.get(code) or words.get(code, set())


def suffices(names):
    """Whether parts suffice for a date, a time of day, a date-time, and one with its offset."""
    year = {"year", "place"} & names
    week = "weekday" in names and {"from_sunday", "from_monday"} & names
    date = bool(year and ({"month", "day"} <= names or "ordinal" in names or week)) or {"isoyear", "isoweek", "weekday"} <= names
    time = {"half", "hour", "minute"} <= names and ("second" in names or "nanos" not in names)
    moment = "stamp" in names or (date and time)
    return date, time, moment, "stamp" in names or (moment and "offset" in names)


def by_names(parts):
    """The dates that a set of parts that suffices names; none if no set does."""
    year = parts.get("year")
    if year is None and "place" in parts:
        year = parts["century"] * 100 + parts["place"] if "century" in parts else parts["place"] + (2000 if parts["place"] < 70 else 1900)
    if year is not None and {"month", "day"} <= parts.keys():
        new_year, leap = Moment.new_year(year), (year % 4 == 0 and year % 100 != 0) or year % 400 == 0
        lengths = [31, 28 + leap, 31, 30, 31, 30, 31, 31, 30, 31, 30, 31]
        return [new_year + sum(lengths[: parts["month"] - 1]) + parts["day"] - 1] if parts["day"] <= lengths[parts["month"] - 1] else []
    if year is not None and "ordinal" in parts:
        return [Moment.new_year(year) + parts["ordinal"] - 1]
    for name, first in (("from_sunday", 6), ("from_monday", 0)):
        if year is not None and {name, "weekday"} <= parts.keys():
            days = range(Moment.new_year(year), Moment.new_year(year + 1))
            return [it for it in days if (it - 1) % 7 + 1 == parts["weekday"] and Moment(it, 0, 0).weeks(first) == parts[name]]
    if {"isoyear", "isoweek", "weekday"} <= parts.keys():
        fourth = Moment.new_year(parts["isoyear"]) + 3
        return [fourth - (fourth - 1) % 7 + 7 * (parts["isoweek"] - 1) + parts["weekday"] - 1]
    return None


def fits(parts, day):
    """Whether a date fits all parts."""
    if not FIRST <= day <= LAST:
        return False
    it = Moment(day, 0, 0)
    told = {
        "year": it.year, "century": it.year // 100, "place": it.year % 100, "isoyear": it.iso_year, "isoplace": it.iso_year % 100,
        "quarter": (it.month + 2) // 3, "month": it.month, "isoweek": it.iso_week, "weekday": it.weekday + 1, "ordinal": it.ordinal, "day": it.of_month,
        "from_sunday": it.weeks(6), "from_monday": it.weeks(0),
    }
    alone = "place" in parts and "year" not in parts and "century" not in parts
    return all(parts.get(name, value) == value for name, value in told.items()) and not (alone and not 1970 <= it.year <= 2069)


def written(day):
    it = Moment(day, 0, 0)
    year = f"{it.year:04}" if 0 <= it.year <= 9999 else f"{it.year:+05}" if it.year < 0 else f"+{it.year}"
    return f"{year}-{it.month:02}-{it.of_month:02}"


def date_of(parts):
    """The date that fits parts, or why there is none."""
    days = by_names(parts)
    if days is None:
        return "NotEnough"
    right = [it for it in days if fits(parts, it)]
    return written(right[0]) if right else "Impossible"


def time_of(parts):
    """The time of day that fits parts, or why there is none."""
    if not suffices(parts.keys())[1]:
        return "NotEnough"
    second = parts.get("second", 0)
    at = (parts["half"] * 12 + parts["hour"]) * 3600 + parts["minute"] * 60 + min(second, 59)
    return shown(at, parts.get("nanos", 0) + NANOS * (second == 60)).partition("T")[2]


def shown(second, fraction):
    """A local date-time by its second from 1970 and its fraction."""
    day, at = divmod(second, 86_400)
    past = fraction % NANOS
    places = next(it for it in (0, 3, 6, 9) if past % 10 ** (9 - it) == 0)
    return f"{written(day + EPOCH)}T{at // 3600:02}:{at // 60 % 60:02}:{at % 60 + fraction // NANOS:02}" + (f".{past:09}"[: places + 1] if places else "")


def moments_by(parts, offset):
    """The local date-times that a set of parts that suffices names, as their second from 1970 and their fraction; none if no set does."""
    nanos, second = parts.get("nanos", 0), parts.get("second")
    if "stamp" in parts:
        local = parts["stamp"] + offset
        plain = [(local, nanos)] if second != 60 else []
        return plain + [(it, NANOS + nanos) for it in (local, local - 1) if it % 60 == 59 and second == 60]
    days = by_names(parts)
    if days is None or not {"half", "hour", "minute"} <= parts.keys() or ("nanos" in parts and second is None):
        return None
    at = (parts["half"] * 12 + parts["hour"]) * 3600 + parts["minute"] * 60 + min(second or 0, 59)
    return [((it - EPOCH) * 86_400 + at, nanos + NANOS * (second == 60)) for it in days]


def moment_of(parts, offset):
    """The second and the fraction of the local date-time that fits parts, or why there is none."""
    moments = moments_by(parts, offset)
    if moments is None:
        return "NotEnough"
    for second, fraction in moments:
        day, at = divmod(second, 86_400)
        told = {"half": at // 43_200, "hour": at // 3600 % 12, "minute": at // 60 % 60, "second": at % 60 + fraction // NANOS}
        if fits(parts, day + EPOCH) and all(parts.get(name, value) == value for name, value in told.items()):
            return second, fraction
    return "Impossible"


def zoned_of(parts):
    """The date-time with its offset that fits parts, or why there is none."""
    if not {"offset", "stamp"} & parts.keys():
        return "NotEnough"
    offset = parts.get("offset", 0)
    found = moment_of(parts, offset)
    if isinstance(found, str):
        return found
    return shown(*found) + offset_text(offset, "Z") if FIRST_SECOND <= found[0] - offset <= LAST_SECOND else "Impossible"


def wanted_of(pattern, text):
    """The date of the parts of a whole text, or what is wrong with it. Then the date, the time of day, the date-time and the one with its offset,
    each of the whole text and of its front, with how many bytes are behind it.
    """
    may = suffices(names_in(pattern))
    reader = Reader(text)
    try:
        reader.pattern(pattern)
    except Wrong as wrong:
        return (str(wrong), *(str(wrong) if it else "NotEnough 0" for it in may for _ in range(2)))
    found = moment_of(reader.parts, 0)
    told = date_of(reader.parts), time_of(reader.parts), found if isinstance(found, str) else shown(*found), zoned_of(reader.parts)
    left = len(text) - reader.at
    late = f"TooLong {reader.at}"
    answers = [late if left else told[0]]
    for it, named in zip(told, may):
        is_value = DATE.match(it)
        whole = late if left else it if is_value else f"{it} {reader.at}"
        front = f"{it} + {left}" if is_value else f"{it} {reader.at}"
        answers += [whole, front] if named else ["NotEnough 0"] * 2
        assert named or it == "NotEnough", (pattern, text, told)
    if not left:
        as_python(pattern, text, told[0], told[3])
    return tuple(answers)


# The place of the date-time with its offset in the answers of a line.
ZONED_PLACE = 7
# What a date begins with.
DATE = re.compile("[-+0-9]")


def as_python(pattern, text, told, zoned):
    """Stops if strptime reads another date or another zoned date-time. Where two numbers touch, it may read fewer digits of the first."""
    codes = "".join(it[1] + it[2] + it[3] for it in re.findall(SPECIFIER.pattern, pattern))
    if not set(codes) <= set(OF_PYTHON) or re.search("%[-_0]|%[YmdjHIMSy]%", pattern) or not DATE.match(told) or ("y" in codes and int(told[:4]) > 2068):
        return
    try:
        moment = datetime.datetime.strptime(text, pattern)
    except (ValueError, re.error):
        return
    assert moment.date().isoformat() == told, (pattern, text, told, moment)
    assert "z" not in codes or not DATE.match(zoned) or ":60" in zoned or moment.isoformat() == zoned, (pattern, text, zoned, moment)


PATTERNS = (
    "%Y-%m-%d", "%F", "%d.%m.%y", "%m/%d/%Y", "%D", "%Y%m%d", "%d %b %Y", "%A, %d %B %Y", "%a %e %b %Y", "%Y-%j", "%G-W%V-%u", "%G %V %a", "%C%y-%m-%d",
    "%Y-%m-%dT%T%.f", "%F %I:%M %p", "%F %H%M%S%3f", "%q %F", "%F %w", "%B %d %Y %A", "%y%j", "%d%m%y %H", "%Y %b", "%g %V %u", "%b %d", "%F%n%T", "%Y %m %d %f",
    "%Y %U %a", "%Y-W%W-%u", "%y%W%w", "%U %F", "%c", "%v", "%x %X", "%F %r", "%r %v",
)
# Those of times of day, and some that name none.
TIME_PATTERNS = (
    "%H:%M:%S", "%T%.f", "%I:%M %p", "%l:%M:%S %P", "%k:%M", "%k%M%S", "%T.%6f", "%T %9f", "%T%.6f", "%R", "%R%.f", "%R%f", "%R%3f", "%X", "%r", "%h %k %M", "%H", "%M:%S", "%I %p", "%l %M",
    "%h %d %Y %l:%M %P", "%F %k:%M:%S%.9f", "%R%.f %F", "%R%.3f %F %z",
)
# Those of date-times with their offset, or with the seconds from 1970.
ZONED_PATTERNS = (
    "%F %T %z", "%F %R%:z", "%Y-%m-%d %H:%M:%S %z", "%FT%T%.f%:z", "%d.%m.%Y %H:%M %::z", "%F %T %Z", "%F %T %:::z", "%F %R %#z", "%+", "%s", "%s %z", "%s %F", "%s %S %:z", "%s%.f",
    "%T %s", "%a %s %::z", "%z %Z %c", "%:z%#z %F %T", "%s %j %H", "%F %T%.3f %::z:%s", "%d %b %Y %T %z",
)


def question(draw):
    """A random line: a pattern, and a text that it writes, often spoilt."""
    pattern = draw.choice(PATTERNS + TIME_PATTERNS + ZONED_PATTERNS)
    if draw.random() < 0.3:
        pattern = "".join(draw.choice(("%Y", "%m", "%d", "%j", "%y", "%C", "%b", "%B", "%a", "%A", "%e", "%u", "%w", "%G", "%V", "%U", "%W", "%H", "%I", "%p", "%M", "%k", "%l", "%P", "%h", "%S", "%6f", "%9f", "%.f", "%-d", "%_m", " ", "-", "/", "x")) for _ in range(draw.randrange(2, 9)))
    day = draw.choice((draw.randrange(719_163, 755_000), draw.randrange(600_000, 800_000), draw.randrange(FIRST, LAST + 1)))
    fraction, second = draw.choice((0, 500_000_000, draw.randrange(NANOS))), draw.choice((draw.randrange(86_400), 60 * draw.randrange(1440) + 59))
    if second % 60 == 59 and draw.random() < 0.5:
        fraction += NANOS
    offset = draw.choice((0, 34_200, -18_000, 60 * draw.randrange(-1439, 1440), draw.randrange(-86_399, 86_400)))
    text = answer(Moment(day, second, fraction, offset), pattern)
    if draw.random() < 0.5:
        at = draw.randrange(len(text) + 1)
        put = draw.choice(("", "0", "1", "9", " ", "-", "x", ":", "A", "Z", "+", "UTC"))
        text = text[:at] + put + text[at + draw.randrange(2) :]
    if draw.random() < 0.2:
        text = text.swapcase()
    return pattern, text


def line_of(question):
    return "|".join(question)


def by_chrono(program, questions):
    """The dates that chrono reads, and the zoned date-times, `!` for none."""
    asked = "".join(f"{line_of(it)}\n" for it in questions)
    return subprocess.run([program, "read"], input=asked, stdout=subprocess.PIPE, text=True, check=True).stdout.split("\n")[:-1]


class Line:
    """A line that Debian's chrono reads otherwise: its pattern and text, what is read, whether with its offset, what is wanted and what chrono answers."""

    def __init__(self, question, zoned, wanted, told):
        self.pattern, self.text = question
        self.zoned, self.wanted, self.told = zoned, wanted, told

    def has(self, codes):
        return re.search(f"%[-_0]?(?:{codes})", self.pattern) is not None

    def holds(self, form):
        return re.search(form, self.text) is not None

    def is_unread(self, codes):
        """Whether chrono reads nothing where a date is wanted, by a pattern with one of these specifiers."""
        return self.told == "!" and DATE.match(self.wanted) is not None and self.has(codes)

    def reads_more(self, cause, codes):
        """Whether chrono reads a date where this error is wanted, by a pattern with one of these specifiers."""
        return self.told != "!" and self.wanted.startswith(cause) and self.has(codes)

    def year(self):
        """The year that is wanted, or else chrono's."""
        return int(re.match("([-+]?[0-9]+)-", self.wanted if DATE.match(self.wanted) else self.told)[1])

    def begins_on(self, weekday):
        """Whether that year begins on a weekday, 0 for Monday."""
        return (Moment.new_year(self.year()) - 1) % 7 == weekday


# RFC 3339, which is all that chrono's `%+` reads.
RFC_3339 = re.compile("[0-9]{4}-[0-9]{2}-[0-9]{2}[Tt][0-9]{2}:[0-9]{2}:[0-9]{2}([.][0-9]+)?([Zz]|[-+][0-9]{2}:[0-9]{2})")
# What Debian's chrono reads otherwise, and a line of each.
DIFFERENCES = {
    "it has no `%q`": (lambda it: it.is_unread("q"), "%q %F|1 2024-02-29"),
    "`%g` names an ISO year": (lambda it: it.reads_more("NotEnough", "g"), "%g-W%V-%u|24-W09-4"),
    "a date needs no hour, minute or second in its range": (lambda it: not it.zoned and it.reads_more("OutOfRange", "[HMSIklTRXrc+]"), "%F %H|2024-02-29 25"),
    "no year below 0 has a century": (lambda it: it.is_unread("[Cy]") and it.year() < 0, "%F %y|-0044-03-15 56"),
    "a century alone is not enough beside an ISO date": (lambda it: it.is_unread("C") and not it.has("[yY]"), "%C %G-W%V-%u|20 2024-W09-4"),
    "a year of the century may be of any beside an ISO date": (lambda it: it.reads_more("Impossible", "y") and it.has("G"), "%y %G-W%V-%u|50 1950-W09-4"),
    "`%U` has another count in a year that begins on Monday": (lambda it: it.has("U") and it.begins_on(0), "%F %U|2024-02-29 08"),
    "`%W` has another count in a year that begins on Tuesday": (lambda it: it.has("W") and it.begins_on(1), "%F %W|2019-02-28 08"),
    "`%::z` has no seconds": (lambda it: it.reads_more("Invalid", "::z:") or (it.is_unread("::z") and it.holds("[-+][0-9]{2}[: ]*[0-9]{2}:[0-9]{2}")), "%F %T %::z|2024-02-29 09:30:00 +01:00:30"),
    "`%:::z` has minutes": (lambda it: it.is_unread(":::z") and it.holds("[-+][0-9]{2}(?![: ]*[0-9])"), "%F %T %:::z|2024-02-29 09:30:00 +01"),
    "`%+` is RFC 3339 alone": (lambda it: it.is_unread("[+]") and not RFC_3339.fullmatch(it.text), "%+|2024-02-29 09:30:00Z"),
    "`%s` needs an offset": (lambda it: it.zoned and it.is_unread("s") and not it.has(":*z"), "%s|1709199000"),
    "`%s` has no sign": (lambda it: it.is_unread("s") and it.holds("[-+][0-9]"), "%s %z|-1 +0000"),
    "the seconds from 1970 are no part of a date": (lambda it: not it.zoned and it.reads_more("OutOfRange", "s"), "%F %s|2024-02-29 9000000000000"),
}


def read_by_chrono(chrono, questions, answers):
    """What chrono reads otherwise, with no reason for it, and each reason that no line has."""
    wrong, reasons = [], dict.fromkeys(DIFFERENCES, 0)
    read = [it.split(" ") for it in by_chrono(chrono, questions)]
    for place, what in enumerate(("date", "zoned date-time")):
        for question, told, answer in zip(questions, read, answers):
            line = Line(question, place == 1, answer[(0, ZONED_PLACE)[place]], told[place])
            if line.told == (line.wanted if DATE.match(line.wanted) else "!"):
                continue
            found = [it for it, (holds, _) in DIFFERENCES.items() if holds(line)]
            for reason in found:
                reasons[reason] += 1
            if not found:
                wrong.append(f"chrono, {what}: {line_of(question)}: {line.told} for {line.wanted}")
    for reason, count in reasons.items():
        print(f"{count} answers of chrono: {reason}")
    return wrong + [f"chrono: no line shows that {it}" for it, count in reasons.items() if not count]


def main():
    options = options_of(__doc__)
    with tempfile.TemporaryDirectory(prefix="patterns-read-") as room:
        chrono = chrono_program(room)
        folder = put_program(room, "patterns_read", ["chrono_datetime", "chrono_zoned", "chrono_pattern"], PROGRAM)

        def run_round(own, draw, count):
            questions = [it for it in (question(draw) for _ in range(count)) if "\n" not in line_of(it)]
            questions += [tuple(it.split("|")) for _, it in DIFFERENCES.values()]
            answers = [wanted_of(*it) for it in questions]
            wrong = read_by_chrono(chrono, questions, answers) if chrono else []
            lines = [line_of(it) for it in questions]
            return lines, answers_in_parts(own, folder, lines, PART // 5), ["; ".join(it) for it in answers], wrong

        run_rounds(options, room, run_round)


if __name__ == "__main__":
    main()
