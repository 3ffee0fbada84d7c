#!/usr/bin/env python3
"""Holds timestamps, offsets, zoned date-times and their texts to Python's datetime and email.utils, on random lines.

    python3 -m checks.layers.instants [--seed N] [--lines N]      (seed 1 and 20,000 lines, if left out)

Within the years 1 to 9999 an answer is that of Python's datetime. Outside them, and at offsets that lead there, it is this
file's own count of days. What is written as RFC 2822, email.utils has to read. Texts near to right ones are read by a second
grammar. `rt try` runs a small program unproved, in a copy of the crates: it answers the lines, and what differs is printed. A
second run of the same lines with one answer changed has to find that answer.
"""
import argparse
import datetime
import email.utils
import os
import random
import re
import sys
import tempfile

from repositories import answers_in_parts, put_program

UTC = datetime.timezone.utc
EPOCH = datetime.datetime(1970, 1, 1, tzinfo=UTC)
DAY = 86_400
FIRST, LAST = -8_334_601_228_800, 8_210_266_876_799
NANOS = 10**9
OUT_OF_RANGE = "the date is not from -262143-01-01 to 262142-12-31"
# How many lines one run of the program answers.
PART = 10_000
PROGRAM = r'''//! Answers questions on instants, a line each.
#![tactic(auto)]

use chrono_datetime::{NaiveDateTime, TimeDelta};
use chrono_stamps::{SecondsFormat, parse_from_iso8601, parse_from_rfc2822, parse_from_rfc3339, to_iso8601, to_rfc2822, to_rfc3339_opts};
use chrono_zoned::{FixedOffset, FromTimestamp, InZone, MappedLocalTime, Timestamp};
use std::io::{self, BufRead, BufReader};

fn main(rt: HostRuntime) -> io::Result<()> {
    for line in BufReader::new(rt.alloc(), rt.reader())?.lines(rt.alloc()) {
        let line = line?;
        if let Some(text) = line.as_str().strip_prefix("read ") {
            match parse_from_rfc3339(text.as_bytes()) {
                Ok(it) => println!(rt; "= {it:?} {}", it.timestamp())?,
                Err(it) => println!(rt; "= {it}")?,
            }
            continue;
        }
        if let Some(text) = line.as_str().strip_prefix("mail ") {
            match parse_from_rfc2822(text.as_bytes()) {
                Ok(it) => println!(rt; "= {it:?} {}", it.timestamp())?,
                Err(it) => println!(rt; "= {it}")?,
            }
            continue;
        }
        if let Some(text) = line.as_str().strip_prefix("iso ") {
            match parse_from_iso8601(text.as_bytes()) {
                Ok(it) => println!(rt; "= {it:?} {}", it.timestamp())?,
                Err(it) => println!(rt; "= {it}")?,
            }
            continue;
        }
        let mut words = line.as_str().split_ascii_whitespace();
        let Some(call) = words.next() else { return Ok(()); };
        let secs: i64 = words.next().unwrap_or("").parse().unwrap_or(0);
        let nanos: u32 = words.next().unwrap_or("").parse().unwrap_or(0);
        let Some(offset) = FixedOffset::east_opt(words.next().unwrap_or("").parse().unwrap_or(0)) else { return Ok(()); };
        let moved: i64 = words.next().unwrap_or("").parse().unwrap_or(0);
        let at = NaiveDateTime::from_timestamp(secs, nanos);
        match (call, at) {
            ("stamp", Some(at)) => println!(rt; "= {at:?} {} {} {} {:?}", at.timestamp(), at.timestamp_millis(), at.timestamp_micros(), at.timestamp_nanos_opt())?,
            ("millis", _) => println!(rt; "= {:?}", NaiveDateTime::from_timestamp_millis(secs))?,
            ("micros", _) => println!(rt; "= {:?}", NaiveDateTime::from_timestamp_micros(secs))?,
            ("nanos", _) => println!(rt; "= {:?}", NaiveDateTime::from_timestamp_nanos(secs))?,
            ("zoned", Some(at)) => println!(rt; "= {:?}", offset.from_utc_datetime(&at))?,
            ("rfc3339", Some(at)) => {
                let form = match moved.rem_euclid(5) {
                    0 => SecondsFormat::Secs,
                    1 => SecondsFormat::Millis,
                    2 => SecondsFormat::Micros,
                    3 => SecondsFormat::Nanos,
                    _ => SecondsFormat::AutoSi,
                };
                let text = offset.from_utc_datetime(&at).and_then(|it| to_rfc3339_opts(&it, form, moved.rem_euclid(2) == 0));
                match text {
                    Some(text) => println!(rt; "= {}", text.as_str())?,
                    None => println!(rt; "= None")?,
                }
            }
            ("rfc2822", Some(at)) => match offset.from_utc_datetime(&at).and_then(|it| to_rfc2822(&it)) {
                Some(text) => println!(rt; "= {}", text.as_str())?,
                None => println!(rt; "= None")?,
            },
            ("iso8601", Some(at)) => match offset.from_utc_datetime(&at).and_then(|it| to_iso8601(&it)) {
                Some(text) => println!(rt; "= {}", text.as_str())?,
                None => println!(rt; "= None")?,
            },
            ("local", Some(at)) => match offset.from_local_datetime(&at) {
                MappedLocalTime::Single(found) => println!(rt; "= {found:?} {}", found.timestamp())?,
                _ => println!(rt; "= None")?,
            },
            ("moved", Some(at)) => println!(rt; "= {:?}", offset.from_utc_datetime(&at).and_then(|it| it.checked_add_signed(TimeDelta::seconds(moved))))?,
            _ => println!(rt; "= None")?,
        }
    }
    Ok(())
}
'''


def civil(day):
    """The year, the month and the day of a day counted from 1 January 1970: by steps of 400 years, and then by datetime."""
    cycles, rest = divmod(day + 719_162, 146_097)
    date = datetime.date.fromordinal(rest + 1 + 146_097)
    return date.year + 400 * (cycles - 1), date.month, date.day


def text(secs, nanos):
    """A date-time's text, by datetime where it has the year."""
    year, month, day = civil(secs // DAY)
    if 1 <= year <= 9999:
        at = EPOCH + datetime.timedelta(seconds=secs)
        assert (at.year, at.month, at.day) == (year, month, day), secs
    hour, minute, second = secs % DAY // 3_600, secs // 60 % 60, secs % 60 + (nanos >= NANOS)
    name = f"{year:04}" if 0 <= year <= 9_999 else f"{year:+05}"
    past = nanos % NANOS
    places = next(it for it in (0, 3, 6, 9) if past % 10 ** (9 - it) == 0)
    fraction = "." + f"{past:09}"[:places] if places else ""
    return f"{name}-{month:02}-{day:02}T{hour:02}:{minute:02}:{second:02}{fraction}"


def offset_text(offset):
    """An offset's text, which is datetime's too."""
    size = abs(offset)
    told = f"{'-' if offset < 0 else '+'}{size // 3600:02}:{size // 60 % 60:02}" + (f":{size % 60:02}" if size % 60 else "")
    zone = datetime.timezone(datetime.timedelta(seconds=offset))
    assert datetime.datetime(2000, 1, 1, tzinfo=zone).isoformat()[19:] == told, offset
    return told


FORMS = ("seconds", "milliseconds", "microseconds", "nanoseconds", "auto")
# The lengths of months in a common year.
LENGTHS = (31, 28, 31, 30, 31, 30, 31, 31, 30, 31, 30, 31)
WRITTEN = re.compile(r"(\d{4})-(\d\d)-(\d\d)[Tt ](\d\d):(\d\d):(\d\d)(?:\.(\d{1,9}))?(?:[Zz]|([+-])(\d\d):(\d\d))")


def has_text(secs, nanos, offset):
    """Whether RFC 3339 and RFC 2822 have a text: a year of four digits, and whole minutes."""
    return 0 <= civil((secs + offset) // DAY)[0] <= 9_999 and offset % 60 == 0 and (nanos < NANOS or (secs + offset) % 60 == 59)


def rfc3339(secs, nanos, offset, moved):
    """The text with the digits of a form: of Python's isoformat, where it has the year, the second and the form."""
    if not has_text(secs, nanos, offset):
        return "None"
    form = FORMS[moved % 5]
    whole = text(secs + offset, nanos - nanos % NANOS)
    past = nanos % NANOS
    places = (0, 3, 6, 9, next(it for it in (0, 3, 6, 9) if past % 10 ** (9 - it) == 0))[moved % 5]
    told = whole + ("." + f"{past:09}"[:places] if places else "")
    if nanos < NANOS and form not in ("nanoseconds", "auto") and civil((secs + offset) // DAY)[0] > 0:
        at = datetime.datetime(1970, 1, 1) + datetime.timedelta(seconds=secs + offset, microseconds=past // 1_000)
        assert at.isoformat(timespec=form) == told, told
    return told + ("Z" if moved % 2 == 0 and offset == 0 else offset_text(offset))


def rfc2822(secs, nanos, offset):
    """The text of RFC 2822, which email.utils has to read as the same instant and offset, where it has the year."""
    if not has_text(secs, nanos, offset):
        return "None"
    year, month, day = civil((secs + offset) // DAY)
    weekday = ("Thu", "Fri", "Sat", "Sun", "Mon", "Tue", "Wed")[(secs + offset) // DAY % 7]
    name = ("Jan", "Feb", "Mar", "Apr", "May", "Jun", "Jul", "Aug", "Sep", "Oct", "Nov", "Dec")[month - 1]
    clock = text(secs + offset, nanos - nanos % NANOS).partition("T")[2]
    zone = offset_text(offset).replace(":", "")
    told = f"{weekday}, {day} {name} {year:04} {clock} {zone}"
    if nanos < NANOS and year >= 1_000:
        assert email.utils.mktime_tz(email.utils.parsedate_tz(told)) == secs, told
    return told


def length_of(year, month):
    return LENGTHS[month - 1] + (month == 2 and year % 4 == 0 and (year % 100 != 0 or year % 400 == 0))


def misfit(told, forms):
    """The first byte at which the text is as none of the forms, or its length."""

    def agrees(form, at):
        sign = form[at]
        return told[at].isdigit() and told[at].isascii() if sign == "d" else told[at] in {"T": "Tt ", "s": "+-", "Z": "Zz"}.get(sign, sign)

    best = 0
    for form in forms:
        at = 0
        while at < min(len(form), len(told)) and agrees(form, at):
            at += 1
        best = max(best, at)
    return best


def read(told):
    """What the text is read as by the second grammar, or what is wrong with it."""
    wrong = lambda at, words="not of this form": f"byte {at}: {words}"  # noqa: E731
    fits = WRITTEN.fullmatch(told)
    forms = ["dddd-dd-ddTdd:dd:dd" + ("." + "d" * places if places else "") + end for places in range(10) for end in ("Z", "sdd:dd")]
    at = misfit(told, forms)
    # The date, the time and the offset are read one after another, so a wrong number counts before a wrong form behind its part.
    if at >= 10:
        year, month, day = int(told[:4]), int(told[5:7]), int(told[8:10])
        if not 1 <= month <= 12:
            return wrong(5, "the month is 0" if month == 0 else "the month is above 12")
        if not 1 <= day <= length_of(year, month):
            return wrong(8, "the day is 0" if day == 0 else f"the month has {length_of(year, month)} days")
    clock = re.match(r"[0-9:.]*", told[11:])[0] if at >= 11 else ""
    if re.fullmatch(r"\d\d:\d\d:\d\d(\.\d{1,9})?", clock, re.A):
        for place, most, words in ((11, 23, "the hour is above 23"), (14, 59, "the minute is above 59"), (17, 60, "the second is above 60")):
            if int(told[place : place + 2]) > most:
                return wrong(place, words)
    if not fits or not told.isascii():
        return wrong(at)
    sign, hours, minutes = fits[8], int(fits[9] or 0), int(fits[10] or 0)
    if hours > 23:
        return wrong(len(told) - 5, "the hour is above 23")
    if minutes > 59:
        return wrong(len(told) - 2, "the minute is above 59")
    offset = (hours * 3_600 + minutes * 60) * (-1 if sign == "-" else 1)
    hour, minute, second = (int(fits[it]) for it in (4, 5, 6))
    leap = second == 60
    day = (datetime.date(2000 + year % 400, month, day) - datetime.date(1970, 1, 1)).days + 146_097 * (year // 400 - 5)
    secs = day * DAY + hour * 3_600 + minute * 60 + second - leap
    nanos = int((fits[7] or "").ljust(9, "0")) + leap * NANOS
    if year >= 1 and not leap:
        at = datetime.datetime.fromisoformat(told[:19].replace("t", "T").replace(" ", "T"))
        assert (at - datetime.datetime(1970, 1, 1)) == datetime.timedelta(seconds=secs), told
    return f"{text(secs, nanos)}{offset_text(offset)} {secs - offset}"


def near_text(draw):
    """A text of RFC 3339, or one that is a change or two away from it."""
    year, month, day = draw.choice((draw.randrange(10_000), 2024, 1900)), draw.randrange(0, 14), draw.choice((draw.randrange(0, 33), 28, 29))
    hour, minute, second = draw.randrange(26), draw.choice((draw.randrange(62), 59)), draw.choice((draw.randrange(63), 59, 60))
    fraction = draw.choice(("", "", f".{draw.randrange(10**9):09}"[: draw.randrange(1, 12)], ".5", "."))
    zone = draw.choice(("Z", "z", "+00:00", "-00:00", f"{draw.choice('+-')}{draw.randrange(26):02}:{draw.randrange(62):02}"))
    told = f"{year:04}-{month:02}-{day:02}{draw.choice('TTTt ')}{hour:02}:{minute:02}:{second:02}{fraction}{zone}"
    for _ in range(draw.choice((0, 0, 0, 1, 1, 2))):
        at = draw.randrange(len(told) + 1)
        told = draw.choice((told[:at] + draw.choice("0129:+-TZ. x") + told[at:], told[:at] + told[at + 1 :], told[:at], told[:at] + draw.choice("059:.-+z ") + told[at + 1 :]))
    return told.strip() or "2024"


WEEKDAYS = ("Mon", "Tue", "Wed", "Thu", "Fri", "Sat", "Sun")
MONTHS = ("Jan", "Feb", "Mar", "Apr", "May", "Jun", "Jul", "Aug", "Sep", "Oct", "Nov", "Dec")
# The hours behind UTC of the zones that RFC 2822 names.
ZONES = {"UT": 0, "GMT": 0, "EST": 5, "EDT": 4, "CST": 6, "CDT": 5, "MST": 7, "MDT": 6, "PST": 8, "PDT": 7}
MAIL = re.compile("(?:g?wg?,)?g?wgwgwgwg?:g?w(?:g?:g?w)?gwg?")


def mail_pieces(told):
    """The pieces of a text: `g` for white space and comments, `w` for a word, or a byte, each with its text and its place."""
    pieces, at = [], 0
    while at < len(told):
        start = at
        while at < len(told) and told[at] in " \t(":
            if told[at] != "(":
                at += 1
                continue
            open_, at = 1, at + 1
            while open_ and at < len(told):
                open_ += {"(": 1, ")": -1}.get(told[at], 0)
                at += 2 if told[at] == "\\" else 1
            if open_:
                return [*pieces, ("open", told[start:], len(told))]
        if at > start:
            pieces.append(("g", told[start:at], start))
            continue
        word = re.match(r"[A-Za-z0-9+-]+", told[at:])
        at += len(word[0]) if word else 1
        pieces.append(("w" if word else told[start], told[start:at], start))
    return pieces


def read_mail(told):
    """What a text is read as by a second grammar of RFC 2822, or None."""
    pieces = mail_pieces(told)
    if not MAIL.fullmatch("".join(kind for kind, _, _ in pieces)):
        return None
    words = [word for kind, word, _ in pieces if kind == "w"]
    weekday = words.pop(0).title() if any(kind == "," for kind, _, _ in pieces) else None
    day, month, year, hour, minute = words[:5]
    second, zone = words[5] if len(words) == 7 else "00", words[-1].upper()
    if weekday not in (None, *WEEKDAYS) or month.title() not in MONTHS or not re.fullmatch(r"\d{1,2}", day) or not re.fullmatch(r"\d\d+", year):
        return None
    if not all(re.fullmatch(r"\d\d", it) for it in (hour, minute, second)):
        return None
    month, day = MONTHS.index(month.title()) + 1, int(day)
    year = int(year) + {2: 2000 if int(year) < 50 else 1900, 3: 1900}.get(len(year), 0)
    if year > 262_142 or not 1 <= day <= length_of(year, month) or int(hour) > 23 or int(minute) > 59 or int(second) > 60:
        return None
    digits = re.fullmatch(r"([+-])([01]\d|2[0-3])([0-5]\d)", zone)
    if digits:
        offset = (int(digits[2]) * 3_600 + int(digits[3]) * 60) * (-1 if digits[1] == "-" else 1)
    elif zone in ZONES:
        offset = -3_600 * ZONES[zone]
    elif re.fullmatch("[A-IK-Z]", zone):
        offset = 0
    else:
        return None
    ordinal = (datetime.date(2000 + year % 400, month, day) - datetime.date(1970, 1, 1)).days + 146_097 * (year // 400 - 5)
    if weekday and WEEKDAYS[(ordinal + 3) % 7] != weekday:
        return None
    leap = second == "60"
    secs = ordinal * DAY + int(hour) * 3_600 + int(minute) * 60 + int(second) - leap
    plain = " ".join(words[:3]) + f" {hour}:{minute}:{second} {zone}"
    if 1_000 <= year <= 9_999 and len(words[2]) == 4 and not leap and len(zone) != 1:
        assert email.utils.mktime_tz(email.utils.parsedate_tz(plain)) == secs - offset, told
    return f"{text(secs, leap * NANOS)}{offset_text(offset)} {secs - offset}" if FIRST <= secs - offset <= LAST else None


def in_common(word, names):
    """How many bytes a word begins with as one of the names does, in letters of any case."""
    return max(len(os.path.commonprefix((word.upper(), name.upper()))) for name in names)


def mail_fault(told):
    """Why a text is none of RFC 2822: the first byte at which no text goes on so, or the first number that is out of range."""
    pieces = [*mail_pieces(told), ("end", "", len(told))]
    at = 0
    fault = lambda place, words="not of this form": f"byte {place}: {words}"  # noqa: E731

    def ahead():
        """The piece behind a gap, which may be there. An open comment is one to the end."""
        nonlocal at
        at += pieces[at][0] == "g"
        return pieces[at] if pieces[at][0] != "open" else ("open", "", len(told))

    def word():
        """The word behind a gap and its place, or the empty word and where one had to be."""
        nonlocal at
        kind, piece, place = ahead()
        at += kind == "w"
        return (piece if kind == "w" else ""), place

    def passed(sign):
        """Passes over a sign behind a gap, if it is there."""
        nonlocal at
        there = ahead()[0] == sign
        at += there
        return there

    def number_fault(most, name):
        digits, place = word()
        fits = len(re.match(r"\d{0,2}", digits)[0])
        if fits != 2 or len(digits) != 2:
            return fault(place + fits)
        return fault(place, f"the {name} is above {most}") if int(digits) > most else None

    weekday, (kind, piece, weekday_at) = "", ahead()
    if kind == "w" and piece[0].isalpha():
        weekday, _ = word()
        if weekday.title() not in WEEKDAYS:
            return fault(weekday_at + in_common(weekday, WEEKDAYS), "an unknown name")
        if not passed(","):
            return fault(ahead()[2])
    day, day_at = word()
    if not re.fullmatch(r"\d{1,2}", day):
        return fault(day_at + len(re.match(r"\d{0,2}", day)[0]))
    month, place = word()
    if month.title() not in MONTHS:
        return fault(place + in_common(month, MONTHS), "an unknown name")
    year, place = word()
    if not re.fullmatch(r"\d\d+", year):
        return fault(place + len(re.match(r"\d*", year)[0]))
    meant = int(year) + {2: 2000 if int(year) < 50 else 1900, 3: 1900}.get(len(year), 0)
    if meant > 262_142:
        return fault(place, "the year is not from -262143 to 262142")
    month = MONTHS.index(month.title()) + 1
    if not 1 <= int(day) <= length_of(meant, month):
        return fault(day_at, "the day is 0" if int(day) == 0 else f"the month has {length_of(meant, month)} days")
    if weekday and datetime.date(2000 + meant % 400, month, int(day)).weekday() != WEEKDAYS.index(weekday.title()):
        return fault(weekday_at)
    wrong = number_fault(23, "hour") or (number_fault(59, "minute") if passed(":") else fault(ahead()[2]))
    if wrong := wrong or (number_fault(60, "second") if passed(":") else None):
        return wrong
    zone, place = word()
    if zone[:1] in ("+", "-"):
        fits = len(re.match(r"\d{0,4}", zone[1:])[0])
        if fits != 4 or len(zone) != 5:
            return fault(place + 1 + fits)
        if int(zone[1:3]) > 23:
            return fault(place + 1, "the hour is above 23")
        if int(zone[3:]) > 59:
            return fault(place + 3, "the minute is above 59")
    elif zone.upper() not in ZONES and not re.fullmatch("[A-IK-Za-ik-z]", zone):
        return fault(place + in_common(zone, (*ZONES, *"ABCDEFGHIKLMNOPQRSTUVWXYZ")), "an unknown name")
    kind, _, place = ahead()
    return fault(0, OUT_OF_RANGE) if kind == "end" else fault(place)


def near_mail(draw):
    """A text of RFC 2822, or one that is a change or two away from it."""
    gap = lambda: draw.choice((" ", " ", " ", "  ", "\t", " (a) ", "(a (b) \\) c)", " (1)(2)"))  # noqa: E731
    none = lambda: draw.choice(("", "", "", "", gap()))  # noqa: E731
    year = draw.choice((draw.randrange(1_000, 10_000), draw.randrange(1_000, 10_000), 2024, 1900, draw.randrange(100), draw.randrange(1_000), 262_142, draw.randrange(300_000)))
    month, day = draw.randrange(1, 13), draw.choice((draw.randrange(1, 29), draw.randrange(0, 33), 28, 29))
    digits = draw.choice((f"{year:02}", f"{year:03}", f"{year:04}", f"{year:04}"))
    meant = int(digits) + {2: 2000 if int(digits) < 50 else 1900, 3: 1900}.get(len(digits), 0)
    weekday = ""
    if draw.random() < 0.6:
        right = 1 <= day <= length_of(meant, month) and draw.random() < 0.8
        place = (datetime.date(2000 + meant % 400, month, day).weekday() if right else draw.randrange(7))
        weekday = f"{none()}{WEEKDAYS[place]}{none()},"
    hour, minute = draw.randrange(25), draw.choice((draw.randrange(60), draw.randrange(62), 59))
    second = draw.choice(("", f"{none()}:{none()}{draw.choice((draw.randrange(60), 59, 60, 61)):02}"))
    zone = draw.choice(("+0000", "-0000", *ZONES, draw.choice("AZJyj"), f"{draw.choice('+-')}{draw.randrange(25):02}{draw.randrange(61):02}"))
    day = draw.choice((f"{day}", f"{day:02}"))
    told = f"{weekday}{none()}{day}{gap()}{MONTHS[month - 1]}{gap()}{digits}{gap()}{hour:02}{none()}:{none()}{minute:02}{second}{gap()}{zone}{none()}"
    told = draw.choice((told, told, told, told.upper(), told.lower()))
    for _ in range(draw.choice((0, 0, 0, 1, 1, 2))):
        at = draw.randrange(len(told) + 1)
        told = draw.choice((told[:at] + draw.choice("0129:+-,TZ x()") + told[at:], told[:at] + told[at + 1 :], told[:at], told[:at] + draw.choice("059:,.-+z ()") + told[at + 1 :]))
    return told.strip() or "21 Nov"


def fitting(form, told):
    """How many bytes of the text are as a form says: `d` is any digit, and `n` one that is not 0."""
    at = 0
    while at < min(len(form), len(told)) and told[at] in {"d": "0123456789", "n": "123456789"}.get(form[at], form[at]):
        at += 1
    return at


def year_form(told):
    """The form of the year that a text begins with."""
    digits = len(re.match(r"[0-9]*", told[1:])[0])
    for front, form in (("-000", "-000n"), ("-0", "-0ddd"), ("-", "-nddd" + "d" * (digits - 4)), ("+", "+ndddd" + "d" * (digits - 5))):
        if told.startswith(front):
            return form
    return "dddd"


def iso_day(told):
    """The day since 1970 that a date of ISO 8601 names, or where it is wrong and why."""
    year = year_form(told)
    forms = {it: year + it for it in ("-dd-dd", "-ddd", "-Wdd-d")}
    end = next((it for it, form in forms.items() if fitting(form, told) == len(form) == len(told)), None)
    if not end:
        return max(fitting(it, told) for it in forms.values()), "not of this form"
    year, at = int(told[: len(year)]), len(year)
    if not -262_143 <= year <= 262_142 + (end == "-Wdd-d"):
        return 0, "the year is not from -262143 to 262142"
    like, days = 2000 + year % 400, 146_097 * ((year - year % 400) // 400 - 5)
    numbers = [int(it) for it in re.findall("[0-9]+", told[at:])]
    if end == "-Wdd-d":
        weeks = datetime.date(like, 12, 28).isocalendar()[1]
        if not 1 <= numbers[0] <= weeks:
            return at + 2, f"the year has {weeks} weeks" if numbers[0] else "the week is 0"
        if not 1 <= numbers[1] <= 7:
            return at + 5, "the weekday is not from 1 to 7"
        date = datetime.date.fromisocalendar(like, *numbers)
    elif end == "-ddd":
        length = 365 + (length_of(year, 2) == 29)
        if not 1 <= numbers[0] <= length:
            return at + 1, f"the year has {length} days" if numbers[0] else "the day of the year is 0"
        date = datetime.date(like, 1, 1) + datetime.timedelta(days=numbers[0] - 1)
    else:
        if not 1 <= numbers[0] <= 12:
            return at + 1, "the month is above 12" if numbers[0] else "the month is 0"
        if not 1 <= numbers[1] <= length_of(year, numbers[0]):
            return at + 4, f"the month has {length_of(year, numbers[0])} days" if numbers[1] else "the day is 0"
        date = datetime.date(like, *numbers)
    day = (date - datetime.date(1970, 1, 1)).days + days
    return day if FIRST <= day * DAY <= LAST else (0, OUT_OF_RANGE)


def iso_size(told):
    """The seconds that stand behind the sign of an offset, or where they are wrong and why."""
    fits = fitting("dd:dd:dd", told)
    if fits != len(told) or fits not in (2, 5, 8):
        return fits, "not of this form"
    hours, minutes, seconds = (*map(int, told.split(":")), 0, 0)[:3]
    if hours > 23:
        return 0, "the hour is above 23"
    if minutes > 59:
        return 3, "the minute is above 59"
    return hours * 3_600 + minutes * 60 + seconds if fits < 8 or 1 <= seconds <= 59 else (6, "not of this form")


def iso_offset(told):
    """The offset that a text of ISO 8601 ends with, or where it is wrong and why."""
    if told[:1] not in ("Z", "+", "-"):
        return 0, "not of this form"
    if told[0] == "Z":
        return 0 if len(told) == 1 else (1, "not of this form")
    size = iso_size(told[1:])
    if isinstance(size, tuple):
        return size[0] + 1, size[1]
    return size if told[0] == "+" else -size


def iso_clock(told):
    """The second of the day and its nanoseconds that a time of ISO 8601 shows, or where it is wrong and why."""
    told = told + ":00" if len(told) == 5 else told[:8] + told[8:9].replace(",", ".") + told[9:19]
    fits = re.fullmatch(r"(\d\d):(\d\d):(\d\d)(?:\.(\d{1,9}))?", told, re.A)
    if not fits:
        return max(fitting("dd:dd:dd" + ("." + "d" * it if it else ""), told) for it in range(10)), "not of this form"
    hour, minute, second = map(int, fits.groups()[:3])
    for place, number, most, name in ((0, hour, 23, "hour"), (3, minute, 59, "minute"), (6, second, 60, "second")):
        if number > most:
            return place, f"the {name} is above {most}"
    leap = second == 60
    return hour * 3_600 + minute * 60 + second - leap, int((fits[4] or "").ljust(9, "0")) + leap * NANOS, True


def read_iso(told):
    """What a text is read as by a second grammar of ISO 8601, or what is wrong with it."""
    front, separator, behind = told.partition("T")
    fault = lambda wrong, place: f"byte {wrong[0] + place}: {wrong[1]}"  # noqa: E731
    day = iso_day(front)
    if isinstance(day, tuple):
        return fault(day, 0)
    if not separator:
        return fault((len(told), "not of this form"), 0)
    length = len(re.match("[^Z+-]*", behind)[0])
    clock = iso_clock(behind[:length])
    if len(clock) == 2:
        return fault(clock, len(front) + 1)
    offset = iso_offset(behind[length:])
    if isinstance(offset, tuple):
        return fault(offset, len(front) + 1 + length)
    secs = day * DAY + clock[0]
    if not FIRST <= secs - offset <= LAST:
        return fault((0, OUT_OF_RANGE), 0)
    return f"{text(secs, clock[1])}{offset_text(offset)} {secs - offset}"


def without_separators(told):
    """The text of the basic form for one of the extended form: with no `-` in its date, and no `:`."""
    date, separator, behind = told.partition("T")
    return date.replace("-", "") + separator + behind.replace(":", "")


def read_basic(told):
    """What the text of the basic form is read as, by that of the extended form: an error stands as many bytes earlier as are left out."""
    answer = read_iso(told)
    wrong = re.match("byte ([0-9]+)(.*)", answer)
    return f"byte {len(without_separators(told[: int(wrong[1])]))}{wrong[2]}" if wrong else answer


def put_in(told, sign, places):
    """The bytes of a text with their places, and a sign in front of those at these places."""
    marked, places = [], [min(it, len(told)) for it in places]
    for start, end in zip((0, *places), (*places, len(told))):
        marked += [(sign, start)] * bool(marked or start) + [(byte, start + at) for at, byte in enumerate(told[start:end])]
    return marked


def read_any(told):
    """What a text of either form is read as. One of the basic form is read with the signs that it leaves out, whose places are dropped."""
    if not re.match("[0-9]{4}[0-9W]", told):
        return read_iso(told)
    date, separator, behind = told.partition("T")
    length = len(re.match("[^Z+-]*", behind)[0])
    clock, offset = behind[:length], behind[length:]
    marked = put_in(date, "-", (4,) if len(date) == 7 else (4, 7 if date[4:5] == "W" else 6))
    if separator:
        parts = ((clock, (2,) if len(clock) <= 4 else (2, 4)), (offset, (3, 5)[: (len(offset) > 3) + (len(offset) > 5)]))
        start = len(date)
        marked.append(("T", start))
        for part, places in parts:
            marked += [(byte, start + 1 + place) for byte, place in put_in(part, ":", places)]
            start += len(part)
    answer = read_iso("".join(byte for byte, _ in marked))
    wrong = re.match("byte ([0-9]+)(.*)", answer)
    return f"byte {[*(place for _, place in marked), len(told)][int(wrong[1])]}{wrong[2]}" if wrong else answer


def iso_text(draw, years):
    """A text of ISO 8601 in a year of these, of which a number may be out of range."""
    year = draw.choice(years)
    date = draw.choice((f"-{draw.randrange(1, 13):02}-{draw.randrange(1, 29):02}", f"-{draw.randrange(0, 14):02}-{draw.randrange(0, 33):02}", f"-{draw.randrange(0, 368):03}", f"-{draw.randrange(360, 367):03}", f"-W{draw.randrange(0, 55):02}-{draw.randrange(0, 9)}"))
    clock = f"{draw.choice((draw.randrange(24), draw.randrange(26))):02}:{draw.choice((draw.randrange(60), draw.randrange(62))):02}"
    clock += draw.choice(("", f":{draw.choice((draw.randrange(60), draw.randrange(63), 60)):02}" + draw.choice(("", "", f"{draw.choice('.,')}{draw.randrange(10**9):09}"[: draw.randrange(1, 12)], ",5", "."))))
    offset = draw.choice(("Z", "Z", "-00", "-00:00", f"{draw.choice('+-')}{draw.randrange(25):02}", f"{draw.choice('+-')}{draw.randrange(24):02}:{draw.randrange(61):02}", f"{draw.choice('+-')}{draw.randrange(24):02}:{draw.randrange(60):02}:{draw.randrange(61):02}"))
    return f"{year}{date}T{clock}{offset}"


def near_iso(draw):
    """A text of ISO 8601, or one that is a change or two away from it."""
    year = draw.choice((f"{draw.randrange(10_000):04}", "2024", "2020", "1900", f"{draw.choice((draw.randrange(-300_000, 0), -262_143)):05}", f"+{draw.choice((draw.randrange(10_000, 300_000), 262_142, 262_143))}"))
    told = iso_text(draw, (year,))
    for _ in range(draw.choice((0, 0, 0, 1, 1, 2))):
        at = draw.randrange(len(told) + 1)
        told = draw.choice((told[:at] + draw.choice("0129:+-TWZ.,x") + told[at:], told[:at] + told[at + 1 :], told[:at], told[:at] + draw.choice("059:.,-+zT") + told[at + 1 :]))
    return told.strip() or "2024"


def is_date_time(secs, nanos):
    return FIRST <= secs <= LAST and nanos < 2 * NANOS and (nanos < NANOS or secs % 60 == 59)


def some(told):
    return f"Some({told})" if told else "None"


def answer(call, secs, nanos, offset, moved):
    """What the program has to print."""
    if call == "read":
        return read(secs)
    if call == "mail":
        return read_mail(secs) or mail_fault(secs)
    if call in ("iso", "basic"):
        return read_any(secs) if call == "iso" else read_basic(secs)
    if call in ("millis", "micros", "nanos"):
        unit = {"millis": 10**3, "micros": 10**6, "nanos": NANOS}[call]
        second, rest = divmod(secs, unit)
        told = text(second, rest * (NANOS // unit)) if FIRST <= second <= LAST else None
        return told if call == "nanos" else some(told)
    if not is_date_time(secs, nanos):
        return "None"
    if call == "stamp":
        count = secs * NANOS + nanos
        held = some(str(count) if -(2**63) <= count < 2**63 else None)
        return f"{text(secs, nanos)} {secs} {secs * 1000 + nanos // 10**6} {secs * 10**6 + nanos // 1000} {held}"
    if call == "local":
        at = secs - offset
        return f"{text(secs, nanos)}{offset_text(offset)} {at}" if FIRST <= at <= LAST else "None"
    if not FIRST <= secs + offset <= LAST:
        return "None"
    if call == "rfc3339":
        return rfc3339(secs, nanos, offset, moved)
    if call == "rfc2822":
        return rfc2822(secs, nanos, offset)
    if call == "iso8601":
        return text(secs + offset, nanos) + offset_text(offset) if nanos < NANOS or (secs + offset) % 60 == 59 else "None"
    if call == "moved":
        # A move out of a leap second counts that second, whichever way it goes.
        if nanos >= NANOS and moved:
            secs, nanos = secs + (moved < 0), nanos - NANOS
        secs += moved
        if not (FIRST <= secs <= LAST and FIRST <= secs + offset <= LAST):
            return "None"
    return some(text(secs + offset, nanos) + offset_text(offset))


def question(draw):
    """A random line: mostly years of today, some near the ends, some out of range."""
    call = draw.choice(("stamp", "stamp", "millis", "micros", "nanos", "zoned", "zoned", "local", "local", "moved", "rfc3339", "rfc3339", "rfc2822", "rfc2822", "read", "read", "read", "mail", "mail", "mail", "iso", "iso", "iso", "basic", "basic", "iso8601"))
    if call == "basic":
        return call, iso_text(draw, (f"{draw.randrange(10_000):04}", "2024", "2020", "1900")), "", "", ""
    if call in ("read", "mail", "iso"):
        return call, {"read": near_text, "mail": near_mail, "iso": near_iso}[call](draw), "", "", ""
    near = draw.random()
    if call in ("rfc3339", "rfc2822"):
        near = draw.choice((near, 0.0))
    if near < 0.4:
        secs = draw.randrange(-(2**33), 2**33)
    elif near < 0.7:
        secs = draw.randrange(FIRST, LAST + 1)
    elif near < 0.9:
        secs = draw.choice((FIRST, LAST, 0, -9_223_372_037, 9_223_372_036)) + draw.randrange(-100_000, 100_000)
    else:
        secs = draw.randrange(-(2**63), 2**63)
    if call in ("millis", "micros", "nanos"):
        unit = {"millis": 10**3, "micros": 10**6, "nanos": NANOS}[call]
        secs = secs * draw.choice((1, unit)) + draw.randrange(unit)
    nanos = draw.choice((0, 500_000_000, 1_000, draw.randrange(NANOS), draw.randrange(2 * NANOS), draw.randrange(2**32)))
    if nanos >= NANOS and draw.random() < 0.7:
        secs, nanos = secs - secs % 60 + 59, nanos % (2 * NANOS)
    secs = max(-(2**63), min(2**63 - 1, secs))
    offset = draw.choice((0, 3_600, 19_800, -18_000, -1, 60 * draw.randrange(-1_439, 1_440), draw.randrange(-DAY + 1, DAY)))
    return call, secs, nanos, offset, draw.randrange(-10**7, 10**7)


def line_of(question):
    """The line of the program's input that asks a question."""
    call, told = question[:2]
    return f"iso {without_separators(told)}" if call == "basic" else " ".join(map(str, question)).strip()


def answers_of(room, questions):
    """What the program answers."""
    folder = put_program(room, "instants", ["chrono_datetime", "chrono_zoned", "chrono_stamps"], PROGRAM)
    return answers_in_parts(room, folder, [line_of(it) for it in questions], PART)


def differing(questions, told, wanted):
    return [f"{line_of(it)}: {a}, not {b}" for it, a, b in zip(questions, told, wanted) if a != b]


def main():
    parser = argparse.ArgumentParser(description=__doc__.partition("\n")[0])
    parser.add_argument("--seed", type=int, default=1)
    parser.add_argument("--lines", type=int, default=20_000)
    options = parser.parse_args()
    draw = random.Random(options.seed)
    questions = [question(draw) for _ in range(options.lines)]
    wanted = [answer(*it) for it in questions]
    with tempfile.TemporaryDirectory(prefix="instants-") as room:
        told = answers_of(room, questions)
    wrong = differing(questions, told, wanted)
    for it in wrong[:20]:
        print(f"FAILED: {it}")
    changed = ["", *wanted[1:]]
    if len(differing(questions, told, changed)) != len(wrong) + 1 and told[0] == wanted[0]:
        sys.exit("a changed answer is not found")
    print(f"{len(wanted) - len(wrong)} passed, {len(wrong)} failed")
    sys.exit(bool(wrong))


if __name__ == "__main__":
    main()
