//! Reads the items of a pattern.

use core::borrow::Borrow;

use super::{Fixed, InternalKind, Item, Numeric, Pad, ParseResult, Parsed};
use super::{BAD_FORMAT, INVALID, NOT_ENOUGH, OUT_OF_RANGE, TOO_LONG, TOO_SHORT};
use crate::chrono::month::NAMES;
use crate::chrono::{FixedOffset, Weekday};

/// A year, a month and a day.
pub(crate) const DATE_ITEMS: &[Item<'static>] = &[
    Item::Numeric(Numeric::Year, Pad::Zero),
    Item::Space(""),
    Item::Literal("-"),
    Item::Numeric(Numeric::Month, Pad::Zero),
    Item::Space(""),
    Item::Literal("-"),
    Item::Numeric(Numeric::Day, Pad::Zero),
];

/// What stands between a date and a time.
pub(crate) const T_ITEMS: &[Item<'static>] = &[Item::Space(""), Item::Literal("T")];

/// An hour and a minute.
pub(crate) const MINUTE_ITEMS: &[Item<'static>] = &[
    Item::Numeric(Numeric::Hour, Pad::Zero),
    Item::Space(""),
    Item::Literal(":"),
    Item::Numeric(Numeric::Minute, Pad::Zero),
];

/// A second and its fraction, behind a minute.
pub(crate) const SECOND_ITEMS: &[Item<'static>] = &[
    Item::Space(""),
    Item::Literal(":"),
    Item::Numeric(Numeric::Second, Pad::Zero),
    Item::Fixed(Fixed::Nanosecond),
];

/// Spaces at the end.
pub(crate) const END_ITEMS: &[Item<'static>] = &[Item::Space("")];

/// Reads a whole text by items into fields.
///
/// Each item takes as much of the text as it can. White space and zeros before a number count for nothing.
///
/// # Errors
///
/// If the text does not fit the items. The fields then have what was read before.
pub fn parse<'a, I, B>(fields: &mut Parsed, text: &str, items: I) -> ParseResult<()>
where
    I: Iterator<Item = B>,
    B: Borrow<Item<'a>>,
{
    let rest = parse_and_remainder(fields, text, items)?;
    if rest.is_empty() {
        Ok(())
    } else {
        Err(TOO_LONG)
    }
}

/// Reads the beginning of a text by items into fields, and returns the rest.
///
/// # Errors
///
/// If no beginning of the text fits the items. The fields then have what was read before.
pub fn parse_and_remainder<'a, 't, I, B>(
    fields: &mut Parsed,
    text: &'t str,
    items: I,
) -> ParseResult<&'t str>
where
    I: Iterator<Item = B>,
    B: Borrow<Item<'a>>,
{
    let mut rest = text;
    for item in items {
        rest = read_item(fields, rest, item.borrow())?;
    }
    Ok(rest)
}

/// Reads a whole text by groups of items.
pub(crate) fn read(text: &str, groups: &[&[Item<'_>]]) -> ParseResult<Parsed> {
    let mut fields = Parsed::new();
    parse(&mut fields, text, groups.iter().copied().flatten())?;
    Ok(fields)
}

/// Reads a whole text by one part.
pub(crate) fn read_fixed(text: &str, fixed: Fixed) -> ParseResult<Parsed> {
    read(text, &[&[Item::Fixed(fixed)]])
}

/// Reads a date, a `T` or a space, a time and an offset, with spaces around each part.
pub(crate) fn read_instant(text: &str) -> ParseResult<Parsed> {
    let mut fields = Parsed::new();
    let rest = parse_and_remainder(&mut fields, text, DATE_ITEMS.iter())?;
    let is_between = |it: char| it.eq_ignore_ascii_case(&'T') || it.is_whitespace();
    let time = match rest.strip_prefix(is_between) {
        Some(time) => time,
        None if rest.is_empty() => return Err(NOT_ENOUGH),
        None => return Err(INVALID),
    };
    let offset = Item::Fixed(Fixed::TimezoneOffsetZ);
    let behind = [Item::Space(""), offset, Item::Space("")];
    let items = MINUTE_ITEMS.iter().chain(SECOND_ITEMS).chain(&behind);
    parse(&mut fields, time, items)?;
    Ok(fields)
}

/// Reads an offset alone.
pub(crate) fn read_offset(text: &str) -> ParseResult<FixedOffset> {
    read_fixed(text, Fixed::TimezoneOffset)?.to_fixed_offset()
}

/// Reads one item; the rest of the text.
fn read_item<'t>(fields: &mut Parsed, text: &'t str, item: &Item<'_>) -> ParseResult<&'t str> {
    match item {
        Item::Literal(wanted) => read_literal(text, wanted),
        #[cfg(feature = "alloc")]
        Item::OwnedLiteral(wanted) => read_literal(text, wanted),
        Item::Space(_) => Ok(text.trim_start()),
        #[cfg(feature = "alloc")]
        Item::OwnedSpace(_) => Ok(text.trim_start()),
        Item::Numeric(number, _) => read_number(fields, text, number),
        Item::Fixed(fixed) => read_part(fields, text, fixed),
        Item::Error => Err(BAD_FORMAT),
    }
}

fn read_literal<'t>(text: &'t str, wanted: &str) -> ParseResult<&'t str> {
    match text.strip_prefix(wanted) {
        Some(rest) => Ok(rest),
        None if text.len() < wanted.len() => Err(TOO_SHORT),
        None => Err(INVALID),
    }
}

/// The digits, from `least` to `most` of them, at the beginning of a text; their number and the rest.
fn digits(text: &str, least: usize, most: usize) -> ParseResult<(i64, &str)> {
    if text.len() < least {
        return Err(TOO_SHORT);
    }
    let count = text
        .bytes()
        .take(most)
        .take_while(u8::is_ascii_digit)
        .count();
    if count < least {
        return Err(INVALID);
    }
    let (number, rest) = text.split_at(count);
    let number = number.parse().map_err(|_| OUT_OF_RANGE)?;
    Ok((number, rest))
}

/// Reads a number behind white space. A year may have a sign, and then any number of digits.
fn read_number<'t>(fields: &mut Parsed, text: &'t str, number: &Numeric) -> ParseResult<&'t str> {
    let text = text.trim_start();
    let signed = matches!(number, Numeric::Year | Numeric::IsoYear);
    let (value, rest) = match text.as_bytes().first() {
        Some(b'-') if signed => {
            let (value, rest) = digits(&text[1..], 1, usize::MAX)?;
            (-value, rest)
        }
        Some(b'+') if signed => digits(&text[1..], 1, usize::MAX)?,
        _ => digits(text, 1, most_digits(number))?,
    };
    set_number(fields, number, value)?;
    Ok(rest)
}

/// The digits that a number is read from at most.
fn most_digits(number: &Numeric) -> usize {
    match number {
        Numeric::Year | Numeric::IsoYear => 4,
        Numeric::Quarter | Numeric::NumDaysFromSun | Numeric::WeekdayFromMon => 1,
        Numeric::Ordinal => 3,
        Numeric::Nanosecond => 9,
        Numeric::Timestamp => usize::MAX,
        _ => 2,
    }
}

/// Puts a number into its field.
fn set_number(fields: &mut Parsed, number: &Numeric, value: i64) -> ParseResult<()> {
    match number {
        Numeric::Year => fields.set_year(value),
        Numeric::YearDiv100 => fields.set_year_div_100(value),
        Numeric::YearMod100 => fields.set_year_mod_100(value),
        Numeric::IsoYear => fields.set_isoyear(value),
        Numeric::IsoYearDiv100 => fields.set_isoyear_div_100(value),
        Numeric::IsoYearMod100 => fields.set_isoyear_mod_100(value),
        Numeric::Quarter => fields.set_quarter(value),
        Numeric::Month => fields.set_month(value),
        Numeric::Day => fields.set_day(value),
        Numeric::WeekFromSun => fields.set_week_from_sun(value),
        Numeric::WeekFromMon => fields.set_week_from_mon(value),
        Numeric::IsoWeek => fields.set_isoweek(value),
        Numeric::NumDaysFromSun => fields.set_weekday(weekday(value, 0)?),
        Numeric::WeekdayFromMon => fields.set_weekday(weekday(value, 1)?),
        Numeric::Ordinal => fields.set_ordinal(value),
        Numeric::Hour => fields.set_hour(value),
        Numeric::Hour12 => fields.set_hour12(value),
        Numeric::Minute => fields.set_minute(value),
        Numeric::Second => fields.set_second(value),
        Numeric::Nanosecond => fields.set_nanosecond(value),
        Numeric::Timestamp => fields.set_timestamp(value),
    }
}

/// The weekday with a number from 0 for Sunday, or from 1 for Monday.
fn weekday(number: i64, least: i64) -> ParseResult<Weekday> {
    if number < least || number >= least + 7 {
        return Err(OUT_OF_RANGE);
    }
    Weekday::from_i64((number + 6) % 7).ok_or(OUT_OF_RANGE)
}

/// Reads a part that has rules of its own.
fn read_part<'t>(fields: &mut Parsed, text: &'t str, fixed: &Fixed) -> ParseResult<&'t str> {
    match fixed {
        Fixed::ShortMonthName | Fixed::LongMonthName => {
            let is_long = *fixed == Fixed::LongMonthName;
            let (place, rest) = name(text, |place| Some(*NAMES.get(place)?), is_long)?;
            fields.set_month(place as i64 + 1)?;
            Ok(rest)
        }
        Fixed::ShortWeekdayName | Fixed::LongWeekdayName => {
            let named = |place| Some(Weekday::from_u32(place as u32)?.name());
            let (place, rest) = name(text, named, *fixed == Fixed::LongWeekdayName)?;
            fields.set_weekday(weekday(place as i64 + 1, 1)?)?;
            Ok(rest)
        }
        Fixed::LowerAmPm | Fixed::UpperAmPm => {
            let letters = text.as_bytes().get(..2).ok_or(TOO_SHORT)?;
            let is_pm = letters.eq_ignore_ascii_case(b"pm");
            if !is_pm && !letters.eq_ignore_ascii_case(b"am") {
                return Err(INVALID);
            }
            fields.set_ampm(is_pm)?;
            Ok(&text[2..])
        }
        Fixed::Nanosecond | Fixed::Nanosecond3 | Fixed::Nanosecond6 | Fixed::Nanosecond9 => {
            read_fraction(fields, text)
        }
        Fixed::TimezoneName => Ok(text.trim_start_matches(|it: char| !it.is_whitespace())),
        Fixed::RFC2822 => read_rfc2822(fields, text),
        Fixed::RFC3339 => read_rfc3339(fields, text),
        Fixed::Internal(it) => match it.kind {
            InternalKind::Digits(digits) => read_digits(fields, text, usize::from(digits)),
            InternalKind::TimezoneOffsetPermissive => read_zone(fields, text, true, true),
        },
        Fixed::TimezoneOffsetColonZ | Fixed::TimezoneOffsetZ => {
            read_zone(fields, text, true, false)
        }
        _ => read_zone(fields, text, false, false),
    }
}

/// A name at the beginning of a text, short or, if that is asked for, long; its place among the names, and the rest.
fn name(
    text: &str,
    named: impl Fn(usize) -> Option<&'static str>,
    is_long: bool,
) -> ParseResult<(usize, &str)> {
    let bytes = text.as_bytes();
    let short = bytes.get(..3).ok_or(TOO_SHORT)?;
    let mut names = (0..).map_while(|place| Some((place, named(place)?)));
    let found = names.find(|(_, name)| short.eq_ignore_ascii_case(&name.as_bytes()[..3]));
    let (place, name) = found.ok_or(INVALID)?;
    let whole = bytes.get(..name.len());
    let is_whole = is_long && whole.is_some_and(|it| it.eq_ignore_ascii_case(name.as_bytes()));
    Ok((place, &text[if is_whole { name.len() } else { 3 }..]))
}

/// Reads a point and the digits of a fraction, if there is a point.
fn read_fraction<'t>(fields: &mut Parsed, text: &'t str) -> ParseResult<&'t str> {
    let Some(text) = text.strip_prefix('.') else {
        return Ok(text);
    };
    let (value, rest) = digits(text, 1, 9)?;
    let count = text.len() - rest.len();
    fields.set_nanosecond(value * 10_i64.pow(9 - count as u32))?;
    Ok(rest.trim_start_matches(|it: char| it.is_ascii_digit()))
}

/// Reads so many digits of a fraction.
fn read_digits<'t>(fields: &mut Parsed, text: &'t str, count: usize) -> ParseResult<&'t str> {
    let (value, rest) = digits(text, count, count)?;
    fields.set_nanosecond(value * 10_i64.pow(9 - count as u32))?;
    Ok(rest)
}

/// Reads an offset behind white space.
fn read_zone<'t>(
    fields: &mut Parsed,
    text: &'t str,
    zulu: bool,
    short: bool,
) -> ParseResult<&'t str> {
    let between =
        |text: &'t str| Ok(text.trim_start_matches(|it: char| it == ':' || it.is_whitespace()));
    let (offset, rest) = offset(text.trim_start(), zulu, short, between)?;
    fields.set_offset(offset)?;
    Ok(rest)
}

/// An offset in seconds, and the rest. It may be `Z` if `zulu`, and its minutes may be missing if `short`. `between` passes
/// what stands between hours and minutes.
fn offset<'t>(
    text: &'t str,
    zulu: bool,
    short: bool,
    between: impl Fn(&'t str) -> ParseResult<&'t str>,
) -> ParseResult<(i64, &'t str)> {
    if let (true, Some(rest)) = (zulu, text.strip_prefix(['Z', 'z'])) {
        return Ok((0, rest));
    }
    let sign = match text.as_bytes().first() {
        Some(b'+') => 1,
        Some(b'-') => -1,
        Some(_) => return Err(INVALID),
        None => return Err(TOO_SHORT),
    };
    let (hours, rest) = digits(&text[1..], 2, 2)?;
    let rest = between(rest)?;
    if short && !rest.starts_with(|it: char| it.is_ascii_digit()) {
        return Ok((sign * hours * 3_600, rest));
    }
    let (minutes, rest) = digits(rest, 2, 2)?;
    if minutes > 59 {
        return Err(OUT_OF_RANGE);
    }
    Ok((sign * (hours * 3_600 + minutes * 60), rest))
}

/// Reads the number with so many digits and then some text.
fn read_exactly<'t>(
    fields: &mut Parsed,
    text: &'t str,
    (number, count): (Numeric, usize),
    behind: &str,
) -> ParseResult<&'t str> {
    let (value, rest) = digits(text, count, count)?;
    set_number(fields, &number, value)?;
    read_literal(rest, behind)
}

/// Reads a text of RFC 3339.
fn read_rfc3339<'t>(fields: &mut Parsed, text: &'t str) -> ParseResult<&'t str> {
    let rest = read_exactly(fields, text, (Numeric::Year, 4), "-")?;
    let rest = read_exactly(fields, rest, (Numeric::Month, 2), "-")?;
    let rest = read_exactly(fields, rest, (Numeric::Day, 2), "")?;
    let rest = match rest.strip_prefix(['T', 't']) {
        Some(rest) => rest,
        None if rest.is_empty() => return Err(TOO_SHORT),
        None => return Err(INVALID),
    };
    let rest = read_exactly(fields, rest, (Numeric::Hour, 2), ":")?;
    let rest = read_exactly(fields, rest, (Numeric::Minute, 2), ":")?;
    let rest = read_exactly(fields, rest, (Numeric::Second, 2), "")?;
    let rest = read_fraction(fields, rest)?;
    let (seconds, rest) = offset(rest, true, false, |text| read_literal(text, ":"))?;
    if seconds.abs() >= 86_400 {
        return Err(OUT_OF_RANGE);
    }
    fields.set_offset(seconds)?;
    Ok(rest)
}

/// White space, of which there has to be some.
fn some_space(text: &str) -> ParseResult<&str> {
    let rest = text.trim_start();
    if rest.len() < text.len() {
        Ok(rest)
    } else if text.is_empty() {
        Err(TOO_SHORT)
    } else {
        Err(INVALID)
    }
}

/// Reads a text of RFC 2822, whose weekday and second may be missing, and comments behind it.
fn read_rfc2822<'t>(fields: &mut Parsed, text: &'t str) -> ParseResult<&'t str> {
    let mut rest = text.trim_start();
    if let Ok(behind) = read_part(fields, rest, &Fixed::ShortWeekdayName) {
        rest = behind.strip_prefix(',').ok_or(INVALID)?.trim_start();
    }
    rest = some_space(read_number(fields, rest, &Numeric::Day)?)?;
    rest = some_space(read_part(fields, rest, &Fixed::ShortMonthName)?)?;
    let (year, behind) = digits(rest, 2, usize::MAX)?;
    // (RFC 2822, 4.3: two digits are of 1950 to 2049, and three count from 1900)
    let year = match (rest.len() - behind.len(), year) {
        (2, 0..=49) => year + 2_000,
        (2 | 3, _) => year + 1_900,
        _ => year,
    };
    fields.set_year(year)?;
    rest = read_exactly(fields, some_space(behind)?, (Numeric::Hour, 2), "")?;
    rest = read_literal(rest.trim_start(), ":")?.trim_start();
    rest = read_exactly(fields, rest, (Numeric::Minute, 2), "")?;
    if let Some(behind) = rest.trim_start().strip_prefix(':') {
        rest = read_exactly(fields, behind.trim_start(), (Numeric::Second, 2), "")?;
    }
    let (seconds, mut rest) = named_offset(some_space(rest)?)?;
    seconds.map_or(Ok(()), |it| fields.set_offset(it))?;
    while let Some(behind) = comment(rest.trim_start()) {
        rest = behind;
    }
    Ok(rest)
}

/// The text behind a comment in parentheses, if it begins with one.
fn comment(text: &str) -> Option<&str> {
    let mut depth = 0;
    let mut is_quoted = false;
    for (at, byte) in text.bytes().enumerate() {
        match byte {
            _ if is_quoted => is_quoted = false,
            b'\\' if depth > 0 => is_quoted = true,
            b'(' => depth += 1,
            b')' if depth == 1 => return Some(&text[at + 1..]),
            b')' => depth -= 1,
            _ if depth == 0 => return None,
            _ => {}
        }
    }
    None
}

/// The names of zones in RFC 2822, 4.3, with their hours ahead of UTC.
const ZONES: [(&str, i64); 10] = [
    ("GMT", 0),
    ("UT", 0),
    ("EDT", -4),
    ("EST", -5),
    ("CDT", -5),
    ("CST", -6),
    ("MDT", -6),
    ("MST", -7),
    ("PDT", -7),
    ("PST", -8),
];

/// An offset of RFC 2822, by number or by name, and the rest. There is none by a name that RFC 2822 has not.
fn named_offset(text: &str) -> ParseResult<(Option<i64>, &str)> {
    let end = text
        .find(|it: char| !it.is_ascii_alphabetic())
        .unwrap_or(text.len());
    let (name, rest) = text.split_at(end);
    if name.is_empty() {
        let (seconds, rest) = offset(text, false, false, Ok)?;
        return Ok((Some(seconds), rest));
    }
    // (a letter that says nothing of an offset is as good as none)
    let of_letter = (name.len() == 1 && !name.eq_ignore_ascii_case("J")).then_some(0);
    let found = ZONES
        .iter()
        .find(|(zone, _)| zone.eq_ignore_ascii_case(name));
    Ok((found.map(|(_, hours)| hours * 3_600).or(of_letter), rest))
}
