//! Patterns: `%Y-%m-%d` and their like.
//!
//! | Date | Writes | Time | Writes |
//! |---|---|---|---|
//! | `%Y`, `%C`, `%y` | year, its first digits, its last two | `%H`, `%k` | hour from 0, with a zero or a space |
//! | `%q`, `%m` | quarter, month | `%I`, `%l` | hour from 1 to 12, with a zero or a space |
//! | `%b`, `%h`, `%B` | month's name, short or long | `%P`, `%p` | `am` or `AM` |
//! | `%d`, `%e` | day with a zero or a space | `%M`, `%S` | minute, second |
//! | `%a`, `%A` | weekday's name, short or long | `%f` | nanoseconds, nine digits |
//! | `%w`, `%u` | weekday from 0 for Sunday, from 1 for Monday | `%.f` | a fraction of 0, 3, 6 or 9 digits |
//! | `%U`, `%W` | week from the first Sunday, Monday | `%.3f`, `%3f` | three digits (or 6, 9), with a point or not |
//! | `%G`, `%g`, `%V` | ISO year, its last two digits, ISO week | `%R`, `%T`, `%X` | `%H:%M`, `%H:%M:%S` |
//! | `%j` | day of the year | `%r` | `%I:%M:%S %p` |
//! | `%D`, `%x` | `%m/%d/%y` | `%Z` | name of the zone |
//! | `%F` | `%Y-%m-%d` | `%z`, `%:z` | offset, with a colon |
//! | `%v` | `%e-%b-%Y` | `%::z`, `%:::z` | offset with seconds, without minutes |
//! | `%c` | `%a %b %e %H:%M:%S %Y` | `%#z` | offset, read with or without minutes |
//! | `%+` | a text of RFC 3339 | `%s` | seconds since 1970 |
//!
//! `%t`, `%n` and `%%` are a tab, a line's end and `%`. In `%-d`, `%_d` and `%0d` a number has no padding, spaces or
//! zeros.

use super::{Fixed, InternalFixed, InternalKind, Item, Numeric, Pad};

/// The parts of a pattern, one after the other. A mistake is [`Item::Error`].
///
/// ```
/// use proved_calendar::chrono::{format::StrftimeItems, NaiveDate};
/// let items = StrftimeItems::new("%d %B");
/// let date = NaiveDate::from_ymd_opt(2024, 2, 29).unwrap();
/// assert_eq!(date.format_with_items(items).to_string(), "29 February");
/// ```
#[derive(Clone, Debug)]
pub struct StrftimeItems<'a> {
    /// What is left of a short pattern's long form.
    long: &'static str,
    rest: &'a str,
}

impl<'a> StrftimeItems<'a> {
    /// The parts of a pattern.
    #[must_use]
    pub const fn new(pattern: &'a str) -> StrftimeItems<'a> {
        StrftimeItems {
            long: "",
            rest: pattern,
        }
    }
}

impl<'a> Iterator for StrftimeItems<'a> {
    type Item = Item<'a>;

    fn next(&mut self) -> Option<Item<'a>> {
        if !self.long.is_empty() {
            let (found, rest) = first(self.long)?;
            self.long = rest;
            return match found {
                Part::Item(item) => Some(item),
                Part::Long(_) => Some(Item::Error),
            };
        }
        let (found, rest) = first(self.rest)?;
        self.rest = rest;
        match found {
            Part::Item(item) => Some(item),
            Part::Long(long) => {
                self.long = long;
                self.next()
            }
        }
    }
}

/// What stands first in a pattern.
enum Part<'a> {
    Item(Item<'a>),
    /// The long form of a short pattern.
    Long(&'static str),
}

/// The first part of a pattern, and the rest.
fn first(pattern: &str) -> Option<(Part<'_>, &str)> {
    let start = pattern.chars().next()?;
    if start == '%' {
        return Some(specifier(&pattern[1..]));
    }
    let is_space = start.is_whitespace();
    let is_end = |it: char| it == '%' || it.is_whitespace() != is_space;
    let end = pattern.find(is_end).unwrap_or(pattern.len());
    let (text, rest) = pattern.split_at(end);
    let item = if is_space {
        Item::Space(text)
    } else {
        Item::Literal(text)
    };
    Some((Part::Item(item), rest))
}

/// What follows a `%`, and the rest behind it.
fn specifier(text: &str) -> (Part<'_>, &str) {
    let padding = match text.chars().next() {
        Some('-') => Some(Pad::None),
        Some('0') => Some(Pad::Zero),
        Some('_') => Some(Pad::Space),
        _ => None,
    };
    let text = if padding.is_some() { &text[1..] } else { text };
    let Some((part, rest)) = named(text) else {
        let passed = text.chars().next().map_or(0, char::len_utf8);
        return (Part::Item(Item::Error), &text[passed..]);
    };
    let part = match (padding, part) {
        (None, part) => part,
        (Some(pad), Part::Item(Item::Numeric(number, _))) => Part::Item(Item::Numeric(number, pad)),
        _ => Part::Item(Item::Error),
    };
    (part, rest)
}

/// The specifiers of more than one letter.
const LONGER: [(&str, Fixed); 11] = [
    (".f", Fixed::Nanosecond),
    (".3f", Fixed::Nanosecond3),
    (".6f", Fixed::Nanosecond6),
    (".9f", Fixed::Nanosecond9),
    ("3f", internal(InternalKind::Digits(3))),
    ("6f", internal(InternalKind::Digits(6))),
    ("9f", internal(InternalKind::Digits(9))),
    (":::z", Fixed::TimezoneOffsetTripleColon),
    ("::z", Fixed::TimezoneOffsetDoubleColon),
    (":z", Fixed::TimezoneOffsetColon),
    ("#z", internal(InternalKind::TimezoneOffsetPermissive)),
];

const fn internal(kind: InternalKind) -> Fixed {
    Fixed::Internal(InternalFixed { kind })
}

/// The part that a specifier names, and the rest behind it; `None` for no specifier.
fn named(text: &str) -> Option<(Part<'_>, &str)> {
    let letter = text.chars().next()?;
    if !letter.is_ascii_alphabetic() {
        for (name, fixed) in LONGER {
            if let Some(rest) = text.strip_prefix(name) {
                return Some((Part::Item(Item::Fixed(fixed)), rest));
            }
        }
    }
    let part = number(letter)
        .map(|(numeric, pad)| Part::Item(Item::Numeric(numeric, pad)))
        .or_else(|| fixed(letter).map(|it| Part::Item(Item::Fixed(it))))
        .or_else(|| long_form(letter).map(Part::Long))
        .or_else(|| character(letter).map(Part::Item))?;
    Some((part, &text[letter.len_utf8()..]))
}

/// The number that a letter names, and its padding.
fn number(letter: char) -> Option<(Numeric, Pad)> {
    let numeric = match letter {
        'Y' => Numeric::Year,
        'C' => Numeric::YearDiv100,
        'y' => Numeric::YearMod100,
        'G' => Numeric::IsoYear,
        'g' => Numeric::IsoYearMod100,
        'q' => Numeric::Quarter,
        'm' => Numeric::Month,
        'd' | 'e' => Numeric::Day,
        'U' => Numeric::WeekFromSun,
        'W' => Numeric::WeekFromMon,
        'V' => Numeric::IsoWeek,
        'w' => Numeric::NumDaysFromSun,
        'u' => Numeric::WeekdayFromMon,
        'j' => Numeric::Ordinal,
        'H' | 'k' => Numeric::Hour,
        'I' | 'l' => Numeric::Hour12,
        'M' => Numeric::Minute,
        'S' => Numeric::Second,
        'f' => Numeric::Nanosecond,
        's' => Numeric::Timestamp,
        _ => return None,
    };
    let pad = match letter {
        'e' | 'k' | 'l' => Pad::Space,
        'q' | 'w' | 'u' | 's' => Pad::None,
        _ => Pad::Zero,
    };
    Some((numeric, pad))
}

/// The part with rules of its own that a letter names.
fn fixed(letter: char) -> Option<Fixed> {
    Some(match letter {
        'b' | 'h' => Fixed::ShortMonthName,
        'B' => Fixed::LongMonthName,
        'a' => Fixed::ShortWeekdayName,
        'A' => Fixed::LongWeekdayName,
        'P' => Fixed::LowerAmPm,
        'p' => Fixed::UpperAmPm,
        'Z' => Fixed::TimezoneName,
        'z' => Fixed::TimezoneOffset,
        '+' => Fixed::RFC3339,
        _ => return None,
    })
}

/// The pattern that a letter is short for.
fn long_form(letter: char) -> Option<&'static str> {
    Some(match letter {
        'D' | 'x' => "%m/%d/%y",
        'F' => "%Y-%m-%d",
        'v' => "%e-%b-%Y",
        'R' => "%H:%M",
        'T' | 'X' => "%H:%M:%S",
        'r' => "%I:%M:%S %p",
        'c' => "%a %b %e %H:%M:%S %Y",
        _ => return None,
    })
}

/// The character that a letter names.
fn character(letter: char) -> Option<Item<'static>> {
    Some(match letter {
        't' => Item::Space("\t"),
        'n' => Item::Space("\n"),
        '%' => Item::Literal("%"),
        _ => return None,
    })
}
