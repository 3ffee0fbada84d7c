//! Texts that chrono reads.

use crate::words::{of_date, of_date_time, of_time, or_none};
use chrono::{Month, NaiveDate, Weekday};

/// What is read of a text, of those kinds that chrono reads; a date-time takes no space for its `T` there.
pub fn read(kind: &str, text: &str) -> Option<String> {
    Some(match kind {
        "date" => of_date(text.parse().ok()),
        "ordinal_date" => of_date(NaiveDate::parse_from_str(text, "%Y-%j").ok()),
        "week_date" => of_date(NaiveDate::parse_from_str(text, "%G-W%V-%u").ok()),
        "time" => of_time(text.parse().ok()),
        "date_time" if !text.contains(' ') => of_date_time(text.parse().ok()),
        "weekday" => or_none(text.parse::<Weekday>().ok().map(|day| [i64::from(day.number_from_monday())])),
        "month" => or_none(text.parse::<Month>().ok().map(|it| [i64::from(it.number_from_month())])),
        _ => return None,
    })
}
