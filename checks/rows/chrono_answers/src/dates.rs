//! Calls of `NaiveDate`, `NaiveWeek` and `IsoWeek`.

use crate::words::{
    date, duration, is_stray_leap, next, of_date, of_date_time, of_dates, of_duration, or_none, order, time, weekday,
    words_of, Words,
};
use chrono::{Datelike, Days, Months, NaiveDate};

pub fn answer(name: &str, words: &mut Words) -> Option<String> {
    let made = match name {
        "MIN" | "MAX" => return None,
        "default" => Some(NaiveDate::default()),
        "from_ymd_opt" => NaiveDate::from_ymd_opt(next(words)?, next(words)?, next(words)?),
        "from_yo_opt" => NaiveDate::from_yo_opt(next(words)?, next(words)?),
        "from_isoywd_opt" => NaiveDate::from_isoywd_opt(next(words)?, next(words)?, weekday(words)?),
        "from_num_days_from_ce_opt" => NaiveDate::from_num_days_from_ce_opt(next(words)?),
        "from_weekday_of_month_opt" => {
            let (year, month, day) = (next(words)?, next(words)?, weekday(words)?);
            NaiveDate::from_weekday_of_month_opt(year, month, day, next(words)?)
        }
        "from_epoch_days" => return None,
        _ => return of_one(name, date(words)?, words),
    };
    Some(of_date(made))
}

fn of_one(name: &str, own: NaiveDate, words: &mut Words) -> Option<String> {
    let moved = match name {
        "succ_opt" => own.succ_opt(),
        "pred_opt" => own.pred_opt(),
        "checked_add_days" => own.checked_add_days(Days::new(next(words)?)),
        "checked_sub_days" => own.checked_sub_days(Days::new(next(words)?)),
        "checked_add_months" => own.checked_add_months(Months::new(next(words)?)),
        "checked_sub_months" => own.checked_sub_months(Months::new(next(words)?)),
        "checked_add_signed" => own.checked_add_signed(duration(words)?),
        "checked_sub_signed" => own.checked_sub_signed(duration(words)?),
        "iter_days" => return walk(own, own.iter_days(), words.next()?),
        "iter_weeks" => return walk(own, own.iter_weeks(), words.next()?),
        "and_time" => return Some(of_date_time(Some(own.and_time(time(words)?)))),
        "and_hms_opt" => return Some(of_date_time(own.and_hms_opt(next(words)?, next(words)?, next(words)?))),
        "and_hms_milli_opt" | "and_hms_micro_opt" | "and_hms_nano_opt" => return joined(name, own, words),
        "signed_duration_since" => return Some(of_duration(Some(own.signed_duration_since(date(words)?)))),
        "years_since" => return Some(or_none(own.years_since(date(words)?).map(|it| [i64::from(it)]))),
        "cmp" => return order(&own, &date(words)?),
        _ if name.starts_with("with_") => with_field(name, &own, words)?,
        _ => return read(name, &own),
    };
    Some(of_date(moved))
}

fn joined(name: &str, own: NaiveDate, words: &mut Words) -> Option<String> {
    let (hour, minute, second) = (next(words)?, next(words)?, next(words)?);
    let fraction = next(words)?;
    let (unit, made) = match name {
        "and_hms_milli_opt" => (1_000_000, own.and_hms_milli_opt(hour, minute, second, fraction)),
        "and_hms_micro_opt" => (1_000, own.and_hms_micro_opt(hour, minute, second, fraction)),
        _ => (1, own.and_hms_nano_opt(hour, minute, second, fraction)),
    };
    (!is_stray_leap(second, fraction, unit)).then(|| of_date_time(made))
}

/// A date, or what has one, with a field replaced.
pub fn with_field<T: Datelike>(name: &str, own: &T, words: &mut Words) -> Option<Option<T>> {
    Some(match name {
        "with_year" => own.with_year(next(words)?),
        "with_month" => own.with_month(next(words)?),
        "with_month0" => own.with_month0(next(words)?),
        "with_day" => own.with_day(next(words)?),
        "with_day0" => own.with_day0(next(words)?),
        "with_ordinal" => own.with_ordinal(next(words)?),
        "with_ordinal0" => own.with_ordinal0(next(words)?),
        _ => return None,
    })
}

/// What is read of a date, or of what has one.
pub fn read<T: Datelike>(name: &str, own: &T) -> Option<String> {
    let week = own.iso_week();
    Some(match name {
        "num_days_from_ce" => words_of([i64::from(own.num_days_from_ce())]),
        "year_month_day" => words_of([i64::from(own.year()), i64::from(own.month()), i64::from(own.day())]),
        "month0_day0" => words_of([own.month0(), own.day0()].map(i64::from)),
        "ordinal_ordinal0" => words_of([own.ordinal(), own.ordinal0()].map(i64::from)),
        "weekday" => words_of([i64::from(own.weekday().number_from_monday())]),
        "iso_week" => words_of([i64::from(week.year()), i64::from(week.week()), i64::from(week.week0())]),
        "year_ce" => words_of([i64::from(own.year_ce().0), i64::from(own.year_ce().1)]),
        _ => return None,
    })
}

/// The steps of an iterator over dates that stay well within the calendar, whose last date is another one there; so how many
/// dates are left is not asked.
fn walk<I>(start: NaiveDate, mut dates: I, steps: &str) -> Option<String>
where
    I: DoubleEndedIterator<Item = NaiveDate> + Clone + PartialEq,
{
    let (begun, reach) = (dates.clone(), 7 * (steps.len() as u64 + 1));
    let ends = [start.checked_sub_days(Days::new(reach)), start.checked_add_days(Days::new(reach))];
    if ends.iter().any(|end| of_date(*end) == "none") {
        return None;
    }
    let given = steps.bytes().map(|step| match step {
        b'n' => of_date(dates.next()),
        b'b' => of_date(dates.next_back()),
        b's' => words_of([i64::from(dates == begun)]),
        _ => "?".to_string(),
    });
    Some(given.collect::<Vec<_>>().join(" "))
}

/// `first_day` and its like, which panic past chrono's own calendar alone.
pub fn of_week(name: &str, words: &mut Words) -> Option<String> {
    let week = date(words)?.week(weekday(words)?);
    Some(match name {
        "checked_first_day" => of_date(Some(week.first_day())),
        "checked_last_day" => of_date(Some(week.last_day())),
        "checked_days" => of_dates(*week.days().start(), *week.days().end()),
        _ => return None,
    })
}

/// A week that is read of a date of its neighbour year is not that of its other dates there, as its order takes in the
/// shape of the date's year.
pub fn of_iso_weeks(name: &str, words: &mut Words) -> Option<String> {
    let (own, other) = (date(words)?, date(words)?);
    let is_of_year = |date: NaiveDate| date.iso_week().year() == date.year();
    match name {
        "cmp" if is_of_year(own) && is_of_year(other) => order(&own.iso_week(), &other.iso_week()),
        _ => None,
    }
}
