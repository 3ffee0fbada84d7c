//! A field of a date by the shortest formula on its day number that is known here, with no check and no type: what the
//! divisions cost at the least.

/// The days and the years that are counted before day 1 and year 1, so that no number is negative.
const DAYS_BEFORE: i32 = 95_839_632;
const YEARS_BEFORE: i32 = 262_400;

/// The days from 1 March to 31 December.
const DAYS_FROM_MARCH: u32 = 306;

/// The days before a day.
fn before(days: i32) -> u32 {
    (days - 1 + DAYS_BEFORE) as u32
}

/// The years before a day, and the part of its year that is past, in 2^-39.
fn split(day: u32) -> (u32, u64) {
    let centuries = (4 * day + 3) / 146_097;
    let quarters = 4 * (day + (3 * centuries + 3) / 4) + 3;
    let product = 376_287_347 * u64::from(quarters);
    ((product >> 39) as u32, product % (1 << 39))
}

/// The place of a day in its year, from 0.
fn place(day: u32) -> u32 {
    ((1_461 * split(day).1) >> 41) as u32
}

pub fn year(days: i32) -> i32 {
    split(before(days)).0 as i32 + 1 - YEARS_BEFORE
}

pub fn ordinal(days: i32) -> u32 {
    place(before(days)) + 1
}

/// The month and the day of the month, by a year from March on.
pub fn month_day(days: i32) -> (u32, u32) {
    let place = place(before(days) + DAYS_FROM_MARCH);
    let scaled = 2_141 * place + 197_913;
    let month = scaled / 65_536;
    let month = if place < DAYS_FROM_MARCH {
        month
    } else {
        month - 12
    };
    (month, scaled % 65_536 / 2_141 + 1)
}

pub fn weekday(days: i32) -> u32 {
    before(days) % 7
}
