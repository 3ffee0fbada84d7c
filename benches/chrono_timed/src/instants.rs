//! Calls of instants: Unix seconds, offsets, and texts of RFC 3339.

use crate::arguments::{table, Generator};
use crate::written::of_bytes;
use crate::{first, moment, of_moment, second, sum};
use chrono::{DateTime, FixedOffset, SecondsFormat, TimeZone};

fn offset(generator: &mut Generator) -> FixedOffset {
    let minutes = generator.below(2_879) as i32 - 1_439;
    FixedOffset::east_opt(60 * minutes).unwrap()
}

fn instant(generator: &mut Generator) -> DateTime<FixedOffset> {
    let moment = moment(generator);
    offset(generator).from_utc_datetime(&moment)
}

fn text(generator: &mut Generator) -> &'static str {
    let text = instant(generator).to_rfc3339_opts(SecondsFormat::Millis, false);
    Box::leak(text.into_boxed_str())
}

fn timestamps(mut generator: Generator, count: u64) -> u64 {
    let moments = table(&mut generator, moment);
    sum(generator, count, |drawn| {
        moments[first(drawn)].timestamp() as u64
    })
}

fn local_times(mut generator: Generator, count: u64) -> u64 {
    let moments = table(&mut generator, moment);
    let offsets = table(&mut generator, offset);
    sum(generator, count, |drawn| {
        let stamp = offsets[second(drawn)].from_utc_datetime(&moments[first(drawn)]);
        of_moment(Some(stamp.naive_local()))
    })
}

fn write_texts(mut generator: Generator, count: u64) -> u64 {
    let instants = table(&mut generator, instant);
    sum(generator, count, |drawn| {
        let text = instants[first(drawn)].to_rfc3339_opts(SecondsFormat::Millis, false);
        of_bytes(text.as_bytes())
    })
}

fn read_texts(mut generator: Generator, count: u64) -> u64 {
    let texts = table(&mut generator, text);
    sum(generator, count, |drawn| {
        DateTime::parse_from_rfc3339(texts[first(drawn)]).map_or(0, |stamp| stamp.timestamp() as u64)
    })
}

/// The sum of the answers of the call with a name.
pub fn sum_of_answers(name: &str, generator: Generator, count: u64) -> Option<u64> {
    Some(match name {
        "timestamp" => timestamps(generator, count),
        "to_offset" => local_times(generator, count),
        "write_rfc3339" => write_texts(generator, count),
        "read_rfc3339" => read_texts(generator, count),
        _ => return None,
    })
}
