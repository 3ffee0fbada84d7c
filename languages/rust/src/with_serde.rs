//! The feature `serde`: each value is its text.

use core::fmt;
use core::marker::PhantomData;
use core::str::FromStr;

use serde::de::{Deserialize, Deserializer, Error, Visitor};
use serde::ser::{Serialize, Serializer};

use crate::{chrono, Date, DateTime, Duration, Weekday};

/// Reads the text of a value.
struct TextOf<T> {
    kind: &'static str,
    value: PhantomData<T>,
}

impl<T: FromStr> Visitor<'_> for TextOf<T> {
    type Value = T;

    fn expecting(&self, f: &mut fmt::Formatter<'_>) -> fmt::Result {
        write!(f, "the text of a {}", self.kind)
    }

    fn visit_str<E: Error>(self, text: &str) -> Result<T, E> {
        let refused = |_| E::invalid_value(serde::de::Unexpected::Str(text), &self);
        text.parse().map_err(refused)
    }
}

macro_rules! as_text {
    ($kind:literal, $name:ty, $pattern:literal) => {
        impl Serialize for $name {
            fn serialize<S: Serializer>(&self, serializer: S) -> Result<S::Ok, S::Error> {
                serializer.collect_str(&format_args!($pattern, self))
            }
        }

        impl<'de> Deserialize<'de> for $name {
            fn deserialize<D: Deserializer<'de>>(deserializer: D) -> Result<Self, D::Error> {
                let value = PhantomData;
                deserializer.deserialize_str(TextOf { kind: $kind, value })
            }
        }
    };
}

as_text!("date", Date, "{}");
as_text!("date-time", DateTime, "{}");
as_text!("duration", Duration, "{}");
as_text!("weekday", Weekday, "{}");

// The values of the module `chrono`, as chrono has them.
as_text!("date", chrono::NaiveDate, "{:?}");
as_text!("time", chrono::NaiveTime, "{:?}");
as_text!("date-time", chrono::NaiveDateTime, "{:?}");
as_text!("instant", chrono::DateTime<chrono::Utc>, "{:?}");
as_text!("instant", chrono::DateTime<chrono::FixedOffset>, "{:?}");
as_text!("weekday", chrono::Weekday, "{}");
as_text!("month", chrono::Month, "{:?}");
