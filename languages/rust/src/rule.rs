//! Recurrence rules over days.

use alloc::string::String;
use alloc::vec::Vec;
use core::fmt;
use core::iter::FusedIterator;
use core::str::FromStr;

use crate::calls::NONE;
use crate::layer_calls::*;
use crate::text_error::{Kind, TextError};
use crate::Date;

/// So many days are found at once, at most.
const AT_ONCE: usize = 64;

/// So many of a rule with COUNT. Each call counts it from its start, and one by one no more than the days of twice 400 years. So
/// all calls together count few days for each one that they find.
const AT_ONCE_OF_COUNT: usize = 1 << 17;

/// A recurrence rule of RFC 5545, such as `FREQ=MONTHLY;BYDAY=-1FR`. Its instances are days, from a start on.
///
/// The start is an instance only if it fits the rule. A monthly rule from the 31st has no instance in shorter months. It prints as the
/// text that it was read from. It needs the feature `alloc`.
///
/// ```
/// use proved_calendar::{Date, Rule};
/// let last_fridays: Rule = "FREQ=MONTHLY;BYDAY=-1FR".parse().unwrap();
/// let start = Date::from_ymd(2024, 1, 1).unwrap();
/// assert_eq!(last_fridays.next_after(start, start).unwrap().to_string(), "2024-01-26");
/// ```
#[derive(Clone, Debug, PartialEq, Eq, Hash)]
pub struct Rule {
    text: String,
}

impl Rule {
    /// The first instance after a day, of the rule that begins on `start`; `None` if there is none.
    ///
    /// ```
    /// use proved_calendar::{Date, Rule};
    /// let leap_days: Rule = "FREQ=YEARLY;BYMONTH=2;BYMONTHDAY=29".parse().unwrap();
    /// let start = Date::from_ymd(2096, 2, 29).unwrap();
    /// assert_eq!(leap_days.next_after(start, start), Date::from_ymd(2104, 2, 29));
    /// ```
    #[must_use]
    pub fn next_after(&self, start: Date, day: Date) -> Option<Date> {
        let (text, length) = (self.text.as_ptr(), self.text.len());
        // SAFETY: the text has as many bytes as its length says.
        let found = unsafe { calendar_rule_next(text, length, start.number(), day.number()) };
        (found != NONE).then(|| Date::from_number(found)).flatten()
    }

    /// The last instance before a day, of the rule that begins on `start`; `None` if there is none.
    ///
    /// ```
    /// use proved_calendar::{Date, Rule};
    /// let daily: Rule = "FREQ=DAILY;COUNT=3".parse().unwrap();
    /// let start = Date::from_ymd(2024, 2, 28).unwrap();
    /// assert_eq!(daily.prev_before(start, Date::MAX), Date::from_ymd(2024, 3, 1));
    /// ```
    #[must_use]
    pub fn prev_before(&self, start: Date, day: Date) -> Option<Date> {
        let (text, length) = (self.text.as_ptr(), self.text.len());
        // SAFETY: the text has as many bytes as its length says.
        let found = unsafe { calendar_rule_prev(text, length, start.number(), day.number()) };
        (found != NONE).then(|| Date::from_number(found)).flatten()
    }

    /// Whether a day is an instance of the rule that begins on `start`.
    ///
    /// ```
    /// use proved_calendar::{Date, Rule};
    /// let mondays: Rule = "FREQ=WEEKLY;BYDAY=MO".parse().unwrap();
    /// let start = Date::from_ymd(2024, 3, 1).unwrap();
    /// assert!(mondays.is_instance(start, Date::from_ymd(2024, 3, 4).unwrap()) && !mondays.is_instance(start, start));
    /// ```
    #[must_use]
    pub fn is_instance(&self, start: Date, day: Date) -> bool {
        let (text, length) = (self.text.as_ptr(), self.text.len());
        // SAFETY: the text has as many bytes as its length says.
        unsafe { calendar_rule_is_instance(text, length, start.number(), day.number()) }
    }

    /// The instances of the rule that begins on `start`, in order.
    ///
    /// ```
    /// use proved_calendar::{Date, Rule};
    /// let last_fridays: Rule = "FREQ=MONTHLY;BYDAY=-1FR".parse().unwrap();
    /// let start = Date::from_ymd(2024, 1, 1).unwrap();
    /// let days: Vec<u32> = last_fridays.instances(start).take(3).map(|it| it.day()).collect();
    /// assert_eq!(days, [26, 23, 29]);
    /// ```
    #[must_use]
    pub fn instances(&self, start: Date) -> RuleDays<'_> {
        self.instances_between(start, start, Date::MAX)
    }

    /// The instances of the rule that begins on `start`, from a day on and up to another, which both count.
    ///
    /// ```
    /// use proved_calendar::{Date, Rule};
    /// let daily: Rule = "FREQ=DAILY".parse().unwrap();
    /// let [from, until] = [1, 31].map(|day| Date::from_ymd(2024, 3, day).unwrap());
    /// assert_eq!(daily.instances_between(Date::UNIX_EPOCH, from, until).count(), 31);
    /// ```
    #[must_use]
    pub fn instances_between(&self, start: Date, from: Date, until: Date) -> RuleDays<'_> {
        let has_count = self.part("COUNT").is_some();
        RuleDays {
            rule: self,
            start,
            from: from.number(),
            until,
            found: Vec::new(),
            given: 0,
            room: if has_count { AT_ONCE } else { 1 },
            most: if has_count { AT_ONCE_OF_COUNT } else { AT_ONCE },
        }
    }

    /// The value of the part with a name.
    pub(crate) fn part(&self, name: &str) -> Option<&str> {
        let mut parts = self.text.split(';').filter_map(|it| it.split_once('='));
        parts.find_map(|(key, value)| key.eq_ignore_ascii_case(name).then_some(value))
    }

    /// The text that it was read from.
    ///
    /// ```
    /// let rule: proved_calendar::Rule = "FREQ=DAILY".parse().unwrap();
    /// assert_eq!(rule.as_str(), "FREQ=DAILY");
    /// ```
    #[must_use]
    pub fn as_str(&self) -> &str {
        &self.text
    }
}

impl FromStr for Rule {
    type Err = TextError;

    /// ```
    /// use proved_calendar::Rule;
    /// let wrong = "FREQ=YEARLY;BYMONTH=13".parse::<Rule>().unwrap_err();
    /// assert_eq!((wrong.start(), wrong.end()), (20, 22));
    /// ```
    fn from_str(text: &str) -> Result<Rule, TextError> {
        let mut fault = Fault::NONE;
        // SAFETY: the text has as many bytes as its length says.
        if unsafe { calendar_rule_check(text.as_ptr(), text.len(), &mut fault) } {
            Ok(Rule { text: text.into() })
        } else {
            Err(TextError {
                fault,
                kind: Kind::Rule,
            })
        }
    }
}

impl fmt::Display for Rule {
    fn fmt(&self, f: &mut fmt::Formatter<'_>) -> fmt::Result {
        f.pad(&self.text)
    }
}

/// The instances of a [`Rule`], in order.
///
/// ```
/// use proved_calendar::{Date, Rule};
/// let rule: Rule = "FREQ=DAILY;COUNT=2".parse().unwrap();
/// assert_eq!(rule.instances(Date::MIN).last(), Date::MIN.checked_add_days(1));
/// ```
#[derive(Clone, Debug)]
pub struct RuleDays<'a> {
    rule: &'a Rule,
    start: Date,
    /// The day number from which on the next ones are found.
    from: i32,
    until: Date,
    /// Those that were found, and how many of them were given.
    found: Vec<i32>,
    given: usize,
    /// How many are found next, at most `most`, or 0 if there are no more. It begins with few, as who wants one should not wait for more.
    room: usize,
    most: usize,
}

impl RuleDays<'_> {
    /// Finds the next ones.
    fn refill(&mut self) {
        self.given = 0;
        self.found.clear();
        self.found.resize(self.room, NONE);
        let (text, length) = (self.rule.text.as_ptr(), self.rule.text.len());
        let (start, until) = (self.start.number(), self.until.number());
        let (out, room) = (self.found.as_mut_ptr(), self.room);
        // SAFETY: the text has as many bytes as its length says, and there are so many elements.
        let count =
            unsafe { calendar_rule_instances(text, length, start, self.from, until, out, room) };
        self.found.truncate(count);
        // (fewer than asked for are the last ones)
        self.room = if count < room {
            0
        } else {
            self.most.min(4 * room)
        };
    }
}

impl Iterator for RuleDays<'_> {
    type Item = Date;

    fn next(&mut self) -> Option<Date> {
        if self.given == self.found.len() && self.room > 0 {
            self.refill();
        }
        let number = *self.found.get(self.given)?;
        self.given += 1;
        self.from = number + 1;
        Date::from_number(number)
    }
}

impl FusedIterator for RuleDays<'_> {}

#[cfg(test)]
mod tests {
    use super::*;

    /// How often the library is asked while all days are listed.
    fn searches(mut days: RuleDays<'_>) -> usize {
        let mut count = 0;
        loop {
            if days.given == days.found.len() && days.room > 0 {
                count += 1;
            }
            if days.next().is_none() {
                return count;
            }
        }
    }

    #[test]
    fn long_lists_take_few_searches() {
        for (text, count) in [
            ("FREQ=DAILY;COUNT=50000", 6),
            ("count=50000;freq=daily", 6),
            ("FREQ=DAILY;UNTIL=19700430", 5),
        ] {
            let rule: Rule = text.parse().unwrap();
            assert_eq!(searches(rule.instances(Date::UNIX_EPOCH)), count);
        }
    }
}
