//! Sets of recurrence rules.

use alloc::vec::Vec;
use core::iter::{Copied, FusedIterator, Peekable};
use core::slice;

use crate::rule::RuleDays;
use crate::{Date, Rule};

/// The instances of some rules and some dates (RDATE), but for those of other rules and other dates (EXDATE).
///
/// Each day comes once. The proved library answers for each rule; what it answers is merged here, by code that is only tested. It needs
/// the feature `alloc`.
///
/// ```
/// use proved_calendar::{Date, RuleSet};
/// let [start, added, left_out] = [1, 4, 8].map(|day| Date::from_ymd(2024, 3, day).unwrap());
/// let fridays = "FREQ=WEEKLY;BYDAY=FR".parse().unwrap();
/// let set = RuleSet::new().with_rule(fridays, start).with_date(added).without_date(left_out);
/// let days: Vec<u32> = set.instances().take(3).map(|it| it.day()).collect();
/// assert_eq!(days, [1, 4, 15]);
/// ```
#[derive(Clone, Debug, Default, PartialEq, Eq, Hash)]
pub struct RuleSet {
    rules: Vec<(Rule, Date)>,
    /// In order, each once, as those that are left out.
    dates: Vec<Date>,
    except_rules: Vec<(Rule, Date)>,
    except_dates: Vec<Date>,
}

/// Puts a date among dates in order, once.
fn put(dates: &mut Vec<Date>, date: Date) {
    if let Err(place) = dates.binary_search(&date) {
        dates.insert(place, date);
    }
}

/// The days after which the calendar repeats: 400 years. And no year has more.
const CYCLE: i64 = 146_097;
const YEAR: i64 = 366;

/// Whether a rule has neither a count nor a last day.
fn is_endless(rule: &Rule) -> bool {
    rule.part("COUNT").is_none() && rule.part("UNTIL").is_none()
}

/// The least number that two divide, or the greatest of all where that is too large.
fn common(one: i64, other: i64) -> i64 {
    let (mut low, mut high) = (one, other);
    while high != 0 {
        (low, high) = (high, low % high);
    }
    (one / low).saturating_mul(other)
}

/// A stretch of days that endless rules leave out.
///
/// Endless rules repeat with the calendar, after as many cycles as their intervals need. So once all days of one such time are left
/// out, no day of an endless rule is an instance, from `begin` on.
#[derive(Clone, Debug)]
struct Stretch {
    begin: i64,
    most: i64,
    first: Option<i64>,
    is_over: bool,
}

impl Stretch {
    fn new(set: &RuleSet) -> Stretch {
        let all = set.rules.iter().chain(&set.except_rules);
        let (mut last, mut interval) = (0, 1);
        for (rule, start) in all.filter(|(rule, _)| is_endless(rule)) {
            last = last.max(i64::from(start.number()));
            let own = rule.part("INTERVAL").and_then(|it| it.parse().ok());
            interval = common(interval, own.unwrap_or(1));
        }
        Stretch {
            begin: interval.saturating_mul(YEAR).saturating_add(last),
            most: interval.saturating_mul(CYCLE),
            first: None,
            is_over: false,
        }
    }

    /// Whether a day is left out so. The days are asked about in order.
    fn has(&mut self, set: &RuleSet, day: Date) -> bool {
        let mut endless = set.except_rules.iter().filter(|(it, _)| is_endless(it));
        let is_left_out = endless.any(|(rule, start)| rule.is_instance(*start, day));
        let number = i64::from(day.number());
        self.first = match self.first {
            _ if !is_left_out || number < self.begin => None,
            None => Some(number),
            first => first,
        };
        self.is_over |= self.first.is_some_and(|it| (it - number).abs() > self.most);
        is_left_out
    }

    /// Where to look before a day for a rule: before the time of which all days of endless rules are left out.
    fn place(&self, rule: &Rule, day: Date) -> Date {
        if !self.is_over || !is_endless(rule) || i64::from(day.number()) <= self.begin {
            return day;
        }
        let begin = i32::try_from(self.begin).ok();
        begin.and_then(Date::from_number).unwrap_or(day)
    }
}

/// The days that a set leaves out, which are asked about in order.
///
/// A rule with COUNT is counted from its start whenever it is asked. So its instances are walked along.
#[derive(Clone, Debug)]
struct LeftOut<'a> {
    dates: &'a [Date],
    rules: Vec<&'a (Rule, Date)>,
    walks: Vec<Peekable<RuleDays<'a>>>,
}

impl<'a> LeftOut<'a> {
    /// Those of a set, from a day on and up to another.
    fn new(set: &'a RuleSet, from: Date, until: Date) -> LeftOut<'a> {
        let all = set.except_rules.iter();
        let (counted, rules): (Vec<_>, Vec<_>) = all.partition(|it| it.0.part("COUNT").is_some());
        let walks = counted.into_iter().map(|(rule, start)| {
            let walk = rule.instances_between(*start, from.max(*start), until);
            walk.peekable()
        });
        LeftOut {
            dates: &set.except_dates,
            walks: walks.collect(),
            rules,
        }
    }

    /// Whether a day is left out.
    fn has(&mut self, day: Date) -> bool {
        let is_walked = self.walks.iter_mut().any(|walk| {
            while walk.next_if(|it| *it < day).is_some() {}
            walk.peek() == Some(&day)
        });
        let mut rules = self.rules.iter();
        is_walked
            || self.dates.binary_search(&day).is_ok()
            || rules.any(|(rule, start)| rule.is_instance(*start, day))
    }
}

/// Whether a day is an instance of one of some rules.
fn is_of_rules(rules: &[(Rule, Date)], day: Date) -> bool {
    rules
        .iter()
        .any(|(rule, start)| rule.is_instance(*start, day))
}

impl RuleSet {
    /// The set with no instance.
    ///
    /// ```
    /// assert_eq!(proved_calendar::RuleSet::new().instances().next(), None);
    /// ```
    #[must_use]
    pub fn new() -> RuleSet {
        RuleSet::default()
    }

    /// The set with the instances of a rule that begins on `start`, too.
    ///
    /// ```
    /// use proved_calendar::{Date, RuleSet};
    /// let set = RuleSet::new().with_rule("FREQ=DAILY;COUNT=2".parse().unwrap(), Date::MIN);
    /// assert_eq!(set.instances().count(), 2);
    /// ```
    #[must_use]
    pub fn with_rule(mut self, rule: Rule, start: Date) -> RuleSet {
        self.rules.push((rule, start));
        self
    }

    /// The set with a date, too.
    ///
    /// ```
    /// use proved_calendar::{Date, RuleSet};
    /// let set = RuleSet::new().with_date(Date::MAX).with_date(Date::UNIX_EPOCH);
    /// assert_eq!(set.instances().next(), Some(Date::UNIX_EPOCH));
    /// ```
    #[must_use]
    pub fn with_date(mut self, date: Date) -> RuleSet {
        put(&mut self.dates, date);
        self
    }

    /// The set without the instances of a rule that begins on `start`.
    ///
    /// ```
    /// use proved_calendar::{Date, RuleSet};
    /// let daily = RuleSet::new().with_rule("FREQ=DAILY".parse().unwrap(), Date::UNIX_EPOCH);
    /// let set = daily.without_rule("FREQ=WEEKLY;BYDAY=TH".parse().unwrap(), Date::UNIX_EPOCH);
    /// assert_eq!(set.instances().next(), Date::from_ymd(1970, 1, 2));
    /// ```
    #[must_use]
    pub fn without_rule(mut self, rule: Rule, start: Date) -> RuleSet {
        self.except_rules.push((rule, start));
        self
    }

    /// The set without a date.
    ///
    /// ```
    /// use proved_calendar::{Date, RuleSet};
    /// let set = RuleSet::new().with_date(Date::MAX).without_date(Date::MAX);
    /// assert!(!set.is_instance(Date::MAX));
    /// ```
    #[must_use]
    pub fn without_date(mut self, date: Date) -> RuleSet {
        put(&mut self.except_dates, date);
        self
    }

    fn is_left_out(&self, day: Date) -> bool {
        self.except_dates.binary_search(&day).is_ok() || is_of_rules(&self.except_rules, day)
    }

    /// The first instance after a day; `None` if there is none.
    ///
    /// ```
    /// use proved_calendar::{Date, RuleSet};
    /// let set = RuleSet::new().with_date(Date::UNIX_EPOCH);
    /// assert_eq!((set.next_after(Date::MIN), set.next_after(Date::MAX)), (Some(Date::UNIX_EPOCH), None));
    /// ```
    #[must_use]
    pub fn next_after(&self, day: Date) -> Option<Date> {
        let from = day.checked_add_days(1)?;
        self.instances_between(from, Date::MAX).next()
    }

    /// The last instance before a day; `None` if there is none.
    ///
    /// ```
    /// use proved_calendar::{Date, RuleSet};
    /// let set = RuleSet::new().with_date(Date::UNIX_EPOCH);
    /// assert_eq!((set.prev_before(Date::MIN), set.prev_before(Date::MAX)), (None, Some(Date::UNIX_EPOCH)));
    /// ```
    #[must_use]
    pub fn prev_before(&self, day: Date) -> Option<Date> {
        let (mut day, mut stretch) = (day, Stretch::new(self));
        loop {
            let earlier = self.dates.iter().copied().filter(|it| *it < day);
            let of_rules = self.rules.iter();
            let of_rules = of_rules
                .filter_map(|(rule, start)| rule.prev_before(*start, stretch.place(rule, day)));
            day = earlier.chain(of_rules).max()?;
            if !stretch.has(self, day) && !self.is_left_out(day) {
                return Some(day);
            }
        }
    }

    /// Whether a day is an instance.
    ///
    /// ```
    /// use proved_calendar::{Date, RuleSet};
    /// let set = RuleSet::new().with_rule("FREQ=DAILY".parse().unwrap(), Date::UNIX_EPOCH);
    /// assert!(set.is_instance(Date::MAX) && !set.is_instance(Date::MIN));
    /// ```
    #[must_use]
    pub fn is_instance(&self, day: Date) -> bool {
        let is_there = self.dates.binary_search(&day).is_ok() || is_of_rules(&self.rules, day);
        is_there && !self.is_left_out(day)
    }

    /// The instances, in order.
    ///
    /// ```
    /// use proved_calendar::{Date, RuleSet};
    /// let set = RuleSet::new().with_rule("FREQ=YEARLY".parse().unwrap(), Date::UNIX_EPOCH).with_date(Date::MIN);
    /// let years: Vec<i32> = set.instances().take(3).map(|it| it.year()).collect();
    /// assert_eq!(years, [-262_143, 1970, 1971]);
    /// ```
    #[must_use]
    pub fn instances(&self) -> RuleSetDays<'_> {
        self.instances_between(Date::MIN, Date::MAX)
    }

    /// The instances from a day on and up to another, which both count.
    ///
    /// ```
    /// use proved_calendar::{Date, RuleSet};
    /// let set = RuleSet::new().with_rule("FREQ=DAILY".parse().unwrap(), Date::MIN);
    /// let [from, until] = [1, 31].map(|day| Date::from_ymd(2024, 3, day).unwrap());
    /// assert_eq!(set.instances_between(from, until).count(), 31);
    /// ```
    #[must_use]
    pub fn instances_between(&self, from: Date, until: Date) -> RuleSetDays<'_> {
        let of_rules = self.rules.iter();
        let of_rules = of_rules.map(|(rule, start)| {
            let walk = rule.instances_between(*start, from.max(*start), until);
            (is_endless(rule), walk.peekable())
        });
        let first = self.dates.partition_point(|it| *it < from);
        let end = self.dates.partition_point(|it| *it <= until).max(first);
        RuleSetDays {
            set: self,
            stretch: Stretch::new(self),
            left_out: LeftOut::new(self, from, until),
            walks: of_rules.collect(),
            dates: self.dates[first..end].iter().copied().peekable(),
        }
    }
}

/// The instances of a [`RuleSet`], in order.
///
/// ```
/// use proved_calendar::{Date, RuleSet};
/// assert_eq!(RuleSet::new().with_date(Date::MIN).instances().last(), Some(Date::MIN));
/// ```
#[derive(Clone, Debug)]
pub struct RuleSetDays<'a> {
    set: &'a RuleSet,
    stretch: Stretch,
    left_out: LeftOut<'a>,
    /// The walk over each rule, and whether the rule is endless.
    walks: Vec<(bool, Peekable<RuleDays<'a>>)>,
    dates: Peekable<Copied<slice::Iter<'a, Date>>>,
}

impl Iterator for RuleSetDays<'_> {
    type Item = Date;

    fn next(&mut self) -> Option<Date> {
        loop {
            let heads = self.walks.iter_mut();
            let heads = heads.filter_map(|(_, walk)| walk.peek().copied());
            let found = heads.chain(self.dates.peek().copied()).min()?;
            for (_, walk) in &mut self.walks {
                walk.next_if_eq(&found);
            }
            self.dates.next_if_eq(&found);
            if !self.stretch.has(self.set, found) && !self.left_out.has(found) {
                return Some(found);
            }
            if self.stretch.is_over {
                self.walks.retain(|(is_endless, _)| !is_endless);
            }
        }
    }
}

impl FusedIterator for RuleSetDays<'_> {}
