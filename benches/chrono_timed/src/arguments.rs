//! Pseudo-random arguments, in tables from which the calls that are timed draw.

use std::array;

/// How many arguments a table has.
pub const SIZE: usize = 1024;

/// The day number of 1 January 1800.
const FIRST_DAY: i32 = 657_072;

/// The days of the 400 years from then on.
const DAYS: u64 = 146_097;

/// The number of a day of the year -262,017, and how many days there are from then on to the year 262,018.
const FAR_FIRST_DAY: i32 = -95_700_000;
const FAR_DAYS: u64 = 191_400_000;

/// A linear congruential generator modulo 2^64, with the numbers of Knuth's MMIX.
pub struct Generator {
    state: u64,
}

impl Generator {
    pub fn new() -> Generator {
        Generator { state: 1 }
    }

    pub fn draw(&mut self) -> u64 {
        self.state = self
            .state
            .wrapping_mul(6_364_136_223_846_793_005)
            .wrapping_add(1_442_695_040_888_963_407);
        self.state
    }

    pub fn below(&mut self, bound: u64) -> u64 {
        (self.draw() >> 32) % bound
    }
}

/// So many arguments, one picked after the other.
pub fn table<T>(generator: &mut Generator, pick: impl Fn(&mut Generator) -> T) -> [T; SIZE] {
    array::from_fn(|_| pick(generator))
}

/// A day of 400 years.
pub fn day(generator: &mut Generator) -> i32 {
    FIRST_DAY + generator.below(DAYS) as i32
}

/// A day of any year more than a hundred years from the ends of the calendar.
pub fn far_day(generator: &mut Generator) -> i32 {
    FAR_FIRST_DAY + generator.below(FAR_DAYS) as i32
}
