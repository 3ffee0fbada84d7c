//! A writer that copies the bytes of texts into an array, and what is read of them there.

use chrono::Duration;
use std::fmt::{self, Write};

const ROOM: usize = 64;

/// The bytes that were written last.
pub struct Written {
    bytes: [u8; ROOM],
    len: usize,
}

impl Written {
    pub fn new() -> Written {
        Written {
            bytes: [0; ROOM],
            len: 0,
        }
    }

    /// What is read of a value that is printed in the place of what was written before.
    #[inline]
    pub fn of<T: fmt::Display>(&mut self, value: T) -> u64 {
        self.len = 0;
        match write!(self, "{value}") {
            Ok(()) => of_bytes(&self.bytes[..self.len]),
            Err(_) => 0,
        }
    }
}

impl Write for Written {
    #[inline]
    fn write_str(&mut self, text: &str) -> fmt::Result {
        let end = self.len + text.len();
        let room = self.bytes.get_mut(self.len..end).ok_or(fmt::Error)?;
        room.copy_from_slice(text.as_bytes());
        self.len = end;
        Ok(())
    }
}

/// Four words spread over the bytes, which meet all of up to 32, and how many there are.
#[inline]
pub fn of_bytes(bytes: &[u8]) -> u64 {
    if bytes.len() < 8 {
        return bytes.len() as u64;
    }
    let word = |place: usize| u64::from_le_bytes(bytes[place..place + 8].try_into().unwrap());
    let last = bytes.len() - 8;
    word(0)
        .wrapping_add(word(last / 3).wrapping_mul(3))
        .wrapping_add(word(last * 2 / 3).wrapping_mul(5))
        .wrapping_add(word(last).wrapping_mul(7))
        .wrapping_add(bytes.len() as u64)
}

/// A duration as later versions of chrono print it, in seconds alone, by the same means: pieces given to the formatter. chrono
/// 0.4.23 prints days too.
#[derive(Clone, Copy)]
pub struct LaterDuration {
    negative: bool,
    seconds: u64,
    nanos: u32,
}

impl LaterDuration {
    pub fn new(duration: Duration) -> LaterDuration {
        let size = duration.abs();
        let seconds = size.num_seconds();
        let rest = size - Duration::seconds(seconds);
        LaterDuration {
            negative: duration < Duration::zero(),
            seconds: seconds as u64,
            nanos: rest.num_nanoseconds().unwrap() as u32,
        }
    }
}

impl fmt::Display for LaterDuration {
    fn fmt(&self, f: &mut fmt::Formatter<'_>) -> fmt::Result {
        if self.seconds == 0 && self.nanos == 0 {
            return f.write_str("P0D");
        }
        write!(f, "{}PT{}", if self.negative { "-" } else { "" }, self.seconds)?;
        if self.nanos > 0 {
            let (mut digits, mut places) = (self.nanos, 9);
            while digits % 10 == 0 {
                digits /= 10;
                places -= 1;
            }
            write!(f, ".{digits:0places$}")?;
        }
        f.write_str("S")
    }
}
