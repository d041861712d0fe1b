//! Times of day and the instants that show them. Nothing here knows tasks.

use crate::limits::{DAY, LONGEST};

/// Ticks since the kernel was fresh.
pub type Instant = u64;
/// A duration or a time of day, in milliseconds.
pub type Millis = u32;

pub fn is_time_of_day(time: Millis) -> bool {
    time < DAY
}

pub fn is_duration(length: Millis) -> bool {
    (1..=LONGEST).contains(&length)
}

/// What the clock on the wall shows at `at`, if it showed `at_zero` at instant 0.
pub fn time_of_day(at_zero: Millis, at: Instant) -> Millis {
    ((u64::from(at_zero) + at) % u64::from(DAY)) as Millis
}

/// The first instant, `from` included, at which the wall clock shows `time`.
pub fn next_showing(at_zero: Millis, from: Instant, time: Millis) -> Instant {
    let ahead = (time + DAY - time_of_day(at_zero, from)) % DAY;
    from + u64::from(ahead)
}
