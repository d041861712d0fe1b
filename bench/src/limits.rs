//! The numbers that bound a kernel.

pub const TASKS: usize = 32;
pub const SEMAPHORES: usize = 16;
pub const BOLTS: usize = 16;
pub const INTERRUPTS: usize = 8;

/// The clock stops here.
pub const LAST_TICK: u64 = 1 << 40;
/// No stored instant lies beyond this one.
pub const LAST_INSTANT: u64 = 1 << 42;

/// Milliseconds of a day.
pub const DAY: u32 = 86_400_000;
/// The longest duration and the longest period, in milliseconds.
pub const LONGEST: u32 = 1_000_000_000;

/// The highest value of a semaphore and the most readers of a bolt.
pub const FULL: u16 = 65_535;

/// Bytes of a whole record.
pub const RECORD: usize = 24;
/// The most numbers a list may have.
pub const LIST: usize = 4;
