//! The instant to come: the earliest one later than now at which a delay ends or
//! a schedule or continuation comes due.
//!
//! Whether a task is alive doesn't matter for what it has to come. What waits for
//! a trigger has no instant yet, and what lies at now or before is never reached.

use crate::calendar::Instant;
use crate::kernel::{Kernel, State, Task};

/// The earliest later instant of those seen so far.
pub struct Earliest {
    now: Instant,
    /// Beyond all stored instants at first.
    found: Instant,
}

impl Earliest {
    pub fn after(now: Instant) -> Earliest {
        Earliest {
            now,
            found: Instant::MAX,
        }
    }

    #[inline(always)]
    pub fn consider(&mut self, instant: Instant) {
        if instant > self.now && instant < self.found {
            self.found = instant;
        }
    }

    /// All that a task has to come.
    #[inline(always)]
    pub fn consider_task(&mut self, task: &Task) {
        if let State::DelayedUntil(instant) = task.state {
            self.consider(instant);
        }
        if let Some(schedule) = &task.schedule {
            self.consider(schedule.next);
        }
        if let Some(continuation) = &task.continuation {
            self.consider(continuation.next);
        }
    }

    pub fn instant(&self) -> Option<Instant> {
        (self.found != Instant::MAX).then_some(self.found)
    }
}

impl Kernel {
    /// The instant to come, looked for.
    pub fn look_ahead(&self) -> Option<Instant> {
        let mut earliest = Earliest::after(self.now);
        for task in self.declared_tasks() {
            earliest.consider_task(task);
        }
        earliest.instant()
    }
}
