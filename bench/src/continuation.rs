//! Continuations: CONTINUE and RESUME that unhold a task later.
//!
//! No set tells of them: a task that goes on was started before.

use crate::calendar::Instant;
use crate::kernel::{Continuation, Kernel, Origin, Priority, State, Task};
use crate::record::{Mark, Record};

impl Task {
    /// A held task goes on; without a priority it keeps the one it has.
    pub fn unhold(&mut self, priority: Option<Priority>) {
        self.state = State::Unheld;
        self.current = priority.unwrap_or(self.current);
    }

    /// Gives the task this continuation in place of the one it had; with a
    /// first due that is `now`, it comes due at once.
    pub fn set_continuation(
        &mut self,
        mut continuation: Continuation,
        first: Option<Instant>,
        now: Instant,
    ) {
        continuation.next = first.unwrap_or(0);
        self.continuation = Some(continuation);
        if first == Some(now) {
            self.go_on();
        }
    }

    /// If the continuation falls on this instant, it comes due. Hands back
    /// whether it unheld the task.
    #[inline(always)]
    pub fn check_continuation(&mut self, now: Instant) -> bool {
        match &self.continuation {
            Some(continuation) if continuation.next == now => self.go_on(),
            _ => false,
        }
    }

    #[inline(never)]
    fn go_on(&mut self) -> bool {
        let Some(continuation) = &mut self.continuation else {
            return false;
        };
        let priority = continuation.priority;
        if continuation.by_resume || continuation.origin == Origin::Clock {
            self.continuation = None;
        } else {
            continuation.next = 0;
        }
        let held = self.held();
        if held {
            self.unhold(priority);
        }
        held
    }
}

impl Kernel {
    /// Gives task `i` the continuation that a CONTINUE or RESUME asks for.
    pub fn continue_later(&mut self, i: usize, record: &Record) {
        let continuation = Continuation {
            priority: Priority::new(record.priority),
            origin: record.origin(),
            by_resume: record.mark == Mark::Resume,
            next: 0,
        };
        let first = self.first_due(record);
        self.tasks[i].set_continuation(continuation, first, self.now);
    }
}
