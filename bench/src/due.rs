//! Schedules: when they come due and what a due start does.

use crate::answer::Sets;
use crate::calendar::{next_showing, Instant};
use crate::kernel::{End, Kernel, Origin, Priority, Schedule, State, Task};
use crate::limits::LAST_INSTANT;
use crate::record::Record;
use crate::to_come::Earliest;

impl Task {
    /// A start falls due; `number` is that of this task.
    pub fn start_due(&mut self, number: usize, priority: Priority, sets: &mut Sets) {
        let bit = 1 << number;
        sets.due |= bit;
        if !self.alive() {
            self.start(priority);
            sets.started |= bit;
        } else if self.kept.is_none() {
            self.kept = Some(priority);
        } else {
            sets.lost |= bit;
        }
    }

    /// If the schedule falls on this instant, it comes due and moves on.
    #[inline(always)]
    fn check_schedule(&mut self, number: usize, now: Instant, sets: &mut Sets) {
        if let Some(schedule) = &self.schedule {
            if schedule.next == now {
                self.come_due(number, now, sets);
            }
        }
    }

    #[inline(never)]
    fn come_due(&mut self, number: usize, now: Instant, sets: &mut Sets) {
        let Some(schedule) = &mut self.schedule else {
            return;
        };
        let priority = schedule.priority;
        let again = now + u64::from(schedule.period);
        if schedule.period > 0 && again <= schedule.last {
            schedule.next = again;
        } else if schedule.origin == Origin::Clock {
            self.schedule = None;
        } else {
            schedule.next = 0;
        }
        self.start_due(number, priority, sets);
    }
}

impl Kernel {
    /// When the start or continuation of this record first comes due; none:
    /// not before a trigger.
    pub fn first_due(&self, record: &Record) -> Option<Instant> {
        match record.start_kind {
            1 => Some(next_showing(self.at_zero, self.now, record.first)),
            2 => Some(self.now + u64::from(record.first)),
            5 => Some(self.now),
            _ => None,
        }
    }

    /// Gives task `i` this schedule, which first comes due at `first`.
    pub fn set_going(&mut self, i: usize, mut schedule: Schedule, first: Instant, sets: &mut Sets) {
        schedule.next = first;
        schedule.last = match schedule.end {
            End::Never => LAST_INSTANT,
            End::Until(time) => next_showing(self.at_zero, first, time),
            End::During(length) => first + u64::from(length),
        };
        self.tasks[i].schedule = Some(schedule);
        self.tasks[i].check_schedule(i, self.now, sets);
    }

    /// Sets going every continuation and schedule that waits for this interrupt.
    pub fn trigger(&mut self, interrupt: u8, sets: &mut Sets) {
        let now = self.now;
        for i in 0..self.declared_tasks().len() {
            let Task {
                continuation,
                schedule,
                ..
            } = self.tasks[i];
            if let Some(continuation) = continuation {
                let first = continuation.origin.first_after_trigger(interrupt, now);
                if first.is_some() {
                    self.tasks[i].set_continuation(continuation, first, now);
                }
            }
            if let Some(schedule) = schedule {
                if let Some(first) = schedule.origin.first_after_trigger(interrupt, now) {
                    self.set_going(i, schedule, first, sets);
                }
            }
        }
    }

    /// Now is this instant, by one tick or by as many as nothing came due in.
    /// What comes due at it is done: delays that are over, then continuations,
    /// then dues. Hands back whether some task was unheld or started.
    ///
    /// Only at the instant on file is there anything to do. None of it looks at
    /// another task, so one pass does for all, and finds what is to come then.
    pub fn arrive(&mut self, now: Instant, sets: &mut Sets) -> bool {
        self.now = now;
        if self.to_come != Some(now) {
            return false;
        }
        let mut unheld = false;
        let mut earliest = Earliest::after(now);
        for (i, task) in self.declared_tasks_mut().iter_mut().enumerate() {
            if let State::DelayedUntil(instant) = task.state {
                if instant == now {
                    task.state = State::Unheld;
                    unheld = true;
                }
            }
            unheld |= task.check_continuation(now);
            task.check_schedule(i, now, sets);
            earliest.consider_task(task);
        }
        self.to_come = earliest.instant();
        unheld || sets.started != 0
    }
}
