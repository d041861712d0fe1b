//! Choices about bolts, and about readers and writers in each other's way.

use super::{numbers_where, Kind, Maker};
use crate::draft::Draft;
use crate::kernel::{Bolt, Continuation, Origin, Task, Wait};

impl Maker {
    pub fn bolts(&self, fits: impl Fn(&Bolt) -> bool) -> Vec<u8> {
        let count = usize::from(self.kernel.counts.bolts);
        numbers_where(&self.kernel.bolts[..count], fits)
    }

    /// The bolts that the runner would get at once by RESERVE or ENTER.
    pub fn bolts_to_be_had(&self, mark: &[u8; 2]) -> Vec<u8> {
        let mut bolts = self.bolts(|_| true);
        bolts.retain(|&b| {
            let list = Draft::new(mark).list(&[b]).as_list();
            self.kernel.runner_gets(&match mark {
                b"RS" => Wait::Reserve(list),
                _ => Wait::Enter(list),
            })
        });
        bolts
    }

    /// Some task for which `fits` holds, often one that waits for bolts.
    pub fn often_at_a_bolt(&mut self, fits: impl Fn(&Task) -> bool) -> Option<u8> {
        let chance = if self.kind == Kind::Writers { 75 } else { 25 };
        if self.random.percent(chance) {
            let waits = |t: &Task| matches!(t.wait, Wait::Reserve(_) | Wait::Enter(_));
            let waiting = self.some_task(|t| fits(t) && waits(t));
            if waiting.is_some() {
                return waiting;
            }
        }
        self.some_task(fits)
    }

    /// Something that may let a reader pass a writer: one of them is held, is
    /// to go on about as urgent as the other, and then does.
    pub fn call_about_rivals(&mut self) -> Option<Draft> {
        let (one, other) = self.rivals()?;
        let task = self.kernel.tasks[usize::from(one)];
        if !task.held() {
            return Some(Draft::new(b"SU").on(one));
        }
        if let Some(continuation) = &task.continuation {
            return Some(self.awaited(continuation));
        }
        let priority = self.priority_near(other);
        let at_once = Draft::new(b"CO").on(one).priority(priority);
        Some(if self.random.once_in(4) {
            at_once
        } else {
            self.conditioned(at_once)
        })
    }

    /// A reader that would fit in, and a writer that waits for a bolt of it; or
    /// the writer first.
    fn rivals(&mut self) -> Option<(u8, u8)> {
        let held_up = numbers_where(self.kernel.declared_tasks(), |t| self.fits_in(t));
        let reader = self.one_of(&held_up)?;
        let wait = self.kernel.tasks[usize::from(reader)].wait;
        let writer = self.some_task(|t| match (&t.wait, &wait) {
            (Wait::Reserve(list), Wait::Enter(wanted)) => list.meets(wanted),
            _ => false,
        })?;
        Some(if self.random.once_in(3) {
            (reader, writer)
        } else {
            (writer, reader)
        })
    }

    fn fits_in(&self, task: &Task) -> bool {
        let has_room = |&b: &u8| self.kernel.has_room(usize::from(b));
        match &task.wait {
            Wait::Enter(list) => list.numbers().iter().all(has_room),
            _ => false,
        }
    }

    /// What a continuation waits for: a tick, often with those before it slept
    /// through, or its interrupt.
    fn awaited(&mut self, continuation: &Continuation) -> Draft {
        match continuation.origin {
            Origin::Interrupt(i) | Origin::InterruptAfter(i, _) if continuation.next == 0 => {
                let enabled = self.kernel.enabled[usize::from(i)];
                Draft::new(if enabled { b"TG" } else { b"EI" }).on(i)
            }
            _ if self.random.once_in(3) => Draft::new(b"SL"),
            _ => Draft::new(b"TI"),
        }
    }

    /// The priority of this task, or one more or less.
    fn priority_near(&mut self, task: u8) -> u8 {
        let own = self.kernel.tasks[usize::from(task)].current.get();
        let choices = [own.saturating_sub(1).max(1), own, own.saturating_add(1)];
        self.random.pick(&choices)
    }
}
