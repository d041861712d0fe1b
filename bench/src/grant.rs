//! Lists: when they can be granted, what a grant takes, and who is served.

use crate::answer::Sets;
use crate::kernel::{Kernel, List, Wait};
use crate::limits::{FULL, TASKS};
use crate::runner::urgency;

impl Kernel {
    /// Whether task `i` can have everything that this wait names now. The set
    /// `waiting` has all tasks that wait, and perhaps others.
    #[inline]
    pub fn grantable(&self, i: usize, wait: &Wait, waiting: u32) -> bool {
        match wait {
            Wait::Nothing => false,
            Wait::Request(list) => all(list, |s| self.semaphores[s] > 0),
            Wait::Reserve(list) => all(list, |b| self.is_free(b)),
            Wait::Enter(list) => {
                all(list, |b| self.has_room(b)) && !self.writer_goes_first(i, list, waiting)
            }
        }
    }

    /// Whether a bolt has neither a writer nor a reader.
    #[inline(always)]
    pub fn is_free(&self, bolt: usize) -> bool {
        !self.bolts[bolt].writer && self.bolts[bolt].readers == 0
    }

    /// Whether one more reader would fit in.
    #[inline(always)]
    pub fn has_room(&self, bolt: usize) -> bool {
        !self.bolts[bolt].writer && self.bolts[bolt].readers < FULL
    }

    /// Whether some task that is at least as urgent as task `i` waits in a
    /// RESERVE that names a bolt of this list. It may be held, and the bolt free.
    fn writer_goes_first(&self, i: usize, list: &List, waiting: u32) -> bool {
        let reader = self.tasks[i].current;
        members(waiting).any(|other| {
            let other = &self.tasks[other];
            other.current <= reader
                && matches!(&other.wait, Wait::Reserve(wanted) if wanted.meets(list))
        })
    }

    /// Takes what a grantable wait names.
    fn take(&mut self, wait: &Wait) {
        match wait {
            Wait::Nothing => {}
            Wait::Request(list) => {
                for &s in list.numbers() {
                    self.semaphores[usize::from(s)] -= 1;
                }
            }
            Wait::Reserve(list) => {
                for &b in list.numbers() {
                    self.bolts[usize::from(b)].writer = true;
                }
            }
            Wait::Enter(list) => {
                for &b in list.numbers() {
                    self.bolts[usize::from(b)].readers += 1;
                }
            }
        }
    }

    /// Task `i` asks: it gets all of its list at once, or nothing.
    pub fn try_take(&mut self, i: u8, wanted: &Wait, waiting: u32, sets: &mut Sets) -> bool {
        let possible = self.grantable(usize::from(i), wanted, waiting);
        if possible {
            self.take(wanted);
            sets.granted |= 1 << i;
        }
        possible
    }

    /// Grants the lists of waiting tasks, the most urgent first, until none can
    /// be granted. Hands back whether there was one.
    pub fn serve(&mut self, waiting: u32, sets: &mut Sets) -> bool {
        let mut served = false;
        while let Some(i) = self.most_urgent_grantable(waiting) {
            let wait = self.tasks[i].wait;
            self.take(&wait);
            self.tasks[i].wait = Wait::Nothing;
            sets.granted |= 1 << i;
            served = true;
        }
        served
    }

    /// The one to be served next.
    pub fn most_urgent_grantable(&self, waiting: u32) -> Option<usize> {
        let mut best = None;
        let mut best_urgency = u16::MAX;
        for i in members(waiting) {
            let task = &self.tasks[i];
            let urgency = urgency(task.current, self.places[i]);
            if urgency < best_urgency && self.grantable(i, &task.wait, waiting) {
                best_urgency = urgency;
                best = Some(i);
            }
        }
        best
    }

    /// Whether the running task would get this if it asked now.
    pub fn runner_gets(&self, wanted: &Wait) -> bool {
        let Ok(found) = self.survey() else {
            return false;
        };
        found
            .running
            .is_some_and(|i| self.grantable(usize::from(i), wanted, found.waiting))
    }
}

#[inline(always)]
fn all(list: &List, fits: impl Fn(usize) -> bool) -> bool {
    list.numbers()
        .iter()
        .all(|&number| fits(usize::from(number)))
}

/// The tasks of a set, by number.
#[inline(always)]
pub fn members(mut set: u32) -> impl Iterator<Item = usize> {
    std::iter::from_fn(move || {
        let first = set.trailing_zeros() as usize;
        set &= set.wrapping_sub(1);
        (first < TASKS).then_some(first)
    })
}
