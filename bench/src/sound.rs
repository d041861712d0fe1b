//! Refusal 1: is the kernel value one that may be worked with?
//!
//! The same look finds the running task and the instant to come, which refusal 16
//! compares with those on file, and the tasks that wait. What the types rule out, such as a priority of 0, a
//! semaphore above 65,535 or a terminated task that is held, needs no test.

use crate::calendar::{is_duration, is_time_of_day, Instant};
use crate::grant::members;
use crate::kernel::{Continuation, End, Kernel, List, Origin, Schedule, State, Task, Wait};
use crate::limits::{BOLTS, INTERRUPTS, LAST_INSTANT, LAST_TICK, LIST, LONGEST, SEMAPHORES, TASKS};
use crate::runner::{urgency, Runner};
use crate::to_come::Earliest;

pub struct Unsound;

/// What a look at a sound kernel finds.
pub struct Survey {
    pub running: Option<u8>,
    /// All tasks that could run, as a set.
    pub runnable: u32,
    /// All tasks that wait, as a set.
    pub waiting: u32,
    /// The instant to come.
    pub to_come: Option<Instant>,
}

impl Kernel {
    /// Who runs, who waits and what is to come, if the kernel is sound.
    ///
    /// A function of its own that calls nothing in its loop, which so keeps all
    /// it needs in registers.
    #[inline(never)]
    pub fn survey(&self) -> Result<Survey, Unsound> {
        if !self.frame_is_sound() {
            return Err(Unsound);
        }
        let mut runner = Runner::none();
        let mut earliest = Earliest::after(self.now);
        let mut runnable = 0;
        let mut taken = 0;
        for (i, (task, &place)) in self.tasks_and_places().enumerate() {
            if usize::from(place) >= TASKS {
                return Err(Unsound);
            }
            taken |= 1 << place;
            if task.runnable() {
                runner.consider(i, urgency(task.current, place));
                runnable |= 1 << i;
            }
            if let Some(schedule) = &task.schedule {
                if !self.schedule_is_sound(schedule) {
                    return Err(Unsound);
                }
                earliest.consider(schedule.next);
            }
            if let Some(continuation) = &task.continuation {
                if !self.continuation_is_sound(continuation) {
                    return Err(Unsound);
                }
                earliest.consider(continuation.next);
            }
        }
        // As many places as tasks: if one were taken twice, one would be missing.
        let all = ((1u64 << self.counts.tasks) - 1) as u32;
        if taken != all {
            return Err(Unsound);
        }
        Ok(Survey {
            running: runner.number(),
            runnable,
            waiting: self.survey_pauses(all & !runnable, &mut earliest)?,
            to_come: earliest.instant(),
        })
    }

    /// Who of these tasks waits, if what keeps each of them from running is sound.
    #[inline(never)]
    fn survey_pauses(&self, paused: u32, earliest: &mut Earliest) -> Result<u32, Unsound> {
        let mut waiting = 0;
        for i in members(paused) {
            let task = &self.tasks[i];
            if !self.pause_is_sound(task) {
                return Err(Unsound);
            }
            if let State::DelayedUntil(instant) = task.state {
                earliest.consider(instant);
            }
            waiting |= u32::from(task.waits()) << i;
        }
        if members(waiting).any(|i| self.grantable(i, &self.tasks[i].wait, waiting)) {
            return Err(Unsound);
        }
        Ok(waiting)
    }

    fn frame_is_sound(&self) -> bool {
        usize::from(self.counts.tasks) <= TASKS
            && usize::from(self.counts.semaphores) <= SEMAPHORES
            && usize::from(self.counts.bolts) <= BOLTS
            && usize::from(self.counts.interrupts) <= INTERRUPTS
            && self.now <= LAST_TICK
            && is_time_of_day(self.at_zero)
    }

    #[inline(always)]
    fn pause_is_sound(&self, task: &Task) -> bool {
        let state_is_sound = match task.state {
            State::Terminated => {
                return task.kept.is_none() && matches!(task.wait, Wait::Nothing);
            }
            State::Unheld | State::Suspended => true,
            State::DelayedUntil(instant) => instant <= LAST_INSTANT,
        };
        state_is_sound
            && match &task.wait {
                Wait::Nothing => true,
                Wait::Request(list) => is_list(list, self.counts.semaphores),
                Wait::Reserve(list) | Wait::Enter(list) => is_list(list, self.counts.bolts),
            }
    }

    #[inline]
    fn schedule_is_sound(&self, schedule: &Schedule) -> bool {
        schedule.period <= LONGEST
            && self.origin_is_sound(schedule.origin)
            && match schedule.end {
                End::Never => true,
                End::Until(time) => is_time_of_day(time),
                End::During(length) => is_duration(length),
            }
            && schedule.next <= LAST_INSTANT
            && schedule.last <= LAST_INSTANT
    }

    #[inline]
    fn continuation_is_sound(&self, continuation: &Continuation) -> bool {
        self.origin_is_sound(continuation.origin) && continuation.next <= LAST_INSTANT
    }

    #[inline(always)]
    fn origin_is_sound(&self, origin: Origin) -> bool {
        match origin {
            Origin::Clock => true,
            Origin::Interrupt(i) => i < self.counts.interrupts,
            Origin::InterruptAfter(i, pause) => i < self.counts.interrupts && is_duration(pause),
        }
    }
}

/// One to four different numbers below `count`.
#[inline(always)]
fn is_list(list: &List, count: u8) -> bool {
    let mut seen = 0u32;
    for &number in list.numbers() {
        if number >= count || seen & (1 << number) != 0 {
            return false;
        }
        seen |= 1 << number;
    }
    (1..=LIST).contains(&usize::from(list.length))
}
