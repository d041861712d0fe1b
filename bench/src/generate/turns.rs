//! Calls after which equally urgent tasks stand in another order, or that lead
//! there.

use super::Maker;
use crate::calendar::{is_duration, time_of_day};
use crate::draft::Draft;
use crate::kernel::{Origin, State, Task, Wait};
use crate::limits::FULL;

impl Maker {
    pub fn call_about_turns(&mut self) -> Option<Draft> {
        match self.random.below(10) {
            0 | 1 => self.at_one_time(),
            2 | 3 => self.give_to_those_who_wait(),
            4 => self.end_and_start_anew(),
            5 | 6 => self.wait_as_well(),
            7 | 8 => self.become_equal(),
            _ => self.hold_or_continue(),
        }
    }

    /// A start or continuation that falls together with what another task has to come.
    fn at_one_time(&mut self) -> Option<Draft> {
        let task = self.some_task(|_| true)?;
        let draft = if self.kernel.tasks[usize::from(task)].held() {
            Draft::new(b"CO").on(task)
        } else if self.kernel.stored() == Some(task) && self.random.percent(70) {
            Draft::new(b"RE")
        } else {
            Draft::new(b"AC").on(task)
        };
        let other = self.some_task(has_a_time)?;
        self.along_with(draft, usize::from(other))
    }

    /// The draft with what task `i` has to come as its condition.
    fn along_with(&self, draft: Draft, i: usize) -> Option<Draft> {
        let task = &self.kernel.tasks[i];
        let (origin, next) = match (&task.continuation, &task.schedule, task.state) {
            (Some(continuation), _, _) => (continuation.origin, continuation.next),
            (_, Some(schedule), _) => (schedule.origin, schedule.next),
            (_, _, State::DelayedUntil(instant)) => (Origin::Clock, instant),
            _ => return None,
        };
        match origin {
            Origin::Interrupt(own) if next == 0 => Some(draft.when(own)),
            Origin::InterruptAfter(own, pause) if next == 0 => Some(draft.when_after(own, pause)),
            _ => {
                let rest = u32::try_from(next.checked_sub(self.kernel.now)?).ok()?;
                is_duration(rest).then(|| draft.after(rest))
            }
        }
    }

    /// Gives back what is waited for, several at once if there are.
    fn give_to_those_who_wait(&mut self) -> Option<Draft> {
        self.kernel.stored()?;
        let (mark, mut choices) = match self.random.below(4) {
            0 => (b"FR", self.bolts(|b| b.writer)),
            1 => (b"LV", self.bolts(|b| b.readers > 0)),
            _ => (b"RL", self.semaphores(|value| value < FULL)),
        };
        choices.retain(|n| {
            let names_it = |t: &Task| match &t.wait {
                Wait::Nothing => false,
                Wait::Request(list) => mark == b"RL" && list.numbers().contains(n),
                Wait::Reserve(list) | Wait::Enter(list) => {
                    mark != b"RL" && list.numbers().contains(n)
                }
            };
            self.kernel.declared_tasks().iter().any(names_it)
        });
        Some(Draft::new(mark).list(&self.some_of(choices)?))
    }

    /// Ends a task with a start kept back, or has one kept back for the runner.
    fn end_and_start_anew(&mut self) -> Option<Draft> {
        let runner = self.kernel.stored()?;
        if self.kernel.tasks[usize::from(runner)].kept.is_some() {
            return Some(Draft::new(b"EN"));
        }
        let kept = self.some_task(|t| t.kept.is_some());
        let present = time_of_day(self.kernel.at_zero, self.kernel.now);
        Some(match kept {
            Some(task) if self.random.once_in(2) => Draft::new(b"TE").on(task),
            _ => Draft::new(b"AC").on(runner).at(present),
        })
    }

    /// The runner asks for what another task waits for; not if nobody else can run.
    pub fn wait_as_well(&mut self) -> Option<Draft> {
        let runnable = self.kernel.declared_tasks().iter().filter(|t| t.runnable());
        if runnable.count() < 2 {
            return None;
        }
        let other = self.some_task(Task::waits)?;
        match &self.kernel.tasks[usize::from(other)].wait {
            Wait::Nothing => None,
            Wait::Request(list) => Some(Draft::new(b"RQ").list(list.numbers())),
            Wait::Reserve(list) => Some(Draft::new(b"RS").list(list.numbers())),
            Wait::Enter(list) => Some(Draft::new(b"ET").list(list.numbers())),
        }
    }

    /// Holds a task that waits, or lets one that is held go on.
    pub fn hold_or_continue(&mut self) -> Option<Draft> {
        let task = self.some_task(|t| t.waits() || t.held())?;
        if !self.kernel.tasks[usize::from(task)].held() {
            return Some(Draft::new(b"SU").on(task));
        }
        let draft = Draft::new(b"CO").on(task);
        Some(if self.random.once_in(2) {
            draft
        } else {
            self.conditioned(draft)
        })
    }

    /// Leads to two tasks that wait for the same and are equally urgent, though
    /// they weren't when their waits began.
    pub fn become_equal(&mut self) -> Option<Draft> {
        let one = self.some_task(Task::waits)?;
        let Task {
            wait,
            current,
            state,
            ..
        } = self.kernel.tasks[usize::from(one)];
        let other = self.some_task(|t| t.wait == wait && t.current != current)?;
        if state != State::Suspended {
            return Some(Draft::new(b"SU").on(one));
        }
        let priority = self.kernel.tasks[usize::from(other)].current.get();
        Some(Draft::new(b"CO").on(one).priority(priority))
    }
}

/// Whether something is to come for this task, at an instant or at a trigger.
fn has_a_time(task: &Task) -> bool {
    task.continuation.is_some()
        || task.schedule.is_some()
        || matches!(task.state, State::DelayedUntil(_))
}
