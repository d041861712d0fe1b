//! Calls that fit the state reached, and now and then one that may not.

use super::{numbers_where, Kind, Maker};
use crate::calendar::time_of_day;
use crate::draft::Draft;
use crate::kernel::{State, Task};
use crate::limits::{DAY, FULL, LAST_TICK, LONGEST};

type Weights = [(&'static [u8; 2], u32)];

/// How often each call is chosen, by kind of script.
const EVEN: &Weights = &[
    (b"AC", 10),
    (b"TE", 3),
    (b"SU", 4),
    (b"PR", 3),
    (b"CO", 7),
    (b"EN", 4),
    (b"RE", 5),
    (b"RQ", 6),
    (b"RL", 6),
    (b"TR", 4),
    (b"RS", 6),
    (b"FR", 6),
    (b"ET", 6),
    (b"LV", 6),
    (b"TG", 4),
    (b"EI", 3),
    (b"XI", 2),
    (b"TI", 10),
    (b"SL", 6),
];

const CONTENDED: &Weights = &[
    (b"AC", 8),
    (b"TE", 1),
    (b"SU", 3),
    (b"PR", 1),
    (b"CO", 6),
    (b"EN", 1),
    (b"RE", 2),
    (b"RQ", 14),
    (b"RL", 12),
    (b"TR", 3),
    (b"RS", 12),
    (b"FR", 12),
    (b"ET", 12),
    (b"LV", 12),
    (b"TG", 1),
    (b"EI", 1),
    (b"XI", 1),
    (b"TI", 3),
    (b"SL", 2),
];

const IDLE: &Weights = &[
    (b"AC", 14),
    (b"TE", 3),
    (b"SU", 4),
    (b"PR", 2),
    (b"CO", 6),
    (b"EN", 8),
    (b"RE", 5),
    (b"RQ", 1),
    (b"RL", 1),
    (b"TR", 1),
    (b"RS", 1),
    (b"FR", 1),
    (b"ET", 1),
    (b"LV", 1),
    (b"TG", 6),
    (b"EI", 4),
    (b"XI", 1),
    (b"TI", 38),
    (b"SL", 16),
];

const WRITERS: &Weights = &[
    (b"AC", 12),
    (b"TE", 4),
    (b"SU", 9),
    (b"PR", 1),
    (b"CO", 14),
    (b"EN", 1),
    (b"RE", 2),
    (b"RQ", 1),
    (b"RL", 1),
    (b"TR", 1),
    (b"RS", 14),
    (b"FR", 8),
    (b"ET", 18),
    (b"LV", 9),
    (b"TG", 9),
    (b"EI", 3),
    (b"XI", 1),
    (b"TI", 10),
    (b"SL", 5),
];

const TURNS: &Weights = &[
    (b"AC", 16),
    (b"TE", 2),
    (b"SU", 5),
    (b"PR", 1),
    (b"CO", 7),
    (b"EN", 9),
    (b"RE", 9),
    (b"RQ", 12),
    (b"RL", 9),
    (b"TR", 3),
    (b"RS", 5),
    (b"FR", 5),
    (b"ET", 6),
    (b"LV", 5),
    (b"TG", 7),
    (b"EI", 3),
    (b"XI", 1),
    (b"TI", 14),
    (b"SL", 6),
];

const QUEUES: &Weights = &[
    (b"AC", 16),
    (b"TE", 2),
    (b"SU", 4),
    (b"PR", 1),
    (b"CO", 6),
    (b"EN", 2),
    (b"RE", 2),
    (b"RQ", 26),
    (b"RL", 22),
    (b"TR", 4),
    (b"RS", 1),
    (b"FR", 1),
    (b"ET", 1),
    (b"LV", 1),
    (b"TG", 3),
    (b"EI", 2),
    (b"XI", 1),
    (b"TI", 7),
    (b"SL", 3),
];

impl Maker {
    pub fn call(&mut self) -> Draft {
        if self.random.once_in(15) {
            let mark = self.mark();
            return self.loose(mark);
        }
        if let Some(draft) = self.what_the_kind_is_for() {
            return draft;
        }
        for _ in 0..10 {
            let mark = self.mark();
            if let Some(draft) = self.fitting(mark) {
                return draft;
            }
        }
        Draft::new(b"TI")
    }

    /// Now and then a call that the kind of script is made for.
    fn what_the_kind_is_for(&mut self) -> Option<Draft> {
        match self.kind {
            Kind::Writers if self.random.percent(25) => self.call_about_rivals(),
            Kind::Turns if self.random.percent(40) => self.call_about_turns(),
            Kind::Queues if self.random.percent(20) => self.call_about_queues(),
            _ => None,
        }
    }

    fn mark(&mut self) -> &'static [u8; 2] {
        let weights = match self.kind {
            Kind::Valid | Kind::Damaged => EVEN,
            Kind::Contended => CONTENDED,
            Kind::Idle | Kind::Late => IDLE,
            Kind::Writers => WRITERS,
            Kind::Turns => TURNS,
            Kind::Queues => QUEUES,
        };
        let total = weights.iter().map(|(_, weight)| weight).sum();
        let mut left = self.random.below(total);
        for (mark, weight) in weights {
            if left < *weight {
                return mark;
            }
            left -= weight;
        }
        b"TI"
    }

    /// A call with this mark that the kernel will accept, if there is one.
    fn fitting(&mut self, mark: &'static [u8; 2]) -> Option<Draft> {
        let draft = Draft::new(mark);
        let needs_runner = b"ENRERQRLTRRSFRETLV".chunks(2).any(|m| m == mark);
        if needs_runner && self.kernel.stored().is_none() {
            return None;
        }
        Some(match mark {
            b"AC" => return self.activation(),
            b"TE" => draft.on(self.often_at_a_bolt(|t| t.alive())?),
            b"SU" => draft.on(self.often_at_a_bolt(|t| t.alive() && t.state != State::Suspended)?),
            b"PR" => {
                let any = self.random.once_in(4);
                draft.on(self.some_task(|t| any || has_something_to_come(t))?)
            }
            b"CO" => return self.continuation(),
            b"RE" => self.resumption(),
            b"RQ" | b"TR" | b"RS" | b"ET" => draft.list(&self.wish(mark)?),
            b"RL" => draft.list(&self.some_of(self.semaphores(|value| value < FULL))?),
            b"FR" => draft.list(&self.some_of(self.bolts(|b| b.writer))?),
            b"LV" => draft.list(&self.some_of(self.bolts(|b| b.readers > 0))?),
            b"TG" => draft.on(self.interrupt(true)?),
            b"EI" => draft.on(self.interrupt(false)?),
            b"XI" => draft.on(self.interrupt(true)?),
            b"TI" if self.kernel.now >= LAST_TICK => return None,
            b"SL" if self.kernel.to_come? > LAST_TICK => return None,
            _ => draft,
        })
    }

    /// A well-formed call about anything declared, or just beyond it.
    fn loose(&mut self, mark: &'static [u8; 2]) -> Draft {
        let counts = self.kernel.counts;
        let draft = Draft::new(mark);
        let beyond = u32::from(self.random.once_in(8));
        let mut number = |count: u8| self.random.below(u32::from(count).max(1) + beyond) as u8;
        match mark {
            b"AC" => {
                let task = number(counts.tasks);
                if self.random.percent(50) {
                    return draft.on(task);
                }
                let start = self.scheduled(task);
                self.with_stray_interrupt(start)
            }
            b"SU" => {
                let any = number(counts.tasks);
                draft.on(self
                    .some_task(|t| t.state == State::Suspended)
                    .unwrap_or(any))
            }
            b"CO" => {
                let task = number(counts.tasks);
                if self.random.percent(50) {
                    return draft.on(task);
                }
                let later = self.continued_later(task);
                self.with_stray_interrupt(later)
            }
            b"TE" | b"PR" => draft.on(number(counts.tasks)),
            b"TG" | b"EI" | b"XI" => draft.on(number(counts.interrupts)),
            b"RL" => {
                let any = number(counts.semaphores);
                let full = self.semaphores(|value| value == FULL);
                draft.list(&self.some_of(full).unwrap_or(vec![any]))
            }
            b"RQ" | b"TR" => draft.list(&[number(counts.semaphores)]),
            b"RS" | b"FR" | b"ET" | b"LV" => draft.list(&[number(counts.bolts)]),
            b"RE" => {
                let resumption = self.resumption();
                self.with_stray_interrupt(resumption)
            }
            _ => draft,
        }
    }

    /// If the draft names an interrupt, now and then one that isn't declared.
    fn with_stray_interrupt(&mut self, mut draft: Draft) -> Draft {
        if matches!(draft.start_kind, 3 | 4) && self.random.once_in(4) {
            draft.interrupt = self.kernel.counts.interrupts;
        }
        draft
    }

    fn activation(&mut self) -> Option<Draft> {
        let plain = match self.kind {
            Kind::Contended | Kind::Writers | Kind::Queues => 95,
            Kind::Idle | Kind::Late => 20,
            Kind::Valid | Kind::Damaged | Kind::Turns => 50,
        };
        if self.random.percent(plain) {
            let task = self.some_task(|t| !t.alive())?;
            let priority = self.priority_or_none();
            return Some(Draft::new(b"AC").on(task).priority(priority));
        }
        let task = self.some_task(|_| true)?;
        Some(self.scheduled(task))
    }

    /// An activation of kind 1 to 5.
    fn scheduled(&mut self, task: u8) -> Draft {
        let priority = self.priority_or_none();
        let draft = Draft::new(b"AC").on(task).priority(priority);
        if self.random.once_in(5) {
            let period = self.duration();
            return self.with_end(draft.all(period));
        }
        let draft = self.conditioned(draft);
        if self.random.percent(40) {
            return draft;
        }
        let period = self.duration();
        self.with_end(draft.every(period))
    }

    /// A start kind from 1 to 4; without interrupts AT or AFTER.
    pub fn conditioned(&mut self, draft: Draft) -> Draft {
        let interrupts = u32::from(self.kernel.counts.interrupts);
        let interrupt = self.random.below(interrupts.max(1)) as u8;
        let kinds = if interrupts > 0 { 4 } else { 2 };
        match self.random.below(kinds) {
            0 => draft.at(self.time()),
            1 => draft.after(self.duration()),
            2 => draft.when(interrupt),
            _ => draft.when_after(interrupt, self.duration()),
        }
    }

    /// A CONTINUE that is accepted: at once for a held task, later for any.
    fn continuation(&mut self) -> Option<Draft> {
        let at_once = if self.kind == Kind::Writers { 35 } else { 50 };
        if self.random.percent(at_once) {
            let task = self.often_at_a_bolt(|t| t.held())?;
            let priority = self.priority_or_none();
            return Some(Draft::new(b"CO").on(task).priority(priority));
        }
        let any = self.random.once_in(3);
        let task = self.often_at_a_bolt(|t| any || t.held())?;
        Some(self.continued_later(task))
    }

    /// A CONTINUE of kind 1 to 4, now and then for the very end of a delay.
    fn continued_later(&mut self, task: u8) -> Draft {
        let priority = self.priority_or_none();
        let draft = Draft::new(b"CO").on(task).priority(priority);
        match self.rest_of_delay(task) {
            Some(rest) if self.random.once_in(3) => draft.after(rest),
            _ => self.conditioned(draft),
        }
    }

    fn rest_of_delay(&self, task: u8) -> Option<u32> {
        match self.kernel.tasks.get(usize::from(task))?.state {
            State::DelayedUntil(instant) => Some((instant - self.kernel.now) as u32),
            _ => None,
        }
    }

    /// A RESUME, half of them the plain delay.
    fn resumption(&mut self) -> Draft {
        let draft = Draft::new(b"RE");
        if self.random.percent(50) {
            return draft.first(self.duration());
        }
        self.conditioned(draft)
    }

    fn with_end(&mut self, draft: Draft) -> Draft {
        match self.random.below(3) {
            0 => draft,
            1 => draft.until(self.time()),
            _ => draft.during(self.duration()),
        }
    }

    pub fn priority_or_none(&mut self) -> u8 {
        match self.random.below(8) {
            0 if self.kind == Kind::Turns => self.random.between(3, 5) as u8,
            _ if self.kind == Kind::Turns => 0,
            0..=3 => 0,
            4 => self.random.between(1, 255) as u8,
            _ => self.random.between(1, 6) as u8,
        }
    }

    /// Whether tasks share few bolts or semaphores and get in each other's way
    /// within a few ticks.
    fn is_dense(&self) -> bool {
        matches!(self.kind, Kind::Writers | Kind::Turns | Kind::Queues)
    }

    /// Mostly so short that it runs out within the script.
    pub fn duration(&mut self) -> u32 {
        match self.random.below(12) {
            0 => 1,
            1 => self.random.between(1, 200),
            2 => self
                .random
                .pick(&[LONGEST, LONGEST - 1, DAY, DAY - 1, DAY + 1]),
            3 if matches!(self.kind, Kind::Valid | Kind::Damaged | Kind::Contended) => {
                self.random.between(1, LONGEST)
            }
            _ if self.is_dense() => self.random.between(1, 4),
            _ => self.random.between(1, 12),
        }
    }

    /// Mostly a time of day near the present one.
    pub fn time(&mut self) -> u32 {
        let present = time_of_day(self.kernel.at_zero, self.kernel.now);
        match self.random.below(10) {
            0 => self.random.below(DAY),
            1 => self.random.pick(&[0, 1, DAY - 1]),
            2 => present,
            3 => (present + DAY - self.random.between(1, 20)) % DAY,
            _ if self.is_dense() => (present + self.random.between(0, 4)) % DAY,
            _ => (present + self.random.between(0, 25)) % DAY,
        }
    }

    /// What the runner asks for. The last runnable task asks only for what it can get.
    fn wish(&mut self, mark: &[u8; 2]) -> Option<Vec<u8>> {
        let runnable = self.kernel.declared_tasks().iter().filter(|t| t.runnable());
        let modesty = match self.kind {
            Kind::Turns => 20,
            Kind::Queues => 5,
            _ => 45,
        };
        let modest = runnable.count() < 2 || self.random.percent(modesty);
        let choices = match mark {
            b"RQ" | b"TR" => self.semaphores(|value| !modest || value > 0),
            _ if modest => self.bolts_to_be_had(mark),
            _ => self.bolts(|_| true),
        };
        let mut list = self.some_of(choices)?;
        let short = self.kind == Kind::Queues && self.random.percent(60);
        if mark == b"TR" || short {
            list.truncate(1);
        }
        Some(list)
    }

    /// One to four of the choices, in any order; one or two where there are few.
    pub fn some_of(&mut self, mut choices: Vec<u8>) -> Option<Vec<u8>> {
        let most = if self.is_dense() { 2 } else { 4 };
        self.random.shuffle(&mut choices);
        choices.truncate(self.random.between(1, most) as usize);
        if choices.is_empty() {
            None
        } else {
            Some(choices)
        }
    }

    pub fn semaphores(&self, fits: impl Fn(u16) -> bool) -> Vec<u8> {
        let count = usize::from(self.kernel.counts.semaphores);
        numbers_where(&self.kernel.semaphores[..count], |&value| fits(value))
    }

    /// Mostly one that is enabled, or disabled, as wanted.
    fn interrupt(&mut self, enabled: bool) -> Option<u8> {
        let any = self.random.once_in(4);
        let count = usize::from(self.kernel.counts.interrupts);
        let fitting = numbers_where(&self.kernel.enabled[..count], |&e| any || e == enabled);
        self.one_of(&fitting)
    }
}

/// Whether PREVENT finds something in this task.
fn has_something_to_come(task: &Task) -> bool {
    task.schedule.is_some() || task.kept.is_some() || task.continuation.is_some()
}
