//! What a kernel remembers between two records.

use std::num::NonZeroU8;

use crate::calendar::{Instant, Millis};
use crate::limits::{BOLTS, INTERRUPTS, LIST, SEMAPHORES, TASKS};

/// 1 to 255, smaller is more urgent. The type keeps 0 out.
pub type Priority = NonZeroU8;

/// Up to four numbers of semaphores or bolts.
#[derive(Clone, Copy, PartialEq, Eq, Debug, Default)]
pub struct List {
    pub length: u8,
    pub places: [u8; LIST],
}

impl List {
    /// The numbers in use; a length above four counts as four.
    pub fn numbers(&self) -> &[u8] {
        &self.places[..usize::from(self.length).min(LIST)]
    }

    /// Whether the two lists have a number in common.
    pub fn meets(&self, other: &List) -> bool {
        self.numbers().iter().any(|n| other.numbers().contains(n))
    }
}

#[derive(Clone, Copy, PartialEq, Eq, Debug)]
pub enum Wait {
    Nothing,
    Request(List),
    Reserve(List),
    Enter(List),
}

/// Terminated, or alive and held or not.
#[derive(Clone, Copy, PartialEq, Eq, Debug)]
pub enum State {
    Terminated,
    Unheld,
    Suspended,
    DelayedUntil(Instant),
}

/// What sets a schedule or a continuation going.
#[derive(Clone, Copy, PartialEq, Eq, Debug)]
pub enum Origin {
    /// It was set going when it was made.
    Clock,
    /// A trigger of this interrupt.
    Interrupt(u8),
    /// A trigger of this interrupt, and then this long a pause.
    InterruptAfter(u8, Millis),
}

impl Origin {
    /// The first due after a trigger of `interrupt` now, if that is the one waited for.
    pub fn first_after_trigger(self, interrupt: u8, now: Instant) -> Option<Instant> {
        match self {
            Origin::Interrupt(own) if own == interrupt => Some(now),
            Origin::InterruptAfter(own, pause) if own == interrupt => Some(now + u64::from(pause)),
            _ => None,
        }
    }
}

#[derive(Clone, Copy, PartialEq, Eq, Debug)]
pub enum End {
    Never,
    Until(Millis),
    During(Millis),
}

#[derive(Clone, Copy, PartialEq, Eq, Debug)]
pub struct Schedule {
    /// The priority of every start that this schedule makes.
    pub priority: Priority,
    pub origin: Origin,
    /// 0: each time it is set going it comes due once.
    pub period: Millis,
    pub end: End,
    /// When it comes due next; 0, an instant that no tick reaches, if never.
    pub next: Instant,
    /// The last instant at which it may come due.
    pub last: Instant,
}

/// What unholds a task later, each time once.
#[derive(Clone, Copy, PartialEq, Eq, Debug)]
pub struct Continuation {
    /// The priority that the task goes on with; none: the one it then has.
    pub priority: Option<Priority>,
    pub origin: Origin,
    /// One made by RESUME is gone once it came due.
    pub by_resume: bool,
    /// When it comes due; 0, an instant that no tick reaches, if not before a trigger.
    pub next: Instant,
}

#[derive(Clone, Copy, PartialEq, Eq, Debug)]
pub struct Task {
    pub declared: Priority,
    pub current: Priority,
    pub state: State,
    /// The priority of the start kept back.
    pub kept: Option<Priority>,
    pub wait: Wait,
    pub schedule: Option<Schedule>,
    pub continuation: Option<Continuation>,
}

impl Task {
    pub fn declared(priority: Priority) -> Task {
        Task {
            declared: priority,
            current: priority,
            state: State::Terminated,
            kept: None,
            wait: Wait::Nothing,
            schedule: None,
            continuation: None,
        }
    }

    pub fn alive(&self) -> bool {
        self.state != State::Terminated
    }

    pub fn held(&self) -> bool {
        matches!(self.state, State::Suspended | State::DelayedUntil(_))
    }

    #[inline(always)]
    pub fn runnable(&self) -> bool {
        matches!(self.state, State::Unheld) && !self.waits()
    }

    #[inline(always)]
    pub fn waits(&self) -> bool {
        !matches!(self.wait, Wait::Nothing)
    }

    pub fn start(&mut self, priority: Priority) {
        self.state = State::Unheld;
        self.wait = Wait::Nothing;
        self.current = priority;
    }
}

#[derive(Clone, Copy, PartialEq, Eq, Debug, Default)]
pub struct Bolt {
    pub writer: bool,
    pub readers: u16,
}

/// How many of each kind are declared.
#[derive(Clone, Copy, PartialEq, Eq, Debug, Default)]
pub struct Counts {
    pub tasks: u8,
    pub semaphores: u8,
    pub bolts: u8,
    pub interrupts: u8,
}

#[derive(Clone, PartialEq, Eq, Debug)]
pub struct Kernel {
    pub now: Instant,
    /// The time of day at instant 0.
    pub at_zero: Millis,
    /// Whether a call was accepted yet.
    pub called: bool,
    pub counts: Counts,
    pub tasks: [Task; TASKS],
    /// The place of each task in the order of events, see `turns.rs`.
    pub places: [u8; TASKS],
    /// The running task on file, stored with every accepted record. A kernel in
    /// which it isn't the one that the rule gives gets refusal 16.
    pub on_file: Option<u8>,
    /// The instant to come on file, see `to_come.rs`: the earliest one later than
    /// now at which something comes due. A wrong one gets refusal 16 too.
    pub to_come: Option<Instant>,
    pub semaphores: [u16; SEMAPHORES],
    pub bolts: [Bolt; BOLTS],
    pub enabled: [bool; INTERRUPTS],
}

impl Kernel {
    pub fn new() -> Kernel {
        Kernel {
            now: 0,
            at_zero: 0,
            called: false,
            counts: Counts::default(),
            tasks: [Task::declared(Priority::MIN); TASKS],
            places: [0; TASKS],
            on_file: None,
            to_come: None,
            semaphores: [0; SEMAPHORES],
            bolts: [Bolt::default(); BOLTS],
            enabled: [false; INTERRUPTS],
        }
    }

    /// The tasks declared; a count beyond the table counts as the whole table.
    pub fn declared_tasks(&self) -> &[Task] {
        &self.tasks[..usize::from(self.counts.tasks).min(TASKS)]
    }

    pub fn declared_tasks_mut(&mut self) -> &mut [Task] {
        &mut self.tasks[..usize::from(self.counts.tasks).min(TASKS)]
    }

    /// The places of the tasks declared.
    pub fn declared_places_mut(&mut self) -> &mut [u8] {
        &mut self.places[..usize::from(self.counts.tasks).min(TASKS)]
    }

    /// The tasks declared, each with its place.
    #[inline(always)]
    pub fn tasks_and_places(&self) -> impl Iterator<Item = (&Task, &u8)> {
        self.declared_tasks().iter().zip(&self.places)
    }
}
