//! The bounds of `waits.rs`, watched along scripts.
//!
//! Every wait in a REQUEST of one semaphore is looked at after every accepted
//! call, and each look is watched until it is decided. A bound holds unless one
//! of three things happens meanwhile: the task is ended, a task that lives on
//! gets another priority, or a more urgent task issues a REQUEST that names the
//! semaphore.

use std::fmt;

use crate::answer::Answer;
use crate::kernel::{Kernel, Priority, Task};
use crate::record::{Mark, Record};

/// The three things, as bits of a set.
const ENDED: u8 = 1;
const CHANGED: u8 = 2;
const OVERTAKEN: u8 = 4;

/// An accepted call.
struct Call<'a> {
    record: &'a Record,
    answer: &'a Answer,
    /// The priority of the task that ran before the call.
    issuer: Option<Priority>,
    /// Whether a task that lives on has another priority after it.
    changes_a_priority: bool,
}

impl Call<'_> {
    fn new<'a>(
        before: &Kernel,
        record: &'a Record,
        answer: &'a Answer,
        after: &Kernel,
    ) -> Call<'a> {
        let tasks = before.declared_tasks().iter().zip(&after.tasks);
        let changed = |(i, (was, is)): (usize, (&Task, &Task))| {
            let lives_on = was.alive() && answer.sets.ended & (1 << i) == 0;
            lives_on && was.current != is.current
        };
        Call {
            record,
            answer,
            issuer: before
                .stored()
                .map(|i| before.tasks[usize::from(i)].current),
            changes_a_priority: tasks.enumerate().any(changed),
        }
    }

    fn names(&self, mark: Mark, semaphore: u8) -> bool {
        self.record.mark == mark && self.record.list.numbers().contains(&semaphore)
    }
}

/// A look at a wait, or several looks from which all goes on alike.
struct Watch {
    task: usize,
    semaphore: u8,
    priority: Priority,
    /// RELEASEs that are left within the bound.
    left: usize,
    /// Which of the three things have happened.
    happened: u8,
    /// The record of the first look.
    since: usize,
    looks: u64,
    /// How many of the looks are at the beginning of the wait.
    beginnings: u64,
}

impl Watch {
    fn is_like(&self, other: &Watch) -> bool {
        self.task == other.task
            && self.semaphore == other.semaphore
            && self.priority == other.priority
            && self.left == other.left
            && self.happened == other.happened
    }

    /// Follows one call. Once it is decided, hands back whether the task has been
    /// granted within the bound.
    fn follow(&mut self, call: &Call) -> Option<bool> {
        let own = 1 << self.task;
        if call.answer.sets.ended & own != 0 {
            self.happened |= ENDED;
        }
        if call.changes_a_priority {
            self.happened |= CHANGED;
        }
        let asked = call.names(Mark::Request, self.semaphore);
        if asked && call.issuer.is_some_and(|i| i < self.priority) {
            self.happened |= OVERTAKEN;
        }
        self.left -= usize::from(call.names(Mark::Release, self.semaphore));
        // What a task is granted after its end belongs to another wait.
        if call.answer.sets.granted & own != 0 && self.happened & ENDED == 0 {
            return Some(true);
        }
        (self.left == 0).then_some(false)
    }
}

/// How many looks came out which way.
#[derive(Clone, Copy, PartialEq, Eq, Debug, Default)]
pub struct Tally {
    /// By how many were ahead: 0, 1, 2, or 3 and more.
    pub ahead: [u64; 4],
    /// None of the three things happened, and the task was granted in the last
    /// RELEASE of the bound.
    pub in_last: u64,
    /// The same, but granted before that.
    pub sooner: u64,
    /// Granted within the bound, though some of the three things happened.
    pub all_the_same: u64,
    /// Not granted within the bound, by the set of the things that happened. The
    /// first stays 0.
    pub missed: [u64; 8],
    /// Not decided when the script was over.
    pub open: u64,
}

impl Tally {
    fn look(&mut self, ahead: usize, count: u64) {
        self.ahead[ahead.min(3)] += count;
    }

    fn decide(&mut self, watch: &Watch, granted: bool, count: u64) {
        let place = match (granted, watch.happened) {
            (true, 0) if watch.left == 0 => &mut self.in_last,
            (true, 0) => &mut self.sooner,
            (true, _) => &mut self.all_the_same,
            (false, happened) => &mut self.missed[usize::from(happened)],
        };
        *place += count;
    }
}

/// What came of the looks of all scripts.
#[derive(Default)]
pub struct Outcomes {
    /// Of the looks at the beginnings of the waits.
    pub waits: Tally,
    /// Of all looks.
    pub looks: Tally,
}

/// Follows one script.
#[derive(Default)]
pub struct Watcher {
    watches: Vec<Watch>,
    records: usize,
    /// The bounds that don't hold, in words.
    pub broken: Vec<String>,
}

impl Watcher {
    /// One record and its answer, with the kernels before and after it.
    pub fn note(
        &mut self,
        before: &Kernel,
        bytes: &[u8],
        answer: &Answer,
        after: &Kernel,
        outcomes: &mut Outcomes,
    ) {
        self.records += 1;
        match Record::read(bytes) {
            Some(record) if answer.number == 0 => {
                self.follow(&Call::new(before, &record, answer, after), outcomes);
                self.look(before, after, outcomes);
            }
            _ => {}
        }
    }

    fn follow(&mut self, call: &Call, outcomes: &mut Outcomes) {
        let record = self.records - 1;
        let broken = &mut self.broken;
        self.watches.retain_mut(|watch| {
            let Some(granted) = watch.follow(call) else {
                return true;
            };
            outcomes.waits.decide(watch, granted, watch.beginnings);
            outcomes.looks.decide(watch, granted, watch.looks);
            if !granted && watch.happened == 0 {
                broken.push(in_words(watch, record));
            }
            false
        });
    }

    /// Looks at all who wait for one semaphore.
    fn look(&mut self, before: &Kernel, after: &Kernel, outcomes: &mut Outcomes) {
        for waiting in after.waiting_for_one() {
            let begins = u64::from(!before.tasks[waiting.task].waits());
            outcomes.waits.look(waiting.ahead, begins);
            outcomes.looks.look(waiting.ahead, 1);
            self.watch(Watch {
                task: waiting.task,
                semaphore: waiting.semaphore,
                priority: after.tasks[waiting.task].current,
                left: waiting.bound(),
                happened: 0,
                since: self.records - 1,
                looks: 1,
                beginnings: begins,
            });
        }
    }

    fn watch(&mut self, new: Watch) {
        match self.watches.iter_mut().find(|watch| watch.is_like(&new)) {
            Some(watch) => {
                watch.looks += new.looks;
                watch.beginnings += new.beginnings;
            }
            None => self.watches.push(new),
        }
    }

    /// The script is over.
    pub fn finish(&self, outcomes: &mut Outcomes) {
        for watch in &self.watches {
            outcomes.waits.open += watch.beginnings;
            outcomes.looks.open += watch.looks;
        }
    }
}

/// A bound that doesn't hold, and the record in which that shows.
fn in_words(watch: &Watch, record: usize) -> String {
    format!(
        "  task {} waits for semaphore {}: its bound after record {} is passed with record {record}",
        watch.task, watch.semaphore, watch.since
    )
}

/// Counts by how many are ahead.
pub fn by_ahead(counts: &[u64; 4]) -> String {
    let [nobody, one, two, more] = counts;
    format!("nobody ahead {nobody}, 1 {one}, 2 {two}, 3 or more {more}")
}

impl fmt::Display for Tally {
    fn fmt(&self, f: &mut fmt::Formatter) -> fmt::Result {
        let total: u64 = self.ahead.iter().sum();
        let missed = |happened: u8| self.missed[usize::from(happened)];
        let single = missed(ENDED) + missed(CHANGED) + missed(OVERTAKEN);
        let several = self.missed[1..].iter().sum::<u64>() - single;
        writeln!(f, "{total}: {}", by_ahead(&self.ahead))?;
        writeln!(
            f,
            "  granted in the last RELEASE of the bound {}, sooner {}, not decided {}, broken {}",
            self.in_last,
            self.sooner,
            self.open,
            missed(0)
        )?;
        writeln!(
            f,
            "  missed as the task was ended {}, as a priority changed {}, \
             as a more urgent task asked {}, several of these {several}; \
             granted in time all the same {}",
            missed(ENDED),
            missed(CHANGED),
            missed(OVERTAKEN),
            self.all_the_same
        )
    }
}

impl fmt::Display for Outcomes {
    fn fmt(&self, f: &mut fmt::Formatter) -> fmt::Result {
        write!(f, "waits for one semaphore {}", self.waits)?;
        write!(f, "looks at them {}", self.looks)
    }
}
