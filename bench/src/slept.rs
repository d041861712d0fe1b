//! What the sleeps of scripts reach.

use std::fmt;

use crate::answer::Answer;
use crate::kernel::{Kernel, State};
use crate::limits::{DAY, LAST_TICK};
use crate::record::{Mark, Record};

#[derive(Default)]
pub struct Sleeps {
    /// The mark of the record before, if it was accepted.
    last: Option<Mark>,
    over_one_tick: u64,
    over_more: u64,
    over_a_day: u64,
    to_the_last_tick: u64,
    behind_another: u64,
    behind_a_tick: u64,
    before_a_tick: u64,
    with_a_start: u64,
    with_a_due_kept_or_lost: u64,
    with_a_delay: u64,
    with_a_continuation: u64,
    with_a_grant: u64,
    refused_for_a_field: u64,
    nothing_to_come: u64,
    beyond_the_clock: u64,
}

impl Sleeps {
    pub fn note_script(&mut self) {
        self.last = None;
    }

    /// One record and its answer; `before` is the kernel that it found.
    pub fn note(&mut self, before: &Kernel, record: Option<&Record>, answer: &Answer) {
        let mark = record.map(|record| record.mark);
        let accepted = answer.number == 0;
        match (mark, before.to_come, answer.number) {
            (Some(Mark::Tick), _, 0) => {
                self.before_a_tick += u64::from(self.last == Some(Mark::Sleep));
            }
            (Some(Mark::Sleep), Some(instant), 0) => {
                self.note_leap(before.now, instant);
                self.note_arrival(before, instant, answer);
            }
            (Some(Mark::Sleep), _, 3) => self.refused_for_a_field += 1,
            (Some(Mark::Sleep), None, 17) => self.nothing_to_come += 1,
            (Some(Mark::Sleep), Some(_), 17) => self.beyond_the_clock += 1,
            _ => {}
        }
        self.last = mark.filter(|_| accepted);
    }

    fn note_leap(&mut self, from: u64, to: u64) {
        let ticks = to - from;
        self.over_one_tick += u64::from(ticks == 1);
        self.over_more += u64::from(ticks > 1);
        self.over_a_day += u64::from(ticks > u64::from(DAY));
        self.to_the_last_tick += u64::from(to == LAST_TICK);
        self.behind_another += u64::from(self.last == Some(Mark::Sleep));
        self.behind_a_tick += u64::from(self.last == Some(Mark::Tick));
    }

    fn note_arrival(&mut self, before: &Kernel, to: u64, answer: &Answer) {
        let sets = &answer.sets;
        let tasks = before.declared_tasks();
        let delayed = tasks.iter().any(|t| t.state == State::DelayedUntil(to));
        let continued = tasks
            .iter()
            .any(|t| t.continuation.is_some_and(|c| c.next == to));
        self.with_a_start += u64::from(sets.started != 0);
        self.with_a_due_kept_or_lost += u64::from(sets.due & !sets.started != 0);
        self.with_a_delay += u64::from(delayed);
        self.with_a_continuation += u64::from(continued);
        self.with_a_grant += u64::from(sets.granted != 0);
    }

    /// All counts, each with what it counts.
    pub fn named(&self) -> [(&'static str, u64); 15] {
        [
            ("SL over one tick", self.over_one_tick),
            ("over more", self.over_more),
            ("over more than a day", self.over_a_day),
            ("to the last tick", self.to_the_last_tick),
            ("behind another SL", self.behind_another),
            ("behind a TI", self.behind_a_tick),
            ("before a TI", self.before_a_tick),
            ("with a start", self.with_a_start),
            ("with a due kept back or lost", self.with_a_due_kept_or_lost),
            ("with the end of a delay", self.with_a_delay),
            ("with a continuation", self.with_a_continuation),
            ("with a grant", self.with_a_grant),
            ("refused with 3", self.refused_for_a_field),
            ("with 17 as nothing is to come", self.nothing_to_come),
            ("with 17 as it is beyond the clock", self.beyond_the_clock),
        ]
    }
}

impl fmt::Display for Sleeps {
    fn fmt(&self, f: &mut fmt::Formatter) -> fmt::Result {
        let counts = self.named().map(|(name, count)| format!("{name} {count}"));
        write!(f, "{}", counts.join(", "))
    }
}
