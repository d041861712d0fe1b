//! Counts of what the random scripts reached.

use std::fmt;

use crate::answer::Answer;
use crate::calendar::Instant;
use crate::kernel::{Kernel, List, State, Wait};
use crate::record::{Mark, Record, LETTERS};
use crate::slept::Sleeps;
use crate::unused::{lone_stray, Strays};

/// From so many scripts on, everything that is demanded has to be reached.
const MANY_SCRIPTS: u64 = 1000;

#[derive(Default)]
pub struct Coverage {
    scripts: u64,
    records: u64,
    accepted: [u64; 24],
    refused: [u64; 24],
    without_mark: u64,
    /// Answers by number, 0 to 17.
    numbers: [u64; 18],
    /// Records refused for one bit alone.
    strays: Strays,
    sleeps: Sleeps,
    start_kinds: [u64; 6],
    end_kinds: [u64; 3],
    continue_kinds: [u64; 5],
    resume_kinds: [u64; 5],
    /// Continuations that came due for a held task.
    continued: u64,
    /// Continuations that came due at the end of their task's delay.
    with_delay: u64,
    /// Continuations that came due for an unheld or terminated task.
    in_vain: u64,
    /// Answers whose set due, started, ended, lost or granted has a task.
    sets: [u64; 5],
    /// Answers that grant to several tasks at once.
    several_granted: u64,
    /// ENTERs that wait for nothing but a waiting writer.
    held_up: u64,
    /// ENTERs granted although a less urgent writer waits for one of the bolts.
    passed: u64,
    /// RESERVEs that wait although one of their bolts is free.
    partly_free: u64,
    /// Answers of TE, CO, TI, TG and SL that grant something: to readers whose
    /// writer has ended or has another priority, or who have another one.
    let_in: [u64; 5],
    /// Calls in which several tasks have an event.
    several_moved: u64,
    /// Tasks that end and start anew in one call.
    started_anew: u64,
    /// Waiting tasks that are granted something while they are held.
    granted_held: u64,
    /// Calls after which not the first by number of equally urgent tasks runs.
    runs_by_place: u64,
    /// Calls that serve others than they would if equals went by number.
    served_by_place: u64,
}

impl Coverage {
    pub fn note_script(&mut self) {
        self.scripts += 1;
        self.sleeps.note_script();
    }

    /// What the scripts should have reached and haven't; nothing as long as there
    /// are few.
    pub fn missing(&self) -> Vec<&'static str> {
        if self.scripts < MANY_SCRIPTS {
            return Vec::new();
        }
        let mut demanded = self.sleeps.named().to_vec();
        demanded.push(("TI refused with 15", self.numbers[15]));
        demanded.retain(|(_, count)| *count == 0);
        demanded.into_iter().map(|(name, _)| name).collect()
    }

    /// One record and its answer; `before` is the kernel that it found, `after`
    /// the one that it left.
    pub fn note(&mut self, before: &Kernel, bytes: &[u8], answer: &Answer, after: &Kernel) {
        self.records += 1;
        self.numbers[usize::from(answer.number)] += 1;
        let sets = &answer.sets;
        let all = [sets.due, sets.started, sets.ended, sets.lost, sets.granted];
        for (count, set) in self.sets.iter_mut().zip(all) {
            *count += u64::from(set != 0);
        }
        self.several_granted += u64::from(sets.granted.count_ones() > 1);
        let record = Record::read(bytes);
        self.sleeps.note(before, record.as_ref(), answer);
        let Some(record) = record else {
            self.without_mark += 1;
            return;
        };
        if answer.number != 0 {
            self.refused[record.mark as usize] += 1;
            if answer.number == 3 {
                self.strays.note(lone_stray(bytes));
            }
            return;
        }
        self.accepted[record.mark as usize] += 1;
        self.note_kinds(&record);
        self.note_continuations(before, &record);
        self.note_bolts(before, &record, sets.granted != 0);
        self.note_turns(before, bytes, answer, after);
    }

    fn note_kinds(&mut self, record: &Record) {
        let kind = usize::from(record.start_kind);
        match record.mark {
            Mark::Activate => {
                self.start_kinds[kind] += 1;
                self.end_kinds[usize::from(record.end_kind)] += 1;
            }
            Mark::Continue => self.continue_kinds[kind] += 1,
            Mark::Resume => self.resume_kinds[kind] += 1,
            _ => {}
        }
    }

    /// What the continuations that come due in this call find.
    fn note_continuations(&mut self, before: &Kernel, call: &Record) {
        for (i, task) in before.declared_tasks().iter().enumerate() {
            if !continuation_comes_due(before, call, i) {
                continue;
            }
            match task.state {
                State::DelayedUntil(instant) if Some(instant) == arrives_at(before, call) => {
                    self.with_delay += 1;
                }
                _ if task.held() || call.mark == Mark::Resume => self.continued += 1,
                _ => self.in_vain += 1,
            }
        }
    }

    /// What waiting writers do to readers in this call.
    fn note_bolts(&mut self, before: &Kernel, call: &Record, granted: bool) {
        let mut bolts = call.list.numbers().iter().map(|&b| usize::from(b));
        match call.mark {
            Mark::Enter if granted => self.passed += u64::from(writer_waits(before, &call.list)),
            Mark::Enter => self.held_up += u64::from(bolts.all(|b| before.has_room(b))),
            Mark::Reserve if !granted => {
                self.partly_free += u64::from(bolts.any(|b| before.is_free(b)));
            }
            Mark::Terminate => self.let_in[0] += u64::from(granted),
            Mark::Continue => self.let_in[1] += u64::from(granted),
            Mark::Tick => self.let_in[2] += u64::from(granted),
            Mark::Trigger => self.let_in[3] += u64::from(granted),
            Mark::Sleep => self.let_in[4] += u64::from(granted),
            _ => {}
        }
    }

    /// What places do in this call, or it to them.
    fn note_turns(&mut self, before: &Kernel, bytes: &[u8], answer: &Answer, after: &Kernel) {
        let sets = &answer.sets;
        if let Ok(found) = before.survey() {
            let events = after.events(&found, sets.started);
            self.several_moved += u64::from(events.count_ones() > 1);
        }
        self.started_anew += u64::from((sets.started & sets.ended).count_ones());
        for (i, task) in before.declared_tasks().iter().enumerate() {
            let granted = sets.granted & (1 << i) != 0;
            self.granted_held += u64::from(granted && task.waits() && after.tasks[i].held());
        }
        let mut by_number = after.clone();
        by_number.forget_events();
        self.runs_by_place += u64::from(by_number.running() != answer.running);
        let mut by_number = before.clone();
        by_number.forget_events();
        if by_number.running() == before.stored() {
            let served = by_number.step(bytes).sets.granted;
            self.served_by_place += u64::from(served != sets.granted);
        }
    }
}

/// Whether a task waits in a RESERVE that names one of these bolts.
fn writer_waits(kernel: &Kernel, bolts: &List) -> bool {
    let names_one = |wait: &Wait| matches!(wait, Wait::Reserve(own) if own.meets(bolts));
    kernel.declared_tasks().iter().any(|t| names_one(&t.wait))
}

/// The later instant to which this call, which is accepted, leads.
fn arrives_at(before: &Kernel, call: &Record) -> Option<Instant> {
    match call.mark {
        Mark::Tick => Some(before.now + 1),
        Mark::Sleep => before.to_come,
        _ => None,
    }
}

/// Whether this call, which is accepted, makes a continuation of task `i` come due.
fn continuation_comes_due(before: &Kernel, call: &Record, i: usize) -> bool {
    let now = before.now;
    let at_once = || before.first_due(call) == Some(now);
    let pending = before.tasks[i].continuation;
    match call.mark {
        Mark::Tick | Mark::Sleep => {
            pending.is_some_and(|c| Some(c.next) == arrives_at(before, call))
        }
        Mark::Trigger => {
            let first = pending.and_then(|c| c.origin.first_after_trigger(call.number, now));
            before.enabled[usize::from(call.number)] && first == Some(now)
        }
        Mark::Continue => usize::from(call.number) == i && at_once(),
        Mark::Resume => before.stored().map(usize::from) == Some(i) && at_once(),
        _ => false,
    }
}

impl fmt::Display for Coverage {
    fn fmt(&self, f: &mut fmt::Formatter) -> fmt::Result {
        writeln!(f, "{} scripts, {} records", self.scripts, self.records)?;
        write!(f, "marks, accepted/refused:")?;
        for (i, letters) in LETTERS.iter().enumerate() {
            let name = String::from_utf8_lossy(&letters[..]);
            write!(f, " {} {}/{}", name, self.accepted[i], self.refused[i])?;
        }
        writeln!(f, ", without a mark {}", self.without_mark)?;
        write!(f, "numbers:")?;
        for (i, count) in self.numbers.iter().enumerate() {
            write!(f, " {i}: {count}")?;
        }
        writeln!(f)?;
        writeln!(f, "{}", self.strays)?;
        writeln!(f, "{}", self.sleeps)?;
        writeln!(
            f,
            "start kinds 0 to 5: {:?}, end kinds 0 to 2: {:?}",
            self.start_kinds, self.end_kinds
        )?;
        writeln!(
            f,
            "kinds 0 to 4 of CO: {:?}, of RE: {:?}",
            self.continue_kinds, self.resume_kinds
        )?;
        writeln!(
            f,
            "continuations come due for a held task {}, as its delay ends {}, in vain {}",
            self.continued, self.with_delay, self.in_vain
        )?;
        let [due, started, ended, lost, granted] = self.sets;
        writeln!(
            f,
            "answers with due {due}, started {started}, ended {ended}, lost {lost}, \
             granted {granted}, several granted {}",
            self.several_granted
        )?;
        writeln!(
            f,
            "ENTERs held up by a waiting writer alone {}, granted past a less urgent one {}, \
             RESERVEs that wait with a bolt free {}",
            self.held_up, self.passed, self.partly_free
        )?;
        writeln!(
            f,
            "answers of TE, CO, TI, TG, SL that grant: {:?}",
            self.let_in
        )?;
        writeln!(
            f,
            "calls that move several tasks {}, tasks that start anew at their end {}, \
             granted while held {}",
            self.several_moved, self.started_anew, self.granted_held
        )?;
        writeln!(
            f,
            "calls whose runner goes by its place and not by its number {}, \
             that serve by place and not by number {}",
            self.runs_by_place, self.served_by_place
        )
    }
}
