//! One record carried out, or refused without a trace.

use crate::answer::{Answer, Sets};
use crate::calendar::Instant;
use crate::kernel::{Bolt, End, Kernel, List, Priority, Schedule, State, Task, Wait};
use crate::limits::{BOLTS, FULL, INTERRUPTS, LAST_TICK, SEMAPHORES, TASKS};
use crate::record::{Mark, Record};
use crate::sound::Survey;

/// A refusal number from 2 to 15, or 17.
type Refusal = u8;

/// What has to be looked for after an accepted call.
#[derive(PartialEq, Eq)]
enum Effect {
    /// Nothing: the runner goes on, no list opened, and nobody had an event. No
    /// wait, hold or priority is another one, and nothing was given back. If that
    /// were wrong, the next record would find a grantable list and get refusal 1,
    /// or another runner than the one on file and get refusal 16.
    Quiet,
    /// Lists that opened; without one nobody had an event and the runner goes on.
    MayOpen,
    /// Lists that opened, events, and who runs then.
    MayTurn,
}

impl Kernel {
    pub fn step(&mut self, bytes: &[u8]) -> Answer {
        let Ok(found) = self.survey() else {
            return Answer::refusal(1, None);
        };
        if self.on_file != found.running || self.to_come != found.to_come {
            return Answer::refusal(16, None);
        }
        let mut sets = Sets::default();
        match self.carry_out(bytes, &found, &mut sets) {
            Err(number) => Answer::refusal(number, found.running),
            Ok(running) => {
                self.on_file = running;
                Answer {
                    number: 0,
                    running,
                    sets,
                }
            }
        }
    }

    /// Hands back who runs then.
    fn carry_out(
        &mut self,
        bytes: &[u8],
        found: &Survey,
        sets: &mut Sets,
    ) -> Result<Option<u8>, Refusal> {
        let record = Record::read(bytes).ok_or(2)?;
        refuse_if(record.mark.declares() && self.called, 2)?;
        refuse_if(!record.fields_are_good(), 3)?;
        refuse_if(!record.list_is_good(), 4)?;
        refuse_if(!self.names_are_declared(&record), 5)?;
        refuse_if(!record.times_are_good(), 6)?;
        if record.mark.declares() {
            self.declare(&record)?;
            return Ok(found.running);
        }
        let effect = self.call(&record, found, sets)?;
        self.called = true;
        if record.mark.changes_what_comes() {
            self.to_come = self.look_ahead();
        }
        let served = effect != Effect::Quiet && self.serve_after(found, sets);
        if !served && effect != Effect::MayTurn {
            return Ok(found.running);
        }
        self.take_turns(found, sets.started);
        Ok(self.running())
    }

    /// Serves at the end of a call; `found` is from its beginning. Hands back
    /// whether somebody was granted something.
    ///
    /// If nobody waited then, at most the runner waits now, for what it just
    /// could not get.
    fn serve_after(&mut self, found: &Survey, sets: &mut Sets) -> bool {
        let runner = found.running.map_or(0, |i| 1 << i);
        found.waiting != 0 && self.serve(found.waiting | runner, sets)
    }

    /// Refusal 5.
    fn names_are_declared(&self, record: &Record) -> bool {
        let all_below = |count: u8| record.list.numbers().iter().all(|&n| n < count);
        let task = record.number < self.counts.tasks;
        let interrupt = !record.needs_interrupt() || record.interrupt < self.counts.interrupts;
        match record.mark {
            Mark::Activate | Mark::Continue => task && interrupt,
            Mark::Resume => interrupt,
            Mark::Terminate | Mark::Suspend | Mark::Prevent => task,
            Mark::Trigger | Mark::Enable | Mark::Disable => record.number < self.counts.interrupts,
            Mark::Request | Mark::Release | Mark::Try => all_below(self.counts.semaphores),
            Mark::Reserve | Mark::Free | Mark::Enter | Mark::Leave => all_below(self.counts.bolts),
            _ => true,
        }
    }

    fn declare(&mut self, record: &Record) -> Result<(), Refusal> {
        match record.mark {
            Mark::DeclareTask => {
                let place = next_place(&mut self.counts.tasks, TASKS)?;
                let priority = Priority::new(record.priority).ok_or(3)?;
                self.tasks[place] = Task::declared(priority);
                self.places[place] = place as u8;
            }
            Mark::DeclareSemaphore => {
                let place = next_place(&mut self.counts.semaphores, SEMAPHORES)?;
                self.semaphores[place] = record.first as u16;
            }
            Mark::DeclareBolt => {
                let place = next_place(&mut self.counts.bolts, BOLTS)?;
                self.bolts[place] = Bolt::default();
            }
            Mark::DeclareInterrupt => {
                let place = next_place(&mut self.counts.interrupts, INTERRUPTS)?;
                self.enabled[place] = false;
            }
            _ => self.at_zero = record.first,
        }
        Ok(())
    }

    fn call(
        &mut self,
        record: &Record,
        found: &Survey,
        sets: &mut Sets,
    ) -> Result<Effect, Refusal> {
        let running = found.running;
        let i = usize::from(record.number);
        match record.mark {
            Mark::Activate => self.activate(record, sets)?,
            Mark::Terminate => {
                refuse_if(!self.tasks[i].alive(), 10)?;
                self.end_task(i, sets);
            }
            Mark::Suspend => {
                let task = &mut self.tasks[i];
                refuse_if(!task.alive(), 10)?;
                refuse_if(task.state == State::Suspended, 11)?;
                task.state = State::Suspended;
            }
            Mark::Prevent => {
                let task = &mut self.tasks[i];
                task.schedule = None;
                task.continuation = None;
                if task.kept.take().is_some() {
                    sets.lost |= 1 << i;
                }
                return Ok(Effect::Quiet);
            }
            Mark::Continue if record.start_kind > 0 => self.continue_later(i, record),
            Mark::Continue => {
                let task = &mut self.tasks[i];
                refuse_if(!task.alive(), 10)?;
                refuse_if(!task.held(), 12)?;
                task.unhold(Priority::new(record.priority));
            }
            Mark::EndSelf => {
                let runner = running.ok_or(8)?;
                self.end_task(usize::from(runner), sets);
            }
            Mark::Resume => {
                let runner = usize::from(running.ok_or(8)?);
                if record.is_delay() {
                    let until = self.now + u64::from(record.first);
                    self.tasks[runner].state = State::DelayedUntil(until);
                } else {
                    self.tasks[runner].state = State::Suspended;
                    self.continue_later(runner, record);
                }
            }
            Mark::Request => return self.ask(found, Wait::Request(record.list), sets),
            Mark::Reserve => return self.ask(found, Wait::Reserve(record.list), sets),
            Mark::Enter => return self.ask(found, Wait::Enter(record.list), sets),
            Mark::Try => {
                let runner = running.ok_or(8)?;
                self.try_take(runner, &Wait::Request(record.list), found.waiting, sets);
                return Ok(Effect::Quiet);
            }
            Mark::Release => {
                running.ok_or(8)?;
                self.release(&record.list)?;
                return Ok(Effect::MayOpen);
            }
            Mark::Free => {
                running.ok_or(8)?;
                self.free(&record.list)?;
                return Ok(Effect::MayOpen);
            }
            Mark::Leave => {
                running.ok_or(8)?;
                self.leave(&record.list)?;
                return Ok(Effect::MayOpen);
            }
            Mark::Trigger => {
                if self.enabled[i] {
                    self.trigger(record.number, sets);
                }
            }
            Mark::Enable | Mark::Disable => {
                self.enabled[i] = record.mark == Mark::Enable;
                return Ok(Effect::Quiet);
            }
            Mark::Sleep => {
                let instant = self.to_come.ok_or(17)?;
                refuse_if(instant > LAST_TICK, 17)?;
                return Ok(self.go_to(instant, sets));
            }
            _ => {
                refuse_if(self.now >= LAST_TICK, 15)?;
                return Ok(self.go_to(self.now + 1, sets));
            }
        }
        Ok(Effect::MayTurn)
    }

    /// Time goes on to this instant; nothing comes due before it.
    fn go_to(&mut self, instant: Instant, sets: &mut Sets) -> Effect {
        let turns = self.arrive(instant, sets);
        if turns {
            Effect::MayTurn
        } else {
            Effect::Quiet
        }
    }

    fn activate(&mut self, record: &Record, sets: &mut Sets) -> Result<(), Refusal> {
        let i = usize::from(record.number);
        let priority = Priority::new(record.priority).unwrap_or(self.tasks[i].declared);
        if record.start_kind == 0 {
            refuse_if(self.tasks[i].alive(), 9)?;
            self.tasks[i].start_due(i, priority, sets);
            return Ok(());
        }
        let schedule = Schedule {
            priority,
            origin: record.origin(),
            period: record.period,
            end: match record.end_kind {
                0 => End::Never,
                1 => End::Until(record.end),
                _ => End::During(record.end),
            },
            next: 0,
            last: 0,
        };
        match self.first_due(record) {
            Some(first) => self.set_going(i, schedule, first, sets),
            None => self.tasks[i].schedule = Some(schedule),
        }
        Ok(())
    }

    /// Ends a living task; a start kept back takes its place at once.
    fn end_task(&mut self, i: usize, sets: &mut Sets) {
        let task = &mut self.tasks[i];
        sets.ended |= 1 << i;
        task.state = State::Terminated;
        task.wait = Wait::Nothing;
        task.current = task.declared;
        if let Some(priority) = task.kept.take() {
            task.start(priority);
            sets.started |= 1 << i;
        }
    }

    /// The runner gets what it asks for, or waits for it.
    fn ask(&mut self, found: &Survey, wanted: Wait, sets: &mut Sets) -> Result<Effect, Refusal> {
        let runner = found.running.ok_or(8)?;
        if self.try_take(runner, &wanted, found.waiting, sets) {
            return Ok(Effect::Quiet);
        }
        self.tasks[usize::from(runner)].wait = wanted;
        Ok(Effect::MayTurn)
    }

    fn release(&mut self, list: &List) -> Result<(), Refusal> {
        let full = |&s: &u8| self.semaphores[usize::from(s)] == FULL;
        refuse_if(list.numbers().iter().any(full), 13)?;
        for &s in list.numbers() {
            self.semaphores[usize::from(s)] += 1;
        }
        Ok(())
    }

    fn free(&mut self, list: &List) -> Result<(), Refusal> {
        let unwritten = |&b: &u8| !self.bolts[usize::from(b)].writer;
        refuse_if(list.numbers().iter().any(unwritten), 14)?;
        for &b in list.numbers() {
            self.bolts[usize::from(b)].writer = false;
        }
        Ok(())
    }

    fn leave(&mut self, list: &List) -> Result<(), Refusal> {
        let unread = |&b: &u8| self.bolts[usize::from(b)].readers == 0;
        refuse_if(list.numbers().iter().any(unread), 14)?;
        for &b in list.numbers() {
            self.bolts[usize::from(b)].readers -= 1;
        }
        Ok(())
    }
}

fn refuse_if(wrong: bool, number: Refusal) -> Result<(), Refusal> {
    if wrong {
        Err(number)
    } else {
        Ok(())
    }
}

/// Counts one more, or refuses if the table is full.
fn next_place(count: &mut u8, room: usize) -> Result<usize, Refusal> {
    let place = usize::from(*count);
    refuse_if(place >= room, 7)?;
    *count += 1;
    Ok(place)
}
