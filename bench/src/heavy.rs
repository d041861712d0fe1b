//! Long scripts to be compared and timed, with all 32 tasks alive throughout.

use crate::draft::Draft;
use crate::kernel::{Kernel, State, Task, Wait};
use crate::limits::{RECORD, TASKS};
use crate::random::Random;

const SEMAPHORES: u32 = 8;
const BOLTS: u32 = 8;
/// At most so many tasks wait or are held at a time.
const MOST_AWAY: usize = 12;

/// Half of the tasks have periodic schedules; then only ticks.
pub fn ticks(records: usize) -> Vec<u8> {
    let mut script = Script::new(records);
    script.living_tasks();
    for task in 0..TASKS as u8 / 2 {
        let period = 10 + u32::from(task) * 3;
        script.put(Draft::new(b"AC").on(task * 2).all(period));
    }
    while script.left > 0 {
        script.put(Draft::new(b"TI"));
    }
    script.bytes
}

/// All tasks have periodic schedules, each with a period of its own of a minute to
/// a minute and a half; then only sleeps, from one due to the next. As nobody ends,
/// each task has a start kept back, and every due is lost.
pub fn sleeps(records: usize) -> Vec<u8> {
    let mut script = Script::new(records);
    script.living_tasks();
    for task in 0..TASKS as u8 {
        let period = 60_000 + u32::from(task) * 1_009;
        script.put(Draft::new(b"AC").on(task).all(period));
    }
    while script.left > 0 {
        script.put(Draft::new(b"SL"));
    }
    script.bytes
}

/// Calls of nearly all sorts, all of them accepted.
pub fn calls(records: usize) -> Vec<u8> {
    let mut script = Script::new(records);
    script.living_tasks();
    let mut random = Random::new(1);
    while script.left > 0 {
        if let Some(draft) = script.some_call(&mut random) {
            script.put(draft);
        }
    }
    script.bytes
}

/// One task enters a bolt until it is full, then others wait, leave and enter.
pub fn readers(records: usize) -> Vec<u8> {
    let mut script = Script::new(records);
    script.living_tasks();
    let enter = Draft::new(b"ET").list(&[0]);
    let leave = Draft::new(b"LV").list(&[0]);
    while script.left > 0 {
        let away = script.count_tasks(|t| !t.runnable());
        script.put(if away < MOST_AWAY { enter } else { leave });
    }
    script.bytes
}

/// A long pause, and then all tasks but one wait for one semaphore.
pub fn queues(records: usize) -> Vec<u8> {
    let mut script = Script::new(records);
    script.living_tasks();
    while script.left >= TASKS {
        script.put(Draft::new(b"TI"));
    }
    while script.left > 0 {
        script.put(Draft::new(b"RQ").list(&[0]));
    }
    script.bytes
}

struct Script {
    kernel: Kernel,
    bytes: Vec<u8>,
    left: usize,
}

impl Script {
    fn new(records: usize) -> Script {
        Script {
            kernel: Kernel::new(),
            bytes: Vec::with_capacity(records * RECORD),
            left: records,
        }
    }

    fn put(&mut self, draft: Draft) {
        if self.left > 0 {
            self.left -= 1;
            let record = draft.bytes();
            self.kernel.step(&record);
            self.bytes.extend_from_slice(&record);
        }
    }

    fn living_tasks(&mut self) {
        for task in 0..TASKS as u8 {
            self.put(Draft::new(b"DT").priority(1 + task * 7 % 40));
        }
        for semaphore in 0..SEMAPHORES {
            self.put(Draft::new(b"DS").first(semaphore % 4));
        }
        for _ in 0..BOLTS {
            self.put(Draft::new(b"DB"));
        }
        for task in 0..TASKS as u8 {
            self.put(Draft::new(b"AC").on(task));
        }
    }

    fn count_tasks(&self, fits: impl Fn(&Task) -> bool) -> usize {
        self.kernel.tasks.iter().filter(|&t| fits(t)).count()
    }

    /// A random call, or none if the one chosen doesn't fit.
    fn some_call(&self, random: &mut Random) -> Option<Draft> {
        let kernel = &self.kernel;
        let semaphores = |random: &mut Random| two_of(random, SEMAPHORES);
        let bolts = |random: &mut Random| two_of(random, BOLTS);
        let task = random.below(TASKS as u32) as u8;
        let state = kernel.tasks[usize::from(task)].state;
        let crowded = self.count_tasks(|t| !t.runnable()) >= MOST_AWAY;
        let asks = |mark: &[u8; 2], list: Vec<u8>, wait: fn(&Draft) -> Wait| {
            let draft = Draft::new(mark).list(&list);
            (!crowded || kernel.runner_gets(&wait(&draft))).then_some(draft)
        };
        match random.below(12) {
            0 => asks(b"RQ", semaphores(random), |d| Wait::Request(d.as_list())),
            1 => {
                let list = semaphores(random);
                let low = |s: &u8| kernel.semaphores[usize::from(*s)] < 4;
                list.iter().all(low).then(|| Draft::new(b"RL").list(&list))
            }
            2 => asks(b"RS", bolts(random), |d| Wait::Reserve(d.as_list())),
            3 => {
                let list = bolts(random);
                let written = |b: &u8| kernel.bolts[usize::from(*b)].writer;
                list.iter()
                    .all(written)
                    .then(|| Draft::new(b"FR").list(&list))
            }
            4 => asks(b"ET", bolts(random), |d| Wait::Enter(d.as_list())),
            5 => {
                let list = bolts(random);
                let read = |b: &u8| kernel.bolts[usize::from(*b)].readers > 0;
                list.iter().all(read).then(|| Draft::new(b"LV").list(&list))
            }
            6 => (!crowded && state == State::Unheld).then(|| Draft::new(b"SU").on(task)),
            7 => (state != State::Unheld).then(|| Draft::new(b"CO").on(task)),
            8 => Some(Draft::new(b"TR").list(&semaphores(random)[..1])),
            9 => (!crowded).then(|| Draft::new(b"RE").first(random.between(1, 20))),
            _ => Some(Draft::new(b"TI")),
        }
    }
}

/// One number or two different ones.
fn two_of(random: &mut Random, count: u32) -> Vec<u8> {
    let one = random.below(count) as u8;
    let other = random.below(count) as u8;
    if one == other || random.once_in(2) {
        vec![one]
    } else {
        vec![one, other]
    }
}
