//! Random scripts from a seed.
//!
//! The maker of a script steps a kernel along with what it writes, so that it
//! can choose calls which fit the state that the script has reached.

mod bolts;
mod calls;
mod damage;
mod declare;
mod late;
mod queues;
mod stray;
mod turns;

use crate::draft::Draft;
use crate::kernel::{Kernel, Task};
use crate::limits::RECORD;
use crate::random::Random;

#[derive(Clone, Copy, PartialEq, Eq, Debug)]
pub enum Kind {
    /// All marks, nearly all records well formed and fitting.
    Valid,
    /// Good records between damaged ones, and between ones of every form that a
    /// single bit spoils; some scripts end in a short rest.
    Damaged,
    /// Many tasks after few semaphores and bolts.
    Contended,
    /// Schedules, delays, many ticks and sleeps, often around midnight; among them
    /// ticks and sleeps that are refused for one bit.
    Idle,
    /// Readers and writers of few bolts; while they wait they are held, go on
    /// with another priority, or end.
    Writers,
    /// Many equally urgent tasks that start anew, wait for the same, are held
    /// and go on, often several in one call.
    Turns,
    /// Many tasks that wait for one of few semaphores, and few who release.
    Queues,
    /// As idle, but close to the end of the clock.
    Late,
}

pub const KINDS: [Kind; 8] = [
    Kind::Valid,
    Kind::Damaged,
    Kind::Contended,
    Kind::Idle,
    Kind::Writers,
    Kind::Turns,
    Kind::Queues,
    Kind::Late,
];

impl Kind {
    pub fn name(self) -> &'static str {
        match self {
            Kind::Valid => "valid",
            Kind::Damaged => "damaged",
            Kind::Contended => "contended",
            Kind::Idle => "idle",
            Kind::Writers => "writers",
            Kind::Turns => "turns",
            Kind::Queues => "queues",
            Kind::Late => "late",
        }
    }

    /// Whether most of the script is time that goes by.
    fn is_idle(self) -> bool {
        matches!(self, Kind::Idle | Kind::Late)
    }

    pub fn from_name(name: &str) -> Option<Kind> {
        KINDS.into_iter().find(|kind| kind.name() == name)
    }
}

/// A script of this kind with so many records; damage may change their number a
/// little, and what leads to the end of the clock comes on top.
pub fn script(kind: Kind, seed: u64, records: usize) -> Vec<u8> {
    let mut maker = Maker {
        kind,
        random: Random::new(seed),
        kernel: Kernel::new(),
        script: Vec::with_capacity(records * RECORD),
        left: records,
    };
    maker.declarations();
    if kind == Kind::Late {
        maker.go_near_the_end();
    }
    while maker.left > 0 {
        if kind == Kind::Damaged && maker.random.percent(45) {
            maker.damaged_record();
        } else if kind == Kind::Damaged && maker.random.once_in(4) {
            maker.put_stray();
        } else if kind.is_idle() && maker.random.once_in(25) {
            maker.put_stray_tick();
        } else if kind.is_idle() && maker.random.once_in(20) {
            maker.put_sleeps();
        } else {
            let call = maker.call();
            maker.put(call);
        }
    }
    if kind == Kind::Damaged && maker.random.once_in(3) {
        maker.short_rest();
    }
    maker.script
}

struct Maker {
    kind: Kind,
    random: Random,
    kernel: Kernel,
    script: Vec<u8>,
    /// Records still to be written.
    left: usize,
}

impl Maker {
    fn put(&mut self, draft: Draft) {
        self.put_bytes(&draft.bytes());
    }

    fn put_bytes(&mut self, record: &[u8]) {
        if self.left > 0 {
            self.left -= 1;
            self.put_on_top(record);
        }
    }

    /// A record that doesn't count.
    fn put_on_top(&mut self, record: &[u8]) {
        self.kernel.step(record);
        self.script.extend_from_slice(record);
    }

    /// Several sleeps in a row, whatever is to come.
    fn put_sleeps(&mut self) {
        for _ in 0..self.random.between(2, 5) {
            self.put(Draft::new(b"SL"));
        }
    }

    /// Some declared task for which `fits` holds.
    fn some_task(&mut self, fits: impl Fn(&Task) -> bool) -> Option<u8> {
        let fitting = numbers_where(self.kernel.declared_tasks(), fits);
        self.one_of(&fitting)
    }

    fn one_of(&mut self, numbers: &[u8]) -> Option<u8> {
        if numbers.is_empty() {
            None
        } else {
            Some(self.random.pick(numbers))
        }
    }
}

/// The places of the items for which `fits` holds.
fn numbers_where<T>(items: &[T], fits: impl Fn(&T) -> bool) -> Vec<u8> {
    (0..items.len())
        .filter(|&i| fits(&items[i]))
        .map(|i| i as u8)
        .collect()
}
