//! How long a waiting task waits.
//!
//! Take a task that waits in a REQUEST of one semaphore, with `a` others ahead of
//! it. It has been granted with the (a + 1)th RELEASE that names the semaphore,
//! unless one of the things happens that `watch.rs` looks out for.

use std::io::{self, Read, Write};

use crate::kernel::{Kernel, Wait};
use crate::limits::RECORD;
use crate::runner::urgency;
use crate::trouble::no_output;

/// A task that waits in a REQUEST of one semaphore.
#[derive(Clone, Copy, PartialEq, Eq, Debug)]
pub struct Waiting {
    pub task: usize,
    pub semaphore: u8,
    /// How many others wait for the semaphore, alone or among others, and are
    /// more urgent, or as urgent and earlier.
    pub ahead: usize,
}

impl Waiting {
    /// With so many RELEASEs it has been granted.
    pub fn bound(&self) -> usize {
        self.ahead + 1
    }
}

impl Kernel {
    /// Those that wait in a REQUEST of one semaphore, by number.
    pub fn waiting_for_one(&self) -> impl Iterator<Item = Waiting> + '_ {
        let numbers = 0..self.declared_tasks().len();
        numbers.filter_map(|task| {
            let semaphore = self.one_semaphore(task)?;
            Some(Waiting {
                task,
                semaphore,
                ahead: self.ahead(task, semaphore),
            })
        })
    }

    fn one_semaphore(&self, task: usize) -> Option<u8> {
        match &self.tasks[task].wait {
            Wait::Request(list) if list.length == 1 => Some(list.places[0]),
            _ => None,
        }
    }

    /// How many go before this task once the semaphore is released.
    fn ahead(&self, task: usize, semaphore: u8) -> usize {
        let turn = |i: usize| urgency(self.tasks[i].current, self.places[i]);
        let numbers = 0..self.declared_tasks().len();
        numbers
            .filter(|&i| i != task && self.requests(i, semaphore) && turn(i) < turn(task))
            .count()
    }

    /// Whether a task waits in a REQUEST that names this semaphore.
    fn requests(&self, i: usize, semaphore: u8) -> bool {
        match &self.tasks[i].wait {
            Wait::Request(list) => list.numbers().contains(&semaphore),
            _ => false,
        }
    }
}

/// A line for each of them: task, semaphore and bound.
pub fn lines(waiting: impl IntoIterator<Item = Waiting>) -> Vec<u8> {
    let mut text = String::new();
    for one in waiting {
        text += &format!("{} {} {}\n", one.task, one.semaphore, one.bound());
    }
    text.into_bytes()
}

/// Writes the lines of the kernel that the script of `input` leaves.
pub fn run(mut input: impl Read, mut output: impl Write) -> io::Result<()> {
    let mut script = Vec::new();
    input.read_to_end(&mut script)?;
    let mut kernel = Kernel::new();
    for record in script.chunks(RECORD) {
        kernel.step(record);
    }
    output
        .write_all(&lines(kernel.waiting_for_one()))
        .and_then(|()| output.flush())
        .map_err(no_output)
}
