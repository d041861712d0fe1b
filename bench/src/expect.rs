//! What other programs are to write for a script, and what the script reaches.

use std::fmt;

use crate::coverage::Coverage;
use crate::kernel::Kernel;
use crate::limits::RECORD;
use crate::lines::{has_line, push_line};
use crate::waits::{self, Waiting};
use crate::watch::{by_ahead, Outcomes, Watcher};

pub struct Expected {
    /// The lines of `rackrun`.
    pub text: Vec<u8>,
    /// The number of the record of each of these lines.
    pub records: Vec<usize>,
    /// For `rackwait`: the whole script, and the beginning of it after which the
    /// sum of the bounds is greatest.
    pub looks: Vec<Look>,
    /// The bounds that don't hold, in words.
    pub broken: Vec<String>,
}

/// Those that wait for one semaphore after so many bytes of a script.
pub struct Look {
    pub length: usize,
    waiting: Vec<Waiting>,
}

impl Look {
    fn new(kernel: &Kernel, length: usize) -> Look {
        let waiting = kernel.waiting_for_one().collect();
        Look { length, waiting }
    }

    fn sum(&self) -> usize {
        self.waiting.iter().map(Waiting::bound).sum()
    }

    /// The lines of `rackwait`.
    pub fn text(&self) -> Vec<u8> {
        waits::lines(self.waiting.iter().copied())
    }
}

/// What all scripts reach.
#[derive(Default)]
pub struct Reached {
    coverage: Coverage,
    outcomes: Outcomes,
    /// How often `rackwait` is asked, and its lines by how many are ahead.
    looks: u64,
    ahead: [u64; 4],
}

impl Reached {
    /// What the scripts should have reached and haven't.
    pub fn missing(&self) -> Vec<&'static str> {
        self.coverage.missing()
    }

    fn note_look(&mut self, look: &Look) {
        self.looks += 1;
        for waiting in &look.waiting {
            self.ahead[waiting.ahead.min(3)] += 1;
        }
    }
}

pub fn expect(bytes: &[u8], reached: &mut Reached) -> Expected {
    let mut kernel = Kernel::new();
    let mut watcher = Watcher::default();
    let mut fullest = Look::new(&kernel, 0);
    let mut text = Vec::new();
    let mut records = Vec::new();
    reached.coverage.note_script();
    for (i, record) in bytes.chunks(RECORD).enumerate() {
        let before = kernel.clone();
        let answer = kernel.step(record);
        reached.coverage.note(&before, record, &answer, &kernel);
        watcher.note(&before, record, &answer, &kernel, &mut reached.outcomes);
        if has_line(&kernel, &answer) {
            push_line(&mut text, &answer);
            records.push(i);
        }
        let look = Look::new(&kernel, RECORD * i + record.len());
        if look.sum() > fullest.sum() {
            fullest = look;
        }
    }
    watcher.finish(&mut reached.outcomes);
    let mut looks = vec![Look::new(&kernel, bytes.len())];
    if !fullest.waiting.is_empty() && fullest.length < bytes.len() {
        looks.push(fullest);
    }
    looks.iter().for_each(|look| reached.note_look(look));
    Expected {
        text,
        records,
        looks,
        broken: watcher.broken,
    }
}

impl fmt::Display for Reached {
    fn fmt(&self, f: &mut fmt::Formatter) -> fmt::Result {
        write!(f, "{}{}", self.coverage, self.outcomes)?;
        let lines: u64 = self.ahead.iter().sum();
        let ahead = by_ahead(&self.ahead);
        writeln!(
            f,
            "lines of rackwait {lines} in {} looks: {ahead}",
            self.looks
        )
    }
}
