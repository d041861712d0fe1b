//! Well-formed records of every form with one bit set in a byte that they don't use.

use super::Maker;
use crate::draft::Draft;
use crate::limits::LIST;
use crate::record::{Record, LETTERS};
use crate::unused::unused_bytes;

/// How many of the marks declare; they come first.
const DECLARATIONS: usize = 5;

impl Maker {
    pub fn put_stray(&mut self) {
        let draft = self.any_form();
        self.put_with_stray_bit(draft);
    }

    /// A tick or a sleep that isn't one.
    pub fn put_stray_tick(&mut self) {
        let mark = self.random.pick(&[b"TI", b"SL"]);
        self.put_with_stray_bit(Draft::new(mark));
    }

    fn put_with_stray_bit(&mut self, draft: Draft) {
        let mut bytes = draft.bytes();
        let unused = Record::read(&bytes).and_then(|record| unused_bytes(&record));
        let place = self.random.pick(&unused.expect("a form in range"));
        bytes[place] = 1 << self.random.below(8);
        self.put_bytes(&bytes);
    }

    /// Any mark, and of those with several start kinds, end kinds or lengths any
    /// of these. The declarations come while they can be accepted.
    fn any_form(&mut self) -> Draft {
        let marks = match self.kernel.called {
            false if self.random.percent(50) => &LETTERS[..DECLARATIONS],
            false => &LETTERS[..],
            true => &LETTERS[DECLARATIONS..],
        };
        let mark = self.random.pick(marks);
        let draft = Draft::new(mark);
        match mark {
            b"DT" => self.task(),
            b"DS" => self.semaphore(),
            b"DC" => draft.first(self.time_at_zero()),
            b"AC" => self.any_start(),
            b"CO" => {
                let kind = self.random.below(5);
                let draft = draft.on(self.any_task()).priority(self.priority_or_none());
                self.with_kind(draft, kind)
            }
            b"RE" => match self.random.below(5) {
                0 => draft.first(self.duration()),
                kind => self.with_kind(draft, kind),
            },
            b"TE" | b"SU" | b"PR" => draft.on(self.any_task()),
            b"TG" | b"EI" | b"XI" => draft.on(self.any_interrupt()),
            b"RQ" | b"RL" | b"TR" => self.with_any_list(draft, self.kernel.counts.semaphores),
            b"RS" | b"FR" | b"ET" | b"LV" => self.with_any_list(draft, self.kernel.counts.bolts),
            _ => draft,
        }
    }

    fn any_start(&mut self) -> Draft {
        let kind = self.random.below(6);
        let end_kind = self.random.below(3);
        let task = self.any_task();
        let draft = Draft::new(b"AC").on(task).priority(self.priority_or_none());
        let mut draft = self.with_kind(draft, kind);
        if kind == 0 || (end_kind == 0 && kind < 5 && self.random.percent(50)) {
            return draft;
        }
        draft.period = self.duration();
        match end_kind {
            0 => draft,
            1 => draft.until(self.time()),
            _ => draft.during(self.duration()),
        }
    }

    fn with_kind(&mut self, draft: Draft, kind: u32) -> Draft {
        match kind {
            0 => draft,
            1 => draft.at(self.time()),
            2 => draft.after(self.duration()),
            3 => draft.when(self.any_interrupt()),
            4 => {
                let interrupt = self.any_interrupt();
                draft.when_after(interrupt, self.duration())
            }
            _ => draft.all(self.duration()),
        }
    }

    /// No number twice; declared ones if there are enough.
    fn with_any_list(&mut self, draft: Draft, declared: u8) -> Draft {
        let mut numbers: Vec<u8> = (0..declared.max(LIST as u8)).collect();
        self.random.shuffle(&mut numbers);
        numbers.truncate(self.random.between(0, LIST as u32) as usize);
        draft.list(&numbers)
    }

    fn any_task(&mut self) -> u8 {
        let tasks = u32::from(self.kernel.counts.tasks);
        self.random.below(tasks.max(1)) as u8
    }

    fn any_interrupt(&mut self) -> u8 {
        let interrupts = u32::from(self.kernel.counts.interrupts);
        self.random.below(interrupts.max(1)) as u8
    }
}
