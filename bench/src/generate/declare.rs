//! What a random script declares first.

use super::{Kind, Maker};
use crate::draft::Draft;
use crate::limits::{BOLTS, DAY, INTERRUPTS, SEMAPHORES, TASKS};

impl Maker {
    pub fn declarations(&mut self) {
        if self.random.once_in(40) {
            return;
        }
        let mut drafts = Vec::new();
        for _ in 0..self.how_many(b"DT") {
            drafts.push(self.task());
        }
        for _ in 0..self.how_many(b"DS") {
            drafts.push(self.semaphore());
        }
        for _ in 0..self.how_many(b"DB") {
            drafts.push(Draft::new(b"DB"));
        }
        for _ in 0..self.how_many(b"IT") {
            drafts.push(Draft::new(b"IT"));
        }
        for _ in 0..self.random.below(3) {
            let time = self.time_at_zero();
            drafts.push(Draft::new(b"DC").first(time));
        }
        self.random.shuffle(&mut drafts);
        for draft in drafts {
            if self.kind == Kind::Damaged && self.random.once_in(12) {
                self.damaged_record();
            }
            if self.kind == Kind::Damaged && self.random.once_in(8) {
                self.put_stray();
            }
            if self.random.once_in(20) {
                self.too_early();
            }
            self.put(draft);
        }
    }

    /// A call that can't be accepted yet, so that declarations may go on.
    fn too_early(&mut self) {
        let draft = match self.random.below(7) {
            0 => Draft::new(b"TE"),
            1 => Draft::new(b"CO"),
            2 => Draft::new(b"RE").first(1),
            3 => Draft::new(b"RE").at(0),
            4 => Draft::new(b"TR").list(&[0]),
            5 => Draft::new(b"SL"),
            _ => Draft::new(b"EN"),
        };
        self.put(draft);
    }

    /// Now and then none, now and then more than there is room for.
    fn how_many(&mut self, mark: &[u8; 2]) -> u32 {
        let room = match mark {
            b"DT" => TASKS,
            b"DS" => SEMAPHORES,
            b"DB" => BOLTS,
            _ => INTERRUPTS,
        } as u32;
        if self.random.once_in(30) {
            return 0;
        }
        if self.random.once_in(30) {
            return room + self.random.between(1, 2);
        }
        match (self.kind, mark) {
            (Kind::Contended, b"DT") => self.random.between(8, 32),
            (Kind::Contended, b"DS" | b"DB") => self.random.between(2, 6),
            (Kind::Idle | Kind::Late, b"DT") => self.random.between(2, 16),
            (Kind::Writers, b"DT") => self.random.between(5, 16),
            (Kind::Writers, b"DB") => self.random.between(2, 4),
            (Kind::Writers, b"IT") => self.random.between(1, 2),
            (Kind::Turns, b"DT") => self.random.between(6, 20),
            (Kind::Turns, b"DS") => self.random.between(1, 3),
            (Kind::Turns, b"DB" | b"IT") => self.random.between(1, 2),
            (Kind::Queues, b"DT") => self.random.between(6, 24),
            (Kind::Queues, b"DS") => self.random.between(1, 3),
            (Kind::Queues, b"DB" | b"IT") => self.random.between(1, 2),
            (_, b"DT") => self.random.between(1, 20),
            (_, b"IT") => self.random.between(1, 4),
            _ => self.random.between(1, 8),
        }
    }

    /// Few different priorities, so that equals are common.
    pub fn task(&mut self) -> Draft {
        let priority = match self.random.below(10) {
            0..=2 if self.kind == Kind::Turns => self.random.between(3, 5),
            _ if self.kind == Kind::Turns => 4,
            0 => self.random.between(1, 255),
            1 => 255,
            _ => self.random.between(1, 6),
        };
        Draft::new(b"DT").priority(priority as u8)
    }

    pub fn semaphore(&mut self) -> Draft {
        let preset = match self.random.below(10) {
            1..=9 if matches!(self.kind, Kind::Turns | Kind::Queues) => self.random.below(2),
            0 => 65_535,
            1 => 65_534,
            2 if self.kind != Kind::Contended => self.random.below(65_536),
            _ => self.random.below(4),
        };
        Draft::new(b"DS").first(preset)
    }

    pub fn time_at_zero(&mut self) -> u32 {
        match self.random.below(4) {
            0 => self.random.below(DAY),
            1 => self.random.below(40),
            _ => DAY - self.random.between(1, 60),
        }
    }
}
