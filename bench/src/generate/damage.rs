//! Records with something wrong in them.

use super::Maker;
use crate::draft::Draft;
use crate::limits::{DAY, LONGEST, RECORD};
use crate::record::LETTERS;

const ODD_TIMES: [u32; 10] = [
    0,
    1,
    DAY - 1,
    DAY,
    LONGEST,
    LONGEST + 1,
    65_535,
    65_536,
    1 << 31,
    u32::MAX,
];

impl Maker {
    /// One wrong record; near the end of the script it may shift all that follow.
    pub fn damaged_record(&mut self) {
        if self.left < 6 && self.random.once_in(6) {
            return self.shift();
        }
        let mut draft = match self.random.below(10) {
            0..=1 => self.declaration(),
            2 => return self.put_list_call(),
            3 => return self.put_odd_activation(),
            4 => return self.put_odd_continuation(),
            _ => self.call(),
        };
        let mut times = 1;
        while times < 4 && self.random.once_in(2) {
            times += 1;
        }
        for _ in 0..times {
            self.damage_field(&mut draft);
        }
        let mut bytes = draft.bytes();
        if self.random.once_in(4) {
            let place = self.random.below(RECORD as u32) as usize;
            bytes[place] = match self.random.below(2) {
                0 => bytes[place] ^ (1 << self.random.below(8)),
                _ => self.random.next() as u8,
            };
        }
        self.put_bytes(&bytes);
    }

    /// Any declaration; it comes too late if a call was accepted before.
    fn declaration(&mut self) -> Draft {
        let mark = LETTERS[self.random.below(5) as usize];
        let draft = Draft::new(mark);
        match mark {
            b"DT" => draft.priority(self.random.below(256) as u8),
            b"DS" | b"DC" => draft.first(self.random.pick(&ODD_TIMES)),
            _ => draft,
        }
    }

    /// A call with a list of any length whose few numbers often repeat.
    fn put_list_call(&mut self) {
        let mark = self
            .random
            .pick(&[b"RQ", b"RL", b"TR", b"RS", b"FR", b"ET", b"LV"]);
        let counts = self.kernel.counts;
        let highest = u32::from(counts.semaphores.min(counts.bolts));
        let mut draft = Draft::new(mark);
        draft.length = self.random.below(5) as u8;
        for place in 0..usize::from(draft.length) {
            draft.list[place] = self.random.between(0, highest) as u8;
        }
        self.put(draft);
    }

    /// An activation with only the right fields, but with odd times in them.
    fn put_odd_activation(&mut self) {
        let task = self.nearly_any_task();
        let draft = Draft::new(b"AC").on(task);
        let mut draft = match self.random.below(5) {
            0 => draft.all(self.random.pick(&ODD_TIMES)),
            _ => self.oddly_conditioned(draft),
        };
        if self.random.percent(60) {
            draft.period = self.random.pick(&ODD_TIMES);
        }
        let end = self.random.pick(&ODD_TIMES);
        let draft = match self.random.below(3) {
            0 => draft,
            1 => draft.until(end),
            _ => draft.during(end),
        };
        self.put(draft);
    }

    /// A CONTINUE or RESUME with odd times, or with what neither of them has.
    fn put_odd_continuation(&mut self) {
        let task = self.nearly_any_task();
        let draft = match self.random.below(2) {
            0 => Draft::new(b"CO").on(task),
            _ => Draft::new(b"RE"),
        };
        let mut draft = match self.random.below(5) {
            0 if draft.mark == *b"RE" => draft.first(self.random.pick(&ODD_TIMES)),
            0 => draft,
            _ => self.oddly_conditioned(draft),
        };
        match self.random.below(10) {
            0 => draft.start_kind = self.random.pick(&[5, 6, 255]),
            1 => draft.period = self.random.pick(&ODD_TIMES),
            2 => draft.end_kind = self.random.pick(&[1, 2, 3]),
            3 => draft.end = self.random.pick(&ODD_TIMES),
            4 => draft.number = task,
            5 => draft.priority = self.random.pick(&[1, 255]),
            _ => {}
        }
        self.put(draft);
    }

    /// A start kind from 1 to 4 with an odd time, or with an interrupt that may not be declared.
    fn oddly_conditioned(&mut self, draft: Draft) -> Draft {
        let interrupts = u32::from(self.kernel.counts.interrupts);
        let interrupt = self.random.between(0, interrupts) as u8;
        let time = self.random.pick(&ODD_TIMES);
        match self.random.below(4) {
            0 => draft.at(time),
            1 => draft.after(time),
            2 => draft.when(interrupt),
            _ => draft.when_after(interrupt, time),
        }
    }

    /// A declared task, or the first that isn't.
    fn nearly_any_task(&mut self) -> u8 {
        self.random.between(0, u32::from(self.kernel.counts.tasks)) as u8
    }

    fn damage_field(&mut self, draft: &mut Draft) {
        let counts = self.kernel.counts;
        match self.random.below(14) {
            0 => draft.first = self.random.pick(&ODD_TIMES),
            1 => draft.period = self.random.pick(&ODD_TIMES),
            2 => draft.end = self.random.pick(&ODD_TIMES),
            3 => draft.length = self.random.pick(&[0, 1, 2, 3, 4, 5, 255]),
            4 => {
                // Often a number twice.
                let from = self.random.below(4) as usize;
                let to = self.random.below(4) as usize;
                draft.list[to] = draft.list[from];
                draft.length = draft.length.max(to as u8 + 1);
            }
            5 => {
                let place = self.random.below(4) as usize;
                draft.list[place] =
                    self.random
                        .pick(&[counts.semaphores, counts.bolts, 0, 15, 16, 255]);
            }
            6 => {
                draft.number = self
                    .random
                    .pick(&[counts.tasks, counts.interrupts, 8, 31, 32, 255]);
            }
            7 => draft.start_kind = self.random.pick(&[0, 1, 2, 3, 4, 5, 6, 255]),
            8 => draft.end_kind = self.random.pick(&[0, 1, 2, 3, 255]),
            9 => draft.interrupt = self.random.pick(&[0, counts.interrupts, 7, 8, 255]),
            10 => draft.priority = self.random.pick(&[0, 1, 255]),
            11 => draft.mark = *self.random.pick(&LETTERS),
            12 => self.damage_mark(draft),
            _ => {}
        }
    }

    fn damage_mark(&mut self, draft: &mut Draft) {
        let mark = draft.mark;
        draft.mark = match self.random.below(5) {
            0 => [mark[1], mark[0]],
            1 => [mark[0].to_ascii_lowercase(), mark[1]],
            2 => [mark[0], mark[1].to_ascii_lowercase()],
            3 => [0, 0],
            _ => [
                b'A' + self.random.below(26) as u8,
                b'A' + self.random.below(26) as u8,
            ],
        };
    }

    /// A record with bytes left out or put in, so that the rest is read askew.
    fn shift(&mut self) {
        let mut bytes = self.call().bytes().to_vec();
        let place = self.random.below(RECORD as u32) as usize;
        if self.random.percent(50) {
            bytes.remove(place);
        } else {
            bytes.insert(place, self.random.next() as u8);
        }
        self.put_bytes(&bytes);
    }

    /// The beginning of one more record.
    pub fn short_rest(&mut self) {
        let bytes = self.call().bytes();
        let length = self.random.between(1, RECORD as u32 - 1) as usize;
        self.script.extend_from_slice(&bytes[..length]);
    }
}
