//! Records put together field by field, good or bad.

use crate::kernel::List;
use crate::limits::{LIST, RECORD};

#[derive(Clone, Copy, Default)]
pub struct Draft {
    pub mark: [u8; 2],
    pub number: u8,
    pub priority: u8,
    pub length: u8,
    pub list: [u8; LIST],
    pub start_kind: u8,
    pub interrupt: u8,
    pub end_kind: u8,
    pub first: u32,
    pub period: u32,
    pub end: u32,
}

impl Draft {
    pub fn new(mark: &[u8; 2]) -> Draft {
        Draft {
            mark: *mark,
            ..Draft::default()
        }
    }

    /// The task or interrupt that the call is about.
    pub fn on(mut self, number: u8) -> Draft {
        self.number = number;
        self
    }

    pub fn priority(mut self, priority: u8) -> Draft {
        self.priority = priority;
        self
    }

    /// At most four numbers.
    pub fn list(mut self, numbers: &[u8]) -> Draft {
        self.length = numbers.len() as u8;
        self.list[..numbers.len()].copy_from_slice(numbers);
        self
    }

    /// The list as a kernel would keep it.
    pub fn as_list(&self) -> List {
        List {
            length: self.length,
            places: self.list,
        }
    }

    pub fn first(mut self, time: u32) -> Draft {
        self.first = time;
        self
    }

    pub fn at(mut self, time: u32) -> Draft {
        self.start_kind = 1;
        self.first(time)
    }

    pub fn after(mut self, length: u32) -> Draft {
        self.start_kind = 2;
        self.first(length)
    }

    pub fn when(mut self, interrupt: u8) -> Draft {
        self.start_kind = 3;
        self.interrupt = interrupt;
        self
    }

    pub fn when_after(mut self, interrupt: u8, length: u32) -> Draft {
        self.start_kind = 4;
        self.interrupt = interrupt;
        self.first(length)
    }

    /// ALL alone, without a first time.
    pub fn all(mut self, period: u32) -> Draft {
        self.start_kind = 5;
        self.every(period)
    }

    pub fn every(mut self, period: u32) -> Draft {
        self.period = period;
        self
    }

    pub fn until(mut self, time: u32) -> Draft {
        self.end_kind = 1;
        self.end = time;
        self
    }

    pub fn during(mut self, length: u32) -> Draft {
        self.end_kind = 2;
        self.end = length;
        self
    }

    pub fn bytes(&self) -> [u8; RECORD] {
        let mut bytes = [0; RECORD];
        bytes[..2].copy_from_slice(&self.mark);
        bytes[2] = self.number;
        bytes[3] = self.priority;
        bytes[4] = self.length;
        bytes[5..9].copy_from_slice(&self.list);
        bytes[9] = self.start_kind;
        bytes[10] = self.interrupt;
        bytes[11] = self.end_kind;
        bytes[12..16].copy_from_slice(&self.first.to_be_bytes());
        bytes[16..20].copy_from_slice(&self.period.to_be_bytes());
        bytes[20..24].copy_from_slice(&self.end.to_be_bytes());
        bytes
    }
}
