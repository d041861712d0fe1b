//! What a step answers.

/// Sets of tasks; task `i` counts 2^i.
#[derive(Clone, Copy, PartialEq, Eq, Debug, Default)]
pub struct Sets {
    pub due: u32,
    pub started: u32,
    pub ended: u32,
    pub lost: u32,
    pub granted: u32,
}

#[derive(Clone, Copy, PartialEq, Eq, Debug)]
pub struct Answer {
    /// 0, or the number of the refusal.
    pub number: u8,
    pub running: Option<u8>,
    pub sets: Sets,
}

impl Answer {
    pub fn refusal(number: u8, running: Option<u8>) -> Answer {
        Answer {
            number,
            running,
            sets: Sets::default(),
        }
    }
}
