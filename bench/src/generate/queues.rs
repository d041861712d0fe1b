//! Calls about tasks that wait for semaphores.

use super::Maker;
use crate::draft::Draft;

impl Maker {
    /// One more asks for what others wait for, or one who waits is held, goes on,
    /// or gets another priority.
    pub fn call_about_queues(&mut self) -> Option<Draft> {
        match self.random.below(4) {
            0 | 1 => self.wait_as_well(),
            2 => self.hold_or_continue(),
            _ => self.become_equal(),
        }
    }
}
