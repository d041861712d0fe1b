//! The way to the last ticks of the clock.

use super::Maker;
use crate::draft::Draft;
use crate::limits::{LAST_TICK, LONGEST};

/// At most so many ticks are left then.
const LEFT: u32 = 40;

impl Maker {
    /// Sleeps from one due to the next of the longest period, and then to the end
    /// of the clock or a few ticks before it. Some task has to be declared.
    pub fn go_near_the_end(&mut self) {
        let Some(task) = self.some_task(|_| true) else {
            return;
        };
        let start = Draft::new(b"AC").on(task);
        self.lead(start.all(LONGEST));
        for _ in 0..LAST_TICK / u64::from(LONGEST) {
            self.lead(Draft::new(b"SL"));
        }
        let rest = self.ticks_left() as u32 - self.random.below(LEFT + 1);
        self.lead(start.after(rest));
        self.lead(Draft::new(b"SL"));
    }

    fn lead(&mut self, draft: Draft) {
        self.put_on_top(&draft.bytes());
    }

    fn ticks_left(&self) -> u64 {
        LAST_TICK - self.kernel.now
    }
}
