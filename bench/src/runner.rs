//! Who goes before whom, and the running task, looked for or on file.

use crate::kernel::{Kernel, Priority};

/// The priority, and then the place: the smaller, the more urgent.
#[inline(always)]
pub fn urgency(priority: Priority, place: u8) -> u16 {
    u16::from(priority.get()) << 8 | u16::from(place)
}

/// The most urgent of the tasks seen so far.
pub struct Runner {
    /// The urgency, above all real ones at first, and then the number: one
    /// value, so that loops can keep it in one register.
    key: u32,
}

impl Runner {
    pub fn none() -> Runner {
        Runner { key: u32::MAX }
    }

    /// One more runnable task.
    #[inline(always)]
    pub fn consider(&mut self, number: usize, urgency: u16) {
        let key = u32::from(urgency) << 8 | number as u32;
        if key < self.key {
            self.key = key;
        }
    }

    pub fn number(&self) -> Option<u8> {
        (self.key != u32::MAX).then_some(self.key as u8)
    }
}

impl Kernel {
    /// The most urgent of the runnable tasks.
    pub fn running(&self) -> Option<u8> {
        let mut runner = Runner::none();
        for (i, (task, &place)) in self.tasks_and_places().enumerate() {
            if task.runnable() {
                runner.consider(i, urgency(task.current, place));
            }
        }
        runner.number()
    }

    /// The task on file, without a look: the running one, unless the kernel was
    /// changed by other means than a step.
    pub fn stored(&self) -> Option<u8> {
        self.on_file
    }
}
