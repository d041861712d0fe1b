//! Equal urgency takes turns: the order of events.
//!
//! A task has an event when it becomes runnable, or starts anew, and when a wait
//! of it begins. The later its last event, the higher its place. Several events
//! in one call go by task number, and so do tasks that had none yet. There are as
//! many places as tasks, and a move only deals them out anew: they never run out.

use crate::grant::members;
use crate::kernel::Kernel;
use crate::sound::Survey;

impl Kernel {
    /// Moves the tasks that had an event in the call just carried out; `found` is
    /// from its beginning.
    pub fn take_turns(&mut self, found: &Survey, started: u32) {
        for i in members(self.events(found, started)) {
            self.go_last(i);
        }
    }

    /// The tasks with an event in that call.
    pub fn events(&self, found: &Survey, started: u32) -> u32 {
        let mut runnable = 0;
        let mut waiting = 0;
        for (i, task) in self.declared_tasks().iter().enumerate() {
            runnable |= u32::from(task.runnable()) << i;
            waiting |= u32::from(task.waits()) << i;
        }
        let became_runnable = runnable & (!found.runnable | started);
        let began_to_wait = waiting & !found.waiting;
        became_runnable | began_to_wait
    }

    /// Task `i` goes to the end of the order, and those behind it close up.
    fn go_last(&mut self, i: usize) {
        let left = self.places[i];
        let places = self.declared_places_mut();
        for place in &mut *places {
            *place -= u8::from(*place > left);
        }
        places[i] = places.len() as u8 - 1;
    }

    /// All tasks stand as if they had had no event yet, and the one that runs
    /// then is on file.
    pub fn forget_events(&mut self) {
        for (i, place) in self.declared_places_mut().iter_mut().enumerate() {
            *place = i as u8;
        }
        self.on_file = self.running();
    }
}
