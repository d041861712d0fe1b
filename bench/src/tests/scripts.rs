//! The random and the long scripts, and the reading of scripts in batches.

use crate::expect::{expect, Reached};
use crate::generate::{script, Kind, KINDS};
use crate::heavy;
use crate::kernel::{Kernel, List, Priority, Wait};
use crate::limits::{FULL, RECORD, TASKS};
use crate::lines::{self, has_line, push_line};
use crate::record::{Mark, Record};

fn text(script: &[u8]) -> String {
    let mut out = Vec::new();
    lines::run(script, &mut out).unwrap();
    String::from_utf8(out).unwrap()
}

#[test]
fn the_same_seed_gives_the_same_script() {
    for kind in KINDS {
        assert_eq!(script(kind, 7, 90), script(kind, 7, 90));
        assert_ne!(script(kind, 7, 90), script(kind, 8, 90));
    }
}

/// Refusal 1 in a script would mean that a step left an unsound kernel behind,
/// and refusal 16 that it left a wrong task or instant on file.
#[test]
fn no_script_reaches_refusal_1_or_16() {
    for seed in 0..200 {
        for kind in KINDS {
            let mut kernel = Kernel::new();
            for record in script(kind, seed, 200).chunks(RECORD) {
                let number = kernel.step(record).number;
                assert!(!matches!(number, 1 | 16), "{kind:?} {seed}");
                assert!(kernel.survey().is_ok());
            }
        }
    }
}

/// The runner that a step hands back and stores without looking is the one that a
/// look finds.
#[test]
fn the_running_task_is_always_looked_up_right() {
    for seed in 0..200 {
        for kind in KINDS {
            let mut kernel = Kernel::new();
            for record in script(kind, seed, 200).chunks(RECORD) {
                let answer = kernel.step(record);
                assert_eq!(answer.running, kernel.running(), "{kind:?} {seed}");
                assert_eq!(kernel.stored(), kernel.running(), "{kind:?} {seed}");
            }
        }
    }
}

/// With any other task on file, a kernel that a script leaves is refused.
#[test]
fn one_task_alone_may_be_on_file() {
    for seed in 0..50 {
        for kind in KINDS {
            let mut kernel = Kernel::new();
            for record in script(kind, seed, 200).chunks(RECORD) {
                kernel.step(record);
            }
            let running = kernel.running();
            for on_file in (0..=u8::MAX).map(Some).chain([None]) {
                kernel.on_file = on_file;
                let number = if on_file == running { 2 } else { 16 };
                let found = kernel.step(b"not a record").number;
                assert_eq!(found, number, "{kind:?} {seed} {on_file:?}");
            }
        }
    }
}

/// ENTER by the words of the rule, bolt by bolt.
fn may_enter(kernel: &Kernel, reader: Priority, bolts: &List) -> bool {
    bolts.numbers().iter().all(|b| {
        let bolt = kernel.bolts[usize::from(*b)];
        let writers = kernel.declared_tasks().iter().filter(|t| match &t.wait {
            Wait::Reserve(list) => list.numbers().contains(b),
            _ => false,
        });
        let urgent = writers.filter(|t| t.current <= reader).count();
        !bolt.writer && bolt.readers < FULL && urgent == 0
    })
}

/// Whom an accepted ENTER with this list is to be granted to, as a set.
fn entering(kernel: &Kernel, bolts: &List) -> u32 {
    let asker = usize::from(kernel.running().unwrap());
    let granted = may_enter(kernel, kernel.tasks[asker].current, bolts);
    u32::from(granted) << asker
}

fn some_reader_may_enter(kernel: &Kernel) -> bool {
    kernel.declared_tasks().iter().any(|t| match &t.wait {
        Wait::Enter(list) => may_enter(kernel, t.current, list),
        _ => false,
    })
}

#[test]
fn readers_wait_exactly_while_they_may_not_enter() {
    for seed in 0..200 {
        for kind in KINDS {
            let mut kernel = Kernel::new();
            for bytes in script(kind, seed, 200).chunks(RECORD) {
                let before = kernel.clone();
                let answer = kernel.step(bytes);
                assert!(!some_reader_may_enter(&kernel), "{kind:?} {seed}");
                match Record::read(bytes) {
                    Some(call) if call.mark == Mark::Enter && answer.number == 0 => {
                        let expected = entering(&before, &call.list);
                        assert_eq!(answer.sets.granted, expected, "{kind:?} {seed}");
                    }
                    _ => {}
                }
            }
        }
    }
}

/// In which call each task had its last event, the first call being 1; 0 if it
/// had none.
#[derive(Default)]
struct History {
    calls: u32,
    events: [u32; TASKS],
}

impl History {
    /// One more accepted call, by the words of the rule.
    fn note(&mut self, before: &Kernel, started: u32, after: &Kernel) {
        self.calls += 1;
        for (i, task) in after.declared_tasks().iter().enumerate() {
            let was = &before.tasks[i];
            let starts = started & (1 << i) != 0;
            let runnable = task.runnable() && (!was.runnable() || starts);
            if runnable || (task.waits() && !was.waits()) {
                self.events[i] = self.calls;
            }
        }
    }

    /// Of equally urgent tasks the one with the smaller turn goes first.
    fn turn(&self, i: usize) -> (u32, usize) {
        (self.events[i], i)
    }

    /// Whether a task that this call grants its wait goes before all that are as
    /// urgent and wait on for the same.
    fn serves_in_turn(&self, i: usize, before: &Kernel, after: &Kernel) -> bool {
        let same = |j: &usize| {
            let (one, other) = (&after.tasks[i], &after.tasks[*j]);
            other.waits() && other.wait == before.tasks[i].wait && other.current == one.current
        };
        let mut others = (0..after.declared_tasks().len()).filter(same);
        others.all(|j| self.turn(i) < self.turn(j))
    }
}

#[test]
fn equally_urgent_tasks_go_by_their_last_events() {
    for seed in 0..200 {
        for kind in KINDS {
            let mut kernel = Kernel::new();
            let mut history = History::default();
            for record in script(kind, seed, 200).chunks(RECORD) {
                let before = kernel.clone();
                let answer = kernel.step(record);
                let tasks = kernel.declared_tasks();
                if answer.number == 0 && kernel.called {
                    let served =
                        |i: &usize| answer.sets.granted & (1 << i) != 0 && before.tasks[*i].waits();
                    for i in (0..tasks.len()).filter(served) {
                        let in_turn = history.serves_in_turn(i, &before, &kernel);
                        assert!(in_turn, "{kind:?} {seed}");
                    }
                    history.note(&before, answer.sets.started, &kernel);
                }
                let mut order: Vec<usize> = (0..tasks.len()).collect();
                order.sort_by_key(|&i| history.turn(i));
                for (place, &i) in order.iter().enumerate() {
                    assert_eq!(usize::from(kernel.places[i]), place, "{kind:?} {seed}");
                }
                order.retain(|&i| tasks[i].runnable());
                let first = order.iter().min_by_key(|&&i| tasks[i].current);
                let running = answer.running.map(usize::from);
                assert_eq!(running, first.copied(), "{kind:?} {seed}");
                let stored = kernel.stored().map(usize::from);
                assert_eq!(stored, first.copied(), "{kind:?} {seed}");
            }
        }
    }
}

/// The lines that a script would get if equally urgent tasks went by number.
fn text_by_number(script: &[u8]) -> String {
    let mut kernel = Kernel::new();
    let mut out = Vec::new();
    for record in script.chunks(RECORD) {
        let mut answer = kernel.step(record);
        assert_ne!(answer.number, 16);
        kernel.forget_events();
        answer.running = kernel.running();
        if has_line(&kernel, &answer) {
            push_line(&mut out, &answer);
        }
    }
    String::from_utf8(out).unwrap()
}

/// Of 100 scripts of this kind, those in which turns can be told from numbers.
fn scripts_that_show_turns(kind: Kind) -> usize {
    let scripts = (0..100).map(|seed| script(kind, seed, 200));
    scripts.filter(|s| text(s) != text_by_number(s)).count()
}

#[test]
fn random_scripts_tell_turns_from_numbers() {
    for kind in KINDS {
        let least = if kind == Kind::Turns { 80 } else { 20 };
        let found = scripts_that_show_turns(kind);
        assert!(found >= least, "{found} of 100 {kind:?}");
    }
}

#[test]
fn long_scripts_are_accepted_whole_with_32_tasks_alive() {
    for bytes in [
        heavy::ticks(3000),
        heavy::calls(3000),
        heavy::sleeps(3000),
        heavy::readers(70_000),
        heavy::queues(3000),
    ] {
        let mut kernel = Kernel::new();
        for record in bytes.chunks(RECORD) {
            assert_eq!(kernel.step(record).number, 0);
        }
        assert!(kernel.tasks.iter().all(|t| t.alive()));
    }
}

#[test]
fn random_scripts_reach_what_is_demanded() {
    let mut reached = Reached::default();
    for seed in 0..125 {
        for kind in KINDS {
            expect(&script(kind, seed, 200), &mut reached);
        }
    }
    assert_eq!(reached.missing(), [""; 0]);
}

#[test]
fn what_many_scripts_do_not_reach_is_missing() {
    let mut reached = Reached::default();
    for _ in 0..999 {
        expect(b"", &mut reached);
    }
    assert_eq!(reached.missing(), [""; 0]);
    expect(b"", &mut reached);
    assert_eq!(reached.missing().len(), 16);
}

#[test]
fn a_script_may_be_empty_or_end_in_a_short_rest() {
    assert_eq!(text(b""), "");
    assert_eq!(text(b"TI"), "2 - 0 0 0 0 0\n");
}

#[test]
fn batches_leave_no_seam() {
    let script = heavy::ticks(5000);
    let lines = text(&script);
    assert_eq!(lines.lines().count(), 5000 - 48);
}
