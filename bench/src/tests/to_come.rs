//! The instant to come on file: which one gets refusal 16, and what each call stores.

use super::{after, feed, feed_bytes, number, r, semaphore, steps, task};
use crate::calendar::Instant;
use crate::draft::Draft;
use crate::generate::{script, KINDS};
use crate::kernel::{Kernel, State};
use crate::limits::{DAY, LAST_INSTANT, LAST_TICK, LONGEST, RECORD};

/// Refused, nobody runs, and all sets are empty.
const REFUSED: &str = "16 - 0 0 0 0 0";

/// Each of these records is accepted, and then this instant is on file.
#[track_caller]
fn comes<const N: usize>(kernel: &mut Kernel, steps: [(Draft, Option<Instant>); N]) {
    for (i, (draft, to_come)) in steps.into_iter().enumerate() {
        assert_eq!(number(kernel, draft), 0, "step {i}");
        assert_eq!(kernel.to_come, to_come, "step {i}");
    }
}

/// The line of a record that finds this instant on file. A refusal leaves the
/// kernel as it is.
#[track_caller]
fn line_with(to_come: Option<Instant>, kernel: &Kernel, record: &[u8]) -> String {
    let mut kernel = kernel.clone();
    kernel.to_come = to_come;
    let before = kernel.clone();
    let line = feed_bytes(&mut kernel, record).unwrap();
    if !line.starts_with("0 ") {
        assert_eq!(kernel, before);
    }
    line
}

#[track_caller]
fn tick_with(to_come: Option<Instant>, kernel: &Kernel) -> String {
    line_with(to_come, kernel, &r(b"TI").bytes())
}

/// It is instant 2, and task 0 runs. Task 1 starts at 7, task 2 is delayed until 9,
/// task 3 is to go on at 11. Task 4 has nothing to come. Interrupt 0 is enabled.
fn seven_is_next() -> Kernel {
    after(&[
        task(5),
        task(6),
        task(4),
        task(3),
        task(7),
        semaphore(0),
        r(b"IT"),
        r(b"EI"),
        r(b"AC").on(0),
        r(b"AC").on(2),
        r(b"RE").first(9),
        r(b"CO").on(3).after(11),
        r(b"TI"),
        r(b"TI"),
        r(b"AC").on(1).after(5),
    ])
}

/// One task that runs, at instant 2.
fn nothing_to_come() -> Kernel {
    after(&[task(5), r(b"IT"), r(b"EI"), r(b"AC"), r(b"TI"), r(b"TI")])
}

#[test]
fn a_fresh_kernel_has_no_instant_on_file() {
    let fresh = Kernel::new();
    assert_eq!(fresh.to_come, None);
    assert_eq!(tick_with(None, &fresh), "0 - 0 0 0 0 0");
    for wrong in [0, 1, 2, LAST_TICK, LAST_INSTANT + 1, u64::MAX] {
        assert_eq!(tick_with(Some(wrong), &fresh), REFUSED);
        assert_eq!(line_with(Some(wrong), &fresh, &task(1).bytes()), REFUSED);
    }
}

#[test]
fn the_right_instant_is_accepted() {
    assert_eq!(tick_with(Some(7), &seven_is_next()), "0 0 0 0 0 0 0");
    assert_eq!(tick_with(None, &nothing_to_come()), "0 0 0 0 0 0 0");
}

#[test]
fn none_while_something_is_to_come_is_16() {
    assert_eq!(tick_with(None, &seven_is_next()), REFUSED);
}

#[test]
fn an_instant_while_nothing_is_to_come_is_16() {
    let beyond = [LAST_TICK, LAST_TICK + 1, LAST_INSTANT, LAST_INSTANT + 1];
    for wrong in (0..20).chain(beyond).chain([u64::MAX]) {
        assert_eq!(tick_with(Some(wrong), &nothing_to_come()), REFUSED);
    }
}

/// The present instant, ones before it, and those at which something later comes
/// due are wrong as well.
#[test]
fn another_instant_is_16() {
    for wrong in (0..20).filter(|&instant| instant != 7) {
        assert_eq!(tick_with(Some(wrong), &seven_is_next()), REFUSED, "{wrong}");
    }
}

#[test]
fn an_instant_out_of_range_is_16() {
    for wrong in [
        LAST_TICK,
        LAST_TICK + 1,
        LAST_INSTANT,
        LAST_INSTANT + 1,
        LAST_INSTANT + 7,
        1 << 63,
        u64::MAX,
    ] {
        assert_eq!(tick_with(Some(wrong), &seven_is_next()), REFUSED, "{wrong}");
    }
}

/// The last instant that may be stored is a right one where it is the earliest.
#[test]
fn the_last_instant_may_be_on_file() {
    let mut kernel = nothing_to_come();
    kernel.tasks[0].state = State::DelayedUntil(LAST_INSTANT);
    kernel.on_file = None;
    assert_eq!(tick_with(Some(LAST_INSTANT), &kernel), "0 - 0 0 0 0 0");
    assert_eq!(tick_with(Some(LAST_INSTANT + 1), &kernel), REFUSED);
    assert_eq!(tick_with(None, &kernel), REFUSED);
    kernel.tasks[0].state = State::DelayedUntil(LAST_INSTANT + 1);
    for to_come in [None, Some(LAST_INSTANT), Some(LAST_INSTANT + 1)] {
        assert_eq!(tick_with(to_come, &kernel), "1 - 0 0 0 0 0");
    }
}

/// Each of these would be the earliest if it were later than now.
#[test]
fn what_pends_at_now_or_before_is_not_looked_at() {
    for past in [0, 1, 2] {
        let changes: [fn(&mut Kernel, Instant); 3] = [
            |k, past| k.tasks[2].state = State::DelayedUntil(past),
            |k, past| k.tasks[1].schedule.as_mut().unwrap().next = past,
            |k, past| k.tasks[3].continuation.as_mut().unwrap().next = past,
        ];
        for (change, to_come) in changes.into_iter().zip([7, 9, 7]) {
            let mut kernel = seven_is_next();
            change(&mut kernel, past);
            assert_eq!(tick_with(Some(to_come), &kernel), "0 0 0 0 0 0 0");
            assert_eq!(tick_with(Some(past), &kernel), REFUSED);
        }
    }
}

#[test]
fn what_pends_at_now_alone_is_nothing_to_come() {
    let mut kernel = seven_is_next();
    kernel.now = 11;
    assert_eq!(tick_with(None, &kernel), "0 0 0 0 0 0 0");
    for wrong in [7, 9, 11, 12] {
        assert_eq!(tick_with(Some(wrong), &kernel), REFUSED);
    }
}

#[test]
fn undeclared_tasks_are_not_looked_at() {
    let mut kernel = seven_is_next();
    kernel.tasks[5] = kernel.tasks[2];
    kernel.tasks[5].state = State::DelayedUntil(4);
    kernel.tasks[6].schedule = kernel.tasks[1].schedule;
    kernel.tasks[6].schedule.as_mut().unwrap().next = 5;
    assert_eq!(tick_with(Some(7), &kernel), "0 0 0 0 0 0 0");
    for wrong in [4, 5] {
        assert_eq!(tick_with(Some(wrong), &kernel), REFUSED);
    }
}

/// Each of these is accepted with the right instant on file.
#[test]
fn no_call_is_carried_out_with_a_wrong_instant_on_file() {
    for call in [
        r(b"SL"),
        r(b"TI"),
        r(b"EN"),
        r(b"RE").first(1),
        r(b"RL").list(&[0]),
        r(b"TR").list(&[0]),
        r(b"AC").on(4),
        r(b"PR").on(1),
        r(b"SU").on(2),
        r(b"TG").on(0),
        r(b"XI").on(0),
    ] {
        assert_eq!(number(&mut seven_is_next(), call), 0);
        for wrong in [Some(2), Some(8), Some(LAST_INSTANT + 1), None] {
            let line = line_with(wrong, &seven_is_next(), &call.bytes());
            assert_eq!(line, REFUSED, "{:?}", call.mark);
        }
    }
}

#[test]
fn it_comes_after_1_and_before_all_others() {
    let wrong = [Some(0), Some(8), Some(u64::MAX), None];
    let mut unsound = seven_is_next();
    unsound.places[0] = unsound.places[1];
    for to_come in wrong.into_iter().chain([Some(7)]) {
        assert_eq!(tick_with(to_come, &unsound), "1 - 0 0 0 0 0");
        assert_eq!(line_with(to_come, &unsound, b""), "1 - 0 0 0 0 0");
    }
    for (record, other) in [
        (vec![], 2),
        (vec![b'?'; RECORD], 2),
        (task(1).bytes().to_vec(), 2),
        (r(b"TI").on(1).bytes().to_vec(), 3),
        (r(b"SL").on(1).bytes().to_vec(), 3),
        (r(b"RQ").bytes().to_vec(), 4),
        (r(b"TE").on(5).bytes().to_vec(), 5),
        (r(b"RE").first(0).bytes().to_vec(), 6),
        (r(b"AC").on(0).bytes().to_vec(), 9),
        (r(b"TE").on(4).bytes().to_vec(), 10),
    ] {
        let right = line_with(Some(7), &seven_is_next(), &record);
        assert_eq!(right, format!("{other} 0 0 0 0 0 0"));
        for to_come in wrong {
            assert_eq!(line_with(to_come, &seven_is_next(), &record), REFUSED);
        }
    }
}

/// 15 and 17 come last, with 16 before them.
#[test]
fn it_comes_before_15_and_17() {
    let mut at_the_end = nothing_to_come();
    at_the_end.now = LAST_TICK;
    for (kernel, mark, other) in [
        (&nothing_to_come(), b"SL", 17),
        (&at_the_end, b"SL", 17),
        (&at_the_end, b"TI", 15),
    ] {
        let record = r(mark).bytes();
        assert_eq!(
            line_with(None, kernel, &record),
            format!("{other} 0 0 0 0 0 0")
        );
        for wrong in [0, 3, LAST_TICK, LAST_TICK + 1, u64::MAX] {
            assert_eq!(line_with(Some(wrong), kernel, &record), REFUSED);
        }
    }
}

#[test]
fn a_right_instant_does_not_help_a_wrong_task_on_file() {
    for (on_file, to_come, number) in [
        (Some(0), Some(7), 0),
        (Some(1), Some(7), 16),
        (None, Some(7), 16),
        (Some(0), Some(9), 16),
        (Some(1), Some(9), 16),
        (None, None, 16),
    ] {
        let mut kernel = seven_is_next();
        kernel.on_file = on_file;
        kernel.to_come = to_come;
        assert_eq!(kernel.step(&r(b"TI").bytes()).number, number);
    }
}

#[test]
fn a_kernel_that_was_refused_is_accepted_when_it_is_right() {
    let mut kernel = seven_is_next();
    kernel.to_come = None;
    steps(&mut kernel, [(r(b"SL"), REFUSED), (r(b"TI"), REFUSED)]);
    kernel.to_come = Some(7);
    steps(&mut kernel, [(r(b"SL"), "0 0 2 2 0 0 0")]);
    assert_eq!((kernel.now, kernel.to_come), (7, Some(9)));
}

#[test]
fn declarations_store() {
    let mut kernel = Kernel::new();
    comes(
        &mut kernel,
        [
            (task(5), None),
            (semaphore(1), None),
            (r(b"DB"), None),
            (r(b"IT"), None),
            (r(b"DC").first(7), None),
        ],
    );
}

/// A kernel handed in may have something to come before the first call. Another
/// time of day at instant 0 leaves the instants as they are. A task declared then
/// has nothing to come, whatever its place held.
#[test]
fn declarations_while_something_is_to_come_store_that() {
    let mut kernel = after(&[task(5), r(b"AC").at(9)]);
    kernel.called = false;
    kernel.tasks[1].schedule = kernel.tasks[0].schedule;
    kernel.tasks[1].schedule.as_mut().unwrap().next = 3;
    comes(
        &mut kernel,
        [
            (task(1), Some(9)),
            (semaphore(1), Some(9)),
            (r(b"DB"), Some(9)),
            (r(b"IT"), Some(9)),
            (r(b"DC").first(7), Some(9)),
        ],
    );
    assert_eq!(kernel.tasks[1].schedule, None);
    kernel.to_come = Some(3);
    assert_eq!(feed(&mut kernel, &[task(1)]), [REFUSED]);
    assert_eq!(kernel.counts.tasks, 2);
}

#[test]
fn after_stores() {
    let mut kernel = after(&[task(5), task(6)]);
    comes(
        &mut kernel,
        [
            (r(b"AC").on(0).after(9), Some(9)),
            (r(b"AC").on(1).after(5), Some(5)),
            (r(b"TI"), Some(5)),
            (r(b"AC").on(1).after(12), Some(9)),
            (r(b"AC").on(0).after(12), Some(13)),
            (r(b"AC").on(0).after(LONGEST), Some(13)),
        ],
    );
}

/// At instant 0 it is the second second of the day.
#[test]
fn at_stores() {
    let mut kernel = after(&[task(5), r(b"DC").first(1000)]);
    comes(
        &mut kernel,
        [
            (r(b"AC").at(1500), Some(500)),
            (r(b"AC").at(999), Some(u64::from(DAY) - 1)),
            (r(b"AC").at(1001), Some(1)),
            (r(b"AC").at(1000), None),
            (r(b"AC").at(1000).every(7), Some(7)),
            (r(b"AC").at(1000).every(7).until(1006), None),
            (r(b"AC").at(1000).every(7).until(1007), Some(7)),
        ],
    );
}

#[test]
fn all_stores() {
    let mut kernel = after(&[task(5)]);
    comes(
        &mut kernel,
        [
            (r(b"AC").all(10), Some(10)),
            (r(b"AC").all(1), Some(1)),
            (r(b"TI"), Some(2)),
            (r(b"TI"), Some(3)),
            (r(b"AC").all(LONGEST), Some(2 + u64::from(LONGEST))),
        ],
    );
}

/// Due at 0, 10 and 20, and not at 30.
#[test]
fn the_last_due_of_a_during_leaves_nothing() {
    let mut kernel = after(&[task(5)]);
    comes(
        &mut kernel,
        [
            (r(b"AC").all(10).during(29), Some(10)),
            (r(b"SL"), Some(20)),
            (r(b"SL"), None),
        ],
    );
    assert_eq!(kernel.now, 20);
    let short = r(b"AC").all(10).during(9);
    comes(&mut kernel, [(short, None)]);
}

#[test]
fn an_activation_at_once_leaves_what_is_to_come() {
    let mut kernel = after(&[task(5), task(6)]);
    comes(
        &mut kernel,
        [
            (r(b"AC").on(0), None),
            (r(b"AC").on(1).after(4), Some(4)),
            (r(b"AC").on(1), Some(4)),
        ],
    );
}

#[test]
fn a_terminated_tasks_schedule_counts() {
    let mut kernel = after(&[task(5), r(b"AC")]);
    comes(
        &mut kernel,
        [
            (r(b"AC").after(4), Some(4)),
            (r(b"EN"), Some(4)),
            (r(b"TI"), Some(4)),
            (r(b"AC"), Some(4)),
            (r(b"TE"), Some(4)),
        ],
    );
    assert!(!kernel.tasks[0].alive());
}

#[test]
fn an_armed_when_does_not_count() {
    let mut kernel = after(&[task(5), r(b"IT"), r(b"EI")]);
    comes(
        &mut kernel,
        [
            (r(b"AC").when(0), None),
            (r(b"TI"), None),
            (r(b"AC").when_after(0, 3), None),
            (r(b"CO").when(0), None),
            (r(b"CO").when_after(0, 3), None),
            (r(b"TI"), None),
        ],
    );
}

/// A trigger of the disabled interrupt changes nothing, one at 1 counts from there,
/// and another at 2 anew.
#[test]
fn a_trigger_stores() {
    let mut kernel = after(&[task(5), r(b"IT"), r(b"AC").when_after(0, 6).every(4)]);
    comes(
        &mut kernel,
        [
            (r(b"TG"), None),
            (r(b"EI"), None),
            (r(b"TI"), None),
            (r(b"TG"), Some(7)),
            (r(b"TI"), Some(7)),
            (r(b"TG"), Some(8)),
            (r(b"SL"), Some(12)),
            (r(b"SL"), Some(16)),
            (r(b"PR"), None),
        ],
    );
}

#[test]
fn a_trigger_of_a_when_without_a_pause_stores() {
    let mut kernel = after(&[task(5), r(b"IT"), r(b"EI")]);
    comes(
        &mut kernel,
        [
            (r(b"AC").when(0).every(4).during(4), None),
            (r(b"TG"), Some(4)),
            (r(b"TI"), Some(4)),
            (r(b"TG"), Some(5)),
            (r(b"SL"), None),
            (r(b"TG"), Some(9)),
            (r(b"AC").when(0), None),
            (r(b"TG"), None),
        ],
    );
}

#[test]
fn a_delay_stores() {
    let mut kernel = after(&[task(5), task(6), r(b"AC").on(0), r(b"AC").on(1)]);
    comes(
        &mut kernel,
        [
            (r(b"RE").first(5), Some(5)),
            (r(b"TI"), Some(5)),
            (r(b"RE").first(3), Some(4)),
            (r(b"SL"), Some(5)),
            (r(b"SL"), None),
        ],
    );
}

#[test]
fn a_delayed_task_that_is_suspended_ended_or_continued_has_nothing_to_come() {
    for call in [r(b"SU"), r(b"TE"), r(b"CO")] {
        let mut kernel = after(&[task(5), task(6), r(b"AC").on(0), r(b"AC").on(1)]);
        comes(
            &mut kernel,
            [
                (r(b"RE").first(5), Some(5)),
                (r(b"RE").first(9), Some(5)),
                (call.on(0), Some(9)),
                (call.on(1), None),
            ],
        );
    }
}

#[test]
fn a_task_without_a_delay_that_is_held_or_ended_changes_nothing() {
    let mut kernel = seven_is_next();
    comes(
        &mut kernel,
        [
            (r(b"SU").on(0), Some(7)),
            (r(b"CO").on(0), Some(7)),
            (r(b"EN"), Some(7)),
        ],
    );
}

#[test]
fn resume_on_a_schedule_stores() {
    let mut kernel = after(&[task(5), r(b"IT"), r(b"EI"), r(b"AC")]);
    comes(
        &mut kernel,
        [
            (r(b"RE").after(5), Some(5)),
            (r(b"SL"), None),
            (r(b"RE").at(7), Some(7)),
            (r(b"SL"), None),
            (r(b"RE").at(7), None),
            (r(b"RE").when(0), None),
            (r(b"TG"), None),
            (r(b"RE").when_after(0, 2), None),
            (r(b"TG"), Some(9)),
            (r(b"TI"), Some(9)),
            (r(b"TG"), Some(10)),
            (r(b"SL"), None),
        ],
    );
    assert_eq!(kernel.stored(), Some(0));
}

/// Its task is terminated, then unheld, then suspended.
#[test]
fn a_continuation_counts() {
    let mut kernel = after(&[task(5)]);
    comes(
        &mut kernel,
        [
            (r(b"CO").after(5), Some(5)),
            (r(b"CO").after(8), Some(8)),
            (r(b"AC"), Some(8)),
            (r(b"CO").at(3), Some(3)),
            (r(b"SU"), Some(3)),
            (r(b"CO"), Some(3)),
            (r(b"SL"), None),
        ],
    );
}

/// The delay until 9 is over at 4, with the continuation.
#[test]
fn a_continuation_takes_its_tasks_delay_with_it() {
    let mut kernel = after(&[task(5), r(b"AC")]);
    comes(
        &mut kernel,
        [
            (r(b"RE").first(9), Some(9)),
            (r(b"CO").after(4), Some(4)),
            (r(b"SL"), None),
        ],
    );
    assert_eq!(kernel.now, 4);
}

/// Its delay stays, and what others have to come.
#[test]
fn prevent_stores() {
    let mut kernel = after(&[task(5), task(6), r(b"AC").on(0), r(b"RE").first(6)]);
    comes(
        &mut kernel,
        [
            (r(b"AC").on(0).after(3), Some(3)),
            (r(b"CO").on(0).after(4), Some(3)),
            (r(b"AC").on(1).after(5), Some(3)),
            (r(b"PR").on(0), Some(5)),
            (r(b"PR").on(1), Some(6)),
            (r(b"PR").on(0), Some(6)),
        ],
    );
}

#[test]
fn ticks_before_at_and_behind_it_store() {
    let mut kernel = after(&[task(5), task(6), r(b"AC").on(0).after(2)]);
    comes(
        &mut kernel,
        [
            (r(b"AC").on(1).after(3), Some(2)),
            (r(b"TI"), Some(2)),
            (r(b"TI"), Some(3)),
            (r(b"TI"), None),
            (r(b"TI"), None),
        ],
    );
}

#[test]
fn calls_with_lists_and_of_interrupts_leave_it() {
    let mut kernel = after(&[
        task(5),
        task(6),
        semaphore(1),
        r(b"DB"),
        r(b"IT"),
        r(b"AC").on(0),
        r(b"AC").on(1).after(4),
    ]);
    let with_list = |mark| (r(mark).list(&[0]), Some(4));
    let about = |mark| (r(mark).on(0), Some(4));
    comes(
        &mut kernel,
        [
            with_list(b"RQ"),
            with_list(b"TR"),
            with_list(b"RL"),
            with_list(b"RS"),
            with_list(b"FR"),
            with_list(b"ET"),
            with_list(b"LV"),
            about(b"EI"),
            about(b"TG"),
            about(b"XI"),
            with_list(b"RQ"),
            with_list(b"RQ"),
        ],
    );
}

#[test]
fn a_refused_call_stores_nothing() {
    let mut kernel = seven_is_next();
    let before = kernel.clone();
    for (draft, refusal) in [
        (r(b"??"), 2),
        (task(1), 2),
        (r(b"SL").first(1), 3),
        (r(b"RQ"), 4),
        (r(b"AC").on(5).after(1), 5),
        (r(b"AC").on(4).after(0), 6),
        (r(b"AC").on(0), 9),
        (r(b"TE").on(1), 10),
        (r(b"CO").on(0), 12),
    ] {
        assert_eq!(number(&mut kernel, draft), refusal);
        assert_eq!(kernel, before);
    }
}

/// The earliest later instant by the words of the rule.
fn earliest(kernel: &Kernel) -> Option<Instant> {
    let mut instants = Vec::new();
    for task in kernel.declared_tasks() {
        if let State::DelayedUntil(instant) = task.state {
            instants.push(instant);
        }
        instants.extend(task.schedule.map(|schedule| schedule.next));
        instants.extend(task.continuation.map(|continuation| continuation.next));
    }
    instants.retain(|&instant| instant > kernel.now);
    instants.sort();
    instants.first().copied()
}

#[test]
fn it_is_right_after_every_record_of_the_random_scripts() {
    for seed in 0..200 {
        for kind in KINDS {
            let mut kernel = Kernel::new();
            for record in script(kind, seed, 200).chunks(RECORD) {
                kernel.step(record);
                assert_eq!(kernel.to_come, earliest(&kernel), "{kind:?} {seed}");
            }
        }
    }
}

/// With any other instant on file, a kernel that a script leaves is refused.
#[test]
fn one_instant_alone_may_be_on_file() {
    for seed in 0..50 {
        for kind in KINDS {
            let mut kernel = Kernel::new();
            for record in script(kind, seed, 200).chunks(RECORD) {
                kernel.step(record);
            }
            let right = kernel.to_come;
            let near = right.unwrap_or(kernel.now);
            let instants = (near.saturating_sub(3)..near + 4).map(Some);
            let others = [None, Some(0), Some(LAST_INSTANT + 1), Some(u64::MAX)];
            for to_come in instants.chain(others) {
                kernel.to_come = to_come;
                let number = if to_come == right { 2 } else { 16 };
                let found = kernel.step(b"not a record").number;
                assert_eq!(found, number, "{kind:?} {seed} {to_come:?}");
            }
        }
    }
}
