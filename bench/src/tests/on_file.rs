//! The running task on file: which one gets refusal 16, and what each call stores.

use super::{after, feed, feed_bytes, number, r, semaphore, steps, task};
use crate::draft::Draft;
use crate::kernel::{Kernel, List, State, Wait};
use crate::limits::{LAST_TICK, RECORD};

/// Refused, nobody runs, and all sets are empty.
const REFUSED: &str = "16 - 0 0 0 0 0";

/// Task 0 of priority 5 runs. Task 1 of 6 is runnable, task 2 of 4 suspended, and
/// task 3 of 4 waits for semaphore 0. Task 4 of 3 is terminated. Semaphore 0 is at
/// 0, semaphore 1 full. There are a bolt, which nobody has, and an enabled interrupt.
fn first_runs() -> Kernel {
    after(&[
        task(5),
        task(6),
        task(4),
        task(4),
        task(3),
        semaphore(0),
        semaphore(65_535),
        r(b"DB"),
        r(b"IT"),
        r(b"EI"),
        r(b"AC").on(3),
        r(b"RQ").list(&[0]),
        r(b"AC").on(2),
        r(b"SU").on(2),
        r(b"AC").on(1),
        r(b"AC").on(0),
    ])
}

/// The same, but tasks 0 and 1 have ended.
fn nobody_runs() -> Kernel {
    let mut kernel = first_runs();
    stores(&mut kernel, [(r(b"EN"), Some(1)), (r(b"EN"), None)]);
    kernel
}

/// Each of these records is accepted, and then this task is on file.
#[track_caller]
fn stores<const N: usize>(kernel: &mut Kernel, steps: [(Draft, Option<u8>); N]) {
    for (i, (draft, on_file)) in steps.into_iter().enumerate() {
        assert_eq!(number(kernel, draft), 0, "step {i}");
        assert_eq!(kernel.stored(), on_file, "step {i}");
    }
}

/// The line of a record that finds this task on file. A refusal leaves the kernel
/// as it is.
#[track_caller]
fn line_with(on_file: Option<u8>, kernel: &Kernel, record: &[u8]) -> String {
    let mut kernel = kernel.clone();
    kernel.on_file = on_file;
    let before = kernel.clone();
    let line = feed_bytes(&mut kernel, record).unwrap();
    if !line.starts_with("0 ") {
        assert_eq!(kernel, before);
    }
    line
}

/// The line of a tick, which can be refused for nothing else here.
#[track_caller]
fn tick_with(on_file: Option<u8>, kernel: &Kernel) -> String {
    line_with(on_file, kernel, &r(b"TI").bytes())
}

#[test]
fn a_fresh_kernel_has_nobody_on_file() {
    let mut kernel = Kernel::new();
    assert_eq!(kernel.stored(), None);
    assert_eq!(feed(&mut kernel, &[r(b"TI")]), ["0 - 0 0 0 0 0"]);
    for wrong in [0, 1, 31, 32, 255] {
        let fresh = Kernel::new();
        assert_eq!(tick_with(Some(wrong), &fresh), REFUSED);
        assert_eq!(line_with(Some(wrong), &fresh, &task(1).bytes()), REFUSED);
    }
}

#[test]
fn the_right_task_is_accepted() {
    assert_eq!(tick_with(Some(0), &first_runs()), "0 0 0 0 0 0 0");
    assert_eq!(tick_with(None, &nobody_runs()), "0 - 0 0 0 0 0");
}

#[test]
fn another_runnable_task_is_16() {
    assert_eq!(tick_with(Some(1), &first_runs()), REFUSED);
}

/// Tasks 0 and 1 are equally urgent, and task 1 came first.
#[test]
fn an_equally_urgent_task_whose_turn_it_is_not_is_16() {
    let kernel = after(&[task(5), task(5), r(b"AC").on(1), r(b"AC").on(0)]);
    assert_eq!(tick_with(Some(1), &kernel), "0 1 0 0 0 0 0");
    assert_eq!(tick_with(Some(0), &kernel), REFUSED);
}

/// All three are more urgent than the one that runs.
#[test]
fn a_held_a_waiting_and_a_terminated_task_are_16() {
    for kernel in [first_runs(), nobody_runs()] {
        for wrong in [2, 3, 4] {
            assert_eq!(tick_with(Some(wrong), &kernel), REFUSED, "{wrong}");
        }
    }
}

/// Five tasks are declared.
#[test]
fn a_task_out_of_range_is_16() {
    for kernel in [first_runs(), nobody_runs()] {
        for wrong in [5, 6, 31, 32, 33, 64, 127, 128, 200, 254, 255] {
            assert_eq!(tick_with(Some(wrong), &kernel), REFUSED, "{wrong}");
        }
    }
}

/// A task beyond the count would be the most urgent one if it were declared.
#[test]
fn a_runnable_task_that_is_not_declared_is_16() {
    let mut kernel = first_runs();
    kernel.tasks[5].state = State::Unheld;
    assert_eq!(tick_with(Some(5), &kernel), REFUSED);
    assert_eq!(tick_with(Some(0), &kernel), "0 0 0 0 0 0 0");
}

#[test]
fn nobody_while_a_task_is_runnable_is_16() {
    assert_eq!(tick_with(None, &first_runs()), REFUSED);
}

#[test]
fn a_task_while_none_is_runnable_is_16() {
    for wrong in 0..=u8::MAX {
        assert_eq!(tick_with(Some(wrong), &nobody_runs()), REFUSED, "{wrong}");
    }
}

/// Each of these is accepted with the right task on file.
#[test]
fn no_call_is_carried_out_with_a_wrong_task_on_file() {
    for call in [
        r(b"EN"),
        r(b"RE").first(1),
        r(b"RQ").list(&[1]),
        r(b"RL").list(&[0]),
        r(b"TR").list(&[1]),
        r(b"RS").list(&[0]),
        r(b"ET").list(&[0]),
        r(b"AC").on(4),
        r(b"TG").on(0),
    ] {
        assert_eq!(number(&mut first_runs(), call), 0);
        for wrong in [Some(1), Some(200), None] {
            let line = line_with(wrong, &first_runs(), &call.bytes());
            assert_eq!(line, REFUSED, "{:?}", call.mark);
        }
    }
}

#[test]
fn an_unsound_kernel_is_1_with_any_task_on_file() {
    let unsound: [fn(&mut Kernel); 5] = [
        |k| k.now = LAST_TICK + 1,
        |k| k.counts.tasks = 33,
        |k| k.places[1] = k.places[0],
        |k| k.semaphores[0] = 1,
        |k| {
            let one = List {
                length: 1,
                ..List::default()
            };
            k.tasks[4].wait = Wait::Request(one);
        },
    ];
    for change in unsound {
        let mut kernel = first_runs();
        change(&mut kernel);
        for on_file in [Some(0), Some(1), Some(4), Some(5), Some(200), None] {
            assert_eq!(tick_with(on_file, &kernel), "1 - 0 0 0 0 0");
            assert_eq!(line_with(on_file, &kernel, b""), "1 - 0 0 0 0 0");
        }
    }
}

#[test]
fn what_is_no_record_is_16_and_not_2() {
    let kernel = first_runs();
    let mut records: Vec<Vec<u8>> = [0, 1, 23, 25, 48].map(|n| vec![b'T'; n]).into();
    records.extend([vec![b'?'; RECORD], vec![0; RECORD]]);
    for record in records {
        assert_eq!(line_with(Some(0), &kernel, &record), "2 0 0 0 0 0 0");
        for wrong in [Some(1), Some(4), Some(5), Some(200), None] {
            assert_eq!(line_with(wrong, &kernel, &record), REFUSED);
        }
    }
}

#[test]
fn a_late_declaration_is_16_and_not_2() {
    let kernel = first_runs();
    for late in [task(1), semaphore(0), r(b"DB"), r(b"IT"), r(b"DC").first(7)] {
        assert_eq!(number(&mut first_runs(), late), 2);
        for wrong in [Some(1), Some(5), Some(200), None] {
            assert_eq!(line_with(wrong, &kernel, &late.bytes()), REFUSED);
        }
    }
}

/// Each record gets its own number with the right task on file, and 16 with others.
#[test]
fn it_comes_before_3_to_15() {
    let full = after(&[task(1); 32]);
    let mut at_the_end = first_runs();
    at_the_end.now = LAST_TICK;
    for (kernel, draft, other) in [
        (first_runs(), r(b"TI").on(1), 3),
        (first_runs(), r(b"RQ"), 4),
        (first_runs(), r(b"TE").on(5), 5),
        (first_runs(), r(b"RE").first(0), 6),
        (full, task(1), 7),
        (nobody_runs(), r(b"EN"), 8),
        (first_runs(), r(b"AC").on(0), 9),
        (first_runs(), r(b"TE").on(4), 10),
        (first_runs(), r(b"SU").on(2), 11),
        (first_runs(), r(b"CO").on(0), 12),
        (first_runs(), r(b"RL").list(&[1]), 13),
        (first_runs(), r(b"FR").list(&[0]), 14),
        (at_the_end, r(b"TI"), 15),
    ] {
        assert_eq!(number(&mut kernel.clone(), draft), other);
        for wrong in [1, 4, 5, 32, 200] {
            let line = line_with(Some(wrong), &kernel, &draft.bytes());
            assert_eq!(line, REFUSED, "{other}");
        }
    }
}

/// Once the right task is on file, all goes on as if nothing had been.
#[test]
fn a_kernel_that_was_refused_is_accepted_when_it_is_right() {
    let mut kernel = first_runs();
    kernel.on_file = Some(1);
    steps(&mut kernel, [(r(b"EN"), REFUSED), (r(b"TI"), REFUSED)]);
    kernel.on_file = Some(0);
    steps(&mut kernel, [(r(b"EN"), "0 1 0 0 1 0 0")]);
    assert_eq!(kernel.stored(), Some(1));
}

#[test]
fn declarations_store() {
    let mut kernel = Kernel::new();
    stores(
        &mut kernel,
        [
            (task(5), None),
            (semaphore(1), None),
            (r(b"DB"), None),
            (r(b"IT"), None),
            (r(b"DC").first(7), None),
        ],
    );
}

/// A kernel handed in may have a task that runs before the first call. A task
/// declared then is terminated, however urgent.
#[test]
fn declarations_while_a_task_runs_store_that_task() {
    let mut kernel = after(&[task(5)]);
    kernel.tasks[0].state = State::Unheld;
    assert_eq!(feed(&mut kernel, &[task(1)]), [REFUSED]);
    kernel.on_file = Some(0);
    stores(
        &mut kernel,
        [
            (task(1), Some(0)),
            (semaphore(1), Some(0)),
            (r(b"DC").first(7), Some(0)),
        ],
    );
    kernel.on_file = Some(1);
    assert_eq!(feed(&mut kernel, &[task(1)]), [REFUSED]);
    assert_eq!(kernel.counts.tasks, 2);
}

#[test]
fn activations_store() {
    let mut kernel = after(&[task(5), task(9), task(3)]);
    stores(
        &mut kernel,
        [
            (r(b"AC").on(0), Some(0)),
            (r(b"AC").on(1), Some(0)),
            (r(b"AC").on(2), Some(2)),
        ],
    );
}

#[test]
fn an_activation_with_a_priority_stores() {
    let mut kernel = after(&[task(5), task(9)]);
    let urgent = r(b"AC").on(1).priority(4);
    stores(&mut kernel, [(r(b"AC").on(0), Some(0)), (urgent, Some(1))]);
}

/// Only the start at the present time changes who runs at once.
#[test]
fn an_activation_on_a_schedule_stores() {
    let mut kernel = after(&[task(5), task(3)]);
    stores(
        &mut kernel,
        [
            (r(b"AC").on(0), Some(0)),
            (r(b"AC").on(1).after(9), Some(0)),
            (r(b"AC").on(1).at(0), Some(1)),
        ],
    );
}

#[test]
fn ends_store() {
    let mut kernel = first_runs();
    stores(
        &mut kernel,
        [
            (r(b"TE").on(3), Some(0)),
            (r(b"EN"), Some(1)),
            (r(b"TE").on(1), None),
            (r(b"TE").on(2), None),
        ],
    );
}

/// Task 0 ends, starts anew and then stands behind task 1, which is as urgent.
#[test]
fn an_end_with_a_start_kept_back_stores() {
    for end in [r(b"EN"), r(b"TE").on(0)] {
        let mut kernel = after(&[task(5), task(5), r(b"AC").on(0), r(b"AC").on(1)]);
        stores(
            &mut kernel,
            [
                (r(b"AC").on(0).at(0), Some(0)),
                (end, Some(1)),
                (r(b"EN"), Some(0)),
                (r(b"EN"), None),
            ],
        );
    }
}

#[test]
fn holding_and_going_on_store() {
    let mut kernel = first_runs();
    stores(
        &mut kernel,
        [
            (r(b"SU").on(0), Some(1)),
            (r(b"CO").on(0).priority(7), Some(1)),
            (r(b"CO").on(2), Some(2)),
            (r(b"SU").on(2), Some(1)),
            (r(b"SU").on(1), Some(0)),
            (r(b"SU").on(0), None),
            (r(b"CO").on(1).at(0), Some(1)),
        ],
    );
}

/// Task 1 is due with the second tick, and runs then as the more urgent one. The
/// due with the fourth is kept back.
#[test]
fn a_tick_with_a_due_stores() {
    let mut kernel = after(&[task(5), task(3), r(b"AC").on(0)]);
    stores(
        &mut kernel,
        [
            (r(b"AC").on(1).after(2).every(2), Some(0)),
            (r(b"TI"), Some(0)),
            (r(b"TI"), Some(1)),
            (r(b"TI"), Some(1)),
            (r(b"TI"), Some(1)),
        ],
    );
}

#[test]
fn a_tick_with_a_due_of_a_less_urgent_task_stores_the_other() {
    let mut kernel = after(&[task(5), task(7), r(b"AC").on(0)]);
    let due = (r(b"AC").on(1).after(1), Some(0));
    stores(&mut kernel, [due, (r(b"TI"), Some(0)), (r(b"EN"), Some(1))]);
}

#[test]
fn a_tick_that_ends_a_delay_stores() {
    let mut kernel = after(&[task(5), task(3), r(b"AC").on(0), r(b"AC").on(1)]);
    stores(
        &mut kernel,
        [
            (r(b"RE").first(2), Some(0)),
            (r(b"TI"), Some(0)),
            (r(b"TI"), Some(1)),
            (r(b"TI"), Some(1)),
        ],
    );
}

#[test]
fn a_tick_that_ends_the_delay_of_the_only_task_stores() {
    let mut kernel = after(&[task(5), r(b"AC")]);
    stores(
        &mut kernel,
        [(r(b"RE").first(1), None), (r(b"TI"), Some(0))],
    );
}

/// Task 2 goes on with the tick, as urgent as task 0 and so behind it, or more urgent.
#[test]
fn a_tick_with_a_continuation_stores() {
    for (priority, runs) in [(5, 0), (4, 2)] {
        let mut kernel = first_runs();
        let later = r(b"CO").on(2).priority(priority).after(1);
        stores(&mut kernel, [(later, Some(0)), (r(b"TI"), Some(runs))]);
    }
}

#[test]
fn a_release_that_serves_a_more_urgent_waiter_stores() {
    let mut kernel = first_runs();
    let release = r(b"RL").list(&[0]);
    stores(&mut kernel, [(release, Some(3)), (release, Some(3))]);
}

/// Task 3 is served in both cases: it is less urgent, or held.
#[test]
fn a_release_after_which_the_same_task_runs_stores_that_one() {
    let hold = (r(b"SU").on(3), Some(0));
    let release = (r(b"RL").list(&[0]), Some(0));
    let goes_on = (r(b"CO").on(3).priority(8), Some(0));
    let mut kernel = first_runs();
    stores(&mut kernel, [hold, goes_on, release, (r(b"EN"), Some(1))]);
    let mut kernel = first_runs();
    stores(&mut kernel, [hold, release, (r(b"CO").on(3), Some(3))]);
}

/// What can't be had makes the next one run, and what is given back the first.
#[test]
fn bolts_and_semaphores_that_are_waited_for_store() {
    for (ask, give_back) in [(b"RS", b"FR"), (b"ET", b"FR"), (b"RS", b"LV")] {
        let take = if give_back == b"FR" { b"RS" } else { b"ET" };
        let mut kernel = after(&[task(5), task(3), r(b"DB"), r(b"AC").on(0)]);
        stores(
            &mut kernel,
            [
                (r(take).list(&[0]), Some(0)),
                (r(b"AC").on(1), Some(1)),
                (r(ask).list(&[0]), Some(0)),
                (r(give_back).list(&[0]), Some(1)),
            ],
        );
    }
    let mut kernel = first_runs();
    let request = r(b"RQ").list(&[0]);
    stores(&mut kernel, [(request, Some(1)), (request, None)]);
}

#[test]
fn a_trigger_stores() {
    let mut kernel = first_runs();
    stores(
        &mut kernel,
        [
            (r(b"AC").on(4).when(0), Some(0)),
            (r(b"XI").on(0), Some(0)),
            (r(b"TG").on(0), Some(0)),
            (r(b"EI").on(0), Some(0)),
            (r(b"TG").on(0), Some(4)),
        ],
    );
}

#[test]
fn a_trigger_of_a_continuation_stores() {
    let mut kernel = first_runs();
    stores(
        &mut kernel,
        [
            (r(b"CO").on(2).when(0), Some(0)),
            (r(b"TG").on(0), Some(2)),
            (r(b"RE").when(0), Some(0)),
            (r(b"TG").on(0), Some(2)),
        ],
    );
}

#[test]
fn calls_that_change_nothing_about_tasks_store_the_same() {
    let mut kernel = first_runs();
    stores(
        &mut kernel,
        [
            (r(b"TI"), Some(0)),
            (r(b"PR").on(0), Some(0)),
            (r(b"TR").list(&[0]), Some(0)),
            (r(b"TR").list(&[1]), Some(0)),
            (r(b"RQ").list(&[1]), Some(0)),
            (r(b"RS").list(&[0]), Some(0)),
            (r(b"FR").list(&[0]), Some(0)),
            (r(b"ET").list(&[0]), Some(0)),
            (r(b"LV").list(&[0]), Some(0)),
            (r(b"TG").on(0), Some(0)),
        ],
    );
}

#[test]
fn a_refused_call_stores_nothing() {
    for (mut kernel, on_file) in [(first_runs(), Some(0)), (nobody_runs(), None)] {
        let before = kernel.clone();
        for (draft, refusal) in [
            (r(b"??"), 2),
            (task(1), 2),
            (r(b"TI").on(1), 3),
            (r(b"RQ"), 4),
            (r(b"AC").on(5), 5),
            (r(b"AC").on(4).after(0), 6),
            (r(b"AC").on(2), 9),
            (r(b"TE").on(4), 10),
            (r(b"SU").on(2), 11),
            (r(b"CO").on(3), 12),
        ] {
            assert_eq!(number(&mut kernel, draft), refusal);
            assert_eq!(kernel.stored(), on_file);
            assert_eq!(kernel, before);
        }
    }
}

/// By their turns task 1 runs, by their numbers task 0.
#[test]
fn with_events_forgotten_the_first_by_number_is_on_file() {
    let mut kernel = after(&[task(5), task(5), r(b"AC").on(1), r(b"AC").on(0)]);
    assert_eq!(kernel.stored(), Some(1));
    kernel.forget_events();
    assert_eq!(kernel.stored(), Some(0));
    steps(&mut kernel, [(r(b"EN"), "0 1 0 0 1 0 0")]);
}
