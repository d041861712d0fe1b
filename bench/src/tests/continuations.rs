//! CONTINUE and RESUME with a start kind, one test for each point.

use super::{after, feed, lines, number, r, semaphore, task};
use crate::draft::Draft;
use crate::kernel::{Continuation, Kernel, Origin, State};
use crate::limits::DAY;

const HOUR: u32 = 3_600_000;

/// Each of these drafts is accepted with empty sets, and then this task runs.
#[track_caller]
fn runners<const N: usize>(kernel: &mut Kernel, steps: [(Draft, &str); N]) {
    for (i, (draft, running)) in steps.into_iter().enumerate() {
        let quiet = format!("0 {running} 0 0 0 0 0");
        assert_eq!(feed(kernel, &[draft]), [quiet], "step {i}");
    }
}

/// Interrupt 0 is enabled, task 0 of priority 5 runs.
fn one_runs() -> Kernel {
    after(&[task(5), r(b"IT"), r(b"EI"), r(b"AC")])
}

fn current(kernel: &Kernel) -> u8 {
    kernel.tasks[0].current.get()
}

fn pending(kernel: &Kernel) -> Option<Continuation> {
    kernel.tasks[0].continuation
}

#[test]
fn at_a_time_across_midnight() {
    let mut kernel = after(&[task(5), r(b"DC").first(DAY - 2), r(b"AC"), r(b"SU")]);
    runners(
        &mut kernel,
        [
            (r(b"CO").at(1).priority(3), "-"),
            (r(b"TI"), "-"),
            (r(b"TI"), "-"),
            (r(b"TI"), "0"),
        ],
    );
    assert_eq!(current(&kernel), 3);
    assert_eq!(pending(&kernel), None);
}

#[test]
fn after_a_duration_and_once_only() {
    let mut kernel = one_runs();
    runners(
        &mut kernel,
        [
            (r(b"SU"), "-"),
            (r(b"CO").after(2), "-"),
            (r(b"TI"), "-"),
            (r(b"TI"), "0"),
            (r(b"SU"), "-"),
            (r(b"TI"), "-"),
            (r(b"TI"), "-"),
        ],
    );
    assert_eq!(current(&kernel), 5);
}

#[test]
fn the_present_time_is_due_in_the_call() {
    let mut kernel = after(&[task(5), r(b"DC").first(HOUR), r(b"AC"), r(b"SU")]);
    runners(&mut kernel, [(r(b"CO").at(HOUR).priority(9), "0")]);
    assert_eq!(current(&kernel), 9);
    assert_eq!(pending(&kernel), None);
    runners(&mut kernel, [(r(b"RE").at(HOUR), "0")]);
    assert_eq!(kernel.tasks[0].state, State::Unheld);
    assert_eq!(current(&kernel), 9);
    assert_eq!(pending(&kernel), None);
}

#[test]
fn a_time_that_has_passed_is_tomorrows() {
    let kernel = after(&[task(5), r(b"DC").first(HOUR), r(b"CO").at(HOUR - 1)]);
    assert_eq!(pending(&kernel).unwrap().next, u64::from(DAY) - 1);
}

#[test]
fn the_first_due_is_that_of_a_start() {
    for at in [0, 1, HOUR, HOUR + 1, HOUR + 2, DAY - 1] {
        let kernel = after(&[
            task(5),
            r(b"DC").first(HOUR),
            r(b"TI"),
            r(b"AC").at(at),
            r(b"CO").at(at),
        ]);
        let start = kernel.tasks[0].schedule.map(|schedule| schedule.next);
        assert_eq!(pending(&kernel).map(|c| c.next), start);
    }
}

#[test]
fn when_needs_an_enabled_interrupt_and_stays_armed() {
    let mut kernel = after(&[task(5), r(b"IT"), r(b"AC"), r(b"SU")]);
    runners(
        &mut kernel,
        [
            (r(b"CO").when(0), "-"),
            (r(b"TG"), "-"),
            (r(b"EI"), "-"),
            (r(b"TG"), "0"),
            (r(b"TG"), "0"),
            (r(b"SU"), "-"),
            (r(b"TG"), "0"),
            (r(b"SU"), "-"),
            (r(b"XI"), "-"),
            (r(b"TG"), "-"),
        ],
    );
}

#[test]
fn each_trigger_counts_the_pause_anew() {
    let mut kernel = one_runs();
    runners(
        &mut kernel,
        [
            (r(b"SU"), "-"),
            (r(b"CO").when_after(0, 2), "-"),
            (r(b"TI"), "-"),
            (r(b"TG"), "-"),
            (r(b"TI"), "-"),
            (r(b"TG"), "-"),
            (r(b"TI"), "-"),
            (r(b"TI"), "0"),
            (r(b"SU"), "-"),
            (r(b"TI"), "-"),
            (r(b"TI"), "-"),
            (r(b"TG"), "-"),
            (r(b"TI"), "-"),
            (r(b"TI"), "0"),
        ],
    );
}

#[test]
fn a_trigger_leaves_those_that_do_not_wait_for_it() {
    for later in [r(b"CO").after(2), r(b"CO").when_after(1, 2)] {
        let mut kernel = after(&[task(5), r(b"IT"), r(b"IT"), r(b"EI").on(0), r(b"EI").on(1)]);
        assert_eq!(feed(&mut kernel, &[r(b"AC")]), ["0 0 1 1 0 0 0"]);
        runners(
            &mut kernel,
            [
                (r(b"SU"), "-"),
                (later, "-"),
                (r(b"TG").on(1), "-"),
                (r(b"TI"), "-"),
                (r(b"TG").on(0), "-"),
                (r(b"TI"), "0"),
            ],
        );
    }
}

#[test]
fn a_resumed_runner_is_suspended_until_its_time() {
    let mut kernel = after(&[task(5), task(6), r(b"AC").on(0), r(b"AC").on(1)]);
    runners(&mut kernel, [(r(b"RE").at(2), "1")]);
    assert_eq!(number(&mut kernel, r(b"SU").on(0)), 11);
    runners(&mut kernel, [(r(b"TI"), "1"), (r(b"TI"), "0")]);
    assert_eq!(pending(&kernel), None);
}

#[test]
fn the_plain_delay_is_no_suspension() {
    let mut kernel = one_runs();
    runners(&mut kernel, [(r(b"RE").first(1), "-")]);
    assert_eq!(kernel.tasks[0].state, State::DelayedUntil(1));
    assert_eq!(pending(&kernel), None);
    runners(&mut kernel, [(r(b"SU"), "-"), (r(b"TI"), "-")]);
    let mut kernel = one_runs();
    runners(&mut kernel, [(r(b"RE").after(1), "-")]);
    assert_eq!(kernel.tasks[0].state, State::Suspended);
    assert_eq!(number(&mut kernel, r(b"SU")), 11);
    runners(&mut kernel, [(r(b"TI"), "0")]);
}

#[test]
fn resume_with_when_is_gone_once_it_came_due() {
    let mut kernel = one_runs();
    runners(
        &mut kernel,
        [
            (r(b"RE").when(0), "-"),
            (r(b"TI"), "-"),
            (r(b"TG"), "0"),
            (r(b"SU"), "-"),
            (r(b"TG"), "-"),
        ],
    );
}

#[test]
fn resume_with_when_is_gone_even_if_it_did_nothing() {
    let mut kernel = one_runs();
    runners(
        &mut kernel,
        [
            (r(b"RE").when(0), "-"),
            (r(b"CO"), "0"),
            (r(b"TG"), "0"),
            (r(b"SU"), "-"),
            (r(b"TG"), "-"),
        ],
    );
    assert_eq!(pending(&kernel), None);
}

#[test]
fn resume_with_a_pause_is_gone_after_the_pause() {
    let mut kernel = one_runs();
    runners(
        &mut kernel,
        [
            (r(b"RE").when_after(0, 2), "-"),
            (r(b"TG"), "-"),
            (r(b"TI"), "-"),
            (r(b"TG"), "-"),
            (r(b"TI"), "-"),
            (r(b"TI"), "0"),
            (r(b"SU"), "-"),
            (r(b"TG"), "-"),
            (r(b"TI"), "-"),
            (r(b"TI"), "-"),
        ],
    );
}

#[test]
fn one_trigger_lets_several_tasks_go_on() {
    let mut kernel = after(&[
        task(5),
        task(6),
        r(b"IT"),
        r(b"EI"),
        r(b"AC").on(0),
        r(b"RE").when(0),
        r(b"AC").on(1),
        r(b"RE").when(0),
    ]);
    runners(&mut kernel, [(r(b"TG"), "0"), (r(b"SU"), "1")]);
}

#[test]
fn continuations_replace_each_other() {
    let early = r(b"CO").after(1).priority(3);
    let mut kernel = one_runs();
    runners(
        &mut kernel,
        [
            (r(b"SU"), "-"),
            (early, "-"),
            (r(b"CO").when(0), "-"),
            (r(b"TI"), "-"),
            (r(b"TG"), "0"),
        ],
    );
    assert_eq!(current(&kernel), 5);
    let mut kernel = one_runs();
    let ticks = [(r(b"TI"), "-"), (r(b"TI"), "0")];
    runners(&mut kernel, [(early, "0"), (r(b"RE").after(2), "-")]);
    runners(&mut kernel, ticks);
    assert_eq!(current(&kernel), 5);
    let mut kernel = one_runs();
    let late = r(b"CO").after(2).priority(3);
    runners(&mut kernel, [(r(b"RE").after(1), "-"), (late, "-")]);
    runners(&mut kernel, ticks);
    assert_eq!(current(&kernel), 3);
}

#[test]
fn continue_at_once_leaves_what_is_to_come() {
    let mut kernel = one_runs();
    runners(
        &mut kernel,
        [
            (r(b"RE").after(2), "-"),
            (r(b"CO"), "0"),
            (r(b"SU"), "-"),
            (r(b"TI"), "-"),
            (r(b"TI"), "0"),
        ],
    );
}

#[test]
fn a_plain_delay_leaves_what_is_to_come_and_is_cut_short_by_it() {
    let mut kernel = one_runs();
    runners(
        &mut kernel,
        [
            (r(b"CO").after(2).priority(3), "0"),
            (r(b"RE").first(3), "-"),
            (r(b"TI"), "-"),
            (r(b"TI"), "0"),
            (r(b"SU"), "-"),
            (r(b"TI"), "-"),
        ],
    );
    assert_eq!(current(&kernel), 3);
}

#[test]
fn a_delay_that_ends_at_the_same_instant_ends_first() {
    for (delay, runner) in [(2, "1"), (3, "0")] {
        let mut kernel = after(&[task(5), task(4), r(b"AC").on(0)]);
        runners(
            &mut kernel,
            [
                (r(b"RE").first(delay), "-"),
                (r(b"CO").on(0).after(2).priority(3), "-"),
            ],
        );
        assert_eq!(feed(&mut kernel, &[r(b"AC").on(1)]), ["0 1 2 2 0 0 0"]);
        runners(&mut kernel, [(r(b"TI"), "1"), (r(b"TI"), runner)]);
        assert_eq!(pending(&kernel), None);
        assert_eq!(kernel.tasks[0].state, State::Unheld);
    }
}

#[test]
fn nothing_happens_to_an_unheld_task() {
    let mut kernel = after(&[task(5), task(4), r(b"AC").on(0), r(b"AC").on(1)]);
    runners(
        &mut kernel,
        [(r(b"CO").after(1).priority(1), "1"), (r(b"TI"), "1")],
    );
    assert_eq!(current(&kernel), 5);
    assert_eq!(pending(&kernel), None);
}

#[test]
fn nothing_happens_to_a_terminated_task() {
    let mut kernel = after(&[task(5)]);
    runners(
        &mut kernel,
        [(r(b"CO").after(1).priority(1), "-"), (r(b"TI"), "-")],
    );
    assert_eq!(current(&kernel), 5);
    assert_eq!(pending(&kernel), None);
}

#[test]
fn continue_with_when_stays_armed_if_it_did_nothing() {
    let mut kernel = after(&[task(5), r(b"IT"), r(b"EI"), r(b"CO").when(0)]);
    runners(&mut kernel, [(r(b"TG"), "-")]);
    assert_eq!(feed(&mut kernel, &[r(b"AC")]), ["0 0 1 1 0 0 0"]);
    runners(&mut kernel, [(r(b"SU"), "-"), (r(b"TG"), "0")]);
}

#[test]
fn an_end_leaves_it_for_the_next_run() {
    let mut kernel = one_runs();
    let found = feed(
        &mut kernel,
        &[
            r(b"CO").after(3).priority(2),
            r(b"TE"),
            r(b"TI"),
            r(b"AC"),
            r(b"EN"),
            r(b"TI"),
            r(b"AC"),
            r(b"SU"),
            r(b"TI"),
        ],
    );
    let expected = [
        "0 0 0 0 0 0 0",
        "0 - 0 0 1 0 0",
        "0 - 0 0 0 0 0",
        "0 0 1 1 0 0 0",
        "0 - 0 0 1 0 0",
        "0 - 0 0 0 0 0",
        "0 0 1 1 0 0 0",
        "0 - 0 0 0 0 0",
        "0 0 0 0 0 0 0",
    ];
    assert_eq!(found, expected);
    assert_eq!(current(&kernel), 2);
}

#[test]
fn an_end_leaves_it_for_a_start_kept_back() {
    let mut kernel = after(&[task(5), r(b"AC"), r(b"AC").at(0), r(b"RE").after(2)]);
    let found = feed(
        &mut kernel,
        &[r(b"TE"), r(b"TI"), r(b"SU"), r(b"TI"), r(b"TI")],
    );
    let expected = [
        "0 0 0 1 1 0 0",
        "0 0 0 0 0 0 0",
        "0 - 0 0 0 0 0",
        "0 0 0 0 0 0 0",
        "0 0 0 0 0 0 0",
    ];
    assert_eq!(found, expected);
}

#[test]
fn prevent_removes_all_that_is_to_come_and_unholds_nobody() {
    let mut kernel = after(&[task(5), r(b"AC"), r(b"AC").all(2), r(b"RE").after(1)]);
    assert_eq!(feed(&mut kernel, &[r(b"PR")]), ["0 - 0 0 0 1 0"]);
    assert_eq!(kernel.tasks[0].state, State::Suspended);
    assert_eq!(kernel.tasks[0].schedule, None);
    assert_eq!(pending(&kernel), None);
    runners(
        &mut kernel,
        [(r(b"TI"), "-"), (r(b"TI"), "-"), (r(b"CO"), "0")],
    );
}

#[test]
fn priority_0_is_the_one_current_when_it_comes_due() {
    let mut kernel = one_runs();
    runners(
        &mut kernel,
        [
            (r(b"SU"), "-"),
            (r(b"CO").after(1), "-"),
            (r(b"CO").priority(2), "0"),
            (r(b"SU"), "-"),
            (r(b"TI"), "0"),
        ],
    );
    assert_eq!(current(&kernel), 2);
}

#[test]
fn only_kind_0_minds_terminated_and_unheld_tasks() {
    let mut kernel = after(&[task(5), r(b"IT")]);
    assert_eq!(number(&mut kernel, r(b"CO")), 10);
    let later = [
        r(b"CO").at(9),
        r(b"CO").after(9),
        r(b"CO").when(0),
        r(b"CO").when_after(0, 9),
    ];
    for draft in later {
        assert_eq!(number(&mut kernel, draft), 0);
    }
    assert_eq!(number(&mut kernel, r(b"AC")), 0);
    assert_eq!(number(&mut kernel, r(b"CO")), 12);
    for draft in later {
        assert_eq!(number(&mut kernel, draft), 0);
    }
}

#[test]
fn resume_needs_a_runner_whatever_its_kind() {
    let mut kernel = after(&[task(5), r(b"IT")]);
    for draft in [
        r(b"RE").first(1),
        r(b"RE").at(0),
        r(b"RE").after(1),
        r(b"RE").when(0),
        r(b"RE").when_after(0, 1),
    ] {
        assert_eq!(number(&mut kernel, draft), 8);
    }
    assert_eq!(number(&mut kernel, r(b"RE").when(1)), 5);
    assert_eq!(number(&mut kernel, r(b"RE").after(0)), 6);
}

#[test]
fn refused_ones_leave_what_is_to_come() {
    let mut kernel = one_runs();
    runners(&mut kernel, [(r(b"CO").after(2).priority(3), "0")]);
    let before = kernel.clone();
    for (draft, refusal) in [
        (r(b"CO").all(1), 3),
        (r(b"RE").priority(1).at(0), 3),
        (r(b"CO").when(1), 5),
        (r(b"RE").after(0), 6),
        (r(b"CO"), 12),
    ] {
        assert_eq!(number(&mut kernel, draft), refusal);
        assert_eq!(kernel, before);
    }
}

#[test]
fn a_waiting_task_goes_on_waiting_with_its_new_priority() {
    let mut kernel = after(&[
        task(2),
        task(3),
        task(9),
        semaphore(0),
        r(b"AC").on(0),
        r(b"RQ").list(&[0]),
        r(b"AC").on(1),
        r(b"RQ").list(&[0]),
        r(b"AC").on(2),
        r(b"SU").on(1),
    ]);
    runners(
        &mut kernel,
        [(r(b"CO").on(1).after(1).priority(1), "2"), (r(b"TI"), "2")],
    );
    let found = feed(&mut kernel, &[r(b"RL").list(&[0])]);
    assert_eq!(found, ["0 1 0 0 0 0 2"]);
}

#[test]
fn a_start_and_a_continuation_at_one_tick() {
    let mut kernel = one_runs();
    let (start, later) = (r(b"AC").after(1), r(b"CO").after(1).priority(3));
    runners(&mut kernel, [(r(b"SU"), "-"), (start, "-"), (later, "-")]);
    assert_eq!(feed(&mut kernel, &[r(b"TI")]), ["0 0 1 0 0 0 0"]);
    assert_eq!(current(&kernel), 3);
    let mut kernel = after(&[task(5), start.priority(4), later]);
    assert_eq!(feed(&mut kernel, &[r(b"TI")]), ["0 0 1 1 0 0 0"]);
    assert_eq!(current(&kernel), 4);
}

#[test]
fn a_start_and_a_continuation_at_one_trigger() {
    let found = lines(&[
        task(5),
        task(4),
        r(b"IT"),
        r(b"EI"),
        r(b"AC").on(1),
        r(b"AC").on(0).when(0),
        r(b"CO").on(0).when(0).priority(2),
        r(b"TG"),
        r(b"SU").on(0),
        r(b"TG"),
        r(b"TG"),
    ]);
    let expected = [
        "0 - 0 0 0 0 0",
        "0 1 2 2 0 0 0",
        "0 1 0 0 0 0 0",
        "0 1 0 0 0 0 0",
        "0 1 1 1 0 0 0",
        "0 1 0 0 0 0 0",
        "0 0 1 0 0 0 0",
        "0 0 1 0 0 1 0",
    ];
    assert_eq!(found, expected);
}

#[test]
fn a_declaration_clears_its_place() {
    let mut kernel = Kernel::new();
    kernel.tasks[0].continuation = Some(Continuation {
        priority: None,
        origin: Origin::Clock,
        by_resume: true,
        next: 7,
    });
    assert_eq!(number(&mut kernel, task(5)), 0);
    assert_eq!(pending(&kernel), None);
}
