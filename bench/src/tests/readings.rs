//! What the rules leave to a careful reader, one test for each point.

use super::{after, feed, lines, number, r, semaphore, task};
use crate::kernel::{Kernel, State, Wait};
use crate::limits::{FULL, LONGEST};

#[test]
fn an_undeclared_task_comes_before_a_bad_duration() {
    let mut kernel = after(&[task(1)]);
    assert_eq!(number(&mut kernel, r(b"AC").on(1).after(0)), 5);
    assert_eq!(number(&mut kernel, r(b"AC").on(0).after(0)), 6);
}

#[test]
fn a_late_declaration_comes_before_a_bad_field() {
    let mut kernel = after(&[task(1)]);
    assert_eq!(number(&mut kernel, task(0)), 3);
    assert_eq!(number(&mut kernel, r(b"TI")), 0);
    assert_eq!(number(&mut kernel, task(0)), 2);
}

#[test]
fn calls_without_effect_end_the_declarations_and_refused_ones_do_not() {
    let idle = [r(b"TG").on(0), r(b"PR").on(0), r(b"XI").on(0)];
    for call in idle {
        let mut kernel = after(&[task(1), r(b"IT")]);
        assert_eq!(number(&mut kernel, r(b"TE").on(0)), 10);
        assert_eq!(number(&mut kernel, r(b"DB")), 0);
        assert_eq!(number(&mut kernel, call), 0);
        assert_eq!(number(&mut kernel, r(b"DB")), 2);
    }
}

#[test]
fn refusals_name_the_running_task_and_change_nothing() {
    let mut kernel = after(&[task(1), task(2), r(b"AC").on(1)]);
    let before = kernel.clone();
    assert_eq!(
        feed(&mut kernel, &[r(b"??"), r(b"TE").on(0), r(b"EN").on(1)]),
        ["2 1 0 0 0 0 0", "10 1 0 0 0 0 0", "3 1 0 0 0 0 0"]
    );
    assert_eq!(kernel, before);
}

#[test]
fn no_runner_comes_after_the_times_and_before_full_and_empty() {
    let mut kernel = after(&[task(1), semaphore(65_535), r(b"DB")]);
    assert_eq!(number(&mut kernel, r(b"RE").first(0)), 6);
    assert_eq!(number(&mut kernel, r(b"RE").first(1)), 8);
    for mark in [b"RL", b"TR", b"FR", b"LV"] {
        assert_eq!(number(&mut kernel, r(mark).list(&[0])), 8);
    }
}

#[test]
fn a_schedule_replaces_a_schedule_and_nothing_else() {
    let mut kernel = after(&[
        task(7),
        r(b"AC").priority(3),
        r(b"AC").priority(5).all(10),
        r(b"AC").after(20),
    ]);
    let task = kernel.tasks[0];
    assert_eq!(task.current.get(), 3);
    assert_eq!(task.kept.unwrap().get(), 5);
    assert_eq!(task.schedule.unwrap().next, 20);
    assert_eq!(feed(&mut kernel, &[r(b"EN")]), ["0 0 0 1 1 0 0"]);
    assert_eq!(kernel.tasks[0].current.get(), 5);
    assert_eq!(kernel.tasks[0].schedule, task.schedule);
}

#[test]
fn a_trigger_replaces_what_was_to_come() {
    let found = lines(&[
        task(1),
        r(b"IT"),
        r(b"EI"),
        r(b"AC").when_after(0, 2),
        r(b"TG"),
        r(b"TI"),
        r(b"TG"),
        r(b"XI"),
        r(b"TI"),
        r(b"TI"),
        r(b"TI"),
        r(b"TG"),
    ]);
    let expected = [
        "0 - 0 0 0 0 0",
        "0 - 0 0 0 0 0",
        "0 - 0 0 0 0 0",
        "0 - 0 0 0 0 0",
        "0 - 0 0 0 0 0",
        "0 - 0 0 0 0 0",
        "0 - 0 0 0 0 0",
        "0 0 1 1 0 0 0",
        "0 0 0 0 0 0 0",
        "0 0 0 0 0 0 0",
    ];
    assert_eq!(found, expected);
}

#[test]
fn each_trigger_counts_the_end_anew() {
    let found = lines(&[
        task(1),
        r(b"IT"),
        r(b"EI"),
        r(b"AC").when(0).every(1).during(1),
        r(b"TG"),
        r(b"TI"),
        r(b"TG"),
        r(b"TI"),
        r(b"TI"),
    ]);
    let expected = [
        "0 - 0 0 0 0 0",
        "0 - 0 0 0 0 0",
        "0 0 1 1 0 0 0",
        "0 0 1 0 0 0 0",
        "0 0 1 0 0 1 0",
        "0 0 1 0 0 1 0",
        "0 0 0 0 0 0 0",
    ];
    assert_eq!(found, expected);
}

#[test]
fn prevent_loses_only_a_start_kept_back() {
    let found = lines(&[
        task(1),
        r(b"AC").all(5),
        r(b"PR"),
        r(b"AC").all(5),
        r(b"PR"),
        r(b"EN"),
        r(b"PR"),
    ]);
    let expected = [
        "0 0 1 1 0 0 0",
        "0 0 0 0 0 0 0",
        "0 0 1 0 0 0 0",
        "0 0 0 0 0 1 0",
        "0 - 0 0 1 0 0",
        "0 - 0 0 0 0 0",
    ];
    assert_eq!(found, expected);
}

#[test]
fn suspend_forgets_a_delay_and_continue_ends_it() {
    let mut kernel = after(&[task(1), r(b"AC"), r(b"RE").first(1), r(b"SU")]);
    assert_eq!(kernel.tasks[0].state, State::Suspended);
    assert_eq!(feed(&mut kernel, &[r(b"TI")]), ["0 - 0 0 0 0 0"]);
    assert_eq!(number(&mut kernel, r(b"SU")), 11);
    let mut kernel = after(&[task(1), r(b"AC"), r(b"RE").first(9)]);
    assert_eq!(
        feed(&mut kernel, &[r(b"CO").priority(2)]),
        ["0 0 0 0 0 0 0"]
    );
    assert_eq!(kernel.tasks[0].current.get(), 2);
}

/// Tasks 0 and 1 wait for the semaphore, task 2 runs.
fn two_waiters() -> Kernel {
    after(&[
        task(2),
        task(3),
        task(9),
        semaphore(0),
        r(b"AC").on(0),
        r(b"RQ").list(&[0]),
        r(b"AC").on(1),
        r(b"RQ").list(&[0]),
        r(b"AC").on(2),
    ])
}

#[test]
fn continue_of_a_waiter_that_is_not_held_is_refused() {
    let mut kernel = two_waiters();
    assert_eq!(number(&mut kernel, r(b"CO").on(1).priority(1)), 12);
    assert_eq!(kernel.tasks[1].current.get(), 3);
}

#[test]
fn a_priority_given_to_a_held_waiter_counts_in_serving() {
    let mut kernel = two_waiters();
    let calls = [
        r(b"SU").on(1),
        r(b"CO").on(1).priority(1),
        r(b"RL").list(&[0]),
    ];
    let found = feed(&mut kernel, &calls);
    assert_eq!(found[2], "0 1 0 0 0 0 2");
}

#[test]
fn held_waiters_are_served_and_stay_held() {
    let mut kernel = two_waiters();
    let calls = [r(b"SU").on(0), r(b"RL").list(&[0]), r(b"CO").on(0)];
    let found = feed(&mut kernel, &calls);
    assert_eq!(found[1..], ["0 2 0 0 0 0 1", "0 0 0 0 0 0 0"]);
}

#[test]
fn serving_goes_on_and_passes_over_closed_lists() {
    let found = lines(&[
        task(1),
        task(2),
        task(3),
        task(9),
        semaphore(0),
        semaphore(0),
        semaphore(0),
        r(b"AC").on(0),
        r(b"RQ").list(&[0, 2]),
        r(b"AC").on(1),
        r(b"RQ").list(&[1]),
        r(b"AC").on(2),
        r(b"RQ").list(&[0]),
        r(b"AC").on(3),
        r(b"RL").list(&[0, 1]),
    ]);
    assert_eq!(found[7], "0 1 0 0 0 0 6");
}

#[test]
fn one_full_semaphore_stops_the_whole_release() {
    let mut kernel = after(&[task(1), semaphore(0), semaphore(65_535), r(b"AC")]);
    assert_eq!(number(&mut kernel, r(b"RL").list(&[0, 1])), 13);
    assert_eq!(kernel.semaphores[0], 0);
}

#[test]
fn a_full_bolt_lets_nobody_enter() {
    let mut kernel = after(&[task(1), r(b"DB"), r(b"AC")]);
    kernel.bolts[0].readers = FULL;
    assert_eq!(feed(&mut kernel, &[r(b"ET").list(&[0])]), ["0 - 0 0 0 0 0"]);
    assert!(matches!(kernel.tasks[0].wait, Wait::Enter(_)));
}

#[test]
fn a_dead_task_keeps_what_it_took() {
    let kernel = after(&[
        task(1),
        semaphore(1),
        r(b"DB"),
        r(b"AC"),
        r(b"RQ").list(&[0]),
        r(b"RS").list(&[0]),
        r(b"TE"),
    ]);
    assert_eq!(kernel.semaphores[0], 0);
    assert!(kernel.bolts[0].writer);
}

#[test]
fn the_longest_times_pass() {
    let mut kernel = after(&[task(1)]);
    let longest = r(b"AC").after(LONGEST).every(LONGEST).during(LONGEST);
    assert_eq!(number(&mut kernel, longest), 0);
    assert_eq!(number(&mut kernel, r(b"AC").after(LONGEST + 1)), 6);
    assert_eq!(number(&mut kernel, r(b"AC").all(LONGEST + 1)), 6);
    assert_eq!(number(&mut kernel, r(b"AC").all(1).during(LONGEST + 1)), 6);
}

#[test]
fn a_delayed_task_and_a_due_of_the_same_tick() {
    let found = lines(&[
        task(1),
        r(b"AC"),
        r(b"AC").after(2),
        r(b"RE").first(2),
        r(b"TI"),
        r(b"TI"),
    ]);
    assert_eq!(
        found[2..],
        ["0 - 0 0 0 0 0", "0 - 0 0 0 0 0", "0 0 1 0 0 0 0"]
    );
}
