//! Equal urgency takes turns, one test for each point.

use super::{after, feed, lines, r, semaphore, steps, task};
use crate::draft::Draft;
use crate::kernel::{Kernel, State};
use crate::limits::FULL;

/// Nobody runs, or task 0, 1 or 2 does; nothing else is told.
const NOBODY: &str = "0 - 0 0 0 0 0";
const FIRST: &str = "0 0 0 0 0 0 0";
const SECOND: &str = "0 1 0 0 0 0 0";
const THIRD: &str = "0 2 0 0 0 0 0";

/// The declared tasks in the order of their places: `[1, 0]` has task 1 first.
fn order(kernel: &Kernel) -> Vec<u8> {
    let mut tasks: Vec<u8> = (0..kernel.counts.tasks).collect();
    tasks.sort_by_key(|&i| kernel.places[usize::from(i)]);
    tasks
}

/// Each of these calls is accepted and moves nobody.
#[track_caller]
fn moves_nobody(kernel: &mut Kernel, drafts: &[Draft]) {
    for (i, draft) in drafts.iter().enumerate() {
        let before = order(kernel);
        assert_eq!(kernel.step(&draft.bytes()).number, 0, "call {i}");
        assert_eq!(order(kernel), before, "call {i}");
    }
}

/// Tasks 0 and 1 of priority 5 are alive. Task 1 was the first and runs. Task 2
/// of priority 9 is terminated. There are two semaphores, at 0 and at 1, a bolt,
/// and an enabled interrupt.
fn second_runs() -> Kernel {
    let kernel = after(&[
        task(5),
        task(5),
        task(9),
        semaphore(0),
        semaphore(1),
        r(b"DB"),
        r(b"IT"),
        r(b"EI"),
        r(b"AC").on(1),
        r(b"AC").on(0),
    ]);
    assert_eq!(order(&kernel), [2, 1, 0]);
    kernel
}

/// The same, but task 1 and then task 0 wait for semaphore 0, and task 2 runs.
fn both_wait() -> Kernel {
    let mut kernel = second_runs();
    steps(
        &mut kernel,
        [
            (r(b"RQ").list(&[0]), FIRST),
            (r(b"RQ").list(&[0]), NOBODY),
            (r(b"AC").on(2), "0 2 4 4 0 0 0"),
        ],
    );
    assert_eq!(order(&kernel), [1, 0, 2]);
    kernel
}

#[test]
fn declared_tasks_stand_by_number() {
    let mut kernel = Kernel::new();
    for count in 1..=32 {
        kernel.places[count - 1] = 77;
        assert_eq!(kernel.step(&task(5).bytes()).number, 0);
        assert!((0..count).all(|i| usize::from(kernel.places[i]) == i));
    }
}

#[test]
fn equal_tasks_run_in_the_order_in_which_they_started() {
    let found = lines(&[
        task(5),
        task(5),
        task(5),
        r(b"AC").on(2),
        r(b"AC").on(0),
        r(b"AC").on(1),
        r(b"EN"),
        r(b"EN"),
        r(b"EN"),
    ]);
    let expected = [
        "0 2 4 4 0 0 0",
        "0 2 1 1 0 0 0",
        "0 2 2 2 0 0 0",
        "0 0 0 0 4 0 0",
        "0 1 0 0 1 0 0",
        "0 - 0 0 2 0 0",
    ];
    assert_eq!(found, expected);
}

/// The latest of all runs at once if it is more urgent, the first not before
/// the others if it is less so.
#[test]
fn the_priority_comes_before_the_place() {
    let found = lines(&[
        task(5),
        task(6),
        task(4),
        r(b"AC").on(1),
        r(b"AC").on(0),
        r(b"AC").on(2),
        r(b"EN"),
        r(b"EN"),
    ]);
    let expected = [
        "0 1 2 2 0 0 0",
        "0 0 1 1 0 0 0",
        "0 2 4 4 0 0 0",
        "0 0 0 0 4 0 0",
        "0 1 0 0 1 0 0",
    ];
    assert_eq!(found, expected);
}

/// Priority 5 comes from the declaration, the activation or a CONTINUE.
#[test]
fn the_current_priorities_are_compared() {
    let found = lines(&[
        task(7),
        task(3),
        task(5),
        r(b"AC").on(2),
        r(b"AC").on(1).priority(5),
        r(b"AC").on(0).priority(9),
        r(b"SU").on(0),
        r(b"CO").on(0).priority(5),
        r(b"EN"),
        r(b"EN"),
    ]);
    let expected = [
        "0 2 4 4 0 0 0",
        "0 2 2 2 0 0 0",
        "0 2 1 1 0 0 0",
        THIRD,
        THIRD,
        "0 1 0 0 4 0 0",
        "0 0 0 0 2 0 0",
    ];
    assert_eq!(found, expected);
}

#[test]
fn a_preempted_task_keeps_its_place() {
    let found = lines(&[
        task(5),
        task(5),
        task(3),
        r(b"AC").on(1),
        r(b"AC").on(0),
        r(b"AC").on(2),
        r(b"EN"),
    ]);
    let expected = [
        "0 1 2 2 0 0 0",
        "0 1 1 1 0 0 0",
        "0 2 4 4 0 0 0",
        "0 1 0 0 4 0 0",
    ];
    assert_eq!(found, expected);
}

/// It ends and starts in one call and so is runnable before and after it.
#[test]
fn an_end_with_a_start_kept_back_goes_to_the_end() {
    let kept = (r(b"AC").on(1).at(0), "0 1 2 0 0 0 0");
    for end in [r(b"EN"), r(b"TE").on(1)] {
        let mut kernel = second_runs();
        steps(&mut kernel, [kept, (end, "0 0 0 2 2 0 0")]);
        assert_eq!(order(&kernel), [2, 0, 1]);
        steps(&mut kernel, [(r(b"EN"), "0 1 0 0 1 0 0")]);
    }
}

#[test]
fn the_end_of_another_with_a_start_kept_back_moves_that_one() {
    let mut kernel = after(&[task(5); 3]);
    steps(
        &mut kernel,
        [
            (r(b"AC").on(2), "0 2 4 4 0 0 0"),
            (r(b"AC").on(0), "0 2 1 1 0 0 0"),
            (r(b"AC").on(1), "0 2 2 2 0 0 0"),
            (r(b"AC").on(0).at(0), "0 2 1 0 0 0 0"),
            (r(b"TE").on(0), "0 2 0 1 1 0 0"),
            (r(b"EN"), "0 1 0 0 4 0 0"),
            (r(b"EN"), "0 0 0 0 2 0 0"),
        ],
    );
}

/// Held or waiting as it was, it is runnable then.
#[test]
fn a_paused_task_that_starts_anew_goes_to_the_end() {
    for pause in [r(b"SU").on(1), r(b"RQ").list(&[0]), r(b"RE").first(9)] {
        let mut kernel = second_runs();
        steps(
            &mut kernel,
            [
                (r(b"AC").on(1).at(0), "0 1 2 0 0 0 0"),
                (pause, FIRST),
                (r(b"TE").on(1), "0 0 0 2 2 0 0"),
            ],
        );
        assert_eq!(order(&kernel), [2, 0, 1]);
    }
}

#[test]
fn an_end_moves_nobody() {
    let mut kernel = second_runs();
    moves_nobody(&mut kernel, &[r(b"TE").on(0), r(b"EN")]);
}

#[test]
fn a_task_that_goes_on_stands_at_the_end() {
    for goes_on in [r(b"CO").on(1), r(b"CO").on(1).at(0)] {
        let mut kernel = second_runs();
        steps(&mut kernel, [(r(b"SU").on(1), FIRST), (goes_on, FIRST)]);
        assert_eq!(order(&kernel), [2, 0, 1]);
        steps(&mut kernel, [(r(b"EN"), "0 1 0 0 1 0 0")]);
    }
}

#[test]
fn a_task_that_resumes_at_a_tick_stands_at_the_end() {
    for rest in [r(b"RE").first(1), r(b"RE").after(1), r(b"RE").at(1)] {
        let mut kernel = second_runs();
        steps(&mut kernel, [(rest, FIRST), (r(b"TI"), FIRST)]);
        assert_eq!(kernel.tasks[1].state, State::Unheld);
        assert_eq!(order(&kernel), [2, 0, 1]);
    }
}

#[test]
fn a_task_that_resumes_at_a_trigger_stands_at_the_end() {
    let mut kernel = second_runs();
    steps(
        &mut kernel,
        [(r(b"RE").when(0), FIRST), (r(b"TG").on(0), FIRST)],
    );
    assert_eq!(order(&kernel), [2, 0, 1]);
}

/// The runner is suspended and goes on within the call.
#[test]
fn resume_at_the_present_time_keeps_the_place() {
    let mut kernel = second_runs();
    moves_nobody(&mut kernel, &[r(b"RE").at(0)]);
    assert_eq!(kernel.running(), Some(1));
    steps(&mut kernel, [(r(b"TI"), SECOND), (r(b"RE").at(1), SECOND)]);
}

#[test]
fn what_is_granted_at_once_keeps_the_place() {
    let granted = "0 1 0 0 0 0 2";
    let mut kernel = second_runs();
    steps(
        &mut kernel,
        [
            (r(b"RQ").list(&[1]), granted),
            (r(b"TR").list(&[0]), SECOND),
            (r(b"RL").list(&[0]), SECOND),
            (r(b"TR").list(&[0]), granted),
            (r(b"RS").list(&[0]), granted),
            (r(b"FR").list(&[0]), SECOND),
            (r(b"ET").list(&[0]), granted),
            (r(b"LV").list(&[0]), SECOND),
        ],
    );
    assert_eq!(order(&kernel), [2, 1, 0]);
}

#[test]
fn a_quiet_tick_moves_nobody() {
    let mut kernel = second_runs();
    moves_nobody(&mut kernel, &[r(b"TI"); 3]);
    assert_eq!(kernel.running(), Some(1));
}

/// Dues that are kept back or lost, and continuations of tasks that aren't held.
#[test]
fn a_due_that_starts_nobody_moves_nobody() {
    let mut kernel = second_runs();
    moves_nobody(
        &mut kernel,
        &[
            r(b"AC").on(1).all(1),
            r(b"CO").on(1).after(1),
            r(b"CO").on(2).after(2),
            r(b"TI"),
            r(b"TI"),
            r(b"AC").on(0).when(0),
            r(b"TG").on(0),
        ],
    );
    assert_eq!(kernel.running(), Some(1));
}

#[test]
fn other_calls_move_nobody() {
    let mut kernel = second_runs();
    moves_nobody(
        &mut kernel,
        &[
            r(b"AC").on(2).after(5),
            r(b"PR").on(2),
            r(b"XI").on(0),
            r(b"TG").on(0),
            r(b"EI").on(0),
            r(b"SU").on(1),
            r(b"SU").on(0),
        ],
    );
}

#[test]
fn refused_calls_move_nobody() {
    let mut kernel = second_runs();
    let before = kernel.clone();
    for (draft, line) in [
        (r(b"AC").on(0), "9 1 0 0 0 0 0"),
        (r(b"CO").on(0), "12 1 0 0 0 0 0"),
        (r(b"RQ").list(&[2]), "5 1 0 0 0 0 0"),
        (r(b"FR").list(&[0]), "14 1 0 0 0 0 0"),
    ] {
        assert_eq!(feed(&mut kernel, &[draft]), [line]);
        assert_eq!(kernel, before);
    }
}

#[test]
fn the_one_that_waits_longer_is_served_first() {
    for (one, other) in [(0, 1), (1, 0)] {
        let mut kernel = after(&[
            task(5),
            task(5),
            task(9),
            semaphore(0),
            r(b"AC").on(one),
            r(b"RQ").list(&[0]),
            r(b"AC").on(other),
            r(b"RQ").list(&[0]),
            r(b"AC").on(2),
        ]);
        let found = feed(
            &mut kernel,
            &[r(b"RL").list(&[0]), r(b"RL").list(&[0]), r(b"EN")],
        );
        let expected = [
            format!("0 {one} 0 0 0 0 {}", 1 << one),
            format!("0 {one} 0 0 0 0 {}", 1 << other),
            format!("0 {other} 0 0 {} 0 0", 1 << one),
        ];
        assert_eq!(found, expected);
    }
}

#[test]
fn the_writer_that_waits_longer_is_served_first() {
    let mut kernel = after(&[
        task(5),
        task(5),
        task(9),
        r(b"DB"),
        r(b"AC").on(2),
        r(b"RS").list(&[0]),
    ]);
    let reserve = r(b"RS").list(&[0]);
    let free = r(b"FR").list(&[0]);
    steps(
        &mut kernel,
        [
            (r(b"AC").on(1), "0 1 2 2 0 0 0"),
            (reserve, THIRD),
            (r(b"AC").on(0), "0 0 1 1 0 0 0"),
            (reserve, THIRD),
            (free, "0 1 0 0 0 0 2"),
            (free, "0 1 0 0 0 0 1"),
        ],
    );
}

/// The bolt is full, and one reader after the other leaves.
#[test]
fn the_reader_that_waits_longer_is_served_first() {
    let mut kernel = second_runs();
    kernel.bolts[0].readers = FULL;
    steps(
        &mut kernel,
        [
            (r(b"ET").list(&[0]), FIRST),
            (r(b"ET").list(&[0]), NOBODY),
            (r(b"AC").on(2), "0 2 4 4 0 0 0"),
            (r(b"LV").list(&[0]), "0 1 0 0 0 0 2"),
            (r(b"LV").list(&[0]), "0 1 0 0 0 0 1"),
        ],
    );
}

/// Task 0 is to be served first again once it is the more urgent one.
#[test]
fn serving_goes_by_priority_before_place() {
    let mut kernel = both_wait();
    steps(
        &mut kernel,
        [
            (r(b"SU").on(0), THIRD),
            (r(b"CO").on(0).priority(4), THIRD),
            (r(b"RL").list(&[0]), "0 0 0 0 0 0 1"),
        ],
    );
}

/// Task 0 became runnable first, but its wait began last.
#[test]
fn a_wait_is_an_event() {
    let mut kernel = after(&[task(6), task(5), task(9), semaphore(0)]);
    steps(
        &mut kernel,
        [
            (r(b"AC").on(0), "0 0 1 1 0 0 0"),
            (r(b"AC").on(1), "0 1 2 2 0 0 0"),
            (r(b"RQ").list(&[0]), FIRST),
            (r(b"RQ").list(&[0]), NOBODY),
            (r(b"AC").on(2), "0 2 4 4 0 0 0"),
            (r(b"SU").on(0), THIRD),
            (r(b"CO").on(0).priority(5), THIRD),
            (r(b"RL").list(&[0]), "0 1 0 0 0 0 2"),
        ],
    );
}

#[test]
fn a_waiter_that_is_held_and_continued_keeps_its_place() {
    let later = r(b"CO").on(1).after(1);
    for goes_on in [[r(b"CO").on(1), r(b"TI")], [later, r(b"TI")]] {
        let mut kernel = both_wait();
        moves_nobody(&mut kernel, &[r(b"SU").on(1)]);
        moves_nobody(&mut kernel, &goes_on);
        assert_eq!(kernel.tasks[1].state, State::Unheld);
        steps(&mut kernel, [(r(b"RL").list(&[0]), "0 1 0 0 0 0 2")]);
    }
}

/// The place of its wait is its own until it becomes runnable: then it is behind
/// task 0, which was served after it.
#[test]
fn a_waiter_that_is_served_while_held_moves_when_it_goes_on() {
    for goes_on in [r(b"CO").on(1), r(b"CO").on(1).at(0)] {
        let mut kernel = both_wait();
        steps(
            &mut kernel,
            [
                (r(b"SU").on(1), THIRD),
                (r(b"RL").list(&[0]), "0 2 0 0 0 0 2"),
            ],
        );
        assert_eq!(order(&kernel), [1, 0, 2]);
        steps(&mut kernel, [(r(b"RL").list(&[0]), "0 0 0 0 0 0 1")]);
        assert_eq!(order(&kernel), [1, 2, 0]);
        steps(&mut kernel, [(goes_on, FIRST)]);
        assert_eq!(order(&kernel), [2, 0, 1]);
        steps(&mut kernel, [(r(b"EN"), "0 1 0 0 1 0 0")]);
    }
}

#[test]
fn a_waiter_that_is_served_moves_once_more() {
    let mut kernel = both_wait();
    steps(&mut kernel, [(r(b"RL").list(&[0]), "0 1 0 0 0 0 2")]);
    assert_eq!(order(&kernel), [0, 2, 1]);
}

/// Tasks 2, 1 and 0 ran in this order and have ended.
fn backwards() -> Kernel {
    let mut kernel = after(&[
        task(5),
        task(5),
        task(5),
        r(b"IT"),
        r(b"EI"),
        r(b"AC").on(2),
        r(b"AC").on(1),
        r(b"AC").on(0),
    ]);
    assert_eq!(order(&kernel), [2, 1, 0]);
    moves_nobody(&mut kernel, &[r(b"EN"); 3]);
    kernel
}

#[test]
fn starts_of_one_tick_go_by_number() {
    let mut kernel = backwards();
    moves_nobody(
        &mut kernel,
        &[
            r(b"AC").on(2).after(1),
            r(b"AC").on(1).at(1),
            r(b"AC").on(0).after(1),
        ],
    );
    steps(
        &mut kernel,
        [
            (r(b"TI"), "0 0 7 7 0 0 0"),
            (r(b"EN"), "0 1 0 0 1 0 0"),
            (r(b"EN"), "0 2 0 0 2 0 0"),
        ],
    );
}

#[test]
fn starts_of_one_trigger_go_by_number_and_behind_the_others() {
    let mut kernel = backwards();
    let started = [r(b"AC").on(0).when(0), r(b"AC").on(2).when(0)];
    moves_nobody(&mut kernel, &started);
    steps(
        &mut kernel,
        [
            (r(b"AC").on(1), "0 1 2 2 0 0 0"),
            (r(b"TG").on(0), "0 1 5 5 0 0 0"),
            (r(b"EN"), "0 0 0 0 2 0 0"),
            (r(b"EN"), "0 2 0 0 1 0 0"),
        ],
    );
}

/// A delay, a continuation and a start that fall on one tick.
#[test]
fn events_of_several_sorts_in_one_tick_go_by_number() {
    let mut kernel = after(&[task(5), task(5), task(5), r(b"AC").on(2)]);
    steps(
        &mut kernel,
        [
            (r(b"RE").first(1), NOBODY),
            (r(b"AC").on(1), "0 1 2 2 0 0 0"),
            (r(b"RE").after(1), NOBODY),
            (r(b"AC").on(0).after(1), NOBODY),
            (r(b"TI"), "0 0 1 1 0 0 0"),
        ],
    );
    assert_eq!(order(&kernel), [0, 1, 2]);
}

/// Tasks 2, 1 and 0 wait in this order, for semaphore 0, 0 and 1; task 3 runs.
fn three_wait() -> Kernel {
    let mut drafts = vec![task(5), task(5), task(5), task(9)];
    drafts.extend([semaphore(0), semaphore(0)]);
    for (i, wanted) in [(2, 0), (1, 0), (0, 1)] {
        drafts.extend([r(b"AC").on(i), r(b"RQ").list(&[wanted])]);
    }
    drafts.push(r(b"AC").on(3));
    after(&drafts)
}

/// Task 2 gets semaphore 0 before task 1, and then stands behind task 0.
#[test]
fn serving_goes_by_the_places_before_the_call() {
    let mut kernel = three_wait();
    assert_eq!(order(&kernel), [2, 1, 0, 3]);
    steps(&mut kernel, [(r(b"RL").list(&[0, 1]), "0 0 0 0 0 0 5")]);
    assert_eq!(order(&kernel), [1, 3, 0, 2]);
    steps(
        &mut kernel,
        [
            (r(b"RL").list(&[0]), "0 0 0 0 0 0 2"),
            (r(b"EN"), "0 2 0 0 1 0 0"),
            (r(b"EN"), "0 1 0 0 4 0 0"),
        ],
    );
}

/// A writer as urgent as the reader goes first, whoever of the two came first.
#[test]
fn between_readers_and_writers_the_priorities_alone_count() {
    for (early, late) in [(b"ET", b"RS"), (b"RS", b"ET")] {
        for (one, other) in [(1, 2), (2, 1)] {
            let mut kernel = after(&[
                task(9),
                task(5),
                task(5),
                r(b"DB"),
                r(b"AC").on(0),
                r(b"RS").list(&[0]),
                r(b"AC").on(one),
                r(early).list(&[0]),
                r(b"AC").on(other),
                r(late).list(&[0]),
            ]);
            let writer = if early == b"RS" { one } else { other };
            let line = format!("0 {writer} 0 0 0 0 {}", 1 << writer);
            assert_eq!(feed(&mut kernel, &[r(b"FR").list(&[0])]), [line]);
        }
    }
}

/// The cells of one priority that tick by tick each do one run.
#[test]
fn periodic_tasks_of_one_priority_all_get_their_turn() {
    let mut kernel = after(&[
        task(5),
        task(5),
        task(5),
        r(b"AC").on(0).all(1),
        r(b"AC").on(1).all(1),
        r(b"AC").on(2).all(1),
        r(b"TI"),
    ]);
    for _ in 0..3 {
        steps(
            &mut kernel,
            [
                (r(b"EN"), "0 1 0 1 1 0 0"),
                (r(b"EN"), "0 2 0 2 2 0 0"),
                (r(b"EN"), "0 0 0 4 4 0 0"),
                (r(b"TI"), "0 0 7 0 0 0 0"),
            ],
        );
    }
}
