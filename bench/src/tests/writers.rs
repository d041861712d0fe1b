//! Waiting writers that go before readers, one test for each point.

use super::{after, feed, lines, r, steps, task};
use crate::kernel::{Kernel, State, Wait};

/// Task 0 runs and nobody is granted anything.
const QUIET: &str = "0 0 0 0 0 0 0";
/// Task 2 is granted its ENTER and runs.
const LET_IN: &str = "0 2 0 0 0 0 4";

/// Task 0 of priority 9 has entered bolt 0, task 1 waits to reserve these
/// bolts, task 2 runs. Interrupt 0 is enabled.
fn writer_waits(writer: u8, wanted: &[u8], reader: u8) -> Kernel {
    after(&[
        task(9),
        task(writer),
        task(reader),
        r(b"DB"),
        r(b"DB"),
        r(b"IT"),
        r(b"EI"),
        r(b"AC").on(0),
        r(b"ET").list(&[0]),
        r(b"AC").on(1),
        r(b"RS").list(wanted),
        r(b"AC").on(2),
    ])
}

/// The same, then task 2 asks to enter bolt 0 behind the writer, both of
/// priority 5; task 0 runs.
fn reader_waits_too() -> Kernel {
    let mut kernel = writer_waits(5, &[0], 5);
    assert_eq!(feed(&mut kernel, &[r(b"ET").list(&[0])]), [QUIET]);
    kernel
}

#[test]
fn a_writer_as_urgent_or_more_goes_first() {
    for reader in [5, 6] {
        let found = lines(&[
            task(9),
            task(5),
            task(reader),
            r(b"DB"),
            r(b"AC").on(0),
            r(b"ET").list(&[0]),
            r(b"AC").on(1),
            r(b"RS").list(&[0]),
            r(b"AC").on(2),
            r(b"ET").list(&[0]),
            r(b"LV").list(&[0]),
            r(b"FR").list(&[0]),
        ]);
        let expected = [
            "0 0 1 1 0 0 0",
            "0 0 0 0 0 0 1",
            "0 1 2 2 0 0 0",
            "0 0 0 0 0 0 0",
            "0 2 4 4 0 0 0",
            "0 0 0 0 0 0 0",
            "0 1 0 0 0 0 2",
            "0 1 0 0 0 0 4",
        ];
        assert_eq!(found, expected);
    }
}

#[test]
fn a_more_urgent_reader_passes() {
    for reader in [1, 4] {
        let mut kernel = writer_waits(5, &[0], reader);
        steps(
            &mut kernel,
            [
                (r(b"ET").list(&[0]), LET_IN),
                (r(b"LV").list(&[0]), "0 2 0 0 0 0 0"),
                (r(b"EN"), "0 0 0 0 4 0 0"),
                (r(b"LV").list(&[0]), "0 1 0 0 0 0 2"),
            ],
        );
    }
}

/// It would have to leave first, and can't while it waits.
#[test]
fn a_reader_that_enters_again_waits_behind_a_writer() {
    let found = lines(&[
        task(1),
        task(2),
        r(b"DB"),
        r(b"AC").on(1),
        r(b"ET").list(&[0]),
        r(b"AC").on(0),
        r(b"RS").list(&[0]),
        r(b"ET").list(&[0]),
        r(b"LV").list(&[0]),
        r(b"LV").list(&[0]),
    ]);
    let expected = [
        "0 1 2 2 0 0 0",
        "0 1 0 0 0 0 2",
        "0 0 1 1 0 0 0",
        "0 1 0 0 0 0 0",
        "0 - 0 0 0 0 0",
        "8 - 0 0 0 0 0",
        "8 - 0 0 0 0 0",
    ];
    assert_eq!(found, expected);
}

#[test]
fn a_held_writer_goes_first_too() {
    let mut kernel = writer_waits(5, &[0], 5);
    steps(
        &mut kernel,
        [
            (r(b"SU").on(1), "0 2 0 0 0 0 0"),
            (r(b"ET").list(&[0]), QUIET),
            (r(b"LV").list(&[0]), "0 0 0 0 0 0 2"),
        ],
    );
    assert_eq!(kernel.tasks[1].state, State::Suspended);
    assert!(matches!(kernel.tasks[2].wait, Wait::Enter(_)));
}

#[test]
fn holding_the_writer_lets_nobody_in() {
    let mut kernel = reader_waits_too();
    steps(
        &mut kernel,
        [(r(b"SU").on(1), QUIET), (r(b"SU").on(2), QUIET)],
    );
}

#[test]
fn a_writer_keeps_readers_from_the_free_one_of_its_bolts() {
    for wanted in [[0, 1], [1, 0]] {
        let mut kernel = writer_waits(5, &wanted, 5);
        steps(
            &mut kernel,
            [
                (r(b"ET").list(&[1]), QUIET),
                (r(b"RS").list(&[1]), "0 0 0 0 0 0 1"),
                (r(b"FR").list(&[1]), QUIET),
                (r(b"LV").list(&[0]), "0 1 0 0 0 0 2"),
                (r(b"FR").list(&[1]), "0 1 0 0 0 0 4"),
            ],
        );
    }
}

#[test]
fn a_bolt_that_no_writer_names_is_open() {
    let mut kernel = writer_waits(5, &[0], 6);
    steps(&mut kernel, [(r(b"ET").list(&[1]), LET_IN)]);
}

#[test]
fn one_bolt_with_a_writer_stops_the_whole_list() {
    for list in [[0, 1], [1, 0]] {
        let mut kernel = writer_waits(5, &[0], 5);
        steps(&mut kernel, [(r(b"ET").list(&list), QUIET)]);
        assert_eq!(kernel.bolts[0].readers, 1);
        assert_eq!(kernel.bolts[1].readers, 0);
        steps(&mut kernel, [(r(b"TE").on(1), "0 2 0 0 2 0 4")]);
        assert_eq!(kernel.bolts[0].readers, 2);
        assert_eq!(kernel.bolts[1].readers, 1);
    }
}

#[test]
fn a_waiting_reader_holds_up_no_reader() {
    let found = lines(&[
        task(9),
        task(5),
        task(6),
        r(b"DB"),
        r(b"DB"),
        r(b"AC").on(0),
        r(b"RS").list(&[0]),
        r(b"AC").on(1),
        r(b"ET").list(&[0, 1]),
        r(b"AC").on(2),
        r(b"ET").list(&[1]),
    ]);
    assert_eq!(found[3..], [QUIET, "0 2 4 4 0 0 0", LET_IN]);
}

/// Tasks of these priorities; task 0 has reserved the bolt and runs. The others
/// have started one by one and asked for it as these marks say.
fn bolt_is_reserved(others: &[(u8, &[u8; 2])]) -> Kernel {
    let mut drafts = vec![task(9)];
    drafts.extend(others.iter().map(|&(priority, _)| task(priority)));
    drafts.extend([r(b"DB"), r(b"AC").on(0), r(b"RS").list(&[0])]);
    for (i, (_, mark)) in others.iter().enumerate() {
        drafts.extend([r(b"AC").on(i as u8 + 1), r(mark).list(&[0])]);
    }
    after(&drafts)
}

#[test]
fn a_freed_bolt_goes_to_the_writer_before_an_equal_reader() {
    for (others, line) in [
        ([(5, b"ET"), (5, b"RS")], "0 2 0 0 0 0 4"),
        ([(5, b"RS"), (5, b"ET")], "0 1 0 0 0 0 2"),
    ] {
        let mut kernel = bolt_is_reserved(&others);
        steps(&mut kernel, [(r(b"FR").list(&[0]), line)]);
    }
}

#[test]
fn a_freed_bolt_goes_to_a_more_urgent_reader_alone() {
    let mut kernel = bolt_is_reserved(&[(5, b"RS"), (4, b"ET"), (5, b"ET")]);
    steps(
        &mut kernel,
        [
            (r(b"FR").list(&[0]), LET_IN),
            (r(b"LV").list(&[0]), "0 2 0 0 0 0 2"),
            (r(b"EN"), "0 1 0 0 4 0 0"),
            (r(b"FR").list(&[0]), "0 1 0 0 0 0 8"),
        ],
    );
}

#[test]
fn the_current_priorities_count() {
    let begun = [
        r(b"DB"),
        r(b"AC").on(0),
        r(b"ET").list(&[0]),
        r(b"AC").on(1).priority(5),
        r(b"RS").list(&[0]),
    ];
    for declared in [4, 6] {
        let tasks = [task(9), task(declared), task(declared)];
        let mut kernel = after(&[&tasks[..], &begun[..]].concat());
        let ask = [r(b"AC").on(2).priority(5), r(b"ET").list(&[0])];
        assert_eq!(feed(&mut kernel, &ask), ["0 2 4 4 0 0 0", QUIET]);
        let mut kernel = after(&[&tasks[..], &begun[..]].concat());
        let ask = [r(b"AC").on(2).priority(4), r(b"ET").list(&[0])];
        assert_eq!(feed(&mut kernel, &ask), ["0 2 4 4 0 0 0", LET_IN]);
    }
}

#[test]
fn continue_makes_the_writer_less_urgent() {
    for (priority, line) in [(0, QUIET), (4, QUIET), (5, QUIET), (6, LET_IN)] {
        let mut kernel = reader_waits_too();
        steps(
            &mut kernel,
            [
                (r(b"SU").on(1), QUIET),
                (r(b"CO").on(1).priority(priority), line),
            ],
        );
    }
}

#[test]
fn continue_makes_the_reader_more_urgent() {
    for (priority, line) in [(0, QUIET), (4, LET_IN), (5, QUIET), (6, QUIET)] {
        let mut kernel = reader_waits_too();
        steps(
            &mut kernel,
            [
                (r(b"SU").on(2), QUIET),
                (r(b"CO").on(2).priority(priority), line),
            ],
        );
    }
}

/// The new priority counts for who asks later.
#[test]
fn continue_makes_the_writer_more_urgent() {
    for (priority, line) in [(3, LET_IN), (2, QUIET), (1, QUIET)] {
        let mut kernel = writer_waits(5, &[0], 2);
        steps(
            &mut kernel,
            [
                (r(b"SU").on(1), "0 2 0 0 0 0 0"),
                (r(b"CO").on(1).priority(priority), "0 2 0 0 0 0 0"),
                (r(b"ET").list(&[0]), line),
            ],
        );
    }
}

#[test]
fn the_end_of_the_writer_lets_readers_in() {
    let mut kernel = reader_waits_too();
    steps(&mut kernel, [(r(b"TE").on(1), "0 2 0 0 2 0 4")]);
    let mut kernel = reader_waits_too();
    steps(
        &mut kernel,
        [
            (r(b"AC").on(1).at(0), "0 0 2 0 0 0 0"),
            (r(b"TE").on(1), "0 1 0 2 2 0 4"),
        ],
    );
}

/// Readers of priority 5, 6 and 7 wait behind a writer of priority 5.
fn three_readers_wait() -> Kernel {
    let mut kernel = after(&[
        task(9),
        task(5),
        task(5),
        task(6),
        task(7),
        r(b"DB"),
        r(b"AC").on(0),
        r(b"ET").list(&[0]),
        r(b"AC").on(1),
        r(b"RS").list(&[0]),
    ]);
    for (reader, line) in [
        (2, "0 2 4 4 0 0 0"),
        (3, "0 3 8 8 0 0 0"),
        (4, "0 4 16 16 0 0 0"),
    ] {
        steps(
            &mut kernel,
            [(r(b"AC").on(reader), line), (r(b"ET").list(&[0]), QUIET)],
        );
    }
    kernel
}

#[test]
fn all_readers_that_may_now_are_let_in_at_once() {
    let mut kernel = three_readers_wait();
    steps(&mut kernel, [(r(b"TE").on(1), "0 2 0 0 2 0 28")]);
    let mut kernel = three_readers_wait();
    steps(
        &mut kernel,
        [
            (r(b"SU").on(1), QUIET),
            (r(b"CO").on(1).priority(6), LET_IN),
            (r(b"SU").on(1), "0 2 0 0 0 0 0"),
            (r(b"CO").on(1).priority(255), "0 2 0 0 0 0 24"),
        ],
    );
}

#[test]
fn each_of_two_writers_counts() {
    let mut kernel = after(&[
        task(9),
        task(7),
        task(3),
        task(5),
        r(b"DB"),
        r(b"AC").on(0),
        r(b"ET").list(&[0]),
        r(b"AC").on(1),
        r(b"RS").list(&[0]),
        r(b"AC").on(2),
        r(b"RS").list(&[0]),
        r(b"AC").on(3),
        r(b"ET").list(&[0]),
    ]);
    let before = kernel.clone();
    steps(&mut kernel, [(r(b"TE").on(2), "0 3 0 0 4 0 8")]);
    kernel = before;
    steps(&mut kernel, [(r(b"TE").on(1), "0 0 0 0 2 0 0")]);
}

#[test]
fn a_continuation_makes_the_writer_less_urgent_at_a_tick() {
    let mut kernel = reader_waits_too();
    steps(
        &mut kernel,
        [
            (r(b"SU").on(1), QUIET),
            (r(b"CO").on(1).after(2).priority(6), QUIET),
            (r(b"TI"), QUIET),
            (r(b"TI"), LET_IN),
        ],
    );
}

#[test]
fn a_continuation_makes_the_reader_more_urgent_at_a_tick() {
    let mut kernel = reader_waits_too();
    steps(
        &mut kernel,
        [
            (r(b"SU").on(2), QUIET),
            (r(b"CO").on(2).at(1).priority(4), QUIET),
            (r(b"TI"), LET_IN),
        ],
    );
}

#[test]
fn a_continuation_lets_the_reader_in_at_a_trigger() {
    for (task, priority) in [(1, 6), (2, 4)] {
        let mut kernel = reader_waits_too();
        let hold = r(b"SU").on(task);
        let later = r(b"CO").on(task).priority(priority);
        let trigger = r(b"TG").on(0);
        let before = kernel.clone();
        steps(
            &mut kernel,
            [(hold, QUIET), (later.when(0), QUIET), (trigger, LET_IN)],
        );
        kernel = before;
        steps(
            &mut kernel,
            [
                (hold, QUIET),
                (later.when_after(0, 1), QUIET),
                (trigger, QUIET),
                (r(b"TI"), LET_IN),
            ],
        );
    }
}

#[test]
fn a_continuation_at_the_present_time_lets_the_reader_in() {
    for (task, priority) in [(1, 6), (2, 4)] {
        let mut kernel = reader_waits_too();
        let later = r(b"CO").on(task).at(0).priority(priority);
        steps(&mut kernel, [(r(b"SU").on(task), QUIET), (later, LET_IN)]);
    }
}

#[test]
fn a_continuation_for_an_unheld_writer_lets_nobody_in() {
    let mut kernel = reader_waits_too();
    steps(
        &mut kernel,
        [
            (r(b"CO").on(1).after(1).priority(6), QUIET),
            (r(b"TI"), QUIET),
            (r(b"CO").on(1).when(0).priority(6), QUIET),
            (r(b"TG").on(0), QUIET),
        ],
    );
}

/// A start that falls due in the same tick changes nothing in this.
#[test]
fn a_start_and_a_reader_let_in_at_one_tick() {
    let mut kernel = reader_waits_too();
    steps(
        &mut kernel,
        [
            (r(b"AC").on(1).after(1), QUIET),
            (r(b"SU").on(1), QUIET),
            (r(b"CO").on(1).after(1).priority(6), QUIET),
            (r(b"TI"), "0 2 2 0 0 0 4"),
        ],
    );
}

#[test]
fn a_reader_held_while_it_is_let_in_stays_held() {
    let mut kernel = reader_waits_too();
    steps(
        &mut kernel,
        [
            (r(b"SU").on(2), QUIET),
            (r(b"TE").on(1), "0 0 0 0 2 0 4"),
            (r(b"CO").on(2), "0 2 0 0 0 0 0"),
        ],
    );
}
