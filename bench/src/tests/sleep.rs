//! SL: what it does at the instant to come, that it is so many ticks, and when it
//! is refused.

use super::{after, feed, feed_bytes, number, r, steps, task};
use crate::answer::{Answer, Sets};
use crate::calendar::Instant;
use crate::draft::Draft;
use crate::generate::{script, KINDS};
use crate::kernel::{Kernel, State};
use crate::limits::{LAST_INSTANT, LAST_TICK, LONGEST, RECORD};
use crate::record::{Mark, Record};

const HOUR: u32 = 3_600_000;

/// Each of these calls, with its line and the instant after it.
#[track_caller]
fn moves<const N: usize>(kernel: &mut Kernel, steps: [(Draft, &str, Instant); N]) {
    for (i, (draft, line, now)) in steps.into_iter().enumerate() {
        assert_eq!(feed(kernel, &[draft]), [line], "step {i}");
        assert_eq!(kernel.now, now, "step {i}");
    }
}

/// One sleep gives what this many ticks give one by one, of which all but the last
/// have empty sets and leave the same task running.
#[track_caller]
fn sleeps_as_ticks(kernel: &Kernel, ticks: Instant) {
    let mut slept = kernel.clone();
    let answer = slept.step(&r(b"SL").bytes());
    let mut ticked = kernel.clone();
    for _ in 1..ticks {
        assert_eq!(ticked.step(&r(b"TI").bytes()), quiet(kernel));
    }
    assert_eq!(ticked.step(&r(b"TI").bytes()), answer);
    assert_eq!(ticked, slept);
    assert_eq!(slept.now, kernel.now + ticks);
}

fn quiet(kernel: &Kernel) -> Answer {
    Answer {
        number: 0,
        running: kernel.running(),
        sets: Sets::default(),
    }
}

#[test]
fn from_due_to_due_across_midnight() {
    let start = r(b"AC").at(22 * HOUR).every(2 * HOUR).until(2 * HOUR);
    let mut kernel = after(&[task(1), r(b"DC").first(12 * HOUR), start]);
    moves(
        &mut kernel,
        [
            (r(b"SL"), "0 0 1 1 0 0 0", 36_000_000),
            (r(b"SL"), "0 0 1 0 0 0 0", 43_200_000),
            (r(b"SL"), "0 0 1 0 0 1 0", 50_400_000),
            (r(b"SL"), "17 0 0 0 0 0 0", 50_400_000),
        ],
    );
}

/// A start at 3, the end of a delay at 5, a continuation at 9.
#[test]
fn a_row_of_sleeps_between_ticks() {
    let mut kernel = after(&[
        task(5),
        task(6),
        task(4),
        r(b"AC").on(0),
        r(b"RE").first(5),
        r(b"AC").on(1).after(3),
        r(b"AC").on(2),
        r(b"RE").after(9),
    ]);
    moves(
        &mut kernel,
        [
            (r(b"SL"), "0 1 2 2 0 0 0", 3),
            (r(b"SL"), "0 0 0 0 0 0 0", 5),
            (r(b"TI"), "0 0 0 0 0 0 0", 6),
            (r(b"SL"), "0 2 0 0 0 0 0", 9),
            (r(b"TI"), "0 2 0 0 0 0 0", 10),
            (r(b"SL"), "17 2 0 0 0 0 0", 10),
        ],
    );
}

#[test]
fn the_next_instant_may_be_the_very_next() {
    let mut kernel = after(&[task(5), r(b"AC").all(1)]);
    moves(
        &mut kernel,
        [
            (r(b"SL"), "0 0 1 0 0 0 0", 1),
            (r(b"TI"), "0 0 1 0 0 1 0", 2),
            (r(b"SL"), "0 0 1 0 0 1 0", 3),
        ],
    );
}

/// At 5 the delay of task 0 ends and tasks 1 and 2 start; at 6 task 3 goes on.
#[test]
fn all_that_is_due_at_one_instant_is_done() {
    let kernel = after(&[
        task(5),
        task(6),
        task(4),
        task(3),
        r(b"AC").on(0),
        r(b"RE").first(5),
        r(b"AC").on(1).after(5),
        r(b"AC").on(2).after(5).every(5),
        r(b"AC").on(3),
        r(b"RE").after(6),
    ]);
    sleeps_as_ticks(&kernel, 5);
    let mut kernel = kernel;
    moves(
        &mut kernel,
        [
            (r(b"SL"), "0 2 6 6 0 0 0", 5),
            (r(b"SL"), "0 3 0 0 0 0 0", 6),
            (r(b"SL"), "0 3 4 0 0 0 0", 10),
        ],
    );
    assert_eq!(kernel.tasks[0].state, State::Unheld);
}

#[test]
fn a_terminated_tasks_schedule_is_slept_to() {
    let mut kernel = after(&[task(5), r(b"AC"), r(b"AC").after(4), r(b"EN")]);
    sleeps_as_ticks(&kernel, 4);
    moves(&mut kernel, [(r(b"SL"), "0 0 1 1 0 0 0", 4)]);
}

/// It comes due in vain for a terminated task, and for an unheld one.
#[test]
fn a_continuation_is_slept_to_even_in_vain() {
    let mut kernel = after(&[task(5), r(b"CO").after(4)]);
    sleeps_as_ticks(&kernel, 4);
    moves(
        &mut kernel,
        [
            (r(b"SL"), "0 - 0 0 0 0 0", 4),
            (r(b"AC"), "0 0 1 1 0 0 0", 4),
            (r(b"CO").after(3).priority(9), "0 0 0 0 0 0 0", 4),
            (r(b"SL"), "0 0 0 0 0 0 0", 7),
        ],
    );
    assert_eq!(kernel.tasks[0].current.get(), 5);
}

#[test]
fn a_continuation_gives_its_priority() {
    let mut kernel = after(&[task(5), r(b"AC"), r(b"SU"), r(b"CO").after(4).priority(9)]);
    sleeps_as_ticks(&kernel, 4);
    moves(&mut kernel, [(r(b"SL"), "0 0 0 0 0 0 0", 4)]);
    assert_eq!(kernel.tasks[0].current.get(), 9);
}

/// The delay ends first, so the priority of the continuation isn't taken.
#[test]
fn a_delay_ends_before_a_continuation_of_the_same_instant() {
    let delayed = [task(5), r(b"AC"), r(b"RE").first(4)];
    let mut kernel = after(&delayed);
    steps(
        &mut kernel,
        [(r(b"CO").after(4).priority(9), "0 - 0 0 0 0 0")],
    );
    sleeps_as_ticks(&kernel, 4);
    moves(&mut kernel, [(r(b"SL"), "0 0 0 0 0 0 0", 4)]);
    assert_eq!(kernel.tasks[0].current.get(), 5);
    assert_eq!(kernel.to_come, None);
}

#[test]
fn an_armed_when_is_not_slept_to() {
    let mut kernel = after(&[task(5), r(b"IT"), r(b"EI"), r(b"AC").when_after(0, 3)]);
    moves(
        &mut kernel,
        [
            (r(b"SL"), "17 - 0 0 0 0 0", 0),
            (r(b"TG"), "0 - 0 0 0 0 0", 0),
            (r(b"SL"), "0 0 1 1 0 0 0", 3),
            (r(b"SL"), "17 0 0 0 0 0 0", 3),
        ],
    );
}

/// What pends at the present instant stays as it is; the next one is taken.
#[test]
fn what_pends_at_now_is_not_taken() {
    let mut kernel = after(&[
        task(5),
        task(6),
        r(b"AC").on(0).after(2),
        r(b"AC").on(1).after(6),
    ]);
    kernel.now = 2;
    kernel.to_come = Some(6);
    sleeps_as_ticks(&kernel, 4);
    moves(
        &mut kernel,
        [
            (r(b"SL"), "0 1 2 2 0 0 0", 6),
            (r(b"SL"), "17 1 0 0 0 0 0", 6),
        ],
    );
    assert_eq!(kernel.tasks[0].schedule.unwrap().next, 2);
}

/// A writer of priority 5 waits for the bolt that task 0 has entered, a reader of 5
/// behind it. The writer goes on less urgent, and lets the reader in.
#[test]
fn lists_that_open_are_served() {
    let mut kernel = after(&[
        task(9),
        task(5),
        task(5),
        r(b"DB"),
        r(b"AC").on(0),
        r(b"ET").list(&[0]),
        r(b"AC").on(1),
        r(b"RS").list(&[0]),
        r(b"AC").on(2),
        r(b"ET").list(&[0]),
        r(b"SU").on(1),
        r(b"CO").on(1).after(30).priority(6),
    ]);
    sleeps_as_ticks(&kernel, 30);
    moves(&mut kernel, [(r(b"SL"), "0 2 0 0 0 0 4", 30)]);
}

/// Tasks 1 and 2 become runnable at once, and go by their numbers behind task 0.
#[test]
fn equally_urgent_tasks_take_turns() {
    let mut kernel = after(&[
        task(5),
        task(5),
        task(5),
        r(b"AC").on(2).after(8),
        r(b"AC").on(1).after(8),
        r(b"AC").on(0),
    ]);
    sleeps_as_ticks(&kernel, 8);
    moves(
        &mut kernel,
        [
            (r(b"SL"), "0 0 6 6 0 0 0", 8),
            (r(b"EN"), "0 1 0 0 1 0 0", 8),
            (r(b"EN"), "0 2 0 0 2 0 0", 8),
        ],
    );
}

/// Nothing is to come before the first call, unless a kernel is handed in so.
#[test]
fn it_is_a_call() {
    let mut kernel = after(&[task(5), r(b"AC").after(3)]);
    kernel.called = false;
    moves(
        &mut kernel,
        [
            (r(b"SL"), "0 0 1 1 0 0 0", 3),
            (r(b"DB"), "2 0 0 0 0 0 0", 3),
        ],
    );
}

#[test]
fn with_nothing_to_come_it_is_17() {
    let mut fresh = Kernel::new();
    steps(&mut fresh, [(r(b"SL"), "17 - 0 0 0 0 0")]);
    assert_eq!(fresh, Kernel::new());
    let mut kernel = after(&[task(5), r(b"AC")]);
    let before = kernel.clone();
    steps(&mut kernel, [(r(b"SL"), "17 0 0 0 0 0 0")]);
    assert_eq!(kernel, before);
}

#[test]
fn a_refused_one_lets_declarations_go_on() {
    let mut kernel = after(&[task(5)]);
    assert_eq!(number(&mut kernel, r(b"SL")), 17);
    assert!(!kernel.called);
    assert_eq!(number(&mut kernel, task(6)), 0);
}

/// Task 0 runs, and so many ticks are left.
fn near_the_end(left: Instant) -> Kernel {
    let mut kernel = after(&[task(5), task(6), r(b"AC").on(0)]);
    kernel.now = LAST_TICK - left;
    kernel
}

#[test]
fn the_last_tick_is_reached_and_not_passed() {
    for left in [1, 2, 5, LONGEST - 1] {
        let start = r(b"AC").on(1).after(left);
        let left = Instant::from(left);
        let mut kernel = near_the_end(left);
        steps(&mut kernel, [(start, "0 0 0 0 0 0 0")]);
        moves(&mut kernel, [(r(b"SL"), "0 0 2 2 0 0 0", LAST_TICK)]);
        let mut kernel = near_the_end(left - 1);
        steps(&mut kernel, [(start, "0 0 0 0 0 0 0")]);
        let before = kernel.clone();
        steps(&mut kernel, [(r(b"SL"), "17 0 0 0 0 0 0")]);
        assert_eq!(kernel, before);
        assert_eq!(kernel.to_come, Some(LAST_TICK + 1));
    }
}

#[test]
fn a_delay_and_a_continuation_beyond_the_clock_are_17_too() {
    for call in [
        r(b"RE").first(3),
        r(b"RE").after(3),
        r(b"CO").on(0).after(3),
        r(b"CO").on(1).after(LONGEST),
    ] {
        let mut kernel = near_the_end(2);
        assert_eq!(number(&mut kernel, call), 0);
        assert_eq!(number(&mut kernel, r(b"SL")), 17);
        assert_eq!(number(&mut kernel, r(b"TI")), 0);
        assert_eq!(number(&mut kernel, r(b"SL")), 17);
    }
}

#[test]
fn at_the_end_of_the_clock_it_is_17_and_a_tick_15() {
    let mut kernel = near_the_end(0);
    let refused = [(r(b"SL"), "17 0 0 0 0 0 0"), (r(b"TI"), "15 0 0 0 0 0 0")];
    steps(&mut kernel, refused);
    steps(&mut kernel, [(r(b"AC").on(1).after(1), "0 0 0 0 0 0 0")]);
    steps(&mut kernel, refused);
    kernel.tasks[1].schedule.as_mut().unwrap().next = LAST_INSTANT;
    kernel.to_come = Some(LAST_INSTANT);
    steps(&mut kernel, refused);
}

#[test]
fn every_byte_behind_the_mark_has_to_be_zero() {
    let sleeping = after(&[task(5), r(b"AC").after(3)]);
    let mut late = near_the_end(0);
    steps(&mut late, [(r(b"AC").on(1).after(1), "0 0 0 0 0 0 0")]);
    for kernel in [Kernel::new(), sleeping, late] {
        for place in 2..RECORD {
            for value in [1, 2, 128, 255] {
                let mut record = r(b"SL").bytes();
                record[place] = value;
                let mut copy = kernel.clone();
                let line = feed_bytes(&mut copy, &record).unwrap();
                assert!(line.starts_with("3 "), "byte {place}");
                assert_eq!(copy, kernel);
            }
        }
    }
}

#[test]
fn its_mark_is_two_capital_letters() {
    assert_eq!(r(b"SL").bytes()[..2], [0x53, 0x4c]);
    let mut kernel = after(&[task(5), r(b"AC").after(3)]);
    for mark in [b"sl", b"Sl", b"sL", b"LS", b"SL"] {
        let number = number(&mut kernel, r(mark));
        assert_eq!(number, if mark == b"SL" { 0 } else { 2 });
    }
    let record = &r(b"SL").bytes()[..23];
    assert_eq!(kernel.step(record).number, 2);
}

/// 1,099 periods and a rest are 2^40 ticks.
#[test]
fn long_sleeps_lead_to_the_end_of_the_clock() {
    let mut kernel = after(&[task(5), r(b"AC").all(LONGEST)]);
    for _ in 0..1099 {
        assert_eq!(number(&mut kernel, r(b"SL")), 0);
    }
    moves(
        &mut kernel,
        [
            (r(b"SL"), "17 0 0 0 0 0 0", 1_099_000_000_000),
            (
                r(b"AC").after(511_627_775),
                "0 0 0 0 0 0 0",
                1_099_000_000_000,
            ),
            (r(b"SL"), "0 0 1 0 0 1 0", LAST_TICK - 1),
            (r(b"AC").after(1), "0 0 0 0 0 0 0", LAST_TICK - 1),
            (r(b"SL"), "0 0 1 0 0 1 0", LAST_TICK),
            (r(b"SL"), "17 0 0 0 0 0 0", LAST_TICK),
            (r(b"TI"), "15 0 0 0 0 0 0", LAST_TICK),
        ],
    );
}

/// A sleep of at most this many ticks is followed tick by tick, of a longer one
/// the last so many.
const FOLLOWED: Instant = 300;

/// Whether a delay ends or something comes due at this instant.
fn something_is_due(kernel: &Kernel, instant: Instant) -> bool {
    kernel.declared_tasks().iter().any(|t| {
        t.state == State::DelayedUntil(instant)
            || t.schedule.is_some_and(|s| s.next == instant)
            || t.continuation.is_some_and(|c| c.next == instant)
    })
}

/// Every kernel from which a random script sleeps, and the ticks in place of that.
/// The ticks that aren't followed one by one change nothing but the instant.
#[test]
fn every_sleep_of_the_random_scripts_is_so_many_ticks() {
    let mut followed = 0;
    for seed in 0..100 {
        for kind in KINDS {
            let mut kernel = Kernel::new();
            for bytes in script(kind, seed, 200).chunks(RECORD) {
                let mut before = kernel.clone();
                let answer = kernel.step(bytes);
                let sleeps = Record::read(bytes).is_some_and(|r| r.mark == Mark::Sleep);
                if !sleeps || answer.number != 0 {
                    continue;
                }
                let ticks = kernel.now - before.now;
                followed += u64::from(ticks <= FOLLOWED);
                if ticks > FOLLOWED {
                    before.now = kernel.now - 3;
                }
                let ticks = kernel.now - before.now;
                for instant in before.now + 1..kernel.now {
                    assert!(!something_is_due(&before, instant), "{kind:?} {seed}");
                }
                assert!(something_is_due(&before, kernel.now), "{kind:?} {seed}");
                sleeps_as_ticks(&before, ticks);
            }
        }
    }
    assert!(followed > 1000, "{followed}");
}

/// A tick in which nothing comes due changes the instant alone.
#[test]
fn a_quiet_tick_changes_nothing_but_the_instant() {
    for seed in 0..100 {
        for kind in KINDS {
            let mut kernel = Kernel::new();
            for bytes in script(kind, seed, 200).chunks(RECORD) {
                let mut before = kernel.clone();
                let answer = kernel.step(bytes);
                let ticks = Record::read(bytes).is_some_and(|r| r.mark == Mark::Tick);
                if ticks && answer.number == 0 && !something_is_due(&before, kernel.now) {
                    assert_eq!(answer, quiet(&before), "{kind:?} {seed}");
                    before.now += 1;
                    before.called = true;
                    assert_eq!(before, kernel, "{kind:?} {seed}");
                }
            }
        }
    }
}
