//! Kernel values that get refusal 1, and odd ones that don't.

use super::{after, r, semaphore, task};
use crate::answer::Answer;
use crate::kernel::{Continuation, End, Kernel, List, Origin, Priority, Schedule, State, Wait};
use crate::limits::{DAY, LAST_INSTANT, LAST_TICK, LONGEST};

fn kernel() -> Kernel {
    after(&[
        task(1),
        task(2),
        semaphore(0),
        semaphore(1),
        r(b"DB"),
        r(b"IT"),
        r(b"AC").on(0),
        r(b"AC").on(0).when_after(0, 5).every(3).during(9),
        r(b"CO").on(0).when_after(0, 5),
    ])
}

/// The number after a change; what is on file is right in any case.
fn number_after(change: impl Fn(&mut Kernel)) -> u8 {
    let mut kernel = kernel();
    change(&mut kernel);
    kernel.on_file = kernel.running();
    kernel.to_come = kernel.look_ahead();
    let before = kernel.clone();
    let answer = kernel.step(b"not a record");
    if answer.number == 1 {
        assert_eq!(answer, Answer::refusal(1, None));
    }
    assert_eq!(kernel, before);
    answer.number
}

fn waiting(numbers: &[u8], length: u8) -> u8 {
    let mut list = List::default();
    list.places[..numbers.len()].copy_from_slice(numbers);
    list.length = length;
    number_after(|k| k.tasks[0].wait = Wait::Request(list))
}

#[test]
fn the_kernel_itself_is_sound() {
    assert_eq!(number_after(|_| {}), 2);
}

#[test]
fn counts_and_clocks() {
    assert_eq!(number_after(|k| k.counts.tasks = 33), 1);
    assert_eq!(number_after(|k| k.counts.semaphores = 17), 1);
    assert_eq!(number_after(|k| k.counts.bolts = 17), 1);
    assert_eq!(number_after(|k| k.counts.interrupts = 9), 1);
    assert_eq!(number_after(|k| k.now = LAST_TICK), 2);
    assert_eq!(number_after(|k| k.now = LAST_TICK + 1), 1);
    assert_eq!(number_after(|k| k.at_zero = DAY), 1);
}

/// After its activation task 0 stands behind task 1.
#[test]
fn places() {
    assert_eq!(kernel().places[..2], [1, 0]);
    let with = |places: [u8; 2]| number_after(|k| k.places[..2].copy_from_slice(&places));
    assert_eq!(with([1, 0]), 2);
    assert_eq!(with([0, 1]), 2);
    assert_eq!(with([0, 0]), 1);
    assert_eq!(with([1, 1]), 1);
    for beyond in [2, 31, 32, 33, 64, 65, 128, 255] {
        assert_eq!(with([0, beyond]), 1, "{beyond}");
        assert_eq!(with([beyond, 0]), 1, "{beyond}");
        assert_eq!(with([beyond, beyond]), 1, "{beyond}");
    }
}

#[test]
fn places_of_undeclared_tasks() {
    let third = |place: u8, count: u8| {
        number_after(|k| {
            k.places[2] = place;
            k.counts.tasks = count;
        })
    };
    for place in [0, 1, 2, 31, 32, 255] {
        assert_eq!(third(place, 2), 2, "{place}");
        assert_eq!(third(place, 3), if place == 2 { 2 } else { 1 }, "{place}");
    }
    assert_eq!(third(2, 1), 1);
    assert_eq!(third(2, 0), 2);
}

#[test]
fn places_of_all_32_tasks() {
    let mut kernel = after(&[task(1); 32]);
    assert_eq!(kernel.step(b"not a record").number, 2);
    for (a, b) in [(0, 31), (17, 4), (31, 30)] {
        let mut other = kernel.clone();
        other.places.swap(a, b);
        assert_eq!(other.step(b"not a record").number, 2);
        other.places[a] = other.places[b];
        assert_eq!(other.step(b"not a record").number, 1);
    }
    kernel.places[31] = 32;
    assert_eq!(kernel.step(b"not a record").number, 1);
}

#[test]
fn terminated_tasks() {
    let one = List {
        length: 1,
        ..List::default()
    };
    assert_eq!(number_after(|k| k.tasks[1].kept = Some(Priority::MIN)), 1);
    assert_eq!(number_after(|k| k.tasks[1].wait = Wait::Request(one)), 1);
    assert_eq!(number_after(|k| k.tasks[2].kept = Some(Priority::MIN)), 2);
}

#[test]
fn wait_lists() {
    assert_eq!(waiting(&[0], 1), 2);
    assert_eq!(waiting(&[1, 0], 2), 2);
    assert_eq!(waiting(&[], 0), 1);
    assert_eq!(waiting(&[0, 0], 2), 1);
    assert_eq!(waiting(&[0, 2], 2), 1);
    assert_eq!(waiting(&[1], 1), 1);
    assert_eq!(waiting(&[0, 1], 5), 1);
}

#[test]
fn grantable_bolts() {
    let one = List {
        length: 1,
        ..List::default()
    };
    for wait in [Wait::Reserve(one), Wait::Enter(one)] {
        assert_eq!(number_after(|k| k.tasks[0].wait = wait), 1);
        assert_eq!(
            number_after(|k| {
                k.tasks[0].wait = wait;
                k.bolts[0].writer = true;
                k.bolts[0].readers = 3;
            }),
            2
        );
    }
}

/// Task 0 waits to enter bolt 0, which is free; task 1 to reserve it together
/// with bolt 1, which isn't.
fn reader_and_writer(k: &mut Kernel) {
    let list = |length| List {
        length,
        places: [0, 1, 0, 0],
    };
    k.counts.bolts = 2;
    k.bolts[1].readers = 1;
    k.tasks[0].wait = Wait::Enter(list(1));
    k.tasks[1].state = State::Unheld;
    k.tasks[1].wait = Wait::Reserve(list(2));
}

#[test]
fn waiting_readers_and_writers() {
    let with = |change: fn(&mut Kernel)| {
        number_after(|k| {
            reader_and_writer(k);
            change(k);
        })
    };
    assert_eq!(with(|_| {}), 1);
    assert_eq!(with(|k| k.tasks[1].current = Priority::MIN), 2);
    assert_eq!(with(|k| k.tasks[0].current = Priority::MAX), 2);
    assert_eq!(with(|k| k.bolts[0].writer = true), 2);
    let held = |k: &mut Kernel| {
        k.tasks[1].current = Priority::MIN;
        k.tasks[1].state = State::Suspended;
    };
    assert_eq!(with(held), 2);
    let elsewhere = |k: &mut Kernel| {
        k.tasks[1].current = Priority::MIN;
        k.tasks[1].wait = Wait::Reserve(List {
            length: 1,
            places: [1, 0, 0, 0],
        });
    };
    assert_eq!(with(elsewhere), 1);
    let undeclared = |k: &mut Kernel| {
        k.tasks[1].current = Priority::MIN;
        k.counts.tasks = 1;
        k.places[0] = 0;
    };
    assert_eq!(with(undeclared), 1);
}

#[test]
fn instants() {
    let delayed = |instant| number_after(|k| k.tasks[0].state = State::DelayedUntil(instant));
    assert_eq!(delayed(LAST_INSTANT), 2);
    assert_eq!(delayed(LAST_INSTANT + 1), 1);
    assert_eq!(delayed(0), 2);
}

#[test]
fn schedules() {
    let with =
        |change: fn(&mut Schedule)| number_after(|k| change(k.tasks[0].schedule.as_mut().unwrap()));
    assert_eq!(with(|s| s.period = LONGEST + 1), 1);
    assert_eq!(with(|s| s.origin = Origin::Interrupt(1)), 1);
    assert_eq!(with(|s| s.origin = Origin::InterruptAfter(0, 0)), 1);
    assert_eq!(with(|s| s.origin = Origin::InterruptAfter(1, 1)), 1);
    assert_eq!(with(|s| s.end = End::Until(DAY)), 1);
    assert_eq!(with(|s| s.end = End::During(0)), 1);
    assert_eq!(with(|s| s.next = LAST_INSTANT + 1), 1);
    assert_eq!(with(|s| s.last = LAST_INSTANT + 1), 1);
    assert_eq!(with(|s| s.next = LAST_INSTANT), 2);
}

#[test]
fn continuations() {
    let with = |change: fn(&mut Continuation)| {
        number_after(|k| change(k.tasks[0].continuation.as_mut().unwrap()))
    };
    assert_eq!(with(|c| c.priority = None), 2);
    assert_eq!(with(|c| c.priority = Some(Priority::MAX)), 2);
    assert_eq!(with(|c| c.by_resume = true), 2);
    assert_eq!(with(|c| c.origin = Origin::Interrupt(0)), 2);
    assert_eq!(with(|c| c.origin = Origin::Interrupt(1)), 1);
    assert_eq!(with(|c| c.origin = Origin::InterruptAfter(0, 0)), 1);
    assert_eq!(
        with(|c| c.origin = Origin::InterruptAfter(0, LONGEST + 1)),
        1
    );
    assert_eq!(with(|c| c.origin = Origin::InterruptAfter(1, 1)), 1);
    assert_eq!(with(|c| c.next = LAST_INSTANT), 2);
    assert_eq!(with(|c| c.next = LAST_INSTANT + 1), 1);
}

#[test]
fn continuations_of_terminated_and_undeclared_tasks() {
    let pending = |k: &mut Kernel, i: usize, interrupt: u8| {
        k.tasks[i].continuation = k.tasks[0].continuation;
        let continuation = k.tasks[i].continuation.as_mut().unwrap();
        continuation.origin = Origin::Interrupt(interrupt);
    };
    assert_eq!(number_after(|k| pending(k, 1, 0)), 2);
    assert_eq!(number_after(|k| pending(k, 1, 1)), 1);
    assert_eq!(number_after(|k| pending(k, 2, 1)), 2);
}
