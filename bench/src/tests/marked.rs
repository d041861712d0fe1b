//! The marked cases M1 to M10.

use super::{after, feed, lines, number, r, semaphore, task};
use crate::kernel::Kernel;
use crate::limits::LAST_TICK;

const HOUR: u32 = 3_600_000;

#[test]
fn m1_script_lines() {
    let found = lines(&[
        task(5),
        task(3),
        semaphore(1),
        r(b"AC").on(0),
        r(b"RQ").list(&[0]),
        r(b"AC").on(1),
        r(b"RQ").list(&[0]),
        r(b"RL").list(&[0]),
        r(b"AC").on(1),
    ]);
    let expected = [
        "0 0 1 1 0 0 0",
        "0 0 0 0 0 0 1",
        "0 1 2 2 0 0 0",
        "0 0 0 0 0 0 0",
        "0 1 0 0 0 0 2",
        "9 1 0 0 0 0 0",
    ];
    assert_eq!(found, expected);
}

/// The instants at which task 0 comes due; the clock jumps from one to the next.
fn dues(kernel: &mut Kernel) -> Vec<u64> {
    let mut found = Vec::new();
    while let Some(schedule) = kernel.tasks[0].schedule {
        kernel.now = schedule.next - 1;
        assert_eq!(kernel.step(&r(b"TI").bytes()).sets.due, 1);
        found.push(kernel.now);
    }
    found
}

fn evening(now: u32) -> Kernel {
    let start = r(b"AC").at(22 * HOUR).every(2 * HOUR).until(2 * HOUR);
    after(&[task(1), r(b"DC").first(now), start])
}

#[test]
fn m2_three_dues_across_midnight() {
    let found = dues(&mut evening(12 * HOUR));
    assert_eq!(found, [36_000_000, 43_200_000, 50_400_000]);
}

#[test]
fn m3_the_time_has_passed_today() {
    assert_eq!(dues(&mut evening(23 * HOUR))[0], 82_800_000);
}

#[test]
fn m4_the_present_time_is_due_at_once() {
    let mut kernel = after(&[task(1), r(b"DC").first(HOUR)]);
    let start = r(b"AC").at(HOUR).every(1).until(HOUR);
    assert_eq!(feed(&mut kernel, &[start]), ["0 0 1 1 0 0 0"]);
    assert_eq!(kernel.tasks[0].schedule, None);
}

#[test]
fn m5_and_m6_kept_back_lost_and_started() {
    let found = lines(&[
        task(9),
        r(b"AC").on(0),
        r(b"AC").on(0).priority(4).all(1),
        r(b"TI"),
        r(b"TI"),
        r(b"TE").on(0),
    ]);
    let expected = [
        "0 0 1 1 0 0 0",
        "0 0 1 0 0 0 0",
        "0 0 1 0 0 1 0",
        "0 0 1 0 0 1 0",
        "0 0 0 1 1 0 0",
    ];
    assert_eq!(found, expected);
}

#[test]
fn m7_a_semaphore_has_a_top() {
    let release = r(b"RL").list(&[0]);
    let mut kernel = after(&[task(1), semaphore(65_534), r(b"AC")]);
    assert_eq!(number(&mut kernel, release), 0);
    assert_eq!(kernel.semaphores[0], 65_535);
    assert_eq!(number(&mut kernel, release), 13);
}

#[test]
fn m8_half_a_list_is_not_taken() {
    let kernel = after(&[
        task(1),
        semaphore(1),
        semaphore(0),
        r(b"AC"),
        r(b"RQ").list(&[0, 1]),
    ]);
    assert_eq!(kernel.semaphores[..2], [1, 0]);
    assert_eq!(kernel.running(), None);
}

#[test]
fn m9_durations_start_at_one() {
    let mut kernel = after(&[task(1), r(b"AC")]);
    assert_eq!(number(&mut kernel, r(b"RE").first(0)), 6);
    assert_eq!(number(&mut kernel, r(b"RE").first(1)), 0);
}

#[test]
fn m10_the_clock_has_an_end() {
    let mut kernel = after(&[task(1)]);
    kernel.now = LAST_TICK - 1;
    assert_eq!(number(&mut kernel, r(b"TI")), 0);
    assert_eq!(number(&mut kernel, r(b"TI")), 15);
    assert_eq!(kernel.now, LAST_TICK);
}
