//! How long a waiting task waits: bounds, and what comes of them.

use super::{after, feed, r, semaphore, task};
use crate::draft::Draft;
use crate::generate::{script, Kind, KINDS};
use crate::heavy;
use crate::kernel::Kernel;
use crate::limits::RECORD;
use crate::waits;
use crate::watch::{Outcomes, Tally, Watcher};

/// What happened, as places in `Tally::missed`.
const ENDED: usize = 1;
const CHANGED: usize = 2;
const OVERTAKEN: usize = 4;

fn request(semaphores: &[u8]) -> Draft {
    r(b"RQ").list(semaphores)
}

fn release(semaphores: &[u8]) -> Draft {
    r(b"RL").list(semaphores)
}

/// The lines of `rackwait` for this kernel.
fn bounds(kernel: &Kernel) -> Vec<String> {
    let text = String::from_utf8(waits::lines(kernel.waiting_for_one())).unwrap();
    text.lines().map(str::to_string).collect()
}

/// Carries a call out that is accepted, and hands back the bounds then.
fn bounds_after(kernel: &mut Kernel, draft: Draft) -> Vec<String> {
    assert_eq!(kernel.step(&draft.bytes()).number, 0);
    bounds(kernel)
}

/// What comes of all waits and of all looks, and the bounds that don't hold.
fn watched(script: &[u8]) -> (Outcomes, Vec<String>) {
    let mut kernel = Kernel::new();
    let mut watcher = Watcher::default();
    let mut outcomes = Outcomes::default();
    for record in script.chunks(RECORD) {
        let before = kernel.clone();
        let answer = kernel.step(record);
        watcher.note(&before, record, &answer, &kernel, &mut outcomes);
    }
    watcher.finish(&mut outcomes);
    (outcomes, watcher.broken)
}

/// What comes of all waits of these drafts.
fn waits_of(drafts: &[Draft]) -> Tally {
    let script: Vec<u8> = drafts.iter().flat_map(Draft::bytes).collect();
    let (outcomes, broken) = watched(&script);
    assert!(broken.is_empty());
    outcomes.waits
}

/// Task 0 with 5 waits for semaphore 0. Task 1 with 5, 2 with 3 and 3 with 7 are
/// terminated, task 4 with 9 runs. Semaphore 0 is at 0, semaphore 1 at 1. There
/// are a bolt, which task 4 has reserved, and an enabled interrupt.
fn one_waits() -> Vec<Draft> {
    vec![
        task(5),
        task(5),
        task(3),
        task(7),
        task(9),
        semaphore(0),
        semaphore(1),
        r(b"DB"),
        r(b"IT"),
        r(b"EI"),
        r(b"AC").on(4),
        r(b"RS").list(&[0]),
        r(b"AC").on(0),
        request(&[0]),
    ]
}

/// `one_waits`, and then these.
fn and_then(drafts: &[Draft]) -> Vec<Draft> {
    let mut all = one_waits();
    all.extend_from_slice(drafts);
    all
}

#[test]
fn a_fresh_kernel_and_one_without_waits_have_no_lines() {
    assert_eq!(bounds(&Kernel::new()), [""; 0]);
    let kernel = after(&[task(5), semaphore(1), r(b"AC"), request(&[0])]);
    assert_eq!(bounds(&kernel), [""; 0]);
}

#[test]
fn bounds_go_by_priority_and_then_by_who_asked_first() {
    let mut kernel = after(&and_then(&[
        r(b"AC").on(1),
        request(&[0]),
        r(b"AC").on(3),
        request(&[0]),
        r(b"AC").on(2),
        request(&[0]),
    ]));
    assert_eq!(bounds(&kernel), ["0 0 2", "1 0 3", "2 0 1", "3 0 4"]);
    let left = bounds_after(&mut kernel, release(&[0]));
    assert_eq!(left, ["0 0 1", "1 0 2", "3 0 3"]);
    let left = bounds_after(&mut kernel, release(&[0]));
    assert_eq!(left, ["1 0 1", "3 0 2"]);
    assert_eq!(bounds_after(&mut kernel, release(&[0])), ["3 0 1"]);
    assert_eq!(bounds_after(&mut kernel, release(&[0])), [""; 0]);
}

/// Task 2 waits for both semaphores and has no bound, but stands ahead; task 3
/// waits for semaphore 1 alone once it is taken.
#[test]
fn who_waits_for_several_stands_ahead_for_each_and_has_no_bound() {
    let mut kernel = after(&and_then(&[
        r(b"TR").list(&[1]),
        r(b"AC").on(2),
        request(&[1, 0]),
        r(b"AC").on(3),
        request(&[1]),
    ]));
    assert_eq!(bounds(&kernel), ["0 0 2", "3 1 2"]);
    let line = feed(&mut kernel, &[release(&[0, 1])]);
    assert_eq!(line, ["0 2 0 0 0 0 4"]);
    assert_eq!(bounds(&kernel), ["0 0 1", "3 1 1"]);
}

/// Bolt 0 has nothing to do with semaphore 0.
#[test]
fn waits_for_bolts_have_no_bound_and_stand_ahead_of_nobody() {
    let kernel = after(&and_then(&[
        r(b"AC").on(2),
        r(b"RS").list(&[0]),
        r(b"AC").on(1),
        r(b"ET").list(&[0]),
    ]));
    assert_eq!(bounds(&kernel), ["0 0 1"]);
}

#[test]
fn a_held_waiter_keeps_its_bound_and_stands_ahead() {
    let mut kernel = after(&and_then(&[r(b"AC").on(1), request(&[0])]));
    assert_eq!(
        bounds_after(&mut kernel, r(b"SU").on(0)),
        ["0 0 1", "1 0 2"]
    );
    assert_eq!(
        bounds_after(&mut kernel, r(b"CO").on(0)),
        ["0 0 1", "1 0 2"]
    );
}

#[test]
fn another_priority_or_an_end_gives_other_bounds() {
    let mut kernel = after(&and_then(&[r(b"AC").on(3), request(&[0]), r(b"SU").on(3)]));
    assert_eq!(bounds(&kernel), ["0 0 1", "3 0 2"]);
    let continued = bounds_after(&mut kernel, r(b"CO").on(3).priority(4));
    assert_eq!(continued, ["0 0 2", "3 0 1"]);
    assert_eq!(bounds_after(&mut kernel, r(b"TE").on(3)), ["0 0 1"]);
    assert_eq!(bounds_after(&mut kernel, r(b"TE").on(0)), [""; 0]);
}

#[test]
fn all_32_may_wait() {
    let mut drafts = vec![task(9); 32];
    drafts.push(semaphore(0));
    for i in (0..32).rev() {
        drafts.push(r(b"AC").on(i));
        drafts.push(request(&[0]));
    }
    let expected: Vec<String> = (0..32).map(|i| format!("{i} 0 {}", 32 - i)).collect();
    assert_eq!(bounds(&after(&drafts)), expected);
}

/// Task i has the priority 1 + 7 i modulo 40: no two are equal, and before task 1
/// go 0, 6, 12, 18, 23 and 29.
#[test]
fn the_long_script_ends_with_31_waits() {
    let mut out = Vec::new();
    waits::run(&heavy::queues(300)[..], &mut out).unwrap();
    let text = String::from_utf8(out).unwrap();
    assert!(text.starts_with("0 0 1\n1 0 7\n"), "{text}");
    let bound = |line: &str| line.rsplit(' ').next().unwrap().parse::<usize>();
    let mut bounds: Vec<usize> = text.lines().map(|l| bound(l).unwrap()).collect();
    bounds.sort();
    assert_eq!(bounds, (1..=31).collect::<Vec<usize>>());
}

#[test]
fn the_command_writes_the_lines_of_the_whole_script() {
    let mut bytes: Vec<u8> = one_waits().iter().flat_map(Draft::bytes).collect();
    bytes.extend_from_slice(b"TI");
    let mut out = Vec::new();
    waits::run(&bytes[..], &mut out).unwrap();
    assert_eq!(out, b"0 0 1\n");
}

#[test]
fn a_bound_is_reached_or_not_used_up() {
    let one = Tally {
        ahead: [1, 0, 0, 0],
        in_last: 1,
        ..Tally::default()
    };
    assert_eq!(waits_of(&and_then(&[release(&[0])])), one);
    // Task 1 waits behind 0. Once 0 has ended it has the first of two.
    let two = Tally {
        ahead: [1, 1, 0, 0],
        sooner: 1,
        missed: [0, 1, 0, 0, 0, 0, 0, 0],
        ..Tally::default()
    };
    let drafts = [r(b"AC").on(1), request(&[0]), r(b"TE").on(0), release(&[0])];
    assert_eq!(waits_of(&and_then(&drafts)), two);
}

#[test]
fn a_wait_may_outlast_the_script() {
    let tally = waits_of(&and_then(&[release(&[1]), r(b"TI")]));
    assert_eq!((tally.open, tally.in_last), (1, 0));
}

/// Task 0 is terminated, starts again and waits again, now behind task 1, which
/// has the RELEASE.
#[test]
fn an_ended_task_misses_its_bound() {
    let tally = waits_of(&and_then(&[
        r(b"AC").on(1),
        request(&[0]),
        r(b"TE").on(0),
        r(b"AC").on(0),
        request(&[0]),
        release(&[0]),
    ]));
    assert_eq!(tally.missed[ENDED], 1);
    assert_eq!((tally.sooner, tally.in_last, tally.open), (1, 0, 1));
}

/// What task 0 is granted after its end belongs to another wait.
#[test]
fn a_grant_after_the_end_is_none_of_the_first_wait() {
    let tally = waits_of(&and_then(&[
        r(b"TE").on(0),
        r(b"AC").on(0),
        request(&[0]),
        release(&[0]),
    ]));
    assert_eq!((tally.missed[ENDED], tally.in_last), (1, 1));
}

#[test]
fn a_continue_with_another_priority_may_make_one_miss_its_bound() {
    let behind = [r(b"AC").on(3), request(&[0]), r(b"SU").on(3)];
    let at_once = [r(b"CO").on(3).priority(4), release(&[0])];
    let at_a_tick = [r(b"CO").on(3).priority(4).after(1), r(b"TI"), release(&[0])];
    let by_trigger = [r(b"CO").on(3).priority(4).when(0), r(b"TG"), release(&[0])];
    for way in [&at_once[..], &at_a_tick, &by_trigger] {
        let tally = waits_of(&and_then(&[&behind[..], way].concat()));
        assert_eq!(tally.missed[CHANGED], 1);
        assert_eq!(tally.all_the_same, 1);
    }
}

/// The same priority again is no change, and neither is the one that an ended
/// task starts with.
#[test]
fn only_another_priority_of_a_task_that_lives_on_counts() {
    let tally = waits_of(&and_then(&[
        r(b"SU").on(0),
        r(b"CO").on(0).priority(5),
        r(b"AC").on(3).priority(6),
        r(b"AC").on(3).priority(8).after(1),
        r(b"TI"),
        r(b"TE").on(3),
        release(&[0]),
    ]));
    assert_eq!(tally.in_last, 1);
}

#[test]
fn a_more_urgent_request_may_make_one_miss_its_bound() {
    for list in [&[0][..], &[1, 0]] {
        let tally = waits_of(&and_then(&[r(b"AC").on(2), request(list), release(&[0])]));
        assert_eq!(tally.missed[OVERTAKEN], 1);
    }
}

/// Of as urgent and less urgent tasks, for another semaphore, and refused.
#[test]
fn no_other_request_counts_and_no_try() {
    let tally = waits_of(&and_then(&[
        r(b"AC").on(1),
        request(&[0]),
        r(b"AC").on(3),
        request(&[0]),
        r(b"AC").on(2),
        request(&[1]),
        request(&[0, 0]),
        request(&[0, 7]),
        r(b"TR").list(&[0]),
        release(&[0]),
    ]));
    assert_eq!(tally.ahead, [1, 1, 1, 0]);
    assert_eq!((tally.in_last, tally.open), (1, 2));
}

#[test]
fn no_other_release_counts() {
    let tally = waits_of(&and_then(&[
        release(&[1]),
        release(&[0, 0]),
        release(&[0, 7]),
        release(&[1, 0]),
    ]));
    assert_eq!(tally.in_last, 1);
}

/// After the REQUEST itself and after the three calls that are accepted.
#[test]
fn waits_are_looked_at_after_every_accepted_call() {
    let drafts = and_then(&[r(b"TI"), r(b"EN").on(9), r(b"TI"), r(b"XI"), release(&[0])]);
    let script: Vec<u8> = drafts.iter().flat_map(Draft::bytes).collect();
    let (outcomes, _) = watched(&script);
    assert_eq!(outcomes.waits.in_last, 1);
    assert_eq!(outcomes.looks.in_last, 4);
    assert_eq!(outcomes.looks.ahead, [4, 0, 0, 0]);
}

#[test]
fn every_bound_of_the_random_scripts_holds() {
    for seed in 0..200 {
        for kind in KINDS {
            let (_, broken) = watched(&script(kind, seed, 200));
            assert!(broken.is_empty(), "{kind:?} {seed}: {broken:?}");
        }
    }
}

#[test]
fn random_queues_reach_every_outcome() {
    let mut all = Tally::default();
    for seed in 0..200 {
        let tally = watched(&script(Kind::Queues, seed, 200)).0.waits;
        all.in_last += tally.in_last;
        all.sooner += tally.sooner;
        for (sum, count) in all.missed.iter_mut().zip(tally.missed) {
            *sum += count;
        }
        for (sum, count) in all.ahead.iter_mut().zip(tally.ahead) {
            *sum += count;
        }
    }
    assert!(all.in_last > 100 && all.sooner > 5, "{all:?}");
    assert!(all.ahead.iter().all(|&count| count > 100), "{all:?}");
    for happened in [ENDED, CHANGED, OVERTAKEN] {
        assert!(all.missed[happened] > 3, "{all:?}");
    }
}
