//! Which fields each mark uses, and the order of refusals 2 to 6.

use super::{after, feed_bytes, number, r, semaphore, task};
use crate::draft::Draft;
use crate::kernel::Kernel;
use crate::limits::{DAY, LONGEST, RECORD};
use crate::record::LETTERS;

/// One task running, and two of everything else, with a call accepted.
fn stocked() -> Kernel {
    after(&[
        task(1),
        task(2),
        semaphore(1),
        semaphore(1),
        r(b"DB"),
        r(b"DB"),
        r(b"IT"),
        r(b"IT"),
        r(b"AC"),
    ])
}

fn refused(draft: Draft, expected: u8) {
    assert_eq!(number(&mut stocked(), draft), expected);
}

/// The bytes past the mark that a call may use.
fn used(mark: &[u8; 2]) -> Vec<usize> {
    match mark {
        b"DT" => vec![3],
        b"DS" | b"DC" => (12..16).collect(),
        b"RE" => vec![9, 12, 13, 14, 15],
        b"AC" => vec![2, 3, 9, 10, 11],
        b"TE" | b"SU" | b"PR" | b"TG" | b"EI" | b"XI" => vec![2],
        b"CO" => vec![2, 3, 9],
        b"RQ" | b"RL" | b"TR" | b"RS" | b"FR" | b"ET" | b"LV" => (4..9).collect(),
        _ => vec![],
    }
}

#[test]
fn every_stray_byte_is_3() {
    for mark in LETTERS {
        for place in 2..RECORD {
            if used(mark).contains(&place) {
                continue;
            }
            let mut record = Draft::new(mark).bytes();
            match mark {
                b"DT" => record[3] = 1,
                b"RE" => record[15] = 1,
                _ => {}
            }
            record[place] = 1;
            let answer = Kernel::new().step(&record);
            assert_eq!(answer.number, 3, "{mark:?} byte {place}");
        }
    }
}

#[test]
fn lengths_and_marks_are_2() {
    let mut kernel = stocked();
    for length in [0, 1, 23, 25, 48] {
        let line = feed_bytes(&mut kernel, &vec![b'T'; length]);
        assert_eq!(line.unwrap(), "2 0 0 0 0 0 0");
    }
    refused(r(b"ti"), 2);
    refused(r(b"sl"), 2);
    refused(r(b"IT"), 2);
}

#[test]
fn lists() {
    refused(r(b"RQ").list(&[]), 4);
    refused(r(b"RQ").list(&[1, 0, 1]), 4);
    refused(r(b"RQ").list(&[200, 200]), 4);
    refused(r(b"TR").list(&[0, 1]), 4);
    refused(r(b"RQ").list(&[0, 2]), 5);
    refused(r(b"RS").list(&[255]), 5);
    let mut long = r(b"TR").list(&[0, 1, 2, 3]);
    long.length = 5;
    refused(long, 3);
    let mut hidden = r(b"RQ");
    hidden.list[0] = 1;
    refused(hidden, 3);
    hidden.length = 1;
    hidden.list[3] = 1;
    refused(hidden, 3);
}

#[test]
fn start_kinds() {
    let mut plain = r(b"AC").on(1);
    plain.start_kind = 6;
    refused(plain, 3);
    refused(r(b"AC").on(1).first(1), 3);
    refused(r(b"AC").on(1).every(1), 3);
    refused(r(b"AC").on(1).until(0), 3);
    refused(r(b"AC").on(1).when(0).first(1), 3);
    refused(r(b"AC").on(1).all(1).first(1), 3);
    let mut astray = r(b"AC").on(1).at(0);
    astray.interrupt = 1;
    refused(astray, 3);
    let mut ended = r(b"AC").on(1).all(1);
    ended.end = 1;
    refused(ended, 3);
    ended.end_kind = 3;
    refused(ended, 3);
    refused(r(b"AC").on(1).when(2), 5);
    refused(r(b"AC").on(1).when_after(2, 0), 5);
}

/// A well-formed CONTINUE or RESUME of kind 0 to 4, and the bytes past the mark that it uses.
fn continuation(mark: &[u8; 2], kind: u8) -> (Draft, Vec<usize>) {
    let draft = r(mark);
    let (draft, times) = match kind {
        0 if mark == b"RE" => (draft.first(1), vec![12, 13, 14, 15]),
        0 => (draft, vec![]),
        1 => (draft.at(1), vec![12, 13, 14, 15]),
        2 => (draft.after(1), vec![12, 13, 14, 15]),
        3 => (draft.when(0), vec![10]),
        _ => (draft.when_after(0, 1), vec![10, 12, 13, 14, 15]),
    };
    let task = if mark == b"CO" { vec![2, 3] } else { vec![] };
    (draft, [task, vec![9], times].concat())
}

#[test]
fn continuations_use_what_their_kind_needs() {
    for mark in [b"CO", b"RE"] {
        for kind in 0..=4 {
            let (draft, used) = continuation(mark, kind);
            for place in 2..RECORD {
                let mut record = draft.bytes();
                record[place] |= 0x80;
                let stray = Kernel::new().step(&record).number == 3;
                let expected = place == 9 || !used.contains(&place);
                assert_eq!(stray, expected, "{mark:?} kind {kind} byte {place}");
            }
        }
    }
}

#[test]
fn continuations_have_kinds_0_to_4() {
    for mark in [b"CO", b"RE"] {
        for kind in 5..=255 {
            let mut draft = r(mark).on(0);
            draft.start_kind = kind;
            refused(draft, 3);
        }
        refused(r(mark).after(1).every(1), 3);
        refused(r(mark).after(1).during(1), 3);
        refused(r(mark).when(0).until(0), 3);
        refused(r(mark).all(1), 3);
    }
    refused(r(b"RE").on(1).after(1), 3);
    refused(r(b"RE").priority(1).after(1), 3);
}

#[test]
fn continuations_name_what_is_declared() {
    refused(r(b"CO").on(2).after(0), 5);
    refused(r(b"CO").on(2).when(0), 5);
    for mark in [b"CO", b"RE"] {
        refused(r(mark).when(1), 0);
        refused(r(mark).when(2), 5);
        refused(r(mark).when_after(2, 0), 5);
    }
}

#[test]
fn continuations_have_times_by_their_kind() {
    for mark in [b"CO", b"RE"] {
        refused(r(mark).at(0), 0);
        refused(r(mark).at(DAY - 1), 0);
        refused(r(mark).at(DAY), 6);
        for length in [1, LONGEST] {
            refused(r(mark).after(length), 0);
            refused(r(mark).when_after(0, length), 0);
        }
        for length in [0, LONGEST + 1] {
            refused(r(mark).after(length), 6);
            refused(r(mark).when_after(0, length), 6);
        }
    }
    refused(r(b"RE").first(LONGEST), 0);
    refused(r(b"RE").first(LONGEST + 1), 6);
}

#[test]
fn times() {
    refused(r(b"AC").on(1).at(DAY - 1), 0);
    refused(r(b"AC").on(1).at(DAY), 6);
    refused(r(b"AC").on(1).after(LONGEST), 0);
    refused(r(b"AC").on(1).when_after(0, 0), 6);
    refused(r(b"AC").on(1).when(0).every(LONGEST), 0);
    refused(r(b"AC").on(1).when(0).every(LONGEST + 1), 6);
    refused(r(b"AC").on(1).all(0), 6);
    refused(r(b"AC").on(1).all(1).until(DAY), 6);
    refused(r(b"AC").on(1).all(1).during(0), 6);
    refused(r(b"AC").on(1).at(0).until(0), 6);
    refused(r(b"AC").on(1).when(1).during(1), 6);
}

#[test]
fn declarations() {
    let mut kernel = Kernel::new();
    assert_eq!(number(&mut kernel, semaphore(65_536)), 3);
    assert_eq!(number(&mut kernel, r(b"DC").first(DAY)), 6);
    assert_eq!(number(&mut kernel, r(b"DC").first(DAY - 1)), 0);
    assert_eq!(number(&mut kernel, r(b"DC").first(7)), 0);
    assert_eq!(kernel.at_zero, 7);
    for (draft, room) in [
        (task(1), 32),
        (semaphore(0), 16),
        (r(b"DB"), 16),
        (r(b"IT"), 8),
    ] {
        for _ in 0..room {
            assert_eq!(feed_bytes(&mut kernel, &draft.bytes()), None);
        }
        assert_eq!(
            feed_bytes(&mut kernel, &draft.bytes()).unwrap(),
            "7 - 0 0 0 0 0"
        );
    }
}
