//! Unused bytes, one by one, and the scripts that have a bit in them.

use super::{after, feed_bytes, r, semaphore, task};
use crate::draft::Draft;
use crate::generate::{script, Kind};
use crate::kernel::Kernel;
use crate::limits::RECORD;
use crate::record::{Mark, Record};
use crate::unused::{lone_stray, unused_bytes, Stray, Strays};

/// A record of every form, and the stretches of bytes that it doesn't use, by
/// hand from the table of fields.
fn forms() -> Vec<(Draft, &'static str)> {
    let mut forms = vec![
        (task(5), "2 4-23"),
        (semaphore(7), "2-11 16-23"),
        (r(b"DB"), "2-23"),
        (r(b"IT"), "2-23"),
        (r(b"DC").first(7), "2-11 16-23"),
        (r(b"EN"), "2-23"),
        (r(b"TI"), "2-23"),
        (r(b"SL"), "2-23"),
    ];
    for mark in [b"TE", b"SU", b"PR", b"TG", b"EI", b"XI"] {
        forms.push((r(mark).on(1), "3-23"));
    }
    for (draft, endless, ended) in [
        (r(b"AC").at(7), "4-8 10 20-23", "4-8 10"),
        (r(b"AC").after(7), "4-8 10 20-23", "4-8 10"),
        (r(b"AC").when(1), "4-8 12-15 20-23", "4-8 12-15"),
        (r(b"AC").when_after(1, 7), "4-8 20-23", "4-8"),
        (r(b"AC").all(7), "4-8 10 12-15 20-23", "4-8 10 12-15"),
    ] {
        let draft = draft.on(1).priority(2).every(7);
        forms.push((draft, endless));
        forms.push((draft.until(7), ended));
        forms.push((draft.during(7), ended));
    }
    let continued = r(b"CO").on(1).priority(2);
    forms.extend([
        (r(b"AC").on(1).priority(2), "4-8 10-23"),
        (continued, "4-8 10-23"),
        (continued.at(7), "4-8 10-11 16-23"),
        (continued.after(7), "4-8 10-11 16-23"),
        (continued.when(1), "4-8 11-23"),
        (continued.when_after(1, 7), "4-8 11 16-23"),
        (r(b"RE").first(7), "2-8 10-11 16-23"),
        (r(b"RE").at(7), "2-8 10-11 16-23"),
        (r(b"RE").after(7), "2-8 10-11 16-23"),
        (r(b"RE").when(1), "2-8 11-23"),
        (r(b"RE").when_after(1, 7), "2-8 11 16-23"),
    ]);
    for mark in [b"RQ", b"RL", b"TR", b"RS", b"FR", b"ET", b"LV"] {
        forms.extend([
            (r(mark), "2-3 5-23"),
            (r(mark).list(&[1]), "2-3 6-23"),
            (r(mark).list(&[1, 3]), "2-3 7-23"),
            (r(mark).list(&[1, 3, 2]), "2-3 8-23"),
            (r(mark).list(&[1, 3, 2, 4]), "2-3 9-23"),
        ]);
    }
    forms
}

/// The places that stretches such as `2 4-23` name.
fn places(stretches: &str) -> Vec<usize> {
    let number = |word: &str| word.parse::<usize>().unwrap();
    stretches
        .split(' ')
        .flat_map(|stretch| match stretch.split_once('-') {
            Some((first, last)) => number(first)..number(last) + 1,
            None => number(stretch)..number(stretch) + 1,
        })
        .collect()
}

/// The record with one bit more.
fn with_bit(draft: &Draft, place: usize, bit: u32) -> [u8; RECORD] {
    let mut bytes = draft.bytes();
    bytes[place] |= 1 << bit;
    bytes
}

#[test]
fn each_form_leaves_its_stretches_unused() {
    for (draft, stretches) in forms() {
        let record = Record::read(&draft.bytes()).unwrap();
        assert!(record.fields_are_good());
        assert_eq!(unused_bytes(&record), Some(places(stretches)));
    }
}

#[test]
fn forms_out_of_range_have_no_unused_bytes() {
    let mut kind = r(b"AC");
    kind.start_kind = 6;
    let mut end_kind = r(b"AC").all(7);
    end_kind.end_kind = 3;
    let mut length = r(b"RQ");
    length.length = 5;
    for draft in [kind, end_kind, length, r(b"CO").all(7), r(b"RE").all(7)] {
        let record = Record::read(&draft.bytes()).unwrap();
        assert_eq!(unused_bytes(&record), None);
    }
}

#[test]
fn every_stray_bit_is_3_and_changes_nothing() {
    let running = after(&[task(1), task(2), r(b"IT"), r(b"AC")]);
    for (draft, stretches) in forms() {
        for place in places(stretches) {
            for bit in 0..8 {
                let bytes = with_bit(&draft, place, bit);
                let mut fresh = Kernel::new();
                let line = feed_bytes(&mut fresh, &bytes);
                assert_eq!(line.unwrap(), "3 - 0 0 0 0 0", "{bytes:?}");
                assert_eq!(fresh, Kernel::new());
                let mut kernel = running.clone();
                let late = draft.mark[0] == b'D' || draft.mark == *b"IT";
                let number = if late { 2 } else { 3 };
                let line = feed_bytes(&mut kernel, &bytes);
                assert_eq!(line.unwrap(), format!("{number} 0 0 0 0 0 0"));
                assert_eq!(kernel, running);
            }
        }
    }
}

#[test]
fn a_lone_stray_bit_is_found() {
    let mut found = Strays::default();
    for (draft, stretches) in forms() {
        assert_eq!(lone_stray(&draft.bytes()), None);
        for place in places(stretches) {
            for bit in 0..8 {
                let stray = lone_stray(&with_bit(&draft, place, bit)).unwrap();
                assert_eq!((stray.place, stray.bit), (place, bit));
                found.note(Some(stray));
            }
        }
    }
    let text = "one bit alone in an unused byte 10184: 75 forms, 1273 bytes, 10184 bits";
    assert_eq!(found.to_string(), text);
}

#[test]
fn nothing_else_is_a_lone_stray_bit() {
    let tick = r(b"TI").bytes();
    let two = |a: usize, b: usize| {
        let mut bytes = tick;
        bytes[a] |= 1;
        bytes[b] |= 128;
        bytes
    };
    assert_eq!(lone_stray(&two(2, 2)), None);
    assert_eq!(lone_stray(&two(2, 10)), None);
    assert_eq!(lone_stray(&two(22, 23)), None);
    assert_eq!(lone_stray(&tick[..23]), None);
    assert_eq!(lone_stray(&with_bit(&r(b"ti"), 2, 0)), None);
    // What is used, but out of range.
    assert_eq!(lone_stray(&semaphore(65_536).bytes()), None);
    assert_eq!(lone_stray(&with_bit(&r(b"AC"), 9, 3)), None);
    assert_eq!(lone_stray(&with_bit(&r(b"RQ"), 4, 3)), None);
    // A stray bit, and a declared priority of 0.
    assert_eq!(lone_stray(&with_bit(&r(b"DT"), 2, 0)), None);
}

/// The stray bits that a script's records are refused for.
fn strays(kind: Kind, seed: u64) -> Vec<Stray> {
    let mut kernel = Kernel::new();
    let bytes = script(kind, seed, 200);
    let refused = bytes
        .chunks(RECORD)
        .filter(|record| kernel.step(record).number == 3);
    refused.filter_map(lone_stray).collect()
}

#[test]
fn damaged_scripts_spoil_every_byte_of_every_form() {
    let mut found = Strays::default();
    for seed in 0..2500 {
        for stray in strays(Kind::Damaged, seed) {
            found.note(Some(stray));
        }
    }
    for (draft, stretches) in forms() {
        for place in places(stretches) {
            let stray = lone_stray(&with_bit(&draft, place, 0)).unwrap();
            assert!(found.bytes.contains(&(stray.form, place)), "{stray:?}");
        }
    }
}

#[test]
fn idle_scripts_have_ticks_and_sleeps_that_a_bit_spoils() {
    let mut places = [[0; RECORD]; 2];
    let forms = [Mark::Tick, Mark::Sleep].map(|mark| (mark as u8, 0, 0, 0));
    for stray in (0..200).flat_map(|seed| strays(Kind::Idle, seed)) {
        let form = forms.iter().position(|&form| form == stray.form);
        places[form.unwrap()][stray.place] += 1;
    }
    for counts in places {
        assert!(counts[2..].iter().all(|&count| count > 5), "{counts:?}");
    }
}
