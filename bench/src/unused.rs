//! Which bytes a record leaves unused, one by one. The makers of scripts and the
//! counts go by this; refusal 3 itself is in `record.rs`, which looks at words.

use std::collections::BTreeSet;
use std::fmt;
use std::ops::Range;

use crate::limits::{LIST, RECORD};
use crate::record::{Mark, Record};

type Bytes = Range<usize>;

const NUMBER: Bytes = 2..3;
const PRIORITY: Bytes = 3..4;
const START_KIND: Bytes = 9..10;
const INTERRUPT: Bytes = 10..11;
const END_KIND: Bytes = 11..12;
const FIRST: Bytes = 12..16;
const PERIOD: Bytes = 16..20;
const END: Bytes = 20..24;

/// The bytes behind the mark that the record doesn't use. None where a kind or
/// the length that tells them is out of range.
pub fn unused_bytes(record: &Record) -> Option<Vec<usize>> {
    let used = used_bytes(record)?;
    let is_used = |place: &usize| used.iter().any(|bytes| bytes.contains(place));
    Some((2..RECORD).filter(|place| !is_used(place)).collect())
}

fn used_bytes(record: &Record) -> Option<Vec<Bytes>> {
    let length = usize::from(record.list.length);
    Some(match record.mark {
        Mark::DeclareTask => vec![PRIORITY],
        Mark::DeclareSemaphore | Mark::DeclareClock => vec![FIRST],
        Mark::DeclareBolt | Mark::DeclareInterrupt => vec![],
        Mark::EndSelf | Mark::Tick | Mark::Sleep => vec![],
        Mark::Activate => {
            let task = vec![NUMBER, PRIORITY];
            [task, condition(record)?, repetition(record)?].concat()
        }
        Mark::Continue | Mark::Resume if record.start_kind > 4 => return None,
        Mark::Continue => [vec![NUMBER, PRIORITY], condition(record)?].concat(),
        Mark::Resume if record.is_delay() => vec![START_KIND, FIRST],
        Mark::Resume => condition(record)?,
        Mark::Terminate
        | Mark::Suspend
        | Mark::Prevent
        | Mark::Trigger
        | Mark::Enable
        | Mark::Disable => vec![NUMBER],
        Mark::Request
        | Mark::Release
        | Mark::Try
        | Mark::Reserve
        | Mark::Free
        | Mark::Enter
        | Mark::Leave => {
            if length > LIST {
                return None;
            }
            vec![4..5 + length]
        }
    })
}

/// What tells the first due.
fn condition(record: &Record) -> Option<Vec<Bytes>> {
    Some(match record.start_kind {
        0 | 5 => vec![START_KIND],
        1 | 2 => vec![START_KIND, FIRST],
        3 => vec![START_KIND, INTERRUPT],
        4 => vec![START_KIND, INTERRUPT, FIRST],
        _ => return None,
    })
}

/// How a start goes on; one of kind 0 doesn't.
fn repetition(record: &Record) -> Option<Vec<Bytes>> {
    Some(match (record.start_kind, record.end_kind) {
        (0, _) => vec![],
        (_, 0) => vec![PERIOD, END_KIND],
        (_, 1 | 2) => vec![PERIOD, END_KIND, END],
        _ => return None,
    })
}

/// What decides which bytes are used: mark, start kind, end kind, and the length of the list.
pub type Form = (u8, u8, u8, u8);

/// A bit in an unused byte of a record whose fields are good but for it.
#[derive(Clone, Copy, PartialEq, Eq, Debug)]
pub struct Stray {
    pub form: Form,
    pub place: usize,
    pub bit: u32,
}

/// The one stray bit of a record; none if there are several, or if something else
/// is wrong with its fields.
pub fn lone_stray(bytes: &[u8]) -> Option<Stray> {
    Record::read(bytes)?;
    (2..RECORD).find_map(|place| {
        let mut without = bytes.to_vec();
        without[place] = 0;
        let record = Record::read(&without)?;
        let stray = bytes[place].is_power_of_two() && unused_bytes(&record)?.contains(&place);
        (stray && record.fields_are_good()).then(|| Stray {
            form: form(&record),
            place,
            bit: bytes[place].trailing_zeros(),
        })
    })
}

fn form(record: &Record) -> Form {
    let mark = record.mark as u8;
    (mark, record.start_kind, record.end_kind, record.list.length)
}

/// The stray bits that scripts have.
#[derive(Default)]
pub struct Strays {
    records: u64,
    forms: BTreeSet<Form>,
    pub bytes: BTreeSet<(Form, usize)>,
    bits: BTreeSet<(Form, usize, u32)>,
}

impl Strays {
    pub fn note(&mut self, stray: Option<Stray>) {
        let Some(stray) = stray else {
            return;
        };
        self.records += 1;
        self.forms.insert(stray.form);
        self.bytes.insert((stray.form, stray.place));
        self.bits.insert((stray.form, stray.place, stray.bit));
    }
}

impl fmt::Display for Strays {
    fn fmt(&self, f: &mut fmt::Formatter) -> fmt::Result {
        write!(
            f,
            "one bit alone in an unused byte {}: {} forms, {} bytes, {} bits",
            self.records,
            self.forms.len(),
            self.bytes.len(),
            self.bits.len()
        )
    }
}
