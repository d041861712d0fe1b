//! The 24 bytes of a record and the rules that need no kernel.

use crate::calendar::{is_duration, is_time_of_day, Millis};
use crate::kernel::{List, Origin};
use crate::limits::{FULL, LIST, LONGEST, RECORD};

#[derive(Clone, Copy, PartialEq, Eq, Debug)]
pub enum Mark {
    DeclareTask,
    DeclareSemaphore,
    DeclareBolt,
    DeclareInterrupt,
    DeclareClock,
    Activate,
    Terminate,
    Suspend,
    Prevent,
    Continue,
    EndSelf,
    Resume,
    Request,
    Release,
    Try,
    Reserve,
    Free,
    Enter,
    Leave,
    Trigger,
    Enable,
    Disable,
    Tick,
    Sleep,
}

/// The two letters of every mark, in the order of the enum.
pub const LETTERS: [&[u8; 2]; 24] = [
    b"DT", b"DS", b"DB", b"IT", b"DC", b"AC", b"TE", b"SU", b"PR", b"CO", b"EN", b"RE", b"RQ",
    b"RL", b"TR", b"RS", b"FR", b"ET", b"LV", b"TG", b"EI", b"XI", b"TI", b"SL",
];

impl Mark {
    fn from_letters(letters: &[u8; 2]) -> Option<Mark> {
        Some(match letters {
            b"DT" => Mark::DeclareTask,
            b"DS" => Mark::DeclareSemaphore,
            b"DB" => Mark::DeclareBolt,
            b"IT" => Mark::DeclareInterrupt,
            b"DC" => Mark::DeclareClock,
            b"AC" => Mark::Activate,
            b"TE" => Mark::Terminate,
            b"SU" => Mark::Suspend,
            b"PR" => Mark::Prevent,
            b"CO" => Mark::Continue,
            b"EN" => Mark::EndSelf,
            b"RE" => Mark::Resume,
            b"RQ" => Mark::Request,
            b"RL" => Mark::Release,
            b"TR" => Mark::Try,
            b"RS" => Mark::Reserve,
            b"FR" => Mark::Free,
            b"ET" => Mark::Enter,
            b"LV" => Mark::Leave,
            b"TG" => Mark::Trigger,
            b"EI" => Mark::Enable,
            b"XI" => Mark::Disable,
            b"TI" => Mark::Tick,
            b"SL" => Mark::Sleep,
            _ => return None,
        })
    }

    pub fn declares(self) -> bool {
        (self as u8) <= Mark::DeclareClock as u8
    }

    /// Whether such a call may change, at the present instant, when something
    /// comes due. EN doesn't: the running task isn't delayed, and what it has to
    /// come stays.
    pub fn changes_what_comes(self) -> bool {
        match self {
            Mark::Activate | Mark::Terminate | Mark::Suspend | Mark::Prevent => true,
            Mark::Continue | Mark::Resume | Mark::Trigger => true,
            _ => false,
        }
    }

    pub fn has_list(self) -> bool {
        (Mark::Request as u8..=Mark::Leave as u8).contains(&(self as u8))
    }
}

/// A record taken apart; nothing but its length and mark is checked yet.
pub struct Record {
    pub mark: Mark,
    /// A task or an interrupt.
    pub number: u8,
    pub priority: u8,
    pub list: List,
    pub start_kind: u8,
    pub interrupt: u8,
    pub end_kind: u8,
    pub first: Millis,
    pub period: Millis,
    pub end: Millis,
    words: Words,
}

/// A record as three words, or which of its bits are in use.
type Words = [u64; 3];

/// All bits of the bytes `from` up to, not including, `to`.
const fn bytes(from: usize, to: usize) -> Words {
    let mut words = [0; 3];
    let mut i = from;
    while i < to {
        words[i / 8] |= 0xff << (56 - 8 * (i % 8));
        i += 1;
    }
    words
}

const fn join(a: Words, b: Words) -> Words {
    [a[0] | b[0], a[1] | b[1], a[2] | b[2]]
}

const MARK: Words = bytes(0, 2);
const NUMBER: Words = bytes(2, 3);
const PRIORITY: Words = bytes(3, 4);
const START_KIND: Words = bytes(9, 10);
const INTERRUPT: Words = bytes(10, 11);
const END_KIND: Words = bytes(11, 12);
const FIRST: Words = bytes(12, 16);
const PERIOD: Words = bytes(16, 20);
const END: Words = bytes(20, 24);

/// A task and the priority that it is to have.
const TASK: Words = join(NUMBER, PRIORITY);
/// How a start is repeated; the end time apart.
const REPETITION: Words = join(PERIOD, END_KIND);

/// What tells the first due, by start kind.
const CONDITION: [Words; 6] = [
    START_KIND,
    join(START_KIND, FIRST),
    join(START_KIND, FIRST),
    join(START_KIND, INTERRUPT),
    join(START_KIND, join(INTERRUPT, FIRST)),
    START_KIND,
];
/// The last start kind of CONTINUE and RESUME.
const LAST_CONTINUATION: u8 = 4;

/// What a call with a list uses, by length.
const WITH_LIST: [Words; LIST + 1] = [
    join(MARK, bytes(4, 5)),
    join(MARK, bytes(4, 6)),
    join(MARK, bytes(4, 7)),
    join(MARK, bytes(4, 8)),
    join(MARK, bytes(4, 9)),
];

impl Record {
    /// None: a wrong length or an unknown mark.
    #[inline]
    pub fn read(bytes: &[u8]) -> Option<Record> {
        let whole: &[u8; RECORD] = bytes.try_into().ok()?;
        let mark = Mark::from_letters(&[whole[0], whole[1]])?;
        let word = |i: usize| u64::from_be_bytes(whole[8 * i..8 * i + 8].try_into().unwrap());
        let words = [word(0), word(1), word(2)];
        Some(Record {
            mark,
            number: whole[2],
            priority: whole[3],
            list: List {
                length: whole[4],
                places: [whole[5], whole[6], whole[7], whole[8]],
            },
            start_kind: whole[9],
            interrupt: whole[10],
            end_kind: whole[11],
            first: words[1] as Millis,
            period: (words[2] >> 32) as Millis,
            end: words[2] as Millis,
            words,
        })
    }

    fn uses_only(&self, used: Words) -> bool {
        let stray =
            (self.words[0] & !used[0]) | (self.words[1] & !used[1]) | (self.words[2] & !used[2]);
        stray == 0
    }

    /// Refusal 3: stray bytes, priorities, presets, kinds and lengths.
    #[inline]
    pub fn fields_are_good(&self) -> bool {
        match self.mark {
            Mark::DeclareTask => self.priority != 0 && self.uses_only(join(MARK, PRIORITY)),
            Mark::DeclareSemaphore => {
                self.first <= Millis::from(FULL) && self.uses_only(join(MARK, FIRST))
            }
            Mark::DeclareClock => self.uses_only(join(MARK, FIRST)),
            Mark::DeclareBolt
            | Mark::DeclareInterrupt
            | Mark::EndSelf
            | Mark::Tick
            | Mark::Sleep => self.uses_only(MARK),
            Mark::Activate => self.activation_fields_are_good(),
            Mark::Continue | Mark::Resume => self.continuation_fields_are_good(),
            Mark::Terminate
            | Mark::Suspend
            | Mark::Prevent
            | Mark::Trigger
            | Mark::Enable
            | Mark::Disable => self.uses_only(join(MARK, NUMBER)),
            Mark::Request
            | Mark::Release
            | Mark::Try
            | Mark::Reserve
            | Mark::Free
            | Mark::Enter
            | Mark::Leave => match WITH_LIST.get(usize::from(self.list.length)) {
                Some(used) => self.uses_only(*used),
                None => false,
            },
        }
    }

    fn activation_fields_are_good(&self) -> bool {
        let Some(condition) = CONDITION.get(usize::from(self.start_kind)) else {
            return false;
        };
        let plain = join(join(MARK, TASK), *condition);
        match (self.start_kind, self.end_kind) {
            (0, _) => self.uses_only(plain),
            (_, 0) => self.uses_only(join(plain, REPETITION)),
            (_, 1 | 2) => self.uses_only(join(plain, join(REPETITION, END))),
            _ => false,
        }
    }

    fn continuation_fields_are_good(&self) -> bool {
        if self.start_kind > LAST_CONTINUATION {
            return false;
        }
        let plain = join(MARK, CONDITION[usize::from(self.start_kind)]);
        self.uses_only(if self.mark == Mark::Continue {
            join(plain, TASK)
        } else if self.is_delay() {
            join(plain, FIRST)
        } else {
            plain
        })
    }

    /// RESUME of kind 0: its first time is the delay.
    pub fn is_delay(&self) -> bool {
        self.mark == Mark::Resume && self.start_kind == 0
    }

    pub fn needs_interrupt(&self) -> bool {
        matches!(self.start_kind, 3 | 4)
    }

    /// What sets the schedule or continuation of this record going.
    pub fn origin(&self) -> Origin {
        match self.start_kind {
            3 => Origin::Interrupt(self.interrupt),
            4 => Origin::InterruptAfter(self.interrupt, self.first),
            _ => Origin::Clock,
        }
    }

    /// Refusal 4, asked once the fields are good.
    #[inline]
    pub fn list_is_good(&self) -> bool {
        if !self.mark.has_list() {
            return true;
        }
        let n = self.list.places;
        match self.list.length {
            0 => false,
            1 => true,
            _ if self.mark == Mark::Try => false,
            2 => n[0] != n[1],
            3 => n[0] != n[1] && n[0] != n[2] && n[1] != n[2],
            _ => {
                n[0] != n[1]
                    && n[0] != n[2]
                    && n[0] != n[3]
                    && n[1] != n[2]
                    && n[1] != n[3]
                    && n[2] != n[3]
            }
        }
    }

    /// Refusal 6, asked once the fields are good.
    #[inline]
    pub fn times_are_good(&self) -> bool {
        match self.mark {
            Mark::DeclareClock => is_time_of_day(self.first),
            Mark::Continue | Mark::Resume => self.first_is_good(),
            Mark::Activate => self.first_is_good() && self.repetition_is_good(),
            _ => true,
        }
    }

    fn first_is_good(&self) -> bool {
        match self.start_kind {
            1 => is_time_of_day(self.first),
            2 | 4 => is_duration(self.first),
            _ => !self.is_delay() || is_duration(self.first),
        }
    }

    fn repetition_is_good(&self) -> bool {
        let period_is_good = self.period <= LONGEST && (self.start_kind != 5 || self.period > 0);
        let end_is_good = match self.end_kind {
            0 => true,
            1 => self.period > 0 && is_time_of_day(self.end),
            _ => self.period > 0 && is_duration(self.end),
        };
        period_is_good && end_is_good
    }
}
