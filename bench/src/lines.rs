//! Answers as lines of text, and whole scripts as such lines.

use std::io::{self, Read, Write};

use crate::answer::Answer;
use crate::kernel::Kernel;
use crate::limits::RECORD;
use crate::trouble::no_output;

/// How many records are read and answered at once.
const BATCH: usize = 2048;

/// No line is longer: seven numbers of at most ten digits.
const LINE: usize = 80;

/// Number, running task or `-`, and the five sets.
pub fn push_line(out: &mut Vec<u8>, answer: &Answer) {
    let mut line = Line {
        bytes: [b' '; LINE],
        length: 0,
    };
    line.decimal(u32::from(answer.number));
    line.space();
    match answer.running {
        Some(task) => line.decimal(u32::from(task)),
        None => line.byte(b'-'),
    }
    let sets = &answer.sets;
    for set in [sets.due, sets.started, sets.ended, sets.lost, sets.granted] {
        line.space();
        line.decimal(set);
    }
    line.byte(b'\n');
    out.extend_from_slice(&line.bytes[..line.length]);
}

/// A line that grows; what isn't written yet is spaces.
struct Line {
    bytes: [u8; LINE],
    length: usize,
}

impl Line {
    #[inline(always)]
    fn byte(&mut self, byte: u8) {
        self.bytes[self.length] = byte;
        self.length += 1;
    }

    #[inline(always)]
    fn space(&mut self) {
        self.length += 1;
    }

    #[inline(always)]
    fn decimal(&mut self, value: u32) {
        if value < 10 {
            self.byte(b'0' + value as u8);
        } else {
            self.long_decimal(value);
        }
    }

    fn long_decimal(&mut self, mut value: u32) {
        let mut digits = [0; 10];
        let mut start = digits.len();
        while value > 0 {
            start -= 1;
            digits[start] = b'0' + (value % 10) as u8;
            value /= 10;
        }
        for &digit in &digits[start..] {
            self.byte(digit);
        }
    }
}

/// Whether a record with this answer gets a line.
///
/// An accepted call makes the kernel remember that there was one, so what was
/// accepted and left it without that memory is a declaration.
pub fn has_line(kernel: &Kernel, answer: &Answer) -> bool {
    answer.number != 0 || kernel.called
}

/// Answers all records of `input` on `output`.
pub fn run(mut input: impl Read, mut output: impl Write) -> io::Result<()> {
    let mut kernel = Kernel::new();
    let mut batch = vec![0; BATCH * RECORD];
    let mut out = Vec::with_capacity(BATCH * 64);
    loop {
        let filled = fill(&mut input, &mut batch)?;
        for record in batch[..filled].chunks(RECORD) {
            let answer = kernel.step(record);
            if has_line(&kernel, &answer) {
                push_line(&mut out, &answer);
            }
        }
        output.write_all(&out).map_err(no_output)?;
        out.clear();
        if filled < batch.len() {
            return output.flush().map_err(no_output);
        }
    }
}

/// Reads until the batch is full or the input ends.
fn fill(input: &mut impl Read, batch: &mut [u8]) -> io::Result<usize> {
    let mut filled = 0;
    while filled < batch.len() {
        match input.read(&mut batch[filled..]) {
            Ok(0) => break,
            Ok(more) => filled += more,
            Err(error) if error.kind() == io::ErrorKind::Interrupted => {}
            Err(error) => return Err(error),
        }
    }
    Ok(filled)
}
