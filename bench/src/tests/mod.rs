//! Scripts with the lines that a trace by hand gives.

mod continuations;
mod formats;
mod marked;
mod on_file;
mod readings;
mod scripts;
mod sleep;
mod to_come;
mod turns;
mod unsound;
mod unused;
mod waits;
mod writers;

use crate::draft::Draft;
use crate::kernel::Kernel;
use crate::lines::{has_line, push_line};

/// A draft with this mark and nothing else yet.
fn r(mark: &[u8; 2]) -> Draft {
    Draft::new(mark)
}

fn task(priority: u8) -> Draft {
    r(b"DT").priority(priority)
}

fn semaphore(preset: u32) -> Draft {
    r(b"DS").first(preset)
}

/// Steps the kernel through the drafts and hands back the lines.
fn feed(kernel: &mut Kernel, drafts: &[Draft]) -> Vec<String> {
    let mut lines = Vec::new();
    for draft in drafts {
        lines.extend(feed_bytes(kernel, &draft.bytes()));
    }
    lines
}

fn feed_bytes(kernel: &mut Kernel, record: &[u8]) -> Option<String> {
    let answer = kernel.step(record);
    let mut line = Vec::new();
    push_line(&mut line, &answer);
    let text = String::from_utf8(line).unwrap();
    has_line(kernel, &answer).then(|| text.trim_end().to_string())
}

/// The lines of a fresh kernel for these drafts.
fn lines(drafts: &[Draft]) -> Vec<String> {
    feed(&mut Kernel::new(), drafts)
}

/// A kernel that has accepted all of these drafts.
fn after(drafts: &[Draft]) -> Kernel {
    let mut kernel = Kernel::new();
    for draft in drafts {
        assert_eq!(kernel.step(&draft.bytes()).number, 0);
    }
    kernel
}

/// Each of these calls, with the line that it gets.
#[track_caller]
fn steps<const N: usize>(kernel: &mut Kernel, steps: [(Draft, &str); N]) {
    for (i, (draft, line)) in steps.into_iter().enumerate() {
        assert_eq!(feed(kernel, &[draft]), [line], "step {i}");
    }
}

/// The number alone that a draft gets.
fn number(kernel: &mut Kernel, draft: Draft) -> u8 {
    kernel.step(&draft.bytes()).number
}
