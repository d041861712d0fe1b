//! Random scripts through other programs and through the kernel here.

use std::io::{self, Write};
use std::path::Path;
use std::process::{Command, Stdio};
use std::thread;

use crate::expect::{expect, Expected, Reached};
use crate::generate::{script, Kind, KINDS};
use crate::limits::RECORD;
use crate::random::Random;
use crate::trouble::{named, no_output};

/// So many scripts that fail are told in full.
const TOLD: usize = 5;

/// The programs that are compared with the kernel here.
pub struct Programs<'a> {
    pub rackrun: &'a str,
    pub rackwait: &'a str,
}

pub struct Score {
    pub passed: usize,
    pub failed: usize,
    /// How much of what is demanded the scripts didn't reach.
    missing: usize,
}

impl Score {
    pub fn is_good(&self) -> bool {
        self.failed == 0 && self.missing == 0
    }
}

/// A random script: its number decides its kind, its seed the rest.
struct Case {
    number: usize,
    kind: Kind,
    seed: u64,
    records: usize,
}

/// Runs random scripts. Without programs only the bounds of waits are watched.
pub fn compare(programs: Option<&Programs>, count: usize, seed: u64) -> io::Result<Score> {
    let mut reached = Reached::default();
    let mut failed = 0;
    for case in cases(count, seed) {
        let bytes = script(case.kind, case.seed, case.records);
        let expected = expect(&bytes, &mut reached);
        let mut failures = match programs {
            Some(programs) => programs.differences(&bytes, &expected)?,
            None => Vec::new(),
        };
        failures.extend(expected.broken);
        if !failures.is_empty() {
            failed += 1;
            if failed <= TOLD {
                tell(&case, &failures).map_err(no_output)?;
            }
        }
    }
    if failed > TOLD {
        let more = failed - TOLD;
        writeln!(io::stdout(), "{more} more scripts fail").map_err(no_output)?;
    }
    write!(io::stdout(), "{reached}").map_err(no_output)?;
    let missing = reached.missing();
    if !missing.is_empty() {
        writeln!(io::stdout(), "not reached: {}", missing.join("; ")).map_err(no_output)?;
    }
    Ok(Score {
        passed: count - failed,
        failed,
        missing: missing.len(),
    })
}

fn cases(count: usize, seed: u64) -> impl Iterator<Item = Case> {
    let mut random = Random::new(seed);
    (0..count).map(move |number| Case {
        number,
        kind: KINDS[number % KINDS.len()],
        seed: random.next(),
        records: random.between(50, 400) as usize,
    })
}

impl Programs<'_> {
    /// Where the programs write something else than expected.
    fn differences(&self, bytes: &[u8], expected: &Expected) -> io::Result<Vec<String>> {
        let mut found = Vec::new();
        let record = |line: usize| match expected.records.get(line) {
            Some(record) => format!("record {record}"),
            None => "after the last line".to_string(),
        };
        found.extend(difference(self.rackrun, bytes, &expected.text, record)?);
        for look in &expected.looks {
            let records = look.length.div_ceil(RECORD);
            let beginning = |_| format!("after {records} records");
            let bytes = &bytes[..look.length];
            found.extend(difference(self.rackwait, bytes, &look.text(), beginning)?);
        }
        Ok(found)
    }
}

/// None if the program writes just the text expected; `place` says where a line
/// comes from.
fn difference(
    program: &str,
    bytes: &[u8],
    expected: &[u8],
    place: impl Fn(usize) -> String,
) -> io::Result<Option<String>> {
    let mut child = Command::new(program)
        .stdin(Stdio::piped())
        .stdout(Stdio::piped())
        .spawn()
        .map_err(|error| named(program, "can't be started", error))?;
    let mut input = child.stdin.take().expect("a piped input");
    let (written, output) = thread::scope(|scope| {
        let writer = scope.spawn(move || input.write_all(bytes));
        let output = child.wait_with_output();
        (writer.join().expect("the writer doesn't panic"), output)
    });
    let output = output.map_err(|error| named(program, "can't be read", error))?;
    let name = Path::new(program).file_name().unwrap_or_default();
    let name = name.to_string_lossy();
    if output.stdout != expected {
        let (line, lines) = first_difference(&output.stdout, expected);
        return Ok(Some(format!(
            "  {name}, {}, line {line}\n{lines}",
            place(line)
        )));
    }
    if !output.status.success() {
        return Ok(Some(format!(
            "  {name}: right lines, but {}",
            output.status
        )));
    }
    match written {
        Ok(()) => Ok(None),
        Err(error) if error.kind() == io::ErrorKind::BrokenPipe => Ok(Some(format!(
            "  {name}: right lines, but it stopped reading before the end"
        ))),
        Err(error) => Err(named(program, "can't be written to", error)),
    }
}

/// The number of the first line that differs, and the line in both texts.
fn first_difference(found: &[u8], expected: &[u8]) -> (usize, String) {
    let mut wanted = split_lines(expected);
    let mut got = split_lines(found);
    let mut line = 0;
    loop {
        match (wanted.next(), got.next()) {
            (Some(a), Some(b)) if a == b => line += 1,
            (a, b) => {
                let lines = format!("  expected: {}\n  program:  {}", shown(a), shown(b));
                return (line, lines);
            }
        }
    }
}

/// Lines with their line ends, so that a missing one counts.
fn split_lines(text: &[u8]) -> impl Iterator<Item = &[u8]> {
    text.split_inclusive(|&byte| byte == b'\n')
}

fn shown(line: Option<&[u8]>) -> String {
    match line {
        None => "(no line)".to_string(),
        Some(bytes) => match bytes.strip_suffix(b"\n") {
            Some(whole) => String::from_utf8_lossy(whole).into_owned(),
            None => format!("{} (no line end)", String::from_utf8_lossy(bytes)),
        },
    }
}

fn tell(case: &Case, failures: &[String]) -> io::Result<()> {
    writeln!(
        io::stdout(),
        "script {} fails; make it with: generate {} {} {}\n{}",
        case.number,
        case.kind.name(),
        case.seed,
        case.records,
        failures.join("\n")
    )
}
