//! How long two programs take for the same script, turn by turn.

use std::fs::{self, File};
use std::io::{self, Write};
use std::path::Path;
use std::process::{Command, Stdio};
use std::time::{Duration, Instant};

use crate::limits::RECORD;
use crate::trouble::{named, no_output};

/// Times this program's `reference` and `program`, and prints the best of each.
pub fn time(program: &str, script: &str, rounds: usize) -> io::Result<()> {
    let size = fs::metadata(script).map_err(|error| named(script, "can't be read", error))?;
    let records = size.len().div_ceil(RECORD as u64) as f64;
    let own = std::env::current_exe()?;
    let own = own.to_string_lossy();
    let name = Path::new(program).file_name().unwrap_or_default();
    let name = name.to_string_lossy();
    let mut own_best = Duration::MAX;
    let mut best = Duration::MAX;
    for _ in 0..rounds {
        own_best = own_best.min(run_once(&own, &["reference"], script)?);
        best = best.min(run_once(program, &[], script)?);
    }
    let mut out = io::stdout();
    let own_speed = speed("reference", records, own_best);
    let its_speed = speed(&name, records, best);
    writeln!(
        out,
        "{own_speed}\n{its_speed}\n  {name} takes {:.2} times as long as the reference",
        best.as_secs_f64() / own_best.as_secs_f64()
    )
    .map_err(no_output)
}

fn run_once(program: &str, arguments: &[&str], script: &str) -> io::Result<Duration> {
    let input = File::open(script).map_err(|error| named(script, "can't be read", error))?;
    let start = Instant::now();
    let status = Command::new(program)
        .args(arguments)
        .stdin(input)
        .stdout(Stdio::null())
        .status()
        .map_err(|error| named(program, "can't be started", error))?;
    let taken = start.elapsed();
    if status.success() {
        Ok(taken)
    } else {
        Err(io::Error::other(format!("{program} failed: {status}")))
    }
}

fn speed(name: &str, records: f64, taken: Duration) -> String {
    let seconds = taken.as_secs_f64();
    format!(
        "  {name:<9} {:>11.0} records/s, {:>6.1} ns a record",
        records / seconds,
        seconds * 1e9 / records
    )
}
