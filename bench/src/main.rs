//! A second kernel, written by hand, and what compares and times another with it.

mod answer;
mod calendar;
mod compare;
mod continuation;
mod coverage;
mod draft;
mod due;
mod expect;
mod generate;
mod grant;
mod heavy;
mod kernel;
mod limits;
mod lines;
mod random;
mod record;
mod runner;
mod slept;
mod sound;
mod step;
#[cfg(test)]
mod tests;
mod timing;
mod to_come;
mod trouble;
mod turns;
mod unused;
mod waits;
mod watch;

use std::io::{self, Write};
use std::process::ExitCode;

use compare::{compare, Programs};
use trouble::no_output;

const USAGE: &str = "usage:
  bench reference                      records on standard input, lines on standard output
  bench waits                          the same, with the lines of rackwait
  bench generate KIND SEED RECORDS     a random script: valid, damaged, contended,
                                       idle, writers, turns, queues or late
  bench heavy KIND RECORDS             a long script: ticks, calls, sleeps, readers
                                       or queues
  bench compare RACKRUN RACKWAIT COUNT SEED
                                       random scripts through both and the reference
  bench coverage COUNT SEED            what those scripts reach
  bench time PROGRAM SCRIPT ROUNDS     PROGRAM and the reference in turn on a script file";

enum Trouble {
    Usage,
    Io(io::Error),
}

impl From<io::Error> for Trouble {
    fn from(error: io::Error) -> Trouble {
        Trouble::Io(error)
    }
}

fn main() -> ExitCode {
    let arguments: Vec<String> = std::env::args().skip(1).collect();
    let words: Vec<&str> = arguments.iter().map(String::as_str).collect();
    match run(&words) {
        Ok(true) => ExitCode::SUCCESS,
        Ok(false) => ExitCode::FAILURE,
        Err(Trouble::Usage) => {
            eprintln!("{USAGE}");
            ExitCode::from(2)
        }
        Err(Trouble::Io(error)) => {
            eprintln!("bench: {error}");
            ExitCode::FAILURE
        }
    }
}

/// Whether all went well.
fn run(words: &[&str]) -> Result<bool, Trouble> {
    match words {
        ["reference"] => lines::run(io::stdin().lock(), io::stdout().lock())?,
        ["waits"] => waits::run(io::stdin().lock(), io::stdout().lock())?,
        ["generate", kind, seed, records] => {
            let kind = generate::Kind::from_name(kind).ok_or(Trouble::Usage)?;
            write_out(&generate::script(kind, number(seed)?, count(records)?))?;
        }
        ["heavy", kind, records] => {
            let records = count(records)?;
            write_out(&match *kind {
                "ticks" => heavy::ticks(records),
                "calls" => heavy::calls(records),
                "sleeps" => heavy::sleeps(records),
                "readers" => heavy::readers(records),
                "queues" => heavy::queues(records),
                _ => return Err(Trouble::Usage),
            })?;
        }
        ["compare", rackrun, rackwait, scripts, seed] => {
            let programs = Programs { rackrun, rackwait };
            let score = compare(Some(&programs), count(scripts)?, number(seed)?)?;
            let text = format!("{} passed, {} failed\n", score.passed, score.failed);
            write_out(text.as_bytes())?;
            return Ok(score.is_good());
        }
        ["coverage", scripts, seed] => {
            return Ok(compare(None, count(scripts)?, number(seed)?)?.is_good());
        }
        ["time", program, script, rounds] => timing::time(program, script, count(rounds)?.max(1))?,
        _ => return Err(Trouble::Usage),
    }
    Ok(true)
}

fn number(word: &str) -> Result<u64, Trouble> {
    word.parse().map_err(|_| Trouble::Usage)
}

fn count(word: &str) -> Result<usize, Trouble> {
    word.parse().map_err(|_| Trouble::Usage)
}

fn write_out(bytes: &[u8]) -> io::Result<()> {
    let mut out = io::stdout().lock();
    out.write_all(bytes)
        .and_then(|()| out.flush())
        .map_err(no_output)
}
