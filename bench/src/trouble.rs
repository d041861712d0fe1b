//! Errors that say what they are about.

use std::io;

pub fn named(what: &str, trouble: &str, error: io::Error) -> io::Error {
    io::Error::new(error.kind(), format!("{what} {trouble}: {error}"))
}

/// Standard output can't take more, for example because its reader is gone.
pub fn no_output(error: io::Error) -> io::Error {
    named("standard output", "can't be written", error)
}
