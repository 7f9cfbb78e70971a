//! What ends the program: one line that says what is wrong and what to do, and the exit status.
use std::io::{self, ErrorKind, Write};
use std::path::Path;
use std::process::ExitCode;

const UNREAD: u8 = 1;
const WRONG_USE: u8 = 2;

/// Why there are no answers.
pub enum Failure {
    /// A file or a stream cannot be read.
    File(String),
    /// The command line, or what standard input says, is wrong.
    Use(String),
    /// Nothing was asked: how to ask.
    Usage(&'static str),
    /// Whoever read the output has closed it.
    Closed,
}

impl Failure {
    /// A file, what is wrong with it, and what to do.
    pub fn file(path: &Path, what: impl AsRef<str>) -> Self {
        Failure::File(format!("{}: {}", path.display(), what.as_ref()))
    }

    /// An output that cannot be written.
    pub fn written(name: &str, error: io::Error) -> Self {
        match error.kind() {
            ErrorKind::BrokenPipe => Failure::Closed,
            _ => Failure::File(format!("{name}: it cannot be written ({error}); see that there is room and that you may write there")),
        }
    }

    /// Says it on standard error; gives the exit status.
    pub fn tell(self) -> ExitCode {
        // where standard error is closed too, the status is all that can be said
        let _ = match &self {
            Failure::File(what) | Failure::Use(what) => writeln!(io::stderr(), "yokberd: {what}"),
            Failure::Usage(help) => write!(io::stderr(), "{help}"),
            Failure::Closed => Ok(()),
        };
        match self {
            Failure::File(_) => ExitCode::from(UNREAD),
            Failure::Use(_) | Failure::Usage(_) => ExitCode::from(WRONG_USE),
            Failure::Closed => ExitCode::SUCCESS,
        }
    }
}

/// Says of a file, on standard error, what is no failure.
pub fn remark(path: &Path, what: &str) {
    // where standard error is closed, nobody is there to be told
    let _ = writeln!(io::stderr(), "yokberd: {}: {what}", path.display());
}

/// A number with its thousands apart: 16,777,216.
pub fn grouped(number: usize) -> String {
    let digits = number.to_string();
    let parts: Vec<_> = digits.as_bytes().rchunks(3).rev().map(String::from_utf8_lossy).collect();
    parts.join(",")
}
