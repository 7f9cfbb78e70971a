//! How far the work is: one line on standard error that is written over, where that is a terminal and the work takes longer than a second.
use crate::messages::grouped;
use std::io::{self, IsTerminal, Write};
use std::time::{Duration, Instant};

const QUIET: Duration = Duration::from_secs(1);
const BETWEEN: Duration = Duration::from_millis(100);

/// The line, and when it was last written.
pub struct Progress {
    terminal: bool,
    next: Instant,
    shown: bool,
}

impl Progress {
    pub fn new() -> Self {
        Progress { terminal: io::stderr().is_terminal(), next: Instant::now() + QUIET, shown: false }
    }

    /// Whether it is time for the line.
    pub fn is_due(&self) -> bool {
        self.terminal && Instant::now() >= self.next
    }

    /// Writes the line, where it is time.
    pub fn tell(&mut self, done: usize, all: usize, what: &str) {
        if self.is_due() {
            let _ = write!(io::stderr(), "\r\x1b[K{} of {} {what}", grouped(done), grouped(all));
            self.next = Instant::now() + BETWEEN;
            self.shown = true;
        }
    }

    /// Takes the line away, before something else is written or at the end.
    pub fn clear(&mut self) {
        if std::mem::take(&mut self.shown) {
            let _ = write!(io::stderr(), "\r\x1b[K");
        }
    }
}

impl Drop for Progress {
    fn drop(&mut self) {
        self.clear();
    }
}
