//! A line on the terminal while the work takes long.

use std::io::{stderr, IsTerminal, Write};
use std::time::{Duration, Instant};

/// Work below this time shows nothing.
const QUIET: Duration = Duration::from_secs(1);
/// The line is written at most this often.
const BETWEEN: Duration = Duration::from_millis(200);

/// How far the work is. Without a terminal on standard error it shows nothing.
pub struct Progress {
    is_terminal: bool,
    started: Instant,
    shown: Option<Instant>,
    /// What the line says before its number.
    task: String,
}

impl Progress {
    pub fn new() -> Progress {
        let is_terminal = stderr().is_terminal();
        Progress { is_terminal, started: Instant::now(), shown: None, task: String::new() }
    }

    /// Names the test that is worked on.
    pub fn task(&mut self, task: &str) {
        self.task = task.to_string();
    }

    /// Shows the number of prefixes visited.
    pub fn show(&mut self, visited: u64) {
        let is_soon = self.shown.is_some_and(|shown| shown.elapsed() < BETWEEN);
        if !self.is_terminal || is_soon || self.started.elapsed() < QUIET {
            return;
        }
        self.shown = Some(Instant::now());
        // A terminal that is gone doesn't stop the work.
        let _ = write!(stderr(), "\r\x1b[K{}: {visited} prefixes visited", self.task);
    }

    /// Takes the line away before something else is printed.
    pub fn clear(&mut self) {
        if self.shown.take().is_some() {
            let _ = write!(stderr(), "\r\x1b[K");
        }
    }
}
