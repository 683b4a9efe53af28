//! A line on the terminal while long work goes on, and nothing where there is no terminal.
use std::{
    io::{IsTerminal, Write, stderr},
    time::{Duration, Instant},
};

const PAUSE: Duration = Duration::from_millis(100);

#[derive(Debug)]
pub struct Progress {
    terminal: bool,
    told: Instant,
    shown: bool,
}

impl Progress {
    pub fn new() -> Progress {
        Progress { terminal: stderr().is_terminal(), told: Instant::now(), shown: false }
    }

    /// Shows the line in place of the last one, but not too often.
    pub fn tell(&mut self, line: impl FnOnce() -> String) {
        if self.terminal && self.told.elapsed() >= PAUSE {
            (self.told, self.shown) = (Instant::now(), true);
            let _ = write!(stderr(), "\r{}\x1b[K", line());
        }
    }
}

impl Drop for Progress {
    fn drop(&mut self) {
        if self.shown {
            let _ = write!(stderr(), "\r\x1b[K");
        }
    }
}
