//! A progress line for long runs.

use std::io::{IsTerminal, Write};
use std::time::{Duration, Instant};

pub struct Progress {
    name: &'static str,
    start: Instant,
    told: Instant,
    calls: u64,
    now: Instant,
}

impl Progress {
    pub fn start(name: &'static str) -> Progress {
        let now = Instant::now();
        Progress { name, start: now, told: now, calls: 0, now }
    }

    /// Whether the run has had its time.
    pub fn over(&mut self, seconds: u64) -> bool {
        self.calls += 1;
        if self.calls.is_multiple_of(16) {
            self.now = Instant::now();
        }
        self.now - self.start >= Duration::from_secs(seconds)
    }

    /// Tells how far the run is, now and then.
    pub fn tell(&mut self, state: impl FnOnce() -> String) {
        let mut error = std::io::stderr();
        let on_terminal = error.is_terminal();
        let pause = Duration::from_secs(if on_terminal { 1 } else { 15 });
        if self.now - self.told >= pause {
            self.told = self.now;
            let (begin, end) = if on_terminal { ("\r", "") } else { ("", "\n") };
            let seconds = (self.now - self.start).as_secs();
            let _ = write!(error, "{begin}{}: {seconds} s, {}{end}", self.name, state());
        }
    }
}

impl Drop for Progress {
    fn drop(&mut self) {
        if std::io::stderr().is_terminal() && self.told > self.start {
            eprintln!();
        }
    }
}
