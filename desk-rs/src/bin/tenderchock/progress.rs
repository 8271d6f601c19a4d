//! The number of lines read, now and then, at a terminal.

use std::io::{self, IsTerminal, Write};
use std::sync::OnceLock;
use std::time::{Duration, Instant};

/// Work that takes less than this shows nothing.
const FIRST: Duration = Duration::from_secs(2);
const PAUSE: Duration = Duration::from_millis(500);

static BEGAN: OnceLock<Instant> = OnceLock::new();

/// When the run's work began, whatever the number of files: at the first call.
pub fn began() -> Instant {
    *BEGAN.get_or_init(Instant::now)
}

pub struct Progress {
    terminal: bool,
    shown: bool,
    next: Instant,
}

impl Progress {
    pub fn new(quiet: bool) -> Progress {
        Progress::from(!quiet && io::stderr().is_terminal(), began())
    }

    fn from(terminal: bool, began: Instant) -> Progress {
        Progress {
            terminal,
            shown: false,
            next: began + FIRST,
        }
    }

    /// Shows the number, if it is time.
    pub fn show(&mut self, file: &str, lines: u64) {
        if self.terminal && self.is_due(Instant::now()) {
            let s = if lines == 1 { "" } else { "s" };
            let _ = write!(io::stderr(), "\r{file}: {lines} line{s} read");
        }
    }

    fn is_due(&mut self, now: Instant) -> bool {
        let due = now >= self.next;
        if due {
            self.shown = true;
            self.next = now + PAUSE;
        }
        due
    }

    /// Clears the terminal's line, so that something else can be told.
    pub fn clear(&mut self) {
        if self.shown {
            let _ = write!(io::stderr(), "\r\x1b[K");
            self.shown = false;
        }
    }
}

impl Drop for Progress {
    fn drop(&mut self) {
        self.clear();
    }
}

#[cfg(test)]
mod tests {
    use super::*;

    #[test]
    fn progress_is_due_after_two_seconds_and_then_now_and_then() {
        let began = Instant::now();
        let mut progress = Progress::from(false, began);
        let due: Vec<u64> = (0..4_000)
            .step_by(100)
            .filter(|after| progress.is_due(began + Duration::from_millis(*after)))
            .collect();
        assert_eq!(due, [2_000, 2_500, 3_000, 3_500]);
    }
}
