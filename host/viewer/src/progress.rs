//! A line of progress on standard error, where a run takes more than a second.

use std::io::{self, IsTerminal};
use std::time::{Duration, Instant};

/// So long nothing is said, and from then on between two lines.
const QUIET: Duration = Duration::from_secs(1);

pub struct Progress {
    begun: Instant,
    lines: Lines,
}

impl Progress {
    /// The number of picks, if it is known.
    pub fn start(whole: Option<usize>) -> Progress {
        let terminal = io::stderr().is_terminal();
        Progress { begun: Instant::now(), lines: Lines { whole, terminal, next: QUIET, said: false } }
    }

    /// One that says nothing.
    pub fn none() -> Progress {
        let mut progress = Progress::start(None);
        progress.lines.next = Duration::MAX;
        progress
    }

    /// So many picks are done.
    pub fn tick(&mut self, picks: usize) {
        // a clock is read every 64 picks
        if picks.is_multiple_of(64) {
            if let Some(line) = self.lines.due(self.begun.elapsed(), picks) {
                crate::say(&line);
            }
        }
    }
}

impl Drop for Progress {
    fn drop(&mut self) {
        crate::say(self.lines.end());
    }
}

/// Which lines are written when; on a terminal each over the one before.
struct Lines {
    whole: Option<usize>,
    terminal: bool,
    next: Duration,
    said: bool,
}

impl Lines {
    fn due(&mut self, elapsed: Duration, picks: usize) -> Option<String> {
        if elapsed < self.next {
            return None;
        }
        self.next = elapsed + QUIET;
        self.said = true;
        let whole = self.whole.map(|whole| format!(" of {whole}")).unwrap_or_default();
        let line = format!("kuspigo: {picks}{whole} picks");
        Some(if self.terminal { format!("\r{line}") } else { format!("{line}\n") })
    }

    /// Clears what stands on a terminal.
    fn end(&self) -> &'static str {
        if self.said && self.terminal {
            "\r\x1b[K"
        } else {
            ""
        }
    }
}

#[cfg(test)]
mod tests {
    use super::*;

    fn lines(whole: Option<usize>, terminal: bool) -> Lines {
        Lines { whole, terminal, next: QUIET, said: false }
    }

    fn after(milliseconds: u64) -> Duration {
        Duration::from_millis(milliseconds)
    }

    #[test]
    fn nothing_in_the_first_second_then_a_line_a_second() {
        let mut lines = lines(Some(32_768), false);
        assert_eq!(lines.due(after(999), 64), None);
        assert_eq!(lines.due(after(1_000), 128).as_deref(), Some("kuspigo: 128 of 32768 picks\n"));
        assert_eq!(lines.due(after(1_999), 192), None);
        assert_eq!(lines.due(after(2_500), 256).as_deref(), Some("kuspigo: 256 of 32768 picks\n"));
        assert_eq!(lines.due(after(3_400), 320), None);
        assert_eq!(lines.end(), "");
    }

    #[test]
    fn a_terminal_has_one_line_and_is_left_clean() {
        let mut said = lines(None, true);
        assert_eq!(said.due(after(1_200), 640).as_deref(), Some("\rkuspigo: 640 picks"));
        assert_eq!(said.end(), "\r\x1b[K");
        assert_eq!(lines(None, true).end(), "");
    }
}
