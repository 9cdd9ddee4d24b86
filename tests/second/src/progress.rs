//! How far a comparison is, on one line of a terminal. A log has nothing of it.

use std::io::{self, IsTerminal, Stderr, Write};
use std::time::{Duration, Instant};

/// How long a line stands before another one may take its place.
const STANDS: Duration = Duration::from_millis(100);

/// Back to the beginning of the line, and nothing behind.
const EMPTY_LINE: &str = "\r\x1b[K";

/// A line that shows how far something is; nothing where nobody looks.
pub struct Progress<W: Write> {
    output: Option<W>,
    shown: Option<Instant>,
}

impl Progress<Stderr> {
    /// A line on standard error, if that is a terminal.
    pub fn on_terminal() -> Progress<Stderr> {
        let output = io::stderr();
        Progress { output: output.is_terminal().then_some(output), shown: None }
    }
}

impl<W: Write> Progress<W> {
    /// Shows a line in place of the last one, when that has stood for a while.
    pub fn show(&mut self, line: impl FnOnce() -> String) {
        let Some(output) = &mut self.output else { return };
        if self.shown.is_none_or(|shown| shown.elapsed() >= STANDS) {
            self.shown = Some(Instant::now());
            // A terminal that has gone away is no reason to stop.
            let _ = write!(output, "{EMPTY_LINE}{}", line()).and_then(|()| output.flush());
        }
    }

    /// Takes the line away; ahead of anything else that is printed.
    pub fn clear(&mut self) {
        if let (Some(output), Some(_)) = (&mut self.output, self.shown.take()) {
            let _ = write!(output, "{EMPTY_LINE}").and_then(|()| output.flush());
        }
    }
}

/// So many of so many, where there is a bound.
pub fn so_many(done: u64, bound: u64, what: &str) -> String {
    match bound {
        u64::MAX => format!("{done} {what}"),
        _ => format!("{done} of {bound} {what}"),
    }
}

#[cfg(test)]
mod tests {
    use super::*;

    /// What a line leaves on a terminal that is shown two of them at once and then cleared.
    fn written(output: Option<&mut Vec<u8>>) {
        let mut progress = Progress { output, shown: None };
        progress.show(|| so_many(1, 9, "schedules"));
        progress.show(|| so_many(2, 9, "schedules"));
        progress.clear();
        progress.clear();
    }

    #[test]
    fn a_terminal_gets_one_line_and_is_left_clean() {
        let mut terminal = Vec::new();
        written(Some(&mut terminal));
        assert_eq!(String::from_utf8_lossy(&terminal), format!("{EMPTY_LINE}1 of 9 schedules{EMPTY_LINE}"));
        written(None);
    }

    #[test]
    fn no_bound_is_not_shown() {
        assert_eq!(so_many(7, u64::MAX, "seconds"), "7 seconds");
    }
}
