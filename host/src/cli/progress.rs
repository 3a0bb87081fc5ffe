//! A bar on standard error that shows how far the work is. It is drawn on a terminal only, and only where the work lasts; at the end
//! it is wiped away.

use std::io::{self, IsTerminal, Write};
use std::sync::atomic::{AtomicUsize, Ordering};
use std::sync::Mutex;
use std::time::{Duration, Instant};

/// Work that takes less than this is not shown.
const PATIENCE: Duration = Duration::from_millis(500);
/// The columns of the bar.
const COLUMNS: usize = 30;

/// How far a piece of work is. Any thread may add to it.
pub struct Progress {
    what: &'static str,
    total: usize,
    done: AtomicUsize,
    /// When the bar may be drawn first; never, where nobody looks.
    from: Option<Instant>,
    /// What stands on the terminal.
    shown: Mutex<String>,
}

impl Progress {
    /// Of work on so many blocks.
    pub fn new(what: &'static str, total: usize) -> Self {
        let from = io::stderr().is_terminal().then(|| Instant::now() + PATIENCE);
        Self { what, total, done: AtomicUsize::new(0), from, shown: Mutex::default() }
    }

    /// So many blocks more are done.
    pub fn add(&self, blocks: usize) {
        self.done.fetch_add(blocks, Ordering::Relaxed);
        if self.from.is_some_and(|from| Instant::now() >= from) {
            // Where another thread draws, this one goes on with its work.
            if let Ok(mut shown) = self.shown.try_lock() {
                replace(&mut shown, line(self.what, self.done.load(Ordering::Relaxed), self.total));
            }
        }
    }
}

/// Nothing is left of the bar.
impl Drop for Progress {
    fn drop(&mut self) {
        if let Ok(shown) = self.shown.get_mut() {
            replace(shown, String::new());
        }
    }
}

/// Draws a line in the place of what is shown, where it is another.
fn replace(shown: &mut String, line: String) {
    if line != *shown {
        // Where nothing can be written, there is nobody to be shown anything.
        let _ = io::stderr().write_all(over(shown, &line).as_bytes());
        *shown = line;
    }
}

/// What a terminal is told so that one line stands where another one was: spaces wipe away what is longer.
fn over(earlier: &str, line: &str) -> String {
    let wiped = if earlier.len() > line.len() { format!("\r{:1$}", "", earlier.len()) } else { String::new() };
    format!("{wiped}\r{line}")
}

/// The line of the bar: what is done, and how much of it.
fn line(what: &str, done: usize, total: usize) -> String {
    let share = |of: usize| (done.min(total) * of).checked_div(total).unwrap_or(of);
    format!("{what} [{:.<COLUMNS$}] {:3} %", "#".repeat(share(COLUMNS)), share(100))
}

#[cfg(test)]
mod tests {
    use super::{line, over};

    #[test]
    fn a_line_shows_the_share() {
        assert_eq!(line("sealing", 0, 1_048_576), "sealing [..............................]   0 %");
        assert_eq!(line("sealing", 524_287, 1_048_576), "sealing [##############................]  49 %");
        assert_eq!(line("sealing", 524_288, 1_048_576), "sealing [###############...............]  50 %");
        assert_eq!(line("checking", 1_048_575, 1_048_576), "checking [#############################.]  99 %");
        assert_eq!(line("checking", 1_048_576, 1_048_576), "checking [##############################] 100 %");
    }

    #[test]
    fn a_line_never_shows_more_than_all() {
        assert_eq!(line("sealing", 9, 8), line("sealing", 8, 8));
        assert_eq!(line("sealing", 0, 0), line("sealing", 8, 8));
    }

    #[test]
    fn every_line_is_as_long_as_the_others() {
        for done in 0..=1_000 {
            assert_eq!(line("sealing", done, 1_000).len(), line("sealing", 0, 1_000).len());
        }
    }

    #[test]
    fn a_line_takes_the_place_of_another() {
        assert_eq!(over("", "new"), "\rnew");
        assert_eq!(over("old", "new"), "\rnew");
        assert_eq!(over("older", "new"), "\r     \rnew");
        assert_eq!(over("older", ""), "\r     \r");
    }
}
