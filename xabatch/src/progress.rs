//! A bar on standard error, where that is a terminal and there is much to read.

use std::io::{self, IsTerminal, Write};
use std::time::{Duration, Instant};

/// Less than this is read before anyone looks.
pub const LARGE: u64 = 64 << 20;
/// The same of what becomes text, or was text: that takes longer.
pub const LARGE_AS_TEXT: u64 = 4 << 20;
const WIDTH: u64 = 40;
const BETWEEN: Duration = Duration::from_millis(100);

/// The work in bytes, and how much of it is done. The bar goes when this does.
#[derive(Debug)]
pub struct Progress {
    total: u64,
    done: u64,
    /// When the bar was drawn last.
    drawn: Option<Instant>,
    shown: bool,
}

impl Progress {
    /// Of so much work; none is known of what comes through a pipe.
    pub fn of(total: Option<u64>) -> Progress {
        Progress::from(LARGE, total)
    }

    /// Of text to or from records. Where the lines themselves go to a terminal there is no bar between them.
    pub fn as_text(total: Option<u64>) -> Progress {
        let mut progress = Progress::from(LARGE_AS_TEXT, total);
        progress.shown &= !io::stdout().is_terminal();
        progress
    }

    /// With a bar if there is so much work or more.
    fn from(least: u64, total: Option<u64>) -> Progress {
        let total = total.unwrap_or(0);
        let shown = total >= least && io::stderr().is_terminal();
        Progress { total, done: 0, drawn: None, shown }
    }

    /// So many bytes more are done.
    pub fn add(&mut self, bytes: usize) {
        self.done += bytes as u64;
        let is_due = self.drawn.is_none_or(|drawn| drawn.elapsed() >= BETWEEN);
        if self.shown && is_due {
            self.drawn = Some(Instant::now());
            write(&format!("\r{}", bar(self.done, self.total)));
        }
    }
}

impl Drop for Progress {
    fn drop(&mut self) {
        if self.drawn.is_some() {
            let width = bar(self.total, self.total).len();
            write(&format!("\r{:width$}\r", ""));
        }
    }
}

/// A bar that cannot be written is no reason to stop.
fn write(text: &str) {
    let _ = io::stderr().write_all(text.as_bytes());
}

/// `[####....] 50 %`; never full before all is done.
pub fn bar(done: u64, total: u64) -> String {
    let part = |of: u64| {
        let part = u128::from(done.min(total)) * u128::from(of) / u128::from(total.max(1));
        part as usize
    };
    let filled = part(WIDTH);
    format!("[{}{}] {:3} %", "#".repeat(filled), ".".repeat(WIDTH as usize - filled), part(100))
}
