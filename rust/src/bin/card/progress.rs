//! A line on standard error that tells how far the reading of a long capture
//! has come, where that is a terminal.

use crate::terminal;
use std::io::{self, Write};
use std::time::{Duration, Instant};

/// How long the line waits before it first shows, and between two.
const PAUSE: Duration = Duration::from_millis(500);

/// How far the reading has come.
pub struct Progress {
    terminal: bool,
    /// All bytes, if they are known.
    total: Option<u64>,
    read: u64,
    /// When the line was drawn, or the reading begun.
    last: Instant,
    /// Whether it was drawn, and whether it is there now.
    drawn: bool,
    visible: bool,
}

impl Progress {
    pub fn new(total: Option<u64>) -> Progress {
        Progress {
            terminal: terminal::is_able(&io::stderr()),
            total,
            read: 0,
            last: Instant::now(),
            drawn: false,
            visible: false,
        }
    }

    /// So many bytes more are read, and so many pages in all.
    pub fn read(&mut self, count: usize, pages: u64) {
        self.read += count as u64;
        let hidden = self.drawn && !self.visible;
        if self.terminal && (hidden || self.last.elapsed() >= PAUSE) {
            self.last = Instant::now();
            (self.drawn, self.visible) = (true, true);
            // A line that is not seen is no failure.
            let _ = write!(
                io::stderr(),
                "\r{}\x1B[K",
                line(self.read, self.total, pages)
            );
        }
    }

    /// Takes the line away, to be drawn again with the next bytes.
    pub fn hide(&mut self) {
        if self.visible {
            let _ = io::stderr().write_all(b"\r\x1B[K");
            self.visible = false;
        }
    }
}

/// The words of the line: bytes, pages and the share that is done.
fn line(read: u64, total: Option<u64>, pages: u64) -> String {
    let (whole, tenth) = (read / 1_000_000, read / 100_000 % 10);
    let many = if pages == 1 { "" } else { "s" };
    let share = total.filter(|&total| total > 0);
    let share = share.map(|total| format!(", {} %", read.min(total) * 100 / total));
    let share = share.unwrap_or_default();
    format!("{whole}.{tenth} MB, {pages} page{many}{share}")
}

#[cfg(test)]
mod tests {
    use super::line;

    #[test]
    fn bytes_pages_and_share() {
        assert_eq!(line(0, Some(0), 0), "0.0 MB, 0 pages");
        assert_eq!(line(99_999, None, 1), "0.0 MB, 1 page");
        assert_eq!(line(12_345_678, None, 9), "12.3 MB, 9 pages");
        assert_eq!(
            line(25_000_000, Some(100_000_000), 7),
            "25.0 MB, 7 pages, 25 %"
        );
        assert_eq!(
            line(100_000_000, Some(99_000_000), 7),
            "100.0 MB, 7 pages, 100 %"
        );
    }
}
