//! A progress bar on standard error, where that is a terminal.

use std::io::{self, IsTerminal, Write};
use std::sync::atomic::{AtomicU64, Ordering};
use std::thread;
use std::time::Duration;

const WIDTH: u64 = 40;
const PAUSE: Duration = Duration::from_millis(100);

/// Shows how many of `total` are done until `ended`; returns at once where there is no terminal.
pub fn watch(done: &AtomicU64, total: u64, ended: impl Fn() -> bool) {
    if !io::stderr().is_terminal() {
        return;
    }
    while !ended() {
        show(&line(done.load(Ordering::Relaxed), total));
        thread::sleep(PAUSE);
    }
    show(&format!("{}\r", " ".repeat(line(total, total).len())));
}

fn line(done: u64, total: u64) -> String {
    let filled = done * WIDTH / total;
    let bar: String = (0..WIDTH).map(|place| if place < filled { '#' } else { '.' }).collect();
    format!("[{bar}] {:3} %", 100 * done / total)
}

fn show(text: &str) {
    let mut err = io::stderr();
    let _ = write!(err, "\r{text}").and_then(|_| err.flush());
}
