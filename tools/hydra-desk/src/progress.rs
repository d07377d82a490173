//! A bar on standard error, if that is a terminal and the work takes longer than two seconds.

use std::io::{self, IsTerminal, Write};
use std::sync::atomic::{AtomicBool, AtomicU64, Ordering};
use std::sync::Arc;
use std::thread::{self, JoinHandle};
use std::time::{Duration, Instant};

const PATIENCE: Duration = Duration::from_secs(2);
const TICK: Duration = Duration::from_millis(100);
const WIDTH: u64 = 40;

pub struct Progress {
    pub read: Arc<AtomicU64>,
    done: Arc<AtomicBool>,
    ticker: Option<JoinHandle<()>>,
}

impl Progress {
    /// Of files with so many bytes in all; none where that isn't known.
    pub fn of(names: &[String]) -> Progress {
        let size = |name: &String| Some(std::fs::metadata(name).ok()?.len());
        let total: Option<u64> = names.iter().map(size).sum();
        let read = Arc::new(AtomicU64::new(0));
        let done = Arc::new(AtomicBool::new(false));
        let ticker = io::stderr().is_terminal().then(|| {
            let (read, done) = (read.clone(), done.clone());
            thread::spawn(move || tick(&read, &done, total))
        });
        Progress { read, done, ticker }
    }
}

impl Drop for Progress {
    fn drop(&mut self) {
        self.done.store(true, Ordering::Relaxed);
        if let Some(ticker) = self.ticker.take() {
            // It is not waited for until its next tick.
            ticker.thread().unpark();
            let _ = ticker.join();
        }
    }
}

fn tick(read: &AtomicU64, done: &AtomicBool, total: Option<u64>) {
    let begun = Instant::now();
    let mut shown = false;
    while !done.load(Ordering::Relaxed) {
        thread::park_timeout(TICK);
        if begun.elapsed() > PATIENCE {
            let _ = write!(
                io::stderr(),
                "\r{}",
                bar(read.load(Ordering::Relaxed), total)
            );
            shown = true;
        }
    }
    if shown {
        let _ = write!(io::stderr(), "\r\x1b[K");
    }
}

/// The bar, or only the bytes read where nobody knows how many there are.
fn bar(read: u64, total: Option<u64>) -> String {
    let megabytes = read / 1_000_000;
    match total {
        Some(total) if total > 0 => {
            let read = read.min(total);
            let full = (read * WIDTH / total) as usize;
            let rest = WIDTH as usize - full;
            let percent = read * 100 / total;
            format!(
                "[{}{}] {percent:3} %, {megabytes} MB",
                "#".repeat(full),
                "-".repeat(rest)
            )
        }
        _ => format!("{megabytes} MB"),
    }
}

#[cfg(test)]
mod tests {
    use super::bar;

    #[test]
    fn a_bar_fills_up() {
        assert!(bar(0, Some(10)).starts_with("[----"));
        assert!(bar(10, Some(10)).starts_with(&format!("[{}] 100 %", "#".repeat(40))));
        assert!(bar(99, Some(10)).contains("100 %"));
        assert_eq!(bar(3_000_000, None), "3 MB");
    }
}
