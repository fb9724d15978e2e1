//! What a long call is at, reported on standard error where that is a terminal.

use std::io::{self, IsTerminal, Write};
use std::sync::atomic::{AtomicUsize, Ordering};
use std::sync::mpsc::{self, Receiver, RecvTimeoutError, Sender};
use std::sync::Arc;
use std::thread::{self, JoinHandle};
use std::time::{Duration, Instant};

/// How long a stage takes before it is reported, and how often it then is.
const STEP: Duration = Duration::from_secs(1);

/// A stage of the work. While it lives a line on standard error says what is
/// done, for how long, and over how many bytes; at its end the line is wiped.
/// A proved call is made in one piece, so a run shows its time alone.
pub struct Progress {
    bytes: Arc<AtomicUsize>,
    teller: Option<Teller>,
}

/// A thread that reports, and the channel that ends it when it is dropped.
struct Teller {
    end: Sender<()>,
    thread: JoinHandle<()>,
}

impl Progress {
    /// Begins a stage. Where standard error is no terminal, nothing is reported.
    pub fn of(stage: &str) -> Progress {
        let bytes = Arc::new(AtomicUsize::new(0));
        let terminal = io::stderr().is_terminal();
        let teller = terminal.then(|| Teller::new(stage.to_owned(), Arc::clone(&bytes)));
        Progress { bytes, teller }
    }

    /// So many bytes are done.
    pub fn count(&self, bytes: usize) {
        self.bytes.store(bytes, Ordering::Relaxed);
    }
}

impl Drop for Progress {
    fn drop(&mut self) {
        if let Some(Teller { end, thread }) = self.teller.take() {
            drop(end);
            // The line is wiped before anything else is reported.
            let _ = thread.join();
        }
    }
}

impl Teller {
    fn new(stage: String, bytes: Arc<AtomicUsize>) -> Teller {
        let (end, ended) = mpsc::channel();
        let thread = thread::spawn(move || tell(&stage, &bytes, &ended, &mut io::stderr()));
        Teller { end, thread }
    }
}

/// Reports a stage at each step until it has ended. A terminal that can't be
/// written is no reason to end the work.
fn tell(stage: &str, bytes: &AtomicUsize, ended: &Receiver<()>, terminal: &mut dyn Write) {
    let began = Instant::now();
    let mut told = false;
    while ended.recv_timeout(STEP) == Err(RecvTimeoutError::Timeout) {
        let line = line(stage, bytes.load(Ordering::Relaxed), began.elapsed());
        let _ = write!(terminal, "\r{line}\x1b[K").and_then(|()| terminal.flush());
        told = true;
    }
    if told {
        let _ = write!(terminal, "\r\x1b[K").and_then(|()| terminal.flush());
    }
}

/// What is reported of a stage after so many bytes and so much time.
fn line(stage: &str, bytes: usize, time: Duration) -> String {
    let seconds = time.as_secs();
    match bytes {
        0 => format!("hogvax: {stage}, {seconds} s"),
        _ => format!("hogvax: {stage}, {}, {seconds} s", size(bytes)),
    }
}

/// A number of bytes in the unit that suits it.
pub fn size(bytes: usize) -> String {
    match bytes {
        0..=9_999 => format!("{bytes} bytes"),
        10_000..=9_999_999 => format!("{} kB", bytes / 1_000),
        _ => format!("{} MB", bytes / 1_000_000),
    }
}

#[cfg(test)]
mod tests {
    use super::*;

    #[test]
    fn a_line_has_the_stage_its_bytes_and_its_seconds() {
        let time = Duration::from_millis(2_900);
        assert_eq!(line("running", 0, time), "hogvax: running, 2 s");
        let read = line("reading", 12_345_678, time);
        assert_eq!(read, "hogvax: reading, 12 MB, 2 s");
    }

    #[test]
    fn sizes_have_the_unit_that_suits_them() {
        for (bytes, text) in [
            (1, "1 bytes"),
            (9_999, "9999 bytes"),
            (10_000, "10 kB"),
            (9_999_999, "9999 kB"),
            (10_000_000, "10 MB"),
            (usize::MAX, "18446744073709 MB"),
        ] {
            assert_eq!(size(bytes), text);
        }
    }

    #[test]
    fn a_short_stage_tells_nothing() {
        let (end, ended) = mpsc::channel();
        drop(end);
        let mut terminal = Vec::new();
        tell("running", &AtomicUsize::new(0), &ended, &mut terminal);
        assert_eq!(terminal, b"");
    }

    #[test]
    fn a_long_stage_is_told_and_then_wiped() {
        let (end, ended) = mpsc::channel();
        let ends = thread::spawn(move || {
            thread::sleep(STEP + STEP / 2);
            drop(end);
        });
        let mut terminal = Vec::new();
        tell("reading", &AtomicUsize::new(7), &ended, &mut terminal);
        ends.join().unwrap();
        assert!(terminal.starts_with(b"\rhogvax: reading, 7 bytes, 1 s\x1b[K\r"));
        assert!(terminal.ends_with(b" s\x1b[K\r\x1b[K"));
    }
}
