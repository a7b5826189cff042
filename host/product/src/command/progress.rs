//! A line on a terminal while something takes longer than a second.

use std::io::{self, IsTerminal, Write};
use std::sync::mpsc::{self, RecvTimeoutError};
use std::thread;
use std::time::{Duration, Instant};

const PATIENCE: Duration = Duration::from_secs(1);

/// Does it; where standard error is a terminal, a line there says what is done and for how long, and is gone afterwards.
pub fn shown<T>(about: String, work: impl FnOnce() -> T) -> T {
    if !io::stderr().is_terminal() {
        return work();
    }
    let (done, waiting) = mpsc::channel::<()>();
    let teller = thread::spawn(move || {
        let start = Instant::now();
        let mut width = 0;
        while waiting.recv_timeout(PATIENCE) == Err(RecvTimeoutError::Timeout) {
            let line = format!("barthovin: {about}: {} s", start.elapsed().as_secs());
            width = line.len();
            // It is only a help; where it can't be written nothing is lost.
            let _ = write!(io::stderr(), "\r{line}").and_then(|()| io::stderr().flush());
        }
        if width > 0 {
            let _ = write!(io::stderr(), "\r{:width$}\r", "");
        }
    });
    let result = work();
    drop(done);
    // It ends by itself once the channel is closed.
    let _ = teller.join();
    result
}
