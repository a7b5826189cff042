//! The standard streams as the command was given them.

use std::sync::atomic::{AtomicBool, Ordering};

const STANDARD_OUTPUT: i32 = 1;
/// Asks a descriptor for its flags, which only an open one has.
const FLAGS: i32 = 1;

extern "C" {
    fn fcntl(descriptor: i32, command: i32, ...) -> i32;
}

static IS_CLOSED: AtomicBool = AtomicBool::new(false);

/// Looks whether standard output is closed. Rust opens /dev/null in its place before `main`, so that this is called before.
pub extern "C" fn look() {
    // It changes nothing.
    let flags = unsafe { fcntl(STANDARD_OUTPUT, FLAGS) };
    IS_CLOSED.store(flags == -1, Ordering::Relaxed);
}

/// Whether the command was started with its standard output closed: what is written there is lost.
pub fn output_is_closed() -> bool {
    IS_CLOSED.load(Ordering::Relaxed)
}
