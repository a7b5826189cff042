//! The command: packages made and asked, by the proved functions.

use std::ffi::OsString;
use std::process::ExitCode;

/// Called before Rust's own start, which hides a closed stream.
#[used]
#[link_section = ".init_array"]
static BEFORE: extern "C" fn() = barthovin::command::look;

fn main() -> ExitCode {
    let arguments: Vec<OsString> = std::env::args_os().skip(1).collect();
    ExitCode::from(barthovin::command::run(&arguments))
}
