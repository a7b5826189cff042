//! The line that says what takes longer than a second: on a terminal only, and gone afterwards.

mod common;

use common::*;
use std::ffi::{c_char, c_int, CStr};
use std::fs::{self, File, OpenOptions};
use std::io::{Read, Write};
use std::os::fd::{AsRawFd, FromRawFd};
use std::process::Stdio;
use std::time::Duration;

extern "C" {
    fn posix_openpt(flags: c_int) -> c_int;
    fn grantpt(master: c_int) -> c_int;
    fn unlockpt(master: c_int) -> c_int;
    fn ptsname_r(master: c_int, name: *mut c_char, length: usize) -> c_int;
}

/// To read and write, not to become the one that controls this process, not for children (O_RDWR, O_NOCTTY and O_CLOEXEC of Linux).
const FLAGS: c_int = 0o2 | 0o400 | 0o2_000_000;

/// A terminal: the side that is read here, and the side that a command writes to.
fn terminal() -> (File, File) {
    let mut name = [0; 64];
    let number = unsafe { posix_openpt(FLAGS) };
    assert!(number >= 0, "no terminal is to be had");
    let master = unsafe { File::from_raw_fd(number) };
    let opened = unsafe {
        [
            grantpt(master.as_raw_fd()),
            unlockpt(master.as_raw_fd()),
            ptsname_r(master.as_raw_fd(), name.as_mut_ptr(), name.len()),
        ]
    };
    assert_eq!(opened, [0; 3], "no terminal is to be had");
    let name = unsafe { CStr::from_ptr(name.as_ptr()) }.to_str().unwrap();
    let slave = OpenOptions::new().read(true).write(true).open(name).unwrap();
    (master, slave)
}

/// What is read until the other side is closed, or a text has come.
fn read_until(master: &mut File, wanted: &str) -> String {
    let (mut told, mut byte) = (Vec::new(), [0]);
    // Linux answers with an error once the other side is closed.
    while matches!(master.read(&mut byte), Ok(1)) {
        told.push(byte[0]);
        if !wanted.is_empty() && told.ends_with(wanted.as_bytes()) {
            break;
        }
    }
    String::from_utf8(told).unwrap()
}

/// A pack whose input comes only once the line has been seen: the line, then blanks in its place, then nothing.
#[test]
fn a_line_is_shown_and_removed() {
    let home = directory("progress");
    let (mut master, slave) = terminal();
    let mut child = command(&home, &["pack", "-", "-o", "-"]).stderr(slave).spawn().unwrap();
    let front = "\rbarthovin: reading 1 file: ";
    let line = read_until(&mut master, " s");
    // On a slow machine more than a second may have passed, here and afterwards.
    let seconds =
        line.strip_prefix(front).and_then(|rest| rest.strip_suffix(" s")).unwrap_or_else(|| panic!("{line:?}"));
    assert!(seconds.parse::<u32>().unwrap() >= 1);
    child.stdin.take().unwrap().write_all(&bytes(BUNDLE)).unwrap();
    let mut rest = read_until(&mut master, "");
    while let Some(more) = rest.strip_prefix(front) {
        rest = more.split_once(" s").unwrap().1.to_string();
    }
    assert_eq!(rest.trim_end_matches('\r').trim_matches(' '), "\r");
    assert!(rest.len() > line.len() && rest.ends_with('\r'), "{rest:?}");
    let output = child.wait_with_output().unwrap();
    assert_eq!((output.status.code(), output.stdout), (Some(0), bytes(PACKAGE)));
}

/// What is done at once says nothing, and neither does what isn't watched.
#[test]
fn no_line_where_none_is_wanted() {
    let home = directory("no-progress");
    fs::write(home.join("package"), bytes(PACKAGE)).unwrap();
    for call in [&["pack", EXAMPLE, "-o", "-"][..], &["verify", "package", EXAMPLE], &["list", "package"]] {
        let (mut master, slave) = terminal();
        let mut child = command(&home, call).stdin(Stdio::null()).stderr(slave).spawn().unwrap();
        assert_eq!(read_until(&mut master, ""), "", "{call:?}");
        assert!(child.wait().unwrap().success());
    }
    let mut child = command(&home, &["pack", "-", "-o", "-"]).spawn().unwrap();
    std::thread::sleep(Duration::from_millis(1_500));
    child.stdin.take().unwrap().write_all(&bytes(BUNDLE)).unwrap();
    let output = child.wait_with_output().unwrap();
    assert_eq!((message(&output), output.stdout), (String::new(), bytes(PACKAGE)));
}
