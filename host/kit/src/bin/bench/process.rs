//! Whole processes: their processor time, their clock, and the most memory that they had.
//!
//! A process is counted from what the one that starts it holds then, so that the bench, which holds megabytes, starts itself once more as a small
//! launcher (`bench launch`), which starts the program, waits for it and says what it took.

use super::pages::{self, Pages};
use std::fs::File;
use std::io::{Error, Result};
use std::os::unix::process::CommandExt;
use std::path::{Path, PathBuf};
use std::process::{Command, Stdio};
use std::sync::mpsc;
use std::thread;
use std::time::{Duration, Instant};

#[repr(C)]
#[derive(Clone, Copy, Default)]
struct Time {
    seconds: i64,
    microseconds: i64,
}

/// What the system says of a child that has ended: both times, the most kilobytes, and 13 numbers more.
#[repr(C)]
#[derive(Default)]
struct Usage {
    user: Time,
    system: Time,
    kilobytes: i64,
    others: [i64; 13],
}

extern "C" {
    fn wait4(child: i32, status: *mut i32, options: i32, usage: *mut Usage) -> i32;
    fn kill(child: i32, signal: i32) -> i32;
}

const KILLED: i32 = 9;

/// One process that ended well.
#[derive(Clone, Copy, Debug, PartialEq, Eq)]
pub struct Process {
    /// Its own and the system's for it.
    pub time: Duration,
    /// From its start to its end, what it waited for included.
    pub clock: Duration,
    pub kilobytes: u64,
}

/// How a process came to its end.
#[derive(Clone, Copy, Debug, PartialEq, Eq)]
pub enum Ended {
    Well(Process),
    /// Its status is not 0.
    Badly,
    /// It was ended after so long.
    Never(Duration),
}

/// A program with its words, the pages that it may have, and where what it prints goes, if it is kept.
pub struct Program {
    pub words: Vec<String>,
    pub pages: Pages,
    pub prints_to: Option<PathBuf>,
}

/// A program longer at work is ended.
const PATIENCE: Duration = Duration::from_secs(10);

impl Program {
    /// Runs it to its end, or until patience ends. What it prints is dropped, unless it is kept.
    pub fn run(&self) -> Result<Ended> {
        let to = self.prints_to.as_deref().unwrap_or(Path::new("/dev/null"));
        let pages = if self.pages == Pages::Small { "small" } else { "huge" };
        let mut launcher = Command::new("/proc/self/exe");
        let told = launcher.args(["launch", pages]).arg(to).args(&self.words).stderr(Stdio::null()).output()?;
        let told = String::from_utf8_lossy(&told.stdout).into_owned();
        let numbers: Vec<u64> = told.split_whitespace().filter_map(|word| word.parse().ok()).collect();
        match (told.split_whitespace().next(), &numbers[..]) {
            (Some("well"), [time, clock, kilobytes]) => Ok(Ended::Well(Process {
                time: Duration::from_micros(*time),
                clock: Duration::from_nanos(*clock),
                kilobytes: *kilobytes,
            })),
            (Some("badly"), _) => Ok(Ended::Badly),
            (Some("never"), _) => Ok(Ended::Never(PATIENCE)),
            _ => Err(Error::other(format!("{} was not started", self.words[0]))),
        }
    }
}

fn microseconds(time: Time) -> u64 {
    time.seconds as u64 * 1_000_000 + time.microseconds as u64
}

/// The launcher: the pages, where what is printed goes, and the program with its words. It prints one line.
pub fn launch(words: &[String]) -> Result<()> {
    let [pages, to, program, rest @ ..] = words else { return Err(Error::other("bench launch PAGES FILE PROGRAM..")) };
    pages::allow(if pages == "small" { Pages::Small } else { Pages::Huge })?;
    let mut command = Command::new(program);
    command.args(rest).stdin(Stdio::null()).stdout(File::create(to)?).stderr(Stdio::null());
    // With something to do before, the child is a fork, which holds less than what shares all of this one's memory until it is the program.
    unsafe { command.pre_exec(|| Ok(())) };
    let start = Instant::now();
    let child = command.spawn()?.id() as i32;
    let (ended, waits) = mpsc::channel::<()>();
    let guard = thread::spawn(move || match waits.recv_timeout(PATIENCE) {
        // The child is our own, and has not been waited for.
        Err(mpsc::RecvTimeoutError::Timeout) => unsafe { kill(child, KILLED) },
        _ => 0,
    });
    let (mut status, mut usage) = (0, Usage::default());
    // It writes the two.
    let waited = unsafe { wait4(child, &mut status, 0, &mut usage) };
    let clock = start.elapsed();
    drop(ended);
    let _ = guard.join();
    match (waited == child, status) {
        (false, _) => Err(Error::last_os_error()),
        (_, 0) => {
            let time = microseconds(usage.user) + microseconds(usage.system);
            println!("well {time} {} {}", clock.as_nanos(), usage.kilobytes);
            Ok(())
        }
        (_, KILLED) if clock >= PATIENCE => {
            println!("never");
            Ok(())
        }
        _ => {
            println!("badly");
            Ok(())
        }
    }
}

/// Whether a program can be started at all.
pub fn is_at_hand(program: &str) -> bool {
    Command::new(program).arg("--version").stdout(Stdio::null()).stderr(Stdio::null()).status().is_ok()
}
