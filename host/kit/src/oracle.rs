//! thorin, where it is at hand: a program that packs bundles with it.
//!
//! It reads (u32 length, bundle)* and writes (tag, u32 length, bytes)*, little-endian: tag 0 for a package, 1 for an error,
//! 2 for a panic. Where it is timed, three u64 stand between length and bytes: the nanoseconds of its steps.

use std::io::{Error, Read, Result, Write};
use std::process::{Child, ChildStdin, ChildStdout, Command, Stdio};
use std::time::Duration;

/// The processor time of the steps of an answer. Making the ELF files that thorin reads comes before them, and that thorin frees its memory after them;
/// neither is counted.
#[derive(Clone, Copy, Debug, PartialEq, Eq)]
pub struct Steps {
    /// thorin's `add_input_object` for each object, in which it reads the object's ELF file, and `finish`.
    pub packing: Duration,
    /// thorin's `write`: the package as an ELF file.
    pub writing: Duration,
    /// The way back from that file to a bundle, which is the program's own and no part of thorin.
    pub back: Duration,
}

impl Steps {
    fn read(bytes: &[u8; 24]) -> Steps {
        let [packing, writing, back] = std::array::from_fn(|i| {
            let number: [u8; 8] = std::array::from_fn(|k| bytes[8 * i + k]);
            Duration::from_nanos(u64::from_le_bytes(number))
        });
        Steps { packing, writing, back }
    }

    /// Each step's lesser.
    pub fn least(self, other: Steps) -> Steps {
        Steps {
            packing: self.packing.min(other.packing),
            writing: self.writing.min(other.writing),
            back: self.back.min(other.back),
        }
    }
}

pub struct Oracle {
    child: Child,
    questions: Option<ChildStdin>,
    answers: ChildStdout,
    question: Vec<u8>,
    is_timed: bool,
}

impl Oracle {
    pub fn start(path: &str) -> Result<Oracle> {
        Oracle::started(path, false)
    }

    /// One that says with each answer what its steps took.
    pub fn start_timed(path: &str) -> Result<Oracle> {
        Oracle::started(path, true)
    }

    fn started(path: &str, is_timed: bool) -> Result<Oracle> {
        let mut command = Command::new(path);
        command.arg(if is_timed { "--timed" } else { "--batch" });
        let mut child = command.stdin(Stdio::piped()).stdout(Stdio::piped()).spawn()?;
        let questions = child.stdin.take();
        let answers = child.stdout.take().ok_or_else(|| Error::other("no pipe"))?;
        Ok(Oracle { child, questions, answers, question: Vec::new(), is_timed })
    }

    /// The versions of what thorin is built with.
    pub fn version(path: &str) -> Result<String> {
        let told = Command::new(path).arg("--version").output()?;
        Ok(String::from_utf8_lossy(&told.stdout).trim().to_string())
    }

    /// The tag; the bytes are put in the place of what `answer` holds.
    pub fn ask(&mut self, bundle: &[u8], answer: &mut Vec<u8>) -> Result<u8> {
        self.ask_timed(bundle, answer).map(|(tag, _)| tag)
    }

    /// The same, with what the steps took where they are timed.
    pub fn ask_timed(&mut self, bundle: &[u8], answer: &mut Vec<u8>) -> Result<(u8, Option<Steps>)> {
        self.question.clear();
        self.question.extend((bundle.len() as u32).to_le_bytes());
        self.question.extend(bundle);
        let questions = self.questions.as_mut().ok_or_else(|| Error::other("no pipe"))?;
        questions.write_all(&self.question)?;
        let mut head = [0; 5];
        self.answers.read_exact(&mut head)?;
        let mut steps = [0; 24];
        if self.is_timed {
            self.answers.read_exact(&mut steps)?;
        }
        answer.resize(u32::from_le_bytes([head[1], head[2], head[3], head[4]]) as usize, 0);
        self.answers.read_exact(answer)?;
        let tag = head[0];
        Ok((tag, (self.is_timed && tag == 0).then(|| Steps::read(&steps))))
    }
}

impl Drop for Oracle {
    /// It ends where its questions end.
    fn drop(&mut self) {
        self.questions = None;
        let _ = self.child.wait();
    }
}
