//! `examples/open.py`, which follows docs/FORMAT.md and uses nothing of ours, answers as the proved lookups do: on the vectors, and on
//! generated packages, whole and damaged.

use barthovin::answer::{Asked, Found};
use barthovin::ffi;
use kit::generate::{call, question, Question, Random};
use kit::reference::{pack, Packed};
use std::fmt::Write as _;
use std::io::Write;
use std::process::{Command, Stdio};

const SCRIPT: &str = concat!(env!("CARGO_MANIFEST_DIR"), "/../../examples/open.py");

/// What the script answers to lines of questions; none where Python is not at hand.
fn answers(questions: String) -> Option<Vec<String>> {
    let mut python = Command::new("python3");
    python.args([SCRIPT, "--answer"]).stdin(Stdio::piped()).stdout(Stdio::piped());
    let Ok(mut child) = python.spawn() else {
        println!("python3 is not at hand: the script is not tried");
        return None;
    };
    let mut input = child.stdin.take().unwrap();
    let writer = std::thread::spawn(move || input.write_all(questions.as_bytes()).unwrap());
    let output = child.wait_with_output().unwrap();
    writer.join().unwrap();
    assert!(output.status.success());
    Some(String::from_utf8(output.stdout).unwrap().lines().map(str::to_string).collect())
}

fn told(found: Found) -> String {
    match found {
        Found::Refused(number) => format!("refused {number}"),
        Found::Absent(looks) => format!("absent {looks}"),
        Found::Part { start, length, looks } => format!("part {start} {length} {looks}"),
    }
}

fn replay(vectors: &str, count: usize) {
    let lines = vectors.lines().map(|line| line.split('#').next().unwrap().trim()).filter(|line| !line.is_empty());
    let (questions, wanted): (Vec<&str>, Vec<&str>) = lines.map(|line| line.split_once(" = ").unwrap()).unzip();
    assert_eq!(wanted.len(), count);
    let Some(got) = answers(questions.join("\n") + "\n") else { return };
    assert_eq!(got, wanted);
}

#[test]
fn vectors() {
    replay(include_str!("vectors/lookup.txt"), 314);
    replay(include_str!("vectors/lookup-directed.txt"), 381);
}

#[test]
fn generated_packages() {
    let mut random = Random::new(30);
    let (mut questions, mut wanted) = (String::new(), Vec::new());
    while wanted.len() < 4_000 {
        let c = call(&mut random);
        let Packed::Made(package) = pack(&c.bundle, c.work, c.output) else { continue };
        for _ in 0..20 {
            let Question { package, version, table, identity, asked } = question(&mut random, &package);
            let (kind, number, found) = match asked {
                Asked::Section(code) => {
                    ("lookup", u64::from(code), ffi::lookup(&package, version, table, identity, code))
                }
                Asked::Entry(entry) => ("string", entry, ffi::lookup_string(&package, version, table, identity, entry)),
            };
            let hex: String = package.iter().map(|b| format!("{b:02x}")).collect();
            let hex = if hex.is_empty() { "-" } else { &hex };
            writeln!(questions, "{kind} {hex} {version} {table} {identity} {number}").unwrap();
            wanted.push(told(found));
        }
    }
    let Some(got) = answers(questions) else { return };
    assert_eq!(got.len(), wanted.len());
    for (at, (got, wanted)) in got.iter().zip(&wanted).enumerate() {
        assert_eq!(got, wanted, "question {at}");
    }
    for kind in ["part", "absent", "refused 21", "refused 22", "refused 23", "refused 24", "refused 25"] {
        assert!(wanted.iter().any(|answer| answer.starts_with(kind)), "{kind} never occurs");
    }
}
