//! `-` is standard input wherever a file is read and standard output wherever one is written, for packages as they are and as ELF files.

mod common;

use common::*;
use std::fs;
use std::path::Path;
use std::process::Output;

const FILE: &str = concat!(env!("CARGO_MANIFEST_DIR"), "/../../examples/real/files/gcc-5-main.dwo");
const OTHER: &str = concat!(env!("CARGO_MANIFEST_DIR"), "/../../examples/real/files/gcc-5-race.dwo");

fn done(output: &Output) -> Vec<u8> {
    assert_eq!((message(output), status(output)), (String::new(), 0));
    output.stdout.clone()
}

#[test]
fn what_is_packed_and_what_is_written() {
    let home = directory("streams-pack");
    let file = fs::read(FILE).unwrap();
    let named = |arguments: &[&str]| {
        done(&run_in(&home, arguments, &[]));
        fs::read(home.join(arguments[arguments.len() - 1])).unwrap()
    };
    let streamed = |arguments: &[&str]| done(&run_in(&home, arguments, &file));
    assert!(streamed(&["bundle", "-", "-o", "-"]) == named(&["bundle", FILE, "-o", "bundle"]));
    assert!(streamed(&["pack", "-", "-o-"]) == named(&["pack", FILE, "-o", "package"]));
    assert!(streamed(&["pack", "-", "--elf", "--output=-"]) == named(&["pack", FILE, "-o", "out.dwp"]));
    assert!(streamed(&["pack", "-", OTHER, "-o-"]) == named(&["pack", FILE, OTHER, "-o", "both"]));
    assert!(streamed(&["pack", OTHER, "-", "-o-"]) == named(&["pack", OTHER, FILE, "-o", "turned"]));
    let listed = run_in(&home, &["pack", "@-", "-o-"], format!("{FILE}\n{OTHER}\n").as_bytes());
    assert!(done(&listed) == fs::read(home.join("both")).unwrap());
    assert_eq!(names(&home), ["both", "bundle", "out.dwp", "package", "turned"]);
}

/// What a command says of a file by its name and through standard input.
fn alike(home: &Path, name: &str, call: &dyn Fn(&str) -> Vec<String>) {
    let words = |name: &str| call(name);
    let run = |name: &str, input: &[u8]| {
        let words = words(name);
        run_in(home, &words.iter().map(String::as_str).collect::<Vec<_>>(), input)
    };
    let (named, streamed) = (run(name, &[]), run("-", &fs::read(home.join(name)).unwrap()));
    assert!(!named.stdout.is_empty() && message(&named).is_empty(), "{:?}: {}", words(name), message(&named));
    assert_eq!((text(&streamed), message(&streamed)), (text(&named), String::new()), "{:?}", words(name));
    assert_eq!((status(&named), status(&streamed)), (0, 0), "{:?}", words(name));
}

#[test]
fn packages_are_read() {
    let home = directory("streams-read");
    done(&run_in(&home, &["pack", FILE, "-o", "package"], &[]));
    done(&run_in(&home, &["pack", FILE, "-o", "package.dwp"], &[]));
    let list = text(&run_in(&home, &["list", "package"], &[]));
    let identity = list.split("unit cu ").nth(1).unwrap().split(':').next().unwrap();
    fs::write(home.join("questions"), format!("cu {identity} section info\ncu {identity} string 0\n")).unwrap();
    let lookup = format!("lookup NAME cu {identity} section info");
    let string = format!("lookup NAME cu {identity} string 0 --raw");
    let verify = format!("verify NAME {FILE}");
    let calls = [
        "list NAME",
        "list NAME --json",
        "sheet NAME",
        "profile NAME",
        &lookup,
        &string,
        &verify,
        "lookup NAME -qquestions",
    ];
    for call in calls {
        for name in ["package", "package.dwp"] {
            alike(&home, name, &|name| call.replace("NAME", name).split(' ').map(str::to_string).collect());
        }
    }
    // The other file of the call.
    alike(&home, "questions", &|name| ["lookup", "package", "-q", name].map(str::to_string).to_vec());
    fs::copy(FILE, home.join("main.dwo")).unwrap();
    alike(&home, "main.dwo", &|name| ["verify", "package.dwp", name].map(str::to_string).to_vec());
    let pages = run_in(&home, &["sheet", "--pages", "-"], &fs::read(home.join("package")).unwrap());
    assert!(text(&pages).starts_with("standard input, "));
}

/// Standard input can be read once.
#[test]
fn standard_input_is_named_once() {
    let home = directory("streams-twice");
    let twice = |arguments: &[&str], input: &[u8]| {
        let output = run_in(&home, arguments, input);
        let told = "barthovin: standard input is named twice, and can be read once\n";
        assert_eq!(
            (message(&output).as_str(), text(&output).as_str(), status(&output)),
            (told, "", 2),
            "{arguments:?}"
        );
    };
    twice(&["pack", "-", "-", "-o-"], &fs::read(FILE).unwrap());
    twice(&["pack", "@-", "-o-"], b"-\n");
    twice(&["pack", "@-", "@-", "-o-"], FILE.as_bytes());
    twice(&["pack", "--add", "-", "-", "-o-"], &bytes(PACKAGE));
    twice(&["verify", "-", "-"], &bytes(PACKAGE));
    twice(&["verify", "-", FILE, "@-"], &bytes(PACKAGE));
    assert_eq!(names(&home), [""; 0]);
}

/// A file of a machine that has no name here too is written for it.
#[test]
fn the_machine_of_the_file_is_taken() {
    let home = directory("streams-machine");
    let big = concat!(env!("CARGO_MANIFEST_DIR"), "/../../examples/real/files/clang-5be-race.dwo");
    for (machine, written) in [([0, 21], [0, 21]), ([0x12, 0x34], [0x12, 0x34]), ([0, 0], [0, 62])] {
        let mut file = fs::read(big).unwrap();
        file[18..20].copy_from_slice(&machine);
        let output = run_in(&home, &["pack", "-", "--elf", "-o-"], &file);
        assert_eq!((status(&output), &output.stdout[18..20]), (0, &written[..]));
        let usual = "written for machine 62 (x86-64), since no file says a machine: --machine names another\n";
        assert_eq!(message(&output), if machine == [0, 0] { usual } else { "" });
    }
    assert_eq!(names(&home), [""; 0]);
}
