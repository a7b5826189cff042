//! The command as people know commands: help, version, wrong words named, and output that can't be written.

mod common;

use common::*;
use std::fs;
use std::io::Read;
use std::path::Path;
use std::process::Stdio;

#[test]
fn says_how_it_is_used() {
    let home = directory("usage");
    let told = |arguments: &[&str]| {
        let output = run_in(&home, arguments, &[]);
        assert_eq!((message(&output), status(&output)), (String::new(), 0), "{arguments:?}");
        text(&output)
    };
    let general = told(&["--help"]);
    assert!(general.starts_with("Usage: barthovin COMMAND "));
    assert_eq!((told(&["help"]), told(&["-h"])), (general.clone(), general.clone()));
    let version = told(&["--version"]);
    assert!(version.starts_with(concat!("barthovin ", env!("CARGO_PKG_VERSION"), "\n")));
    assert_eq!(told(&["-V"]), version);
    for command in commands(&home) {
        let command = command.as_str();
        let help = told(&[command, "--help"]);
        assert!(help.starts_with(&format!("Usage: barthovin {command} ")), "{help}");
        assert!(help.contains("Exit status: 0 ") && general.contains(&format!("  {command} ")));
        assert_eq!(told(&["help", command]), help);
        assert_eq!(told(&[command, "some", "words", "-h"]), help);
        assert_eq!(told(&[command, "--version"]), version);
    }
}

#[test]
fn wrong_words_are_named() {
    let home = directory("wrong-words");
    let wrong = |arguments: &[&str], told: &str| {
        let output = run_in(&home, arguments, &[]);
        let wanted = format!("barthovin: {told}\nTry 'barthovin --help' for more information.\n");
        assert_eq!((message(&output), text(&output), status(&output)), (wanted, String::new(), 2));
    };
    wrong(&[], "a command is missing");
    wrong(&["unpack"], "'unpack' is not a command");
    wrong(&["help", "unpack"], "'unpack' is not a command");
    wrong(&["--verbose"], "unrecognized option '--verbose'");
    wrong(&["-v"], "unrecognized option '-v'");
}

/// The commands that have a help of their own, as the general help has them.
fn commands(home: &Path) -> Vec<String> {
    let help = text(&run_in(home, &["--help"], &[]));
    let list = help.split("Commands:\n").nth(1).unwrap().split("\n\n").next().unwrap();
    let names = list.lines().map(|line| line.split_whitespace().next().unwrap().to_string());
    let names: Vec<String> = names.filter(|name| name != "help").collect();
    assert!(names.len() >= 3, "{names:?}");
    names
}

/// Whatever is asked of something that is no package is refused alike, and as JSON too where that is asked for.
#[test]
fn no_package_is_refused_alike() {
    let home = directory("no-package");
    fs::write(home.join("text"), "int main;\n").unwrap();
    let told = "barthovin: text: refused 21: this is no package: it has 10 bytes\n";
    let json = "{\"refused\":21,\"meaning\":\"this is no package\"}\n";
    let lookup = ["lookup", "text", "cu", "1", "section", "info"];
    let verify = ["verify", "text", EXAMPLE];
    let add = ["pack", "--add", "text", EXAMPLE, "-o", "text"];
    for call in [&["list", "text"][..], &["sheet", "text"], &["profile", "text"], &verify, &lookup, &add] {
        let output = run_in(&home, call, &[]);
        assert_eq!((message(&output).as_str(), text(&output).as_str(), status(&output)), (told, "", 1), "{call:?}");
        let output = run_in(&home, &[call, &["--json"]].concat(), &[]);
        assert_eq!((message(&output).as_str(), text(&output).as_str(), status(&output)), (told, json, 1), "{call:?}");
    }
}

/// Calls that write to standard output.
fn calls() -> Vec<Vec<&'static str>> {
    let mut calls = vec![vec!["--help"]];
    calls.extend([
        vec!["pack", "--help"],
        vec!["--version"],
        vec!["list", "package"],
        vec!["list", "--json", "package"],
    ]);
    calls.extend(
        [&[][..], &["--raw"], &["--json"]]
            .map(|option| [&["lookup", "package", "cu", "1", "section", "info"], option].concat()),
    );
    for command in ["sheet", "profile"] {
        calls.extend([vec![command, "package"], vec![command, "package", "--json"]]);
    }
    calls.extend([vec!["verify", "package", EXAMPLE], vec!["verify", "--json", "package", EXAMPLE], vec!["tables"]]);
    calls.push(vec!["pack", EXAMPLE, "-o", "-"]);
    calls
}

#[test]
fn a_full_device_is_reported() {
    let home = directory("full");
    fs::write(home.join("package"), bytes(PACKAGE)).unwrap();
    let Ok(full) = fs::OpenOptions::new().write(true).open("/dev/full") else { return };
    for call in calls() {
        let output = command(&home, &call).stdout(full.try_clone().unwrap()).output().unwrap();
        let wanted = "barthovin: standard output: No space left on device\n";
        assert_eq!((message(&output).as_str(), status(&output)), (wanted, 2), "{call:?}");
        // Where not even that can be written, the status is left.
        let output = command(&home, &call).stdout(full.try_clone().unwrap()).stderr(full.try_clone().unwrap()).output();
        assert_eq!(status(&output.unwrap()), 2, "{call:?}");
    }
}

/// A reader that has enough is no trouble worth a word.
#[test]
fn a_closed_pipe_is_quiet() {
    let home = directory("closed");
    fs::write(home.join("package"), bytes(PACKAGE)).unwrap();
    for call in calls() {
        let mut child = command(&home, &call).stdin(Stdio::null()).spawn().unwrap();
        drop(child.stdout.take());
        let mut told = String::new();
        child.stderr.take().unwrap().read_to_string(&mut told).unwrap();
        let status = child.wait().unwrap().code();
        // It may have written before the pipe was closed.
        assert!(told.is_empty() && matches!(status, Some(0 | 2)), "{call:?}: {told}{status:?}");
    }
}

#[test]
fn the_manual_page_names_every_command_and_option() {
    let page = include_str!("../man/barthovin.1");
    let home = directory("manual");
    for command in commands(&home) {
        assert!(page.contains(&format!(".B barthovin {command}\n")), "{command} is not in the manual page");
        let help = text(&run_in(&home, &[&command, "--help"], &[]));
        for option in help.split_whitespace().filter_map(|word| word.strip_prefix("--")) {
            let option = option.split('=').next().unwrap().trim_end_matches(|c: char| !c.is_ascii_alphanumeric());
            assert!(page.contains(&format!("\\-\\-{option}")), "--{option} is not in the manual page");
        }
    }
    assert!(page.contains(env!("CARGO_PKG_VERSION")), "the manual page is of another version");
}
