//! `barthovin lookup --questions` answers a list of questions, a line each, as single lookups do.

mod common;

use common::*;
use std::fs;

const LIST: &str = "# the example's unit, and others
cu 1 section info
5 cu 0x1 section .debug_abbrev.dwo

cu 2 section info
2 cu 1 section info
tu 1 section 1
3 1 section 1
cu 1 section 99
cu 1 string 0
";

#[test]
fn answers_a_list() {
    let home = directory("questions");
    fs::write(home.join("package"), bytes(PACKAGE)).unwrap();
    fs::write(home.join("list"), LIST).unwrap();
    let refused_23 = "refused 23: tables are 1 (cu) and 2 (tu), sections 1 to 10";
    let wanted = format!(
        "20 bytes at 12 after 1 look: 1000000005000508000000000100000000000000
1 byte at 36 after 1 look: 00
absent after 1 look
refused 22: the version is not that of the package's index
absent after 0 looks
{refused_23}
{refused_23}
refused 25: the unit has no such entry
"
    );
    for arguments in [&["--questions", "list"][..], &["--questions=list"], &["-qlist"]] {
        let output = run_in(&home, &[&["lookup", "package"], arguments].concat(), &[]);
        assert_eq!((text(&output), message(&output), status(&output)), (wanted.clone(), String::new(), 1));
    }
    let output = run_in(&home, &["lookup", "package", "--questions", "-"], b"cu 1 section 1\ncu 1 section 3\n");
    assert_eq!((text(&output).lines().count(), status(&output)), (2, 0));
    let output = run_in(&home, &["lookup", "-", "-q", "list", "--json"], &bytes(PACKAGE));
    let lines: Vec<String> = text(&output).lines().map(str::to_string).collect();
    let found = "{\"found\":true,\"start\":12,\"length\":20,\"looks\":1,\"bytes\":\"1000000005000508000000000100000000000000\"}";
    assert_eq!((lines.len(), lines[0].as_str(), lines[2].as_str()), (8, found, "{\"found\":false,\"looks\":1}"));
    assert!(lines[5].starts_with("{\"refused\":23,\"meaning\":"));
}

#[test]
fn more_than_a_call_takes() {
    let home = directory("many-questions");
    fs::write(home.join("package"), bytes(PACKAGE)).unwrap();
    let list: String = (0..3_000).map(|i| format!("cu {} section info\n", i % 3)).collect();
    let output = run_in(&home, &["lookup", "package", "-q-"], list.as_bytes());
    let wanted = |i: usize| if i % 3 == 1 { "20 bytes at 12 " } else { "absent after " };
    assert_eq!(text(&output).lines().count(), 3_000);
    assert!(text(&output).lines().enumerate().all(|(i, line)| line.starts_with(wanted(i))));
}

#[test]
fn wrong_lines_are_named() {
    let home = directory("wrong-questions");
    fs::write(home.join("package"), bytes(PACKAGE)).unwrap();
    let wrong = |arguments: &[&str], list: &str, told: &str| {
        let output = run_in(&home, &[&["lookup", "package"], arguments].concat(), list.as_bytes());
        let wanted = format!("barthovin: {told}\nTry 'barthovin lookup --help' for more information.\n");
        assert_eq!((message(&output), text(&output), status(&output)), (wanted, String::new(), 2));
    };
    wrong(&["-q-"], "cu 1 section 1\ncu x section 1\n", "standard input, line 2: identity 'x' can't be read");
    wrong(&["-q-"], "cu 1\n", "standard input, line 1: 2 words where 4 or 5 make a question");
    wrong(&["-q-"], "# so\n\ncu 1 sections 1\n", "standard input, line 3: 'sections' is neither section nor string");
    wrong(&["-q-", "--raw"], "", "options '--raw' and '--questions' don't go together");
    wrong(&["-q-", "cu"], "", "extra operand 'cu'");
    let output = run_in(&home, &["lookup", "package", "-q", "missing"], &[]);
    assert_eq!((message(&output).as_str(), status(&output)), ("barthovin: missing: No such file or directory\n", 2));
}
