//! `barthovin sheet` prints the index of a package, plain or in pages.

mod common;

use common::*;

const SHEET: &str = "C 0000000000000001 01 00000000 00000014\nC 0000000000000001 03 00000000 00000001\n";

#[test]
fn prints_the_example() {
    let home = directory("sheet");
    let run = |arguments: &[&str], package: &str| {
        let output = run_in(&home, &[&["sheet", "-"], arguments].concat(), &bytes(package));
        (text(&output), message(&output), status(&output))
    };
    assert_eq!(run(&[], PACKAGE), (SHEET.to_string(), String::new(), 0));
    let head = "standard input, 112 bytes, page 1 of 1\n\
                SHA-256 SUM\n\
                C, T: identity, section, offset, size, hexadecimal but section; N: its source\n\n";
    let head = head.replace("SUM", &barthovin::sum::sha256(&bytes(PACKAGE)));
    assert_eq!(run(&["--pages"], PACKAGE), (format!("{head}{SHEET}"), String::new(), 0));
    assert_eq!(run(&["-p"], PACKAGE).0, format!("{head}{SHEET}"));
    assert_eq!(run(&[], "F0000000 30000002"), (String::new(), String::new(), 0));
}

#[test]
fn refuses_with_the_cause() {
    let home = directory("sheet-refused");
    let refused = |package: &str, why: &str| {
        let output = run_in(&home, &["sheet", "-"], &bytes(package));
        let wanted = format!("barthovin: standard input: refused 21: this is no package: {why}\n");
        assert_eq!((message(&output), text(&output), status(&output)), (wanted, String::new(), 1));
    };
    refused("F0000000", "it has 4 bytes");
    refused(&PACKAGE.replace("0 0 1 0 0 1 1 3", "2 0 1 0 1 1 1 3"), "row 1 of cu_index has 2 slots, not one");
    refused(&PACKAGE.replace("0 0 1 0 0 1 1 3", "0 0 0 0 0 0 1 3"), "row 1 of cu_index has 0 slots, not one");
}

#[test]
fn is_written_as_json() {
    let home = directory("sheet-json");
    let output = run_in(&home, &["sheet", "-", "--json"], &bytes(PACKAGE));
    let line = |section: &str, size: u32| {
        let unit = "{\"table\":\"cu\",\"identity\":\"0x0000000000000001\"";
        format!("{unit},\"section\":\"{section}\",\"offset\":0,\"size\":{size}}}")
    };
    assert_eq!((text(&output), status(&output)), (format!("[{},{}]\n", line("info", 20), line("abbrev", 1)), 0));
    let both = run_in(&home, &["sheet", "-", "--json", "-p"], &bytes(PACKAGE));
    assert!(message(&both).starts_with("barthovin: options '--pages' and '--json' don't go together\n"));
    assert_eq!(status(&both), 2);
}
