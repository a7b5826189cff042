//! Files that may be the only copy are not written over: those that are read, and `.dwo` files.

mod common;

use common::*;
use std::fs;
use std::path::Path;

const FILES: &str = concat!(env!("CARGO_MANIFEST_DIR"), "/../../examples/real/files");

const HINT: &str = "name another output, or give --force\n";

/// A folder with copies of stored files, under short names.
fn laid_out(name: &str) -> std::path::PathBuf {
    let home = directory(name);
    for (from, to) in [("gcc-5-main", "main.dwo"), ("gcc-5-race", "race.dwo"), ("clang-5be-race", "big.dwo")] {
        fs::copy(format!("{FILES}/{from}.dwo"), home.join(to)).unwrap();
    }
    home
}

/// What every file holds.
fn held(home: &Path) -> Vec<(String, Vec<u8>)> {
    names(home).into_iter().map(|name| (name.clone(), fs::read(home.join(name)).unwrap())).collect()
}

/// A script fails by itself with this line, and all files are as they were.
fn left_alone(home: &Path, script: &str, told: &str) {
    let before = held(home);
    let output = shell(home, script);
    assert_eq!((message(&output), status(&output)), (format!("barthovin: {told}: {HINT}"), 2), "{script}");
    assert!(text(&output).is_empty() && held(home) == before, "{script}");
}

#[test]
fn an_output_that_is_read_is_left_alone() {
    let home = laid_out("guard-read");
    fs::hard_link(home.join("race.dwo"), home.join("second")).unwrap();
    let _link = Link::to("race.dwo", home.join("link"));
    fs::write(home.join("list"), "main.dwo\nrace.dwo\n").unwrap();
    let same = |to: &str, file: &str| format!("{to}: it is the same file as {file}, which is read");
    left_alone(&home, "$B pack main.dwo race.dwo -o race.dwo", &same("race.dwo", "race.dwo"));
    left_alone(&home, "$B pack main.dwo race.dwo --elf -o second", &same("second", "race.dwo"));
    left_alone(&home, "$B pack main.dwo link -o race.dwo", &same("race.dwo", "link"));
    left_alone(&home, "$B pack main.dwo race.dwo -o link", &same("link", "race.dwo"));
    left_alone(&home, "$B pack @list -o ./race.dwo", &same("./race.dwo", "race.dwo"));
    left_alone(&home, "$B pack @list -o list", &same("list", "list"));
    left_alone(&home, "$B pack main.dwo - -o race.dwo < race.dwo", &same("race.dwo", "standard input"));
    left_alone(&home, "$B bundle main.dwo -o main.dwo", &same("main.dwo", "main.dwo"));
    left_alone(&home, "$B bundle - -o link < race.dwo", &same("link", "standard input"));
    // A bundle and a package are read, too.
    assert_eq!(status(&shell(&home, "$B bundle main.dwo -o bundle && $B pack race.dwo -o package")), 0);
    left_alone(&home, "$B pack bundle race.dwo -o bundle", &same("bundle", "bundle"));
    left_alone(&home, "$B pack package -o package", &same("package", "package"));
    left_alone(&home, "$B pack --add package package -o package", &same("package", "package"));
}

/// What a redirection appends to a file that is read spoils it.
#[test]
fn nothing_is_appended_to_what_is_read() {
    let home = laid_out("guard-appended");
    assert_eq!(status(&shell(&home, "$B pack race.dwo -o package")), 0);
    let same = |file: &str| format!("standard output: it is the same file as {file}, which is read");
    left_alone(&home, "$B pack main.dwo race.dwo -o - >> race.dwo", &same("race.dwo"));
    left_alone(&home, "$B bundle main.dwo -o - >> main.dwo", &same("main.dwo"));
    left_alone(&home, "$B pack --add package main.dwo -o - >> package", &same("package"));
    let told = same("package").replace("standard output", "/dev/stdout");
    left_alone(&home, "$B pack --add package main.dwo -o /dev/stdout >> package", &told);
    // A stream that is no file may be both.
    let output = shell(&home, "$B pack - race.dwo -o - < main.dwo | $B list - | grep -c '^unit cu'");
    assert_eq!((text(&output).as_str(), status(&output)), ("2\n", 0));
    assert_eq!(status(&shell(&home, "! $B pack /dev/null -o /dev/null 2>&1 | grep 'same file'")), 0);
}

/// `pack -o *.dwo`: the first file is the output.
#[test]
fn a_dwo_file_is_left_alone() {
    let home = laid_out("guard-dwo");
    let file = "it holds debug sections to be packed, as a .dwo file does, perhaps the only copy";
    left_alone(&home, "$B pack -o *.dwo", &format!("big.dwo: {file}"));
    left_alone(&home, "$B pack race.dwo -o main.dwo", &format!("main.dwo: {file}"));
    left_alone(&home, "$B bundle race.dwo -o main.dwo", &format!("main.dwo: {file}"));
    // Whatever it is called, of 32 bits, and through a link.
    fs::rename(home.join("main.dwo"), home.join("other")).unwrap();
    left_alone(&home, "$B pack race.dwo -o other", &format!("other: {file}"));
    let _link = Link::to("other", home.join("link"));
    left_alone(&home, "$B pack race.dwo -o link", &format!("link: {file}"));
    fs::write(home.join("narrow"), narrow(&fs::read(home.join("race.dwo")).unwrap())).unwrap();
    left_alone(&home, "$B pack race.dwo -o narrow", &format!("narrow: {file}"));
    // A file that isn't the package that is added to.
    assert_eq!(status(&shell(&home, "$B pack race.dwo -o package")), 0);
    left_alone(&home, "$B pack --add package race.dwo -o other", &format!("other: {file}"));
}

/// A file of 32 bits with the names of a `.dwo` file's sections: the header, the names' own section header, and they.
fn narrow(file: &[u8]) -> Vec<u8> {
    let number = |at: usize, width: usize| file[at..at + width].iter().rev().fold(0, |v, b| v << 8 | *b as usize);
    let section = number(40, 8) + 64 * number(62, 2);
    let names = &file[number(section + 24, 8)..][..number(section + 32, 8)];
    let mut narrow = vec![0; 104];
    narrow[..7].copy_from_slice(b"\x7FELF\x01\x01\x01");
    // Relocatable, for ARM; one section header of 40 bytes at 64.
    for (at, byte) in [(16, 1), (18, 40), (32, 64), (46, 40), (48, 1), (80, 104)] {
        narrow[at] = byte;
    }
    narrow[84..88].copy_from_slice(&(names.len() as u32).to_le_bytes());
    narrow.extend(names);
    narrow
}

/// What is written again and again is written over as ever: packages of both forms, bundles, and what is none of them.
#[test]
fn what_was_made_is_made_again() {
    let home = laid_out("guard-again");
    fs::write(home.join("text"), "some text").unwrap();
    fs::write(home.join("empty"), "").unwrap();
    fs::write(home.join("cut.dwo"), &fs::read(home.join("main.dwo")).unwrap()[..100]).unwrap();
    fs::copy(env!("CARGO_BIN_EXE_barthovin"), home.join("program")).unwrap();
    for to in ["package", "package.dwp", "bundle", "text", "empty", "cut.dwo", "program"] {
        for _ in 0..2 {
            let call = if to == "bundle" { "bundle main.dwo" } else { "pack main.dwo race.dwo" };
            let output = shell(&home, &format!("$B {call} -o {to}"));
            assert_eq!((message(&output), status(&output)), (String::new(), 0), "{to}");
        }
    }
}

#[test]
fn force_writes_over_them() {
    let home = laid_out("guard-force");
    let done = |script: &str| {
        let output = shell(&home, script);
        assert_eq!((message(&output), status(&output)), (String::new(), 0), "{script}");
    };
    done("$B pack main.dwo race.dwo -o wanted && $B bundle race.dwo -o bundle");
    done("$B pack --force main.dwo race.dwo -o main.dwo && cmp main.dwo wanted");
    done("$B bundle race.dwo --force -o race.dwo && cmp race.dwo bundle");
    done("$B pack race.dwo -o big.dwo --force && $B verify big.dwo race.dwo > /dev/null");
}
