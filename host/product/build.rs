//! Links the proved functions. `make library` writes the library; BARTHOVIN_LIBRARY names another directory that holds it. What `--version` says of it is worked
//! out here: the kit that proved it, and the sum of the sources.

#[path = "src/sum.rs"]
mod sum;

use std::fs;
use std::path::{Path, PathBuf};
use std::process::Command;

/// What stands where the kit can't be asked and nobody wrote down which it was.
const NO_KIT: &str = "a kit that is not recorded";

fn main() {
    println!("cargo:rerun-if-env-changed=BARTHOVIN_LIBRARY");
    let home = PathBuf::from(std::env::var("CARGO_MANIFEST_DIR").unwrap()).join("../..");
    let directory = std::env::var("BARTHOVIN_LIBRARY").map_or_else(|_| home.join("target/staticlib"), PathBuf::from);
    let library = directory.join("libarchive.a");
    println!("cargo:rerun-if-changed={}", library.display());
    assert!(library.is_file(), "{} is missing: run `make library` first", library.display());
    println!("cargo:rustc-link-search=native={}", directory.display());
    println!("cargo:rustc-link-lib=static=archive");
    // For the test that compiles the example in C.
    println!("cargo:rustc-env=BARTHOVIN_STATIC_LIBRARY={}", library.display());
    println!("cargo:rustc-env=BARTHOVIN_KIT={}", kit(&directory));
    println!("cargo:rustc-env=BARTHOVIN_SOURCES={}", sources(&home));
}

/// The kit's line, which `make library` writes beside the library; else that of the kit that is at hand.
fn kit(directory: &Path) -> String {
    let written = directory.join("kit");
    println!("cargo:rerun-if-changed={}", written.display());
    let asked = || {
        let output = Command::new("rt").arg("version").output().ok().filter(|output| output.status.success())?;
        String::from_utf8(output.stdout).ok()
    };
    let line = fs::read_to_string(written).ok().or_else(asked).and_then(|text| text.lines().next().map(str::to_string));
    line.filter(|line| !line.is_empty()).unwrap_or(NO_KIT.to_string())
}

/// The sum of all files of crates but what was built there: the sum of the lines that sha256sum prints of them, in order of their names.
fn sources(home: &Path) -> String {
    let mut files = Vec::new();
    gather(home, Path::new("crates"), &mut files);
    files.sort();
    let line = |name: &String| format!("{}  {name}\n", sum::sha256(&fs::read(home.join(name)).unwrap_or_default()));
    sum::sha256(files.iter().map(line).collect::<String>().as_bytes())
}

/// The files below a folder, by their names from the top on.
fn gather(home: &Path, folder: &Path, files: &mut Vec<String>) {
    println!("cargo:rerun-if-changed={}", home.join(folder).display());
    let Ok(entries) = fs::read_dir(home.join(folder)) else { return };
    for entry in entries.flatten() {
        let name = folder.join(entry.file_name());
        let is_built = entry.file_name() == "out" && name.components().count() == 3;
        match entry.file_type() {
            Ok(kind) if kind.is_dir() && !is_built => gather(home, &name, files),
            Ok(kind) if kind.is_file() => files.push(name.to_string_lossy().into_owned()),
            _ => (),
        }
    }
}
