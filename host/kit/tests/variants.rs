//! The patch that makes the build which walks the kept strings fits the sources: each of its parts stands in its file exactly once. So `make string-index`
//! can't stop working unnoticed.

use std::fs;

const ROOT: &str = concat!(env!("CARGO_MANIFEST_DIR"), "/../..");

/// The lines that a part of the patch wants to find: those that it keeps and those that it takes away.
fn wanted(part: &str) -> String {
    let kept = |line: &&str| line.is_empty() || line.starts_with([' ', '-']);
    part.lines().skip(1).filter(kept).map(|line| format!("{}\n", line.get(1..).unwrap_or(""))).collect()
}

#[test]
fn the_patch_of_the_walking_build_fits() {
    let patch = fs::read_to_string(format!("{ROOT}/host/variants/walk.patch")).expect("the patch");
    let mut parts = 0;
    for file in patch.split("--- a/").skip(1) {
        let (name, rest) = file.split_once('\n').expect("a file's name");
        let source = fs::read_to_string(format!("{ROOT}/{name}")).expect(name);
        for part in rest.split("\n@@ ").skip(1) {
            parts += 1;
            assert_eq!(source.matches(&wanted(part)).count(), 1, "{name}: {part}");
        }
    }
    assert!(parts >= 3, "the patch has {parts} parts");
}
