//! The reference answers every vector as its line says.

use kit::reference::{lookup, lookup_string, pack, pack_counted};
use kit::vectors::{parse_all, Vector};

fn agrees(vector: &Vector) -> Result<(), String> {
    let (got, wanted) = match vector {
        Vector::Pack { bundle, work, output, answer, skipped: None } => {
            (format!("{:?}", pack(bundle, *work, *output)), format!("{answer:?}"))
        }
        Vector::Pack { bundle, work, output, answer, skipped: Some(skipped) } => {
            (format!("{:?}", pack_counted(bundle, *work, *output)), format!("{:?}", (answer, skipped)))
        }
        Vector::Lookup { package, version, table, identity, section, answer } => {
            (format!("{:?}", lookup(package, *version, *table, *identity, *section)), format!("{answer:?}"))
        }
        Vector::String { package, version, table, identity, entry, answer } => {
            (format!("{:?}", lookup_string(package, *version, *table, *identity, *entry)), format!("{answer:?}"))
        }
    };
    if got == wanted {
        return Ok(());
    }
    Err(format!("got {got}, wanted {wanted}, for {vector:?}"))
}

fn check(text: &str, lines: usize) {
    let vectors = parse_all(text).expect("a line that is no vector");
    assert_eq!(vectors.len(), lines);
    let fault = |(v, number): (&Vector, usize)| agrees(v).err().map(|fault| (number, fault));
    let wrong: Vec<(usize, String)> = vectors.iter().zip(1..).filter_map(fault).collect();
    let numbers: Vec<usize> = wrong.iter().map(|(number, _)| *number).collect();
    assert!(wrong.is_empty(), "of {lines} these differ: {numbers:?}; the first: {}", wrong[0].1);
}

#[test]
fn pack_vectors() {
    check(include_str!("vectors/pack-inputs.txt"), 449);
}

#[test]
fn vectors_with_repeats_and_namesakes() {
    check(include_str!("vectors/pack-counted.txt"), 437);
}

#[test]
fn pack_directed_vectors() {
    check(include_str!("vectors/pack-directed.txt"), 265);
}

#[test]
fn lookup_vectors() {
    check(include_str!("vectors/lookup.txt"), 314);
}

#[test]
fn lookup_directed_vectors() {
    check(include_str!("vectors/lookup-directed.txt"), 381);
}
