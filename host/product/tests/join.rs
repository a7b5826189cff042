//! Files joined and opened through the proved entries, against a second join that goes by the words of docs/FORMAT.md, section 2.6, and shares nothing with it.

use barthovin::{elf, ffi, join};
use std::path::PathBuf;

const FILES: &str = concat!(env!("CARGO_MANIFEST_DIR"), "/../../examples/real/files");

/// A bundle's words, or none where they are broken.
fn words_of(bundle: &[u8]) -> Option<(u32, Vec<u32>)> {
    let words: Vec<u32> =
        bundle.chunks(4).map(|w| w.try_into().map(u32::from_le_bytes)).collect::<Result<_, _>>().ok()?;
    let [head, inner @ .., end] = &words[..] else { return None };
    let mut at = 0;
    while at < inner.len() {
        let word = inner[at];
        let (code, length) = (word >> 23 & 0x1F, (word & 0x7F_FFFF) as usize);
        at += match word >> 28 {
            1 if word >> 24 == 0x10 => 1,
            2 if at > 0 && (1..=13).contains(&code) => {
                let filled = length.div_ceil(4);
                let bytes: Vec<u8> = inner.get(at + 1..at + 1 + filled)?.iter().flat_map(|w| w.to_le_bytes()).collect();
                if bytes[length..].iter().any(|b| *b != 0) {
                    return None;
                }
                1 + filled
            }
            _ => return None,
        };
    }
    let good = matches!(head, 0xF000_0000 | 0xF000_0001) && *end as usize == 0x3000_0000 + words.len();
    good.then(|| (*head, inner.to_vec()))
}

/// A file's bundle, or its refusal.
fn bundle_of(file: &[u8]) -> Result<(u32, Vec<u32>), u32> {
    if !file.starts_with(b"\x7FELF") {
        return words_of(file).ok_or(3);
    }
    let mut memory = vec![0; 2 * file.len() + 100];
    // The files here are of 64 bits; where a turned bit says 32, nothing of a 32-bit header fits, and the answer is 31 too.
    match elf::read(file, &mut memory) {
        (0, length) => Ok(words_of(&memory[..length]).unwrap()),
        (number, _) => Err(number),
    }
}

/// What is joined, byte for byte, or the refusal.
fn joined(old: &[u8], file: &[u8]) -> Result<Vec<u8>, u32> {
    let (mut head, mut inner) = (None, Vec::new());
    if !old.is_empty() {
        let words: Vec<u32> = old.chunks(4).map(|w| w.try_into().map_or(0, u32::from_le_bytes)).collect();
        let framed = old.len() >= 8
            && old.len() % 4 == 0
            && matches!(words[0], 0xF000_0000 | 0xF000_0001)
            && words[words.len() - 1] as usize == 0x3000_0000 + words.len();
        if !framed {
            return Err(3);
        }
        head = Some(words[0]);
        inner = words[1..words.len() - 1].to_vec();
    }
    let (order, more) = bundle_of(file)?;
    if head.is_some_and(|head| head != order) {
        return Err(45);
    }
    inner.extend(more);
    let end = 0x3000_0000 + inner.len() as u32 + 2;
    let words = std::iter::once(order).chain(inner).chain(std::iter::once(end));
    Ok(words.flat_map(u32::to_le_bytes).collect())
}

/// Asks the entry with much memory, with just enough, with a byte less, and with none to spare, and compares all that it answers and leaves.
fn held_against(old: &[u8], file: &[u8]) -> Result<Vec<u8>, u32> {
    let wanted = joined(old, file);
    let needed = wanted.as_ref().map_or(old.len(), Vec::len);
    for room in [needed + 37, needed, needed.saturating_sub(1), old.len()] {
        if room < old.len() {
            continue;
        }
        let mut memory = vec![0xA5; room];
        memory[..old.len()].copy_from_slice(old);
        let answer = join::join(&mut memory, old.len(), file);
        let (code, kept) = match &wanted {
            Ok(bundle) if bundle.len() <= room => ((0, bundle.len()), &bundle[..]),
            Ok(bundle) => ((18, bundle.len()), old),
            Err(number) => ((*number, 0), old),
        };
        assert_eq!(answer, code, "{room} bytes of memory");
        assert_eq!(&memory[..kept.len()], kept);
        assert!(memory[kept.len()..].iter().all(|b| *b == 0), "{room} bytes of memory");
    }
    wanted
}

/// Words as bytes.
fn bytes(words: &[u32]) -> Vec<u8> {
    words.iter().flat_map(|w| w.to_le_bytes()).collect()
}

fn files() -> Vec<(String, Vec<u8>)> {
    let mut names: Vec<PathBuf> = std::fs::read_dir(FILES).unwrap().map(|file| file.unwrap().path()).collect();
    names.sort();
    let named = |path: &PathBuf| path.file_name().unwrap().to_string_lossy().into_owned();
    names.iter().filter(|path| path.is_file()).map(|path| (named(path), std::fs::read(path).unwrap())).collect()
}

#[test]
fn two_files_are_joined_as_the_second_join_does_it() {
    let first = bytes(&[0xF000_0000, 0x1008_0405, 0x2080_0001, 0x11, 0x3000_0005]);
    let second = bytes(&[0xF000_0000, 0x1008_0404, 0x2180_0002, 0x2211, 0x3000_0005]);
    let both = [0xF000_0000, 0x1008_0405, 0x2080_0001, 0x11, 0x1008_0404, 0x2180_0002, 0x2211, 0x3000_0008];
    assert_eq!(held_against(&first, &second), Ok(bytes(&both)));
    assert_eq!(held_against(&[], &second), Ok(second.clone()));
    let empty = bytes(&[0xF000_0001, 0x3000_0002]);
    assert_eq!(held_against(&first, &empty), Err(45));
    assert_eq!(held_against(&empty, &empty), Ok(empty));
    for length in 1..first.len() {
        assert_eq!(held_against(&first[..length], &second), Err(3));
        assert_eq!(held_against(&first, &second[..length]), Err(3));
    }
    // More than the memory has.
    let mut memory = first.clone();
    assert_eq!(join::join(&mut memory, first.len() + 1, &second), (3, 0));
    assert_eq!(memory, first);
}

#[test]
fn real_files_are_joined_in_their_order() {
    let files = files();
    assert!(files.len() >= 10, "{}", files.len());
    let mut refused = 0;
    for (name, first) in &files {
        let old = held_against(&[], first).unwrap_or_else(|number| panic!("{name}: {number}"));
        for (_, second) in &files {
            refused += usize::from(held_against(&old, second) == Err(45));
        }
    }
    // Files of both byte orders are among them.
    assert!(refused > 0);
}

/// One to four bits turned, in the bundle joined so far and in the file: the same answers.
#[test]
fn damaged_files_are_answered_alike() {
    let files = files();
    let small: Vec<&Vec<u8>> = files.iter().map(|file| &file.1).filter(|file| file.len() < 20_000).collect();
    let mut seed = 1_u64;
    let mut number = |below: usize| {
        seed = seed.wrapping_mul(6_364_136_223_846_793_005).wrapping_add(1_442_695_040_888_963_407);
        (seed >> 33) as usize % below
    };
    let mut accepted = 0;
    for round in 0..4_000 {
        let mut old = held_against(&[], small[number(small.len())]).unwrap();
        let elf = small[number(small.len())];
        let mut file = if round % 2 == 0 { held_against(&[], elf).unwrap() } else { elf.clone() };
        let hurt = if round % 3 == 0 { &mut old } else { &mut file };
        for _ in 0..1 + number(4) {
            let bit = number(8 * hurt.len().min(200));
            hurt[bit / 8] ^= 1 << (bit % 8);
        }
        accepted += usize::from(held_against(&old, &file).is_ok());
    }
    assert!((400..3_900).contains(&accepted), "{accepted}");
}

#[test]
fn packages_are_opened_from_bundles_and_from_elf_files() {
    let file = &files().into_iter().find(|file| file.0 == "gcc-5-main.dwo").unwrap().1;
    let bundle = held_against(&[], file).unwrap();
    let mut work = vec![0; 5 * bundle.len()];
    let mut package = vec![0; 2 * bundle.len()];
    let (code, length) = ffi::pack(&bundle, &mut work, &mut package);
    assert_eq!(code, 0);
    package.truncate(length);
    let dwp = elf::file_of(&package, 62).unwrap();
    for held in [&package[..], &dwp[..]] {
        for room in [length + 5, length, length - 1, 0] {
            let mut output = vec![0xA5; room];
            let answer = join::open(held, &mut output);
            let (code, words) = if room < length { (18, &[][..]) } else { (0, &package[..]) };
            assert_eq!(answer, (code, length));
            assert_eq!(&output[..words.len()], words);
            assert!(output[words.len()..].iter().all(|b| *b == 0));
        }
    }
    // What is no package: a bundle of two objects, an ELF file of one that isn't packed is one, and nothing at all.
    let two = held_against(&bundle, file).unwrap();
    let mut output = vec![0xA5; two.len()];
    assert_eq!(join::open(&two, &mut output), (21, 0));
    assert!(output.iter().all(|b| *b == 0));
    assert_eq!(join::open(&[], &mut output), (21, 0));
    assert_eq!(join::open(&dwp[..100], &mut output), (31, 0));
}
