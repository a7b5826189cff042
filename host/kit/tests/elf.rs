//! ELF files of both classes through C: the answer and every byte of the output as the vectors say and as the independent reader has it, whatever the
//! output held before, with nothing around it touched.

use barthovin::elf;
use kit::elf::Class;
use kit::generate::{elf as some_elf, hostile_elf_of, long_elf_of, Random};
use kit::lender::Lender;
use kit::reference::Packed;
use kit::vectors::{bytes, lines, number};
use std::time::Duration;

/// The proved reader of a class.
fn reader(class: Class) -> fn(&[u8], &mut [u8]) -> (u32, usize) {
    match class {
        Class::Elf32 => elf::read_32,
        Class::Elf64 => elf::read,
    }
}

/// One call over junk, compared with the answer that is wanted; its code.
fn compare(class: Class, lent: &mut Lender, file: &[u8], output: usize, wanted: &Packed) -> u32 {
    let read = reader(class);
    let answer = lent.lend(file, 0, output, |file, _, output| read(file, output));
    let front = &file[..file.len().min(2_048)];
    let answer = answer.unwrap_or_else(|e| panic!("{e}, for output {output}, {front:02X?}"));
    assert!(answer.agrees(wanted), "{answer:?}, not {wanted:?}, for output {output}, {front:02X?}");
    answer.code
}

/// The vectors of a class; how many there are.
fn agrees_with(class: Class, vectors: &str) -> usize {
    let mut lent = Lender::new(60);
    let mut seen = 0;
    for line in lines(vectors) {
        let words: Vec<&str> = line.split_whitespace().collect();
        let ["read-elf", file, output, "=", kind, answer] = words[..] else { panic!("{line}") };
        let (file, output) = (bytes(file).expect("bytes"), number(output).expect("a number") as usize);
        let wanted = match kind {
            "refused" => Packed::Refused(number(answer).expect("a number") as u32),
            "short" => Packed::Short(number(answer).expect("a number") as usize),
            "bundle" => Packed::Made(bytes(answer).expect("bytes")),
            _ => panic!("{line}"),
        };
        assert_eq!(kit::elf::read_of(class, &file, output), wanted, "the independent reader, for {line}");
        compare(class, &mut lent, &file, output, &wanted);
        seen += 1;
    }
    seen
}

#[test]
fn vectors() {
    assert_eq!(agrees_with(Class::Elf64, include_str!("vectors/read-elf.txt")), 258);
    assert_eq!(agrees_with(Class::Elf32, include_str!("vectors/read-elf32.txt")), 301);
}

/// Each file goes to the reader of its class, and to the other one, which refuses it by 31.
#[test]
fn generated_files() {
    for class in Class::BOTH {
        let (mut lent, mut random) = (Lender::new(61), Random::new(61));
        let mut told = [0; 34];
        for _ in 0..40_000 {
            let file = some_elf(class, &mut random);
            let output = random.pick(&[0, 100, 4_096, 4_096]);
            let wanted = kit::elf::read_of(class, &file, output);
            told[compare(class, &mut lent, &file, output, &wanted) as usize] += 1;
            // As much as is needed, and a byte less.
            if let Packed::Short(length) = wanted {
                compare(class, &mut lent, &file, length, &kit::elf::read_of(class, &file, length));
                compare(class, &mut lent, &file, length - 1, &wanted);
            }
            if wanted != Packed::Refused(31) {
                let other = if class == Class::Elf32 { Class::Elf64 } else { Class::Elf32 };
                compare(other, &mut lent, &file, output, &Packed::Refused(31));
            }
        }
        assert!([0, 18, 31, 32, 33].iter().all(|code| told[*code] > 500), "{class:?}: {told:?}");
    }
}

#[test]
fn every_change_of_a_byte() {
    for class in Class::BOTH {
        let mut random = Random::new(62);
        let read = |file: &[u8]| kit::elf::read_of(class, file, 1_000);
        let is_small = |file: &Vec<u8>| file.len() < 900 && matches!(read(file), Packed::Made(_));
        let file = std::iter::repeat_with(|| some_elf(class, &mut random)).find(is_small).unwrap();
        let mut lent = Lender::new(62);
        for at in 0..file.len() {
            for value in [0, 1, 2, 8, 64, 127, 128, 255, file[at] ^ 1] {
                let mut changed = file.clone();
                changed[at] = value;
                compare(class, &mut lent, &changed, 1_000, &read(&changed));
            }
            compare(class, &mut lent, &file[..at], 1_000, &read(&file[..at]));
        }
    }
}

/// 19: a section above its limit, and many sections over the same bytes.
#[test]
fn sections_that_are_too_long() {
    let mut lent = Lender::new(63);
    for class in Class::BOTH {
        for (size, count, wanted) in [(8_388_607, 1, 18), (8_388_608, 1, 19), (8_388_604, 13, 18), (8_388_604, 14, 19)]
        {
            let file = long_elf_of(class, size, count);
            let answer = kit::elf::read_of(class, &file, 0);
            assert_eq!(compare(class, &mut lent, &file, 0, &answer), wanted, "{class:?}: {size} bytes {count} times");
        }
    }
}

/// 65,000 headers and names of 4.7 MB, 9 MB in all, or 7 MB of 32 bits: the time of one pass.
#[test]
fn a_hostile_file_takes_no_time() {
    for (class, bytes) in [(Class::Elf64, 8_800_000), (Class::Elf32, 7_300_000)] {
        let file = hostile_elf_of(class, 65_000, 4_700_000);
        assert!(file.len() > bytes);
        let (mut lent, read) = (Lender::new(64), reader(class));
        let answer = lent.lend(&file, 0, 1 << 20, |file, _, output| read(file, output)).unwrap();
        let length = answer.length;
        assert_eq!(answer.code, 0);
        assert!(lent.took() < Duration::from_secs(1), "{:?}", lent.took());
        assert_eq!(length, 12 + 4 + 24 + 4 * 65_000 / 4);
        // The independent reader takes too long for that one; of the same kind, smaller:
        let file = hostile_elf_of(class, 650, 5_000);
        compare(class, &mut lent, &file, 1 << 20, &kit::elf::read_of(class, &file, 1 << 20));
    }
}
