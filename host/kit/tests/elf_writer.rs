//! Packages written as ELF files through C: the answer and every byte of the output as the vectors say and as the independent writer has it,
//! whatever the output held before; and a file that is read again gives the package back.

use barthovin::elf;
use kit::generate::{call, question, Random};
use kit::lender::Lender;
use kit::reference::{pack, Packed};
use kit::vectors::{bytes, lines, number};

/// One call over junk, compared with the answer that is wanted; its code.
fn compare(lent: &mut Lender, package: &[u8], machine: u32, output: usize, wanted: &Packed) -> u32 {
    compare_by(elf::write, lent, package, machine, output, wanted)
}

/// The same of the call for any machine.
fn compare_for(lent: &mut Lender, package: &[u8], machine: u32, output: usize, wanted: &Packed) -> u32 {
    compare_by(elf::write_for, lent, package, machine, output, wanted)
}

type Write = fn(&[u8], u32, &mut [u8]) -> (u32, usize);

fn compare_by(write: Write, lent: &mut Lender, package: &[u8], machine: u32, output: usize, wanted: &Packed) -> u32 {
    let answer = lent.lend(package, 0, output, |package, _, output| write(package, machine, output));
    let answer = answer.unwrap_or_else(|e| panic!("{e}, for output {output}, {package:02X?}"));
    assert!(answer.agrees(wanted), "{answer:?}, not {wanted:?}, for output {output}, {package:02X?}");
    assert!(answer.code == 0 || answer.length == 0, "{answer:?}");
    answer.code
}

#[test]
fn vectors() {
    let mut lent = Lender::new(90);
    let mut seen = 0;
    for line in lines(include_str!("vectors/write-elf.txt")) {
        let words: Vec<&str> = line.split_whitespace().collect();
        let ["write-elf", package, machine, output, "=", kind, answer] = words[..] else { panic!("{line}") };
        let package = bytes(package).expect("bytes");
        let [machine, output] = [machine, output].map(|word| number(word).expect("a number"));
        let wanted = match kind {
            "refused" => Packed::Refused(number(answer).expect("a number") as u32),
            "file" => Packed::Made(bytes(answer).expect("bytes")),
            _ => panic!("{line}"),
        };
        let (machine, output) = (machine as u32, output as usize);
        assert_eq!(kit::elf_writer::write(&package, machine, output), wanted, "the independent writer, for {line}");
        compare(&mut lent, &package, machine, output, &wanted);
        for_any_machine(&mut lent, &package, machine, output, &wanted);
        seen += 1;
    }
    assert_eq!(seen, 209);
}

/// What the vector of a machine says of any other: a file has the machine's number in two of its bytes, and refusals but that of the machine are the same.
fn for_any_machine(lent: &mut Lender, package: &[u8], machine: u32, output: usize, wanted: &Packed) {
    for other in [0, 0x1_0000, u32::MAX] {
        compare_for(lent, package, other, output, &Packed::Refused(36));
    }
    if *wanted == Packed::Refused(36) {
        return;
    }
    for other in [1, 3, 8, 20, 40, machine, 0x0102, 0xFFFF] {
        let mut wanted = wanted.clone();
        if let Packed::Made(file) = &mut wanted {
            let number = other as u16;
            let bytes = if file[5] == 2 { number.to_be_bytes() } else { number.to_le_bytes() };
            file[18..20].copy_from_slice(&bytes);
        }
        compare_for(lent, package, other, output, &wanted);
    }
}

/// Packages whole and damaged, outputs too short by a byte and long enough.
#[test]
fn generated_packages() {
    let (mut lent, mut random) = (Lender::new(91), Random::new(91));
    let mut told = [0; 38];
    for _ in 0..20_000 {
        let c = call(&mut random);
        let Packed::Made(package) = pack(&c.bundle, c.work, c.output) else { continue };
        let package = question(&mut random, &package).package;
        let machine = random.pick(&[62, 183, 243, 243, 0, 63]);
        let output = random.pick(&[0, 100, 1_000, 9_000, 9_000]);
        let wanted = kit::elf_writer::write(&package, machine, output);
        told[compare(&mut lent, &package, machine, output, &wanted) as usize] += 1;
        let any = random.between(0, 0x1_0001) as u32;
        compare_for(&mut lent, &package, any, output, &kit::elf_writer::write_for(&package, any, output));
        if let Packed::Made(file) = &wanted {
            compare(&mut lent, &package, machine, file.len(), &wanted);
            compare(&mut lent, &package, machine, file.len() - 1, &Packed::Refused(37));
        }
    }
    assert!([0, 21, 36, 37].iter().all(|code| told[*code] > 100), "{told:?}");
}

/// A package that was packed, with a unit in info, is what its file is read as.
#[test]
fn files_are_read_back() {
    let mut random = Random::new(92);
    let mut seen = 0;
    for _ in 0..5_000 {
        let c = call(&mut random);
        let Packed::Made(package) = pack(&c.bundle, c.work, c.output) else { continue };
        let file = elf::file_of(&package, 62).unwrap();
        let mut output = vec![1; package.len()];
        match elf::read(&file, &mut output) {
            (0, length) => assert_eq!(output[..length], package),
            // No unit in info.
            (code, _) => {
                assert_eq!(code, 33, "{package:02X?}");
                continue;
            }
        }
        seen += 1;
    }
    assert!(seen > 500, "{seen}");
}
