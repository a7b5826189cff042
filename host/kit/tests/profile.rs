//! The archive profile, through C, answers as the vectors say and as the reference does.

use barthovin::profile::{conditions, profile};
use kit::generate::{call, question, Random};
use kit::reference::{pack, Packed};
use kit::vectors::{bytes, lines};

#[test]
fn vectors() {
    let mut seen = 0;
    for line in lines(include_str!("vectors/profile.txt")) {
        let words: Vec<&str> = line.split_whitespace().collect();
        let ["profile", package, "=", answer @ ..] = &words[..] else { panic!("{line}") };
        let package = bytes(package).expect("bytes");
        let wanted = match answer {
            ["yes"] => 0,
            ["no"] => 1,
            ["refused", "21"] => 21,
            _ => panic!("{line}"),
        };
        assert_eq!((profile(&package), conditions(&package).0), (wanted, wanted), "{line}");
        assert_eq!(kit::profile::profile(&package), conditions(&package), "{line}");
        seen += 1;
    }
    assert_eq!(seen, 216);
}

/// A package whose cu_index has no row, of either version.
fn without_rows(random: &mut Random) -> Vec<u8> {
    let words = [0xF000_0000, 0x1008_0405, 0x2600_001C, random.pick(&[2u32, 5]), 0, 0, 1, 0, 0, 0, 0x3000_000B];
    words.iter().flat_map(|w| w.to_le_bytes()).collect()
}

/// Packages whole and damaged, of every kind, and some without rows, which packing doesn't make.
#[test]
fn generated_packages() {
    let mut random = Random::new(50);
    let (mut told, mut failed) = ([0; 22], [0; 8]);
    for _ in 0..20_000 {
        let c = call(&mut random);
        let Packed::Made(package) = pack(&c.bundle, c.work, c.output) else { continue };
        let package =
            if random.one_in(50) { without_rows(&mut random) } else { question(&mut random, &package).package };
        let (code, bits) = conditions(&package);
        assert_eq!((code, bits), kit::profile::profile(&package), "{package:02X?}");
        assert_eq!(code, profile(&package));
        told[code as usize] += 1;
        (0..8).for_each(|i| failed[i] += bits >> i & 1);
    }
    assert!(
        [0, 1, 21].iter().all(|code| told[*code] > 50) && failed.iter().all(|count| *count > 5),
        "{told:?} {failed:?}"
    );
}
