//! The sheet through C: the answer and every byte of the page as the vectors say and as the reference has it, whatever the page held before; and
//! each line's place holds what the lookup of that identity and section answers.

use barthovin::ffi;
use barthovin::sheet;
use kit::generate::{call, question, Random};
use kit::lender::Lender;
use kit::reference::{pack, Bundle, Found, Packed};
use kit::vectors::{bytes, lines, number};

/// One call over junk, compared with the answer that is wanted; its code.
fn compare(lent: &mut Lender, package: &[u8], page: usize, wanted: &Result<Vec<u8>, u32>) -> u32 {
    let answer = lent.lend(package, 0, page, |package, _, page| sheet::write(package, page));
    let answer = answer.unwrap_or_else(|e| panic!("{e}, for a page of {page}, {package:02X?}"));
    let told = if answer.code == 0 { Ok(answer.bytes.to_vec()) } else { Err(answer.code) };
    assert_eq!(&told, wanted, "for a page of {page}, {package:02X?}");
    answer.code
}

#[test]
fn vectors() {
    let mut lent = Lender::new(70);
    let mut seen = 0;
    for line in lines(include_str!("vectors/sheet.txt")) {
        let words: Vec<&str> = line.split_whitespace().collect();
        let ["sheet", package, page, "=", kind, answer] = words[..] else { panic!("{line}") };
        let (package, page) = (bytes(package).expect("bytes"), number(page).expect("a number") as usize);
        let wanted = match kind {
            "refused" => Err(number(answer).expect("a number") as u32),
            _ => Ok(bytes(answer).expect("bytes")),
        };
        assert_eq!(kit::sheet::sheet(&package, page), wanted, "the reference, for {line}");
        compare(&mut lent, &package, page, &wanted);
        seen += 1;
    }
    assert_eq!(seen, 227);
}

#[test]
fn generated_packages() {
    let (mut lent, mut random) = (Lender::new(71), Random::new(71));
    let mut told = [0; 36];
    for _ in 0..20_000 {
        let c = call(&mut random);
        let Packed::Made(package) = pack(&c.bundle, c.work, c.output) else { continue };
        let package = question(&mut random, &package).package;
        let page = random.pick(&[0, 39, 40, 400, 1_000, 4_000, 4_000]);
        let wanted = kit::sheet::sheet(&package, page);
        told[compare(&mut lent, &package, page, &wanted) as usize] += 1;
        assert_eq!(sheet::sheet(&package), kit::sheet::sheet(&package, usize::MAX));
    }
    assert!([0, 21, 35].iter().all(|code| told[*code] > 500), "{told:?}");
}

/// Paper and program agree: for a package that was packed, each line is what the lookup answers.
#[test]
fn lines_are_what_lookups_answer() {
    let mut random = Random::new(72);
    let mut seen = 0;
    for _ in 0..5_000 {
        let c = call(&mut random);
        let Packed::Made(package) = pack(&c.bundle, c.work, c.output) else { continue };
        let sheet = String::from_utf8(sheet::sheet(&package).expect("a sheet")).expect("text");
        let read = Bundle::read(&package).expect("a package");
        let version = if read.objects.first().is_some_and(|o| o.word & 0xFF == 4) { 2 } else { 5 };
        for line in sheet.lines() {
            let words: Vec<&str> = line.split(' ').collect();
            let hexadecimal = |word: &str| u64::from_str_radix(word, 16).expect("a number");
            let (table, code) = (if words[0] == "C" { 1 } else { 2 }, words[2].parse().expect("a code"));
            let found = ffi::lookup(&package, version, table, hexadecimal(words[1]), code);
            let Found::Part { start, length, .. } = found else { panic!("{line}: {found:?}") };
            let section = read.objects[0].section(code).map_or(0, |s| s.start);
            assert_eq!(length as u64, hexadecimal(words[4]), "{line}");
            assert!(section == 0 || start as u64 == section as u64 + hexadecimal(words[3]), "{line}: {found:?}");
            seen += 1;
        }
    }
    assert!(seen > 20_000, "{seen} lines");
}
