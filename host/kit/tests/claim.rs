//! The theorem on what runs, where much is asked of each package; and packing with one lookup in one call.

use barthovin::answer::Asked as Question;
use barthovin::ffi;
use kit::claim::{Claim, Slots};
use kit::generate::{call, units_of, Call, Random};
use kit::handed_in::firsts;
use kit::reference::{Bundle, Found, WORK_FOR_A_WORD};

/// The package, or none where the bundle is refused.
fn packed(bundle: &[u8]) -> Option<Vec<u8>> {
    let mut work = vec![0; bundle.len() / 4 * WORK_FOR_A_WORD];
    let (code, length) = ffi::pack(bundle, &mut work, &mut []);
    if code != 18 {
        assert!(code != 0 && length == 0, "code {code}, length {length}, without output");
        return None;
    }
    let mut output = vec![0; length];
    assert_eq!(ffi::pack(bundle, &mut work, &mut output), (0, length), "behind 18 with that length");
    Some(output)
}

#[test]
fn what_is_handed_in_is_found_and_nothing_else() {
    let mut random = Random::new(30);
    let mut claim = Claim::new(30, 4);
    for _ in 0..15_000 {
        let bundle = call(&mut random).bundle;
        if let Some(package) = packed(&bundle) {
            claim.check(&bundle, &package).unwrap_or_else(|e| panic!("{e}, for {bundle:02X?}"));
        }
    }
    let counts = claim.counts;
    println!("{counts:?}");
    assert!(counts.bundles > 5_000, "{counts:?}");
    assert!(counts.of_packages > 500 && counts.without_units > 100 && counts.no_table > 100, "{counts:?}");
    assert!(counts.strings > 5_000 && counts.absent > 5_000 && counts.most_looks > 3, "{counts:?}");
}

/// A package with one byte of a unit changed, or of another bundle, is found out: the check can fail.
#[test]
fn a_wrong_package_is_noticed() {
    let mut random = Random::new(33);
    let (mut changed, mut others) = (0, 0);
    let mut before: Option<Vec<u8>> = None;
    for _ in 0..2_000 {
        let bundle = call(&mut random).bundle;
        let Some(package) = packed(&bundle) else { continue };
        let read = Bundle::read(&bundle).expect("a bundle");
        let Some(unit) = firsts(&read).into_iter().next() else { continue };
        let version = if read.objects[0].word & 0xFF == 4 { 2 } else { 5 };
        let found = ffi::lookup(&package, version, unit.table, unit.identity, unit.section);
        let Found::Part { start, length, .. } = found else { panic!("{found:?}") };
        let mut wrong = package.clone();
        wrong[start + random.below(length as u64) as usize] ^= 1;
        assert!(Claim::new(33, 1).check(&bundle, &wrong).is_err());
        changed += 1;
        if let Some(other) = before.filter(|other| *other != package) {
            others += usize::from(Claim::new(33, 1).check(&bundle, &other).is_err());
        }
        before = Some(package);
    }
    println!("{changed} changed and {others} other packages noticed");
    assert!(changed > 500 && others > 500);
}

/// A table and an identity, mostly of a unit that an accepted bundle hands in.
fn some_identity(random: &mut Random, bundle: &[u8]) -> (u32, u64) {
    let (turn, table, identity) = (random.below(4) as usize, random.between(0, 3) as u32, random.below(8));
    let bundle = Bundle::read(bundle);
    let unit = bundle.as_ref().and_then(|b| firsts(b).get(turn).map(|unit| (unit.table, unit.identity)));
    unit.unwrap_or((table, identity))
}

/// Packing, and one lookup in the package: by two calls.
fn by_two_calls(
    call: &Call,
    (table, identity): (u32, u64),
    version: u32,
    asked: Question,
) -> Result<Found, (u32, usize)> {
    let mut output = vec![0xAA; call.output];
    let (code, length) = ffi::pack(&call.bundle, &mut vec![0; call.work], &mut output);
    match asked {
        _ if code != 0 => Err((code, length)),
        Question::Section(code) => Ok(ffi::lookup(&output[..length], version, table, identity, code)),
        Question::Entry(entry) => Ok(ffi::lookup_string(&output[..length], version, table, identity, entry)),
    }
}

/// Whether the output holds the package in front and zeros behind it.
fn holds_only(output: &[u8], package: &[u8]) -> bool {
    output.strip_prefix(package).is_some_and(|behind| behind.iter().all(|b| *b == 0))
}

/// One call, whose contract is the theorem for one question, answers as two do, whatever work and output held.
#[test]
fn one_call_answers_as_two() {
    let mut random = Random::new(32);
    let mut claim = Claim::new(32, 1);
    let (mut answered, mut refused) = (0, 0);
    for _ in 0..20_000 {
        let call = call(&mut random);
        let (mut work, mut output) = (vec![0x5555_5555; call.work], vec![0x55; call.output]);
        let package = packed(&call.bundle);
        if let Some(package) = &package {
            claim.check(&call.bundle, package).unwrap_or_else(|e| panic!("{e}, for {:02X?}", call.bundle));
        }
        let (table, identity) = some_identity(&mut random, if package.is_some() { &call.bundle } else { &[] });
        let questions = [Question::Section(random.below(12) as u32), Question::Entry(random.below(4))];
        let (version, asked) = (random.pick(&[2, 5]), random.pick(&questions));
        let answer = ffi::pack_and_look_up(&call.bundle, &mut work, &mut output, version, table, identity, asked);
        assert_eq!(answer, by_two_calls(&call, (table, identity), version, asked));
        assert!(work.iter().all(|w| *w == 0), "work is not zero");
        let wanted = package.filter(|_| answer.is_ok()).unwrap_or_default();
        assert!(holds_only(&output, &wanted), "output is not the package and zeros");
        answered += usize::from(matches!(answer, Ok(Found::Part { .. })));
        refused += usize::from(answer.is_err());
    }
    println!("{answered} found, {refused} not packed");
    assert!(answered > 1_000 && refused > 1_000);
}

/// Many identities that meet in few slots.
#[test]
fn crowded_tables() {
    let mut claim = Claim::new(31, 4);
    for (count, spread) in [(2, 4), (3, 4), (11, 16), (12, 16), (170, 1 << 40), (171, 1 << 33), (300, 512)] {
        let bundle = units_of((1..=count).map(|i| i * spread));
        let package = packed(&bundle).expect("a package");
        claim.check(&bundle, &package).unwrap_or_else(|e| panic!("{e}, for {count} units, spread {spread}"));
    }
    println!("{:?}", claim.counts);
    assert!(claim.counts.most_looks > 100, "{:?}", claim.counts);
}

/// The examples of FORMAT 5.4 and 5.5: slots for so many units, where 1 and 5 lie, and where 9 doesn't.
#[test]
fn the_counting_is_that_of_the_page() {
    for (units, slots) in [(1, 2), (2, 4), (3, 8), (4, 8), (5, 8), (6, 16), (11, 32), (12, 32)] {
        assert_eq!(Slots::of(&(1..=units).collect::<Vec<_>>()).0.len(), slots);
    }
    let slots = Slots::of(&[1, 5]);
    assert_eq!(slots.0, [None, Some(1), Some(5), None]);
    assert_eq!((slots.looks(1), slots.looks(5), slots.looks(9)), (1, 2, 3));
}
