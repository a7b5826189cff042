//! Refusals in words: each has its meaning and, where there is one to be found, its cause.

use barthovin::command::meaning;
use barthovin::explain::{looking_up, packing, Names};
use barthovin::ffi;
use barthovin::reader::bundle::Bundle;
use kit::generate::{call, question, Random};
use kit::reference::{self, Found, Packed, WORK_FOR_A_WORD};

/// Refusals whose cause is always found; the others have a place alone, or a cause now and then.
const WITH_CAUSE: [u32; 13] = [4, 5, 6, 7, 8, 9, 10, 11, 12, 14, 15, 16, 34];

#[test]
fn every_refusal_of_packing_has_words_and_a_place() {
    let mut random = Random::new(40);
    let mut counts = [0; 35];
    for _ in 0..20_000 {
        let bundle = call(&mut random).bundle;
        let (number, _) = ffi::pack(&bundle, &mut vec![0; bundle.len() / 4 * WORK_FOR_A_WORD], &mut []);
        counts[number as usize] += 1;
        assert!(meaning(number) != "an unknown refusal");
        let names = Names { files: &[] };
        let why = packing(&bundle, number, &names).map(|why| why.told(&names));
        assert_eq!(why.is_some(), number != 18, "{number}: {bundle:02X?}");
        let why = why.unwrap_or_default();
        assert!(!WITH_CAUSE.contains(&number) || why.contains(": "), "{number}: {why}: {bundle:02X?}");
    }
    assert!([1, 34].into_iter().chain(3..=16).all(|number| counts[number] > 20), "{counts:?}");
}

/// The words of a bundle are read as the reference reads them.
#[test]
fn bundles_are_read_as_the_reference_reads_them() {
    let mut random = Random::new(41);
    for _ in 0..20_000 {
        let bytes = call(&mut random).bundle;
        let (ours, wanted) = (Bundle::read(&bytes), reference::Bundle::read(&bytes));
        let sections = |b: &Bundle| b.objects.iter().map(|o| (o.encoding.word, o.sections.len())).collect::<Vec<_>>();
        let wanted_sections = wanted.map(|b| b.objects.iter().map(|o| (o.word, o.sections.len())).collect::<Vec<_>>());
        assert_eq!(ours.ok().map(|b| sections(&b)), wanted_sections, "{bytes:02X?}");
    }
}

#[test]
fn every_refusal_of_a_lookup_has_words_and_a_cause() {
    let mut random = Random::new(42);
    let mut counts = [0; 27];
    for _ in 0..40_000 {
        let c = call(&mut random);
        let Packed::Made(package) = reference::pack(&c.bundle, c.work, c.output) else { continue };
        let q = question(&mut random, &package);
        let found = match q.asked {
            barthovin::answer::Asked::Section(code) => ffi::lookup(&q.package, q.version, q.table, q.identity, code),
            barthovin::answer::Asked::Entry(entry) => {
                ffi::lookup_string(&q.package, q.version, q.table, q.identity, entry)
            }
        };
        let Found::Refused(number) = found else { continue };
        counts[number as usize] += 1;
        let why = looking_up(&q.package, q.version, q.table, q.identity, q.asked, number);
        assert!(meaning(number) != "an unknown refusal" && why.is_some(), "{number}: {q:?}");
    }
    assert!((21..=26).all(|number| counts[number] > 10), "{counts:?}");
}
