//! Tables of the older rule of slots are read as they were: 3 units in 4 slots are looked up, and their package is an input.

use barthovin::ffi;
use kit::lender::Lender;
use kit::measured::{by_thorins, other_slots};
use kit::reference::{lookup, pack, slot_count, work_for, Bundle, Found, Index, Packed};
use kit::vectors::words;

/// Three units of version 4, identities 1, 5 and 9, all with one abbrev part, in slots 1, 2 and 3 of 4. thorin wrote it.
const OLDER: &str =
    "F0000000 10080404 2080003C 10 4 1080000 1 0 10 4 1080000 5 0 10 4 1080000 9 0 21800009 B1001101 742 0
    26000078 2 2 3 4 0 0 1 0 5 0 9 0 0 1 2 3 1 3 0 0 14 0 28 0 14 9 14 9 14 9 30000036";

/// The identities in the slots that these units get today.
const SLOTS: [u64; 8] = [0, 1, 9, 0, 0, 5, 0, 0];

#[test]
fn an_older_table_is_looked_up() {
    let package = words(OLDER).expect("words");
    for (nth, identity) in [1, 5, 9].into_iter().enumerate() {
        let wanted = Found::Part { start: 12 + 20 * nth, length: 20, looks: nth + 1 };
        assert_eq!(lookup(&package, 2, 1, identity, 1), wanted);
        assert_eq!(ffi::lookup(&package, 2, 1, identity, 1), wanted);
    }
    assert_eq!(lookup(&package, 2, 1, 13, 1), Found::Absent(4));
    assert_eq!(ffi::lookup(&package, 2, 1, 13, 1), Found::Absent(4));
}

#[test]
fn an_older_table_is_an_input() {
    let older = words(OLDER).expect("words");
    let Packed::Made(newer) = pack(&older, work_for(&older), usize::MAX) else { panic!("not accepted") };
    let read = Bundle::read(&newer).expect("a package");
    let index = Index::read(read.objects[0].bytes(12), false).expect("an index");
    assert_eq!(index.identities, SLOTS);
    assert_eq!(other_slots(&read), [12]);
    // But for the slots it is the older one.
    assert_eq!(by_thorins(&older, &newer), Some(newer.clone()));
    let mut lent = Lender::new(60);
    let written = lent.pack_whole(&older).expect("an answer");
    assert_eq!((written.code, written.bytes), (0, &newer[..]));
}

/// The rule, and where the older one had half as many slots: n of which three times is one more than a power of two.
#[test]
fn slots_by_the_rule() {
    for units in 0..1 << 18 {
        let slots = slot_count(units);
        assert!(slots.is_power_of_two() && slots >= 2 && 2 * slots > 3 * units);
        assert!(slots == 2 || slots <= 3 * units, "half of them would do for {units}");
        let before = if units < 2 { 2 } else { (3 * units / 2).next_power_of_two() };
        let differs = units > 1 && (3 * units - 1).is_power_of_two();
        assert_eq!(slots, if differs { 2 * before } else { before }, "{units}");
    }
    assert_eq!([3, 11, 43, 171, 174_763].map(slot_count), [8, 32, 128, 512, 524_288]);
}
