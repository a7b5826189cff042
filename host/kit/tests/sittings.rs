//! Packing in two sittings: some thousand splits through C and by the reference, and wrong packers, which must be found. `make differential`
//! tries a hundred thousand (`two_sittings`).

use kit::generate::{good, sized, Draft, DraftObject, Random, KINDS};
use kit::lender::Lender;
use kit::reference::{pack, work_for, Bundle, Packed};
use kit::sittings::{objects_of, run, split, Split, Tally};

fn packed(bundle: &[u8]) -> Packed {
    pack(bundle, work_for(bundle), usize::MAX)
}

fn enough(tally: &Tally) {
    println!("{tally}");
    let kinds = [tally.types, tally.skipped, tally.strings, tally.known_strings, tally.shared, tally.packages];
    assert!(kinds.iter().all(|count| *count > tally.held / 10), "{tally}");
    assert!([7, 14, 15, 34].iter().all(|number| tally.refused[1].contains_key(number)), "{tally}");
}

#[test]
fn two_sittings_give_the_package_of_one() {
    enough(&run(4_000, 101, &mut |bundle| Ok(packed(bundle))).unwrap());
}

#[test]
fn two_sittings_give_the_package_of_one_through_c() {
    let mut lent = Lender::new(102);
    enough(&run(4_000, 103, &mut |bundle| lent.pack_whole(bundle).map(|written| written.packed())).unwrap());
}

/// Whether a bundle is one of a second sitting that is not the first object's alone.
fn is_second_sitting(bundle: &[u8]) -> bool {
    let objects = Bundle::read(bundle).map_or(Vec::new(), |read| read.objects);
    objects.len() > 1 && objects[0].count(12) + objects[0].count(13) > 0
}

/// The package with one byte that is another: the last but four, which is the index's.
fn with_a_wrong_byte(bundle: &[u8]) -> Packed {
    match packed(bundle) {
        Packed::Made(mut package) if is_second_sitting(bundle) => {
            let at = package.len() - 5;
            package[at] ^= 1;
            Packed::Made(package)
        }
        answer => answer,
    }
}

/// The further objects in front of the package.
fn in_a_later_place(bundle: &[u8]) -> Packed {
    let Some(mut whole) = objects_of(bundle).filter(|_| is_second_sitting(bundle)) else { return packed(bundle) };
    whole.objects.rotate_left(1);
    packed(&whole.bytes())
}

/// The further objects left out.
fn without_the_further(bundle: &[u8]) -> Packed {
    let Some(mut whole) = objects_of(bundle).filter(|_| is_second_sitting(bundle)) else { return packed(bundle) };
    whole.objects.truncate(1);
    packed(&whole.bytes())
}

/// Accepted is one object, and what follows a package; other bundles of several objects are not.
fn not_together(bundle: &[u8]) -> Packed {
    let several = Bundle::read(bundle).is_some_and(|read| read.objects.len() > 1);
    if several && !is_second_sitting(bundle) {
        return Packed::Refused(14);
    }
    packed(bundle)
}

/// No package is taken, or none of version 5.
fn no_packages(bundle: &[u8], least: u32) -> Packed {
    let is_package = |o: &kit::reference::Object| o.word & 0xFF >= least && o.count(12) + o.count(13) > 0;
    match Bundle::read(bundle).is_some_and(|read| read.objects.iter().any(is_package)) {
        true => Packed::Refused(6),
        false => packed(bundle),
    }
}

#[test]
fn wrong_packers_are_found() {
    let told = |wrong: fn(&[u8]) -> Packed| run(500, 104, &mut |bundle| Ok(wrong(bundle))).unwrap_err();
    for wrong in [with_a_wrong_byte, in_a_later_place, without_the_further] {
        let told = told(wrong);
        assert!(told.contains("two sittings give another package, for ["), "{told}");
    }
    assert!(told(not_together).contains("both are accepted, together refused 14, for ["));
    let few = told(|bundle| no_packages(bundle, 4));
    assert!(few.starts_with("too few splits have their premises: 0 of 500, 0 of version 4, 0 of version 5\n"), "{few}");
    let few = told(|bundle| no_packages(bundle, 5));
    assert!(few.starts_with("too few splits have their premises: 50") && few.contains(", 0 of version 5\n"), "{few}");
    let unclean = run(500, 105, &mut |_| Err("work is not zero".to_string())).unwrap_err();
    assert!(unclean.starts_with("work is not zero, for ["), "{unclean}");
}

/// With the package in a later place the law isn't claimed: a unit without a part of a section that others have then gets another offset.
#[test]
fn a_later_place_may_give_another_package() {
    let mut random = Random::new(106);
    let (mut same, mut other) = (0, 0);
    for _ in 0..5_000 {
        let whole = good(&mut random);
        let Some((before, later)) = whole.objects.split_first().filter(|(_, later)| later.len() > 1) else { continue };
        let bundle = |objects: &[DraftObject]| packed(&Draft { big: whole.big, objects: objects.to_vec() }.bytes());
        // Alone they are refused where a type of theirs has no row, since the object before has it.
        let Packed::Made(package) = bundle(later) else { continue };
        let object = objects_of(&package).expect("a package").objects.remove(0);
        match (bundle(&[before.clone(), object]), bundle(&whole.objects)) {
            (Packed::Made(two), Packed::Made(one)) if two == one => same += 1,
            (Packed::Made(_), Packed::Made(_)) => other += 1,
            _ => {}
        }
    }
    println!("the same {same}, another {other}");
    assert!(same > 50 && other > 50, "the same {same}, another {other}");
}

/// Two bundles of types, each at the limit by half: the first one's package is shorter, so that both sittings are accepted, and together they
/// are too long. The law asks for a joined bundle within the limit.
#[test]
fn what_is_too_long_together_has_no_premise() {
    let types = KINDS.iter().find(|kind| kind.name.starts_with("many type units")).expect("a kind");
    let (bundle, _) = sized(types, 2_300_000);
    let mut whole = objects_of(&bundle).expect("a bundle");
    whole.objects.push(whole.objects[0].clone());
    let together = packed(&whole.bytes());
    assert_eq!(together, Packed::Refused(1));
    let became = split(&whole, 1, &together, &mut |bundle| Ok(packed(bundle)));
    assert!(matches!(became, Ok(Split::TooLong)), "{:?}", became.map(|_| "another end"));
}
