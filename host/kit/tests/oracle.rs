//! thorin's answers, as kept in oracle/sample.txt, through the proved packer: where packing accepts, thorin's package byte
//! for byte, but for an index whose slots thorin counts otherwise, which is the reference's; where it refuses, the number kept.

use kit::lender::Lender;
use kit::measured::{by_thorins, other_slots};
use kit::reference::{pack, work_for, Bundle, Packed};
use kit::sample::{parse_all, Told};

fn sample() -> Vec<Told> {
    parse_all(include_str!("oracle/sample.txt")).expect("a line that is no answer")
}

fn by_the_rule(bundle: &[u8]) -> Vec<u8> {
    let Packed::Made(package) = pack(bundle, work_for(bundle), usize::MAX) else {
        panic!("not accepted: {bundle:02X?}")
    };
    package
}

/// What a bundle's package must be by thorin's.
fn wanted(bundle: &[u8], package: &[u8]) -> Option<Vec<u8>> {
    by_thorins(package, &by_the_rule(bundle))
}

/// Where the indexes that thorin isn't asked about start in its package, or the package's end.
fn compared(bundle: &[u8], package: &[u8]) -> usize {
    let ours = by_the_rule(bundle);
    let others = other_slots(&Bundle::read(&ours).expect("a package"));
    let thorins = Bundle::read(package).expect("a package");
    let mut starts =
        others.iter().filter_map(|code| thorins.objects[0].section(*code)).map(|section| section.start - 4);
    starts.next().unwrap_or(package.len())
}

/// What is wrong with the packer's answer to one bundle.
fn fault(lent: &mut Lender, told: &Told) -> Option<String> {
    let (Told::Package { bundle, .. } | Told::Refused { bundle, .. }) = told;
    let packing = match lent.pack_whole(bundle) {
        Ok(packing) => packing,
        Err(fault) => return Some(fault),
    };
    let right = match told {
        Told::Package { package, .. } => packing.code == 0 && wanted(bundle, package).as_deref() == Some(packing.bytes),
        Told::Refused { number, .. } => packing.code == *number,
    };
    (!right).then(|| format!("{packing:?} for {told:?}"))
}

#[test]
fn the_sample_is_whole() {
    let sample = sample();
    let packages = sample.iter().filter(|t| matches!(t, Told::Package { .. })).count();
    assert_eq!((packages, sample.len()), (510, 748));
    let but_an_index =
        |t: &&Told| matches!(t, Told::Package { bundle, package } if compared(bundle, package) < package.len());
    let others = sample.iter().filter(but_an_index).count();
    println!("of {packages} packages {others} have an index whose slots thorin counts otherwise");
    assert!(others > 20, "{others}");
    for wanted in (4..=16).chain([34]) {
        let is_wanted = |t: &&Told| matches!(t, Told::Refused { number, .. } if *number == wanted);
        assert_eq!(sample.iter().filter(is_wanted).count(), 17, "of {wanted}");
    }
}

/// The reference, by itself.
#[test]
fn the_reference_answers_as_thorin() {
    for told in sample() {
        let (Told::Package { bundle, .. } | Told::Refused { bundle, .. }) = &told;
        let answer = pack(bundle, work_for(bundle), usize::MAX);
        let wanted = match &told {
            Told::Package { package, .. } => wanted(bundle, package).map(Packed::Made),
            Told::Refused { number, .. } => Some(Packed::Refused(*number)),
        };
        assert_eq!(Some(answer), wanted, "{told:?}");
    }
}

#[test]
fn answers_as_thorin() {
    let mut lent = Lender::new(1);
    let faults: Vec<String> = sample().iter().filter_map(|told| fault(&mut lent, told)).collect();
    assert!(faults.is_empty(), "{} differ; the first: {}", faults.len(), faults[0]);
}

/// Where thorin packs what is refused here, that is by design; where the fault is of these kinds it never does.
#[test]
fn thorin_packs_no_missing_section_lost_string_or_second_unit() {
    for told in sample() {
        if let Told::Refused { number: 7 | 9 | 14, thorin, .. } = &told {
            assert_ne!(thorin, "package", "{told:?}");
        }
    }
}

/// A line that is changed in one byte or in its number is found out.
#[test]
fn a_changed_line_is_noticed() {
    let mut lent = Lender::new(2);
    for (turn, told) in sample().into_iter().enumerate() {
        let changed = match told {
            Told::Package { bundle, mut package } => {
                let at = turn * 31 % compared(&bundle, &package);
                package[at] ^= 1 << (turn % 8);
                Told::Package { bundle, package }
            }
            Told::Refused { bundle, number, thorin } => Told::Refused { bundle, number: number % 16 + 1, thorin },
        };
        assert!(fault(&mut lent, &changed).is_some(), "not noticed: {changed:?}");
    }
}
