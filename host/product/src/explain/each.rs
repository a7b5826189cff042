//! All files that packing refuses, where it stops at the first: so that nobody has to call it once for each of them.
//!
//! Each object is packed by itself. Those that are taken alone may still differ from the first one in their encoding, or have a unit that was there before.

use super::cause::other_encoding;
use super::{packing, Names};
use crate::ffi;
use crate::names::{OUTPUT_TOO_SHORT, WORK_FOR_A_WORD};
use crate::reader::bundle::{put_end, Bundle, Object};
use crate::reader::unit::{spans, Identities};
use std::collections::HashMap;
use std::time::{Duration, Instant};

/// After this time no more is asked, and what was found by then is told.
const PATIENCE: Duration = Duration::from_secs(2);

/// The refusals of what an object states, by itself and beside the first one.
const ENCODING: u32 = 4;
const OTHER_ENCODING: u32 = 5;
const SEEN: u32 = 14;

/// An object that is refused, counted from 1, by which number, and why.
#[derive(Clone, Debug, PartialEq, Eq)]
pub struct Refused {
    pub object: usize,
    pub number: u32,
    pub why: String,
}

/// Those of a bundle whose objects have names, in their order.
pub fn each(bytes: &[u8], names: &Names) -> Vec<Refused> {
    let Ok(bundle) = Bundle::read(bytes) else { return Vec::new() };
    let end = Instant::now() + PATIENCE;
    let (mut refused, mut first) = (Vec::new(), HashMap::new());
    for (object, number) in bundle.objects.iter().zip(1..) {
        if Instant::now() > end {
            break;
        }
        let alone = alone(bytes, object, number, names);
        // In the packer's order: what the object states is judged first, then whether others state the same.
        let found = match alone {
            Some(refused) if refused.number == ENCODING => Some(refused),
            _ => differs(object, &bundle.objects[0], number, names).or(alone),
        };
        refused.extend(found.or_else(|| was_there(object, number, names, &mut first)));
    }
    refused
}

/// What packing says of an object by itself.
fn alone(bytes: &[u8], object: &Object, place: usize, names: &Names) -> Option<Refused> {
    let mut front = [&bytes[..4], &bytes[object.start..object.end]].concat();
    put_end(&mut front);
    let mut work = vec![0; front.len() / 4 * WORK_FOR_A_WORD];
    let (number, _) = ffi::pack(&front, &mut work, &mut []);
    if [0, OUTPUT_TOO_SHORT].contains(&number) {
        return None;
    }
    let file = Names { files: &names.files[place - 1..place] };
    let why = packing(&front, number, &file).map(|why| why.told(&file)).unwrap_or_default();
    Some(Refused { object: place, number, why })
}

fn differs(object: &Object, first: &Object, place: usize, names: &Names) -> Option<Refused> {
    let why = || other_encoding(object, first, &names.object(1));
    (object.encoding != first.encoding).then(|| Refused { object: place, number: OTHER_ENCODING, why: why() })
}

/// The first compilation unit of an object that was there before; those that are new are noted with what they are called.
fn was_there(object: &Object, place: usize, names: &Names, first: &mut HashMap<u64, String>) -> Option<Refused> {
    let identities = Identities::of(object);
    for span in spans(object) {
        let Ok((1, identity)) = identities.identity(&span) else { continue };
        let unit = names.unit(&span);
        if let Some(before) = first.get(&identity) {
            let why = format!("{unit}: identity {identity:#018x} is that of {before}");
            return Some(Refused { object: place, number: SEEN, why });
        }
        first.insert(identity, format!("{}, {unit}", names.object(place)));
    }
    None
}
