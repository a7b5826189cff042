//! The hostile kinds, from 28 KB to the greatest length: how their time grows, and thorin's.

use super::measure::Bench;
use super::show::quotient;
use kit::generate::{sized, Hostile, HOSTILE, SHORT};
use kit::reference::LONGEST_BUNDLE;
use std::io::Result;
use std::time::Duration;

/// The length of the gate's bar, a sixteenth, an eighth and a quarter of the greatest length, and all of it.
pub const LENGTHS: [usize; 5] = [SHORT, LONGEST_BUNDLE / 16, LONGEST_BUNDLE / 8, LONGEST_BUNDLE / 4, LONGEST_BUNDLE];
/// What would take longer, by the growth that was seen or by the square of the length, is left out: ours, and thorin's.
const PATIENCE: Duration = Duration::from_secs(14);
const PATIENCE_FOR_THORIN: Duration = Duration::from_secs(2);
const SQUARE: f64 = 4.0;

/// One bundle; thorin's time is none where it was left out, or thorin isn't the measure.
pub struct One {
    pub bundle: usize,
    pub ours: Duration,
    pub thorin: Option<Duration>,
}

/// One kind, each longer than the one before.
pub struct Grown {
    pub name: &'static str,
    pub answer: u32,
    pub measured: Vec<One>,
}

/// By how much a time grew for each doubling of the length between two.
fn at_a_doubling((shorter, before): (usize, Duration), (longer, after): (usize, Duration)) -> Option<f64> {
    let doublings = (longer as f64 / shorter as f64).log2();
    quotient(after, before).map(|times| times.powf(1.0 / doublings))
}

/// Whether what took so long at some lengths is to be tried at another.
fn is_short_enough(before: &[(usize, Duration)], length: usize, patience: Duration) -> bool {
    let growth = match before {
        [.., a, b] => at_a_doubling(*a, *b).unwrap_or(SQUARE),
        _ => SQUARE,
    };
    let wanted =
        |(old, took): &(usize, Duration)| took.as_secs_f64() * growth.powf((length as f64 / *old as f64).log2());
    before.last().is_none_or(|last| wanted(last) <= patience.as_secs_f64())
}

/// One length; thorin is asked where it is the measure.
fn one(bench: &mut Bench, hostile: &Hostile, length: usize, ask: bool) -> Result<One> {
    let Hostile { kind, answer, thorin } = hostile;
    let (bundle, items) = sized(kind, length);
    let (ours, package) = bench.answered(&bundle, *answer)?;
    // Without a package of ours there is nothing to hold thorin's to.
    let its = if ask && *thorin { bench.taken_alike(&bundle, &package)? } else { None };
    let thorin = its.map(|steps| steps.packing);
    println!("{}: {} bytes, {items}, {ours:.2?}, thorin {thorin:.2?}", kind.name, bundle.len());
    Ok(One { bundle: bundle.len(), ours, thorin })
}

pub fn grown(bench: &mut Bench, hostile: &Hostile) -> Result<Grown> {
    let (mut our_times, mut its_times) = (Vec::new(), Vec::new());
    let mut measured = Vec::new();
    for length in LENGTHS {
        if !is_short_enough(&our_times, length, PATIENCE) {
            break;
        }
        let ask = is_short_enough(&its_times, length, PATIENCE_FOR_THORIN);
        let one = one(bench, hostile, length, ask)?;
        our_times.push((length, one.ours));
        its_times.extend(one.thorin.map(|took| (length, took)));
        measured.push(one);
    }
    Ok(Grown { name: hostile.kind.name, answer: hostile.answer, measured })
}

pub fn all(bench: &mut Bench) -> Result<Vec<Grown>> {
    HOSTILE.iter().map(|hostile| grown(bench, hostile)).collect()
}

impl Grown {
    /// The one of a length, if it was measured.
    pub fn at(&self, length: usize) -> Option<&One> {
        LENGTHS.iter().position(|wanted| *wanted == length).and_then(|place| self.measured.get(place))
    }

    /// The greatest growth at a doubling from 256 KB on, where fixed costs count least; from 28 KB on where there is no other.
    pub fn growth(&self) -> Option<f64> {
        let timed: Vec<(usize, Duration)> = self.measured.iter().map(|one| (one.bundle, one.ours)).collect();
        let long = if timed.len() > 2 { &timed[1..] } else { &timed[..] };
        let factors = long.windows(2).filter_map(|two| at_a_doubling(two[0], two[1]));
        factors.max_by(f64::total_cmp)
    }

    /// The longest at which thorin was timed: its place among the lengths, and both.
    pub fn both(&self) -> Option<(usize, &One, Duration)> {
        self.measured.iter().enumerate().rev().find_map(|(place, one)| one.thorin.map(|thorin| (place, one, thorin)))
    }
}
