//! One bundle measured: the proved packer with junk, zeros or fresh pages in what it is lent, and thorin, which the oracle times by its steps.

use super::pages::{self, Pages};
use barthovin::ffi;
use barthovin::lent::Lent;
use kit::clock;
use kit::lender::Lender;
use kit::measured::{by_thorins, measure, Measure};
use kit::oracle::{Oracle, Steps};
use kit::reference::{Bundle, WORK_FOR_A_WORD};
use std::io::{Error, Result};
use std::time::{Duration, Instant};

/// Output that holds the package of any bundle measured here.
const ENOUGH: usize = 4;
const LEAST: usize = 4_096;

/// All lengths are bytes; the times are the shortest of some rounds.
pub struct Measured {
    pub bundle: usize,
    pub items: u64,
    pub package: usize,
    /// With junk in what is lent.
    pub ours: Duration,
    /// The same call with a wrong head: it clears what was lent and refuses.
    pub clearing: Duration,
    /// The same call where zeros are lent, as a call leaves them.
    pub zeros: Duration,
    pub thorin: Option<Steps>,
}

pub struct Bench {
    lent: Lender,
    zeros: Lender,
    oracle: Option<Oracle>,
}

/// A packing as long as this is measured once.
const LONG: Duration = Duration::from_secs(1);

/// What one thing is measured for at least, and what several take that take turns.
const ALONE: Duration = Duration::from_millis(150);
const IN_TURNS: Duration = Duration::from_millis(800);
/// At least so many rounds, unless they are long, and at most so many.
const FEWEST: usize = 7;
const MOST: usize = 2_001;

/// Some rounds: at least seven and for so long, but fewer where they are long, and more where they are short.
fn rounds(least: Duration, mut round: impl FnMut() -> Result<()>) -> Result<()> {
    let start = Instant::now();
    round()?;
    for rounds in 1..MOST {
        let passed = start.elapsed();
        let enough = passed > least && rounds >= FEWEST;
        if enough || passed > 10 * least {
            break;
        }
        round()?;
    }
    Ok(())
}

/// The shortest of them, since all that disturbs makes them longer.
pub fn shortest(mut round: impl FnMut() -> Result<Duration>) -> Result<Duration> {
    let mut least = Duration::MAX;
    rounds(ALONE, || {
        least = least.min(round()?);
        Ok(())
    })?;
    Ok(least)
}

impl Bench {
    pub fn new(oracle: Option<&str>) -> Result<Bench> {
        let oracle = oracle.map(Oracle::start_timed).transpose()?;
        Ok(Bench { lent: Lender::new(1), zeros: Lender::of_zeros(), oracle })
    }

    pub fn measure(&mut self, bundle: &[u8], items: u64) -> Result<Measured> {
        let work = bundle.len() / 4 * WORK_FOR_A_WORD;
        let made = self.lent.pack(bundle, work, ENOUGH * bundle.len() + LEAST).map_err(Error::other)?;
        if made.code != 0 {
            return Err(Error::other(format!("refused {} where a package was expected", made.code)));
        }
        let package = made.bytes.to_vec();
        let mut headless = bundle.to_vec();
        headless[0] = 2;
        let is_measure = Bundle::read(bundle).is_some_and(|read| measure(&read) == Measure::Thorin);
        let mut question = self.oracle.as_mut().filter(|_| is_measure).map(|oracle| Question::new(oracle, bundle));
        let [mut ours, mut clearing, mut zeros] = [Duration::MAX; 3];
        // They take turns, so that what disturbs one disturbs the others.
        rounds(IN_TURNS, || {
            ours = ours.min(once(&mut self.lent, bundle, package.len(), 0)?);
            clearing = clearing.min(once(&mut self.lent, &headless, package.len(), 3)?);
            zeros = zeros.min(once(&mut self.zeros, bundle, package.len(), 0)?);
            question.as_mut().map_or(Ok(()), |question| question.ask(&package))
        })?;
        let thorin = question.and_then(|question| question.steps);
        Ok(Measured { bundle: bundle.len(), items, package: package.len(), ours, clearing, zeros, thorin })
    }

    /// The time of an answer by this number, with as much output as the package takes, and the package.
    pub fn answered(&mut self, bundle: &[u8], code: u32) -> Result<(Duration, Vec<u8>)> {
        let package = self.lent.pack_whole(bundle).map_err(Error::other)?.bytes.to_vec();
        match self.lent.took() {
            took if took > LONG => Ok((took, package)),
            _ => shortest(|| once(&mut self.lent, bundle, package.len(), code)).map(|took| (took, package)),
        }
    }

    /// thorin's steps for a bundle that it takes as we do, in which nothing is looked for that says so: that would take long too.
    pub fn taken_alike(&mut self, bundle: &[u8], package: &[u8]) -> Result<Option<Steps>> {
        let Some(oracle) = self.oracle.as_mut() else { return Ok(None) };
        let mut question = Question::new(oracle, bundle);
        rounds(ALONE, || question.ask(package))?;
        Ok(question.steps)
    }
}

/// Our time for an answer by this number, with work enough.
fn once(lent: &mut Lender, bundle: &[u8], output: usize, code: u32) -> Result<Duration> {
    let work = bundle.len() / 4 * WORK_FOR_A_WORD;
    let packing = lent.pack(bundle, work, output).map_err(Error::other)?;
    if packing.code != code {
        return Err(Error::other(format!("code {} in the place of {code}", packing.code)));
    }
    Ok(lent.took())
}

/// The call where work and output are pages that the system has not given yet. What it lends is long enough to be mapped.
pub fn fresh(bundle: &[u8], package: usize, pages: Pages) -> Result<Duration> {
    pages::allow(pages)?;
    let took = shortest(|| {
        let mut work: Lent<u32> = Lent::zeros(bundle.len() / 4 * WORK_FOR_A_WORD);
        let mut output: Lent<u8> = Lent::zeros(package);
        let start = clock::thread();
        let (code, length, _) = ffi::pack_counted(bundle, &mut work, &mut output);
        let took = clock::between(start, clock::thread()).ok_or_else(no_clock)?;
        let right = (code, length) == (0, package);
        right.then_some(took).ok_or_else(|| Error::other(format!("code {code} over fresh pages")))
    });
    pages::allow(Pages::Huge)?;
    took
}

fn no_clock() -> Error {
    Error::other("no clock for this thread")
}

/// The time to clear so many words of junk at once, as a caller would.
pub fn one_store(words: usize) -> Result<Duration> {
    let mut memory: Lent<u32> = Lent::zeros(words);
    shortest(|| {
        memory.fill(u32::MAX);
        let start = clock::thread();
        std::hint::black_box(&mut memory[..]).fill(0);
        std::hint::black_box(&memory[..]);
        clock::between(start, clock::thread()).ok_or_else(no_clock)
    })
}

/// A bundle that thorin is asked to pack, and the least that each step took.
struct Question<'a> {
    oracle: &'a mut Oracle,
    bundle: &'a [u8],
    answer: Vec<u8>,
    steps: Option<Steps>,
}

impl<'a> Question<'a> {
    fn new(oracle: &'a mut Oracle, bundle: &'a [u8]) -> Question<'a> {
        Question { oracle, bundle, answer: Vec::new(), steps: None }
    }

    fn ask(&mut self, package: &[u8]) -> Result<()> {
        let (_, steps) = self.oracle.ask_timed(self.bundle, &mut self.answer)?;
        // An index whose slots thorin counts otherwise is not compared here.
        let is_right = by_thorins(&self.answer, package).is_some_and(|wanted| wanted == package);
        match steps.filter(|_| is_right) {
            Some(steps) => self.steps = Some(self.steps.map_or(steps, |before| before.least(steps))),
            None => return Err(Error::other(format!("thorin differs on a bundle of {} bytes", self.bundle.len()))),
        }
        Ok(())
    }
}

/// The small packer, with 65,536 bytes of junk to write to.
pub fn small(bundle: &[u8]) -> Result<Duration> {
    let mut output = vec![0; 65_536];
    shortest(|| {
        output.fill(0xA5);
        let clock = Instant::now();
        let (code, _) = ffi::pack_small(bundle, &mut output);
        let took = clock.elapsed();
        if code != 0 {
            return Err(Error::other(format!("the small packer answers {code}")));
        }
        Ok(took)
    })
}
