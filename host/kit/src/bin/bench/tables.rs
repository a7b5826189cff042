//! The tables of the page, row by row.

use super::elves::Elf;
use super::hostile::{Grown, One, LENGTHS};
use super::lookups::Lookup;
use super::measure::Measured;
use super::process::{Ended, Process};
use super::releases::{Input, Packed, Ran, Wrote, CAT, OURS, OURS_SMALL_PAGES, TAR};
use super::sheets::Sheet;
use super::show::{count, factor, grouped, head, is_behind, marked, megabytes, or_dash, quotient, row, time};
use kit::oracle::Steps;
use std::time::Duration;

/// One kind of bundle, each longer than the one before.
pub struct Growth {
    pub name: &'static str,
    pub items: &'static str,
    pub measured: Vec<Measured>,
}

/// What a hostile bundle of 28 KB may take.
const BAR: Duration = Duration::from_millis(50);

impl Measured {
    /// Of the call with junk lent, times thorin's adding and finishing.
    pub fn with_junk(&self) -> Option<f64> {
        self.thorin.and_then(|steps| quotient(self.ours, steps.packing))
    }

    /// The same with zeros lent.
    pub fn with_zeros(&self) -> Option<f64> {
        self.thorin.and_then(|steps| quotient(self.zeros, steps.packing))
    }
}

impl Growth {
    /// The growth at a doubling over the last two of them, where caches and fixed costs count least: ours, and thorin's.
    pub fn last_factors(&self) -> (Option<f64>, Option<f64>) {
        let [.., a, _, b] = &self.measured[..] else { return (None, None) };
        let thorin = a.thorin.zip(b.thorin).and_then(|(a, b)| quotient(b.packing, a.packing));
        (quotient(b.ours, a.ours).map(f64::sqrt), thorin.map(f64::sqrt))
    }
}

pub const SIZES: [&str; 11] = [
    "bundle",
    "bytes",
    "of",
    "package",
    "ours, junk lent",
    "of it clearing",
    "ours, zeros lent",
    "thorin: add and finish",
    "its writing",
    "junk / thorin",
    "zeros / thorin",
];

fn steps(thorin: Option<Steps>) -> [String; 2] {
    [or_dash(thorin, |steps| time(steps.packing)), or_dash(thorin, |steps| time(steps.writing))]
}

pub fn size(name: &str, items: &str, one: &Measured) -> String {
    let [packing, writing] = steps(one.thorin);
    row(&[
        name.to_string(),
        grouped(one.bundle as u64),
        count(one.items, items),
        grouped(one.package as u64),
        time(one.ours),
        time(one.clearing),
        time(one.zeros),
        packing,
        writing,
        marked(one.with_junk()),
        marked(one.with_zeros()),
    ])
}

/// What is behind thorin, and what part of it is clearing.
pub fn behind<'a>(rows: impl Iterator<Item = (&'a str, &'a Measured)>) -> String {
    let told = |(name, one): (&str, &Measured)| {
        let part = quotient(one.clearing, one.ours).map_or(0.0, |part| (part * 100.0).round());
        let size = megabytes(one.bundle);
        format!(
            "- {name}, {size}: {} of thorin's with junk, {} with zeros; {part:.0} % of the call with junk is clearing.\n",
            factor(one.with_junk()),
            factor(one.with_zeros()),
        )
    };
    let rows: Vec<String> =
        rows.filter(|(_, one)| is_behind(one.with_junk()) || is_behind(one.with_zeros())).map(told).collect();
    match rows.is_empty() {
        true => String::new(),
        false => format!("Behind thorin:\n\n{}\n", rows.concat()),
    }
}

/// A kind at each length: ours with junk, then thorin's adding and finishing.
pub fn growths(kinds: &[Growth]) -> String {
    let lengths: Vec<String> =
        kinds.first().map_or(Vec::new(), |kind| kind.measured.iter().map(|one| megabytes(one.bundle)).collect());
    let ours =
        lengths.iter().enumerate().map(|(i, length)| if i == 0 { format!("ours at {length}") } else { length.clone() });
    let its = lengths
        .iter()
        .enumerate()
        .map(|(i, length)| if i == 0 { format!("thorin at {length}") } else { length.clone() });
    let names: Vec<String> = std::iter::once("kind".to_string())
        .chain(ours)
        .chain(["growth".to_string()])
        .chain(its)
        .chain(["growth".to_string()])
        .collect();
    let line = |kind: &Growth| {
        let (ours, thorin) = kind.last_factors();
        let mut cells = vec![kind.name.to_string()];
        cells.extend(kind.measured.iter().map(|one| time(one.ours)));
        cells.push(factor(ours));
        cells.extend(kind.measured.iter().map(|one| or_dash(one.thorin, |steps| time(steps.packing))));
        cells.push(factor(thorin));
        row(&cells)
    };
    let names: Vec<&str> = names.iter().map(String::as_str).collect();
    head(&names) + &kinds.iter().map(line).collect::<String>()
}

pub fn pages(releases: &[Packed]) -> String {
    let line = |one: &Packed| {
        let warm = one.measured.zeros;
        let times = |took: Duration| factor(quotient(took, warm));
        let cells = [one.name.clone(), time(warm), time(one.huge), times(one.huge), time(one.small), times(one.small)];
        row(&cells)
    };
    let names = ["release", "warm zeros", "fresh huge pages", "times warm", "fresh small pages", "times warm"];
    head(&names) + &releases.iter().map(line).collect::<String>()
}

fn well(ended: &Ended) -> Option<Process> {
    match ended {
        Ended::Well(process) => Some(*process),
        _ => None,
    }
}

/// What a program over an input is, in a cell.
fn wrote(ran: &Ran) -> String {
    match (ran.ended, ran.wrote) {
        (Ended::Never(patience), _) => format!("nothing: no end in {}", time(patience)),
        (Ended::Badly, _) => "nothing: it failed".to_string(),
        (_, Wrote::Verified) => "verified".to_string(),
        (_, Wrote::VerifiedWithoutTypeIndex) => "verified without its empty tu_index".to_string(),
        (_, Wrote::NotVerified) => "not verified".to_string(),
        (_, Wrote::NoPackage) => "no package".to_string(),
    }
}

/// Whether a program is a limit, which packs nothing.
fn is_limit(program: &str) -> bool {
    program == CAT || program == TAR
}

/// Whether a quotient says something: the program packs rightly, or is a limit.
fn counts(ran: &Ran) -> bool {
    is_limit(ran.program) || matches!(ran.wrote, Wrote::Verified | Wrote::VerifiedWithoutTypeIndex)
}

impl Input {
    /// A program that ended well over it.
    pub fn of(&self, program: &str) -> Option<Process> {
        self.ran.iter().find(|ran| ran.program == program && counts(ran)).and_then(|ran| well(&ran.ended))
    }

    /// Ours, times a program's processor time.
    pub fn ours_times(&self, program: &str) -> Option<f64> {
        self.of(OURS).zip(self.of(program)).and_then(|(ours, other)| quotient(ours.time, other.time))
    }
}

/// All programs over an input, ours first.
pub fn processes(inputs: &[Input]) -> String {
    let names =
        ["input", "files, bytes", "program", "processor", "clock", "most memory", "what it wrote", "ours, times that"];
    let line = |input: &Input, ran: &Ran| {
        let process = well(&ran.ended);
        let is_ours = ran.program == OURS || ran.program == OURS_SMALL_PAGES;
        let ratio = if is_ours { None } else { input.ours_times(ran.program) };
        row(&[
            input.name.clone(),
            format!("{}, {}", input.files, grouped(input.bytes)),
            ran.program.to_string(),
            or_dash(process, |p| time(p.time)),
            or_dash(process, |p| time(p.clock)),
            or_dash(process, |p| format!("{:.1} MB", p.kilobytes as f64 / 1024.0)),
            wrote(ran),
            if is_limit(ran.program) { factor(ratio) } else { marked(ratio) },
        ])
    };
    head(&names)
        + &inputs.iter().flat_map(|input| input.ran.iter().map(move |ran| line(input, ran))).collect::<String>()
}

/// What each release is made of.
pub fn made_of(inputs: &[&Input]) -> String {
    let told = |input: &&Input| {
        let files = count(input.files as u64, "files");
        format!("- {}: {files}, version {}: {}.\n", input.name, input.version, input.made_by)
    };
    inputs.iter().map(told).collect()
}

fn length(bytes: usize) -> String {
    match bytes < 1 << 20 {
        true => format!("{} KB", bytes >> 10),
        false => format!("{} MB", bytes >> 20),
    }
}

pub fn hostile(kinds: &[Grown]) -> String {
    let mut names = vec!["kind".to_string(), "answer".to_string()];
    names.extend(LENGTHS.iter().map(|bytes| length(*bytes)));
    names.extend(["growth", "thorin, at the longest both took", "ours / thorin"].map(str::to_string));
    let line = |kind: &Grown| {
        let mut cells = vec![kind.name.to_string()];
        cells.push(if kind.answer == 0 { "package".to_string() } else { kind.answer.to_string() });
        let cell = |bytes: &usize| or_dash(kind.at(*bytes), |one: &One| time(one.ours));
        cells.extend(LENGTHS.iter().map(cell));
        cells.push(factor(kind.growth()));
        let both = kind.both();
        cells.push(or_dash(both, |(place, _, thorin)| format!("{} at {}", time(thorin), length(LENGTHS[place]))));
        cells.push(marked(both.and_then(|(_, one, thorin)| quotient(one.ours, thorin))));
        row(&cells)
    };
    let names: Vec<&str> = names.iter().map(String::as_str).collect();
    head(&names) + &kinds.iter().map(line).collect::<String>()
}

/// Those that don't keep the bar at 28 KB.
pub fn late(kinds: &[Grown]) -> String {
    let is_late = |kind: &&Grown| kind.at(LENGTHS[0]).is_some_and(|one| one.ours > BAR);
    let told = |kind: &Grown| format!("- {}: {}.\n", kind.name, or_dash(kind.at(LENGTHS[0]), |one| time(one.ours)));
    let rows: Vec<String> = kinds.iter().filter(is_late).map(told).collect();
    match rows.is_empty() {
        true => format!("Every kind keeps {} at 28 KB.\n", time(BAR)),
        false => format!("Longer than {} at 28 KB:\n\n{}", time(BAR), rows.concat()),
    }
}

pub fn read(one: &Elf) -> String {
    row(&[one.name.to_string(), grouped(one.file as u64), grouped(one.bundle as u64), time(one.took)])
}

pub fn looked_up(one: &Lookup) -> String {
    row(&[one.name.to_string(), grouped(one.bytes as u64), time(one.took)])
}

pub fn sheet(sheet: &Sheet) -> String {
    let line = |(name, took): &(&str, Duration)| {
        row(&[name.to_string(), time(*took), format!("{:.1}", sheet.took.as_secs_f64() / took.as_secs_f64())])
    };
    sheet.rows().iter().map(line).collect()
}

pub fn stack(entries: &[kit::stack::Entry]) -> String {
    let line = |entry: &kit::stack::Entry| row(&[format!("`{}`", entry.name), grouped(entry.bytes as u64)]);
    head(&["entry", "bytes of stack"]) + &entries.iter().map(line).collect::<String>()
}
