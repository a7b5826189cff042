//! `barthovin verify`: whether a package holds all that files were packed into it, before they are deleted.

use super::call::{Call, Known};
use super::files::{good_package, join, listed, not_a_bundle, Joined};
use super::meaning::meaning;
use super::pack::usual;
use super::{guard, input, output, progress, show, Stop, DONE, NOT_DONE};
use crate::ffi::Skipped;
use crate::lent::Lent;
use crate::names::{section_name, OUTPUT_TOO_SHORT, STR, WORK_FOR_A_WORD};
use crate::verify::{verify, Fault, Report, Unit};
use crate::verifying::{self, Verified, NOT_VERIFIED};
use std::ffi::OsString;

const OPTIONS: [Known; 1] = [Known { long: "json", short: None, value: false }];

/// So many faults are told one by one.
const TOLD: usize = 20;

pub fn run(arguments: &[OsString]) -> Result<u8, Stop> {
    let call = match Call::read("verify", &OPTIONS, arguments)? {
        Ok(call) => call,
        Err(status) => return Ok(status),
    };
    let Some((name, files)) = call.operands.split_first() else { return Err(call.wrong("operand PACKAGE is missing")) };
    let files = listed(files)?;
    if files.is_empty() {
        return Err(call.wrong("operand FILE is missing"));
    }
    if let Some(file) = files.iter().find(|file| guard::are_one_file(name, file)) {
        let told = "it is the package itself, which is no copy of it: name the files that were packed";
        return Err(Stop::Trouble(format!("{}: {told}", input::shown(file))));
    }
    let package_bytes = good_package(&call, name)?.bytes;
    let joined = join(&call, None, &files)?;
    joined.note_left_out(files.len());
    let about = format!("looking for {} in the package", show::count(files.len(), "file"));
    let report = progress::shown(about, || verify(&package_bytes, &joined.bundle));
    // Several files were taken apart when they were joined.
    let report = report.map_err(|_| not_a_bundle(&call, &input::shown(&files[0]), &joined.bundle))?;
    let faults = report.faults.iter().map(|fault| named(fault, &joined, &files));
    let faults: Vec<(String, String)> = faults.chain(joined.uncarried.faults()).collect();
    let verified = faults.is_empty() && report.units > 0;
    if call.has("json") {
        let verified = verified && proved(&package_bytes, &joined, report.version).code == 0;
        output::print(&json(&report, files.len(), &joined.with_code, verified, &faults))?;
        return Ok(if verified { DONE } else { NOT_DONE });
    }
    let package = input::shown(name);
    if !faults.is_empty() {
        return Err(Stop::Refused(not_found(&package, &report, &faults)));
    }
    let read = read(&report, files.len());
    if !verified {
        let told = format!("{package}: not verified: {read}: no unit was looked for: keep the files");
        return Err(Stop::Refused(told));
    }
    let proved =
        progress::shown("packing again, and comparing".to_string(), || proved(&package_bytes, &joined, report.version));
    if let Some(why) = why_not(proved) {
        return Err(Stop::Refused(format!(
            "{package}: not verified: {read}: {}; but {why}: keep the files",
            found(&report)
        )));
    }
    output::print(&format!("{read}: {}; {}", found(&report), may_go(files.len(), &joined.with_code)))
}

/// The proved function's word: the files are packed again, and the package has to answer as theirs does.
fn proved(package: &[u8], joined: &Joined, version: u32) -> Verified {
    let bundle = &joined.bundle;
    let mut work = Lent::zeros(bundle.len() / 4 * WORK_FOR_A_WORD);
    let mut output = Lent::zeros(usual(bundle.len()));
    let told = verifying::verify(bundle, (&mut work, &mut output), package, version);
    if told.code != OUTPUT_TOO_SHORT {
        return told;
    }
    output = Lent::zeros(told.length);
    verifying::verify(bundle, (&mut work, &mut output), package, version)
}

/// Why the proved function doesn't say yes.
fn why_not(told: Verified) -> Option<String> {
    match told.code {
        0 => None,
        NOT_VERIFIED if told.section == 0 => {
            Some("the package states another byte order, version or width".to_string())
        }
        NOT_VERIFIED => {
            let unit = Unit { table: told.table, identity: told.identity };
            Some(format!("{unit} is answered otherwise at {}, by the proved comparison", place(told)))
        }
        number => Some(format!(
            "the proved comparison packs the files again, and that is refused by {number} ({})",
            meaning(number)
        )),
    }
}

fn place(told: Verified) -> String {
    match told.section {
        STR => format!("the string of entry {}", told.entry),
        section => section_name(section).to_string(),
    }
}

/// A fault's file and what is wrong there.
fn named(fault: &Fault, joined: &Joined, files: &[OsString]) -> (String, String) {
    let file = joined.files.get(fault.object - 1).cloned();
    let file = file.unwrap_or_else(|| format!("{}, object {}", input::shown(&files[0]), fault.object));
    let unit = fault.unit.map(|unit| format!("{unit}: ")).unwrap_or_default();
    (file, format!("{unit}{}", fault.what))
}

/// What was read.
fn read(report: &Report, files: usize) -> String {
    let without = match report.without_units {
        0 => String::new(),
        count => format!(" ({count} without a unit)"),
    };
    format!("{}, {}{without}", show::count(files, "file"), show::count(report.objects, "object"))
}

fn counts(report: &Report) -> String {
    format!("{}, {}", show::count(report.units, "unit"), show::count(report.strings, "string"))
}

fn found(report: &Report) -> String {
    let skipped = Some(report.skipped).filter(|skipped| *skipped != Skipped::default());
    let skipped = skipped.map(|skipped| format!("; {}", show::skipped(skipped))).unwrap_or_default();
    format!("{}: all found{skipped}", counts(report))
}

/// Which files may be deleted: an object file that was not split holds its debug sections beside the program's.
fn may_go(files: usize, with_code: &[String]) -> String {
    let Some((last, others)) = with_code.split_last() else { return "the files may be deleted".to_string() };
    let names = match others {
        [] => format!("{last} has code or data besides: keep it"),
        _ => format!("{} and {last} have code or data besides: keep them", others.join(", ")),
    };
    let rest = if with_code.len() < files { "; the other files may be deleted" } else { "" };
    format!("{names}{rest}")
}

fn not_found(package: &str, report: &Report, faults: &[(String, String)]) -> String {
    let mut told = format!("{package}: not verified: {} of {}", show::count(faults.len(), "fault"), counts(report));
    faults.iter().take(TOLD).for_each(|(file, what)| told += &format!("\nbarthovin: {file}: {what}"));
    if faults.len() > TOLD {
        told += &format!("\nbarthovin: and {} more", faults.len() - TOLD);
    }
    told + "\nbarthovin: keep the files"
}

fn json(report: &Report, files: usize, with_code: &[String], verified: bool, faults: &[(String, String)]) -> String {
    let fault =
        |(file, what): &(String, String)| format!("{{\"file\":{},\"what\":{}}}", show::json(file), show::json(what));
    let faults: Vec<String> = faults.iter().map(fault).collect();
    let with_code: Vec<String> = with_code.iter().map(|file| show::json(file)).collect();
    let Report { objects, units, skipped: Skipped { repeats, namesakes }, strings, .. } = report;
    let counts = format!("\"units\":{units},\"repeats\":{repeats},\"namesakes\":{namesakes},\"strings\":{strings}");
    format!(
        "{{\"verified\":{verified},{counts},\"files\":{files},\"objects\":{objects},\"with_code\":[{}],\"faults\":[{}]}}",
        with_code.join(","),
        faults.join(",")
    )
}
