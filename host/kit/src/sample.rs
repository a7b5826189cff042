//! Answers of thorin, kept as lines of text, so that they can be compared where thorin is not at hand.
//!
//! ```text
//! package BUNDLE = BYTES
//! refused NUMBER BUNDLE = package | error TEXT | panic TEXT
//! ```
//!
//! Bundles and bytes are hexadecimal. A bundle that packing accepts has thorin's package; one that it refuses has our
//! number and what thorin did.

#[derive(Clone, Debug, PartialEq, Eq)]
pub enum Told {
    Package { bundle: Vec<u8>, package: Vec<u8> },
    Refused { bundle: Vec<u8>, number: u32, thorin: String },
}

fn hexadecimal(bytes: &[u8]) -> String {
    bytes.iter().map(|b| format!("{b:02x}")).collect()
}

fn bytes(text: &str) -> Option<Vec<u8>> {
    let whole = text.len().is_multiple_of(2) && !text.is_empty();
    let pairs = (0..text.len()).step_by(2).map(|i| u8::from_str_radix(text.get(i..i + 2)?, 16).ok());
    pairs.collect::<Option<_>>().filter(|_| whole)
}

impl std::fmt::Display for Told {
    fn fmt(&self, out: &mut std::fmt::Formatter<'_>) -> std::fmt::Result {
        match self {
            Told::Package { bundle, package } => {
                write!(out, "package {} = {}", hexadecimal(bundle), hexadecimal(package))
            }
            Told::Refused { bundle, number, thorin } => {
                write!(out, "refused {number} {} = {thorin}", hexadecimal(bundle))
            }
        }
    }
}

fn parse(line: &str) -> Option<Told> {
    let (question, answer) = line.split_once(" = ")?;
    match question.split(' ').collect::<Vec<_>>()[..] {
        ["package", bundle] => Some(Told::Package { bundle: bytes(bundle)?, package: bytes(answer)? }),
        ["refused", number, bundle] => {
            let known = ["package", "error", "panic"].contains(&answer.split(' ').next()?);
            let told = Told::Refused { bundle: bytes(bundle)?, number: number.parse().ok()?, thorin: answer.into() };
            Some(told).filter(|_| known)
        }
        _ => None,
    }
}

/// All lines but those that start with `#`; one that can't be read is an error that shows it.
pub fn parse_all(text: &str) -> Result<Vec<Told>, String> {
    let lines = text.lines().filter(|line| !line.is_empty() && !line.starts_with('#'));
    lines.map(|line| parse(line).ok_or_else(|| line.to_string())).collect()
}
