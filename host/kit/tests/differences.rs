//! docs/DIFFERENCES.md is true of the reference and of the proved packer: each input with words gets its section's number, or is accepted
//! where it says so.

use kit::lender::Lender;
use kit::reference::{pack, work_for, Packed};

struct Input {
    name: &'static str,
    bundle: Vec<u8>,
    /// None where it is accepted.
    refusal: Option<u32>,
}

fn bundle(words: &str) -> Vec<u8> {
    words.split_whitespace().flat_map(|w| u32::from_str_radix(w, 16).expect("a word").to_le_bytes()).collect()
}

/// All inputs with words.
fn inputs() -> Vec<Input> {
    let (mut number, mut inputs) = (0, Vec::new());
    for line in include_str!("../../../docs/DIFFERENCES.md").lines() {
        if let Some(heading) = line.strip_prefix("## ") {
            number = heading.split(',').next().and_then(|n| n.parse().ok()).unwrap_or(0);
        }
        let cells: Vec<&str> = line.split(" | ").collect();
        let Some(words) = cells.get(1).and_then(|c| c.strip_prefix("`F000")) else { continue };
        let bundle = bundle(&format!("F000{}", words.trim_end_matches('`')));
        let refusal = (!cells[0].starts_with("| accepted")).then_some(number);
        inputs.push(Input { name: cells[0], bundle, refusal });
    }
    inputs
}

fn answer(input: &Input) -> Packed {
    pack(&input.bundle, work_for(&input.bundle), 1 << 20)
}

#[test]
fn every_input_has_its_number() {
    let inputs = inputs();
    for input in &inputs {
        match (answer(input), input.refusal) {
            (Packed::Made(_), None) => {}
            (Packed::Refused(number), Some(wanted)) if number == wanted => {}
            (answer, _) => panic!("{} gives {answer:?}, not {:?}", input.name, input.refusal),
        }
    }
    assert!(inputs.len() > 150, "only {} inputs were read", inputs.len());
}

#[test]
fn every_input_is_answered_so_through_c() {
    let mut lent = Lender::new(28);
    for input in inputs() {
        let (work, answer) = (work_for(&input.bundle), answer(&input));
        let packing = lent.pack(&input.bundle, work, 1 << 20).unwrap_or_else(|e| panic!("{}: {e}", input.name));
        assert!(packing.agrees(&answer), "{}: {packing:?}, not {answer:?}", input.name);
    }
}
