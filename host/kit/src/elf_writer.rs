//! FORMAT 8.3 and 8.5 in plain Rust: a package written as an ELF64 file, with every refusal.
//!
//! It is written from the rule alone, and shares no code with the proved definitions.

use crate::elf::NAMES;
use crate::reference::{lookup, Bundle, Found, Packed};

const MACHINES: [u32; 3] = [62, 183, 243];
const HEADER: usize = 64;
const PROGRAM_BITS: u64 = 1;
const STRING_TABLE: u64 = 3;

struct Out {
    bytes: Vec<u8>,
    big: bool,
}

impl Out {
    /// Numbers with their widths, one following the other.
    fn put(&mut self, fields: &[(u64, usize)]) {
        for (value, width) in fields {
            let all = value.to_be_bytes();
            let bytes = &all[8 - width..];
            if self.big {
                self.bytes.extend(bytes);
            } else {
                self.bytes.extend(bytes.iter().rev());
            }
        }
    }

    fn section(&mut self, name: usize, kind: u64, offset: usize, size: usize) {
        let (name, offset, size) = (name as u64, offset as u64, size as u64);
        self.put(&[(name, 4), (kind, 4), (0, 8), (0, 8), (offset, 8), (size, 8), (0, 4), (0, 4), (1, 8), (0, 8)]);
    }
}

/// The file of a package that is good.
fn file(bundle: &Bundle, machine: u32) -> Vec<u8> {
    let mut sections = Vec::new();
    for code in 1..=13 {
        sections
            .extend(bundle.objects.first().and_then(|o| o.section(code)).map(|s| (NAMES[code as usize - 1], s.bytes)));
    }
    let (mut bodies, mut names, mut places) = (Vec::<u8>::new(), vec![0u8], Vec::new());
    for (name, bytes) in &sections {
        places.push((names.len(), HEADER + bodies.len(), bytes.len()));
        bodies.extend(*bytes);
        names.extend(name.bytes().chain([0]));
    }
    let own_name = names.len();
    names.extend(b".shstrtab\0");
    let table = HEADER + bodies.len();
    let headers = (table + names.len()).next_multiple_of(8);
    let mut out = Out { bytes: vec![0x7F, b'E', b'L', b'F', 2, if bundle.big { 2 } else { 1 }, 1], big: bundle.big };
    out.bytes.resize(16, 0);
    out.put(&[(1, 2), (machine.into(), 2), (1, 4), (0, 8), (0, 8), (headers as u64, 8), (0, 4)]);
    let count = sections.len() as u64 + 2;
    out.put(&[(64, 2), (0, 2), (0, 2), (64, 2), (count, 2), (count - 1, 2)]);
    out.bytes.extend(bodies);
    out.bytes.extend(&names);
    out.bytes.resize(headers + HEADER, 0);
    for (name, offset, size) in places {
        out.section(name, PROGRAM_BITS, offset, size);
    }
    out.section(own_name, STRING_TABLE, table, names.len());
    out.bytes
}

/// What writing a package for one of three machines into an output of so many bytes answers.
pub fn write(package: &[u8], machine: u32, output: usize) -> Packed {
    match MACHINES.contains(&machine) {
        true => write_for(package, machine, output),
        false => Packed::Refused(36),
    }
}

/// The same for any machine.
pub fn write_for(package: &[u8], machine: u32, output: usize) -> Packed {
    if !(1..=0xFFFF).contains(&machine) {
        return Packed::Refused(36);
    }
    if lookup(package, 5, 1, 1, 1) == Found::Refused(21) {
        return Packed::Refused(21);
    }
    let Some(bundle) = Bundle::read(package) else { return Packed::Refused(21) };
    let file = file(&bundle, machine);
    if output < file.len() {
        return Packed::Refused(37);
    }
    Packed::Made(file)
}
