//! ELF files read and written, through the C entries.

use crate::lent::Lent;
use crate::names::INFO;
use crate::reader::bundle::Bundle;

/// Code 0: what is written has that length. 18, of reading: that length is needed. Else the refusal, with 0.
#[repr(C)]
struct Written {
    code: u32,
    length: usize,
}

type Reader = unsafe extern "C" fn(*const u8, usize, *mut u8, usize) -> Written;

type Writer = unsafe extern "C" fn(*const u8, usize, u32, *mut u8, usize) -> Written;

extern "C" {
    fn barthovin_read_elf(file: *const u8, file_length: usize, output: *mut u8, output_length: usize) -> Written;
    fn barthovin_read_elf32(file: *const u8, file_length: usize, output: *mut u8, output_length: usize) -> Written;
    fn barthovin_write_elf(
        package: *const u8,
        package_length: usize,
        machine: u32,
        output: *mut u8,
        output_length: usize,
    ) -> Written;
    fn barthovin_write_elf_for(
        package: *const u8,
        package_length: usize,
        machine: u32,
        output: *mut u8,
        output_length: usize,
    ) -> Written;
}

/// The first bytes of an ELF file.
pub const MAGIC: &[u8] = b"\x7FELF";

/// The class of a file of 32 bits.
const CLASS_32: u8 = 1;

/// Whether a file says that it is of 32 bits.
pub fn is_32(file: &[u8]) -> bool {
    file.get(MAGIC.len()) == Some(&CLASS_32)
}

fn read_by(reader: Reader, file: &[u8], output: &mut [u8]) -> (u32, usize) {
    // An entry reads and writes the slices that it is lent, and nothing else.
    let Written { code, length } = unsafe { reader(file.as_ptr(), file.len(), output.as_mut_ptr(), output.len()) };
    (code, length)
}

/// Reads an ELF64 file and writes the bundle of its debug sections: code and length. After it the output holds the bundle and zeros, or
/// zeros only.
pub fn read(file: &[u8], output: &mut [u8]) -> (u32, usize) {
    read_by(barthovin_read_elf, file, output)
}

/// The same of an ELF32 file.
pub fn read_32(file: &[u8], output: &mut [u8]) -> (u32, usize) {
    read_by(barthovin_read_elf32, file, output)
}

/// The same by the class that the file states.
pub fn read_either(file: &[u8], output: &mut [u8]) -> (u32, usize) {
    match is_32(file) {
        true => read_32(file, output),
        false => read(file, output),
    }
}

/// The machines that have a name here, the usual one first. Where two have one number, a file doesn't tell which it is for.
pub const MACHINES: [(&str, u32); 9] = [
    ("x86-64", 62),
    ("aarch64", 183),
    ("arm", 40),
    ("riscv64", 243),
    ("riscv32", 243),
    ("i386", 3),
    ("powerpc", 20),
    ("powerpc64", 21),
    ("mips", 8),
];

/// The greatest number of a machine; 0 is none.
const MOST: u32 = 0xFFFF;

/// The machine of a name, or of a number from 1 to 65,535.
pub fn machine(name: &str) -> Option<u32> {
    let named = MACHINES.iter().find(|(known, _)| *known == name).map(|(_, number)| *number);
    let is_number = name.bytes().all(|b| b.is_ascii_digit());
    named.or_else(|| name.parse().ok().filter(|number| is_number && (1..=MOST).contains(number)))
}

/// How a machine is called: by its number, and by its names where it has any.
pub fn machine_shown(machine: u32) -> String {
    let names: Vec<&str> = MACHINES.iter().filter(|(_, number)| *number == machine).map(|(name, _)| *name).collect();
    match names.is_empty() {
        true => format!("machine {machine}"),
        false => format!("machine {machine} ({})", names.join(" or ")),
    }
}

/// What a file has beside the package's bytes, at most: its header, the names, zeros, and 15 section headers.
const ROOM: usize = 64 + 310 + 7 + 15 * 64;

fn write_by(writer: Writer, package: &[u8], machine: u32, output: &mut [u8]) -> (u32, usize) {
    // An entry reads and writes the slices that it is lent, and nothing else.
    let Written { code, length } =
        unsafe { writer(package.as_ptr(), package.len(), machine, output.as_mut_ptr(), output.len()) };
    (code, length)
}

/// Writes a package as an ELF file for x86-64, AArch64 or RISC-V: code and length. After it the output holds the file and zeros, or zeros only.
pub fn write(package: &[u8], machine: u32, output: &mut [u8]) -> (u32, usize) {
    write_by(barthovin_write_elf, package, machine, output)
}

/// The same for any machine.
pub fn write_for(package: &[u8], machine: u32, output: &mut [u8]) -> (u32, usize) {
    write_by(barthovin_write_elf_for, package, machine, output)
}

/// The ELF file of a package, for any machine, or the refusal's number.
pub fn file_of(package: &[u8], machine: u32) -> Result<Lent<u8>, u32> {
    file_in(package, machine, Lent::zeros(0))
}

/// The same in memory that has served, where it is long enough: the system has given it its pages.
pub fn file_in(package: &[u8], machine: u32, mut memory: Lent<u8>) -> Result<Lent<u8>, u32> {
    let room = package.len() + ROOM;
    memory.truncate(room);
    if memory.len() < room {
        memory = Lent::zeros(room);
    }
    match write_for(package, machine, &mut memory) {
        (0, length) => {
            memory.truncate(length);
            Ok(memory)
        }
        (number, _) => Err(number),
    }
}

/// Whether a package can be read back from its ELF file: the first unit of info says there what the object's word says here.
pub fn states_version(package: &[u8]) -> bool {
    let read = Bundle::read(package);
    read.is_ok_and(|read| read.objects.first().is_some_and(|object| !object.bytes(INFO).is_empty()))
}

/// Whether a package's ELF file can be opened and states what the package states. The reader says it.
pub fn opens(file: &[u8], package: &[u8]) -> bool {
    let mut again = Lent::zeros(package.len());
    let (code, _) = read_either(file, &mut again);
    code == 0 && again[..STATED] == package[..STATED]
}

/// The bytes of the words that state byte order, version, offset width and address size.
const STATED: usize = 8;

/// The machine that an ELF file's header names, in the byte order that it names; none where it is 0, which is no machine.
pub fn machine_of(file: &[u8]) -> Option<u32> {
    let [order, low, high] = [*file.get(5)?, *file.get(18)?, *file.get(19)?];
    let bytes = if order == 2 { [high, low] } else { [low, high] };
    let machine = u16::from_le_bytes(bytes);
    (file.starts_with(MAGIC) && machine != 0).then_some(machine.into())
}
