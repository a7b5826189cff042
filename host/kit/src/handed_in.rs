//! What a bundle hands in, read from the bundle alone: its units in order, each with its bytes, its parts and its strings.

use crate::reference::{header_size, number, read_unit, string_at, Bundle, Encoding, Index, Object, Probe, Table};
use std::collections::{HashMap, HashSet};
use std::rc::Rc;

const INFO: u32 = 1;
const ABBREV: u32 = 3;
const STR_OFFSETS: u32 = 6;
const STR: u32 = 11;
const CU_INDEX: u32 = 12;
const TU_INDEX: u32 = 13;

/// The index of a table, and its rows by the place that their info cells name.
struct Rows {
    index: Index,
    places: HashMap<(u64, u64), u64>,
}

impl Rows {
    fn of(object: &Object, code: u32, big: bool) -> Option<Rc<Rows>> {
        let index = Index::read(object.section(code)?.bytes, big).expect("an index");
        let place = |row| index.cell(row, INFO).map(|place| (place, row));
        let places = (1..=index.units).filter_map(place).collect();
        Some(Rc::new(Rows { index, places }))
    }

    /// The part that a row names of an object's section, empty where the section is.
    fn part<'b>(&self, row: u64, whole: &'b [u8], code: u32) -> &'b [u8] {
        if whole.is_empty() {
            return whole;
        }
        let (offset, size) = self.index.cell(row, code).expect("a column");
        &whole[offset as usize..][..size as usize]
    }
}

/// A unit where it stands in its object.
pub struct HandedIn<'b> {
    /// 1 for the compilation table, 2 for the type table.
    pub table: u32,
    pub identity: u64,
    /// The code of its section: 1 info, 2 types.
    pub section: u32,
    pub bytes: &'b [u8],
    /// Its object's number, counted from 0.
    pub nth: usize,
    object: &'b Object<'b>,
    encoding: Encoding,
    /// The index of its table, where its object has one.
    rows: Option<Rc<Rows>>,
}

/// An object while its units are read.
struct Reader<'b> {
    nth: usize,
    object: &'b Object<'b>,
    encoding: Encoding,
    compilations: Option<Rc<Rows>>,
    types: Option<Rc<Rows>>,
}

impl<'b> Reader<'b> {
    fn of(bundle: &Bundle, nth: usize, object: &'b Object<'b>) -> Reader<'b> {
        let encoding = Encoding::of(bundle.big, object.word);
        let rows = |code| Rows::of(object, code, bundle.big);
        Reader { nth, object, encoding, compilations: rows(CU_INDEX), types: rows(TU_INDEX) }
    }

    /// The abbreviations of a compilation unit of version 4: the part that the row of its place names, else the whole section.
    fn abbrev(&self, at: usize, size: usize) -> &'b [u8] {
        let whole = self.object.bytes(ABBREV);
        let Some(rows) = &self.compilations else { return whole };
        let row = rows.places.get(&(at as u64, size as u64)).expect("a row that names the unit's place");
        rows.part(*row, whole, ABBREV)
    }

    /// The unit at a place of a section.
    fn unit(&self, section: u32, bytes: &'b [u8], at: usize) -> HandedIn<'b> {
        let Reader { nth, object, encoding, .. } = *self;
        let unit = read_unit(section, &bytes[at..], |size| Ok(self.abbrev(at, size)), encoding).expect("a unit");
        let (table, rows) = match unit.table {
            Table::Compilation => (1, self.compilations.clone()),
            Table::Type => (2, self.types.clone()),
        };
        let bytes = &bytes[at..at + unit.size];
        HandedIn { table, identity: unit.identity, section, bytes, nth, object, encoding, rows }
    }
}

/// All units of a bundle that packing accepts, in the order in which they stand.
pub fn all<'b>(bundle: &'b Bundle<'b>) -> Vec<HandedIn<'b>> {
    let mut units = Vec::new();
    for (nth, object) in bundle.objects.iter().enumerate() {
        let reader = Reader::of(bundle, nth, object);
        for section in object.sections.iter().filter(|s| s.code <= 2) {
            let mut at = 0;
            while at < section.bytes.len() {
                let unit = reader.unit(section.code, section.bytes, at);
                at += unit.bytes.len();
                units.push(unit);
            }
        }
    }
    units
}

/// The first of each table and identity.
pub fn firsts<'b>(bundle: &'b Bundle<'b>) -> Vec<HandedIn<'b>> {
    let mut seen = HashSet::new();
    let mut units = all(bundle);
    units.retain(|unit| seen.insert((unit.table, unit.identity)));
    units
}

impl<'b> HandedIn<'b> {
    /// Its part at a section code from 1 to 10, empty where it has none. Only the first of an identity surely has a row.
    pub fn part(&self, code: u32) -> &'b [u8] {
        match code {
            1 | 2 if code == self.section => self.bytes,
            1 | 2 => &[],
            _ => self.contribution(code),
        }
    }

    /// Its object's whole section, or what its row says where the object is a package.
    fn contribution(&self, code: u32) -> &'b [u8] {
        let whole = self.object.bytes(code);
        match &self.rows {
            Some(rows) => rows.part(self.row(rows), whole, code),
            None => whole,
        }
    }

    /// The row where the search for its identity ends.
    fn row(&self, rows: &Rows) -> u64 {
        let Probe::Row(row, _) = rows.index.probe(self.identity) else { panic!("no row") };
        row
    }

    /// Offset and size of its part of a shared section in its object, where the object has an index for its table and the section isn't
    /// empty.
    pub fn cell(&self, code: u32) -> Option<(u64, u64)> {
        let rows = self.rows.as_ref().filter(|_| !self.object.bytes(code).is_empty())?;
        rows.index.cell(self.row(rows), code)
    }

    /// Whether reading its abbreviations at the header's offset in the whole section, as thorin does, gives the same identity.
    pub fn is_the_same_by_the_whole_abbrev(&self) -> bool {
        let whole = read_unit(self.section, self.bytes, |_| Ok(self.object.bytes(ABBREV)), self.encoding);
        whole.is_ok_and(|unit| unit.identity == self.identity)
    }

    /// The strings that the entries of its part of str_offsets name.
    pub fn strings(&self) -> Vec<&'b [u8]> {
        strings_in(self.object, self.part(STR_OFFSETS), self.encoding)
    }
}

/// The strings that the entries of a part of an object's str_offsets name.
fn strings_in<'b>(object: &'b Object<'b>, part: &'b [u8], encoding: Encoding) -> Vec<&'b [u8]> {
    let Encoding { big, version, width, .. } = encoding;
    let entries = part.get(header_size(version, width)..).unwrap_or(&[]);
    let string = |entry: &[u8]| {
        let offset = number(entry, 0, width, big).expect("a whole entry");
        string_at(object.bytes(STR), offset).expect("a string")
    };
    entries.chunks(width).map(string).collect()
}

/// The parts of an object's str_offsets that have a header each: in a package of version 5 those that its rows name, each once and the empty
/// ones left out, in order of offset; else the section. Of a bundle that packing accepts.
pub fn pieces<'b>(object: &'b Object<'b>, big: bool) -> Vec<&'b [u8]> {
    let whole = object.bytes(STR_OFFSETS);
    let indexes: Vec<&[u8]> =
        [CU_INDEX, TU_INDEX].iter().filter_map(|code| object.section(*code)).map(|s| s.bytes).collect();
    if indexes.is_empty() || object.word & 0xFF != 5 {
        return vec![whole];
    }
    let rows = |bytes: &&[u8]| {
        let index = Index::read(bytes, big).expect("an index");
        (1..=index.units).filter_map(|row| index.cell(row, STR_OFFSETS)).collect::<Vec<_>>()
    };
    let mut parts: Vec<(u64, u64)> = indexes.iter().flat_map(rows).filter(|(_, size)| *size > 0).collect();
    parts.sort();
    parts.dedup();
    parts.into_iter().map(|(offset, size)| &whole[offset as usize..][..size as usize]).collect()
}

/// The strings that all entries name, object by object, each where it is named first.
pub fn first_uses<'b>(bundle: &'b Bundle<'b>) -> Vec<&'b [u8]> {
    let of = |object: &'b Object<'b>| {
        let encoding = Encoding::of(bundle.big, object.word);
        pieces(object, bundle.big).into_iter().flat_map(move |piece| strings_in(object, piece, encoding))
    };
    let mut seen = HashSet::new();
    bundle.objects.iter().flat_map(of).filter(|string| seen.insert(*string)).collect()
}
