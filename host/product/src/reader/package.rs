//! A package: a bundle of at most one object whose sections are there once, with its indexes.

use super::bundle::{Bundle, Object};
use super::index::{empty_index, Index};
use crate::names::{section_name, CU_INDEX, LONGEST_PACKAGE, TU_INDEX};

pub struct Package<'a> {
    pub big: bool,
    pub object: Option<Object<'a>>,
    pub cu_index: Option<Index>,
    pub tu_index: Option<Index>,
}

impl<'a> Package<'a> {
    /// The error says why it is none.
    pub fn read(bytes: &'a [u8]) -> Result<Package<'a>, String> {
        match bytes.len() {
            length if length > LONGEST_PACKAGE => return Err(format!("it has more than {LONGEST_PACKAGE} bytes")),
            length if length < 8 || length % 4 != 0 => return Err(format!("it has {length} bytes")),
            _ => (),
        }
        let read = Bundle::read(bytes).map_err(|e| format!("the word at byte {}: {}", e.at, e.why))?;
        let Bundle { big, mut objects } = read;
        if objects.len() > 1 {
            return Err(format!(
                "it has {} objects; a package has one, a bundle to be packed may have more",
                objects.len()
            ));
        }
        let mut package = Package { big, object: objects.pop(), cu_index: None, tu_index: None };
        if let Some(object) = &package.object {
            if !object.encoding.is_known() {
                return Err(format!("it states {}", object.encoding));
            }
            if let Some(code) = (1..=TU_INDEX).find(|code| object.count(*code) > 1) {
                return Err(format!("it has {} {} sections", object.count(code), section_name(code)));
            }
            package.cu_index = index(object, CU_INDEX, big)?;
            package.tu_index = index(object, TU_INDEX, big)?;
        }
        Ok(package)
    }

    /// The index of a table, 1 or 2.
    pub fn index(&self, table: u32) -> Option<&Index> {
        if table == 1 { &self.cu_index } else { &self.tu_index }.as_ref()
    }

    /// The version of its indexes; 5 where it has none, when any will do.
    pub fn version(&self) -> u32 {
        self.cu_index.as_ref().or(self.tu_index.as_ref()).map_or(5, |index| index.version)
    }
}

fn index(object: &Object, code: u32, big: bool) -> Result<Option<Index>, String> {
    let help = |bytes| empty_index(code, bytes, big);
    let read = |bytes| {
        Index::read(bytes, big).map_err(|why| format!("{} is ill-formed: {why}{}", section_name(code), help(bytes)))
    };
    object.section(code).map(|section| read(section.bytes)).transpose()
}
