//! Arguments as GNU tools take them: options anywhere, `--` ends them, values as `-oFILE`, `-o FILE`, `--output=FILE` or `--output FILE`.

use super::{help, output, show, Stop, VERSION};
use std::ffi::{OsStr, OsString};
use std::os::unix::ffi::OsStrExt;

/// An option: its long name, its letter where it has one, and whether a value belongs to it.
pub struct Known {
    pub long: &'static str,
    pub short: Option<u8>,
    pub value: bool,
}

const HELP: Known = Known { long: "help", short: Some(b'h'), value: false };
const VERSION_OPTION: Known = Known { long: "version", short: Some(b'V'), value: false };

pub struct Call {
    command: &'static str,
    pub operands: Vec<OsString>,
    options: Vec<(&'static str, OsString)>,
}

impl Call {
    /// Takes the arguments of a subcommand apart; the status where they ask for help or the version, which is told.
    pub fn read(command: &'static str, known: &[Known], arguments: &[OsString]) -> Result<Result<Call, u8>, Stop> {
        let mut call = Call { command, operands: Vec::new(), options: Vec::new() };
        let mut rest = arguments.iter();
        while let Some(word) = rest.next() {
            match word.as_bytes() {
                b"--" => {
                    call.operands.extend(rest.by_ref().cloned());
                }
                [b'-', b'-', long @ ..] => call.long(known, long, &mut rest)?,
                [b'-', short @ ..] if !short.is_empty() => call.letters(known, short, &mut rest)?,
                _ => call.operands.push(word.clone()),
            }
        }
        if call.has(HELP.long) {
            return output::print(help::about(command)).map(Err);
        }
        if call.has(VERSION_OPTION.long) {
            return output::print(VERSION).map(Err);
        }
        Ok(Ok(call))
    }

    fn long<'a>(
        &mut self,
        known: &[Known],
        word: &[u8],
        rest: &mut impl Iterator<Item = &'a OsString>,
    ) -> Result<(), Stop> {
        let (name, value) = match word.iter().position(|b| *b == b'=') {
            Some(at) => (&word[..at], Some(OsStr::from_bytes(&word[at + 1..]).to_os_string())),
            None => (word, None),
        };
        let shown = format!("--{}", show::name(OsStr::from_bytes(name)));
        let mut all = known.iter().chain([&HELP, &VERSION_OPTION]);
        let Some(option) = all.find(|k| k.long.as_bytes() == name) else {
            return Err(self.wrong(format!("unrecognized option '{shown}'")));
        };
        match (option.value, value) {
            (false, Some(_)) => Err(self.wrong(format!("option '{shown}' takes no value"))),
            (false, None) => self.push(option, OsString::new()),
            (true, Some(value)) => self.push(option, value),
            (true, None) => self.push_next(option, &shown, rest),
        }
    }

    /// One or more letters following one dash; the first that takes a value takes what follows.
    fn letters<'a>(
        &mut self,
        known: &[Known],
        letters: &[u8],
        rest: &mut impl Iterator<Item = &'a OsString>,
    ) -> Result<(), Stop> {
        for (at, letter) in letters.iter().enumerate() {
            let shown = format!("-{}", show::escaped(&[*letter]));
            let mut all = known.iter().chain([&HELP, &VERSION_OPTION]);
            let Some(option) = all.find(|k| k.short == Some(*letter)) else {
                return Err(self.wrong(format!("unrecognized option '{shown}'")));
            };
            let following = &letters[at + 1..];
            if option.value && following.is_empty() {
                return self.push_next(option, &shown, rest);
            }
            if option.value {
                return self.push(option, OsStr::from_bytes(following).to_os_string());
            }
            self.push(option, OsString::new())?;
        }
        Ok(())
    }

    fn push_next<'a>(
        &mut self,
        option: &Known,
        shown: &str,
        rest: &mut impl Iterator<Item = &'a OsString>,
    ) -> Result<(), Stop> {
        let Some(value) = rest.next() else { return Err(self.wrong(format!("option '{shown}' needs a value"))) };
        self.push(option, value.clone())
    }

    fn push(&mut self, option: &Known, value: OsString) -> Result<(), Stop> {
        if option.value && self.has(option.long) {
            return Err(self.wrong(format!("option '--{}' is given twice", option.long)));
        }
        self.options.push((option.long, value));
        Ok(())
    }

    pub fn has(&self, long: &str) -> bool {
        self.value(long).is_some()
    }

    /// The value of an option, empty where it takes none.
    pub fn value(&self, long: &str) -> Option<&OsStr> {
        self.options.iter().find(|(name, _)| *name == long).map(|(_, value)| value.as_os_str())
    }

    /// A wrong call, in these words.
    pub fn wrong(&self, message: impl Into<String>) -> Stop {
        Stop::wrong(self.command, message)
    }

    /// The operands, as many as have names here.
    pub fn exactly(&self, names: &[&str]) -> Result<&[OsString], Stop> {
        if let Some(missing) = names.get(self.operands.len()) {
            return Err(self.wrong(format!("operand {missing} is missing")));
        }
        if let Some(extra) = self.operands.get(names.len()) {
            return Err(self.wrong(format!("extra operand '{}'", show::name(extra))));
        }
        Ok(&self.operands)
    }
}
