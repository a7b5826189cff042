//! Why the command ends early.

use super::{NOT_DONE, TROUBLE};
use std::io::{self, Write};

#[derive(Debug)]
pub enum Stop {
    /// The proved functions refuse.
    Refused(String),
    /// A wrong call of a subcommand.
    Wrong { command: &'static str, message: String },
    /// A file that can't be read or written.
    Trouble(String),
    /// Who read standard output has enough.
    Closed,
}

impl Stop {
    pub fn wrong(command: &'static str, message: impl Into<String>) -> Stop {
        Stop::Wrong { command, message: message.into() }
    }

    /// Trouble with a file, by its name as it is shown.
    pub fn file(shown: &str, error: &io::Error) -> Stop {
        Stop::Trouble(format!("{shown}: {}", reason(error)))
    }

    /// Says it on standard error; the exit status.
    pub fn told(self) -> u8 {
        let (message, status) = match self {
            Stop::Refused(message) => (message, NOT_DONE),
            Stop::Trouble(message) => (message, TROUBLE),
            Stop::Wrong { command, message } => {
                let space = if command.is_empty() { "" } else { " " };
                let hint = format!("Try 'barthovin{space}{command} --help' for more information.");
                (format!("{message}\n{hint}"), TROUBLE)
            }
            Stop::Closed => return TROUBLE,
        };
        // Where even this can't be written the status is all that is left.
        let _ = writeln!(io::stderr(), "barthovin: {message}");
        status
    }
}

/// Says something that stops nothing. It is only a help; where it can't be written nothing is lost.
pub fn note(message: &str) {
    let _ = writeln!(io::stderr(), "barthovin: {message}");
}

/// An error in the system's words, without its number.
pub fn reason(error: &io::Error) -> String {
    let told = error.to_string();
    told.split(" (os error").next().unwrap_or(&told).to_string()
}
