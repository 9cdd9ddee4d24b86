//! The words behind a subcommand, and how a subcommand ends.

use std::ffi::OsString;
use std::str::FromStr;

use second::steps::Mistake;

use crate::proved::Rules;

/// The exit status of a refusal, or of a claim that does not hold.
pub const REFUSED: u8 = 1;

/// The exit status of bad usage, and of a read or write that failed.
pub const FAILED: u8 = 2;

/// What a subcommand prints: its output, a note on standard error, and the exit status.
#[derive(Default)]
pub struct Printed {
    pub output: Vec<u8>,
    pub note: String,
    pub status: u8,
}

impl Printed {
    /// Output, and status 0.
    pub fn new(output: impl Into<Vec<u8>>) -> Printed {
        Printed { output: output.into(), ..Printed::default() }
    }

    /// With another status.
    pub fn status(self, status: u8) -> Printed {
        Printed { status, ..self }
    }

    /// With a note.
    pub fn note(self, note: impl Into<String>) -> Printed {
        Printed { note: note.into(), ..self }
    }
}

/// Why a subcommand prints nothing but a message.
#[derive(Clone, PartialEq, Eq, Debug)]
pub enum Failure {
    /// The command line is not as the help says.
    Usage(String),
    /// A read, a write or a program that was called failed.
    Failed(String),
    /// What was given is refused.
    Refused(String),
}

/// How a subcommand ends.
pub type Ended = Result<Printed, Failure>;

/// The words that are not taken yet.
pub struct Words {
    left: Vec<OsString>,
}

impl Words {
    /// All words.
    pub fn new(words: Vec<OsString>) -> Words {
        Words { left: words }
    }

    /// Takes a flag that has no value.
    pub fn flag(&mut self, name: &str) -> bool {
        let place = self.left.iter().position(|word| word == name);
        place.map(|place| self.left.remove(place)).is_some()
    }

    /// Takes an option's value.
    pub fn value(&mut self, name: &str) -> Result<Option<OsString>, Failure> {
        let Some(place) = self.left.iter().position(|word| word == name) else { return Ok(None) };
        if place + 1 == self.left.len() {
            return Err(Failure::Usage(format!("{name} needs a value")));
        }
        self.left.remove(place);
        Ok(Some(self.left.remove(place)))
    }

    /// Takes an option's value, read as something.
    pub fn parsed<T: FromStr>(&mut self, name: &str) -> Result<Option<T>, Failure> {
        let Some(value) = self.value(name)? else { return Ok(None) };
        let text = value.to_string_lossy();
        text.parse().map(Some).map_err(|_| Failure::Usage(format!("{name} cannot be {text:?}")))
    }

    /// Takes `--mistake NAME`: who does the steps.
    pub fn rules(&mut self) -> Result<Rules, Failure> {
        let Some(name) = self.value("--mistake")? else { return Ok(Rules::Proved) };
        let name = name.to_string_lossy();
        let unknown = || Failure::Usage(format!("--mistake is one of {}, not {name:?}", Mistake::names()));
        Mistake::named(&name).map(Rules::Mistaken).ok_or_else(unknown)
    }

    /// Takes the next word that is no option; `-` alone is one.
    pub fn word(&mut self) -> Option<OsString> {
        let is_word = |word: &OsString| word == "-" || !word.to_string_lossy().starts_with('-');
        self.left.iter().position(is_word).map(|place| self.left.remove(place))
    }

    /// Takes the words behind `--`, if it is there.
    pub fn behind_dashes(&mut self) -> Option<Vec<OsString>> {
        let place = self.left.iter().position(|word| word == "--")?;
        let behind = self.left.split_off(place + 1);
        self.left.pop();
        Some(behind)
    }

    /// Nothing may be left.
    pub fn end(self) -> Result<(), Failure> {
        match self.left.first() {
            None => Ok(()),
            Some(word) => {
                let word = word.to_string_lossy();
                Err(Failure::Usage(format!("{word:?} is not known here, or is one word too many")))
            }
        }
    }
}
