//! Command line options of the form `--name value`, and words; and a command line to give again.

use std::env;
use std::str::FromStr;

use crate::standard::{self, CANNOT};

/// The words and options of a command line that are not taken yet.
pub struct Options {
    usage: &'static str,
    left: Vec<String>,
}

impl Options {
    /// The command line of this process, and how it should look.
    pub fn of_process(usage: &'static str) -> Options {
        Options { usage, left: env::args().skip(1).collect() }
    }

    /// Takes an option's value.
    pub fn value<T: FromStr>(&mut self, name: &str) -> Option<T> {
        let place = self.left.iter().position(|word| word == name)?;
        if place + 1 == self.left.len() {
            self.fail(&format!("{name} needs a value"));
        }
        let value = self.left.remove(place + 1);
        self.left.remove(place);
        match value.parse() {
            Ok(value) => Some(value),
            Err(_) => self.fail(&format!("{name} cannot be {value:?}")),
        }
    }

    /// Takes the next word that is no option.
    pub fn word(&mut self, name: &str) -> String {
        match self.left.iter().position(|word| !word.starts_with('-')) {
            Some(place) => self.left.remove(place),
            None => self.fail(&format!("{name} is missing")),
        }
    }

    /// Nothing may be left.
    pub fn end(self) {
        if let Some(word) = self.left.first() {
            self.fail(&format!("{word:?} is not known here"));
        }
    }

    /// Says what is wrong and leaves.
    pub fn fail(&self, why: &str) -> ! {
        standard::leave(CANNOT, &format!("{why}\nusage: {}", self.usage));
    }
}

/// A line for a shell that starts this program as it was started, with these words.
pub fn command(words: &[String]) -> String {
    let started = env::args().next().unwrap_or_default();
    let quoted: Vec<String> = [started].iter().chain(words).map(|word| quoted(word)).collect();
    quoted.join(" ")
}

/// A word as a shell reads it.
fn quoted(word: &str) -> String {
    let is_plain = |c: char| c.is_ascii_alphanumeric() || "-_./=+,:@%".contains(c);
    if !word.is_empty() && word.chars().all(is_plain) {
        word.to_string()
    } else {
        format!("'{}'", word.replace('\'', r"'\''"))
    }
}

#[cfg(test)]
mod tests {
    use super::*;

    #[test]
    fn a_shell_reads_the_words_back() {
        assert_eq!(quoted("target/bin/rehearse"), "target/bin/rehearse");
        assert_eq!(quoted("a b"), "'a b'");
        assert_eq!(quoted("it's $5"), r"'it'\''s $5'");
        assert_eq!(quoted(""), "''");
    }
}
