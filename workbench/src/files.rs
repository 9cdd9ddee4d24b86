//! Reading and writing: what fails is told in words, and nothing panics.

use std::ffi::OsStr;
use std::fs::File;
use std::io::{self, ErrorKind, Read, Write};

use crate::command_line::{Failure, Words};

/// The most bytes that are read; a schedule is far shorter, and its text too.
pub const MOST_INPUT: u64 = 64 << 20;

/// An input, and the name by which messages call it.
pub struct Input {
    pub name: String,
    pub bytes: Vec<u8>,
}

/// Reads the file that the next word names, or standard input.
pub fn input(words: &mut Words) -> Result<Input, Failure> {
    match words.word().filter(|name| name != "-") {
        Some(name) => read_file(&name),
        None => {
            let bytes = read_all(io::stdin()).map_err(|why| cannot_read("standard input", &why))?;
            within("standard input".to_string(), bytes)
        }
    }
}

/// Reads a file.
pub fn read_file(name: &OsStr) -> Result<Input, Failure> {
    let told = name.to_string_lossy().into_owned();
    let bytes = File::open(name).and_then(read_all).map_err(|why| cannot_read(&told, &why))?;
    within(told, bytes)
}

/// Reads to the end, or a little beyond the most.
fn read_all(from: impl Read) -> io::Result<Vec<u8>> {
    let mut bytes = Vec::new();
    from.take(MOST_INPUT + 1).read_to_end(&mut bytes)?;
    Ok(bytes)
}

/// The input, unless it is too large.
fn within(name: String, bytes: Vec<u8>) -> Result<Input, Failure> {
    match bytes.len() as u64 > MOST_INPUT {
        true => Err(Failure::Failed(format!("{name} has more than {} MiB", MOST_INPUT >> 20))),
        false => Ok(Input { name, bytes }),
    }
}

/// That something cannot be read, and why.
fn cannot_read(name: &str, why: &io::Error) -> Failure {
    Failure::Failed(format!("{name} cannot be read: {}", reason(why)))
}

/// Writes the whole output of a subcommand.
pub fn write_output(bytes: &[u8]) -> Result<(), Failure> {
    let mut output = io::stdout().lock();
    let written = output.write_all(bytes).and_then(|()| output.flush());
    written.map_err(|why| Failure::Failed(format!("the output cannot be written: {}", reason(&why))))
}

/// Says something on standard error; where that is closed too there is nobody to tell.
pub fn say(text: &str) {
    let _ = writeln!(io::stderr(), "{}", text.trim_end());
}

/// Why a read or a write failed, in words.
pub fn reason(why: &io::Error) -> String {
    let words = match why.kind() {
        ErrorKind::NotFound => "there is none",
        ErrorKind::PermissionDenied => "it is not allowed",
        ErrorKind::IsADirectory => "it is a folder",
        ErrorKind::StorageFull => "the disk is full",
        ErrorKind::BrokenPipe => "its reader has gone",
        ErrorKind::NotADirectory => "a part of its path is no folder",
        ErrorKind::InvalidFilename => "that can be no file's name",
        other => return format!("the system says {other}"),
    };
    words.to_string()
}
