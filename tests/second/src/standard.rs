//! What a tool reads and prints: all of it, or a sentence on standard error and an exit status.

use std::env;
use std::fmt::Display;
use std::io::{self, Read, Write};
use std::path::Path;
use std::process;

/// The exit status of a tool that cannot do its work: a bad command line, or an input or output that fails.
pub const CANNOT: i32 = 2;

/// What standard input holds, but not more than some bytes of it.
pub fn input(most: usize) -> Vec<u8> {
    let mut input = Vec::new();
    match io::stdin().take(most as u64).read_to_end(&mut input) {
        Ok(_) => input,
        Err(why) => cannot("read standard input", &why),
    }
}

/// Prints bytes.
pub fn print(bytes: &[u8]) {
    let mut output = io::stdout();
    if let Err(why) = output.write_all(bytes).and_then(|()| output.flush()) {
        cannot("write standard output", &why);
    }
}

/// Prints a line.
pub fn say(line: impl Display) {
    print(format!("{line}\n").as_bytes());
}

/// Says a sentence on standard error and leaves; there may be nobody who listens.
pub fn leave(status: i32, sentence: &str) -> ! {
    let _ = writeln!(io::stderr(), "{sentence}");
    process::exit(status);
}

/// Says what this tool cannot do, and leaves.
fn cannot(what: &str, why: &io::Error) -> ! {
    let started = env::args_os().next().unwrap_or_default();
    let name = Path::new(&started).file_name().unwrap_or_default().to_string_lossy();
    leave(CANNOT, &format!("{name}: cannot {what}: {why}"));
}
