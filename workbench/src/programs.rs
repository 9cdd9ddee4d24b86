//! Programs of others: a schedule goes to their standard input, and what they print and how they end is looked at.

use second::program::{Program, Trouble};

use crate::command_line::{Failure, Words};
use crate::files::reason;

/// How many seconds a program may take where it is not said.
const PATIENCE: u32 = 60;

/// Takes `--seconds N`, how long a program may take.
pub fn patience(words: &mut Words) -> Result<u64, Failure> {
    let seconds: Option<u32> = words.parsed("--seconds")?;
    Ok(seconds.unwrap_or(PATIENCE).into())
}

/// That there is nothing of a program to look at, and why.
pub fn failure(program: &Program, trouble: &Trouble) -> Failure {
    Failure::Failed(format!("{} {}", program.name(), trouble.told(reason)))
}
