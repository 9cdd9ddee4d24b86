//! The subcommands: each has its help, whose first line is its usage, and a function from words to what is printed.

pub mod compare;
pub mod draw;
pub mod hunt;
pub mod page;
pub mod read;
pub mod run;
pub mod shrink;
pub mod why;
pub mod write;

use crate::command_line::{Ended, Words};

/// One subcommand.
pub struct Subcommand {
    pub name: &'static str,
    pub does: &'static str,
    pub help: &'static str,
    pub act: fn(Words) -> Ended,
}
