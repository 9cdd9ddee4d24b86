//! What the protocol says of a schedule, for testers: everything said of a run was computed by the proved functions.
//!
//! `proved` is the one module that calls them. `trace` follows a run step by step; `why` says which test decided a
//! step, `verdict` how the run ended. `page` is a run as an HTML file. `commands` has the subcommands; `command_line`
//! and `files` read what they are given and write what they say.

pub mod command_line;
pub mod commands;
pub mod files;
pub mod hunt;
pub mod json;
pub mod language;
pub mod page;
pub mod picture;
pub mod places;
pub mod programs;
pub mod proved;
pub mod trace;
pub mod verdict;
pub mod why;
