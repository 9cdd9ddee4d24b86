//! The rehearsal a second time, written from document 01 and the readings of its open points, not from the Rattle code.
//!
//! The rules: `sha256`, `world`, `steps`, `sound`, `quiet`, `schedule`, `listing`.
//! The claims about a whole run (demand 3): `claims`.
//! The comparison with another program: `random`, `draft`, `damage` and `generate` make schedules, `asked` says which
//! of them are taken, `program` runs the other program, `compare` says where the two differ, `shrink` (with `intent`)
//! makes a differing schedule small, `report` tells of it.
//! Timing: `sizes`.
//! Tools: `options` (command lines), `standard` (input and output), `progress`.
//! For people: `hex` and `readable`, in the words of the schedule language (`workbench`).

pub mod asked;
pub mod claims;
pub mod compare;
pub mod damage;
pub mod draft;
pub mod generate;
pub mod hex;
pub mod intent;
pub mod listing;
pub mod options;
pub mod program;
pub mod progress;
pub mod quiet;
pub mod random;
pub mod readable;
pub mod report;
pub mod schedule;
pub mod sha256;
pub mod shrink;
pub mod sizes;
pub mod sound;
pub mod standard;
pub mod steps;
pub mod world;

#[cfg(test)]
mod edges;
