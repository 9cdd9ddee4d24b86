//! `write`: the schedule language, or commented hex, to a schedule's bytes.

use crate::command_line::{Ended, Failure, Printed, Words};
use crate::commands::run::hint;
use crate::files;
use crate::language::{self, BadText};
use crate::proved::{self, Rules};

pub const HELP: &str = "\
staubharfe write [FILE] >SCHEDULE

Makes a schedule's bytes of text, one record a line. `#` begins a comment. Numbers are decimal; a server is 0 to n-1.
In brackets is what may be left out.

  start N [faulty SERVER ..]                      the first line: N servers, and the liars among them
  request [client C] number N [seals S] [command HEX]
                                                  S is `all` (where it is left out), `none`, or the servers at which
                                                  the seal is good; a short command is filled with zeros
  multicast SERVER slot SLOT                      slots are given to the requests in order, from 0
  arrive [at SERVER] from ORIGIN [sending X] [place P]
  propose SERVER [sending X] [place P]
  settle SERVER [sending X] [place P]
  deliver SERVER
  forge packet from SERVER to SERVER sending X    X is SENDER.ID.SLOT as in the listing, 0.1.0; any
                                                  sender may be claimed
  forge send SERVER id ID digest D                D is 64 hex digits, or `of slot SLOT`
  forge receive SERVER execution SENDER.ID digest D
  bytes HEX ..                                    bytes as they are, for what is no record

A line that begins with hex digits is hex as well, so commented hex is read too.

Where no place is said, it is found: the lowest one of the origin whose packet fits what is said, or the lowest one of
the server whose entry fits, at stage one for propose and two for settle. The world in which it is looked up is that
behind the lines before, by the proved functions. `place P` alone is written as it is, whatever is there.

A schedule that would be refused is written all the same, and a note says so.

Status: 0; 1 where a line is no record, told by line and column; 2 for bad usage, or a read or write that failed.
";

/// Writes the bytes.
pub fn act(mut words: Words) -> Ended {
    let input = files::input(&mut words)?;
    words.end()?;
    let refused = |bad: BadText| Failure::Refused(format!("{}:{}:{}: {}", input.name, bad.line, bad.column, bad.why));
    let text = std::str::from_utf8(&input.bytes).map_err(|bad| refused(no_text(&input.bytes, bad.valid_up_to())))?;
    let bytes = language::to_bytes(text).map_err(refused)?;
    let note = proved::run(&bytes, Rules::Proved).err().map(|why| hint(&bytes, why));
    Ok(Printed::new(bytes).note(note.unwrap_or_default()))
}

/// That the input is no text from an offset on.
fn no_text(bytes: &[u8], offset: usize) -> BadText {
    let before = String::from_utf8_lossy(&bytes[..offset]);
    let last = before.rsplit('\n').next().unwrap_or_default();
    BadText {
        line: before.matches('\n').count() + 1,
        column: last.chars().count() + 1,
        why: format!("byte {:02x} is no text; is this a schedule already?", bytes[offset]),
    }
}
