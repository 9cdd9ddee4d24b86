//! `read`: a schedule's bytes to the schedule language, which `write` makes the same bytes of.

use second::hex;
use second::readable;
use second::schedule::{Refused, Steps, START};

use crate::command_line::{Ended, Printed, Words, REFUSED};
use crate::commands::run::hint;
use crate::files;
use crate::places;
use crate::proved::{self, Rules};
use crate::why;

pub const HELP: &str = "\
staubharfe read [FILE] >TEXT

Shows a schedule in the words of the schedule language (`staubharfe write --help`), one record a line. Behind each is a
comment with the step's number, its offset in bytes, its answer, and who gets what. `write` makes the same bytes of it,
whatever the schedule is.

Places are left out where they can be found, so that lines can be taken away or put in. Of a refused schedule nothing
runs: its records are shown with their places, what is no record as `bytes`, and the refusal in a comment.

Status: 0; 1 where the schedule is refused; 2 for bad usage, or a read or write that failed.
";

/// How many bytes stand in a line of those that are no record.
const RAW: usize = 24;

/// Shows the lines.
pub fn act(mut words: Words) -> Ended {
    let input = files::input(&mut words)?;
    words.end()?;
    Ok(match to_text(&input.bytes) {
        (text, None) => Printed::new(text),
        (text, Some(refused)) => Printed::new(text).status(REFUSED).note(hint(&input.bytes, refused)),
    })
}

/// The text of a schedule, and why it is refused if it is.
pub fn to_text(schedule: &[u8]) -> (String, Option<Refused>) {
    let (mut text, mut k) = (String::new(), 0);
    let walked = proved::walk(schedule, Rules::Proved, |turn| {
        k += 1;
        let step = places::found_text(turn.before, &turn.step).unwrap_or_else(|| readable::of_step(&turn.step));
        let why = why::of_answer(turn.before, &turn.step, turn.answer, Rules::Proved);
        let (offset, code, name) = (turn.offset, turn.answer.code(), turn.answer.name());
        text += &format!("{step:<40} # step {k}, offset {offset}: {code} {name}, {why}\n");
    });
    match walked {
        Err(refused) => (of_refused(schedule, refused), Some(refused)),
        Ok(_) => (start_line(schedule) + &text, None),
    }
}

/// The line of a start.
fn start_line(schedule: &[u8]) -> String {
    format!("{:<40} # offset 0\n", readable::of_start(schedule[1], schedule[2]))
}

/// The lines of a refused schedule: its records with their places, then bytes.
fn of_refused(schedule: &[u8], Refused { refusal, offset }: Refused) -> String {
    let mut text = format!("# refused with {} {} at offset {offset}: nothing runs\n", refusal.code(), refusal.name());
    let mut read = 0;
    if schedule.first() == Some(&START) && schedule.len() >= 3 {
        text += &start_line(schedule);
        let mut steps = Steps::after_start(schedule);
        read = steps.offset();
        while let Some((offset, step)) = steps.next() {
            text += &format!("{:<40} # offset {offset}\n", readable::of_step(&step));
            read = steps.offset();
        }
    }
    for (line, bytes) in schedule[read..].chunks(RAW).enumerate() {
        text += &format!("{:<40} # offset {}\n", format!("bytes {}", hex::to_text(bytes)), read + line * RAW);
    }
    text
}
