//! `draw`: a picture of a schedule's run, as SVG.

use crate::command_line::{Ended, Printed, Words, REFUSED};
use crate::commands::run::hint;
use crate::files;
use crate::picture;
use crate::proved::Rules;

pub const HELP: &str = "\
staubharfe draw [--mistake NAME] [FILE] >PICTURE.svg

Draws a schedule's run as SVG: a line for each server, time from left to right, one column a step, packets as arrows,
the orderer below. The picture grows in width with the steps.

  --mistake NAME   draws below it, column by column, the run with a planted mistake, by the second implementation (the
                   proved functions have none to plant): WrongDigestRecorded, MaskGrows, UnsealedDropped or
                   ClaimedSenderIsOrigin

Status: 0; 1 where the schedule is refused, and nothing is drawn; 2 for bad usage, or a read or write that failed.
";

/// Draws the run, or two.
pub fn act(mut words: Words) -> Ended {
    let rules = match words.rules()? {
        Rules::Proved => vec![Rules::Proved],
        mistaken => vec![Rules::Proved, mistaken],
    };
    let input = files::input(&mut words)?;
    words.end()?;
    Ok(match picture::of_schedule(&input.bytes, &rules) {
        Ok(picture) => Printed::new(picture),
        Err(refused) => Printed::default().status(REFUSED).note(hint(&input.bytes, refused)),
    })
}
