//! `shrink`: a schedule for which a command fails, to few records.

use second::program::Program;
use second::shrink;

use crate::command_line::{Ended, Failure, Printed, Words};
use crate::commands::compare::true_listing;
use crate::files;
use crate::programs;

pub const HELP: &str = "\
staubharfe shrink [--differs] [--seconds N] [FILE] -- COMMAND [WORD ..] >SMALL

Takes records away from a schedule as long as a command fails for it, and writes the small schedule. The command reads
the schedule on its standard input; it fails where its exit status is not 0, where it crashes, where it takes too long,
and where it prints more than 1 MiB. The records that stay are renamed to fit: places, slots and ids are found anew.

  --differs     the command fails where what it prints is not the true listing, whatever its status
  --seconds N   how long it may take for one schedule; 60 where it is not said

Status: 0; 1 where the command does not fail for the schedule as it is; 2 for bad usage, a command that cannot be
started, or a read or write that failed.
";

/// Writes the small schedule, and notes how small it is.
pub fn act(mut words: Words) -> Ended {
    let no_command = || Failure::Usage("the command is missing: it stands behind `--`".to_string());
    let command = words.behind_dashes().filter(|command| !command.is_empty()).ok_or_else(no_command)?;
    let differs = words.flag("--differs");
    let program = Program::new(&command[0], programs::patience(&mut words)?).with(&command[1..]);
    let input = files::input(&mut words)?;
    words.end()?;
    if !fails(&program, &input.bytes, differs)? {
        return Err(Failure::Refused(format!("{} does not fail for this schedule", program.name())));
    }
    let small = shrink::shrink(&input.bytes, |candidate| fails(&program, candidate, differs).unwrap_or(false));
    let count = |bytes: &[u8]| format!("{} bytes in {} pieces", bytes.len(), shrink::pieces(bytes).len());
    let note = format!("from {} to {}, the start counted", count(&input.bytes), count(&small));
    Ok(Printed::new(small).note(note))
}

/// Whether the command fails for a schedule.
fn fails(program: &Program, schedule: &[u8], differs: bool) -> Result<bool, Failure> {
    match program.call(schedule) {
        Ok(ended) if differs => Ok(ended.output != true_listing(schedule).as_bytes()),
        Ok(ended) => Ok(!ended.status.success()),
        Err(trouble) if trouble.is_limit() => Ok(true),
        Err(trouble) => Err(programs::failure(program, &trouble)),
    }
}
