//! `why`: for each step, the test that decided and what it changed.

use crate::command_line::{Ended, Failure, Printed, Words};
use crate::commands::run::refusal;
use crate::files;
use crate::trace::{self, Run, Traced};

pub const HELP: &str = "\
staubharfe why [--step K] [--mistake NAME] [FILE]

For each step of a schedule's run: the record in words, its answer, the test that decided, and every change that it
made to the world. Places that were free and now hold something show what they hold; `->` stands between what was and
what is.

  --step K         step K alone; steps count from 1
  --mistake NAME   the run with a planted mistake, by the second implementation (the proved functions have none to
                   plant): WrongDigestRecorded, MaskGrows, UnsealedDropped or ClaimedSenderIsOrigin. Where the answer
                   is not that of the rules, both are said

Status: 0; 1 where the schedule is refused; 2 for bad usage, a step that is not there, or a read or write that failed.
";

/// Explains the steps.
pub fn act(mut words: Words) -> Ended {
    let asked: Option<usize> = words.parsed("--step")?;
    let rules = words.rules()?;
    let input = files::input(&mut words)?;
    words.end()?;
    match trace::trace_by(&input.bytes, rules).outcome {
        Ok(run) => lines(&run, asked).map(Printed::new),
        Err(refused) => Ok(refusal(&input.bytes, refused)),
    }
}

/// The lines of all steps, or of one.
fn lines(run: &Run, asked: Option<usize>) -> Result<String, Failure> {
    let count = run.steps.len();
    let steps = (1..).zip(&run.steps);
    match asked {
        None => Ok(steps.map(|(k, step)| step_lines(k, step)).collect()),
        Some(asked) => {
            let found = steps.into_iter().find(|(k, _)| *k == asked);
            let missing = || Failure::Usage(format!("there is no step {asked}: the run has {count}"));
            found.map(|(k, step)| step_lines(k, step)).ok_or_else(missing)
        }
    }
}

/// The lines of one step.
pub fn step_lines(k: usize, step: &Traced) -> String {
    let mut text = format!("step {k}, offset {}: {}\n", step.offset, step.text);
    text += &format!("  {} ({}): {}\n", step.answer.name(), step.answer.code(), step.why);
    step.changes.iter().for_each(|change| text += &format!("  changed: {}\n", change.text()));
    if step.changes.is_empty() {
        text += "  nothing changed\n";
    }
    text
}
