//! `run`: the listing of a schedule, a verdict in words, or all of it as JSON.

use second::listing;
use second::schedule::{Ran, Refusal, Refused};

use crate::command_line::{Ended, Failure, Printed, Words, REFUSED};
use crate::files;
use crate::proved::{self, Rules};
use crate::trace::{self, Run, Trace};

pub const HELP: &str = "\
staubharfe run [--verdict] [--json] [--mistake NAME] [FILE]

Runs a schedule, given as bytes, and prints its listing: the answer to each step, what each server has delivered, and
how many numbers were given. A refused schedule prints `refused CODE OFFSET`.

  --verdict   adds whether the world is quiet, else what stands open; what lies in a hold and is not due yet; and
              whether the correct servers agree, and who of them is behind
  --json      prints one JSON object in place of the listing: the steps with their answers, reasons and changes, the
              world at the end, and the verdict (workbench/README.md has the format)
  --mistake NAME   the run with a planted mistake, by the second implementation (the proved functions have none to
                   plant): WrongDigestRecorded, MaskGrows, UnsealedDropped or ClaimedSenderIsOrigin. A note says so

Status: 0; 1 where the schedule is refused, and where a mistake has broken a claim of demand 3; 2 for bad usage, or a
read or write that failed.
";

/// Prints the listing, or JSON.
pub fn act(mut words: Words) -> Ended {
    let (verdict, json) = (words.flag("--verdict"), words.flag("--json"));
    if verdict && json {
        return Err(Failure::Usage("--json has the verdict already: one of the two is enough".to_string()));
    }
    let rules = words.rules()?;
    let input = files::input(&mut words)?;
    words.end()?;
    if rules == Rules::Proved && !verdict && !json {
        return Ok(match proved::run(&input.bytes, rules) {
            Ok((ran, answers)) => Printed::new(listing::of_run(&ran, &answers)),
            Err(refused) => refusal(&input.bytes, refused),
        });
    }
    let trace = trace::trace_by(&input.bytes, rules);
    Ok(match &trace.outcome {
        Err(refused) if json => Printed::new(trace::json(&trace)).status(REFUSED).note(hint(&input.bytes, *refused)),
        Err(refused) => refusal(&input.bytes, *refused),
        Ok(run) if json => mistaken(&trace, run, trace::json(&trace)),
        Ok(run) => mistaken(&trace, run, traced_listing(run, verdict)),
    })
}

/// The listing of a run that was followed, and its verdict if it is asked for.
fn traced_listing(run: &Run, verdict: bool) -> String {
    let answers: Vec<u8> = run.steps.iter().map(|step| step.answer.code()).collect();
    let ran = Ran { world: run.end.clone(), records: answers.len() };
    let lines = if verdict { run.verdict.lines() } else { String::new() };
    listing::of_run(&ran, &answers) + &lines
}

/// The output, with a note and a status where a mistake was planted.
fn mistaken(trace: &Trace, run: &Run, output: String) -> Printed {
    let printed = Printed::new(output).status(if run.verdict.broken.is_some() { REFUSED } else { 0 });
    match trace.rules {
        Rules::Proved => printed,
        Rules::Mistaken(mistake) => printed.note(format!("with the mistake {mistake:?}, by the second implementation")),
    }
}

/// What is printed of a refused schedule: its listing, and a note.
pub fn refusal(bytes: &[u8], refused: Refused) -> Printed {
    Printed::new(listing::of_refused(refused)).status(REFUSED).note(hint(bytes, refused))
}

/// What a refusal is called, and what may help.
pub fn hint(bytes: &[u8], Refused { refusal, offset }: Refused) -> String {
    let name = format!("refused: {} {} at offset {offset}", refusal.code(), refusal.name());
    let is_text = |byte: &u8| byte.is_ascii_graphic() || byte.is_ascii_whitespace();
    if refusal == Refusal::NoStart && !bytes.is_empty() && bytes.iter().all(is_text) {
        return name + "; this is text: `staubharfe write` makes a schedule of it";
    }
    name
}
