//! `compare`: the first step where two runs or two programs differ, in words.

use second::listing;
use second::program::Program;

use crate::command_line::{Ended, Failure, Printed, Words, REFUSED};
use crate::files::{self, Input};
use crate::programs;
use crate::proved::{self, Rules};
use crate::trace::{self, Run, Trace, Traced};

pub const HELP: &str = "\
staubharfe compare FILE FILE, or compare --mistake NAME [FILE], or compare --program P [--program Q] [FILE]

Says in words the first step where two runs differ.

  FILE FILE        the runs of two schedules: the first record, answer or change of the world that differs
  --mistake NAME   the right run of one schedule, and its run with a planted mistake, by the second implementation (the
                   proved functions have none to plant): WrongDigestRecorded, MaskGrows, UnsealedDropped or
                   ClaimedSenderIsOrigin
  --program P      the listing that program P prints for one schedule, and the true one; twice, those of two programs.
                   A program reads the schedule on its standard input, and may print 1 MiB
  --seconds N      how long a program may take; 60 where it is not said

Status: 0 where they are the same; 1 where they differ; 2 for bad usage, a program that cannot be run, or a read or
write that failed.
";

/// How many letters of a line that differs are shown.
const LINE: usize = 80;

/// Compares two runs or two listings.
pub fn act(mut words: Words) -> Ended {
    let patience = programs::patience(&mut words)?;
    let programs = programs_asked(&mut words, patience)?;
    let rules = words.rules()?;
    match (&programs[..], rules) {
        ([_, ..], Rules::Mistaken(_)) => Err(Failure::Usage("--mistake and --program do not go together".to_string())),
        ([], Rules::Proved) => two_files(words),
        ([], mistaken) => {
            let input = only_input(words)?;
            let name = |trace: &Trace| match trace.rules {
                Rules::Proved => "the right run".to_string(),
                Rules::Mistaken(mistake) => format!("the run with {mistake:?}"),
            };
            let (right, wrong) = (trace::trace(&input.bytes), trace::trace_by(&input.bytes, mistaken));
            Ok(told(traces([&right, &wrong], [&name(&right), &name(&wrong)])))
        }
        (programs, Rules::Proved) => {
            let input = only_input(words)?;
            two_listings(programs, &input.bytes)
        }
    }
}

/// The programs that the words name, at most two.
fn programs_asked(words: &mut Words, patience: u64) -> Result<Vec<Program>, Failure> {
    let mut programs = Vec::new();
    while let Some(program) = words.value("--program")? {
        programs.push(Program::new(program, patience));
    }
    match programs.len() {
        0..=2 => Ok(programs),
        many => Err(Failure::Usage(format!("--program is said once or twice, not {many} times"))),
    }
}

/// The one input.
fn only_input(mut words: Words) -> Result<Input, Failure> {
    let input = files::input(&mut words)?;
    words.end()?;
    Ok(input)
}

/// Compares the runs of two schedules.
fn two_files(mut words: Words) -> Ended {
    let (Some(one), Some(other)) = (words.word(), words.word()) else {
        return Err(Failure::Usage("two files are compared, or --mistake or --program is said".to_string()));
    };
    words.end()?;
    let (one, other) = (files::read_file(&one)?, files::read_file(&other)?);
    let (first, second) = (trace::trace(&one.bytes), trace::trace(&other.bytes));
    Ok(told(traces([&first, &second], [&one.name, &other.name])))
}

/// What is printed of a comparison.
fn told(difference: Option<String>) -> Printed {
    match difference {
        None => Printed::new("no difference\n"),
        Some(text) => Printed::new(text).status(REFUSED),
    }
}

/// The first difference of two traces, in words.
pub fn traces(traces: [&Trace; 2], names: [&str; 2]) -> Option<String> {
    match [&traces[0].outcome, &traces[1].outcome] {
        [Ok(one), Ok(other)] => runs([one, other], names),
        [Err(one), Err(other)] if one == other => None,
        outcomes => {
            let text = |outcome: &Result<Run, second::schedule::Refused>| match outcome {
                Ok(run) => format!("runs, with {} steps", run.steps.len()),
                Err(why) => {
                    format!("is refused with {} {} at {}", why.refusal.code(), why.refusal.name(), why.offset)
                }
            };
            Some(format!("{} {}\n{} {}\n", names[0], text(outcomes[0]), names[1], text(outcomes[1])))
        }
    }
}

/// The first difference of two runs, in words.
fn runs(runs: [&Run; 2], names: [&str; 2]) -> Option<String> {
    let starts = runs.map(|run| second::readable::of_start(run.end.n, run.end.faulty));
    if starts[0] != starts[1] {
        return Some(format!("the starts differ\n{}: {}\n{}: {}\n", names[0], starts[0], names[1], starts[1]));
    }
    for (k, (one, other)) in (1..).zip(runs[0].steps.iter().zip(&runs[1].steps)) {
        if let Some(what) = differs(one, other) {
            let shown = |name: &str, step: &Traced| format!("{name}:\n{}", crate::commands::why::step_lines(k, step));
            return Some(format!("step {k}: {what}\n{}{}", shown(names[0], one), shown(names[1], other)));
        }
    }
    let (few, many) = (runs[0].steps.len(), runs[1].steps.len());
    match few.cmp(&many) {
        std::cmp::Ordering::Equal => None,
        std::cmp::Ordering::Less => Some(longer(names[0], names[1], few, runs[1])),
        std::cmp::Ordering::Greater => Some(longer(names[1], names[0], many, runs[0])),
    }
}

/// In what two steps differ.
fn differs(one: &Traced, other: &Traced) -> Option<&'static str> {
    if one.step != other.step {
        return Some("the records differ");
    }
    if one.answer != other.answer {
        return Some("the answers differ");
    }
    (one.changes != other.changes).then_some("the answers are the same, and the worlds behind them differ")
}

/// That one run ends where the other goes on.
fn longer(ended: &str, goes_on: &str, steps: usize, run: &Run) -> String {
    format!("step {}: {ended} has ended, {goes_on} goes on with {}\n", steps + 1, run.steps[steps].text)
}

/// Compares the listings of two programs, or of one and the true one.
fn two_listings(programs: &[Program], schedule: &[u8]) -> Ended {
    let listings: Result<Vec<(String, Vec<u8>)>, Failure> = programs.iter().map(|p| listing_of(p, schedule)).collect();
    let mut listings = listings?;
    if let [_] = listings[..] {
        listings.insert(0, ("the true listing".to_string(), true_listing(schedule).into_bytes()));
    }
    let text = |k: usize| String::from_utf8_lossy(&listings[k].1).into_owned();
    let (one, other) = (text(0), text(1));
    if listings[0].1 == listings[1].1 {
        return Ok(told(None));
    }
    let lines = one.lines().map(Some).chain([None]).zip(other.lines().map(Some).chain([None]));
    let Some((line, (first, second))) = (1..).zip(lines).find(|(_, (first, second))| first != second) else {
        return Ok(told(Some("the listings differ in their line ends\n".to_string())));
    };
    let (first_name, second_name) = (&listings[0].0, &listings[1].0);
    let mut text = format!("line {line}\n{first_name}: {}\n{second_name}: {}\n", shown(first), shown(second));
    if let Some(k) = first.or(second).and_then(step_of) {
        text += &the_protocol(schedule, k);
    }
    Ok(told(Some(text)))
}

/// A line for people: the beginning of it, or that there is none.
fn shown(line: Option<&str>) -> String {
    let Some(line) = line else { return "no line".to_string() };
    match line.char_indices().nth(LINE) {
        Some((end, _)) => format!("{:?} and more", &line[..end]),
        None => format!("{line:?}"),
    }
}

/// What a program prints for a schedule; a crash is no listing.
fn listing_of(program: &Program, schedule: &[u8]) -> Result<(String, Vec<u8>), Failure> {
    let ended = program.call(schedule).map_err(|trouble| programs::failure(program, &trouble))?;
    ended.status.code().ok_or_else(|| Failure::Failed(format!("{} crashed", program.name())))?;
    Ok((program.name(), ended.output))
}

/// The proved listing of a schedule.
pub fn true_listing(schedule: &[u8]) -> String {
    match proved::run(schedule, Rules::Proved) {
        Ok((ran, answers)) => listing::of_run(&ran, &answers),
        Err(refused) => listing::of_refused(refused),
    }
}

/// The step that a line of a listing is about.
fn step_of(line: &str) -> Option<usize> {
    line.strip_prefix("step ")?.split(' ').next()?.parse().ok()
}

/// What the protocol says of a step.
fn the_protocol(schedule: &[u8], k: usize) -> String {
    let trace = trace::trace(schedule);
    let step = trace.outcome.as_ref().ok().and_then(|run| run.steps.get(k.checked_sub(1)?));
    step.map_or(String::new(), |step| format!("the protocol:\n{}", crate::commands::why::step_lines(k, step)))
}
