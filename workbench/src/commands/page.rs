//! `page`: a run as one HTML file, to step through in a browser.

use std::path::Path;

use crate::command_line::{Ended, Printed, Words, REFUSED};
use crate::commands::run::hint;
use crate::files;
use crate::page::{page, Shown};
use crate::proved::Rules;
use crate::trace::{self, Trace};

pub const HELP: &str = "\
staubharfe page [--mistake NAME] [--title TEXT] [FILE]

Runs a schedule, given as bytes, and prints one HTML file that shows it step by step: each server's outgoing packets,
hold and deliveries, the orderer's executions, what each step changed, and why. The file needs nothing else and no
network: `staubharfe page FILE > run.html`, then open it in a browser. `run.html#step=7` opens it at step 7.

  --mistake NAME   shows the run with a planted mistake beside the right one, by the second implementation (the proved
                   functions have none to plant): WrongDigestRecorded, MaskGrows, UnsealedDropped or
                   ClaimedSenderIsOrigin
  --title TEXT     the page's title; without it the file's name

Status: 0; 1 where the schedule is refused (there is a page all the same, which says so); 2 for bad usage, or a read or
write that failed.
";

/// Prints the page.
pub fn act(mut words: Words) -> Ended {
    let rules = words.rules()?;
    let title = words.value("--title")?;
    let input = files::input(&mut words)?;
    words.end()?;
    let title = title.map_or_else(|| file_name(&input.name), |title| title.to_string_lossy().into_owned());
    let right = trace::trace(&input.bytes);
    let mut runs = vec![shown("By the rules (proved functions)", &right)];
    if let Rules::Mistaken(mistake) = rules {
        let name = format!("With {mistake:?} (second implementation)");
        runs.push(shown(&name, &trace::trace_mistaken(&input.bytes, mistake)));
    }
    let printed = Printed::new(page(&title, &runs));
    Ok(match right.outcome {
        Ok(_) => printed,
        Err(refused) => printed.status(REFUSED).note(hint(&input.bytes, refused)),
    })
}

/// A run under a name.
fn shown(name: &str, trace: &Trace) -> Shown {
    Shown { name: name.to_string(), json: trace::json(trace) }
}

/// The last part of a path.
fn file_name(path: &str) -> String {
    Path::new(path).file_name().map_or_else(|| path.to_string(), |name| name.to_string_lossy().into_owned())
}
