//! `staubharfe SUBCOMMAND`: what the protocol says of a schedule.

use std::ffi::OsString;
use std::process::ExitCode;

use staubharfe::command_line::{Failure, Printed, Words, FAILED, REFUSED};
use staubharfe::commands::{self, Subcommand};
use staubharfe::files;

/// Every subcommand, in the order in which the help shows them.
const SUBCOMMANDS: &[Subcommand] = &[
    Subcommand { name: "run", does: "the listing of a schedule", help: commands::run::HELP, act: commands::run::act },
    Subcommand { name: "write", does: "text to a schedule", help: commands::write::HELP, act: commands::write::act },
    Subcommand { name: "read", does: "a schedule to text", help: commands::read::HELP, act: commands::read::act },
    Subcommand { name: "why", does: "what decided each step", help: commands::why::HELP, act: commands::why::act },
    Subcommand { name: "draw", does: "a picture of a run", help: commands::draw::HELP, act: commands::draw::act },
    Subcommand { name: "page", does: "a run as an HTML file", help: commands::page::HELP, act: commands::page::act },
    Subcommand {
        name: "compare",
        does: "where two runs differ",
        help: commands::compare::HELP,
        act: commands::compare::act,
    },
    Subcommand {
        name: "shrink",
        does: "a failing schedule, made small",
        help: commands::shrink::HELP,
        act: commands::shrink::act,
    },
    Subcommand {
        name: "hunt",
        does: "a schedule that breaks a claim, or shows an answer",
        help: commands::hunt::HELP,
        act: commands::hunt::act,
    },
];

/// What the help says before the subcommands.
const HEAD: &str = "\
staubharfe SUBCOMMAND [FILE]: what the protocol says of a schedule. Without a file, standard input is read.

";

/// And behind them.
const FOOT: &str = "
`staubharfe SUBCOMMAND --help` says more. Status: 0; 1 for a refusal or a claim that does not hold; 2 for bad usage, or
a read or write that failed. What is said of a run was computed by the proved functions.
";

/// Does what the words ask for; nothing panics, and the status says how it ended.
fn main() -> ExitCode {
    let mut words: Vec<OsString> = std::env::args_os().skip(1).collect();
    let asks_help = |word: &OsString| word == "--help" || word == "-h" || word == "help";
    let name = if words.is_empty() { OsString::from("") } else { words.remove(0) };
    if asks_help(&name) {
        return print("staubharfe", Ok(Printed::new(help())));
    }
    let Some(subcommand) = SUBCOMMANDS.iter().find(|subcommand| name == subcommand.name) else {
        files::say(&format!("staubharfe: {}\n{}", unknown(&name), help()));
        return ExitCode::from(FAILED);
    };
    let own = words.iter().position(|word| word == "--").unwrap_or(words.len());
    if words[..own].iter().any(|word| asks_help(word) && word != "help") {
        return print(subcommand.name, Ok(Printed::new(subcommand.help)));
    }
    let ended = (subcommand.act)(Words::new(words));
    if let Err(Failure::Usage(why)) = &ended {
        let usage = subcommand.help.lines().next().unwrap_or_default();
        files::say(&format!("staubharfe {}: {why}\nusage: {usage}", subcommand.name));
        return ExitCode::from(FAILED);
    }
    print(subcommand.name, ended)
}

/// Prints what a subcommand has to say, and tells the status.
fn print(name: &str, ended: Result<Printed, Failure>) -> ExitCode {
    let written = ended.and_then(|printed| files::write_output(&printed.output).map(|()| printed));
    let (note, status) = match written {
        Ok(printed) => (printed.note, printed.status),
        Err(Failure::Refused(why)) => (why, REFUSED),
        Err(Failure::Failed(why) | Failure::Usage(why)) => (why, FAILED),
    };
    if !note.is_empty() {
        files::say(&format!("staubharfe {name}: {note}"));
    }
    ExitCode::from(status)
}

/// That a subcommand is missing or not known.
fn unknown(name: &OsString) -> String {
    match name.to_string_lossy() {
        name if name.is_empty() => "which subcommand?".to_string(),
        name => format!("{name:?} is no subcommand"),
    }
}

/// The help of the whole program.
fn help() -> String {
    let mut text = HEAD.to_string();
    for Subcommand { name, does, .. } in SUBCOMMANDS {
        text += &format!("  {name:<8} {does}\n");
    }
    text + FOOT
}
