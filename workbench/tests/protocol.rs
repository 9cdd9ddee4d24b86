//! `docs/PROTOCOL.md` held to the programs: its story, its answers and refusals.

use bridge::{Answer, Refusal};
use second::steps::{self, Mistake};
use staubharfe::language;
use staubharfe::trace::{self, Trace};

const PROTOCOL: &str = include_str!("../../docs/PROTOCOL.md");

/// The schedule of the story at the end of the document.
fn story() -> Vec<u8> {
    let (_, from) = PROTOCOL.split_once("```text\nstart").expect("the document has a story");
    let (lines, _) = from.split_once("```").expect("the story ends");
    language::to_bytes(&format!("start{lines}")).expect("the story is in the schedule language")
}

/// The answers of a run.
fn answers(trace: &Trace) -> Vec<steps::Answer> {
    let run = trace.outcome.as_ref().expect("the story is not refused");
    run.steps.iter().map(|step| step.answer).collect()
}

/// The codes and names of a part's list, `CODE NAME` in front of a colon or a comma.
fn listed(part: &str) -> Vec<String> {
    let (_, from) = PROTOCOL.split_once(&format!("\n## {part}\n")).expect("the document has this part");
    let section = from.split("\n## ").next().unwrap_or(from);
    let lines = section.lines().map(|line| line.trim_start());
    let items = lines.filter_map(|line| line.split_once(' ').map(|(_, rest)| rest));
    let named = items.filter_map(|item| item.split([':', ',']).next());
    let is_name = |item: &&str| {
        item.split_once(' ').is_some_and(|(code, name)| {
            code.parse::<u8>().is_ok() && name.chars().all(|sign| sign.is_ascii_uppercase() || sign == '_')
        })
    };
    named.filter(is_name).map(str::to_string).collect()
}

#[test]
fn the_story_goes_as_told() {
    let right = answers(&trace::trace(&story()));
    assert_eq!(right[5], steps::Answer::Dropped);
    assert!(right.iter().enumerate().all(|(step, answer)| step == 5 || *answer == steps::Answer::Done));
    let wrong = trace::trace_mistaken(&story(), Mistake::WrongDigestRecorded);
    assert_eq!(answers(&wrong)[11], steps::Answer::Dropped);
    let end = &wrong.outcome.as_ref().expect("the story is not refused").end;
    assert_eq!(end.server(1).delivered.count, 0);
}

#[test]
fn every_answer_is_listed() {
    let named: Vec<String> = Answer::ALL.iter().map(|(answer, name)| format!("{} {name}", answer.code())).collect();
    assert_eq!(listed("Answers"), named);
}

#[test]
fn every_refusal_is_listed() {
    let parts = ["Refused schedules", "Single steps and sound worlds"];
    let mut found: Vec<String> = parts.iter().flat_map(|part| listed(part)).collect();
    found.sort();
    found.dedup();
    let named = Refusal::ALL.iter().filter(|(refusal, _)| *refusal != Refusal::DigestLong);
    assert_eq!(found, named.map(|(refusal, name)| format!("{} {name}", refusal.code())).collect::<Vec<_>>());
    assert!(PROTOCOL.contains("28 DIGEST_LONG"));
}
