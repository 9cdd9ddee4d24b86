//! `compare`, `shrink` and `hunt`: what they find, on the incidents and on planted mistakes.

use std::fs;
use std::path::{Path, PathBuf};

use second::listing;
use second::shrink::pieces;
use second::steps::Mistake;
use staubharfe::commands::compare::traces;
use staubharfe::hunt::{breadth, random, Hunt, Part, Wish};
use staubharfe::proved::{self, Rules};
use staubharfe::trace::{trace, trace_mistaken};

/// The bytes of an example.
fn example(name: &str) -> Vec<u8> {
    let path: PathBuf = Path::new(env!("CARGO_MANIFEST_DIR")).join("../examples").join(name);
    fs::read(path).expect("the example can be read")
}

/// A hunt in the world of three servers, the last a liar.
fn hunt(wish: Wish, mistake: Mistake) -> Hunt {
    Hunt { wish, mistake, n: 3, faulty: 0b100 }
}

/// What a breadth-first hunt finds.
fn found(hunt: &Hunt) -> Vec<u8> {
    match breadth::search(hunt, 20_000) {
        breadth::Found::Schedule(schedule) => schedule,
        breadth::Found::Nothing(_) | breadth::Found::TooMany(_) => panic!("nothing was found"),
    }
}

#[test]
fn the_first_step_that_differs_is_told() {
    let schedule = example("incident5.bin");
    let (right, wrong) = (trace(&schedule), trace_mistaken(&schedule, Mistake::WrongDigestRecorded));
    let told = traces([&right, &wrong], ["right", "wrong"]).expect("they differ");
    assert!(
        told.starts_with("step 6: the answers are the same, and the worlds behind them differ\nright:\n"),
        "{told}"
    );
    assert!(told.contains("called 0, mask 0, no number -> called 0 1, mask 0, no number"), "{told}");
    assert_eq!(traces([&right, &right], ["one", "other"]), None);
    let (short, refused) = (trace(&schedule[..schedule.len() - 3]), trace(&[1, 3, 0, 11]));
    let told = traces([&short, &right], ["short", "whole"]).expect("they differ");
    assert_eq!(told, "step 24: short has ended, whole goes on with propose 1 place 0\n");
    let told = traces([&refused, &right], ["bad", "good"]).expect("they differ");
    assert_eq!(told, "bad is refused with 22 BAD_KIND at 3\ngood runs, with 24 steps\n");
}

#[test]
fn breadth_first_finds_what_mistakes_break() {
    let unsealed = found(&hunt(Wish::Broken(Part::Quiet), Mistake::UnsealedDropped));
    assert_eq!(pieces(&unsealed).len(), 1 + 7);
    let wrong = trace_mistaken(&unsealed, Mistake::UnsealedDropped).outcome.expect("it is accepted");
    assert_eq!((wrong.verdict.broken.map(|(step, _)| step), wrong.verdict.quiet), (Some(7), true));
    assert_eq!(trace(&unsealed).outcome.expect("it is accepted").verdict.broken, None);
}

#[test]
fn breadth_first_finds_answers_in_the_fewest_steps() {
    for (answer, records) in [(0, 1), (2, 1), (3, 2), (4, 1), (5, 1), (6, 1), (7, 1), (8, 2), (11, 1), (12, 3), (13, 2)]
    {
        let schedule = found(&hunt(Wish::Answer(answer), Mistake::None));
        let (_, answers) = proved::run(&schedule, Rules::Proved).expect("it is accepted");
        assert_eq!((answers.last(), answers.len()), (Some(&answer), records), "answer {answer}");
    }
}

#[test]
fn nothing_is_found_where_the_theorem_holds() {
    let hunt = hunt(Wish::Broken(Part::Any), Mistake::None);
    assert!(matches!(breadth::search(&hunt, 1_500), breadth::Found::TooMany(_)));
    assert_eq!(random::search(&hunt, 1, 8, 2), None);
}

#[test]
fn a_seed_gives_the_same_with_any_count_of_jobs() {
    let hunt = Hunt { n: 5, faulty: 0b11000, ..hunt(Wish::Broken(Part::Quiet), Mistake::WrongDigestRecorded) };
    let one = random::search(&hunt, 1, 40, 1).expect("some seed finds it");
    assert_eq!(random::search(&hunt, 1, 40, 3), Some(one.clone()));
    assert_eq!(random::search(&hunt, one.0, one.0, 1), Some(one.clone()));
    assert!(pieces(&one.1).len() <= 24, "{} pieces", pieces(&one.1).len());
    let (right, wrong) = (listing::of_schedule(&one.1, Mistake::None), listing::of_schedule(&one.1, hunt.mistake));
    assert_ne!(right, wrong);
}
