//! Whole runs of the proved program, from Rust.

use std::fs;
use std::path::Path;

use bridge::world::Sending;
use bridge::{run, DONE};
use bridge_tests::translate::to_second;
use second::listing;
use second::schedule::{Ran, Refusal, MAX_BYTES};

/// The worked example: a schedule in, its answers and its world out. README.md tells the story of this one.
#[test]
fn the_incident() {
    let schedule = include_bytes!("../../../examples/incident3.bin");
    let mut answers = [0; 12];
    let ran = run(schedule, &mut answers);
    assert_eq!((ran.code, ran.records, answers[5]), (DONE, 12, 1));
    assert_eq!(ran.world.delivered[1].items[0], Sending { id: 1, sender: 0, slot: 0 });
}

/// The listing of a schedule, made from what a run hands back.
fn listed(schedule: &[u8]) -> String {
    let mut answers = vec![0; MAX_BYTES];
    let ran = run(schedule, &mut answers);
    if ran.code != DONE {
        return format!("refused {} {}\n", ran.code, ran.offset);
    }
    let world = to_second(&ran.world).expect("the world of a run is sound");
    listing::of_run(&Ran { world, records: ran.records }, &answers[..ran.records])
}

#[test]
fn every_example_has_its_listing() {
    let examples = Path::new(env!("CARGO_MANIFEST_DIR")).join("../../examples");
    let files = fs::read_dir(examples).unwrap().map(|file| file.unwrap().path());
    let schedules: Vec<_> = files.filter(|file| file.extension().is_some_and(|end| end == "bin")).collect();
    assert!(!schedules.is_empty());
    for file in schedules {
        let expected = fs::read_to_string(file.with_extension("out")).unwrap();
        assert_eq!(listed(&fs::read(&file).unwrap()), expected, "{}", file.display());
    }
}

#[test]
fn a_small_buffer_is_told_and_left_alone() {
    let schedule = include_bytes!("../../../examples/incident3.bin");
    let mut answers = [0xA5; 11];
    let ran = run(schedule, &mut answers);
    assert_eq!((ran.code, ran.offset, ran.records), (Refusal::OutSmall.code(), 0, 0));
    assert_eq!(answers, [0xA5; 11]);
}
