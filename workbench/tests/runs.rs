//! Runs and traces: listings as `examples/` has them, explanations that come to the proved answers, and changes that
//! rebuild every world.

use std::fs;
use std::path::{Path, PathBuf};

use second::generate;
use second::listing;
use second::schedule;
use second::steps::{self, Mistake};
use second::world::{World, Zeros};
use staubharfe::proved::{self, Rules};
use staubharfe::trace::{self, Change};
use staubharfe::why;

/// How many generated schedules have their steps explained; they have every answer.
const GENERATED: u64 = 64;

/// The schedules of `examples/`, with their listings.
fn examples() -> Vec<(PathBuf, Vec<u8>, String)> {
    let folder = Path::new(env!("CARGO_MANIFEST_DIR")).join("../examples");
    let files = fs::read_dir(folder).unwrap().map(|file| file.unwrap().path());
    let schedules = files.filter(|file| file.extension().is_some_and(|end| end == "bin"));
    let read = |file: PathBuf| {
        let listing = fs::read_to_string(file.with_extension("out")).unwrap();
        (file.clone(), fs::read(file).unwrap(), listing)
    };
    schedules.map(read).collect()
}

/// Puts a change into a world, forwards or backwards.
fn put(world: &mut World, change: &Change, forwards: bool) {
    /// What a place has then, and whether it is in use.
    fn of<T: Zeros>(forwards: bool, was: Option<T>, now: Option<T>) -> (T, bool) {
        let value = if forwards { now } else { was };
        (value.unwrap_or(T::ZEROS), value.is_some())
    }
    match *change {
        Change::Request { slot, was, now } => {
            let (value, is_there) = of(forwards, was, now);
            world.requests.places[slot] = value;
            world.requests.count = slot + usize::from(is_there);
        }
        Change::Execution { sender, place, was, now } => {
            let (value, is_there) = of(forwards, was, now);
            let executions = &mut world.server_mut(sender).executions;
            executions.places[place] = value;
            executions.count = executions.count.max(place + 1) - usize::from(!is_there);
        }
        Change::Packet { origin, place, was, now } => {
            world.server_mut(origin).outgoing[place] = of(forwards, was, now).0;
        }
        Change::Entry { server, place, was, now } => {
            world.server_mut(server).hold[place] = of(forwards, was, now).0;
        }
        Change::Item { server, index, was, now } => {
            let (value, is_there) = of(forwards, was, now);
            let delivered = &mut world.server_mut(server).delivered;
            delivered.places[index] = value;
            delivered.count = index + usize::from(is_there);
        }
        Change::Numbered { was, now } => world.numbered = if forwards { now } else { was },
    }
}

#[test]
fn every_example_has_its_listing() {
    let examples = examples();
    assert!(!examples.is_empty());
    for (file, schedule, expected) in examples {
        let listing = match proved::run(&schedule, Rules::Proved) {
            Ok((ran, answers)) => listing::of_run(&ran, &answers),
            Err(refused) => listing::of_refused(refused),
        };
        assert_eq!(listing, expected, "{}", file.display());
    }
}

/// Holds the explanation of each step to the answer of a proved run; the worlds between are the second
/// implementation's, which `tests/bridge` holds to the proved ones.
fn explain_all(name: &str, schedule: &[u8], seen: &mut [u32; 14]) {
    let (Ok(accepted), Ok((_, answers))) = (schedule::check(schedule), proved::run(schedule, Rules::Proved)) else {
        return;
    };
    let mut world = accepted.world;
    for ((offset, step), answer) in accepted.steps.zip(answers) {
        let reason = why::explain(&world, &step);
        assert_eq!(reason.answer.code(), answer, "{name}, offset {offset}, {step:?}: {}", reason.text);
        seen[usize::from(answer)] += 1;
        steps::apply(&mut world, &step, Mistake::None);
    }
}

#[test]
fn explanations_come_to_the_proved_answers() {
    let mut seen = [0; 14];
    for index in 0..GENERATED {
        explain_all(&format!("schedule {index}"), &generate::schedule(5, index), &mut seen);
    }
    for (file, schedule, _) in examples() {
        explain_all(&file.display().to_string(), &schedule, &mut seen);
    }
    assert!(seen.iter().all(|times| *times > 0), "an answer was never seen: {seen:?}");
}

#[test]
fn changes_rebuild_every_world() {
    for index in [0, 1, 2, 10] {
        let schedule = generate::schedule(6, index);
        let Ok(run) = trace::trace(&schedule).outcome else { continue };
        let fresh = World::fresh(schedule[1], schedule[2]);
        let mut world = fresh.clone();
        run.steps.iter().flat_map(|step| &step.changes).for_each(|change| put(&mut world, change, true));
        assert_eq!(world, run.end, "schedule {index}, forwards");
        let back = run.steps.iter().rev().flat_map(|step| step.changes.iter().rev());
        back.for_each(|change| put(&mut world, change, false));
        assert_eq!(world, fresh, "schedule {index}, backwards");
    }
}

#[test]
fn quiet_means_nothing_is_open() {
    for index in 0..4 {
        let Ok(run) = trace::trace(&generate::schedule(1, index)).outcome else { continue };
        assert_eq!(run.verdict.quiet, run.verdict.open.is_empty(), "schedule {index}");
        assert_eq!(run.verdict.broken, None, "schedule {index}");
        assert!(!run.verdict.quiet || run.verdict.behind.is_empty(), "schedule {index}");
    }
}

#[test]
fn a_mistake_is_shown_as_one() {
    let schedule = fs::read(Path::new(env!("CARGO_MANIFEST_DIR")).join("../examples/incident5.bin")).unwrap();
    let right = trace::trace(&schedule).outcome.unwrap();
    let wrong = trace::trace_mistaken(&schedule, Mistake::WrongDigestRecorded).outcome.unwrap();
    assert!(right.verdict.behind.is_empty() && right.verdict.quiet);
    assert_eq!((wrong.verdict.behind.clone(), wrong.verdict.quiet), (vec![1], true));
    assert!(wrong.verdict.agreement.starts_with("broken at step "), "{}", wrong.verdict.agreement);
}

#[test]
fn the_incident_is_explained() {
    let schedule = fs::read(Path::new(env!("CARGO_MANIFEST_DIR")).join("../examples/incident5.bin")).unwrap();
    let run = trace::trace(&schedule).outcome.unwrap();
    let step = &run.steps[5];
    assert_eq!((step.text.as_str(), step.answer.code()), ("propose 1 place 0", 1));
    assert_eq!(step.why, "slot 1's digest differs from execution 0.1's, which is slot 0's");
    let changes: Vec<String> = step.changes.iter().map(Change::text).collect();
    assert_eq!(changes, ["hold place 0 of server 1: stage-one entry 0.1.1 -> free"]);
}

#[test]
fn what_stands_open_is_told() {
    let text =
        "start 5\nrequest number 1\nmulticast 0 slot 0\narrive at 1 from 0\npropose 1\narrive at 2 from 0\npropose 2\n";
    let schedule = staubharfe::language::to_bytes(text).unwrap();
    let verdict = trace::trace(&schedule).outcome.unwrap().verdict;
    let open = [
        "packet 0.1.0 from 0 to 3 under way",
        "packet 0.1.0 from 0 to 4 under way",
        "server 0: stage-two entry 0.1.0 at place 0",
        "server 1: stage-two entry 0.1.0 at place 0",
        "server 2: stage-two entry 0.1.0 at place 0",
    ];
    assert_eq!((verdict.quiet, verdict.open), (false, open.map(str::to_string).to_vec()));
    assert_eq!((verdict.behind, verdict.numbered), (vec![0, 1, 2, 3, 4], 1));
}

#[test]
fn json_has_the_steps_and_the_refusal() {
    let refused = trace::json(&trace::trace(&[1, 3, 0, 11]));
    assert_eq!(
        refused,
        "{\"format\":\"staubharfe-run-1\",\"schedule\":{\"bytes\":4,\"hex\":\"0103000b\"},\
         \"refused\":{\"number\":22,\"name\":\"BAD_KIND\",\"offset\":3}}\n"
    );
    let json = trace::json(&trace::trace(&[1, 1, 0, 7, 0]));
    assert_eq!(
        json,
        "{\"format\":\"staubharfe-run-1\",\"schedule\":{\"bytes\":5,\"hex\":\"0101000700\"},\
         \"world\":{\"n\":1,\"f\":0,\"threshold\":1,\"faulty\":[]},\"steps\":[{\"step\":1,\"offset\":3,\
         \"kind\":\"deliver\",\"text\":\"deliver 0\",\"answer\":2,\"name\":\"WAIT\",\
         \"why\":\"no stage-three entry has number 1, the next of server 0\",\"changes\":[],\"quiet\":true}],\
         \"final\":{\"numbered\":0,\"requests\":[],\"executions\":[[]],\"packets\":[],\"entries\":[],\"items\":[[]]},\
         \"verdict\":{\"quiet\":true,\"open\":[],\"waiting\":[],\
         \"agreement\":\"no number is given, and nothing delivered\",\"behind\":[],\"numbered\":0}}\n"
    );
}
