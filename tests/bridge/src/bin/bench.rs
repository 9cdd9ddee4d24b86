//! Prints what the proved program and the second implementation cost, side by side, with the spread of some runs. It
//! first checks that both give the same: times of programs that differ would say nothing.

use std::hint::black_box;
use std::time::{Duration, Instant};

use bridge::world::DIGEST;
use second::compare::same_text;
use second::listing;
use second::options::Options;
use second::program::{Program, PATIENCE};
use second::schedule::{self, Steps};
use second::sha256::short_digest;
use second::sizes::{self, Timed};
use second::standard::{leave, say};
use second::steps::Mistake;

const USAGE: &str =
    "bench PROGRAM OTHER [--runs N], two programs that print listings: the proved one and the second implementation";
const SEED: u64 = 1;

/// Runs, of which the middle one is printed, and the lowest and highest ratio.
const RUNS: usize = 5;

/// Rounds of a run, of which the best counts; the first ones warm up.
const ROUNDS: usize = 60;

/// The lengths of the messages that are timed.
const LENGTHS: [usize; 2] = [30, 55];

/// Digests in a round.
const DIGESTS: usize = 10_000;

/// Records at the front of a long schedule that a round does by single steps.
const SINGLE_STEPS: usize = 1_000;

/// Checks, then prints one line for each thing that is timed, as soon as it is.
fn main() {
    let mut options = Options::of_process(USAGE);
    let runs: usize = options.value("--runs").unwrap_or(RUNS);
    let programs = ["PROGRAM", "OTHER"].map(|name| Program::new(options.word(name), PATIENCE));
    if runs == 0 {
        options.fail("--runs is at least 1");
    }
    options.end();
    let schedules = sizes::three_sizes(SEED);
    if let Err(why) = check(&programs, &schedules) {
        leave(1, &format!("bench: {why}"));
    }
    let title = format!("ratio of {runs} runs");
    say(format!("{:<44} {:>12} {:>12} {:>8}  {title}", "", "proved", "Rust", "ratio"));
    LENGTHS.iter().for_each(|length| digests(*length, runs));
    let [.., long] = &schedules;
    steps_of_a_run(long, runs);
    single_steps(&long.bytes, runs);
    schedules.iter().for_each(|schedule| whole_programs(&programs, schedule, runs));
}

/// The same digests, the same answers and the same listings from both, or what differs.
fn check(programs: &[Program; 2], schedules: &[Timed; 3]) -> Result<(), String> {
    for length in LENGTHS {
        let (message, mut out) = (vec![0x41; length], [0; DIGEST]);
        bridge::sha256(&message, &mut out);
        ensure(Some(out) == short_digest(&message), &format!("the digests of {length} bytes differ"))?;
    }
    for Timed { bytes, records } in schedules {
        let (mut answers, mut others) = (vec![0; *records], vec![0; *records]);
        ensure(bridge::run(bytes, &mut answers).code == bridge::DONE, "a schedule is refused")?;
        ensure(schedule::run(bytes, &mut others).is_ok(), "a schedule is refused by the second implementation")?;
        ensure(answers == others, &format!("the answers to {records} records differ"))?;
        let listing = listing::of_schedule(bytes, Mistake::None);
        for program in programs {
            let name = program.name();
            let differs = |why: String| format!("{name} prints another listing of {records} records: {why}");
            same_text(&listing, &program.run(bytes)?).map_err(differs)?;
        }
    }
    Ok(())
}

/// Leaves with a message unless something holds.
fn ensure(holds: bool, otherwise: &str) -> Result<(), String> {
    if holds {
        Ok(())
    } else {
        Err(otherwise.to_string())
    }
}

/// Digests a second.
fn digests(length: usize, runs: usize) {
    let message = vec![0x41; length];
    let proved = || {
        let mut out = [0; DIGEST];
        bridge::sha256(black_box(&message), &mut out);
        black_box(out);
    };
    let rust = || {
        black_box(short_digest(black_box(&message)));
    };
    let times = measured(runs, || (0..DIGESTS).for_each(|_| proved()), || (0..DIGESTS).for_each(|_| rust()));
    print_rates(&format!("digests a second, of {length} bytes"), DIGESTS, &times);
}

/// Steps a second in a run, from bytes in memory to answers in memory.
fn steps_of_a_run(schedule: &Timed, runs: usize) {
    let (mut answers, mut others) = (vec![0; schedule.records], vec![0; schedule.records]);
    let times = measured(
        runs,
        || assert_eq!(bridge::run(&schedule.bytes, &mut answers).code, bridge::DONE),
        || assert!(schedule::run(&schedule.bytes, &mut others).is_ok()),
    );
    print_rates("steps a second in a run", schedule.records, &times);
}

/// Single steps a second; each of them asks first whether the world is sound.
fn single_steps(bytes: &[u8], runs: usize) {
    let records: Vec<&[u8]> = offsets(bytes).take(SINGLE_STEPS).map(|offset| &bytes[offset..]).collect();
    let times = measured(
        runs,
        || {
            let first = bridge::start(bytes[1], bytes[2]).world;
            black_box(records.iter().fold(first, |world, record| bridge::step(&world, record).world));
        },
        || {
            let mut world = schedule::start(bytes[1], bytes[2]).expect("the schedule is accepted");
            records.iter().for_each(|record| assert!(schedule::step(&mut world, record).is_ok()));
        },
    );
    print_rates("single steps a second", records.len(), &times);
}

/// Milliseconds of two programs from start to end: reading, running and printing.
fn whole_programs(programs: &[Program; 2], schedule: &Timed, runs: usize) {
    let [proved, rust] = programs.each_ref().map(|program| {
        move || {
            if let Err(why) = program.run(&schedule.bytes) {
                leave(1, &format!("bench: {why}"));
            }
        }
    });
    let times = measured(runs, proved, rust);
    let what = format!("milliseconds, {} records of {} bytes", schedule.records, schedule.bytes.len());
    print_line(&what, &times, |time| format!("{:.2}", time.as_secs_f64() * 1e3));
}

/// Where the records behind the start begin.
fn offsets(bytes: &[u8]) -> impl Iterator<Item = usize> + '_ {
    Steps::after_start(bytes).map(|(offset, _)| offset)
}

/// The best times of some runs, by the ratio of the two.
fn measured(runs: usize, mut proved: impl FnMut(), mut rust: impl FnMut()) -> Vec<[Duration; 2]> {
    let mut times: Vec<[Duration; 2]> = (0..runs).map(|_| best(&mut proved, &mut rust)).collect();
    times.sort_by(|one, other| ratio(one).total_cmp(&ratio(other)));
    times
}

/// The best time of each, in turns, so that whatever else the machine does meets both alike.
fn best(proved: &mut impl FnMut(), rust: &mut impl FnMut()) -> [Duration; 2] {
    let mut best = [Duration::MAX; 2];
    for _ in 0..ROUNDS {
        best[0] = best[0].min(timed(proved));
        best[1] = best[1].min(timed(rust));
    }
    best
}

/// How long something takes.
fn timed(call: &mut impl FnMut()) -> Duration {
    let begin = Instant::now();
    call();
    begin.elapsed()
}

/// The proved program's time in times of Rust's.
fn ratio([proved, rust]: &[Duration; 2]) -> f64 {
    proved.as_secs_f64() / rust.as_secs_f64()
}

/// How many a second.
fn print_rates(what: &str, many: usize, times: &[[Duration; 2]]) {
    print_line(what, times, |time| format!("{:.0}", many as f64 / time.as_secs_f64()));
}

/// A line with both figures of the middle run, its ratio, and the lowest and highest ratio.
fn print_line(what: &str, times: &[[Duration; 2]], figure: impl Fn(Duration) -> String) {
    let middle = times[times.len() / 2];
    let [proved, rust] = middle.map(figure);
    let spread = format!("{:.2} to {:.2}", ratio(&times[0]), ratio(&times[times.len() - 1]));
    say(format!("{what:<44} {proved:>12} {rust:>12} {:>8.2}  {spread}", ratio(&middle)));
}
