//! Walks generated schedules by single steps in place of runs, and damages the worlds on the way; compares with the
//! second implementation.

use std::time::Duration;

use bridge_tests::walk::Tally;
use second::asked::Asked;
use second::generate;
use second::options::Options;
use second::progress::{so_many, Progress};
use second::random::Random;
use second::report::{fail, Failed};
use second::standard::say;

const NAME: &str = "walk_steps";
const USAGE: &str = "walk_steps [--schedules N] [--seed N] [--only INDEX]";
const DEFAULT_SCHEDULES: u64 = 160;

/// How long shrinking takes at most.
const SHRINKING: Duration = Duration::from_secs(60);

/// Compares, prints the counts, and ends with a summary line.
fn main() {
    let mut options = Options::of_process(USAGE);
    let schedules = options.value("--schedules").unwrap_or(DEFAULT_SCHEDULES);
    let asked = Asked::taken(&mut options, schedules);
    options.end();
    let tally = walk_all(&asked);
    tally.lines().iter().for_each(say);
    let missing = if asked.only.is_none() { tally.missing() } else { Vec::new() };
    missing.iter().for_each(|line| say(format!("{line}: raise --schedules")));
    let walked = format!("{} schedules, {} steps", tally.schedules, tally.steps);
    if !missing.is_empty() {
        fail(NAME, &format!("{walked}: not enough was reached"), &asked.first(tally.schedules));
    }
    say(format!("{NAME}: {walked}: no difference"));
}

/// Walks schedule after schedule until one differs.
fn walk_all(asked: &Asked) -> Tally {
    let mut tally = Tally::default();
    let mut progress = Progress::on_terminal();
    let indices = asked.indices();
    let many = indices.end - indices.start;
    for (done, index) in (0..).zip(indices) {
        progress.show(|| format!("{NAME}: {}", so_many(done, many, "schedules")));
        let schedule = generate::schedule(asked.seed, index);
        if let Err(why) = tally.walk(&schedule, Random::new(asked.seed, index)) {
            progress.clear();
            report(asked, index, &why);
        }
    }
    progress.clear();
    tally
}

/// Tells of a differing schedule, and leaves.
fn report(asked: &Asked, index: u64, why: &str) -> ! {
    let (seed, again) = (asked.seed, asked.only(index));
    let failed = Failed { comparison: NAME, file: "difference-steps", seed, index, again };
    let walk = |schedule: &[u8]| Tally::default().walk(schedule, Random::new(seed, index));
    failed.report(why, SHRINKING, walk);
}
