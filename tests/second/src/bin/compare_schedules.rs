//! Compares the listings of a program with those of this implementation on generated schedules.

use std::time::Instant;

use second::asked::Asked;
use second::compare::{self, Tally};
use second::generate;
use second::options::Options;
use second::program::Program;
use second::progress::{so_many, Progress};
use second::report::{fail, Failed};
use second::standard::say;

const NAME: &str = "compare_schedules";
const USAGE: &str =
    "compare_schedules PROGRAM [--seconds N] [--schedules N] [--seed N] [--only INDEX] [--patience SECONDS]";

const DEFAULT_SECONDS: u64 = 60;
const DEFAULT_SCHEDULES: u64 = 1_648;

/// How many inputs' time shrinking gets, so that it ends where every try is one that does not end.
const SHRINKING: u32 = 6;

/// How much is compared with what; whichever bound is met first ends it.
struct Comparison {
    program: Program,
    asked: Asked,
    seconds: u64,
}

/// Compares, prints the counts, and ends with a summary line.
fn main() {
    let comparison = Comparison::asked();
    comparison.ensure_it_runs();
    let begin = Instant::now();
    let tally = comparison.compare_all(begin);
    tally.lines().iter().for_each(say);
    let missing = if comparison.asked.only.is_none() { tally.missing() } else { Vec::new() };
    missing.iter().for_each(|line| say(format!("{line}: raise --schedules or --seconds")));
    let (schedules, steps, seconds) = (tally.schedules, tally.steps, begin.elapsed().as_secs_f64());
    let compared = format!("{schedules} schedules, {steps} steps, {seconds:.1} seconds");
    if !missing.is_empty() {
        let again = comparison.words(comparison.asked.first(schedules));
        fail(NAME, &format!("{compared}: not enough was reached"), &again);
    }
    say(format!("{NAME}: {compared}: no difference"));
}

impl Comparison {
    /// What the command line asks for; one bound alone lets the other go.
    fn asked() -> Comparison {
        let mut options = Options::of_process(USAGE);
        let (seconds, schedules) = match (options.value("--seconds"), options.value("--schedules")) {
            (None, None) => (DEFAULT_SECONDS, DEFAULT_SCHEDULES),
            (seconds, schedules) => (seconds.unwrap_or(u64::MAX), schedules.unwrap_or(u64::MAX)),
        };
        let asked = Asked::taken(&mut options, schedules);
        let program = Program::asked(&mut options);
        options.end();
        Comparison { program, asked, seconds }
    }

    /// The words of a command line that compares with the same program.
    fn words(&self, more: Vec<String>) -> Vec<String> {
        [self.program.asking(), more].concat()
    }

    /// A program that does not even take the empty schedule fails at once: there is nothing to shrink.
    fn ensure_it_runs(&self) {
        if let Err(why) = self.program.run(&[]) {
            fail(NAME, &why, &self.words(self.asked.only(self.asked.indices().start)));
        }
    }

    /// Compares schedule after schedule until one differs, or there are enough, or time is up.
    fn compare_all(&self, begin: Instant) -> Tally {
        let mut tally = Tally::default();
        let mut progress = Progress::on_terminal();
        let indices = self.asked.indices();
        let many = indices.end - indices.start;
        for (done, index) in (0..).zip(indices) {
            let seconds = begin.elapsed().as_secs();
            if seconds >= self.seconds {
                break;
            }
            progress.show(|| {
                let schedules = so_many(done, many, "schedules");
                format!("{NAME}: {schedules}, {}", so_many(seconds, self.seconds, "seconds"))
            });
            let schedule = generate::schedule(self.asked.seed, index);
            match compare::check(&self.program, &schedule) {
                Ok(own) => tally.count(&schedule, &own),
                Err(why) => {
                    progress.clear();
                    self.report(index, &why);
                }
            }
        }
        progress.clear();
        tally
    }

    /// Tells of a differing schedule, and leaves.
    fn report(&self, index: u64, why: &str) -> ! {
        let (seed, again) = (self.asked.seed, self.words(self.asked.only(index)));
        let failed = Failed { comparison: NAME, file: "difference", seed, index, again };
        let most = self.program.patience() * SHRINKING;
        failed.report(why, most, |schedule| compare::check(&self.program, schedule).map(drop));
    }
}
