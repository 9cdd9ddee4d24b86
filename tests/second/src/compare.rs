//! Compares this implementation with another program and with itself, and counts what the schedules reached.

use std::collections::BTreeSet;

use crate::claims::History;
use crate::listing;
use crate::program::Program;
use crate::quiet;
use crate::schedule::{self, Ran, Refusal, Refused};
use crate::sound;
use crate::steps::{self, Answer, Mistake};
use crate::world::{Entry, Execution, Mask, Packet, Place, Request, World};

/// About how many steps of one schedule are checked for a sound world; longer schedules are sampled evenly.
const SOUND_STEPS: usize = 500;

/// Own run of a schedule: the end and the answers, or the refusal.
pub type Own = Result<(Ran, Vec<u8>), Refused>;

/// Runs a schedule here and there, checks all that is promised, and gives back the own run, or the first difference.
pub fn check(program: &Program, schedule: &[u8]) -> Result<Own, String> {
    let own = run_own(schedule);
    let text = match &own {
        Ok((ran, answers)) => listing::of_run(ran, answers),
        Err(refused) => listing::of_refused(*refused),
    };
    same_text(&text, &program.run(schedule)?)?;
    if let Ok((ran, answers)) = &own {
        walk(schedule, ran, answers)?;
    }
    Ok(own)
}

/// The own run of a schedule.
pub fn run_own(schedule: &[u8]) -> Own {
    let mut answers = vec![0; schedule.len()];
    let ran = schedule::run(schedule, &mut answers)?;
    answers.truncate(ran.records);
    Ok((ran, answers))
}

/// Says where two listings differ first.
pub fn same_text(own: &str, other: &[u8]) -> Result<(), String> {
    if own.as_bytes() == other {
        return Ok(());
    }
    let other = String::from_utf8_lossy(other);
    let lines = own.lines().map(Some).chain([None]).zip(other.lines().map(Some).chain([None]));
    let first = (1..).zip(lines).find(|(_, (own, other))| own != other);
    match first {
        Some((line, (own, other))) => Err(format!("line {line}: {} here, {} there", shown(own), shown(other))),
        None => Err("the listings differ in their line ends".to_string()),
    }
}

/// A line for people.
fn shown(line: Option<&str>) -> String {
    line.map_or("no line".to_string(), |line| format!("{line:?}"))
}

/// Does an accepted schedule again by single steps: same answers, same end, sound worlds, demand 3 all the way.
fn walk(schedule: &[u8], ran: &Ran, answers: &[u8]) -> Result<(), String> {
    let accepted = schedule::check(schedule).map_err(|_| "the second reading is refused".to_string())?;
    let mut world = accepted.world;
    let mut history = History::default();
    let mut observe =
        |world: &World, k| history.observe(world).map_err(|claim| format!("step {k}: {claim:?} does not hold"));
    observe(&world, 0)?;
    let stride = accepted.records.div_ceil(SOUND_STEPS).max(1);
    for (k, ((offset, step), answer)) in (1..).zip(accepted.steps.zip(answers)) {
        let again = if k % stride == 0 {
            schedule::step(&mut world, &schedule[offset..]).map_err(|_| unsound(&world, k))?
        } else {
            steps::apply(&mut world, &step, Mistake::None)
        };
        if again.code() != *answer {
            return Err(format!("step {k}: a run answers {answer}, a single step {}", again.code()));
        }
        observe(&world, k)?;
    }
    if world != ran.world {
        return Err("a run and single steps end in different worlds".to_string());
    }
    match sound::broken_clause(&world) {
        None => Ok(()),
        Some(_) => Err(unsound(&world, accepted.records)),
    }
}

/// Says which clause of soundness is broken about a step.
fn unsound(world: &World, k: usize) -> String {
    format!("step {k}: {} does not hold", sound::broken_clause(world).unwrap_or("a single step's reading"))
}

/// What all schedules together reached.
#[derive(Default)]
pub struct Tally {
    pub schedules: u64,
    pub steps: u64,
    pub answers: [u64; Answer::NAMES.len()],
    pub refusals: [u64; Refusal::NAMES.len()],
    pub starts: BTreeSet<(u8, Mask)>,
    pub quiet_ends: u64,
    pub full_quotas: u64,
    pub full_holds: u64,
    pub full_outgoings: u64,
    pub full_requests: u64,
    pub most_numbered: u8,
    pub noticed: [u64; Mistake::PLANTED.len()],
}

impl Tally {
    /// Counts one schedule and its own run.
    pub fn count(&mut self, schedule: &[u8], own: &Own) {
        self.schedules += 1;
        match own {
            Err(refused) => self.refusals[usize::from(refused.refusal.code() - Refusal::FIRST)] += 1,
            Ok((ran, answers)) => {
                self.count_run(ran, answers);
                self.notice_mistakes(schedule, &listing::of_run(ran, answers));
            }
        }
    }

    /// Counts the answers, and how the world ended.
    fn count_run(&mut self, ran: &Ran, answers: &[u8]) {
        let world = &ran.world;
        self.steps += ran.records as u64;
        answers.iter().for_each(|answer| self.answers[usize::from(*answer)] += 1);
        self.starts.insert((world.n, world.faulty));
        self.quiet_ends += u64::from(world.numbered > 0 && quiet::is_quiet(world));
        self.full_quotas += u64::from(world.servers.iter().any(|s| s.executions.count == Execution::QUOTA));
        self.full_holds += u64::from(world.servers.iter().any(|s| taken(&s.hold) == Entry::PLACES));
        self.full_outgoings += u64::from(world.servers.iter().any(|s| taken(&s.outgoing) == Packet::PLACES));
        self.full_requests += u64::from(world.requests.count == Request::SLOTS);
        self.most_numbered = self.most_numbered.max(world.numbered);
    }

    /// Counts the planted mistakes that change this schedule's listing.
    fn notice_mistakes(&mut self, schedule: &[u8], own: &str) {
        for ((mistake, _), noticed) in Mistake::PLANTED.iter().zip(&mut self.noticed) {
            *noticed += u64::from(listing::of_schedule(schedule, *mistake) != own);
        }
    }

    /// The counts, one line each.
    pub fn lines(&self) -> Vec<String> {
        let mut lines = vec![format!("schedules {}", self.schedules), format!("steps {}", self.steps)];
        for (code, (name, times)) in Answer::NAMES.iter().zip(self.answers).enumerate() {
            lines.push(format!("answer {code} {name} {times}"));
        }
        for (code, (name, times)) in
            (Refusal::FIRST..Refusal::OutSmall.code()).zip(Refusal::NAMES.iter().zip(self.refusals))
        {
            lines.push(format!("refused {code} {name} {times}"));
        }
        lines.push(format!("different starts {}", self.starts.len()));
        lines.push(format!("most numbered {}", self.most_numbered));
        for (what, times) in [
            ("quiet, something numbered", self.quiet_ends),
            ("a used-up quota", self.full_quotas),
            ("a full hold", self.full_holds),
            ("full outgoing places", self.full_outgoings),
            ("all slots given", self.full_requests),
        ] {
            lines.push(format!("ends with {what} {times}"));
        }
        for ((_, name), times) in Mistake::PLANTED.iter().zip(self.noticed) {
            lines.push(format!("mistake {name} noticed {times}"));
        }
        lines
    }

    /// What should have occurred and did not.
    pub fn missing(&self) -> Vec<String> {
        let mut missing = Vec::new();
        for (code, times) in self.answers.iter().enumerate() {
            if *times == 0 {
                missing.push(format!("answer {code} never occurred"));
            }
        }
        for code in Refusal::TooLong.code()..=Refusal::BadStart.code() {
            if self.refusals[usize::from(code - Refusal::FIRST)] == 0 {
                missing.push(format!("refusal {code} never occurred"));
            }
        }
        for ((_, name), times) in Mistake::PLANTED.iter().zip(self.noticed) {
            if times == 0 {
                missing.push(format!("the planted mistake {name} was never noticed"));
            }
        }
        missing
    }
}

/// How many places are taken.
fn taken(places: &[impl Place]) -> usize {
    places.iter().filter(|place| !place.is_free()).count()
}

#[cfg(test)]
mod tests {
    use super::*;
    use crate::generate;

    #[test]
    fn single_steps_agree_with_runs() {
        for index in 0..64 {
            let schedule = generate::schedule(3, index);
            if let Ok((ran, answers)) = run_own(&schedule) {
                assert_eq!(walk(&schedule, &ran, &answers), Ok(()), "schedule {index}");
            }
        }
    }

    #[test]
    fn differences_are_told() {
        assert_eq!(same_text("a\nb\n", b"a\nb\n"), Ok(()));
        assert_eq!(same_text("a\nb\n", b"a\nc\n").unwrap_err(), "line 2: \"b\" here, \"c\" there");
        assert_eq!(same_text("a\nb\n", b"a\n").unwrap_err(), "line 2: \"b\" here, no line there");
        assert!(same_text("a\n", b"a").is_err());
    }
}
