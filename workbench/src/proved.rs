//! The one place where this program meets the proved functions: a run's answers, worlds and quiet come from here.
//!
//! The proved functions have no mistakes to plant. A run with a mistake is the second implementation's, and is marked
//! as such wherever it is shown. Worlds leave here in the second implementation's types, which have names for all of
//! document 01's words; they are translated field by field and computed by nobody but who is asked.

use bridge_tests::translate::to_second;
use second::quiet;
use second::schedule::{self, Ran, Refusal, Refused, Steps};
use second::sha256::Digest;
use second::steps::{self, Answer, Mistake, Step};
use second::world::{Mask, Request, World};

/// Who does the steps.
#[derive(Clone, Copy, PartialEq, Eq, Debug)]
pub enum Rules {
    /// The proved functions.
    Proved,
    /// The second implementation, with a planted mistake.
    Mistaken(Mistake),
}

/// One step of a run, with the worlds before and after it.
pub struct Turn<'a> {
    pub offset: usize,
    pub step: Step,
    pub answer: Answer,
    pub before: &'a World,
    pub after: &'a World,
    pub quiet: bool,
}

/// A world, and who does its steps.
pub struct Runner {
    engine: Engine,
    world: World,
}

/// The proved functions keep the world in their own layout too.
enum Engine {
    Proved(Box<bridge::world::World>),
    Mistaken(Mistake),
}

impl Runner {
    /// A fresh world, or 25.
    pub fn start(rules: Rules, n: u8, faulty: Mask) -> Result<Runner, Refusal> {
        match rules {
            Rules::Proved => {
                let taken = bridge::start(n, faulty);
                done(taken.code)?;
                Ok(Runner { world: translated(&taken.world), engine: Engine::Proved(Box::new(taken.world)) })
            }
            Rules::Mistaken(mistake) => {
                Ok(Runner { world: schedule::start(n, faulty)?, engine: Engine::Mistaken(mistake) })
            }
        }
    }

    /// The world as it is.
    pub fn world(&self) -> &World {
        &self.world
    }

    /// Does the record at the front of the bytes; where it is refused the world stays as it is.
    pub fn step(&mut self, record: &[u8]) -> Result<Answer, Refusal> {
        match &mut self.engine {
            Engine::Proved(raw) => {
                let taken = bridge::step(raw, record);
                let answer = answer_of(taken.code)?;
                **raw = taken.world;
                self.world = translated(raw);
                Ok(answer)
            }
            Engine::Mistaken(mistake) => {
                let (step, _) = schedule::read_step(record)?;
                Ok(steps::apply(&mut self.world, &step, *mistake))
            }
        }
    }

    /// Whether the world is quiet.
    pub fn is_quiet(&self) -> bool {
        match &self.engine {
            Engine::Proved(raw) => bridge::quiet(raw),
            Engine::Mistaken(_) => quiet::is_quiet(&self.world),
        }
    }
}

/// A whole run: the world at its end and the answers, or the refusal.
pub fn run(schedule: &[u8], rules: Rules) -> Result<(Ran, Vec<u8>), Refused> {
    let mut answers = vec![0; schedule.len().min(schedule::MAX_BYTES)];
    let ran = match rules {
        Rules::Proved => {
            let ran = bridge::run(schedule, &mut answers);
            done(ran.code).map_err(|refusal| refusal.at(ran.offset))?;
            Ran { world: translated(&ran.world), records: ran.records }
        }
        Rules::Mistaken(mistake) => schedule::run_mistaken(schedule, &mut answers, mistake)?,
    };
    answers.truncate(ran.records);
    Ok((ran, answers))
}

/// Goes through a run step by step; a refused schedule has no steps.
pub fn walk(schedule: &[u8], rules: Rules, mut see: impl FnMut(&Turn)) -> Result<Runner, Refused> {
    run(schedule, rules)?;
    let mut runner = Runner::start(rules, schedule[1], schedule[2]).map_err(|refusal| refusal.at(0))?;
    for (offset, step) in Steps::after_start(schedule) {
        let before = runner.world.clone();
        let answer = runner.step(&schedule[offset..]).map_err(|refusal| refusal.at(offset))?;
        let quiet = runner.is_quiet();
        see(&Turn { offset, step, answer, before: &before, after: &runner.world, quiet });
    }
    Ok(runner)
}

/// A proved world in the second implementation's types.
fn translated(world: &bridge::world::World) -> World {
    to_second(world).expect("start gives sound worlds and steps keep them so, which is proved")
}

/// Nothing, where a code says that all was done; else the refusal.
fn done(code: u8) -> Result<(), Refusal> {
    answer_of(code).map(drop)
}

/// The answer of a code, or the refusal.
fn answer_of(code: u8) -> Result<Answer, Refusal> {
    if let Some(answer) = Answer::ALL.get(usize::from(code)) {
        return Ok(*answer);
    }
    let refusal = code.checked_sub(Refusal::FIRST).and_then(|place| Refusal::ALL.get(usize::from(place)));
    Err(*refusal.expect("document 01 names every code that the proved functions give"))
}

/// The digest of a request's bytes.
pub fn digest(body: &[u8; Request::BODY]) -> Digest {
    let mut digest = [0; 32];
    bridge::sha256(body, &mut digest);
    digest
}
