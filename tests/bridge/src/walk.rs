//! Schedules done by single steps in place of a run, and damaged worlds on the way.

use bridge::world::{Outcome, World};
use bridge::{run, start, step, DONE};
use second::random::Random;
use second::schedule::{self, Refusal, Refused, Steps};
use second::{quiet, sound};

use crate::damage::{self, Damage, SOUND, UNSOUND};
use crate::translate::to_second;

/// The code of an unsound world.
const BAD_WORLD: u8 = Refusal::BadWorld as u8;

/// About how many worlds of one schedule are looked at, sampled evenly.
const LOOKS: usize = 24;

/// How many times each of them is scratched.
const SCRATCHES: usize = 8;

/// What lies in the lent bytes before a run, so that a byte that is written shows.
const BEFORE: u8 = 0xA5;

/// A record for worlds behind the last one: server 0 delivers.
const DELIVER: [u8; 2] = [0x07, 0x00];

/// What was compared.
#[derive(Default)]
pub struct Tally {
    pub schedules: u64,
    pub steps: u64,
    pub refused: u64,
    pub unsound: [u64; UNSOUND.len()],
    pub sound: [u64; SOUND.len()],
    pub scratches: u64,
    pub scratches_unsound: u64,
}

impl Tally {
    /// Walks a schedule, and damages the worlds that it reaches; or says what differs.
    pub fn walk(&mut self, bytes: &[u8], random: Random) -> Result<(), String> {
        self.schedules += 1;
        match schedule::check(bytes) {
            Ok(accepted) => self.walk_accepted(bytes, accepted.steps, random),
            Err(refused) => {
                self.refused += 1;
                same_refusal(bytes, refused)
            }
        }
    }

    /// The same answers and the same end from a run, from single steps, and from the second implementation.
    fn walk_accepted(&mut self, bytes: &[u8], steps: Steps, mut random: Random) -> Result<(), String> {
        let (ran, answers) = same_run(bytes)?;
        let stride = answers.len().div_ceil(LOOKS).max(1);
        let mut world = same_start(bytes[1], bytes[2])?;
        for (k, ((offset, _), answer)) in (1..).zip(steps.zip(answers)) {
            let record = &bytes[offset..];
            let taken = if k % stride == 0 {
                self.look(&world, record, &mut random).map_err(|why| format!("before step {k}: {why}"))?
            } else {
                step(&world, record)
            };
            if taken.code != answer {
                return Err(format!("step {k}: a run answers {answer}, a single step {}", taken.code));
            }
            world = taken.world;
            self.steps += 1;
        }
        ensure(world == ran, "a run and single steps end in different worlds")?;
        self.look(&world, &DELIVER, &mut random).map_err(|why| format!("at the end: {why}"))?;
        Ok(())
    }

    /// Each damage on a copy of a world, and the step of the world itself.
    fn look(&mut self, world: &World, record: &[u8], random: &mut Random) -> Result<Outcome, String> {
        for (damage, times) in UNSOUND.iter().zip(&mut self.unsound) {
            *times += u64::from(unsound(world, damage, record)?);
        }
        for (damage, times) in SOUND.iter().zip(&mut self.sound) {
            *times += u64::from(still_sound(world, damage, record)?);
        }
        for _ in 0..SCRATCHES {
            let mut scratched = *world;
            damage::scratch(&mut scratched, random);
            let taken = same_step(&scratched, record).map_err(|why| format!("a scratched world: {why}"))?;
            self.scratches += 1;
            self.scratches_unsound += u64::from(taken.code == BAD_WORLD);
        }
        same_step(world, record)
    }

    /// The counts, one line each.
    pub fn lines(&self) -> Vec<String> {
        let mut lines = vec![
            format!("schedules {}, {} of them refused", self.schedules, self.refused),
            format!("steps {}", self.steps),
        ];
        for ((clause, _), times) in UNSOUND.iter().zip(self.unsound) {
            lines.push(format!("27, not so: {clause} {times}"));
        }
        for ((what, _), times) in SOUND.iter().zip(self.sound) {
            lines.push(format!("not 27: {what} {times}"));
        }
        lines.push(format!("scratched worlds {}, {} of them 27", self.scratches, self.scratches_unsound));
        lines
    }

    /// What should have occurred and did not.
    pub fn missing(&self) -> Vec<String> {
        let named = UNSOUND.iter().chain(&SOUND).zip(self.unsound.iter().chain(&self.sound));
        let unseen = named.filter(|(_, times)| **times == 0).map(|((what, _), _)| format!("no world had: {what}"));
        let unbroken = sound::clauses().filter(|clause| !UNSOUND.iter().any(|(name, _)| name == clause));
        unseen.chain(unbroken.map(|clause| format!("no damage for: {clause}"))).collect()
    }
}

/// A damage that breaks a clause, if the world has what it damages: 27, and the world as it was.
fn unsound(world: &World, (clause, change): &Damage, record: &[u8]) -> Result<bool, String> {
    let Some(damaged) = changed(world, change) else { return Ok(false) };
    let broken = to_second(&damaged).map(|world| sound::broken_clause(&world));
    ensure(broken == Some(Some(clause)), &format!("the damage to {clause:?} breaks {broken:?}"))?;
    let taken = same_step(&damaged, record).map_err(|why| format!("not so: {clause}: {why}"))?;
    ensure(taken == Outcome { code: BAD_WORLD, world: damaged }, &format!("not so: {clause}: {}", taken.code))?;
    Ok(true)
}

/// A damage that no clause forbids, if the world has what it damages: not 27.
fn still_sound(world: &World, (what, change): &Damage, record: &[u8]) -> Result<bool, String> {
    let Some(damaged) = changed(world, change) else { return Ok(false) };
    let taken = same_step(&damaged, record).map_err(|why| format!("{what}: {why}"))?;
    ensure(taken.code != BAD_WORLD, &format!("{what}: 27"))?;
    Ok(true)
}

/// The world with a change, if it can be made.
fn changed(world: &World, change: impl Fn(&mut World) -> Option<()>) -> Option<World> {
    let mut damaged = *world;
    change(&mut damaged).map(|()| damaged)
}

/// One step of a world that may be unsound, here and there: the same answer, the same world after, quiet or not.
fn same_step(world: &World, record: &[u8]) -> Result<Outcome, String> {
    let taken = step(world, record);
    let Some(mut other) = to_second(world) else {
        ensure(taken == Outcome { code: BAD_WORLD, world: *world }, "a number beyond every count is let pass")?;
        return Ok(taken);
    };
    let code = schedule::step(&mut other, record).map_or_else(Refusal::code, |answer| answer.code());
    ensure(taken.code == code, &format!("the step answers {}, there {code}", taken.code))?;
    ensure(to_second(&taken.world).is_some_and(|world| world == other), "the world after the step differs")?;
    if code != BAD_WORLD {
        ensure(bridge::quiet(&taken.world) == quiet::is_quiet(&other), "only one of the two says quiet")?;
    }
    Ok(taken)
}

/// A start, here and there.
fn same_start(n: u8, faulty: u8) -> Result<World, String> {
    let taken = start(n, faulty);
    ensure(taken.code == DONE, &format!("the start answers {}", taken.code))?;
    ensure(to_second(&taken.world) == schedule::start(n, faulty).ok(), "the worlds after the start differ")?;
    Ok(taken.world)
}

/// A whole run, here and there: the world at its end, and the answers.
fn same_run(bytes: &[u8]) -> Result<(World, Vec<u8>), String> {
    let mut answers = vec![BEFORE; bytes.len()];
    let mut others = answers.clone();
    let ran = run(bytes, &mut answers);
    let other = schedule::run(bytes, &mut others).map_err(|refused| format!("refused there: {refused:?}"))?;
    ensure((ran.code, ran.offset, ran.records) == (DONE, 0, other.records), "the runs end differently")?;
    ensure(answers == others, "the answers differ")?;
    ensure(bridge::quiet(&ran.world) == quiet::is_quiet(&other.world), "only one of the two says quiet")?;
    ensure(to_second(&ran.world) == Some(other.world), "the worlds at the end differ")?;
    answers.truncate(ran.records);
    Ok((ran.world, answers))
}

/// A refused schedule: the same code and offset, a world of zeros, and nothing written.
fn same_refusal(bytes: &[u8], refused: Refused) -> Result<(), String> {
    let mut answers = vec![BEFORE; bytes.len()];
    let ran = run(bytes, &mut answers);
    let told = (refused.refusal.code(), refused.offset, 0);
    ensure((ran.code, ran.offset, ran.records) == told, &format!("refused with {} at {}", ran.code, ran.offset))?;
    ensure(ran.world == start(0, 0).world, "a refused run has a world")?;
    ensure(answers.iter().all(|answer| *answer == BEFORE), "a refused run writes")
}

/// Leaves with a message unless something holds.
fn ensure(holds: bool, otherwise: &str) -> Result<(), String> {
    if holds {
        Ok(())
    } else {
        Err(otherwise.to_string())
    }
}
