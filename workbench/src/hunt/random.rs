//! Guided random schedules, one a seed; the first that meets the wish is made small.

use std::sync::atomic::{AtomicU64, Ordering};
use std::sync::Mutex;
use std::thread;

use second::draft::Draft;
use second::generate;
use second::random::Random;
use second::schedule::MAX_BYTES;
use second::shrink;

use super::Hunt;

/// About how many steps a guided schedule has at the most.
const STEPS: usize = 300;

/// The lowest seed of a range whose schedule meets the wish, and that schedule, made small.
pub fn search(hunt: &Hunt, first: u64, last: u64, jobs: usize) -> Option<(u64, Vec<u8>)> {
    let next = AtomicU64::new(first);
    let best: Mutex<Option<u64>> = Mutex::new(None);
    thread::scope(|scope| {
        for _ in 0..jobs {
            scope.spawn(|| work(hunt, &next, last, &best));
        }
    });
    let seed = (*best.lock().unwrap_or_else(|poisoned| poisoned.into_inner()))?;
    Some((seed, small(hunt, &of_seed(hunt, seed))))
}

/// Takes seed after seed, up to the lowest that was found; every lower one is looked at, whoever takes it.
fn work(hunt: &Hunt, next: &AtomicU64, last: u64, best: &Mutex<Option<u64>>) {
    loop {
        let seed = next.fetch_add(1, Ordering::Relaxed);
        let lowest = || *best.lock().unwrap_or_else(|poisoned| poisoned.into_inner());
        if seed > last || lowest().is_some_and(|found| found < seed) {
            return;
        }
        if hunt.meeting(&of_seed(hunt, seed)).is_some() {
            let mut best = best.lock().unwrap_or_else(|poisoned| poisoned.into_inner());
            *best = Some(best.map_or(seed, |found| found.min(seed)));
        }
    }
}

/// The schedule of a seed: in turns led by the worlds of the mistake, and by one of the generator's recipes.
fn of_seed(hunt: &Hunt, seed: u64) -> Vec<u8> {
    let random = Random::new(seed, 0);
    if seed.is_multiple_of(2) {
        return generate::accepted(seed / 2 % generate::ACCEPTED, hunt.n, hunt.faulty, random);
    }
    generate::guided(Draft::new(hunt.n, hunt.faulty, MAX_BYTES, random).mistaken(hunt.mistake), STEPS)
}

/// A schedule that meets the wish, with as few records as still do.
fn small(hunt: &Hunt, schedule: &[u8]) -> Vec<u8> {
    let keeps_start = |candidate: &[u8]| candidate.get(..3) == schedule.get(..3);
    let core = shrink::shrink(schedule, |candidate| keeps_start(candidate) && hunt.meeting(candidate).is_some());
    let whole = hunt.meeting(&core).unwrap_or(core);
    shrink::shrink(&whole, |candidate| keeps_start(candidate) && hunt.met_at(candidate) == Some(candidate.len()))
}
