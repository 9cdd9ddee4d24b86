//! Makes a failing schedule small: takes records away as long as it still fails.

use crate::intent;
use crate::schedule::{self, Steps, START};

/// How often the failing test is tried at most, each way.
const TRIES: usize = 3_000;

/// A smaller schedule that still fails: first records are taken away as they are, then the others are renamed to fit.
pub fn shrink(schedule: &[u8], fails: impl Fn(&[u8]) -> bool) -> Vec<u8> {
    let small = fewer(pieces(schedule), <[&[u8]]>::concat, &fails).concat();
    let Ok(accepted) = schedule::check(&small) else { return small };
    let (n, faulty) = (accepted.world.n, accepted.world.faulty);
    let build = |intents: &[intent::Intent]| intent::to_schedule(n, faulty, intents);
    let smaller = build(&fewer(intent::of_schedule(accepted), build, &fails));
    if fails(&smaller) {
        smaller
    } else {
        small
    }
}

/// Takes items away, in halves, quarters and so on, as long as what is built from the rest still fails.
fn fewer<T: Copy>(mut items: Vec<T>, build: impl Fn(&[T]) -> Vec<u8>, fails: impl Fn(&[u8]) -> bool) -> Vec<T> {
    let mut size = items.len().div_ceil(2).max(1);
    let mut tries = 0;
    loop {
        let mut removed = false;
        let mut end = items.len();
        while end > 0 && tries < TRIES {
            let begin = end.saturating_sub(size);
            let candidate = [&items[..begin], &items[end..]].concat();
            tries += 1;
            if fails(&build(&candidate)) {
                items = candidate;
                removed = true;
            }
            end = begin;
        }
        if tries >= TRIES || (size == 1 && !removed) {
            return items;
        }
        size = (size / 2).max(1);
    }
}

/// A schedule cut into its start, its records, and single bytes from where it cannot be read.
pub fn pieces(schedule: &[u8]) -> Vec<&[u8]> {
    let mut pieces = Vec::new();
    let mut read = 0;
    if schedule.first() == Some(&START) && schedule.len() >= 3 {
        let mut steps = Steps::after_start(schedule);
        loop {
            pieces.push(&schedule[read..steps.offset()]);
            read = steps.offset();
            if steps.next().is_none() {
                break;
            }
        }
    }
    pieces.extend(schedule[read..].chunks(1));
    pieces
}

#[cfg(test)]
mod tests {
    use super::*;
    use crate::generate;
    use crate::listing;
    use crate::steps::Mistake;

    #[test]
    fn pieces_are_records() {
        let cut: Vec<&[u8]> = vec![&[1, 3, 0], &[7, 0], &[4, 0, 1], &[3], &[0]];
        assert_eq!(pieces(&[1, 3, 0, 7, 0, 4, 0, 1, 3, 0]), cut);
        assert_eq!(pieces(&[9, 9]), [[9], [9]]);
    }

    #[test]
    fn shrinks_to_what_is_needed() {
        let mut schedule = vec![1, 3, 0];
        for server in 0..200 {
            schedule.extend([7, server]);
        }
        let needed = [&[1, 3, 0][..], &[7, 33], &[7, 150]];
        let fails = |s: &[u8]| needed.iter().all(|piece| pieces(s).contains(piece));
        assert_eq!(shrink(&schedule, fails), needed.concat());
    }

    #[test]
    fn planted_mistakes_shrink_to_few_records() {
        for (mistake, name) in Mistake::PLANTED {
            let fails = |s: &[u8]| listing::of_schedule(s, mistake) != listing::of_schedule(s, Mistake::None);
            let schedule = (0..64).map(|index| generate::schedule(1, index)).find(|s| fails(s)).expect(name);
            let small = shrink(&schedule, fails);
            assert!(fails(&small) && pieces(&small).len() <= 20, "{name}: {} records", pieces(&small).len());
        }
    }
}
