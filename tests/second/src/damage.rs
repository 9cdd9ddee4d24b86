//! Damaged schedules: one for each refusal, and mixtures.

use crate::random::Random;
use crate::schedule::{Refusal, MAX_BYTES, START};
use crate::shrink::pieces;

/// The refusals that a schedule can meet.
pub const REFUSALS: [Refusal; 6] =
    [Refusal::TooLong, Refusal::NoStart, Refusal::BadKind, Refusal::SecondStart, Refusal::Cut, Refusal::BadStart];

/// Damages a good schedule so that it asks for a refusal.
pub fn damage(schedule: &mut Vec<u8>, refusal: Refusal, random: &mut Random) {
    match refusal {
        Refusal::TooLong => make_too_long(schedule, random),
        Refusal::NoStart => take_start_away(schedule, random),
        Refusal::BadKind => {
            let kind = if random.percent(30) { 0x00 } else { random.between(0x0B, 0xFF) as u8 };
            insert(schedule, &[kind], random);
        }
        Refusal::SecondStart => {
            let start = [START, random.byte_below(10), 0];
            let size = random.between(1, start.len());
            insert_or_append(schedule, &start[..size], random);
        }
        Refusal::Cut => cut(schedule, random),
        _ => spoil_start(schedule, random),
    }
}

/// Changes some bytes to any others, takes some out and puts some in.
pub fn scratch(schedule: &mut Vec<u8>, random: &mut Random) {
    for _ in 0..random.between(1, 4) {
        let place = random.below(schedule.len());
        match random.below(3) {
            0 => schedule[place] = random.byte(),
            1 => schedule[place] ^= 1 << random.below(8),
            _ if random.percent(50) => schedule.insert(place, random.byte()),
            _ => drop(schedule.remove(place)),
        }
        if schedule.is_empty() {
            return;
        }
    }
}

/// Goes beyond the longest schedule by one byte or many.
fn make_too_long(schedule: &mut Vec<u8>, random: &mut Random) {
    let beyond = random.pick(&[1, 1, 2, 100, 40_000]);
    let missing = (MAX_BYTES + beyond).saturating_sub(schedule.len());
    let more = if random.percent(50) { random.bytes(missing) } else { [7, 0].repeat(missing)[..missing].to_vec() };
    schedule.extend(more);
}

/// Leaves nothing, or another first byte.
fn take_start_away(schedule: &mut Vec<u8>, random: &mut Random) {
    match random.below(4) {
        0 => schedule.clear(),
        1 => drop(schedule.remove(0)),
        2 => schedule[0] = 0,
        _ => schedule[0] = random.between(2, 255) as u8,
    }
}

/// Puts bytes between two records.
fn insert(schedule: &mut Vec<u8>, bytes: &[u8], random: &mut Random) {
    let pieces = pieces(schedule);
    let before = random.between(1, pieces.len());
    *schedule = [pieces[..before].concat(), bytes.to_vec(), pieces[before..].concat()].concat();
}

/// Puts bytes between two records, or at the end.
fn insert_or_append(schedule: &mut Vec<u8>, bytes: &[u8], random: &mut Random) {
    if random.percent(60) {
        insert(schedule, bytes, random);
    } else {
        schedule.extend(bytes);
    }
}

/// Ends the schedule within a record; a lone start is one too.
fn cut(schedule: &mut Vec<u8>, random: &mut Random) {
    let pieces = pieces(schedule);
    let at = random.below(pieces.len());
    let before: usize = pieces[..at].iter().map(|piece| piece.len()).sum();
    let keep = random.between(1, pieces[at].len().max(2) - 1);
    schedule.truncate(before + keep);
}

/// Asks for a world that may not be.
fn spoil_start(schedule: &mut [u8], random: &mut Random) {
    let (n, faulty) = match random.below(5) {
        0 => (0, random.byte()),
        1 => (random.between(9, 255) as u8, 0),
        2 => (random.pick(&[1, 2]), 1),
        3 => (7, 0x80 | random.byte()),
        _ => (8, random.pick(&[0x0F, 0xF0, 0xFF, 0x1B])),
    };
    schedule[1] = n;
    schedule[2] = faulty;
}
