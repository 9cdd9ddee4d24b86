//! The series of schedules for the comparison: each comes from a seed and its index alone.

use crate::damage;
use crate::draft::{Action, Draft, Weights};
use crate::random::Random;
use crate::schedule::{read_step, write_step, Refusal, MAX_BYTES, START};
use crate::steps::{Answer, Step};
use crate::world::{bit, has, lowest_free, members, Execution, Mask, Packet, Request, Sending, World};

/// How many different starts are accepted: every n with every admissible faulty mask.
pub const STARTS: usize = 206;

/// How many recipes there are; the index goes round them.
const RECIPES: u64 = 16;

/// How many of them, the first ones, give schedules that are accepted.
pub const ACCEPTED: u64 = 12;

/// The schedule of an index.
pub fn schedule(seed: u64, index: u64) -> Vec<u8> {
    let mut random = Random::new(seed, index);
    let round = index / RECIPES;
    let (n, faulty) = nth_start((index * 67 + round) as usize % STARTS);
    match index % RECIPES {
        8 if round.is_multiple_of(4) => full_house(World::SERVERS as u8, 0, random),
        recipe @ 0..ACCEPTED => accepted(recipe, n, faulty, random),
        12 => damaged(n, faulty, &[damage::REFUSALS[round as usize % damage::REFUSALS.len()]], random),
        13 => {
            let two = [random.pick(&damage::REFUSALS), random.pick(&damage::REFUSALS)];
            damaged(n, faulty, &two, random)
        }
        14 => scratched(n, faulty, random),
        _ => random_bytes(n, faulty, random),
    }
}

/// The schedule of a recipe that is accepted.
pub fn accepted(recipe: u64, n: u8, faulty: Mask, random: Random) -> Vec<u8> {
    match recipe {
        0..=3 => guided(Draft::new(n, faulty, MAX_BYTES, random), 150),
        4..=6 => guided(Draft::new(n, faulty, MAX_BYTES, random), 700),
        7 => long(n, faulty, random),
        8 => full_house(n, faulty, random),
        9 => many_requests(n, faulty, random),
        10 => full_hold(n, faulty, random),
        _ => full_outgoing(n, faulty, random),
    }
}

/// The accepted starts in order.
fn nth_start(place: usize) -> (u8, Mask) {
    let starts = (1..=World::SERVERS as u8).flat_map(|n| (0..=Mask::MAX).map(move |faulty| (n, faulty)));
    starts.filter(|(n, faulty)| World::may_start(*n, *faulty)).nth(place).expect("there are so many starts")
}

/// A mixture of all actions that mostly leads on; half of these end quiet.
pub fn guided(mut draft: Draft, most: usize) -> Vec<u8> {
    let requests = draft.random.between(0, 6);
    draft.store_requests(requests);
    let weights = weights(&mut draft);
    let actions = draft.random.between(1, most);
    draft.act(&weights, actions);
    if draft.random.percent(50) {
        draft.drain();
    }
    draft.into_bytes()
}

/// Weights that differ from schedule to schedule; liars lie only where there are some, moves are never left out.
fn weights(draft: &mut Draft) -> Weights {
    let mut weigh = |least: usize, most: usize| draft.random.between(least, most);
    let (packets, sends, calls) = (weigh(0, 12), weigh(0, 4), weigh(0, 4));
    let lie = |weight| if draft.world.faulty == 0 { 0 } else { weight };
    let mut weigh = |least: usize, most: usize| draft.random.between(least, most);
    Weights([
        (Action::Request, weigh(0, 3)),
        (Action::Multicast, weigh(1, 6)),
        (Action::Arrive, weigh(2, 24)),
        (Action::Move, weigh(4, 40)),
        (Action::ForgePacket, lie(packets)),
        (Action::ForgeSend, lie(sends)),
        (Action::ForgeReceive, lie(calls)),
        (Action::Noise, weigh(0, 4)),
    ])
}

/// A schedule up to the last byte, or nearly.
fn long(n: u8, faulty: Mask, random: Random) -> Vec<u8> {
    let mut draft = Draft::new(n, faulty, MAX_BYTES, random);
    draft.store_requests(5);
    while !draft.is_full() {
        let weights = weights(&mut draft);
        draft.act(&weights, 400);
    }
    if draft.random.percent(70) {
        draft.fill();
    }
    draft.into_bytes()
}

/// Every server sends until its quota is used up, and all is delivered if it fits.
fn full_house(n: u8, faulty: Mask, random: Random) -> Vec<u8> {
    let mut draft = Draft::new(n, faulty, MAX_BYTES, random);
    let step = draft.sealed_request();
    draft.add(step);
    if faulty != 0 {
        draft.store_requests(4);
    }
    let mut open = draft.world.all();
    for _ in 0..4 * World::NUMBERS {
        if open == 0 || draft.is_full() {
            break;
        }
        let server = draft.member(open);
        if send_somehow(&mut draft, server) == Some(Answer::Quota) {
            open &= !bit(server);
        }
        let steps = draft.random.below(8 * usize::from(n));
        draft.advance(draft.world.all(), steps);
    }
    draft.drain();
    draft.into_bytes()
}

/// A correct server's multicast, or a liar's send with packets to some.
fn send_somehow(draft: &mut Draft, server: u8) -> Option<Answer> {
    if !has(draft.world.faulty, server) {
        let step = draft.multicast_of(server);
        return draft.add(step);
    }
    let slot = draft.slot();
    let digest = draft.world.request(slot).digest;
    let id = draft.world.server(server).executions.count as u16 + 1;
    let answer = draft.add(Step::ForgeSend { server, id, digest });
    let some = draft.random.byte() & draft.world.correct();
    for to in members(some) {
        let sending = Sending { sender: server, id, slot };
        draft.add(Step::ForgePacket { from: server, to, sending });
    }
    answer
}

/// Requests until no slot is left and beyond, some of them sent.
fn many_requests(n: u8, faulty: Mask, random: Random) -> Vec<u8> {
    let mut draft = Draft::new(n, faulty, MAX_BYTES, random);
    let weights = weights(&mut draft);
    let before = draft.random.between(100, Request::SLOTS);
    draft.store_requests(before);
    draft.act(&weights, 60);
    draft.store_requests(Request::SLOTS);
    let only_requests = Weights(weights.0.map(|(action, _)| (action, usize::from(action == Action::Request))));
    draft.act(&only_requests, 8);
    draft.act(&weights, 200);
    if draft.random.percent(30) {
        draft.drain();
    }
    draft.into_bytes()
}

/// One server's hold is filled by liars and by the others, and it goes on from there.
fn full_hold(n: u8, faulty: Mask, random: Random) -> Vec<u8> {
    let mut draft = Draft::new(n, faulty, MAX_BYTES, random);
    draft.store_requests(6);
    let target = draft.correct();
    for _ in 0..200 {
        if lowest_free(&draft.world.server(target).hold).is_none() && draft.random.percent(10) {
            break;
        }
        let step = if faulty != 0 && draft.random.percent(60) {
            draft.forged_packet(target)
        } else {
            let server = draft.correct();
            draft.multicast_of(server)
        };
        draft.add(step);
        for _ in 0..2 {
            let all = draft.random.percent(40);
            if let Some(arrival) = draft.packet(|_, packet| all || packet.to == target) {
                draft.add(arrival);
            }
        }
    }
    let step = draft.multicast_of(target);
    draft.add(step);
    end_somehow(draft)
}

/// One server's outgoing places are filled, by itself if it is correct, and it goes on from there.
fn full_outgoing(n: u8, faulty: Mask, random: Random) -> Vec<u8> {
    let mut draft = Draft::new(n, faulty, MAX_BYTES, random);
    draft.store_requests(6);
    let flooded = draft.any();
    let casts = if has(faulty, flooded) { Packet::PLACES } else { Execution::QUOTA } + 1;
    for _ in 0..casts {
        let step = if has(faulty, flooded) {
            let to = draft.any();
            draft.forged_packet(to)
        } else {
            draft.multicast_of(flooded)
        };
        draft.add(step);
    }
    let others = draft.world.all() & !bit(flooded);
    for _ in 0..draft.random.between(1, 12) {
        let server = draft.correct();
        let step = draft.multicast_of(server);
        draft.add(step);
        draft.advance(others, 40);
    }
    end_somehow(draft)
}

/// Some mixed actions, and perhaps a quiet end.
fn end_somehow(mut draft: Draft) -> Vec<u8> {
    let weights = weights(&mut draft);
    let actions = draft.random.between(0, 200);
    draft.act(&weights, actions);
    if draft.random.percent(70) {
        draft.drain();
    }
    draft.into_bytes()
}

/// A short guided schedule with these damages.
fn damaged(n: u8, faulty: Mask, refusals: &[Refusal], mut random: Random) -> Vec<u8> {
    let mut schedule = guided(Draft::new(n, faulty, MAX_BYTES, random.clone()), 40);
    for refusal in refusals {
        if schedule.len() >= 3 {
            damage::damage(&mut schedule, *refusal, &mut random);
        }
    }
    schedule
}

/// A guided schedule with a few bytes changed.
fn scratched(n: u8, faulty: Mask, mut random: Random) -> Vec<u8> {
    let mut schedule = guided(Draft::new(n, faulty, MAX_BYTES, random.clone()), 200);
    damage::scratch(&mut schedule, &mut random);
    schedule
}

/// Random bytes: bare, after a good start, or as the bodies of good kinds.
fn random_bytes(n: u8, faulty: Mask, mut random: Random) -> Vec<u8> {
    let size = random.below(120);
    let mut schedule = vec![START, n, faulty];
    match random.below(3) {
        0 => return random.bytes(size),
        1 => schedule.extend(random.bytes(size)),
        _ => (0..size).for_each(|_| write_step(&mut schedule, &random_step(&mut random))),
    }
    schedule
}

/// A step of random fields, most of them small.
fn random_step(random: &mut Random) -> Step {
    let mut record: [u8; 40] = random.array();
    record.iter_mut().filter(|byte| **byte >= 32).for_each(|byte| *byte %= 9);
    record[0] = random.between(0x02, 0x0A) as u8;
    read_step(&record).expect("the kind is good and the bytes are enough").0
}

#[cfg(test)]
mod tests {
    use super::*;

    #[test]
    fn there_are_so_many_starts() {
        assert_eq!(nth_start(0), (1, 0));
        assert_eq!(nth_start(STARTS - 1).0, 8);
        let all = (1..=8).flat_map(|n| (0..=255).map(move |faulty| (n, faulty)));
        assert_eq!(all.filter(|(n, faulty)| World::may_start(*n, *faulty)).count(), STARTS);
    }

    #[test]
    fn a_schedule_is_always_the_same() {
        for index in 0..RECIPES {
            assert_eq!(schedule(5, index), schedule(5, index));
        }
    }
}
