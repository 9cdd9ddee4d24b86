//! A schedule as readable lines, one a record.

use std::fmt::Write;

use crate::hex;
use crate::schedule::{self, Accepted, Refused, Steps};
use crate::steps::{self, Mistake, Step};
use crate::world::{members, Mask, Request};

/// The lines of a schedule: with answers when it is accepted, else up to where it is refused.
pub fn of_schedule(schedule: &[u8]) -> String {
    match schedule::check(schedule) {
        Ok(accepted) => of_accepted(accepted),
        Err(refused) => of_refused(schedule, refused),
    }
}

/// A start, in the words of the schedule language (`workbench/README.md`).
pub fn of_start(n: u8, faulty: Mask) -> String {
    match faulty {
        0 => format!("start {n}"),
        _ => format!("start {n} faulty {}", of_mask(faulty)),
    }
}

/// A step, in the words of the schedule language, with its place.
pub fn of_step(step: &Step) -> String {
    match *step {
        Step::Request { body } => of_request(&body),
        Step::Multicast { server, slot } => format!("multicast {server} slot {slot}"),
        Step::Arrive { origin, place } => format!("arrive from {origin} place {place}"),
        Step::Propose { server, place } => format!("propose {server} place {place}"),
        Step::Settle { server, place } => format!("settle {server} place {place}"),
        Step::Deliver { server } => format!("deliver {server}"),
        Step::ForgePacket { from, to, sending } => format!("forge packet from {from} to {to} sending {sending}"),
        Step::ForgeSend { server, id, digest } => {
            format!("forge send {server} id {id} digest {}", hex::to_text(&digest))
        }
        Step::ForgeReceive { server, sender, id, digest } => {
            format!("forge receive {server} execution {sender}.{id} digest {}", hex::to_text(&digest))
        }
    }
}

/// The members of a mask in words: their names, or `none`.
pub fn of_mask(mask: Mask) -> String {
    match mask {
        0 => "none".to_string(),
        _ => members(mask).map(|server| server.to_string()).collect::<Vec<_>>().join(" "),
    }
}

/// A request's fields by name.
fn of_request(body: &[u8; Request::BODY]) -> String {
    let (head, command) = body.split_at(Request::SEALS + 1);
    let number = u32::from_be_bytes([head[1], head[2], head[3], head[4]]);
    let (client, seals) = (head[0], of_mask(head[Request::SEALS]));
    format!("request client {client} number {number} seals {seals} command {}", hex::to_text(command))
}

/// The lines of an accepted schedule.
fn of_accepted(accepted: Accepted) -> String {
    let mut world = accepted.world;
    let mut text = format!("0 {}\n", of_start(world.n, world.faulty));
    for (offset, step) in accepted.steps {
        let answer = steps::apply(&mut world, &step, Mistake::None);
        line(&mut text, &format!("{offset} {} -> {} {}", of_step(&step), answer.code(), answer.name()));
    }
    text
}

/// The lines up to the refused record; nothing runs, so there are no answers.
fn of_refused(schedule: &[u8], refused: Refused) -> String {
    let mut text = String::new();
    if refused.offset > 0 {
        line(&mut text, &format!("0 {}", of_start(schedule[1], schedule[2])));
        for (offset, step) in Steps::after_start(schedule).take_while(|(offset, _)| *offset < refused.offset) {
            line(&mut text, &format!("{offset} {}", of_step(&step)));
        }
    }
    let (refusal, offset) = (refused.refusal, refused.offset);
    line(&mut text, &format!("{offset} refused {} {}", refusal.code(), refusal.name()));
    text
}

/// Adds one line.
fn line(text: &mut String, line: &str) {
    writeln!(text, "{line}").expect("a string takes all text");
}

#[cfg(test)]
mod tests {
    use super::*;

    #[test]
    fn shows_answers_or_the_refusal() {
        assert_eq!(of_schedule(&[1, 3, 2, 7, 0]), "0 start 3 faulty 1\n3 deliver 0 -> 2 WAIT\n");
        assert_eq!(of_schedule(&[1, 3, 0, 7, 0, 11]), "0 start 3\n3 deliver 0\n5 refused 22 BAD_KIND\n");
        assert_eq!(of_schedule(&[1, 0, 0]), "0 refused 25 BAD_START\n");
        assert_eq!(of_schedule(&[]), "0 refused 21 NO_START\n");
    }
}
