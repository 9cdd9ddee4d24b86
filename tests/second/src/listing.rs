//! The listing that the program `rehearse` prints, and the line that the digest program prints.

use std::fmt::Write;

use crate::hex;
use crate::schedule::{self, Ran, Refusal, Refused};
use crate::sha256;
use crate::steps::Mistake;
use crate::world::{has, World};

/// The listing of a schedule.
pub fn of_schedule(schedule: &[u8], mistake: Mistake) -> String {
    let mut answers = vec![0; schedule.len()];
    match schedule::run_mistaken(schedule, &mut answers, mistake) {
        Ok(ran) => of_run(&ran, &answers[..ran.records]),
        Err(refused) => of_refused(refused),
    }
}

/// The digest line of a message.
pub fn of_digest(message: &[u8]) -> String {
    match sha256::short_digest(message) {
        Some(digest) => format!("{}\n", hex::to_text(&digest)),
        None => of_refused(Refusal::DigestLong.at(0)),
    }
}

/// The listing of an accepted schedule.
pub fn of_run(ran: &Ran, answers: &[u8]) -> String {
    let mut text = String::with_capacity(16 * answers.len() + 1024);
    write_run(&mut text, ran, answers).expect("a string takes all text");
    text
}

/// The line of a refusal.
pub fn of_refused(refused: Refused) -> String {
    format!("refused {} {}\n", refused.refusal.code(), refused.offset)
}

/// Writes all lines of an accepted schedule.
fn write_run(text: &mut String, ran: &Ran, answers: &[u8]) -> std::fmt::Result {
    let world = &ran.world;
    writeln!(text, "world {} {} {} {}", world.n, world.f(), world.threshold(), ran.records)?;
    for (k, answer) in (1..).zip(answers) {
        writeln!(text, "step {k} {answer}")?;
    }
    for server in 0..world.n {
        write_server(text, world, server)?;
    }
    writeln!(text, "numbered {}", world.numbered)
}

/// Writes the line of one server.
fn write_server(text: &mut String, world: &World, server: u8) -> std::fmt::Result {
    if has(world.faulty, server) {
        return writeln!(text, "server {server} faulty");
    }
    let delivered = world.server(server).delivered.stored();
    write!(text, "server {server} {}", delivered.len())?;
    for item in delivered {
        write!(text, " {item}")?;
    }
    writeln!(text)
}
