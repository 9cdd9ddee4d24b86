//! How a run ended, in words: quiet or what stands open, agreement or who is behind.

use second::claims::{Claim, History};
use second::quiet::is_ready;
use second::world::{has, members, Entry, Mask, World};

use crate::why::{servers_text, stage_word};

/// How a run ended.
#[derive(Clone, PartialEq, Eq, Debug)]
pub struct Verdict {
    pub quiet: bool,
    /// What keeps the world from being quiet.
    pub open: Vec<String>,
    /// What lies in holds of correct servers and is not due, so that quiet does not ask for it.
    pub waiting: Vec<String>,
    pub agreement: String,
    /// The correct servers that have not delivered every number.
    pub behind: Vec<u8>,
    pub numbered: u8,
    /// The step behind which a claim of demand 3 was first broken.
    pub broken: Option<(usize, Claim)>,
}

/// Follows a run for its verdict.
#[derive(Default)]
pub struct Judge {
    history: History,
    broken: Option<(usize, Claim)>,
}

impl Judge {
    /// Looks at the world behind a step, or at the fresh one behind step 0.
    pub fn see(&mut self, step: usize, world: &World) {
        if self.broken.is_none() {
            self.broken = self.history.observe(world).err().map(|claim| (step, claim));
        }
    }

    /// The verdict on the world at the end.
    pub fn verdict(self, world: &World, quiet: bool) -> Verdict {
        let behind = behind(world);
        let entries = |due: bool| held(world).filter(move |(server, _, entry)| is_ready(world, *server, entry) == due);
        Verdict {
            quiet,
            open: packets(world).chain(entries(true).map(entry_text)).collect(),
            waiting: entries(false).map(entry_text).collect(),
            agreement: agreement(world, behind, self.broken),
            behind: members(behind).collect(),
            numbered: world.numbered,
            broken: self.broken,
        }
    }
}

impl Verdict {
    /// The lines that `run --verdict` adds.
    pub fn lines(&self) -> String {
        let mut text = match self.quiet {
            true => "quiet\n".to_string(),
            false => format!("not quiet, {} open\n", self.open.len()),
        };
        self.open.iter().for_each(|line| text += &format!("open: {line}\n"));
        self.waiting.iter().for_each(|line| text += &format!("waiting: {line}\n"));
        text + &format!("agreement: {}\n", self.agreement)
    }
}

/// The packets under way to correct servers.
fn packets(world: &World) -> impl Iterator<Item = String> + '_ {
    members(world.all()).flat_map(move |origin| {
        let under_way = world.server(origin).outgoing.iter().filter(|packet| packet.used);
        let due = under_way.filter(|packet| has(world.correct(), packet.to));
        due.map(move |packet| format!("packet {} from {origin} to {} under way", packet.sending, packet.to))
    })
}

/// The entries of correct servers, with their places.
fn held(world: &World) -> impl Iterator<Item = (u8, usize, &Entry)> {
    members(world.correct()).flat_map(move |server| {
        let entries = world.server(server).hold.iter().enumerate();
        entries.filter(|(_, entry)| entry.stage != 0).map(move |(place, entry)| (server, place, entry))
    })
}

/// An entry in words.
fn entry_text((server, place, entry): (u8, usize, &Entry)) -> String {
    format!("server {server}: stage-{} entry {} at place {place}", stage_word(entry.stage), entry.sending)
}

/// The correct servers that have not delivered every number.
fn behind(world: &World) -> Mask {
    let late = |server: &u8| world.server(*server).delivered.count < usize::from(world.numbered);
    members(world.correct()).filter(late).fold(0, |mask, server| mask | second::world::bit(server))
}

/// Whether all correct servers agree, and who is behind.
fn agreement(world: &World, behind: Mask, broken: Option<(usize, Claim)>) -> String {
    if let Some((step, claim)) = broken {
        return format!("broken at step {step}: {}", claim_text(claim));
    }
    let numbers = match world.numbered {
        0 => return "no number is given, and nothing delivered".to_string(),
        1 => "the 1 number".to_string(),
        many => format!("all {many} numbers"),
    };
    match behind {
        0 => format!("every correct server has delivered {numbers}, in one order"),
        _ => {
            let missing = |server| usize::from(world.numbered) - world.server(server).delivered.count;
            let late: Vec<String> = members(behind).map(|s| format!("server {s} by {}", missing(s))).collect();
            let done = servers_text(world.correct() & !behind);
            format!("one order; {done} delivered {numbers}; behind: {}", late.join(", "))
        }
    }
}

/// What a broken claim of demand 3 means.
pub fn claim_text(claim: Claim) -> &'static str {
    match claim {
        Claim::OneListOfSendings => "the numbers do not make one list of sendings",
        Claim::ListOnlyGrows => "a number has changed its meaning",
        Claim::NoSendingTwice => "one sending has two numbers",
        Claim::HeldWithGoodSeal => "no correct server with a good seal held what was numbered",
        Claim::DeliveredIsBeginning => "a correct server has delivered what is not the list's beginning",
        Claim::QuietHasDeliveredAll => "the world is quiet, and a correct server has not delivered the whole list",
    }
}
