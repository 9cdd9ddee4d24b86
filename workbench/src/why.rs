//! Which test decided a step, in document 01's terms, worked out from the world before the step.
//!
//! The answer that an explanation comes to is held to the proved one by this crate's tests, on generated schedules.

use second::readable::of_mask;
use second::steps::{Answer, Step};
use second::world::{bit, has, lowest_free, members, Entry, Execution, Mask, Packet, Place, Request, Sending, World};

use crate::proved;

/// An answer, and the test that decided for it.
#[derive(Clone, PartialEq, Eq, Debug)]
pub struct Reason {
    pub answer: Answer,
    pub text: String,
}

/// `Ok` is DONE and what is done; `Err` is any other answer.
type Found = Result<String, Reason>;

/// Why a step of a world answers what it answers.
pub fn explain(world: &World, step: &Step) -> Reason {
    let found = match *step {
        Step::Request { ref body } => request(world, body),
        Step::Multicast { server, slot } => multicast(world, server, slot),
        Step::Arrive { origin, place } => arrive(world, origin, place),
        Step::Propose { server, place } => propose(world, server, place),
        Step::Settle { server, place } => settle(world, server, place),
        Step::Deliver { server } => deliver(world, server),
        Step::ForgePacket { from, to, sending } => forge_packet(world, from, to, sending),
        Step::ForgeSend { server, id, .. } => forge_send(world, server, id),
        Step::ForgeReceive { server, sender, id, ref digest } => forge_receive(world, server, sender, id, digest),
    };
    found.map_or_else(|reason| reason, |text| Reason { answer: Answer::Done, text })
}

/// Why a step answered as it did: the explanation, or, where it comes to another answer, that and the rules' own.
pub fn of_answer(world: &World, step: &Step, answer: Answer, rules: proved::Rules) -> String {
    let Reason { answer: ruled, text } = explain(world, step);
    match rules {
        _ if ruled == answer => text,
        proved::Rules::Mistaken(_) => {
            format!("the planted mistake; by the rules it is {} {}: {text}", ruled.code(), ruled.name())
        }
        proved::Rules::Proved => {
            format!("no explanation: the proved answer stands, and {} {}, {text}, is wrong", ruled.code(), ruled.name())
        }
    }
}

/// The tests of a request.
fn request(world: &World, body: &[u8; Request::BODY]) -> Found {
    let beyond = body[Request::SEALS] & !world.all();
    let last = world.n - 1;
    test(beyond == 0, Answer::BadField, || format!("a seal bit of {}, beyond server {last}", of_mask(beyond)))?;
    let digest = proved::digest(body);
    if let Some(slot) = slot_of(world, &digest) {
        return leave(Answer::SameDigest, format!("its digest is that of slot {slot}"));
    }
    test(!world.requests.is_full(), Answer::NoRoom, || format!("all {} slots are given", Request::SLOTS))?;
    Ok(format!("stored in slot {}", world.requests.count))
}

/// The tests of a multicast.
fn multicast(world: &World, server: u8, slot: u8) -> Found {
    asks_correct(world, server)?;
    asks_slot(world, slot)?;
    test(world.is_sealed(slot, server), Answer::Dismissed, || no_seal(server, slot))?;
    let sent = world.server(server).executions.count;
    test(!world.server(server).executions.is_full(), Answer::Quota, || quota(server))?;
    let others = world.all() & !bit(server);
    asks_places(world, server, others)?;
    let place = asks_hold(world, server)?;
    let id = sent + 1;
    let number = if world.threshold() == 1 { format!(", number {}", world.numbered + 1) } else { String::new() };
    let entry = format!("stage-two entry at place {place}");
    Ok(format!("sent as {server}.{id}.{slot}{number}: {entry}, packets to {}", of_mask(others)))
}

/// The tests of an arrival.
fn arrive(world: &World, origin: u8, place: u8) -> Found {
    asks_server(world, origin, "origin")?;
    let places = &world.server(origin).outgoing;
    let Some(packet) = places.get(usize::from(place)) else {
        return leave(Answer::NoSuch, format!("an origin has places 0 to {}, and this is {place}", Packet::PLACES - 1));
    };
    test(packet.used, Answer::NoSuch, || format!("outgoing place {place} of server {origin} is empty"))?;
    let Packet { to, sending, .. } = *packet;
    test(!has(world.faulty, to), Answer::Dropped, || format!("packet {sending} is for server {to}, which is faulty"))?;
    let equal = |entry: &Entry| !entry.is_free() && entry.sending == sending;
    if let Some(held) = world.server(to).hold.iter().position(equal) {
        return leave(Answer::Dropped, format!("server {to} holds {sending} already, at place {held}"));
    }
    let free = asks_hold(world, to)?;
    Ok(format!("packet {sending} reaches server {to}: stage-one entry at place {free}"))
}

/// The tests of a proposal.
fn propose(world: &World, server: u8, place: u8) -> Found {
    let sending = asks_entry(world, server, place, Entry::ONE)?;
    let key = key_text(&sending);
    let Some(execution) = world.execution(&sending) else {
        return leave(Answer::Wait, format!("there is no execution {key}"));
    };
    let slot = sending.slot;
    test(!has(execution.called, server), Answer::Dropped, || format!("server {server} has called for {key} before"))?;
    if !world.is_sealed(slot, server) {
        return Ok(format!("{}: entry {sending} to stage two, and the orderer is told nothing", no_seal(server, slot)));
    }
    test(is_digest_of(world, slot, execution), Answer::Dropped, || differs(world, &key, slot, execution))?;
    Ok(format!("entry {sending} to stage two; {}", call_text(world, execution)))
}

/// The tests of a settling.
fn settle(world: &World, server: u8, place: u8) -> Found {
    let sending = asks_entry(world, server, place, Entry::TWO)?;
    let key = key_text(&sending);
    let Some(execution) = world.execution(&sending).filter(|execution| execution.is_numbered()) else {
        return leave(Answer::Wait, format!("execution {key} has no number"));
    };
    let slot = sending.slot;
    test(is_digest_of(world, slot, execution), Answer::Dropped, || differs(world, &key, slot, execution))?;
    let number = execution.number;
    if server == sending.sender {
        return Ok(format!("entry {sending} to stage three with number {number}; the sender forwards nothing"));
    }
    let outside = world.all() & !execution.mask & !bit(server);
    asks_places(world, server, outside)?;
    let forwarded = match outside {
        0 => "nobody is outside the mask".to_string(),
        _ => format!("forwarded to {}, outside the mask", of_mask(outside)),
    };
    Ok(format!("entry {sending} to stage three with number {number}; {forwarded}"))
}

/// The tests of a delivery.
fn deliver(world: &World, server: u8) -> Found {
    asks_correct(world, server)?;
    let next = world.server(server).next_number();
    let is_next = |entry: &Entry| entry.stage == Entry::THREE && usize::from(entry.number) == next;
    let Some(place) = world.server(server).hold.iter().position(is_next) else {
        return leave(Answer::Wait, format!("no stage-three entry has number {next}, the next of server {server}"));
    };
    let sending = world.server(server).hold[place].sending;
    Ok(format!("number {next}, {sending}, delivered from place {place}"))
}

/// The tests of a forged packet.
fn forge_packet(world: &World, from: u8, to: u8, sending: Sending) -> Found {
    asks_server(world, from, "from")?;
    asks_server(world, to, "to")?;
    asks_server(world, sending.sender, "claimed sender")?;
    asks_faulty(world, from)?;
    asks_slot(world, sending.slot)?;
    asks_places(world, from, bit(to))?;
    let place = lowest_free(&world.server(from).outgoing).unwrap_or_default();
    Ok(format!("packet claiming {sending} to server {to}, at outgoing place {place} of server {from}"))
}

/// The tests of a forged send.
fn forge_send(world: &World, server: u8, id: u16) -> Found {
    asks_server(world, server, "server")?;
    asks_faulty(world, server)?;
    let executions = world.server(server);
    test(executions.execution(id).is_none(), Answer::Recall, || format!("execution {server}.{id} is there already"))?;
    test(!executions.executions.is_full(), Answer::Quota, || quota(server))?;
    let number = if world.threshold() == 1 { format!(", number {}", world.numbered + 1) } else { String::new() };
    Ok(format!("execution {server}.{id} made{number}"))
}

/// The tests of a forged call.
fn forge_receive(world: &World, server: u8, sender: u8, id: u16, digest: &[u8; 32]) -> Found {
    asks_server(world, server, "server")?;
    asks_server(world, sender, "sender")?;
    asks_faulty(world, server)?;
    let key = format!("{sender}.{id}");
    let Some(execution) = world.server(sender).execution(id) else {
        return leave(Answer::Unknown, format!("there is no execution {key}"));
    };
    test(!has(execution.called, server), Answer::Recall, || format!("server {server} has called for {key} before"))?;
    test(execution.digest == *digest, Answer::WrongDigest, || format!("the digest differs from execution {key}'s"))?;
    Ok(format!("called for {key}; {}", call_text(world, execution)))
}

/// Leaves with an answer and a text.
fn leave<T>(answer: Answer, text: String) -> Result<T, Reason> {
    Err(Reason { answer, text })
}

/// Leaves unless something holds.
fn test(holds: bool, answer: Answer, text: impl FnOnce() -> String) -> Result<(), Reason> {
    if holds {
        Ok(())
    } else {
        leave(answer, text())
    }
}

/// The server in a field must be one of this world.
fn asks_server(world: &World, server: u8, field: &str) -> Result<(), Reason> {
    let text = || format!("{field} {server} is not below n, which is {}", world.n);
    test(server < world.n, Answer::BadServer, text)
}

/// The server must be one of this world, and correct.
fn asks_correct(world: &World, server: u8) -> Result<(), Reason> {
    asks_server(world, server, "server")?;
    let text = || format!("server {server} is faulty, and the step is for correct servers");
    test(!has(world.faulty, server), Answer::WrongSide, text)
}

/// The server, one of this world, must be faulty.
fn asks_faulty(world: &World, server: u8) -> Result<(), Reason> {
    let text = || format!("server {server} is correct, and the step is for faulty servers");
    test(has(world.faulty, server), Answer::WrongSide, text)
}

/// The slot must have been given.
fn asks_slot(world: &World, slot: u8) -> Result<(), Reason> {
    let text = || format!("slot {slot} is not given: {} are", world.requests.count);
    test(world.is_slot_given(slot), Answer::NoSuch, text)
}

/// There must be a free outgoing place of a server for each recipient.
fn asks_places(world: &World, server: u8, recipients: Mask) -> Result<(), Reason> {
    let needed = recipients.count_ones() as usize;
    let free = world.server(server).outgoing.iter().filter(|packet| packet.is_free()).count();
    let text = || format!("server {server} has {free} free outgoing places and needs {needed}");
    test(free >= needed, Answer::NoRoom, text)
}

/// The hold must have a free place; tells the lowest.
fn asks_hold(world: &World, server: u8) -> Result<usize, Reason> {
    match lowest_free(&world.server(server).hold) {
        Some(place) => Ok(place),
        None => leave(Answer::NoRoom, format!("the hold of server {server} is full")),
    }
}

/// The server must be correct, and hold an entry at this place and stage; tells its sending.
fn asks_entry(world: &World, server: u8, place: u8, stage: u8) -> Result<Sending, Reason> {
    asks_correct(world, server)?;
    let Some(entry) = world.server(server).hold.get(usize::from(place)) else {
        return leave(Answer::NoSuch, format!("a hold has places 0 to {}, and this is {place}", Entry::PLACES - 1));
    };
    test(!entry.is_free(), Answer::NoSuch, || format!("hold place {place} of server {server} is empty"))?;
    let (is, asked) = (stage_word(entry.stage), stage_word(stage));
    let text = || format!("the entry {} at place {place} is at stage {is}, not {asked}", entry.sending);
    test(entry.stage == stage, Answer::NoSuch, text)?;
    Ok(entry.sending)
}

/// What a recorded call does to the mask.
fn call_text(world: &World, execution: &Execution) -> String {
    if execution.is_numbered() {
        return format!("the call is recorded, the mask is final since number {}", execution.number);
    }
    let (proposed, threshold) = (execution.mask.count_ones() + 1, u32::from(world.threshold()));
    let number = match proposed == threshold {
        true => format!(": number {}", world.numbered + 1),
        false => String::new(),
    };
    format!("the call is recorded, {proposed} of {threshold} proposed{number}")
}

/// That a seal is missing.
fn no_seal(server: u8, slot: u8) -> String {
    format!("no good seal at server {server} on slot {slot}")
}

/// That a sender has no execution left.
fn quota(server: u8) -> String {
    format!("server {server} has made its {} executions", Execution::QUOTA)
}

/// That the digest of a slot is not an execution's, and whose it is.
fn differs(world: &World, key: &str, slot: u8, execution: &Execution) -> String {
    let whose = match slot_of(world, &execution.digest) {
        Some(other) => format!(", which is slot {other}'s"),
        None => ", which no slot has".to_string(),
    };
    format!("slot {slot}'s digest differs from execution {key}'s{whose}")
}

/// Whether the digest of a given slot is an execution's.
fn is_digest_of(world: &World, slot: u8, execution: &Execution) -> bool {
    world.request(slot).digest == execution.digest
}

/// The slot whose request has a digest.
fn slot_of(world: &World, digest: &[u8; 32]) -> Option<usize> {
    world.requests.stored().iter().position(|request| request.digest == *digest)
}

/// The key of a sending as SENDER.ID.
fn key_text(sending: &Sending) -> String {
    format!("{}.{}", sending.sender, sending.id)
}

/// A stage as a word.
pub fn stage_word(stage: u8) -> &'static str {
    ["none", "one", "two", "three"].get(usize::from(stage)).copied().unwrap_or("unknown")
}

/// The servers of a mask, as a sentence names them.
pub fn servers_text(mask: Mask) -> String {
    let names: Vec<String> = members(mask).map(|server| server.to_string()).collect();
    match &names[..] {
        [] => "no server".to_string(),
        [one] => format!("server {one}"),
        [first @ .., last] => format!("servers {} and {last}", first.join(", ")),
    }
}
