//! One function for each step kind, with document 01's tests in document 01's order.

use crate::sha256::{self, Digest};
use crate::world::{
    bit, has, lowest_free, members, Entry, Execution, Mask, Packet, Place, Request, Sending, World, Zeros,
};

/// A record after the start, read.
#[derive(Clone, Copy, PartialEq, Eq, Debug)]
pub enum Step {
    Request { body: [u8; Request::BODY] },
    Multicast { server: u8, slot: u8 },
    Arrive { origin: u8, place: u8 },
    Propose { server: u8, place: u8 },
    Settle { server: u8, place: u8 },
    Deliver { server: u8 },
    ForgePacket { from: u8, to: u8, sending: Sending },
    ForgeSend { server: u8, id: u16, digest: Digest },
    ForgeReceive { server: u8, sender: u8, id: u16, digest: Digest },
}

/// The answer to a step, with document 01's number.
#[derive(Clone, Copy, PartialEq, Eq, Debug)]
#[repr(u8)]
pub enum Answer {
    Done = 0,
    Dropped = 1,
    Wait = 2,
    Dismissed = 3,
    BadServer = 4,
    WrongSide = 5,
    NoSuch = 6,
    BadField = 7,
    SameDigest = 8,
    NoRoom = 9,
    Quota = 10,
    Unknown = 11,
    WrongDigest = 12,
    Recall = 13,
}

impl Answer {
    /// Document 01's names, by number.
    pub const NAMES: [&str; 14] = [
        "DONE",
        "DROPPED",
        "WAIT",
        "DISMISSED",
        "BAD_SERVER",
        "WRONG_SIDE",
        "NO_SUCH",
        "BAD_FIELD",
        "SAME_DIGEST",
        "NO_ROOM",
        "QUOTA",
        "UNKNOWN",
        "WRONG_DIGEST",
        "RECALL",
    ];

    /// Every answer, by code.
    pub const ALL: [Answer; 14] = [
        Answer::Done,
        Answer::Dropped,
        Answer::Wait,
        Answer::Dismissed,
        Answer::BadServer,
        Answer::WrongSide,
        Answer::NoSuch,
        Answer::BadField,
        Answer::SameDigest,
        Answer::NoRoom,
        Answer::Quota,
        Answer::Unknown,
        Answer::WrongDigest,
        Answer::Recall,
    ];

    /// Document 01's number, which is called a code here: numbers are what the orderer gives.
    pub fn code(self) -> u8 {
        self as u8
    }

    /// Document 01's name.
    pub fn name(self) -> &'static str {
        Answer::NAMES[usize::from(self.code())]
    }

    /// Whether the step changed the world.
    pub fn changes(self) -> bool {
        matches!(self, Answer::Done | Answer::Dropped)
    }
}

/// Document 01's errors that look right, planted on purpose to see that a comparison notices them.
#[derive(Clone, Copy, PartialEq, Eq, Debug)]
pub enum Mistake {
    None,
    /// A call that gave a wrong digest is recorded.
    WrongDigestRecorded,
    /// The mask grows after numbering.
    MaskGrows,
    /// An unsealed entry is dropped at propose.
    UnsealedDropped,
    /// A packet's claimed sender is taken for its origin: it lies in the outgoing places of whom it claims.
    ClaimedSenderIsOrigin,
}

impl Mistake {
    /// Every mistake that can be planted, with its name.
    pub const PLANTED: [(Mistake, &str); 4] = [
        (Mistake::WrongDigestRecorded, "WrongDigestRecorded"),
        (Mistake::MaskGrows, "MaskGrows"),
        (Mistake::UnsealedDropped, "UnsealedDropped"),
        (Mistake::ClaimedSenderIsOrigin, "ClaimedSenderIsOrigin"),
    ];

    /// The mistake of a name.
    pub fn named(name: &str) -> Option<Mistake> {
        Mistake::PLANTED.iter().find(|(_, planted)| *planted == name).map(|(mistake, _)| *mistake)
    }

    /// The names, for a message.
    pub fn names() -> String {
        Mistake::PLANTED.map(|(_, name)| name).join(", ")
    }
}

/// How a step ends: `Ok` has changed the world, `Err` has not.
type Outcome = Result<Answer, Answer>;

/// Does one step on a sound world.
pub fn apply(world: &mut World, step: &Step, mistake: Mistake) -> Answer {
    let outcome = match *step {
        Step::Request { ref body } => request(world, body),
        Step::Multicast { server, slot } => multicast(world, server, slot, mistake),
        Step::Arrive { origin, place } => arrive(world, origin, place),
        Step::Propose { server, place } => propose(world, server, place, mistake),
        Step::Settle { server, place } => settle(world, server, place, mistake),
        Step::Deliver { server } => deliver(world, server),
        Step::ForgePacket { from, to, sending } => forge_packet(world, from, to, sending, mistake),
        Step::ForgeSend { server, id, digest } => forge_send(world, server, id, digest),
        Step::ForgeReceive { server, sender, id, digest } => forge_receive(world, server, sender, id, &digest, mistake),
    };
    outcome.unwrap_or_else(|refused| refused)
}

/// A client's request is stored in the next slot.
fn request(world: &mut World, body: &[u8; Request::BODY]) -> Outcome {
    let request = Request { body: *body, digest: sha256::digest(body) };
    ensure(request.seals() & !world.all() == 0, Answer::BadField)?;
    ensure(!world.requests.stored().iter().any(|stored| stored.digest == request.digest), Answer::SameDigest)?;
    ensure(!world.requests.is_full(), Answer::NoRoom)?;
    world.requests.append(request);
    Ok(Answer::Done)
}

/// A correct server sends a request to all others, and to the orderer.
fn multicast(world: &mut World, server: u8, slot: u8, mistake: Mistake) -> Outcome {
    asks_correct(world, server)?;
    asks_slot(world, slot)?;
    ensure(world.is_sealed(slot, server), Answer::Dismissed)?;
    ensure(!world.server(server).executions.is_full(), Answer::Quota)?;
    let place = free_hold_place(world, server)?;
    let id = world.server(server).executions.count as u16 + 1;
    let sending = Sending { sender: server, id, slot };
    send(world, server, sending, world.all() & !bit(server), mistake)?;
    make_execution(world, server, id, world.request(slot).digest);
    world.server_mut(server).hold[place] = Entry::fresh(Entry::TWO, sending);
    Ok(Answer::Done)
}

/// A packet reaches the server it goes to.
fn arrive(world: &mut World, origin: u8, place: u8) -> Outcome {
    asks_server(world, origin)?;
    let packet = *world.server(origin).outgoing.get(usize::from(place)).ok_or(Answer::NoSuch)?;
    ensure(packet.used, Answer::NoSuch)?;
    let answer = if has(world.faulty, packet.to) || holds(world, packet.to, &packet.sending) {
        Answer::Dropped
    } else {
        let free = free_hold_place(world, packet.to)?;
        world.server_mut(packet.to).hold[free] = Entry::fresh(Entry::ONE, packet.sending);
        Answer::Done
    };
    world.server_mut(origin).outgoing[usize::from(place)] = Packet::ZEROS;
    Ok(answer)
}

/// A correct server calls the orderer for an entry that arrived.
fn propose(world: &mut World, server: u8, place: u8, mistake: Mistake) -> Outcome {
    let entry = asks_entry(world, server, place, Entry::ONE)?;
    let execution = world.execution(&entry.sending).ok_or(Answer::Wait)?;
    if has(execution.called, server) {
        return free_entry(world, server, place);
    }
    let sealed = world.is_sealed(entry.sending.slot, server);
    if !sealed && mistake == Mistake::UnsealedDropped {
        return free_entry(world, server, place);
    }
    let digest = world.request(entry.sending.slot).digest;
    if sealed && !call(world, server, entry.sending.sender, entry.sending.id, &digest, mistake) {
        return free_entry(world, server, place);
    }
    world.server_mut(server).hold[usize::from(place)].stage = Entry::TWO;
    Ok(Answer::Done)
}

/// A correct server takes an execution's number, and forwards to those who did not propose.
fn settle(world: &mut World, server: u8, place: u8, mistake: Mistake) -> Outcome {
    let entry = asks_entry(world, server, place, Entry::TWO)?;
    let execution = *world.execution(&entry.sending).ok_or(Answer::Wait)?;
    ensure(execution.is_numbered(), Answer::Wait)?;
    if world.request(entry.sending.slot).digest != execution.digest {
        return free_entry(world, server, place);
    }
    if server != entry.sending.sender {
        let outside = world.all() & !execution.mask & !bit(server);
        send(world, server, entry.sending, outside, mistake)?;
    }
    let entry = &mut world.server_mut(server).hold[usize::from(place)];
    entry.stage = Entry::THREE;
    entry.number = execution.number;
    Ok(Answer::Done)
}

/// A correct server delivers the entry whose turn it is.
fn deliver(world: &mut World, server: u8) -> Outcome {
    asks_correct(world, server)?;
    let server = world.server_mut(server);
    let next = server.next_number();
    let is_next = |entry: &Entry| entry.stage == Entry::THREE && usize::from(entry.number) == next;
    let place = server.hold.iter().position(is_next).ok_or(Answer::Wait)?;
    server.delivered.append(server.hold[place].sending);
    server.hold[place] = Entry::ZEROS;
    Ok(Answer::Done)
}

/// A liar sends any packet it likes.
fn forge_packet(world: &mut World, from: u8, to: u8, sending: Sending, mistake: Mistake) -> Outcome {
    asks_server(world, from)?;
    asks_server(world, to)?;
    asks_server(world, sending.sender)?;
    asks_faulty(world, from)?;
    asks_slot(world, sending.slot)?;
    send(world, from, sending, bit(to), mistake)?;
    Ok(Answer::Done)
}

/// A liar sends any digest it likes to the orderer, under any id.
fn forge_send(world: &mut World, server: u8, id: u16, digest: Digest) -> Outcome {
    asks_faulty(world, server)?;
    ensure(world.server(server).execution(id).is_none(), Answer::Recall)?;
    ensure(!world.server(server).executions.is_full(), Answer::Quota)?;
    make_execution(world, server, id, digest);
    Ok(Answer::Done)
}

/// A liar calls the orderer for any execution.
fn forge_receive(world: &mut World, server: u8, sender: u8, id: u16, digest: &Digest, mistake: Mistake) -> Outcome {
    asks_server(world, server)?;
    asks_server(world, sender)?;
    asks_faulty(world, server)?;
    let execution = world.server(sender).execution(id).ok_or(Answer::Unknown)?;
    ensure(!has(execution.called, server), Answer::Recall)?;
    ensure(call(world, server, sender, id, digest, mistake), Answer::WrongDigest)?;
    Ok(Answer::Done)
}

/// Leaves with an answer unless something holds.
fn ensure(holds: bool, otherwise: Answer) -> Result<(), Answer> {
    if holds {
        Ok(())
    } else {
        Err(otherwise)
    }
}

/// The server must be one of this world.
fn asks_server(world: &World, server: u8) -> Result<(), Answer> {
    ensure(server < world.n, Answer::BadServer)
}

/// The server must be one of this world, and correct.
fn asks_correct(world: &World, server: u8) -> Result<(), Answer> {
    asks_server(world, server)?;
    ensure(!has(world.faulty, server), Answer::WrongSide)
}

/// The server must be one of this world, and faulty.
fn asks_faulty(world: &World, server: u8) -> Result<(), Answer> {
    asks_server(world, server)?;
    ensure(has(world.faulty, server), Answer::WrongSide)
}

/// The slot must have been given.
fn asks_slot(world: &World, slot: u8) -> Result<(), Answer> {
    ensure(world.is_slot_given(slot), Answer::NoSuch)
}

/// The server must be correct, and its hold must have an entry at this place and stage.
fn asks_entry(world: &World, server: u8, place: u8, stage: u8) -> Result<Entry, Answer> {
    asks_correct(world, server)?;
    let entry = *world.server(server).hold.get(usize::from(place)).ok_or(Answer::NoSuch)?;
    ensure(entry.stage == stage, Answer::NoSuch)?;
    Ok(entry)
}

/// The hold place that a new entry takes.
fn free_hold_place(world: &World, server: u8) -> Result<usize, Answer> {
    lowest_free(&world.server(server).hold).ok_or(Answer::NoRoom)
}

/// Frees a hold place.
fn free_entry(world: &mut World, server: u8, place: u8) -> Outcome {
    world.server_mut(server).hold[usize::from(place)] = Entry::ZEROS;
    Ok(Answer::Dropped)
}

/// Whether a server holds an entry of equal sender, id and slot, at any stage.
fn holds(world: &World, server: u8, sending: &Sending) -> bool {
    world.server(server).hold.iter().any(|entry| !entry.is_free() && entry.sending == *sending)
}

/// Puts one packet for each recipient, ascending, into the origin's lowest free places, or none if one lacks room.
fn send(world: &mut World, origin: u8, sending: Sending, recipients: Mask, mistake: Mistake) -> Result<(), Answer> {
    let origin = if mistake == Mistake::ClaimedSenderIsOrigin { sending.sender } else { origin };
    let outgoing = &mut world.server_mut(origin).outgoing;
    let needed = recipients.count_ones() as usize;
    let room = outgoing.iter().filter(|packet| packet.is_free()).take(needed).count();
    ensure(room == needed, Answer::NoRoom)?;
    let free = outgoing.iter_mut().filter(|packet| packet.is_free());
    for (place, to) in free.zip(members(recipients)) {
        *place = Packet::fresh(to, sending);
    }
    Ok(())
}

/// The orderer takes a sender's send; the key is new and the quota not used up.
fn make_execution(world: &mut World, sender: u8, id: u16, digest: Digest) {
    world.server_mut(sender).executions.append(Execution::fresh(sender, id, digest));
    number_if_due(world, sender, id);
}

/// The orderer takes a first call for an execution that exists; a wrong digest is told and leaves no trace.
fn call(world: &mut World, server: u8, sender: u8, id: u16, digest: &Digest, mistake: Mistake) -> bool {
    let execution = execution_mut(world, sender, id);
    if execution.digest != *digest {
        if mistake == Mistake::WrongDigestRecorded {
            execution.called |= bit(server);
        }
        return false;
    }
    execution.called |= bit(server);
    if !execution.is_numbered() || mistake == Mistake::MaskGrows {
        execution.mask |= bit(server);
    }
    number_if_due(world, sender, id);
    true
}

/// The orderer gives the next number to an unnumbered execution whose mask has T members.
fn number_if_due(world: &mut World, sender: u8, id: u16) {
    let threshold = world.threshold().into();
    let next = world.numbered + 1;
    let execution = execution_mut(world, sender, id);
    if !execution.is_numbered() && execution.mask.count_ones() == threshold {
        execution.number = next;
        world.numbered = next;
    }
}

/// The execution of a key that exists, to change.
fn execution_mut(world: &mut World, sender: u8, id: u16) -> &mut Execution {
    let executions = world.server_mut(sender).executions.stored_mut();
    executions.iter_mut().find(|execution| execution.id == id).expect("the execution exists")
}
