//! A world that passed the boundary as the second implementation has it, so that both can be asked about one world.

use bridge::world::{Delivered, Entry, Execution, Executions, Packet, Request, Requests, Sending, World};
use second::world as other;
use second::world::List;

/// The same world in the second implementation's types; none where a number is larger than they hold, as in no sound
/// world.
pub fn to_second(world: &World) -> Option<other::World> {
    let mut servers = [<other::Server as other::Zeros>::ZEROS; other::World::SERVERS];
    for (place, server) in servers.iter_mut().enumerate() {
        *server = other::Server {
            executions: executions(&world.executions[place])?,
            outgoing: world.outgoing[place].places.map(packet),
            hold: all(&world.holds[place].places, entry)?,
            delivered: delivered(&world.delivered[place]),
        };
    }
    Some(other::World {
        n: world.roster.n,
        faulty: world.roster.faulty,
        numbered: world.numbered.try_into().ok()?,
        requests: requests(&world.requests),
        servers,
    })
}

/// The stored requests.
fn requests(requests: &Requests) -> List<other::Request, { other::Request::SLOTS }> {
    List { count: requests.count.into(), places: requests.slots.map(request) }
}

/// A request: its 30 bytes as its record has them, and the digest.
fn request(request: Request) -> other::Request {
    let mut body = [0; other::Request::BODY];
    body[0] = request.client;
    body[1..5].copy_from_slice(&request.serial.to_be_bytes());
    body[5] = request.seals;
    body[6..].copy_from_slice(&request.command);
    other::Request { body, digest: request.digest }
}

/// The executions of one sender.
fn executions(executions: &Executions) -> Option<List<other::Execution, { other::Execution::QUOTA }>> {
    Some(List { count: executions.count.into(), places: all(&executions.table, execution)? })
}

/// An execution.
fn execution(execution: &Execution) -> Option<other::Execution> {
    let Execution { number, id, called, mask, digest } = *execution;
    Some(other::Execution { id, digest, called, mask, number: number.try_into().ok()? })
}

/// A packet, or none.
fn packet(packet: Packet) -> other::Packet {
    other::Packet { used: packet.there, to: packet.to, sending: sending(packet.sending) }
}

/// An entry, or none.
fn entry(entry: &Entry) -> Option<other::Entry> {
    let Entry { number, sending: named, stage } = *entry;
    Some(other::Entry { stage, number: number.try_into().ok()?, sending: sending(named) })
}

/// What one server has delivered.
fn delivered(delivered: &Delivered) -> List<other::Sending, { other::World::NUMBERS }> {
    List { count: delivered.count as usize, places: delivered.items.map(sending) }
}

/// A sending.
fn sending(sending: Sending) -> other::Sending {
    let Sending { id, sender, slot } = sending;
    other::Sending { sender, id, slot }
}

/// Each place translated, if all can be.
fn all<T, U: other::Zeros, const SIZE: usize>(places: &[T; SIZE], one: impl Fn(&T) -> Option<U>) -> Option<[U; SIZE]> {
    let mut translated = [U::ZEROS; SIZE];
    for (to, from) in translated.iter_mut().zip(places) {
        *to = one(from)?;
    }
    Some(translated)
}
