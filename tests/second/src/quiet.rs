//! When a world is quiet: nothing that concerns a correct server can still happen by itself.

use crate::world::{has, members, Entry, World};

/// Whether no packet is under way to a correct server and no correct server has an entry that is ready.
pub fn is_quiet(world: &World) -> bool {
    !is_packet_under_way(world) && !is_entry_ready(world)
}

/// Whether an entry's next step has what it waits for, even if that step would answer 9.
pub fn is_ready(world: &World, server: u8, entry: &Entry) -> bool {
    match entry.stage {
        Entry::ONE => world.execution(&entry.sending).is_some(),
        Entry::TWO => world.execution(&entry.sending).is_some_and(|execution| execution.is_numbered()),
        Entry::THREE => usize::from(entry.number) == world.server(server).next_number(),
        _ => false,
    }
}

/// Whether some outgoing place, a faulty origin's too, has a packet for a correct server.
fn is_packet_under_way(world: &World) -> bool {
    let correct = world.correct();
    world.present().iter().flat_map(|origin| &origin.outgoing).any(|packet| packet.used && has(correct, packet.to))
}

/// Whether some correct server has a ready entry.
fn is_entry_ready(world: &World) -> bool {
    members(world.correct()).any(|server| world.server(server).hold.iter().any(|entry| is_ready(world, server, entry)))
}
