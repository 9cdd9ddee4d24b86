//! The steps of correct servers that are due in a world.

use second::quiet::is_ready;
use second::steps::Step;
use second::world::{has, members, Entry, World};

/// Every packet for a correct server arrives.
pub fn arrivals(world: &World) -> impl Iterator<Item = Step> + '_ {
    members(world.all()).flat_map(move |origin| {
        let places = (0..).zip(&world.server(origin).outgoing);
        let due = places.filter(|(_, packet)| packet.used && has(world.correct(), packet.to));
        due.map(move |(place, _)| Step::Arrive { origin, place })
    })
}

/// Every entry that is due moves on.
pub fn entries(world: &World) -> impl Iterator<Item = Step> + '_ {
    members(world.correct()).flat_map(move |server| {
        let due = (0..).zip(&world.server(server).hold).filter(move |(_, entry)| is_ready(world, server, entry));
        due.map(move |(place, entry)| match entry.stage {
            Entry::ONE => Step::Propose { server, place },
            Entry::TWO => Step::Settle { server, place },
            _ => Step::Deliver { server },
        })
    })
}

/// One of them: an entry's before an arrival.
pub fn next(world: &World) -> Option<Step> {
    entries(world).next().or_else(|| arrivals(world).next())
}
