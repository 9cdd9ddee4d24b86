//! Document 01's paragraph on sound worlds, clause by clause, no more and no less.

use crate::sha256;
use crate::world::{bit, has, Entry, Execution, Packet, Place, Sending, Server, World, Zeros};

/// A clause: its name, and whether it holds of a world in which all clauses before it hold.
type Clause = (&'static str, fn(&World) -> bool);

/// The clauses, those first that make the later ones readable.
const CLAUSES: [Clause; 20] = [
    ("n and mask as 25 asks", start_is_admissible),
    ("every count within its size", counts_are_within_size),
    ("all that belongs to servers at n or above is zeros", absent_servers_are_zeros),
    ("free and unused places all zeros", free_places_are_zeros),
    ("no stage above three", stages_are_known),
    ("every server below n", servers_are_present),
    ("every slot that of a stored request", slots_are_given),
    ("no mask with a bit at n or above", masks_are_present),
    ("seals of stored requests have no bit at n or above", seals_are_present),
    ("stored digests are those of their requests", digests_are_true),
    ("stored digests differ from each other", digests_differ),
    ("execution keys differ", keys_differ),
    ("each mask lies within the servers that called, the sender in both", masks_lie_within_calls),
    ("an execution is numbered exactly when its mask has T members", numbered_at_threshold),
    ("a correct server's executions have ids 1, 2, 3 without gaps", correct_ids_have_no_gaps),
    ("the numbers given are 1 to M, each once", numbers_are_one_to_m),
    ("a held entry past its first stage names an execution in the table", later_entries_name_executions),
    ("an entry has a number exactly at stage three", numbers_are_at_stage_three),
    ("an entry's number is from 1 to M", entry_numbers_are_given),
    ("a server's delivered count is at most M", delivered_at_most_m),
];

/// Whether a world is sound.
pub fn is_sound(world: &World) -> bool {
    broken_clause(world).is_none()
}

/// The names of the clauses.
pub fn clauses() -> impl Iterator<Item = &'static str> {
    CLAUSES.iter().map(|(name, _)| *name)
}

/// The first clause that does not hold.
pub fn broken_clause(world: &World) -> Option<&'static str> {
    CLAUSES.iter().find(|(_, holds)| !holds(world)).map(|(name, _)| *name)
}

/// The start that this world could have come from is one that 25 lets pass.
fn start_is_admissible(world: &World) -> bool {
    World::may_start(world.n, world.faulty)
}

/// No list tells of more than its places, and M is no more than all quotas together.
fn counts_are_within_size(world: &World) -> bool {
    usize::from(world.numbered) <= World::NUMBERS
        && world.requests.is_within_size()
        && world.servers.iter().all(|s| s.executions.is_within_size() && s.delivered.is_within_size())
}

/// Whoever is not in this world has nothing, knows nothing and sends nothing.
fn absent_servers_are_zeros(world: &World) -> bool {
    world.servers[world.n.into()..].iter().all(|server| *server == Server::ZEROS)
}

/// Nothing is left of what a place had before, and nothing is ahead of what it will have.
fn free_places_are_zeros(world: &World) -> bool {
    all_zeros(world.requests.unused())
        && world.present().iter().all(|server| {
            all_zeros(server.executions.unused())
                && all_zeros(server.delivered.unused())
                && free_are_zeros(&server.outgoing)
                && free_are_zeros(&server.hold)
        })
}

/// Stages are 0 for free, and one to three.
fn stages_are_known(world: &World) -> bool {
    entries(world).all(|entry| entry.stage <= Entry::THREE)
}

/// Recipients, claimed senders and senders of delivered items are servers of this world.
fn servers_are_present(world: &World) -> bool {
    packets(world).all(|packet| packet.to < world.n) && sendings(world).all(|sending| sending.sender < world.n)
}

/// Packets, entries and delivered items name requests that are stored.
fn slots_are_given(world: &World) -> bool {
    sendings(world).all(|sending| world.is_slot_given(sending.slot))
}

/// Only servers of this world have called or proposed.
fn masks_are_present(world: &World) -> bool {
    executions(world).all(|(_, execution)| (execution.called | execution.mask) & !world.all() == 0)
}

/// Clients seal for servers of this world only.
fn seals_are_present(world: &World) -> bool {
    world.requests.stored().iter().all(|request| request.seals() & !world.all() == 0)
}

/// Each stored digest is computed again.
fn digests_are_true(world: &World) -> bool {
    world.requests.stored().iter().all(|request| request.digest == sha256::digest(&request.body))
}

/// A digest names one slot.
fn digests_differ(world: &World) -> bool {
    all_differ(world.requests.stored(), |request| &request.digest)
}

/// A sender has no id twice.
fn keys_differ(world: &World) -> bool {
    world.present().iter().all(|server| all_differ(server.executions.stored(), |execution| &execution.id))
}

/// Who proposed has called, the sender first of all.
fn masks_lie_within_calls(world: &World) -> bool {
    executions(world).all(|(sender, execution)| {
        execution.mask & !execution.called == 0 && execution.mask & execution.called & bit(sender) != 0
    })
}

/// A mask of more than T members has no number either.
fn numbered_at_threshold(world: &World) -> bool {
    let threshold = world.threshold().into();
    executions(world).all(|(_, execution)| execution.is_numbered() == (execution.mask.count_ones() == threshold))
}

/// The ids are 1, 2, 3 in the order of the table.
fn correct_ids_have_no_gaps(world: &World) -> bool {
    (0..world.n).filter(|server| !has(world.faulty, *server)).all(|server| {
        world.server(server).executions.stored().iter().zip(1..).all(|(execution, id)| execution.id == id)
    })
}

/// Every number up to M is given to one execution, and none beyond.
fn numbers_are_one_to_m(world: &World) -> bool {
    let mut given = [0; World::NUMBERS + 1];
    for (_, execution) in executions(world).filter(|(_, execution)| execution.is_numbered()) {
        match given.get_mut(usize::from(execution.number)) {
            Some(times) => *times += 1,
            None => return false,
        }
    }
    let (within, beyond) = given[1..].split_at(world.numbered.into());
    within.iter().all(|times| *times == 1) && beyond.iter().all(|times| *times == 0)
}

/// From stage two on, the orderer knows the key of an entry.
fn later_entries_name_executions(world: &World) -> bool {
    entries(world).filter(|entry| entry.stage > Entry::ONE).all(|entry| world.execution(&entry.sending).is_some())
}

/// Number 0 is none.
fn numbers_are_at_stage_three(world: &World) -> bool {
    entries(world).all(|entry| (entry.number != 0) == (entry.stage == Entry::THREE))
}

/// The number need not be that of the entry's own execution.
fn entry_numbers_are_given(world: &World) -> bool {
    entries(world).all(|entry| entry.number <= world.numbered)
}

/// No server is ahead of the orderer; its next number follows from its count.
fn delivered_at_most_m(world: &World) -> bool {
    world.present().iter().all(|server| server.delivered.count <= world.numbered.into())
}

/// Whether all places are zeros.
fn all_zeros<T: Zeros>(places: &[T]) -> bool {
    places.iter().all(|place| *place == T::ZEROS)
}

/// Whether all free places are zeros.
fn free_are_zeros<T: Place>(places: &[T]) -> bool {
    places.iter().all(|place| !place.is_free() || *place == T::ZEROS)
}

/// Whether no two of these have the same key.
fn all_differ<T, K: PartialEq>(list: &[T], key: impl Fn(&T) -> &K) -> bool {
    list.iter().enumerate().all(|(place, later)| list[..place].iter().all(|earlier| key(earlier) != key(later)))
}

/// Every packet under way.
fn packets(world: &World) -> impl Iterator<Item = &Packet> {
    world.present().iter().flat_map(|server| &server.outgoing).filter(|packet| packet.used)
}

/// Every entry held.
fn entries(world: &World) -> impl Iterator<Item = &Entry> {
    world.present().iter().flat_map(|server| &server.hold).filter(|entry| !entry.is_free())
}

/// Every execution, with its sender.
fn executions(world: &World) -> impl Iterator<Item = (u8, &Execution)> {
    (0..)
        .zip(world.present())
        .flat_map(|(sender, server)| server.executions.stored().iter().map(move |execution| (sender, execution)))
}

/// What every packet, entry and delivered item names.
fn sendings(world: &World) -> impl Iterator<Item = &Sending> {
    let delivered = world.present().iter().flat_map(|server| server.delivered.stored());
    packets(world).map(|packet| &packet.sending).chain(entries(world).map(|entry| &entry.sending)).chain(delivered)
}
