//! Breadth first from a fresh world, step by step.
//!
//! Tried are: a few requests, before anything else and in one order; one multicast and one forged send a server; a
//! forged packet of each sender's first sending, with each slot, to each correct server, arriving at once; a liar's
//! call with the right digest; and every arrival, propose, settle and deliver that is due. Where quiet is asked for,
//! all that is due is done behind each world, and the schedule found is one with the fewest steps before that. Worlds
//! that differ in nothing but the places of packets and entries count as one.

use std::collections::HashSet;

use second::claims::History;
use second::schedule::{write_step, START};
use second::sha256::Digest;
use second::steps::{self, Step};
use second::world::{bit, has, members, Mask, Request, Sending, World};

use super::{due, Hunt, Seen, Wish};

/// What a search came to.
pub enum Found {
    Schedule(Vec<u8>),
    /// Everything was tried; so many worlds.
    Nothing(usize),
    /// The most worlds were reached at this depth.
    TooMany(usize),
}

/// How a world was reached: from which other one, by which step.
struct Node {
    parent: usize,
    step: Step,
    depth: usize,
}

/// The worlds that were reached, and the shortest schedule so far.
struct Search<'a> {
    hunt: &'a Hunt,
    nodes: Vec<Option<Node>>,
    seen: HashSet<u128>,
    best: Option<Vec<u8>>,
}

/// Searches up to so many worlds.
pub fn search(hunt: &Hunt, most: usize) -> Found {
    let seen = HashSet::from([fingerprint(&World::fresh(hunt.n, hunt.faulty))]);
    let mut search = Search { hunt, nodes: vec![None], seen, best: None };
    let (mut at, mut depth) = (0, 0);
    while at < search.nodes.len() {
        let deeper = search.nodes[at].as_ref().map_or(0, |node| node.depth) + 1;
        if let Some(best) = search.best.take_if(|_| deeper > depth) {
            return Found::Schedule(best);
        }
        depth = deeper;
        search.expand(at, depth);
        if search.nodes.len() > most {
            return search.best.map_or(Found::TooMany(depth), Found::Schedule);
        }
        at += 1;
    }
    search.best.map_or(Found::Nothing(search.nodes.len()), Found::Schedule)
}

impl Search<'_> {
    /// Tries every step from a node.
    fn expand(&mut self, at: usize, depth: usize) {
        let (world, history) = replay(self.hunt, &self.nodes, at);
        for step in tried(self.hunt, &world) {
            let (mut after, mut history) = (world.clone(), history.clone());
            let answer = steps::apply(&mut after, &step, self.hunt.mistake);
            match self.hunt.look(answer.code(), &mut history, &after) {
                Seen::Met => self.note(at, &[step]),
                Seen::Open if answer.changes() && self.seen.insert(fingerprint(&after)) => {
                    self.nodes.push(Some(Node { parent: at, step, depth }));
                    if let Some(rest) = self.finish(after, history) {
                        self.note(at, &[&[step][..], &rest].concat());
                    }
                }
                Seen::Open | Seen::Closed => {}
            }
        }
    }

    /// What is due behind a world, if quiet is asked for and the wish is met by it.
    fn finish(&self, world: World, history: History) -> Option<Vec<Step>> {
        if self.hunt.asks_quiet() {
            self.hunt.finish(world, history)
        } else {
            None
        }
    }

    /// Keeps the schedule to a node and some steps more, if it is the shortest so far.
    fn note(&mut self, at: usize, more: &[Step]) {
        let mut schedule = vec![START, self.hunt.n, self.hunt.faulty];
        path(&self.nodes, at).iter().chain(more).for_each(|step| write_step(&mut schedule, step));
        if self.best.as_ref().is_none_or(|best| schedule.len() < best.len()) {
            self.best = Some(schedule);
        }
    }
}

/// The steps from the fresh world to a node.
fn path(nodes: &[Option<Node>], mut at: usize) -> Vec<Step> {
    let mut steps = Vec::new();
    while let Some(node) = &nodes[at] {
        steps.push(node.step);
        at = node.parent;
    }
    steps.reverse();
    steps
}

/// The world of a node, and what was seen on the way.
fn replay(hunt: &Hunt, nodes: &[Option<Node>], at: usize) -> (World, History) {
    let (mut world, mut history) = (World::fresh(hunt.n, hunt.faulty), History::default());
    for step in path(nodes, at) {
        let answer = steps::apply(&mut world, &step, hunt.mistake);
        hunt.look(answer.code(), &mut history, &world);
    }
    (world, history)
}

/// The steps tried in a world; a liar's packet arrives at once, since nothing is gained by its lying about.
fn tried(hunt: &Hunt, world: &World) -> Vec<Step> {
    let is_lie = |step: &Step| matches!(step, Step::Arrive { origin, .. } if has(world.faulty, *origin));
    if let Some(arrival) = due::arrivals(world).find(is_lie) {
        return vec![arrival];
    }
    let mut steps = requests(world);
    steps.extend(due::arrivals(world));
    steps.extend(due::entries(world));
    multicasts(world, &mut steps);
    lies(world, &mut steps);
    if let Wish::Answer(_) = hunt.wish {
        probes(world, &mut steps);
    }
    steps
}

/// The requests that can come: two with every seal, and one for each correct server without its seal.
fn menu(world: &World) -> Vec<Step> {
    let without = members(world.correct()).map(|server| world.all() & !bit(server));
    let seals: Vec<Mask> = [world.all(), world.all()].into_iter().chain(without).collect();
    (1..).zip(seals).map(|(number, seals)| request(number, seals)).collect()
}

/// A request by its number and seals.
fn request(number: u8, seals: Mask) -> Step {
    let mut body = [0; Request::BODY];
    body[Request::SEALS - 1] = number;
    body[Request::SEALS] = seals;
    Step::Request { body }
}

/// The requests behind the last one, as long as nothing else has happened.
fn requests(world: &World) -> Vec<Step> {
    let is_begun = world.present().iter().any(|server| server.executions.count > 0);
    let last = world.requests.stored().last().map_or(0, |request| request.body[Request::SEALS - 1]);
    if is_begun {
        return Vec::new();
    }
    menu(world).split_off(usize::from(last))
}

/// Every correct server that has sent nothing sends each request.
fn multicasts(world: &World, steps: &mut Vec<Step>) {
    let idle = members(world.correct()).filter(|server| world.server(*server).executions.count == 0);
    idle.for_each(|server| steps.extend(slots(world).map(|slot| Step::Multicast { server, slot })));
}

/// What the liars can do.
fn lies(world: &World, steps: &mut Vec<Step>) {
    for liar in members(world.faulty) {
        if world.server(liar).executions.count == 0 {
            let send = |slot| Step::ForgeSend { server: liar, id: 1, digest: digest(world, slot) };
            steps.extend(slots(world).map(send));
        }
        for sender in members(world.all()) {
            for execution in world.server(sender).executions.stored().iter().filter(|e| !has(e.called, liar)) {
                let (id, digest) = (execution.id, execution.digest);
                steps.push(Step::ForgeReceive { server: liar, sender, id, digest });
            }
            for (to, slot) in members(world.correct()).flat_map(|to| slots(world).map(move |slot| (to, slot))) {
                let sending = Sending { sender, id: 1, slot };
                if !is_known(world, to, &sending) {
                    steps.push(Step::ForgePacket { from: liar, to, sending });
                }
            }
        }
    }
}

/// Whether a server holds a sending, or a packet with it is on its way there.
fn is_known(world: &World, to: u8, sending: &Sending) -> bool {
    let held = world.server(to).hold.iter().any(|entry| entry.stage != 0 && entry.sending == *sending);
    let coming = |packet: &second::world::Packet| packet.used && packet.to == to && packet.sending == *sending;
    held || world.present().iter().flat_map(|origin| &origin.outgoing).any(coming)
}

/// Steps that change nothing, for the sake of their answers.
fn probes(world: &World, steps: &mut Vec<Step>) {
    let none: Digest = [0; 32];
    steps.push(Step::Deliver { server: world.n });
    steps.push(request(1, Mask::MAX));
    steps.extend(world.requests.stored().iter().map(|request| Step::Request { body: request.body }));
    for server in members(world.all()) {
        steps.push(Step::Deliver { server });
        steps.push(Step::Propose { server, place: 0 });
        steps.push(Step::Settle { server, place: 0 });
        steps.extend(slots(world).map(|slot| Step::Multicast { server, slot }));
        steps.push(Step::ForgeSend { server, id: 1, digest: none });
        let calls = members(world.all()).map(|sender| Step::ForgeReceive { server, sender, id: 1, digest: none });
        steps.extend(calls);
    }
}

/// The slots that are given.
fn slots(world: &World) -> impl Iterator<Item = u8> {
    0..world.requests.count as u8
}

/// The digest of a given slot.
fn digest(world: &World, slot: u8) -> Digest {
    world.request(slot).digest
}

/// A number for a world; places of packets and entries do not count.
fn fingerprint(world: &World) -> u128 {
    let mut sum = fold(world.requests.stored().iter().map(|request| first(&request.digest)), 1);
    for (server, own) in (0u64..).zip(world.present()) {
        let executions = own.executions.stored().iter().flat_map(|execution| {
            let masks = u64::from(execution.called) << 8 | u64::from(execution.mask);
            [u64::from(execution.id) << 32 | u64::from(execution.number) << 16 | masks, first(&execution.digest)]
        });
        let delivered = own.delivered.stored().iter().map(key);
        sum = sum.wrapping_add(fold(executions, 2 + 8 * server)).wrapping_add(fold(delivered, 3 + 8 * server));
        for packet in own.outgoing.iter().filter(|packet| packet.used) {
            sum = sum.wrapping_add(fold([u64::from(packet.to), key(&packet.sending)], 4 + 8 * server));
        }
        for entry in own.hold.iter().filter(|entry| entry.stage != 0) {
            let stage = u64::from(entry.stage) << 8 | u64::from(entry.number);
            sum = sum.wrapping_add(fold([stage, key(&entry.sending)], 5 + 8 * server));
        }
    }
    sum
}

/// A sending as a number.
fn key(sending: &Sending) -> u64 {
    u64::from(sending.sender) << 32 | u64::from(sending.id) << 8 | u64::from(sending.slot)
}

/// The first bytes of a digest as a number.
fn first(digest: &Digest) -> u64 {
    digest[..8].iter().fold(0, |number, byte| number << 8 | u64::from(*byte))
}

/// Numbers in their order, mixed into one.
fn fold(numbers: impl IntoIterator<Item = u64>, tag: u64) -> u128 {
    const ODD: u128 = 0x9e37_79b9_7f4a_7c15_f39c_c060_5ced_c835;
    numbers.into_iter().chain([tag]).fold(u128::from(tag) + 1, |mixed, number| {
        let next = (mixed ^ u128::from(number)).wrapping_mul(ODD);
        next ^ (next >> 61)
    })
}
