//! The world: the servers with what belongs to each, the stored requests, and the count of numbers given.

use std::fmt;

use crate::sha256::Digest;

/// A set of servers: bit i is server i.
pub type Mask = u8;

/// The mask with one server in it.
pub fn bit(server: u8) -> Mask {
    1 << server
}

/// Whether a server is in a mask.
pub fn has(mask: Mask, server: u8) -> bool {
    mask & bit(server) != 0
}

/// The servers in a mask, ascending.
pub fn members(mask: Mask) -> impl Iterator<Item = u8> {
    (0..World::SERVERS as u8).filter(move |server| has(mask, *server))
}

/// A value with an all-zeros form, which is what every free or unused place has.
pub trait Zeros: Copy + PartialEq {
    const ZEROS: Self;
}

/// A list that fills from the front; the places from `count` on are unused.
#[derive(Clone, Copy, PartialEq, Eq, Debug)]
pub struct List<T, const SIZE: usize> {
    pub count: usize,
    pub places: [T; SIZE],
}

impl<T: Zeros, const SIZE: usize> Zeros for List<T, SIZE> {
    const ZEROS: Self = List { count: 0, places: [T::ZEROS; SIZE] };
}

impl<T: Zeros, const SIZE: usize> List<T, SIZE> {
    /// Whether the count is one the list can have.
    pub fn is_within_size(&self) -> bool {
        self.count <= SIZE
    }

    /// Whether no place is left.
    pub fn is_full(&self) -> bool {
        self.count >= SIZE
    }

    /// What is in the list.
    pub fn stored(&self) -> &[T] {
        &self.places[..self.count]
    }

    /// What is in the list, to change.
    pub fn stored_mut(&mut self) -> &mut [T] {
        &mut self.places[..self.count]
    }

    /// The places not used.
    pub fn unused(&self) -> &[T] {
        &self.places[self.count..]
    }

    /// Puts a value at the end; the list must not be full.
    pub fn append(&mut self, value: T) {
        self.places[self.count] = value;
        self.count += 1;
    }
}

/// A place that is free or taken.
pub trait Place: Zeros {
    /// Whether nothing is kept here.
    fn is_free(&self) -> bool;
}

/// The lowest free place.
pub fn lowest_free(places: &[impl Place]) -> Option<usize> {
    places.iter().position(Place::is_free)
}

/// A client's request as its 30 bytes, and their digest.
#[derive(Clone, Copy, PartialEq, Eq, Debug)]
pub struct Request {
    pub body: [u8; Request::BODY],
    pub digest: Digest,
}

impl Request {
    /// How many requests a world stores.
    pub const SLOTS: usize = 128;
    /// Client, number, seals and command.
    pub const BODY: usize = 30;
    /// Where the seals are in the body.
    pub const SEALS: usize = 5;

    /// The servers at which the client's seal is good.
    pub fn seals(&self) -> Mask {
        self.body[Request::SEALS]
    }
}

impl Zeros for Request {
    const ZEROS: Self = Request { body: [0; Request::BODY], digest: [0; 32] };
}

/// Whose sending it is, by its key (sender and id), and the slot of what is sent.
#[derive(Clone, Copy, PartialEq, Eq, Debug)]
pub struct Sending {
    pub sender: u8,
    pub id: u16,
    pub slot: u8,
}

impl fmt::Display for Sending {
    /// SENDER.ID.SLOT, as in the listing.
    fn fmt(&self, text: &mut fmt::Formatter) -> fmt::Result {
        write!(text, "{}.{}.{}", self.sender, self.id, self.slot)
    }
}

impl Zeros for Sending {
    const ZEROS: Self = Sending { sender: 0, id: 0, slot: 0 };
}

/// What the orderer keeps for one key; the sender is the server whose table it stands in, number 0 is none.
#[derive(Clone, Copy, PartialEq, Eq, Debug)]
pub struct Execution {
    pub id: u16,
    pub digest: Digest,
    pub called: Mask,
    pub mask: Mask,
    pub number: u8,
}

impl Execution {
    /// How many executions a sender has in a run.
    pub const QUOTA: usize = 16;

    /// A new execution: its sender has called and proposed.
    pub fn fresh(sender: u8, id: u16, digest: Digest) -> Execution {
        Execution { id, digest, called: bit(sender), mask: bit(sender), number: 0 }
    }

    /// Whether it has a number.
    pub fn is_numbered(&self) -> bool {
        self.number != 0
    }
}

impl Zeros for Execution {
    const ZEROS: Self = Execution { id: 0, digest: [0; 32], called: 0, mask: 0, number: 0 };
}

/// A packet under way to a server; the sender in it is a claim.
#[derive(Clone, Copy, PartialEq, Eq, Debug)]
pub struct Packet {
    pub used: bool,
    pub to: u8,
    pub sending: Sending,
}

impl Packet {
    /// How many outgoing places an origin has.
    pub const PLACES: usize = 64;

    /// A packet under way.
    pub fn fresh(to: u8, sending: Sending) -> Packet {
        Packet { used: true, to, sending }
    }
}

impl Zeros for Packet {
    const ZEROS: Self = Packet { used: false, to: 0, sending: Sending::ZEROS };
}

impl Place for Packet {
    fn is_free(&self) -> bool {
        !self.used
    }
}

/// An entry of a server's hold: stage one to three (0 is free), and its number at stage three.
#[derive(Clone, Copy, PartialEq, Eq, Debug)]
pub struct Entry {
    pub stage: u8,
    pub number: u8,
    pub sending: Sending,
}

impl Entry {
    /// How many hold places a server has.
    pub const PLACES: usize = 64;
    /// Arrived.
    pub const ONE: u8 = 1;
    /// Waiting for its execution's number.
    pub const TWO: u8 = 2;
    /// Waiting for its turn.
    pub const THREE: u8 = 3;

    /// A new entry at stage one or two.
    pub fn fresh(stage: u8, sending: Sending) -> Entry {
        Entry { stage, number: 0, sending }
    }
}

impl Zeros for Entry {
    const ZEROS: Self = Entry { stage: 0, number: 0, sending: Sending::ZEROS };
}

impl Place for Entry {
    fn is_free(&self) -> bool {
        self.stage == 0
    }
}

/// All that belongs to one server; its executions are the orderer's, kept by sender.
#[derive(Clone, Copy, PartialEq, Eq, Debug)]
pub struct Server {
    pub executions: List<Execution, { Execution::QUOTA }>,
    pub outgoing: [Packet; Packet::PLACES],
    pub hold: [Entry; Entry::PLACES],
    pub delivered: List<Sending, { World::NUMBERS }>,
}

impl Server {
    /// The number this server delivers next.
    pub fn next_number(&self) -> usize {
        self.delivered.count + 1
    }

    /// The execution of this sender with an id.
    pub fn execution(&self, id: u16) -> Option<&Execution> {
        self.executions.stored().iter().find(|execution| execution.id == id)
    }
}

impl Zeros for Server {
    const ZEROS: Self = Server {
        executions: List::ZEROS,
        outgoing: [Packet::ZEROS; Packet::PLACES],
        hold: [Entry::ZEROS; Entry::PLACES],
        delivered: List::ZEROS,
    };
}

/// The whole world between two steps; `numbered` is M, the count of numbers given.
#[derive(Clone, PartialEq, Eq, Debug)]
pub struct World {
    pub n: u8,
    pub faulty: Mask,
    pub numbered: u8,
    pub requests: List<Request, { Request::SLOTS }>,
    pub servers: [Server; World::SERVERS],
}

impl World {
    /// The most servers a world has.
    pub const SERVERS: usize = 8;
    /// The most numbers a run gives: one for each execution.
    pub const NUMBERS: usize = World::SERVERS * Execution::QUOTA;

    /// A world before its first step.
    pub fn fresh(n: u8, faulty: Mask) -> World {
        World { n, faulty, numbered: 0, requests: List::ZEROS, servers: [Server::ZEROS; World::SERVERS] }
    }

    /// Whether a world may start with these: n from 1 to 8, liars below n, at most f of them.
    pub fn may_start(n: u8, faulty: Mask) -> bool {
        (1..=World::SERVERS as u8).contains(&n)
            && faulty & !all_servers(n) == 0
            && faulty.count_ones() <= most_liars(n).into()
    }

    /// The most liars the protocol bears.
    pub fn f(&self) -> u8 {
        most_liars(self.n)
    }

    /// How many proposers an execution needs for its number.
    pub fn threshold(&self) -> u8 {
        self.f() + 1
    }

    /// The servers of this world.
    pub fn all(&self) -> Mask {
        all_servers(self.n)
    }

    /// The servers of this world that keep to the protocol.
    pub fn correct(&self) -> Mask {
        self.all() & !self.faulty
    }

    /// One server.
    pub fn server(&self, server: u8) -> &Server {
        &self.servers[usize::from(server)]
    }

    /// One server, to change.
    pub fn server_mut(&mut self, server: u8) -> &mut Server {
        &mut self.servers[usize::from(server)]
    }

    /// The servers below n.
    pub fn present(&self) -> &[Server] {
        &self.servers[..self.n.into()]
    }

    /// Whether a slot is that of a stored request.
    pub fn is_slot_given(&self, slot: u8) -> bool {
        usize::from(slot) < self.requests.count
    }

    /// The request of a given slot.
    pub fn request(&self, slot: u8) -> &Request {
        &self.requests.stored()[usize::from(slot)]
    }

    /// Whether a request's seal is good at a server.
    pub fn is_sealed(&self, slot: u8, server: u8) -> bool {
        has(self.request(slot).seals(), server)
    }

    /// The execution that a sending names by its key.
    pub fn execution(&self, sending: &Sending) -> Option<&Execution> {
        self.server(sending.sender).execution(sending.id)
    }
}

/// The mask of the servers below n, for n from 1 to 8.
fn all_servers(n: u8) -> Mask {
    Mask::MAX >> (World::SERVERS as u8 - n)
}

/// f for n servers, n at least 1.
fn most_liars(n: u8) -> u8 {
    (n - 1) / 2
}
