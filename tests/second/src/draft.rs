//! A schedule in the making: it keeps the world that its steps lead to, so that the next step can be chosen well.

use crate::quiet;
use crate::random::Random;
use crate::schedule::{self, START};
use crate::sha256::{self, Digest};
use crate::steps::{self, Answer, Mistake, Step};
use crate::world::{bit, has, members, Entry, Mask, Packet, Request, Sending, World};

/// What a draft does next, of one sort.
#[derive(Clone, Copy, PartialEq, Eq, Debug)]
pub enum Action {
    Request,
    Multicast,
    Arrive,
    Move,
    ForgePacket,
    ForgeSend,
    ForgeReceive,
    Noise,
}

/// How often each action is taken, against the others.
#[derive(Clone, Copy, Debug)]
pub struct Weights(pub [(Action, usize); 8]);

/// How many requests are known before they are stored, so that liars can use their digests.
const COMING: usize = 4;

/// The schedule so far, its world and what is to come.
pub struct Draft {
    pub world: World,
    pub random: Random,
    mistake: Mistake,
    bytes: Vec<u8>,
    limit: usize,
    full: bool,
    coming: Vec<[u8; Request::BODY]>,
}

impl Draft {
    /// A draft with its start only, of at most `limit` bytes.
    pub fn new(n: u8, faulty: Mask, limit: usize, random: Random) -> Draft {
        let bytes = vec![START, n, faulty];
        let world = World::fresh(n, faulty);
        let mistake = Mistake::None;
        let mut draft = Draft { world, random, mistake, bytes, limit, full: false, coming: Vec::new() };
        for _ in 0..COMING {
            let body = draft.new_body();
            draft.coming.push(body);
        }
        draft
    }

    /// The draft, led by the worlds of a planted mistake.
    pub fn mistaken(self, mistake: Mistake) -> Draft {
        Draft { mistake, ..self }
    }

    /// The schedule.
    pub fn into_bytes(self) -> Vec<u8> {
        self.bytes
    }

    /// Whether a step did not fit any more.
    pub fn is_full(&self) -> bool {
        self.full
    }

    /// Adds a step, if it fits, and tells its answer.
    pub fn add(&mut self, step: Step) -> Option<Answer> {
        let before = self.bytes.len();
        schedule::write_step(&mut self.bytes, &step);
        if self.bytes.len() > self.limit {
            self.bytes.truncate(before);
            self.full = true;
            return None;
        }
        Some(steps::apply(&mut self.world, &step, self.mistake))
    }

    /// Adds so many actions.
    pub fn act(&mut self, weights: &Weights, actions: usize) {
        for _ in 0..actions {
            if self.full {
                return;
            }
            let action = self.weighed(weights);
            let step = self.step_of(action);
            self.add(step);
        }
    }

    /// Adds steps that help, of packets from these origins only, until none is left or none changes anything.
    pub fn advance(&mut self, origins: Mask, most: usize) {
        let mut idle = 0;
        for _ in 0..most {
            let Some(step) = self.helpful(origins) else { return };
            match self.add(step) {
                None => return,
                Some(answer) if answer.changes() => idle = 0,
                Some(_) => idle += 1,
            }
            if idle > 60 {
                return;
            }
        }
    }

    /// Adds helpful steps to the end: a quiet world, unless something lacks room.
    pub fn drain(&mut self) {
        self.advance(self.world.all(), usize::MAX);
    }

    /// Fills the schedule up to its last byte with arrivals and deliveries; one byte alone stays free.
    pub fn fill(&mut self) {
        while self.limit - self.bytes.len() >= 2 {
            let (origin, place, server) = (self.any(), self.random.byte_below(Packet::PLACES), self.any());
            let odd = (self.limit - self.bytes.len()) % 2 == 1;
            self.add(if odd { Step::Arrive { origin, place } } else { Step::Deliver { server } });
        }
    }

    /// Stores requests until there are so many, most of them good at every server.
    pub fn store_requests(&mut self, wanted: usize) {
        while self.world.requests.count < wanted && !self.full {
            let step = self.request();
            self.add(step);
        }
    }

    /// A new request with a good seal at every server.
    pub fn sealed_request(&mut self) -> Step {
        let mut body = self.new_body();
        body[Request::SEALS] = self.world.all();
        Step::Request { body }
    }

    /// A server of this world.
    pub fn any(&mut self) -> u8 {
        self.random.byte_below(self.world.n.into())
    }

    /// A correct server.
    pub fn correct(&mut self) -> u8 {
        self.member(self.world.correct())
    }

    /// A liar, or any server where there is none.
    pub fn liar(&mut self) -> u8 {
        let faulty = self.world.faulty;
        self.member(if faulty == 0 { self.world.all() } else { faulty })
    }

    /// A member of a mask that is not empty.
    pub fn member(&mut self, mask: Mask) -> u8 {
        let place = self.random.below(mask.count_ones() as usize);
        members(mask).nth(place).expect("the mask has so many members")
    }

    /// A slot that is given, or 0.
    pub fn slot(&mut self) -> u8 {
        self.random.byte_below(self.world.requests.count.max(1))
    }

    /// A slot whose seal is good at a server, if a few tries find one.
    pub fn sealed_slot(&mut self, server: u8) -> u8 {
        let mut slot = self.slot();
        for _ in 0..8 {
            if self.world.is_slot_given(slot) && self.world.is_sealed(slot, server) {
                break;
            }
            slot = self.slot();
        }
        slot
    }

    /// A multicast that a server can do if it has room and quota.
    pub fn multicast_of(&mut self, server: u8) -> Step {
        Step::Multicast { server, slot: self.sealed_slot(server) }
    }

    /// A packet under way among those wanted: its origin and place.
    pub fn packet(&mut self, wanted: impl Fn(u8, &Packet) -> bool) -> Option<Step> {
        let found = self.search(Packet::PLACES, |world, origin, place| {
            let packet = &world.server(origin).outgoing[place];
            packet.used && wanted(origin, packet)
        });
        found.map(|(origin, place)| Step::Arrive { origin, place })
    }

    /// A liar's packet of some sending: of a key in the table or to come, with a right or wrong slot.
    pub fn forged_packet(&mut self, to: u8) -> Step {
        let (sender, id) = self.key();
        let slot = match self.random.below(20) {
            0 => self.random.byte(),
            1..=9 => self.slot_of(sender, id),
            _ => self.slot(),
        };
        Step::ForgePacket { from: self.liar(), to, sending: Sending { sender, id, slot } }
    }

    /// A liar's send.
    pub fn forged_send(&mut self) -> Step {
        let server = self.liar();
        let count = self.world.server(server).executions.count;
        let id = match self.random.below(10) {
            0 => self.random.number() as u16,
            1 => self.random.below(count + 3) as u16,
            _ => count as u16 + 1,
        };
        Step::ForgeSend { server, id, digest: self.digest() }
    }

    /// An action, by weight.
    fn weighed(&mut self, weights: &Weights) -> Action {
        let sum: usize = weights.0.iter().map(|(_, weight)| weight).sum();
        let mut ticket = self.random.below(sum);
        for (action, weight) in weights.0 {
            if ticket < weight {
                return action;
            }
            ticket -= weight;
        }
        Action::Noise
    }

    /// A step of an action, or noise where the world has nothing for it.
    fn step_of(&mut self, action: Action) -> Step {
        let chosen = match action {
            Action::Request => Some(self.request()),
            Action::Multicast => {
                let server = self.correct();
                Some(self.multicast_of(server))
            }
            Action::Arrive => self.packet(|_, _| true),
            Action::Move => self.move_entry(),
            Action::ForgePacket => {
                let to = self.any();
                Some(self.forged_packet(to))
            }
            Action::ForgeSend => Some(self.forged_send()),
            Action::ForgeReceive => Some(self.forged_receive()),
            Action::Noise => None,
        };
        chosen.unwrap_or_else(|| self.noise())
    }

    /// A step that brings a correct server forward: a ready entry's, or an arrival from one of the origins.
    fn helpful(&mut self, origins: Mask) -> Option<Step> {
        let arrival = |draft: &mut Draft| draft.packet(|origin, _| has(origins, origin));
        if self.random.percent(40) {
            arrival(self).or_else(|| self.ready_entry())
        } else {
            self.ready_entry().or_else(|| arrival(self))
        }
    }

    /// The next step of some held entry, ready or, now and then, not.
    fn move_entry(&mut self) -> Option<Step> {
        if self.random.percent(90) {
            self.ready_entry()
        } else {
            self.entry(|_, _, entry| entry.stage != 0)
        }
    }

    /// The next step of a ready entry.
    fn ready_entry(&mut self) -> Option<Step> {
        self.entry(quiet::is_ready)
    }

    /// The next step of a wanted entry of a correct server.
    fn entry(&mut self, wanted: impl Fn(&World, u8, &Entry) -> bool) -> Option<Step> {
        let correct = self.world.correct();
        let (server, place) = self.search(Entry::PLACES, |world, server, place| {
            has(correct, server) && wanted(world, server, &world.server(server).hold[place])
        })?;
        Some(match self.world.server(server).hold[usize::from(place)].stage {
            Entry::ONE => Step::Propose { server, place },
            Entry::TWO => Step::Settle { server, place },
            _ => Step::Deliver { server },
        })
    }

    /// A server's place for which something holds, looked for from a random one on.
    fn search(&mut self, places: usize, wanted: impl Fn(&World, u8, usize) -> bool) -> Option<(u8, u8)> {
        let all = usize::from(self.world.n) * places;
        let turn = self.random.below(all);
        (turn..all)
            .chain(0..turn)
            .map(|at| (at / places, at % places))
            .find(|(server, place)| wanted(&self.world, *server as u8, *place))
            .map(|(server, place)| (server as u8, place as u8))
    }

    /// A request to come, or now and then a stored one again, with other seals perhaps.
    fn request(&mut self) -> Step {
        if self.world.requests.count > 0 && self.random.percent(8) {
            let slot = self.slot();
            let mut body = self.world.request(slot).body;
            if self.random.percent(30) {
                body[Request::SEALS] = self.seals();
            }
            return Step::Request { body };
        }
        let place = self.random.below(COMING);
        let next = self.new_body();
        Step::Request { body: std::mem::replace(&mut self.coming[place], next) }
    }

    /// The body of a new request.
    fn new_body(&mut self) -> [u8; Request::BODY] {
        let mut body = self.random.array();
        body[Request::SEALS] = self.seals();
        body
    }

    /// Seals: all, all but one, some, none, and now and then one too high.
    fn seals(&mut self) -> Mask {
        let all = self.world.all();
        match self.random.below(20) {
            0..=9 => all,
            10..=12 => all & !bit(self.any()),
            13 => 0,
            14 => self.random.byte(),
            15 => self.world.faulty,
            _ => self.random.byte() & all,
        }
    }

    /// A liar's call.
    fn forged_receive(&mut self) -> Step {
        let (sender, id) = self.key();
        let known = self.world.server(sender).execution(id).map(|execution| execution.digest);
        let digest = match known {
            Some(digest) if self.random.percent(60) => digest,
            _ => self.digest(),
        };
        Step::ForgeReceive { server: self.liar(), sender, id, digest }
    }

    /// A key: most often in the table, else one to come, else any.
    fn key(&mut self) -> (u8, u16) {
        let sender = self.any();
        let executions = self.world.server(sender).executions.stored();
        let count = executions.len();
        let id = match self.random.below(10) {
            0 => self.random.below(70) as u16,
            1..=3 => self.random.between(count + 1, count + 3) as u16,
            _ if count > 0 => executions[self.random.below(count)].id,
            _ => 1,
        };
        (sender, id)
    }

    /// The slot of what was sent under a key, or any.
    fn slot_of(&mut self, sender: u8, id: u16) -> u8 {
        let digest = self.world.server(sender).execution(id).map(|execution| execution.digest);
        let slot = self.world.requests.stored().iter().position(|request| Some(request.digest) == digest);
        slot.map_or_else(|| self.slot(), |slot| slot as u8)
    }

    /// A digest of a stored request, of one to come, or of nothing.
    fn digest(&mut self) -> Digest {
        match self.random.below(10) {
            0 => self.random.array(),
            1..=2 => sha256::digest(&self.random.pick(&self.coming)),
            _ if self.world.requests.count > 0 => {
                let slot = self.slot();
                self.world.request(slot).digest
            }
            _ => [0; 32],
        }
    }

    /// Any step, with fields that are often just within or just beyond their bounds.
    fn noise(&mut self) -> Step {
        let server = self.near(self.world.n.into());
        let other = self.near(self.world.n.into());
        let place = self.near(Packet::PLACES);
        let slot = self.near(self.world.requests.count);
        let id = self.random.below(20) as u16;
        let digest = self.digest();
        match self.random.below(10) {
            0 => self.request(),
            1 => Step::Multicast { server, slot },
            2 => Step::Arrive { origin: server, place },
            3 => Step::Propose { server, place },
            4 => Step::Settle { server, place: self.random.byte_below(8) },
            5 => Step::Propose { server, place: self.random.byte_below(8) },
            6 => Step::Deliver { server },
            7 => Step::ForgePacket { from: self.near_liar(), to: server, sending: Sending { sender: other, id, slot } },
            8 => Step::ForgeSend { server: self.near_liar(), id, digest },
            _ => Step::ForgeReceive { server: self.near_liar(), sender: other, id, digest },
        }
    }

    /// A number below a bound, or now and then one at or above it.
    fn near(&mut self, bound: usize) -> u8 {
        match self.random.below(12) {
            0 => bound as u8,
            1 => self.random.byte(),
            _ => self.random.byte_below(bound.max(1)),
        }
    }

    /// A liar, or now and then any number.
    fn near_liar(&mut self) -> u8 {
        if self.random.percent(70) {
            self.liar()
        } else {
            self.near(self.world.n.into())
        }
    }
}
