//! A run as a story: what each step did, and what became of each packet.

use second::schedule::Refused;
use second::steps::{Answer, Step};
use second::world::{Packet, Sending, World};

use crate::proved::{self, Rules, Turn};
use crate::trace::packet_of;

/// A whole run: who did it, the world it ends in, what each step did, and every packet that was sent.
pub struct Story {
    pub rules: Rules,
    pub end: World,
    pub moments: Vec<Moment>,
    pub packets: Vec<Trip>,
}

/// What one step did.
pub struct Moment {
    pub step: Step,
    pub answer: Answer,
    /// The server it happens at; none for a request, and for a server that is not there.
    pub server: Option<u8>,
    /// What it is about, as a short text.
    pub about: String,
    /// Whether a liar does it, or it takes up an entry that a forged packet brought.
    pub forged: bool,
    pub call: Call,
    pub numbered: Option<Numbered>,
}

/// Whether a step called the orderer, and whether the orderer took note of it.
#[derive(Clone, Copy, PartialEq, Eq, Debug)]
pub enum Call {
    None,
    Taken,
    NotTaken,
}

/// An execution that got its number.
pub struct Numbered {
    pub number: u8,
    pub sender: u8,
    pub id: u16,
}

/// A packet's way; steps count from 0.
pub struct Trip {
    pub from: u8,
    pub place: usize,
    pub packet: Packet,
    pub forged: bool,
    pub sent: usize,
    pub end: End,
}

/// How a packet's way ends.
#[derive(Clone, Copy, PartialEq, Eq, Debug)]
pub enum End {
    UnderWay,
    Kept(usize),
    Dropped(usize),
}

impl Story {
    /// The story of a schedule's run.
    pub fn of_run(schedule: &[u8], rules: Rules) -> Result<Story, Refused> {
        let (mut moments, mut trips) = (Vec::new(), Trips::default());
        let runner = proved::walk(schedule, rules, |turn| {
            trips.follow(moments.len(), turn);
            moments.push(moment(turn, &trips));
        })?;
        Ok(Story { rules, end: runner.world().clone(), moments, packets: trips.packets })
    }
}

/// What a step did.
fn moment(turn: &Turn, trips: &Trips) -> Moment {
    let change = Change { before: turn.before, after: turn.after, step: &turn.step, answer: turn.answer };
    Moment {
        step: turn.step,
        answer: turn.answer,
        server: change.server(),
        about: change.about(),
        forged: change.is_lie() || trips.came_forged(change.held()),
        call: change.call(),
        numbered: change.numbered(),
    }
}

/// The packets so far, and those of them that are under way.
#[derive(Default)]
struct Trips {
    packets: Vec<Trip>,
    under_way: Vec<usize>,
}

impl Trips {
    /// Notes the packets that a step sent and the one that it brought; steps count from 0.
    fn follow(&mut self, now: usize, turn: &Turn) {
        let forged = matches!(turn.step, Step::ForgePacket { .. });
        for from in 0..turn.before.n {
            let (old, new) = (&turn.before.server(from).outgoing, &turn.after.server(from).outgoing);
            for (place, (was, is)) in old.iter().zip(new).enumerate() {
                match (was.used, is.used) {
                    (false, true) => {
                        self.under_way.push(self.packets.len());
                        self.packets.push(Trip { from, place, packet: *is, forged, sent: now, end: End::UnderWay });
                    }
                    (true, false) if turn.answer == Answer::Dropped => self.end_trip(from, place, End::Dropped(now)),
                    (true, false) => self.end_trip(from, place, End::Kept(now)),
                    _ => {}
                }
            }
        }
    }

    /// Whether the packet that brought a server's held entry was forged.
    fn came_forged(&self, held: Option<(u8, Sending)>) -> bool {
        let Some((server, sending)) = held else { return false };
        let is_it = |trip: &&Trip| matches!(trip.end, End::Kept(_)) && trip.packet == Packet::fresh(server, sending);
        self.packets.iter().filter(is_it).max_by_key(|trip| trip.arrival()).is_some_and(|trip| trip.forged)
    }

    /// Ends the way of the packet that was in an outgoing place.
    fn end_trip(&mut self, from: u8, place: usize, end: End) {
        let packets = &mut self.packets;
        let is_it = |at: &usize| (packets[*at].from, packets[*at].place) == (from, place);
        if let Some(found) = self.under_way.iter().position(is_it) {
            packets[self.under_way.swap_remove(found)].end = end;
        }
    }
}

impl Trip {
    /// The step at which it arrives, if it does.
    pub fn arrival(&self) -> Option<usize> {
        match self.end {
            End::UnderWay => None,
            End::Kept(step) | End::Dropped(step) => Some(step),
        }
    }
}

/// A step with the worlds before and after it.
struct Change<'a> {
    before: &'a World,
    after: &'a World,
    step: &'a Step,
    answer: Answer,
}

impl Change<'_> {
    /// The server at which it happens; an arrival happens at its recipient.
    fn server(&self) -> Option<u8> {
        let server = match *self.step {
            Step::Request { .. } => return None,
            Step::Arrive { origin, .. } => packet_of(self.before, self.step).map_or(origin, |packet| packet.to),
            Step::ForgePacket { from, .. } => from,
            Step::Multicast { server, .. }
            | Step::Propose { server, .. }
            | Step::Settle { server, .. }
            | Step::Deliver { server }
            | Step::ForgeSend { server, .. }
            | Step::ForgeReceive { server, .. } => server,
        };
        Some(server).filter(|server| *server < self.before.n)
    }

    /// What it is about: a slot, a sending, a key, or a number with its sending.
    fn about(&self) -> String {
        let done = self.answer == Answer::Done;
        match *self.step {
            Step::Request { .. } if done => format!("slot {}", self.before.requests.count),
            Step::Multicast { server, slot } if done => {
                Sending { sender: server, id: self.after.server(server).executions.count as u16, slot }.to_string()
            }
            Step::Deliver { server } if done => self.delivery(server),
            Step::Request { .. } | Step::Multicast { .. } | Step::Deliver { .. } | Step::Arrive { .. } => String::new(),
            Step::Propose { .. } | Step::Settle { .. } => {
                self.held().map_or(String::new(), |(_, sending)| sending.to_string())
            }
            Step::ForgePacket { sending, .. } => sending.to_string(),
            Step::ForgeSend { server, id, .. } => format!("{server}.{id}"),
            Step::ForgeReceive { sender, id, .. } => format!("{sender}.{id}"),
        }
    }

    /// The number and the sending of what a server has just delivered.
    fn delivery(&self, server: u8) -> String {
        let delivered = self.after.server(server).delivered.stored();
        delivered.last().map_or(String::new(), |last| format!("{}: {last}", delivered.len()))
    }

    /// The server and the sending of the entry that a propose or settle takes up, if its place and stage are right.
    fn held(&self) -> Option<(u8, Sending)> {
        let (Step::Propose { server, place } | Step::Settle { server, place }) = *self.step else { return None };
        if matches!(self.answer, Answer::BadServer | Answer::WrongSide | Answer::NoSuch) {
            return None;
        }
        Some((server, self.before.server(server).hold[usize::from(place)].sending))
    }

    /// Whether it is a liar's step.
    fn is_lie(&self) -> bool {
        matches!(self.step, Step::ForgePacket { .. } | Step::ForgeSend { .. } | Step::ForgeReceive { .. })
    }

    /// Whether the orderer was called; it took note when its tables have changed.
    fn call(&self) -> Call {
        let changed =
            self.before.servers.iter().zip(&self.after.servers).any(|(was, is)| was.executions != is.executions);
        if changed {
            return Call::Taken;
        }
        match (self.step, self.answer) {
            (Step::Propose { .. }, Answer::Dropped) => Call::NotTaken,
            (_, Answer::Unknown | Answer::WrongDigest | Answer::Recall) => Call::NotTaken,
            (Step::ForgeSend { .. }, Answer::Quota) => Call::NotTaken,
            _ => Call::None,
        }
    }

    /// The execution that got the newest number, if this step gave one.
    fn numbered(&self) -> Option<Numbered> {
        let number = self.after.numbered;
        if number == self.before.numbered {
            return None;
        }
        (0..self.after.n).find_map(|sender| {
            let executions = self.after.server(sender).executions.stored();
            let execution = executions.iter().find(|execution| execution.number == number)?;
            Some(Numbered { number, sender, id: execution.id })
        })
    }
}
