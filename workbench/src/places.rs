//! Places found by what is in them, as the schedule language names packets and entries.

use second::steps::Step;
use second::world::{Sending, World};

use crate::why::stage_word;

/// A packet under way, by its origin and what else is said of it.
#[derive(Clone, Copy)]
pub struct Packet {
    pub origin: u8,
    pub to: Option<u8>,
    pub sending: Option<Sending>,
}

impl Packet {
    /// Whether nothing but the origin is said.
    pub fn is_any(&self) -> bool {
        self.to.is_none() && self.sending.is_none()
    }

    /// The lowest outgoing place with such a packet, or this place if it has one.
    pub fn find(&self, world: &World, said: Option<u8>) -> Option<u8> {
        let outgoing = &world.present().get(usize::from(self.origin))?.outgoing;
        let fits = |sending: Sending| self.sending.is_none_or(|wanted| wanted == sending);
        let is_it = |place: &usize| {
            let packet = outgoing[*place];
            packet.used && self.to.is_none_or(|to| to == packet.to) && fits(packet.sending)
        };
        lowest(0..outgoing.len(), said, is_it)
    }

    /// That there is none.
    pub fn missing(&self) -> String {
        let sending = self.sending.map_or(String::new(), |sending| format!(" {sending}"));
        let to = self.to.map_or(String::new(), |to| format!(" to {to}"));
        format!("no such packet{sending} from {}{to}", self.origin)
    }
}

/// A held entry, by its server, stage and what else is said of it.
#[derive(Clone, Copy)]
pub struct Entry {
    pub server: u8,
    pub stage: u8,
    pub sending: Option<Sending>,
}

impl Entry {
    /// Whether nothing but the server is said.
    pub fn is_any(&self) -> bool {
        self.sending.is_none()
    }

    /// The lowest hold place with such an entry, or this place if it has one.
    pub fn find(&self, world: &World, said: Option<u8>) -> Option<u8> {
        let hold = &world.present().get(usize::from(self.server))?.hold;
        let is_it = |place: &usize| {
            let entry = hold[*place];
            entry.stage == self.stage && self.sending.is_none_or(|wanted| wanted == entry.sending)
        };
        lowest(0..hold.len(), said, is_it)
    }

    /// That there is none.
    pub fn missing(&self) -> String {
        let sending = self.sending.map_or(String::new(), |sending| format!(" {sending}"));
        format!("server {} has no such stage-{} entry{sending}", self.server, stage_word(self.stage))
    }
}

/// The lowest place for which something holds, or the said one if it does there.
fn lowest(mut places: std::ops::Range<usize>, said: Option<u8>, holds: impl Fn(&usize) -> bool) -> Option<u8> {
    let found = match said.map(usize::from) {
        Some(said) => Some(said).filter(|said| places.contains(said) && holds(said)),
        None => places.find(holds),
    };
    found.map(|place| place as u8)
}

/// A step in the shortest words that find its place again in a world; none where only `place P` does.
pub fn found_text(world: &World, step: &Step) -> Option<String> {
    match *step {
        Step::Arrive { origin, place } => {
            let packet = *world.present().get(usize::from(origin))?.outgoing.get(usize::from(place))?;
            let short = Packet { origin, to: Some(packet.to), sending: None };
            let full = Packet { sending: Some(packet.sending), ..short };
            let text = format!("arrive at {} from {origin}", packet.to);
            shortest(place, text, packet.sending, |full_asked| if full_asked { full } else { short }.find(world, None))
        }
        Step::Propose { server, place } | Step::Settle { server, place } => {
            let is_propose = matches!(step, Step::Propose { .. });
            let (word, stage) = if is_propose { ("propose", 1) } else { ("settle", 2) };
            let entry = *world.present().get(usize::from(server))?.hold.get(usize::from(place))?;
            let short = Entry { server, stage, sending: None };
            let full = Entry { sending: Some(entry.sending), ..short };
            let text = format!("{word} {server}");
            shortest(place, text, entry.sending, |full_asked| if full_asked { full } else { short }.find(world, None))
        }
        _ => None,
    }
}

/// The text, with the sending where it is needed to find the place again.
fn shortest(place: u8, text: String, sending: Sending, find: impl Fn(bool) -> Option<u8>) -> Option<String> {
    if find(false) == Some(place) {
        return Some(text);
    }
    (find(true) == Some(place)).then(|| format!("{text} sending {sending}"))
}
