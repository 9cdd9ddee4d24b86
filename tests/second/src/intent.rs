//! Steps by what they mean: their places, slots and ids are found anew when other steps have been taken away.

use crate::schedule::{write_step, Accepted, START};
use crate::steps::{self, Answer, Mistake, Step};
use crate::world::{Entry, Execution, Mask, Packet, Request, Sending, World};

/// A step, and what its numbers meant in the run it comes from.
#[derive(Clone, Copy)]
pub struct Intent {
    step: Step,
    packet: Option<Packet>,
    entry: Option<Entry>,
    gift: Option<Gift>,
}

/// The slot or id that a step gives.
#[derive(Clone, Copy)]
enum Gift {
    Slot(u8),
    Id { sender: u8, id: u16 },
}

/// The intents of an accepted schedule.
pub fn of_schedule(accepted: Accepted) -> Vec<Intent> {
    let mut world = accepted.world;
    accepted.steps.map(|(_, step)| do_step(&mut world, step)).collect()
}

/// The schedule of these intents, after a start.
pub fn to_schedule(n: u8, faulty: Mask, intents: &[Intent]) -> Vec<u8> {
    let mut schedule = vec![START, n, faulty];
    let mut world = World::fresh(n, faulty);
    let mut names = Names::unchanged();
    for intent in intents {
        let step = names.renamed(&world, intent);
        write_step(&mut schedule, &step);
        names.note(intent.gift, do_step(&mut world, step).gift);
    }
    schedule
}

/// Does a step and tells what it meant.
fn do_step(world: &mut World, step: Step) -> Intent {
    let packet = match step {
        Step::Arrive { origin, place } if origin < world.n => {
            world.server(origin).outgoing.get(usize::from(place)).copied()
        }
        _ => None,
    };
    let entry = match step {
        Step::Propose { server, place } | Step::Settle { server, place } if server < world.n => {
            world.server(server).hold.get(usize::from(place)).copied()
        }
        _ => None,
    };
    let gift = match step {
        Step::Request { .. } => Some(Gift::Slot(world.requests.count as u8)),
        Step::Multicast { server, .. } if server < world.n => {
            Some(Gift::Id { sender: server, id: world.server(server).executions.count as u16 + 1 })
        }
        _ => None,
    };
    let done = steps::apply(world, &step, Mistake::None) == Answer::Done;
    Intent { step, packet, entry, gift: gift.filter(|_| done) }
}

/// The new slots and ids for the old ones.
struct Names {
    slots: [u8; Request::SLOTS],
    ids: [[u16; Execution::QUOTA + 1]; World::SERVERS],
}

impl Names {
    /// Every slot and id as it was.
    fn unchanged() -> Names {
        Names {
            slots: std::array::from_fn(|slot| slot as u8),
            ids: [std::array::from_fn(|id| id as u16); World::SERVERS],
        }
    }

    /// Notes what a step gave before and what it gives now.
    fn note(&mut self, before: Option<Gift>, now: Option<Gift>) {
        match (before, now) {
            (Some(Gift::Slot(old)), Some(Gift::Slot(new))) => self.slots[usize::from(old)] = new,
            (Some(Gift::Id { sender, id: old }), Some(Gift::Id { id: new, .. })) => {
                self.ids[usize::from(sender)][usize::from(old)] = new;
            }
            _ => (),
        }
    }

    /// The new slot for an old one.
    fn slot(&self, slot: u8) -> u8 {
        self.slots.get(usize::from(slot)).copied().unwrap_or(slot)
    }

    /// The new id for an old key.
    fn id(&self, sender: u8, id: u16) -> u16 {
        self.ids.get(usize::from(sender)).and_then(|ids| ids.get(usize::from(id))).copied().unwrap_or(id)
    }

    /// The new sending for an old one.
    fn sending(&self, old: Sending) -> Sending {
        Sending { sender: old.sender, id: self.id(old.sender, old.id), slot: self.slot(old.slot) }
    }

    /// The step that means the same in a world where other numbers are given.
    fn renamed(&self, world: &World, intent: &Intent) -> Step {
        match intent.step {
            Step::Multicast { server, slot } => Step::Multicast { server, slot: self.slot(slot) },
            Step::Arrive { origin, place } => Step::Arrive { origin, place: self.packet(world, intent, origin, place) },
            Step::Propose { server, place } => {
                Step::Propose { server, place: self.entry(world, intent, server, place) }
            }
            Step::Settle { server, place } => Step::Settle { server, place: self.entry(world, intent, server, place) },
            Step::ForgePacket { from, to, sending } => Step::ForgePacket { from, to, sending: self.sending(sending) },
            Step::ForgeReceive { server, sender, id, digest } => {
                Step::ForgeReceive { server, sender, id: self.id(sender, id), digest }
            }
            Step::Request { .. } | Step::Deliver { .. } | Step::ForgeSend { .. } => intent.step,
        }
    }

    /// Where the packet of an intent is now, or the old place.
    fn packet(&self, world: &World, intent: &Intent, origin: u8, place: u8) -> u8 {
        let found = intent.packet.filter(|packet| packet.used).and_then(|packet| {
            let wanted = Packet { sending: self.sending(packet.sending), ..packet };
            world.server(origin).outgoing.iter().position(|packet| *packet == wanted)
        });
        found.map_or(place, |found| found as u8)
    }

    /// Where the entry of an intent is now, or the old place.
    fn entry(&self, world: &World, intent: &Intent, server: u8, place: u8) -> u8 {
        let found = intent.entry.filter(|entry| entry.stage != 0).and_then(|entry| {
            let wanted = self.sending(entry.sending);
            world.server(server).hold.iter().position(|held| held.stage == entry.stage && held.sending == wanted)
        });
        found.map_or(place, |found| found as u8)
    }
}

#[cfg(test)]
mod tests {
    use super::*;
    use crate::generate;
    use crate::schedule;

    #[test]
    fn nothing_taken_away_is_nothing_changed_in_meaning() {
        for index in 0..8 {
            let bytes = generate::schedule(2, index);
            let accepted = schedule::check(&bytes).unwrap_or_else(|_| panic!("a guided schedule is accepted"));
            let (n, faulty) = (accepted.world.n, accepted.world.faulty);
            let again = to_schedule(n, faulty, &of_schedule(accepted));
            let end = |bytes: &[u8]| schedule::run(bytes, &mut vec![0; bytes.len()]).unwrap().world.numbered;
            assert_eq!((again.len(), end(&again)), (bytes.len(), end(&bytes)));
        }
    }
}
