//! Demand 3 over the history of a run: from a fresh start with at most f liars, after any schedule, all correct
//! servers deliver the same sendings in the same order.

use crate::quiet;
use crate::world::{members, Execution, Sending, World};

/// The part of demand 3 that a world breaks.
#[derive(Clone, Copy, PartialEq, Eq, Debug)]
pub enum Claim {
    /// There is one sending for each number given, in that order.
    OneListOfSendings,
    /// What a number means never changes.
    ListOnlyGrows,
    /// No sending is in the list twice.
    NoSendingTwice,
    /// A correct server with a good seal held each numbered request, no later than the step that numbered it.
    HeldWithGoodSeal,
    /// What a correct server delivered is a beginning of the list.
    DeliveredIsBeginning,
    /// In a quiet world every correct server has delivered the whole list.
    QuietHasDeliveredAll,
}

/// The list of sendings so far, followed from the fresh world on.
#[derive(Clone, Default)]
pub struct History {
    sendings: Vec<Sending>,
}

impl History {
    /// Looks at the world after a step, or at the fresh one.
    pub fn observe(&mut self, world: &World) -> Result<(), Claim> {
        self.follow_numbers(world)?;
        for server in members(world.correct()) {
            let delivered = world.server(server).delivered.stored();
            ensure(self.sendings.starts_with(delivered), Claim::DeliveredIsBeginning)?;
        }
        ensure(!quiet::is_quiet(world) || self.all_delivered(world), Claim::QuietHasDeliveredAll)
    }

    /// Checks the old numbers against the list and adds the new ones to it.
    fn follow_numbers(&mut self, world: &World) -> Result<(), Claim> {
        let executions = by_number(world).ok_or(Claim::OneListOfSendings)?;
        ensure(self.sendings.len() <= executions.len(), Claim::ListOnlyGrows)?;
        for (sending, (sender, execution)) in self.sendings.iter().zip(&executions) {
            let same = sending.sender == *sender
                && sending.id == execution.id
                && world.request(sending.slot).digest == execution.digest;
            ensure(same, Claim::ListOnlyGrows)?;
        }
        for (sender, execution) in &executions[self.sendings.len()..] {
            let sending = sending_of(world, *sender, execution).ok_or(Claim::OneListOfSendings)?;
            ensure(!self.sendings.contains(&sending), Claim::NoSendingTwice)?;
            ensure(is_held_with_good_seal(world, &sending), Claim::HeldWithGoodSeal)?;
            self.sendings.push(sending);
        }
        Ok(())
    }

    /// Whether every correct server has delivered the whole list.
    fn all_delivered(&self, world: &World) -> bool {
        members(world.correct()).all(|server| world.server(server).delivered.count == self.sendings.len())
    }
}

/// The numbered executions with their senders, in the order of their numbers, if these are 1 to M, each once.
fn by_number(world: &World) -> Option<Vec<(u8, &Execution)>> {
    let mut list = vec![None; world.numbered.into()];
    for sender in members(world.all()) {
        for execution in world.server(sender).executions.stored().iter().filter(|e| e.is_numbered()) {
            let place = list.get_mut(usize::from(execution.number) - 1)?;
            if place.replace((sender, execution)).is_some() {
                return None;
            }
        }
    }
    list.into_iter().collect()
}

/// The sending of an execution: its key, and the slot whose request has its digest.
fn sending_of(world: &World, sender: u8, execution: &Execution) -> Option<Sending> {
    let slot = world.requests.stored().iter().position(|request| request.digest == execution.digest)?;
    Some(Sending { sender, id: execution.id, slot: slot as u8 })
}

/// Whether a correct server whose seal on the request is good has this sending in its hold, or has delivered it.
fn is_held_with_good_seal(world: &World, sending: &Sending) -> bool {
    members(world.correct() & world.request(sending.slot).seals()).map(|server| world.server(server)).any(|server| {
        server.hold.iter().any(|entry| entry.stage != 0 && entry.sending == *sending)
            || server.delivered.stored().contains(sending)
    })
}

/// Leaves with the broken claim unless it holds.
fn ensure(holds: bool, claim: Claim) -> Result<(), Claim> {
    if holds {
        Ok(())
    } else {
        Err(claim)
    }
}

#[cfg(test)]
mod tests {
    use super::*;
    use crate::generate;
    use crate::schedule;
    use crate::steps::{self, Mistake};
    use crate::world::{List, Zeros};

    /// The first claim that a run with a mistake breaks.
    fn breaks(schedule: &[u8], mistake: Mistake) -> Option<Claim> {
        let accepted = schedule::check(schedule).ok()?;
        let mut world = accepted.world;
        let mut history = History::default();
        for (_, step) in accepted.steps {
            steps::apply(&mut world, &step, mistake);
            if let Err(claim) = history.observe(&world) {
                return Some(claim);
            }
        }
        None
    }

    /// The claim that a changed end of case A breaks, to a history that has seen so much of the true one.
    fn broken(seen: &[World], change: impl Fn(&mut World)) -> Option<Claim> {
        let mut history = History::default();
        seen.iter().for_each(|world| assert_eq!(history.observe(world), Ok(())));
        let mut world = end_of_case_a();
        change(&mut world);
        history.observe(&world).err()
    }

    /// Case A's world: every server has delivered 0.1.0, and nothing is under way.
    fn end_of_case_a() -> World {
        let mut answers = [0; 15];
        schedule::run(include_bytes!("../../../examples/case_a.bin"), &mut answers).unwrap().world
    }

    #[test]
    fn each_claim_is_told() {
        let end = [end_of_case_a()];
        assert_eq!(broken(&end, |_| ()), None);
        assert_eq!(broken(&[], |w| w.numbered = 2), Some(Claim::OneListOfSendings));
        assert_eq!(broken(&[], |w| w.servers[0].executions.places[0].digest[0] ^= 1), Some(Claim::OneListOfSendings));
        assert_eq!(broken(&end, |w| w.servers[0].executions.places[0].id = 2), Some(Claim::ListOnlyGrows));
        assert_eq!(broken(&end, |w| *w = World::fresh(3, 0)), Some(Claim::ListOnlyGrows));
        let twice = |w: &mut World| {
            let execution = w.servers[0].executions.places[0];
            w.servers[0].executions.append(Execution { number: 2, ..execution });
            w.numbered = 2;
        };
        assert_eq!(broken(&end, twice), Some(Claim::NoSendingTwice));
        let forget = |w: &mut World| w.servers.iter_mut().for_each(|server| server.delivered = List::ZEROS);
        assert_eq!(broken(&[], forget), Some(Claim::HeldWithGoodSeal));
        assert_eq!(broken(&end, |w| w.servers[1].delivered.places[0].slot = 1), Some(Claim::DeliveredIsBeginning));
        assert_eq!(broken(&end, |w| w.servers[2].delivered = List::ZEROS), Some(Claim::QuietHasDeliveredAll));
    }

    #[test]
    fn claims_hold_and_notice_a_server_left_behind() {
        let schedules: Vec<_> = (0..160).map(|index| generate::schedule(1, index)).collect();
        let broken = |mistake| schedules.iter().filter_map(|s| breaks(s, mistake)).collect::<Vec<_>>();
        assert_eq!(broken(Mistake::None), []);
        assert!(broken(Mistake::WrongDigestRecorded).contains(&Claim::QuietHasDeliveredAll));
        assert!(broken(Mistake::UnsealedDropped).contains(&Claim::QuietHasDeliveredAll));
    }
}
