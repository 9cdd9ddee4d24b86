//! Damages of worlds: one for each clause of soundness, some that leave a world sound, and any value in any field.

use bridge::world::{Entry, Execution, Packet, Request, Sending, World};
use bridge::world::{DELIVERIES, EXECUTIONS, PLACES, REQUESTS, SERVERS};
use second::random::Random;

/// A damage: the name of what it breaks or leaves, and the change. None where the world has nothing of the kind.
pub type Damage = (&'static str, fn(&mut World) -> Option<()>);

/// An id that no execution of a generated schedule has.
const UNKNOWN_ID: u16 = 0xD1ED;

/// A damage for each clause of soundness, under the name that the second implementation gives the clause.
pub const UNSOUND: [Damage; 20] = [
    ("n and mask as 25 asks", |w| put(0, &mut w.roster.n)),
    ("every count within its size", |w| put(REQUESTS as u8 + 1, &mut w.requests.count)),
    ("all that belongs to servers at n or above is zeros", |w| {
        let absent = w.holds.get_mut(usize::from(w.roster.n))?;
        put(UNKNOWN_ID, &mut absent.places[0].sending.id)
    }),
    ("free and unused places all zeros", |w| {
        let free = w.outgoing[0].places.iter_mut().find(|p| !p.there)?;
        put(1, &mut free.sending.slot)
    }),
    ("no stage above three", |w| put(4, &mut entry(w, |e| e.stage != 0)?.stage)),
    ("every server below n", |w| put(w.roster.n, &mut packet(w)?.1.to)),
    ("every slot that of a stored request", |w| put(w.requests.count, &mut packet(w)?.1.sending.slot)),
    ("no mask with a bit at n or above", |w| {
        let absent = absent_bit(w)?;
        let (_, execution) = execution(w, |_| true)?;
        put(execution.called | absent, &mut execution.called)
    }),
    ("seals of stored requests have no bit at n or above", |w| {
        let absent = absent_bit(w)?;
        let request = stored(w).first_mut()?;
        put(request.seals | absent, &mut request.seals)
    }),
    ("stored digests are those of their requests", |w| {
        let request = stored(w).last_mut()?;
        put(!request.command[0], &mut request.command[0])
    }),
    ("stored digests differ from each other", |w| {
        let [first, .., last] = stored(w) else { return None };
        put(*first, last)
    }),
    ("execution keys differ", |w| {
        let sender = w.executions.iter_mut().find(|sender| sender.count > 1)?;
        put(sender.table[0].id, &mut sender.table[1].id)
    }),
    ("each mask lies within the servers that called, the sender in both", |w| {
        let (sender, execution) = execution(w, |_| true)?;
        put(execution.mask & !(1 << sender), &mut execution.mask)
    }),
    ("an execution is numbered exactly when its mask has T members", |w| {
        let (_, execution) = execution(w, |x| x.number != 0)?;
        put(0, &mut execution.number)
    }),
    ("a correct server's executions have ids 1, 2, 3 without gaps", |w| {
        let correct = (0..SERVERS).find(|s| w.roster.faulty >> s & 1 == 0 && w.executions[*s].count > 0)?;
        put(UNKNOWN_ID, &mut w.executions[correct].table[0].id)
    }),
    ("the numbers given are 1 to M, each once", |w| put(w.numbered.checked_sub(1)?, &mut w.numbered)),
    ("a held entry past its first stage names an execution in the table", |w| {
        put(UNKNOWN_ID, &mut entry(w, |e| e.stage > 1)?.sending.id)
    }),
    ("an entry has a number exactly at stage three", |w| put(0, &mut entry(w, |e| e.stage == 3)?.number)),
    ("an entry's number is from 1 to M", |w| put(beyond(w)?, &mut entry(w, |e| e.stage == 3)?.number)),
    ("a server's delivered count is at most M", |w| {
        stored(w).first()?;
        put(beyond(w)?, &mut w.delivered[0].count)
    }),
];

/// Damages that no clause forbids: no step leads there, and the world is sound.
pub const SOUND: [Damage; 6] = [
    ("a stage-three number that is not its execution's", |w| {
        let numbered = w.numbered;
        let entry = entry(w, |e| e.stage == 3)?;
        put(entry.number % numbered + 1, &mut entry.number)
    }),
    ("an item that matches no execution", |w| {
        let delivered = w.delivered.iter_mut().find(|delivered| delivered.count > 0)?;
        put(UNKNOWN_ID, &mut delivered.items[0].id)
    }),
    ("a faulty server with a hold", |w| {
        stored(w).first()?;
        let faulty = (0..SERVERS).find(|s| w.roster.faulty >> s & 1 == 1)?;
        let sending = Sending { id: UNKNOWN_ID, sender: 0, slot: 0 };
        put(Entry { number: 0, sending, stage: 1 }, &mut w.holds[faulty].places[0])
    }),
    ("equal entries twice", |w| {
        let hold = w.holds.iter_mut().find(|hold| hold.places[0].stage != 0 && hold.places[PLACES - 1].stage == 0)?;
        put(hold.places[0], &mut hold.places[PLACES - 1])
    }),
    ("a packet to its own origin", |w| {
        let (origin, packet) = packet(w)?;
        put(origin as u8, &mut packet.to)
    }),
    ("a mask of more than T members without a number", |w| {
        let all = u8::MAX >> (SERVERS as u8 - w.roster.n);
        let threshold = u32::from(w.roster.n - 1) / 2 + 1;
        let (_, execution) = execution(w, |x| x.number == 0 && all.count_ones() > threshold)?;
        put(all, &mut execution.called)?;
        put(all, &mut execution.mask)
    }),
];

/// Puts any value into any one field.
pub fn scratch(w: &mut World, random: &mut Random) {
    let (server, value) = (random.below(SERVERS), value(w, random));
    match random.below(6) {
        0 => match random.below(3) {
            0 => w.roster.n = value as u8,
            1 => w.roster.faulty = value as u8,
            _ => w.numbered = value,
        },
        1 => scratch_requests(w, value, random),
        2 => scratch_executions(w, server, value, random),
        3 => scratch_packet(&mut w.outgoing[server].places[near(random, PLACES)], value, random),
        4 => scratch_entry(&mut w.holds[server].places[near(random, PLACES)], value, random),
        _ => {
            let delivered = &mut w.delivered[server];
            let item = near(random, delivered.items.len());
            match random.below(4) {
                0 => delivered.count = value,
                _ => scratch_sending(&mut delivered.items[item], value, random),
            }
        }
    }
}

/// Any value into a field of the requests.
fn scratch_requests(w: &mut World, value: u32, random: &mut Random) {
    let request = &mut w.requests.slots[near(random, REQUESTS)];
    match random.below(6) {
        0 => w.requests.count = value as u8,
        1 => request.serial = value,
        2 => request.client = value as u8,
        3 => request.seals = value as u8,
        4 => request.command[random.below(request.command.len())] = value as u8,
        _ => request.digest[random.below(request.digest.len())] = value as u8,
    }
}

/// Any value into a field of a sender's executions.
fn scratch_executions(w: &mut World, sender: usize, value: u32, random: &mut Random) {
    let execution = &mut w.executions[sender].table[near(random, EXECUTIONS)];
    match random.below(6) {
        0 => w.executions[sender].count = value as u8,
        1 => execution.number = value,
        2 => execution.id = value as u16,
        3 => execution.called = value as u8,
        4 => execution.mask = value as u8,
        _ => execution.digest[random.below(execution.digest.len())] = value as u8,
    }
}

/// Any value into a field of an outgoing place.
fn scratch_packet(packet: &mut Packet, value: u32, random: &mut Random) {
    match random.below(5) {
        0 => packet.there = !packet.there,
        1 => packet.to = value as u8,
        _ => scratch_sending(&mut packet.sending, value, random),
    }
}

/// Any value into a field of a hold place.
fn scratch_entry(entry: &mut Entry, value: u32, random: &mut Random) {
    match random.below(5) {
        0 => entry.number = value,
        1 => entry.stage = value as u8,
        _ => scratch_sending(&mut entry.sending, value, random),
    }
}

/// Any value into a field of a sending.
fn scratch_sending(sending: &mut Sending, value: u32, random: &mut Random) {
    match random.below(3) {
        0 => sending.id = value as u16,
        1 => sending.sender = value as u8,
        _ => sending.slot = value as u8,
    }
}

/// A value that may pass for a count, a name or a number of this world, or, now and then, any other.
fn value(w: &World, random: &mut Random) -> u32 {
    let near = [w.numbered, u32::from(w.roster.n), u32::from(w.requests.count), random.below(4) as u32];
    match random.below(8) {
        0 => random.number() as u32,
        1 => random.byte().into(),
        _ => random.pick(&near).wrapping_add(random.below(3) as u32).wrapping_sub(1),
    }
}

/// A place, most often one of the first, which are the ones in use.
fn near(random: &mut Random, places: usize) -> usize {
    if random.percent(70) {
        random.below(4)
    } else {
        random.below(places)
    }
}

/// Puts a value into a field, if it is another one.
fn put<T: PartialEq>(value: T, field: &mut T) -> Option<()> {
    let differs = value != *field;
    *field = value;
    differs.then_some(())
}

/// The number behind the last one given, if there can be such a number.
fn beyond(w: &World) -> Option<u32> {
    ((w.numbered as usize) < DELIVERIES).then_some(w.numbered + 1)
}

/// The mask of the first server that is not in the world, if there is one.
fn absent_bit(w: &World) -> Option<u8> {
    (usize::from(w.roster.n) < SERVERS).then(|| 1 << w.roster.n)
}

/// The stored requests.
fn stored(w: &mut World) -> &mut [Request] {
    &mut w.requests.slots[..w.requests.count.into()]
}

/// The first execution of this kind, with its sender.
fn execution(w: &mut World, is: impl Fn(&Execution) -> bool) -> Option<(usize, &mut Execution)> {
    let tables = w.executions.iter_mut().enumerate();
    tables.flat_map(|(s, t)| t.table[..t.count.into()].iter_mut().map(move |x| (s, x))).find(|(_, x)| is(x))
}

/// The first packet under way, with its origin.
fn packet(w: &mut World) -> Option<(usize, &mut Packet)> {
    let origins = w.outgoing.iter_mut().enumerate();
    origins.flat_map(|(s, o)| o.places.iter_mut().map(move |p| (s, p))).find(|(_, p)| p.there)
}

/// The first entry of this kind.
fn entry(w: &mut World, is: impl Fn(&Entry) -> bool) -> Option<&mut Entry> {
    w.holds.iter_mut().flat_map(|hold| &mut hold.places).find(|e| is(e))
}
