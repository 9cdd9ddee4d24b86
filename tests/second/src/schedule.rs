//! Schedules: the record reader, the refusals, a whole run and a single step.

use crate::sha256::Digest;
use crate::sound;
use crate::steps::{self, Answer, Mistake, Step};
use crate::world::{Mask, Request, Sending, World};

/// The longest schedule, in bytes.
pub const MAX_BYTES: usize = 32_768;

/// The first byte of a start record.
pub const START: u8 = 0x01;

/// The kinds of the other records.
mod kind {
    pub const REQUEST: u8 = 0x02;
    pub const MULTICAST: u8 = 0x03;
    pub const ARRIVE: u8 = 0x04;
    pub const PROPOSE: u8 = 0x05;
    pub const SETTLE: u8 = 0x06;
    pub const DELIVER: u8 = 0x07;
    pub const FORGE_PACKET: u8 = 0x08;
    pub const FORGE_SEND: u8 = 0x09;
    pub const FORGE_RECEIVE: u8 = 0x0A;
    pub const FIRST_BAD: u8 = 0x0B;
}

/// Why something is refused, with document 01's number as its code.
#[derive(Clone, Copy, PartialEq, Eq, Debug)]
#[repr(u8)]
pub enum Refusal {
    TooLong = 20,
    NoStart = 21,
    BadKind = 22,
    SecondStart = 23,
    Cut = 24,
    BadStart = 25,
    OutSmall = 26,
    BadWorld = 27,
    DigestLong = 28,
}

impl Refusal {
    /// The first refusal's code.
    pub const FIRST: u8 = Refusal::TooLong as u8;
    /// Document 01's names, from the first code on.
    pub const NAMES: [&str; 9] = [
        "TOO_LONG",
        "NO_START",
        "BAD_KIND",
        "SECOND_START",
        "CUT",
        "BAD_START",
        "OUT_SMALL",
        "BAD_WORLD",
        "DIGEST_LONG",
    ];

    /// Every refusal, from the first code on.
    pub const ALL: [Refusal; 9] = [
        Refusal::TooLong,
        Refusal::NoStart,
        Refusal::BadKind,
        Refusal::SecondStart,
        Refusal::Cut,
        Refusal::BadStart,
        Refusal::OutSmall,
        Refusal::BadWorld,
        Refusal::DigestLong,
    ];

    /// Document 01's number.
    pub fn code(self) -> u8 {
        self as u8
    }

    /// Document 01's name.
    pub fn name(self) -> &'static str {
        Refusal::NAMES[usize::from(self.code() - Refusal::FIRST)]
    }

    /// The refusal at an offset.
    pub fn at(self, offset: usize) -> Refused {
        Refused { refusal: self, offset }
    }
}

/// A refused schedule: why, and where.
#[derive(Clone, Copy, PartialEq, Eq, Debug)]
pub struct Refused {
    pub refusal: Refusal,
    pub offset: usize,
}

/// An accepted schedule's end: the world, and how many records came after the start.
#[derive(Clone, PartialEq, Eq, Debug)]
pub struct Ran {
    pub world: World,
    pub records: usize,
}

/// A fresh world; refused, there is none (document 01's world of zeros).
pub fn start(n: u8, faulty: Mask) -> Result<World, Refusal> {
    if World::may_start(n, faulty) {
        Ok(World::fresh(n, faulty))
    } else {
        Err(Refusal::BadStart)
    }
}

/// Does the one record at the front of the bytes, or refuses and leaves the world as it is.
pub fn step(world: &mut World, bytes: &[u8]) -> Result<Answer, Refusal> {
    if !sound::is_sound(world) {
        return Err(Refusal::BadWorld);
    }
    let (step, _) = read_step(bytes)?;
    Ok(steps::apply(world, &step, Mistake::None))
}

/// Runs a whole schedule and writes one answer for each record after the start.
pub fn run(schedule: &[u8], answers: &mut [u8]) -> Result<Ran, Refused> {
    run_mistaken(schedule, answers, Mistake::None)
}

/// As `run`, with a planted mistake.
pub fn run_mistaken(schedule: &[u8], answers: &mut [u8], mistake: Mistake) -> Result<Ran, Refused> {
    let accepted = check(schedule)?;
    if answers.len() < accepted.records {
        return Err(Refusal::OutSmall.at(0));
    }
    let mut world = accepted.world;
    for ((_, step), answer) in accepted.steps.zip(answers) {
        *answer = steps::apply(&mut world, &step, mistake).code();
    }
    Ok(Ran { world, records: accepted.records })
}

/// A schedule that passed all tests: its fresh world and the steps to do.
pub struct Accepted<'a> {
    pub world: World,
    pub records: usize,
    pub steps: Steps<'a>,
}

/// The tests 20 to 25 on a whole schedule, in document 01's order.
pub fn check(schedule: &[u8]) -> Result<Accepted<'_>, Refused> {
    if schedule.len() > MAX_BYTES {
        return Err(Refusal::TooLong.at(0));
    }
    if schedule.first() != Some(&START) {
        return Err(Refusal::NoStart.at(0));
    }
    let mut fields = Fields { bytes: schedule, used: 1 };
    let [n, faulty] = fields.take().map_err(|refusal| refusal.at(0))?;
    let steps = Steps { bytes: schedule, offset: fields.used, refused: None };
    let mut reader = steps.clone();
    let records = reader.by_ref().count();
    if let Some(refused) = reader.refused {
        return Err(refused);
    }
    let world = start(n, faulty).map_err(|refusal| refusal.at(0))?;
    Ok(Accepted { world, records, steps })
}

/// The record reader: the steps with their offsets, up to the end or the first record that is refused.
#[derive(Clone)]
pub struct Steps<'a> {
    bytes: &'a [u8],
    offset: usize,
    refused: Option<Refused>,
}

impl<'a> Steps<'a> {
    /// The reader of what comes after a start, whatever the start says.
    pub fn after_start(schedule: &'a [u8]) -> Steps<'a> {
        Steps { bytes: schedule, offset: 3, refused: None }
    }

    /// Where the next record begins, or the one that is refused.
    pub fn offset(&self) -> usize {
        self.offset
    }
}

impl Iterator for Steps<'_> {
    type Item = (usize, Step);

    fn next(&mut self) -> Option<(usize, Step)> {
        let offset = self.offset;
        let rest = self.bytes.get(offset..).filter(|rest| !rest.is_empty())?;
        match read_step(rest) {
            Ok((step, size)) => {
                self.offset += size;
                Some((offset, step))
            }
            Err(refusal) => {
                self.refused = Some(refusal.at(offset));
                None
            }
        }
    }
}

/// Reads the step record at the front of the bytes, and tells its size.
pub fn read_step(bytes: &[u8]) -> Result<(Step, usize), Refusal> {
    let mut fields = Fields { bytes, used: 0 };
    let step = match fields.byte()? {
        0x00 | kind::FIRST_BAD..=0xFF => return Err(Refusal::BadKind),
        START => return Err(Refusal::SecondStart),
        kind::REQUEST => Step::Request { body: fields.take::<{ Request::BODY }>()? },
        kind::MULTICAST => Step::Multicast { server: fields.byte()?, slot: fields.byte()? },
        kind::ARRIVE => Step::Arrive { origin: fields.byte()?, place: fields.byte()? },
        kind::PROPOSE => Step::Propose { server: fields.byte()?, place: fields.byte()? },
        kind::SETTLE => Step::Settle { server: fields.byte()?, place: fields.byte()? },
        kind::DELIVER => Step::Deliver { server: fields.byte()? },
        kind::FORGE_PACKET => Step::ForgePacket {
            from: fields.byte()?,
            to: fields.byte()?,
            sending: Sending { sender: fields.byte()?, id: fields.id()?, slot: fields.byte()? },
        },
        kind::FORGE_SEND => Step::ForgeSend { server: fields.byte()?, id: fields.id()?, digest: fields.digest()? },
        kind::FORGE_RECEIVE => Step::ForgeReceive {
            server: fields.byte()?,
            sender: fields.byte()?,
            id: fields.id()?,
            digest: fields.digest()?,
        },
    };
    Ok((step, fields.used))
}

/// Writes a step as a record at the end of a schedule.
pub fn write_step(schedule: &mut Vec<u8>, step: &Step) {
    match *step {
        Step::Request { body } => {
            schedule.push(kind::REQUEST);
            schedule.extend(body);
        }
        Step::Multicast { server, slot } => schedule.extend([kind::MULTICAST, server, slot]),
        Step::Arrive { origin, place } => schedule.extend([kind::ARRIVE, origin, place]),
        Step::Propose { server, place } => schedule.extend([kind::PROPOSE, server, place]),
        Step::Settle { server, place } => schedule.extend([kind::SETTLE, server, place]),
        Step::Deliver { server } => schedule.extend([kind::DELIVER, server]),
        Step::ForgePacket { from, to, sending } => {
            schedule.extend([kind::FORGE_PACKET, from, to, sending.sender]);
            schedule.extend(sending.id.to_be_bytes());
            schedule.push(sending.slot);
        }
        Step::ForgeSend { server, id, digest } => {
            schedule.extend([kind::FORGE_SEND, server]);
            schedule.extend(id.to_be_bytes());
            schedule.extend(digest);
        }
        Step::ForgeReceive { server, sender, id, digest } => {
            schedule.extend([kind::FORGE_RECEIVE, server, sender]);
            schedule.extend(id.to_be_bytes());
            schedule.extend(digest);
        }
    }
}

/// The fields of a record, read from its front; a missing byte is CUT.
struct Fields<'a> {
    bytes: &'a [u8],
    used: usize,
}

impl Fields<'_> {
    /// The next bytes.
    fn take<const SIZE: usize>(&mut self) -> Result<[u8; SIZE], Refusal> {
        let field = *self.bytes[self.used..].first_chunk().ok_or(Refusal::Cut)?;
        self.used += SIZE;
        Ok(field)
    }

    /// The next byte.
    fn byte(&mut self) -> Result<u8, Refusal> {
        self.take().map(|[byte]| byte)
    }

    /// The next two bytes, an id.
    fn id(&mut self) -> Result<u16, Refusal> {
        self.take().map(u16::from_be_bytes)
    }

    /// The next 32 bytes, a digest.
    fn digest(&mut self) -> Result<Digest, Refusal> {
        self.take()
    }
}
