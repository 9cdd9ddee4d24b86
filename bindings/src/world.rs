//! The layout of a world, as it passes by value: the structs of `crates/world/src`, field by field and in their order,
//! laid out as C does (`repr(C)` on both sides). `staubharfe.h` says the same for C.

use crate::answers::{Answer, Refusal};

/// The sizes of document 01.
pub const SERVERS: usize = 8;
pub const REQUESTS: usize = 128;
pub const EXECUTIONS: usize = 16;
pub const PLACES: usize = 64;
pub const DELIVERIES: usize = SERVERS * EXECUTIONS;
pub const COMMAND: usize = 24;
pub const DIGEST: usize = 32;

/// Who takes part, and who of them is faulty.
#[repr(C)]
#[derive(Clone, Copy, PartialEq, Eq, Debug)]
pub struct Roster {
    pub n: u8,
    pub faulty: u8,
}

/// A slot of a request; the serial is the client's own number of it.
#[repr(C)]
#[derive(Clone, Copy, PartialEq, Eq, Debug)]
pub struct Request {
    pub serial: u32,
    pub client: u8,
    pub seals: u8,
    pub command: [u8; COMMAND],
    pub digest: [u8; DIGEST],
}

/// The stored requests, by slot.
#[repr(C)]
#[derive(Clone, Copy, PartialEq, Eq, Debug)]
pub struct Requests {
    pub slots: [Request; REQUESTS],
    pub count: u8,
}

/// What the orderer keeps of one sending; number 0 is none.
#[repr(C)]
#[derive(Clone, Copy, PartialEq, Eq, Debug)]
pub struct Execution {
    pub number: u32,
    pub id: u16,
    pub called: u8,
    pub mask: u8,
    pub digest: [u8; DIGEST],
}

/// The executions of one sender, the oldest first.
#[repr(C)]
#[derive(Clone, Copy, PartialEq, Eq, Debug)]
pub struct Executions {
    pub table: [Execution; EXECUTIONS],
    pub count: u8,
}

/// A sending: who sent it, under which id, the request of which slot.
#[repr(C)]
#[derive(Clone, Copy, PartialEq, Eq, Debug)]
pub struct Sending {
    pub id: u16,
    pub sender: u8,
    pub slot: u8,
}

/// An outgoing place: a packet, or none.
#[repr(C)]
#[derive(Clone, Copy, PartialEq, Eq, Debug)]
pub struct Packet {
    pub sending: Sending,
    pub there: bool,
    pub to: u8,
}

/// The outgoing places of one origin.
#[repr(C)]
#[derive(Clone, Copy, PartialEq, Eq, Debug)]
pub struct Outgoing {
    pub places: [Packet; PLACES],
}

/// A hold place: an entry at stage one to three, or, at stage 0, none.
#[repr(C)]
#[derive(Clone, Copy, PartialEq, Eq, Debug)]
pub struct Entry {
    pub number: u32,
    pub sending: Sending,
    pub stage: u8,
}

/// The hold places of one server.
#[repr(C)]
#[derive(Clone, Copy, PartialEq, Eq, Debug)]
pub struct Hold {
    pub places: [Entry; PLACES],
}

/// What one server has delivered, the first first.
#[repr(C)]
#[derive(Clone, Copy, PartialEq, Eq, Debug)]
pub struct Delivered {
    pub items: [Sending; DELIVERIES],
    pub count: u32,
}

/// The whole world between two steps.
#[repr(C)]
#[derive(Clone, Copy, PartialEq, Eq, Debug)]
pub struct World {
    pub roster: Roster,
    pub numbered: u32,
    pub requests: Requests,
    pub executions: [Executions; SERVERS],
    pub outgoing: [Outgoing; SERVERS],
    pub holds: [Hold; SERVERS],
    pub delivered: [Delivered; SERVERS],
}

/// A step's or a start's end: the code of its answer or refusal, and the world after.
#[repr(C)]
#[derive(Clone, Copy, PartialEq, Eq, Debug)]
pub struct Outcome {
    pub code: u8,
    pub world: World,
}

/// How a run ended: 0 and the count of records behind the start, or a refusal's code and offset; and the world at
/// its end, a world of zeros where it is refused.
#[repr(C)]
#[derive(Clone, Copy, PartialEq, Eq, Debug)]
pub struct Run {
    pub offset: usize,
    pub records: usize,
    pub code: u8,
    pub world: World,
}

impl Outcome {
    /// The code as an answer, or as a refusal.
    ///
    /// # Panics
    /// Where it is neither, which the contracts of `start` and `step` exclude.
    pub fn answer(&self) -> Result<Answer, Refusal> {
        let refusal = || Refusal::of(self.code).expect("a code is an answer's or a refusal's");
        Answer::of(self.code).ok_or_else(refusal)
    }
}

/// The sizes that `staubharfe.h` holds its structs to.
const _: () = {
    assert!(size_of::<Request>() == 64 && size_of::<Requests>() == 8196);
    assert!(size_of::<Execution>() == 40 && size_of::<Executions>() == 644);
    assert!(size_of::<Sending>() == 4 && size_of::<Packet>() == 6 && size_of::<Entry>() == 12);
    assert!(size_of::<World>() == 26_700);
};
