//! The records of a schedule, built field by field; `docs/PROTOCOL.md` says what each does.

use std::borrow::Borrow;
use std::ops::Deref;

use crate::world::{COMMAND, DIGEST, SERVERS};

/// The bytes of one record. Records joined are a schedule: `[Record::start(3, 0), Record::deliver(1)].concat()`.
#[derive(Clone, PartialEq, Eq, Debug)]
pub struct Record(Vec<u8>);

/// The mask of some servers: bit i is server i.
///
/// # Panics
/// Where a server is not 0 to 7: a mask has no bit for it.
pub fn mask(servers: &[u8]) -> u8 {
    servers.iter().fold(0, |mask, server| {
        assert!(usize::from(*server) < SERVERS, "a mask has no bit for server {server}");
        mask | 1 << server
    })
}

impl Record {
    /// 01: the world starts with n servers, of which those in the mask are faulty. It is the first record, and only it.
    pub fn start(n: u8, faulty: u8) -> Record {
        Record::of(&[&[0x01, n, faulty]])
    }

    /// 02: a client's request, with the serial that the client gave it, is stored in the next slot; its seal is good at
    /// the servers in the mask.
    pub fn request(client: u8, serial: u32, seals: u8, command: &[u8; COMMAND]) -> Record {
        Record::of(&[&[0x02, client], &serial.to_be_bytes(), &[seals], command])
    }

    /// 03: a correct server sends the request in a slot.
    pub fn multicast(server: u8, slot: u8) -> Record {
        Record::of(&[&[0x03, server, slot]])
    }

    /// 04: the packet in an outgoing place of an origin reaches whom it goes to.
    pub fn arrive(origin: u8, place: u8) -> Record {
        Record::of(&[&[0x04, origin, place]])
    }

    /// 05: a correct server calls the orderer for its entry in a hold place.
    pub fn propose(server: u8, place: u8) -> Record {
        Record::of(&[&[0x05, server, place]])
    }

    /// 06: a correct server takes the number for its entry in a hold place.
    pub fn settle(server: u8, place: u8) -> Record {
        Record::of(&[&[0x06, server, place]])
    }

    /// 07: a correct server delivers the entry with its next number.
    pub fn deliver(server: u8) -> Record {
        Record::of(&[&[0x07, server]])
    }

    /// 08: a faulty server sends a packet that claims any sending.
    pub fn forge_packet(from: u8, to: u8, sender: u8, id: u16, slot: u8) -> Record {
        Record::of(&[&[0x08, from, to, sender], &id.to_be_bytes(), &[slot]])
    }

    /// 09: a faulty server opens an execution with any digest.
    pub fn forge_send(server: u8, id: u16, digest: &[u8; DIGEST]) -> Record {
        Record::of(&[&[0x09, server], &id.to_be_bytes(), digest])
    }

    /// 0A: a faulty server calls for any execution with any digest.
    pub fn forge_receive(server: u8, sender: u8, id: u16, digest: &[u8; DIGEST]) -> Record {
        Record::of(&[&[0x0A, server, sender], &id.to_be_bytes(), digest])
    }

    /// The record of these parts.
    fn of(parts: &[&[u8]]) -> Record {
        Record(parts.concat())
    }
}

impl Deref for Record {
    type Target = [u8];

    /// Its bytes.
    fn deref(&self) -> &[u8] {
        &self.0
    }
}

impl Borrow<[u8]> for Record {
    /// Its bytes, so that records can be joined.
    fn borrow(&self) -> &[u8] {
        &self.0
    }
}

#[cfg(test)]
mod tests {
    use super::*;

    #[test]
    fn masks_have_a_bit_a_server() {
        assert_eq!([mask(&[]), mask(&[0]), mask(&[2, 0, 2]), mask(&[7])], [0, 1, 5, 128]);
    }

    #[test]
    #[should_panic(expected = "a mask has no bit for server 8")]
    fn a_ninth_server_has_no_bit() {
        mask(&[0, 8]);
    }

    #[test]
    fn records_are_joined_to_a_schedule() {
        assert_eq!([Record::start(3, mask(&[2])), Record::deliver(1)].concat(), [0x01, 3, 4, 0x07, 1]);
    }
}
