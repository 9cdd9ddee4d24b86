//! Compares the proved digest with the one of the second implementation: its code and its bytes.

use bridge::world::DIGEST;
use bridge::{sha256, Refusal, DONE};
use second::hex;
use second::random::Random;
use second::sha256::short_digest;

const LONGEST: usize = 60;
const RANDOM_PER_LENGTH: usize = 20;
const RANDOM: usize = 5_000;

/// What lies in the lent bytes before a call, so that a byte that is not written shows.
const BEFORE: u8 = 0xA5;

/// Both must say the same of a message.
fn agrees(message: &[u8]) {
    let mut bytes = [BEFORE; DIGEST];
    let code = sha256(message, &mut bytes);
    let expected = match short_digest(message) {
        Some(digest) => (DONE, digest),
        None => (Refusal::DigestLong.code(), [0; DIGEST]),
    };
    assert_eq!((code, bytes), expected, "a message of {} bytes: {}", message.len(), hex::to_text(message));
}

#[test]
fn every_length() {
    let mut random = Random::new(2, 0);
    for length in 0..=LONGEST {
        agrees(&vec![0x00; length]);
        agrees(&vec![0xFF; length]);
        (0..RANDOM_PER_LENGTH).for_each(|_| agrees(&random.bytes(length)));
    }
}

#[test]
fn random_messages() {
    let mut random = Random::new(2, 1);
    for _ in 0..RANDOM {
        let length = random.between(0, LONGEST);
        agrees(&random.bytes(length));
    }
}

#[test]
fn long_messages_are_refused() {
    for length in [61, 64, 100, 119, 120, 4_096, 100_000] {
        agrees(&vec![0x61; length]);
    }
}

#[test]
fn nothing_beside_the_lent_bytes_is_written() {
    for length in [0, 30, 55, 56] {
        let mut room = [[BEFORE; DIGEST]; 3];
        sha256(&vec![0x61; length], &mut room[1]);
        assert_eq!([room[0], room[2]], [[BEFORE; DIGEST]; 2], "a message of {length} bytes");
    }
}
