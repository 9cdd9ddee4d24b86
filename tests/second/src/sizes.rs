//! Schedules to time: one nearly as long as a schedule may be, and its first half and quarter.

use crate::generate;
use crate::schedule::{self, Steps, MAX_BYTES};

/// How many bytes less than the longest schedule still count as long.
const SHORT_OF: usize = 64;

/// A schedule that is accepted, and how many records it has behind the start.
pub struct Timed {
    pub bytes: Vec<u8>,
    pub records: usize,
}

/// A quarter, a half and the whole of a long schedule's records.
pub fn three_sizes(seed: u64) -> [Timed; 3] {
    let long = long(seed);
    [4, 2, 1].map(|parts| beginning(&long, parts))
}

/// The first generated schedule that is accepted and long.
fn long(seed: u64) -> Vec<u8> {
    let long = |bytes: &Vec<u8>| bytes.len() <= MAX_BYTES && bytes.len() + SHORT_OF > MAX_BYTES;
    (0..)
        .map(|index| generate::schedule(seed, index))
        .find(|bytes| long(bytes) && schedule::check(bytes).is_ok())
        .expect("some generated schedule is long and accepted")
}

/// The first of so many equal parts of a schedule's records, with the start.
fn beginning(bytes: &[u8], parts: usize) -> Timed {
    let mut steps = Steps::after_start(bytes);
    let mut ends = vec![steps.offset()];
    while steps.next().is_some() {
        ends.push(steps.offset());
    }
    let records = (ends.len() - 1) / parts;
    Timed { bytes: bytes[..ends[records]].to_vec(), records }
}
