//! The boundary: each function that the Rattle crate `bridge` exports, declared once and wrapped once.
//!
//! What passes how:
//!
//! | Rattle | here |
//! |---|---|
//! | `u8`, `bool` | `u8`, `bool` |
//! | `&[u8]` | two parameters, `*const u8` to the first byte and then `usize`, the length; nothing is written there |
//! | `&mut [u8]` | the same with `*mut u8`; these bytes may be written, and no others |
//! | `&mut [u8; N]` | one parameter, `*mut [u8; N]`; all N bytes may be written, and no others |
//! | `World`, `Outcome`, `Run` | the struct of that name in `world`, by value: a caller's own is never written |
//!
//! Nothing checks these declarations against `crates/bridge/src/lib.rt`, nor the structs against `crates/world/src`:
//! whoever changes one changes the other, and `staubharfe.h`, which says the same for C. The comparisons of
//! `tests/bridge` would show it: they hold every field of worlds that runs reach to the second implementation's. No
//! exported function has a `requires`, so the wrappers have nothing to test; what they owe is that the bytes behind a
//! pointer are there, and are lent to nobody else while the call runs.
//!
//! Above the boundary: `Record` builds a schedule, `rehearse` runs it with a buffer of its own, and `Answer` and
//! `Refusal` name the codes. A code is always an answer's or a refusal's; a number is what the orderer gives; a serial
//! is a client's own number of its request.

pub mod answers;
pub mod record;
pub mod world;

pub use answers::{Answer, Refusal};
pub use record::{mask, Record};
use world::{Outcome, Run, World, DIGEST};

/// The code of what was done: a digest that was made, a world that was started, a schedule that was run.
pub const DONE: u8 = Answer::Done as u8;

/// The most bytes of a schedule.
pub const LONGEST: usize = 32_768;

extern "C" {
    // pub extern "C" fn staubharfe_sha256(message: &[u8], out: &mut [u8; Digest::BYTES]) -> u8
    fn staubharfe_sha256(message: *const u8, length: usize, out: *mut [u8; DIGEST]) -> u8;
    // pub extern "C" fn staubharfe_start(n: u8, faulty: u8) -> Outcome
    fn staubharfe_start(n: u8, faulty: u8) -> Outcome;
    // pub extern "C" fn staubharfe_step(world: World, bytes: &[u8]) -> Outcome
    fn staubharfe_step(world: World, record: *const u8, length: usize) -> Outcome;
    // pub extern "C" fn staubharfe_run(schedule: &[u8], answers: &mut [u8]) -> Run
    fn staubharfe_run(schedule: *const u8, length: usize, answers: *mut u8, room: usize) -> Run;
    // pub extern "C" fn staubharfe_quiet(world: World) -> bool
    fn staubharfe_quiet(world: World) -> bool;
}

/// Writes the digest of a message of at most 55 bytes, and answers `DONE`; for a longer one zeros, and 28.
pub fn sha256(message: &[u8], out: &mut [u8; DIGEST]) -> u8 {
    // SAFETY: both pointers come from references that live through the call, and `out` is lent to it alone.
    unsafe { staubharfe_sha256(message.as_ptr(), message.len(), out) }
}

/// A fresh world with `DONE`; 25 and a world of zeros where no world may start so.
pub fn start(n: u8, faulty: u8) -> Outcome {
    // SAFETY: nothing is lent.
    unsafe { staubharfe_start(n, faulty) }
}

/// The step of one record: its answer's code, or why it is refused, and the world after.
pub fn step(world: &World, record: &[u8]) -> Outcome {
    // SAFETY: the pointer comes from a reference that lives through the call; the world goes by value.
    unsafe { staubharfe_step(*world, record.as_ptr(), record.len()) }
}

/// Runs a schedule and writes one answer for each record behind the start.
pub fn run(schedule: &[u8], answers: &mut [u8]) -> Run {
    // SAFETY: both pointers come from references that live through the call, and `answers` is lent to it alone.
    unsafe { staubharfe_run(schedule.as_ptr(), schedule.len(), answers.as_mut_ptr(), answers.len()) }
}

/// Whether a world is quiet.
pub fn quiet(world: &World) -> bool {
    // SAFETY: the world goes by value.
    unsafe { staubharfe_quiet(*world) }
}

/// An accepted schedule's run: one answer for each record behind the start, and the world at its end.
#[derive(Clone, PartialEq, Eq, Debug)]
pub struct Rehearsed {
    pub answers: Vec<Answer>,
    pub world: Box<World>,
}

/// A refused schedule: why, and at which byte.
#[derive(Clone, Copy, PartialEq, Eq, Debug)]
pub struct Refused {
    pub refusal: Refusal,
    pub offset: usize,
}

/// Runs a schedule with a buffer of its own, and names the answers.
///
/// # Panics
/// Where `run` hands back a code that is no answer and no refusal, which its contract excludes.
pub fn rehearse(schedule: &[u8]) -> Result<Rehearsed, Refused> {
    let mut codes = vec![0; LONGEST];
    let ran = run(schedule, &mut codes);
    if ran.code != DONE {
        let refusal = Refusal::of(ran.code).expect("a run that is not done is refused");
        return Err(Refused { refusal, offset: ran.offset });
    }
    let answer = |code: &u8| Answer::of(*code).expect("a step has one of the answers");
    Ok(Rehearsed { answers: codes[..ran.records].iter().map(answer).collect(), world: Box::new(ran.world) })
}

/// The README's snippets are run as tests.
#[cfg(doctest)]
#[doc = include_str!("../../README.md")]
struct Readme;
