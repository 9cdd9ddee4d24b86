//! Starts and single steps of the proved program, from Rust.

use bridge::world::{Outcome, World, SERVERS};
use bridge::{start, step, DONE};
use bridge_tests::translate::to_second;
use second::schedule::{self, Refusal};

/// The world of three servers, none of them faulty, before the first step.
fn fresh() -> World {
    start(3, 0).world
}

/// The masks with which a world of n servers is started: every one as long as there can be so many servers, and one
/// more; from there on all are refused, and a few stand for them.
fn masks(n: u8) -> Vec<u8> {
    match usize::from(n) <= SERVERS + 1 {
        true => (0..=u8::MAX).collect(),
        false => vec![0, 1, 0x80, u8::MAX],
    }
}

#[test]
fn every_start() {
    let zeros = start(0, 0).world;
    for (n, faulty) in (0..=u8::MAX).flat_map(|n| masks(n).into_iter().map(move |faulty| (n, faulty))) {
        let taken = start(n, faulty);
        match schedule::start(n, faulty) {
            Ok(world) => assert_eq!((taken.code, to_second(&taken.world)), (DONE, Some(world))),
            Err(refusal) => assert_eq!(taken, Outcome { code: refusal.code(), world: zeros }),
        }
    }
}

#[test]
fn refused_records_leave_the_world() {
    let world = fresh();
    let refused: [(&[u8], Refusal); 6] = [
        (&[], Refusal::Cut),
        (&[0x00], Refusal::BadKind),
        (&[0x0B, 0x00], Refusal::BadKind),
        (&[0x01], Refusal::SecondStart),
        (&[0x01, 0x03, 0x00], Refusal::SecondStart),
        (&[0x03, 0x00], Refusal::Cut),
    ];
    for (record, refusal) in refused {
        assert_eq!(step(&world, record), Outcome { code: refusal.code(), world }, "{record:?}");
    }
}

#[test]
fn bytes_behind_the_record_are_ignored() {
    let world = fresh();
    let record = [0x07, 0x02];
    for behind in [&[][..], &[0x00], &[0xFF; 40]] {
        assert_eq!(step(&world, &[&record, behind].concat()), step(&world, &record));
    }
}

#[test]
fn a_bad_world_is_told_before_a_bad_record() {
    let mut world = fresh();
    world.roster.faulty = 0b011;
    for record in [&[][..], &[0x00], &[0x01], &[0x07, 0x00]] {
        assert_eq!(step(&world, record), Outcome { code: Refusal::BadWorld.code(), world }, "{record:?}");
    }
}
