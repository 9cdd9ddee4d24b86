//! The record builders and the named answers, held to the second implementation's.

use bridge::{rehearse, start, step, Answer, Record, Refusal, Refused};
use second::random::Random;
use second::schedule::{self, write_step, Steps, MAX_BYTES};
use second::steps::{self, Step};
use second::world::Request;
use second::{generate, hex};

const SCHEDULES: u64 = 40;

/// The record of a step, by its builder.
fn built(step: &Step) -> Record {
    match *step {
        Step::Request { body } => request(&body),
        Step::Multicast { server, slot } => Record::multicast(server, slot),
        Step::Arrive { origin, place } => Record::arrive(origin, place),
        Step::Propose { server, place } => Record::propose(server, place),
        Step::Settle { server, place } => Record::settle(server, place),
        Step::Deliver { server } => Record::deliver(server),
        Step::ForgePacket { from, to, sending } => {
            Record::forge_packet(from, to, sending.sender, sending.id, sending.slot)
        }
        Step::ForgeSend { server, id, digest } => Record::forge_send(server, id, &digest),
        Step::ForgeReceive { server, sender, id, digest } => Record::forge_receive(server, sender, id, &digest),
    }
}

/// A request's record, from its 30 bytes.
fn request(body: &[u8; Request::BODY]) -> Record {
    let (head, command) = body.split_at(Request::SEALS + 1);
    let serial = u32::from_be_bytes([head[1], head[2], head[3], head[4]]);
    Record::request(head[0], serial, head[Request::SEALS], command.try_into().expect("24 bytes"))
}

#[test]
fn every_kind_has_its_bytes() {
    let mut kinds = [0; 11];
    for index in 0..SCHEDULES {
        let bytes = generate::schedule(3, index);
        if schedule::check(&bytes).is_err() {
            continue;
        }
        for (_, step) in Steps::after_start(&bytes) {
            let mut expected = Vec::new();
            write_step(&mut expected, &step);
            assert_eq!(*built(&step), expected, "{}", hex::to_text(&expected));
            kinds[usize::from(expected[0])] += 1;
        }
    }
    assert!(kinds[2..].iter().all(|count| *count > 0), "not every kind was built: {kinds:?}");
    assert_eq!(*Record::start(5, 0x10), [schedule::START, 5, 0x10]);
}

#[test]
fn runs_are_named() {
    let mut random = Random::new(3, 0);
    let mut schedules: Vec<_> = (0..SCHEDULES).map(|index| generate::schedule(3, index)).collect();
    schedules.extend([random.bytes(40), vec![], vec![0x01, 3, 0, 0x0B], vec![0x01; MAX_BYTES + 1]]);
    for bytes in schedules {
        let mut codes = vec![0; MAX_BYTES];
        let expected = schedule::run(&bytes, &mut codes);
        match (rehearse(&bytes), expected) {
            (Ok(ran), Ok(other)) => {
                let named: Vec<u8> = ran.answers.iter().map(|answer| answer.code()).collect();
                assert_eq!(named, codes[..other.records]);
            }
            (Err(Refused { refusal, offset }), Err(other)) => {
                assert_eq!((refusal.code(), offset), (other.refusal.code(), other.offset));
            }
            _ => panic!("refused by one alone: {}", hex::to_text(&bytes)),
        }
    }
}

#[test]
fn names_are_those_of_the_second_implementation() {
    assert_eq!(Answer::ALL.map(|(_, name)| name), steps::Answer::NAMES);
    assert_eq!(Refusal::ALL.map(|(_, name)| name), schedule::Refusal::NAMES);
}

#[test]
fn the_header_for_c_has_the_same_names() {
    let header = include_str!("../../../bindings/staubharfe.h");
    let each = header.split_once("STAUBHARFE_EACH_CODE(X)").and_then(|(_, rest)| rest.split_once("\n\n"));
    let (codes, _) = each.expect("the header lists each code");
    let named: Vec<&str> = codes.split("X(").skip(1).filter_map(|one| one.split(')').next()).collect();
    let answers = Answer::ALL.iter().map(|(answer, name)| format!("{name}, {}", answer.code()));
    let refusals = Refusal::ALL.iter().map(|(refusal, name)| format!("{name}, {}", refusal.code()));
    assert_eq!(named, answers.chain(refusals).collect::<Vec<_>>());
}

#[test]
fn a_single_step_is_named() {
    assert_eq!(start(0, 0).answer(), Err(Refusal::BadStart));
    let taken = start(1, 0);
    assert_eq!(taken.answer(), Ok(Answer::Done));
    assert_eq!(step(&taken.world, &Record::deliver(0)).answer(), Ok(Answer::Wait));
    assert_eq!(step(&taken.world, &Record::start(1, 0)).answer(), Err(Refusal::SecondStart));
}
