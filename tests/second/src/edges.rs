//! Document 01's case A and its edges B to L, and the readings that settle what it leaves open.

use crate::hex;
use crate::listing;
use crate::schedule::{self, Ran, Refusal, Refused};
use crate::sha256;
use crate::sound;
use crate::steps::{Answer, Mistake};
use crate::world::{bit, Entry, Execution, Packet, Sending, World, Zeros};

/// A request record with a number and seals; its command is 24 times 41 hex.
fn request(number: u8, seals: u8) -> Vec<u8> {
    [vec![2, 5, 0, 0, 0, number, seals], vec![0x41; 24]].concat()
}

/// A forged send record with an id and a digest of one repeated byte.
fn forged_send(server: u8, id: u8, digest: u8) -> Vec<u8> {
    [vec![9, server, 0, id], vec![digest; 32]].concat()
}

/// A run of records after a start.
fn run(n: u8, faulty: u8, records: &[Vec<u8>]) -> Result<(Ran, Vec<u8>), Refused> {
    let schedule = [vec![1, n, faulty], records.concat()].concat();
    let mut answers = vec![0; records.len()];
    schedule::run(&schedule, &mut answers).map(|ran| (ran, answers))
}

/// The answers of an accepted run.
fn answers(n: u8, faulty: u8, records: &[Vec<u8>]) -> Vec<u8> {
    run(n, faulty, records).expect("the schedule is accepted").1
}

/// The number and offset with which a schedule is refused.
fn refused(schedule: &[u8]) -> Option<(u8, usize)> {
    schedule::run(schedule, &mut [0; 99]).err().map(|refused| (refused.refusal.code(), refused.offset))
}

pub const CASE_A: &str = "
    01 03 00
    02 05 00000001 07 414141414141414141414141414141414141414141414141
    03 00 00  04 00 00  05 01 00  06 01 00  07 01  07 00  06 00 00  07 00
    04 01 00  05 02 00  06 02 00  07 02  04 00 01  05 02 00";

const LISTING_A: &str = "world 3 1 2 15
step 1 0
step 2 0
step 3 0
step 4 0
step 5 0
step 6 0
step 7 2
step 8 0
step 9 0
step 10 0
step 11 0
step 12 0
step 13 0
step 14 0
step 15 1
server 0 1 0.1.0
server 1 1 0.1.0
server 2 1 0.1.0
numbered 1
";

#[test]
fn case_a() {
    let schedule = hex::from_text(CASE_A).unwrap();
    assert_eq!(schedule.len(), 72);
    assert_eq!(listing::of_schedule(&schedule, Mistake::None), LISTING_A);
}

#[test]
fn b_three_of_eight_may_lie() {
    assert_eq!(refused(&[1, 8, 0b0111]), None);
    assert_eq!(refused(&[1, 8, 0b1111]), Some((25, 0)));
}

#[test]
fn c_none_of_two_may_lie() {
    assert_eq!(refused(&[1, 2, 1]), Some((25, 0)));
}

#[test]
fn d_one_server_alone() {
    let (ran, answers) = run(1, 0, &[request(1, 1), vec![3, 0, 0], vec![6, 0, 0], vec![7, 0]]).unwrap();
    assert_eq!(answers, [0; 4]);
    assert_eq!(ran.world.numbered, 1);
    assert_eq!(ran.world.server(0).delivered.stored(), [Sending { sender: 0, id: 1, slot: 0 }]);
}

#[test]
fn e_sixteen_forged_sends() {
    let sends: Vec<_> = (0..17).map(|id| forged_send(1, id, 7)).collect();
    assert_eq!(answers(3, 2, &sends), [vec![0; 16], vec![10]].concat());
}

#[test]
fn f_nine_multicasts_fill_63_places() {
    let records = [vec![request(1, 0xFF)], vec![vec![3, 0, 0]; 10]].concat();
    assert_eq!(answers(8, 0, &records), [vec![0; 10], vec![9]].concat());
}

#[test]
fn g_64_entries_fill_a_hold() {
    let mut records = vec![request(1, 7)];
    for id in 0..65 {
        records.extend([vec![8, 1, 0, 2, 0, id, 0], vec![4, 1, 0]]);
    }
    records.extend([vec![8, 1, 0, 2, 0, 9, 0], vec![4, 1, 0], vec![4, 1, 1], vec![3, 0, 0]]);
    let (ran, answers) = run(3, 2, &records).unwrap();
    assert_eq!(answers, [vec![0; 130], vec![9, 0, 9, 1, 9]].concat());
    assert!(ran.world.server(1).outgoing[0].used);
}

#[test]
fn h_the_same_request_twice() {
    assert_eq!(answers(3, 0, &[request(1, 7), request(1, 7), request(1, 3)]), [0, 8, 0]);
}

#[test]
fn i_to_k_refused_schedules() {
    assert_eq!(refused(&[]), Some((21, 0)));
    assert_eq!(refused(&[1, 3]), Some((24, 0)));
    assert_eq!(refused(&[1, 3, 0, 0x0B]), Some((22, 3)));
}

#[test]
fn l_a_dismissed_multicast_takes_no_id() {
    let (ran, answers) = run(3, 0, &[request(1, 6), request(2, 7), vec![3, 0, 0], vec![3, 0, 1]]).unwrap();
    assert_eq!(answers, [0, 0, 3, 0]);
    assert_eq!(ran.world.server(0).executions.stored()[0].id, 1);
}

#[test]
fn the_order_of_refusals() {
    assert_eq!(refused(&[1, 0, 0, 7]), Some((24, 3)));
    assert_eq!(refused(&[1, 3, 0, 7, 0, 1]), Some((23, 5)));
    assert_eq!(refused(&[1, 3, 0, 1, 3, 0]), Some((23, 3)));
    assert_eq!(refused(&[1, 3, 8]), Some((25, 0)));
    assert_eq!(refused(&[1, 9, 0]), Some((25, 0)));
    assert_eq!(refused(&[2, 3, 0]), Some((21, 0)));
    assert_eq!(refused(&[1; schedule::MAX_BYTES]), Some((23, 3)));
    assert_eq!(refused(&[2; schedule::MAX_BYTES + 1]), Some((20, 0)));
}

#[test]
fn a_small_answer_buffer_is_told_last() {
    let schedule = [1, 3, 0, 7, 0, 7, 1];
    let mut answers = [99; 3];
    assert_eq!(schedule::run(&schedule, &mut answers[..1]), Err(Refusal::OutSmall.at(0)));
    assert_eq!(answers, [99; 3]);
    assert_eq!(schedule::run(&schedule, &mut answers).unwrap().records, 2);
    assert_eq!(answers, [2, 2, 99]);
    assert_eq!(schedule::run(&[1, 0, 0, 7, 0], &mut []), Err(Refusal::BadStart.at(0)));
}

#[test]
fn a_single_step() {
    let mut world = schedule::start(3, 0).unwrap();
    assert_eq!(schedule::step(&mut world, &[]), Err(Refusal::Cut));
    assert_eq!(schedule::step(&mut world, &[0]), Err(Refusal::BadKind));
    assert_eq!(schedule::step(&mut world, &[0xFF]), Err(Refusal::BadKind));
    assert_eq!(schedule::step(&mut world, &[1]), Err(Refusal::SecondStart));
    assert_eq!(schedule::step(&mut world, &[3, 0]), Err(Refusal::Cut));
    assert_eq!(schedule::step(&mut world, &[7, 0, 99, 99]), Ok(Answer::Wait));
    assert_eq!(world, World::fresh(3, 0));
    world.faulty = 3;
    assert_eq!(schedule::step(&mut world, &[]), Err(Refusal::BadWorld));
    assert_eq!(schedule::start(0, 0), Err(Refusal::BadStart));
}

/// A sound world with something of everything: 0 and 1 proposed and 1 settled, 2 lies and has a send of its own.
fn rich_world() -> World {
    let digest = sha256::digest(&request(1, 7)[1..]);
    let records = [
        request(1, 7),
        request(2, 7),
        vec![3, 0, 0],
        vec![4, 0, 0],
        vec![5, 1, 0],
        vec![6, 1, 0],
        vec![3, 1, 1],
        [vec![9, 2, 1, 1], digest.to_vec()].concat(),
        vec![8, 2, 2, 0, 0, 9, 1],
    ];
    let (ran, answers) = run(3, 4, &records).unwrap();
    assert_eq!(answers, [0; 9]);
    ran.world
}

/// The clause that a change of the rich world breaks.
fn broken(change: impl Fn(&mut World)) -> Option<&'static str> {
    let mut world = rich_world();
    change(&mut world);
    sound::broken_clause(&world)
}

#[test]
fn each_clause_of_soundness_is_told() {
    let sending = Sending { sender: 0, id: 1, slot: 0 };
    let told = |change: &dyn Fn(&mut World), start: &str| {
        let clause = broken(change);
        assert!(clause.is_some_and(|clause| clause.starts_with(start)), "{start}: {clause:?}");
    };
    told(&|w| w.n = 0, "n and mask");
    told(&|w| w.n = 9, "n and mask");
    told(&|w| w.faulty = 6, "n and mask");
    told(&|w| w.requests.count = 129, "every count");
    told(&|w| w.servers[7].executions.count = 17, "every count");
    told(&|w| w.servers[3].hold[9].sending.id = 1, "all that belongs");
    told(&|w| w.requests.places[5].body[0] = 1, "free and unused");
    told(&|w| w.servers[0].executions.places[15].called = 1, "free and unused");
    told(&|w| w.servers[0].delivered.places[127].id = 1, "free and unused");
    told(&|w| w.servers[1].outgoing[63].to = 1, "free and unused");
    told(&|w| w.servers[1].hold[63].number = 1, "free and unused");
    told(&|w| w.servers[1].hold[0].stage = 4, "no stage");
    told(&|w| w.servers[2].outgoing[0].to = 3, "every server");
    told(&|w| w.servers[2].outgoing[0].sending.sender = 3, "every server");
    told(&|w| w.servers[2].outgoing[0].sending.slot = 2, "every slot");
    told(&|w| w.servers[0].delivered.append(Sending { slot: 2, ..sending }), "every slot");
    told(&|w| w.servers[0].executions.places[0].called |= bit(3), "no mask");
    told(&|w| w.requests.places[0].body[5] = 15, "seals");
    told(&|w| w.requests.places[0].body[0] ^= 1, "stored digests are");
    told(&|w| w.requests.places[1] = w.requests.places[0], "stored digests differ");
    told(&|w| w.servers[2].executions.append(Execution::fresh(2, 257, [0; 32])), "execution keys");
    told(&|w| w.servers[0].executions.places[0].called = bit(0), "each mask");
    told(&|w| w.servers[2].executions.places[0].mask = 0, "each mask");
    told(&|w| w.servers[0].executions.places[0].number = 0, "an execution is numbered");
    told(&|w| w.servers[2].executions.places[0].number = 2, "an execution is numbered");
    told(&|w| w.servers[1].executions.places[0].id = 2, "a correct server's");
    told(&|w| w.numbered = 2, "the numbers given");
    told(&|w| w.servers[0].executions.places[0].number = 2, "the numbers given");
    told(&|w| w.servers[1].hold[0].sending.id = 7, "a held entry");
    told(&|w| w.servers[1].hold[0].number = 0, "an entry has");
    told(&|w| w.servers[0].hold[0].number = 1, "an entry has");
    told(&|w| w.servers[1].hold[0].number = 2, "an entry's number");
    told(&|w| (0..2).for_each(|_| w.servers[0].delivered.append(sending)), "a server's delivered");
}

#[test]
fn soundness_asks_no_more() {
    let sending = Sending { sender: 0, id: 77, slot: 1 };
    assert_eq!(broken(|_| ()), None);
    assert_eq!(broken(|w| w.servers[0].delivered.append(sending)), None);
    assert_eq!(broken(|w| w.servers[2].hold[3] = Entry::fresh(Entry::ONE, sending)), None);
    assert_eq!(broken(|w| w.servers[1].hold[9] = w.servers[1].hold[0]), None);
    assert_eq!(broken(|w| w.servers[0].outgoing[9] = Packet::fresh(0, sending)), None);
    assert_eq!(broken(|w| w.servers[2].executions.places[0].called = 7), None);
    assert_eq!(
        broken(|w| {
            w.servers[2].executions.places[0].called = 7;
            w.servers[2].executions.places[0].mask = 7;
        }),
        None,
        "a mask of more than T members without a number"
    );
    assert_ne!(Entry::ZEROS, Entry::fresh(Entry::ONE, Sending::ZEROS));
}
