//! The schedule language both ways.

use std::fs;
use std::path::Path;

use second::generate;
use second::schedule::MAX_BYTES;
use staubharfe::commands::read::to_text;
use staubharfe::language::{to_bytes, BadText};

/// The bytes of an example.
fn example(name: &str) -> Vec<u8> {
    fs::read(Path::new(env!("CARGO_MANIFEST_DIR")).join("../examples").join(name)).expect("the example can be read")
}

/// Reading a schedule and writing it again gives the same bytes.
fn round_trips(name: &str, schedule: &[u8]) {
    let (text, _) = to_text(schedule);
    let again = to_bytes(&text).unwrap_or_else(|bad| panic!("{name}: {bad:?}"));
    assert!(again == schedule, "{name} does not come back:\n{text}");
}

/// Where a text is bad, and why.
fn bad(text: &str) -> (usize, usize, String) {
    let BadText { line, column, why } = to_bytes(text).expect_err(text);
    (line, column, why)
}

/// Where a text is bad.
fn place(text: &str) -> (usize, usize) {
    let (line, column, _) = bad(text);
    (line, column)
}

#[test]
fn the_incident_is_written_in_words() {
    let text = "\
# server 4 forges a packet to server 1, which claims sender 0, before the true one arrives
start 5 faulty 4
request client 5 number 1 command 02000700000063
request client 5 number 2 seals all command 0200070000000b
multicast 0 slot 0
forge packet from 4 to 1 sending 0.1.1
arrive at 1 from 4
propose 1
arrive at 2 from 0
propose 2
arrive at 3 from 0
propose 3
arrive at 1 from 0
propose 1
settle 2
deliver 2
settle 3
deliver 3
settle 0
deliver 0
settle 1
deliver 1
arrive at 1 from 2
propose 1
arrive at 1 from 3
propose 1
";
    assert_eq!(to_bytes(text), Ok(example("incident5.bin")));
}

#[test]
fn commented_hex_is_still_read() {
    for item in fs::read_dir(Path::new(env!("CARGO_MANIFEST_DIR")).join("../examples")).unwrap() {
        let path = item.unwrap().path();
        if path.extension().is_some_and(|extension| extension == "hex") {
            let text = fs::read_to_string(&path).unwrap();
            assert_eq!(to_bytes(&text).ok(), fs::read(path.with_extension("bin")).ok(), "{}", path.display());
        }
    }
}

#[test]
fn examples_and_generated_schedules_come_back() {
    for item in fs::read_dir(Path::new(env!("CARGO_MANIFEST_DIR")).join("../examples")).unwrap() {
        let path = item.unwrap().path();
        if path.extension().is_some_and(|extension| extension == "bin") {
            round_trips(&path.display().to_string(), &fs::read(&path).unwrap());
        }
    }
    for index in [0, 1, 2, 10, 12, 13, 14, 15, 28, 29, 30, 31] {
        let mut schedule = generate::schedule(8, index);
        if schedule.len() <= MAX_BYTES {
            schedule.truncate(1_500);
        }
        round_trips(&format!("generated {index}"), &schedule);
    }
}

#[test]
fn refused_schedules_come_back() {
    let too_long = [vec![1, 3, 0], [7, 0].repeat(MAX_BYTES / 2)].concat();
    let refused: [&[u8]; 9] = [
        &[],
        &[1],
        &[1, 3],
        &[0],
        &[2, 3, 4],
        &[1, 9, 255],
        &[1, 3, 0, 1, 3, 0],
        &[1, 3, 0, 7, 0, 11, 7, 0],
        &too_long,
    ];
    for schedule in refused {
        assert!(to_text(schedule).1.is_some());
        round_trips("refused", schedule);
    }
}

#[test]
fn places_are_found_or_said() {
    let start = "start 3\nrequest number 1\nmulticast 0 slot 0\nmulticast 0 slot 0\n";
    let last = |line: &str| to_bytes(&format!("{start}{line}")).map(|bytes| bytes[bytes.len() - 3..].to_vec());
    assert_eq!(last("arrive at 2 from 0"), Ok(vec![4, 0, 1]));
    assert_eq!(last("arrive at 2 from 0 sending 0.2.0"), Ok(vec![4, 0, 3]));
    assert_eq!(last("arrive at 2 from 0 place 3"), Ok(vec![4, 0, 3]));
    assert_eq!(last("arrive from 0 place 200"), Ok(vec![4, 0, 200]));
    assert_eq!(last("settle 0 sending 0.2.0"), Ok(vec![6, 0, 1]));
    assert_eq!(last("propose 9 place 9"), Ok(vec![5, 9, 9]));
    assert!(last("arrive at 2 from 0 place 0").is_err());
    assert!(last("arrive at 2 from 1").is_err());
    assert!(last("propose 1").is_err());
    assert!(last("settle 7").is_err());
}

#[test]
fn digests_are_given_or_found() {
    let start = "start 3 faulty 2\nrequest number 1\n";
    let digest = "ab".repeat(32);
    let given =
        to_bytes(&format!("{start}forge send 2 id 1 digest {digest}\nforge receive 2 execution 0.1 digest {digest}"));
    assert_eq!(given.map(|bytes| bytes.len()), Ok(3 + 31 + 36 + 37));
    assert!(to_bytes(&format!("{start}forge send 2 id 1 digest of slot 0")).is_ok());
    assert_eq!(place(&format!("{start}forge send 2 id 1 digest of slot 1")), (3, 26));
    assert_eq!(place(&format!("{start}forge send 2 id 1 digest abcd")), (3, 26));
}

#[test]
fn errors_have_line_and_column() {
    assert_eq!(bad("start 3\nmulticast 0 slto 0").2, "here `slot` is expected, not \"slto\"");
    assert_eq!(place("start 3\nmulticast 0 slto 0"), (2, 13));
    assert_eq!(place("start 3\n\n  multicast 0"), (3, 14));
    assert_eq!(place("multicast 0 slot 0"), (1, 1));
    assert_eq!(place("start 3\nstart 3"), (2, 1));
    assert_eq!(place("start 3\ndance 3"), (2, 1));
    assert_eq!(place("start 300"), (1, 7));
    assert_eq!(place("start 3 faulty 8"), (1, 16));
    assert_eq!(place("start 3\ndeliver 1 2"), (2, 11));
    assert_eq!(place("start 3\ndeliver"), (2, 8));
    assert_eq!(place("start 3\n07 0g"), (2, 5));
    assert_eq!(place("start 3\n07 0"), (2, 4));
    assert_eq!(place("start 3\nbytes 0x"), (2, 8));
    assert_eq!(place("start 3\nrequest number 99999999999"), (2, 16));
    assert_eq!(place(&format!("start 3\nrequest number 1 command {}", "00".repeat(25))), (2, 26));
    assert_eq!(place("start 3 faulty 2\nforge packet from 2 to 1 sending 0.1"), (2, 34));
    assert_eq!(place("start 9\nrequest number 1"), (2, 17));
    assert_eq!(place("start 3\nbytes 0b\npropose 1"), (3, 1));
}
