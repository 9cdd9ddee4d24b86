//! The table of bad inputs: each gets its message and status, and no panic and no raw system error is ever shown.

use std::ffi::OsStr;
use std::fs::File;
use std::io::Write;
use std::os::unix::ffi::OsStrExt;
use std::process::{Command, Output, Stdio};

/// Case A's schedule.
const CASE_A: &[u8] = include_bytes!("../../examples/case_a.bin");

/// Where the output goes.
#[derive(Clone, Copy)]
enum To {
    Read,
    Closed,
    Full,
}

/// A pipe whose reader has gone before anything is written.
fn without_reader() -> Stdio {
    let (reader, writer) = std::io::pipe().expect("there are pipes");
    drop(reader);
    writer.into()
}

/// Runs the program on an input.
fn run(words: &[&OsStr], input: &[u8], to: To) -> Output {
    let mut command = Command::new(env!("CARGO_BIN_EXE_staubharfe"));
    command.args(words).stdin(Stdio::piped()).stderr(Stdio::piped());
    match to {
        To::Full => command.stdout(File::options().write(true).open("/dev/full").expect("there is /dev/full")),
        To::Read => command.stdout(Stdio::piped()),
        To::Closed => command.stdout(without_reader()),
    };
    let mut child = command.spawn().expect("staubharfe can be run");
    let mut stdin = child.stdin.take().expect("it has an input");
    std::thread::scope(|scope| {
        // With bad words it ends without reading.
        scope.spawn(move || drop(stdin.write_all(input)));
        child.wait_with_output().expect("staubharfe ends")
    })
}

/// Holds how a case ends to its status and message.
fn check(words: &[&str], input: &[u8], to: To, status: i32, says: &str) -> String {
    let words: Vec<&OsStr> = words.iter().map(OsStr::new).collect();
    check_os(&words, input, to, status, says)
}

/// As `check`, with words that may be no text.
fn check_os(words: &[&OsStr], input: &[u8], to: To, status: i32, says: &str) -> String {
    let ended = run(words, input, to);
    let (said, printed) = (String::from_utf8_lossy(&ended.stderr), String::from_utf8_lossy(&ended.stdout));
    assert_eq!(ended.status.code(), Some(status), "{words:?}: {said}");
    assert!(said.contains(says) && (!says.is_empty() || said.is_empty()), "{words:?} says {said:?}, not {says:?}");
    for never in ["panicked", "os error", "RUST_BACKTRACE", "Os {"] {
        assert!(!said.contains(never) && !printed.contains(never), "{words:?}: {said}");
    }
    printed.into_owned()
}

/// Every subcommand that reads a schedule or its text, with what it needs.
const READERS: [&[&str]; 10] = [
    &["run"],
    &["run", "--verdict"],
    &["run", "--json"],
    &["write"],
    &["read"],
    &["why"],
    &["draw"],
    &["page"],
    &["compare", "--mistake", "MaskGrows"],
    &["shrink"],
];

/// A reader's words with one more, the command of `shrink` behind it.
fn with<'a>(reader: &[&'a str], word: &'a str) -> Vec<&'a str> {
    let mut words = [reader, &[word]].concat();
    if reader[0] == "shrink" {
        words.extend(["--", "false"]);
    }
    words
}

#[test]
fn files_that_cannot_be_read() {
    for reader in READERS {
        check(&with(reader, "/"), b"", To::Read, 2, "/ cannot be read: it is a folder");
        check(&with(reader, "/no/such/file"), b"", To::Read, 2, "/no/such/file cannot be read: there is none");
        check(&with(reader, "/dev/null/file"), b"", To::Read, 2, "cannot be read: a part of its path is no folder");
    }
    let long = "x".repeat(5_000);
    check(&["run", &long], b"", To::Read, 2, "cannot be read: that can be no file's name");
    let no_text = OsStr::from_bytes(b"/no/\xff\xfe");
    check_os(&[OsStr::new("run"), no_text], b"", To::Read, 2, "cannot be read: there is none");
}

#[test]
fn a_folder_as_standard_input() {
    for reader in READERS.iter().filter(|reader| reader[0] != "shrink") {
        let folder = File::open("/").expect("the folder can be opened");
        let mut command = Command::new(env!("CARGO_BIN_EXE_staubharfe"));
        let ended = command.args(*reader).stdin(folder).output().expect("staubharfe can be run");
        let said = String::from_utf8_lossy(&ended.stderr);
        assert_eq!(ended.status.code(), Some(2), "{reader:?}: {said}");
        assert!(said.contains("standard input cannot be read: it is a folder"), "{reader:?}: {said}");
    }
}

#[test]
fn outputs_that_cannot_be_written() {
    for reader in READERS.iter().filter(|reader| !["write", "shrink"].contains(&reader[0])) {
        check(reader, CASE_A, To::Full, 2, "the output cannot be written: the disk is full");
        check(reader, CASE_A, To::Closed, 2, "the output cannot be written: its reader has gone");
    }
    check(&["write"], b"start 3", To::Full, 2, "the output cannot be written: the disk is full");
    check(&["write"], b"start 3", To::Closed, 2, "the output cannot be written: its reader has gone");
    check(&["--help"], b"", To::Full, 2, "the output cannot be written: the disk is full");
    check(&["hunt", "--answer", "2"], b"", To::Closed, 2, "the output cannot be written: its reader has gone");
}

#[test]
fn bad_usage() {
    let table: [(&[&str], &str); 28] = [
        (&[], "which subcommand?"),
        (&["dance"], "\"dance\" is no subcommand"),
        (&[""], "which subcommand?"),
        (&["run", "--loud"], "\"--loud\" is not known here"),
        (&["run", "-", "more"], "\"more\" is not known here, or is one word too many"),
        (&["run", "--json", "--verdict"], "--json has the verdict already"),
        (&["run", "--json", "--json"], "\"--json\" is not known here, or is one word too many"),
        (&["why", "--step"], "--step needs a value"),
        (&["why", "--step", "six"], "--step cannot be \"six\""),
        (&["why", "--step", "-1"], "--step cannot be \"-1\""),
        (&["why", "--step", "99999999999999999999"], "--step cannot be"),
        (&["why", "--mistake", "Typo"], "--mistake is one of WrongDigestRecorded, MaskGrows,"),
        (&["draw", "--mistake"], "--mistake needs a value"),
        (&["page", "--title"], "--title needs a value"),
        (&["page", "--mistake", "Typo"], "--mistake is one of WrongDigestRecorded, MaskGrows,"),
        (&["compare"], "two files are compared, or --mistake or --program is said"),
        (&["compare", "one"], "two files are compared"),
        (&["compare", "--mistake", "MaskGrows", "--program", "x"], "do not go together"),
        (&["compare", "--program", "a", "--program", "b", "--program", "c"], "once or twice, not 3 times"),
        (&["shrink"], "the command is missing: it stands behind `--`"),
        (&["shrink", "--"], "the command is missing: it stands behind `--`"),
        (&["shrink", "--seconds", "soon", "--", "true"], "--seconds cannot be \"soon\""),
        (&["hunt"], "one of --claim and --answer is said"),
        (&["hunt", "--claim", "peace"], "--claim is one of agreement, no-repeat, quiet, vouched, any"),
        (&["hunt", "--answer", "14"], "--answer is a number from 0 to 13 or its name"),
        (&["hunt", "--answer", "0", "--servers", "9"], "--servers is from 1 to 8, not 9"),
        (&["hunt", "--answer", "0", "--faulty", "0,1"], "--faulty is `none`, or at most f servers below 3"),
        (&["hunt", "--answer", "0", "--jobs", "0"], "--jobs is from 1 to 256"),
    ];
    for (words, says) in table {
        check(words, CASE_A, To::Read, 2, says);
    }
    check(&["why", "--step", "99"], CASE_A, To::Read, 2, "there is no step 99: the run has 15");
    check(&["why", "--step", "0"], CASE_A, To::Read, 2, "there is no step 0: the run has 15");
    check(&["hunt", "--answer", "0", "--seeds", "9-1"], b"", To::Read, 2, "--seeds is a range as 1-200");
    check(&["hunt", "--answer", "0", "--search", "deep"], b"", To::Read, 2, "--search is breadth or random");
}

#[test]
fn refused_schedules() {
    let refused: [(&[u8], &str); 7] = [
        (b"", "21 NO_START at offset 0"),
        (b"\x02", "21 NO_START at offset 0"),
        (b"start 3\n", "21 NO_START at offset 0; this is text: `staubharfe write` makes a schedule of it"),
        (b"\x01\x03\x00\x0b", "22 BAD_KIND at offset 3"),
        (b"\x01\x03\x00\x01", "23 SECOND_START at offset 3"),
        (b"\x01\x03", "24 CUT at offset 0"),
        (b"\x01\x09\x00", "25 BAD_START at offset 0"),
    ];
    for (schedule, says) in refused {
        for reader in READERS.iter().filter(|reader| !["write", "shrink", "compare"].contains(&reader[0])) {
            check(reader, schedule, To::Read, 1, says);
        }
    }
    assert_eq!(check(&["run"], b"\x01\x03\x00\x0b", To::Read, 1, "BAD_KIND"), "refused 22 3\n");
    check(&["write"], b"start 9", To::Read, 0, "refused: 25 BAD_START at offset 0");
}

#[test]
fn rubbish_and_five_megabytes() {
    let zeros = vec![0; 5_000_000];
    let rubbish: Vec<u8> = (0..5_000_000u32).map(|k| (k.wrapping_mul(2_654_435_761) >> 13) as u8).collect();
    let started = [&[1, 3, 0][..], &rubbish].concat();
    for input in [&zeros, &rubbish, &started] {
        check(&["run"], input, To::Read, 1, "20 TOO_LONG at offset 0");
    }
    for reader in [&["run", "--json"][..], &["why"], &["draw"], &["page"]] {
        check(reader, &started, To::Read, 1, "20 TOO_LONG at offset 0");
    }
    check(&["read"], &rubbish, To::Read, 1, "20 TOO_LONG at offset 0");
    check(&["write"], &rubbish, To::Read, 1, "standard input:1:2: byte bb is no text; is this a schedule already?");
    check(&["write"], &zeros, To::Read, 1, "standard input:1:1: ");
    let text = "start 3\n".to_string() + &"deliver 0\n".repeat(500_000);
    check(&["write"], text.as_bytes(), To::Read, 0, "20 TOO_LONG at offset 0");
    check(&["compare", "--mistake", "MaskGrows"], &zeros, To::Read, 0, "");
}

#[test]
fn texts_that_are_no_schedule() {
    let table: [(&str, &str); 6] = [
        ("start 3\nmulticast 0 slto 0\n", "standard input:2:13: here `slot` is expected, not \"slto\""),
        ("start 3\narrive at 1 from 0\n", "2:1: no such packet from 0 to 1 is under way here; `place P` alone"),
        ("start 3\npropose 1\n", "2:1: server 1 has no such stage-one entry here; `place P` alone"),
        ("deliver 1\n", "1:1: a schedule begins with `start N`"),
        ("start 3\ndeliver 1 now\n", "2:11: here the line's end is expected, not \"now\""),
        ("start 3\n07 zz\n", "2:4: 'z' is no hex digit"),
    ];
    for (text, says) in table {
        assert_eq!(check(&["write"], text.as_bytes(), To::Read, 1, says), "");
    }
}

#[test]
fn commands_that_do_not_fail_or_cannot_be_run() {
    check(&["shrink", "--", "true"], CASE_A, To::Read, 1, "true does not fail for this schedule");
    check(&["shrink", "--", "/no/such/program"], CASE_A, To::Read, 2, "/no/such/program");
    check(&["compare", "--program", "/no/such/program"], CASE_A, To::Read, 2, "/no/such/program");
    let slow: &[&str] = &["--seconds", "1", "--", "sleep", "5"];
    check(&[&["shrink"], slow].concat(), b"\x01", To::Read, 0, "from 1 bytes in 1 pieces to 0 bytes in 0 pieces");
    check(&["compare", "--program", "yes"], CASE_A, To::Read, 2, "yes prints too much: more than 1048576 bytes");
    check(&["shrink", "--", "yes"], b"\x01", To::Read, 0, "from 1 bytes in 1 pieces to 0 bytes in 0 pieces");
    let hasty: &[&str] = &["compare", "--seconds", "0", "--program", "cat"];
    check(hasty, CASE_A, To::Read, 2, "cat does not end: stopped after 0 s");
}

#[test]
fn a_planted_mistake_is_said_and_told_by_the_status() {
    let incident = include_bytes!("../../examples/incident5.bin");
    let words = ["run", "--verdict", "--mistake", "WrongDigestRecorded"];
    let printed = check(&words, incident, To::Read, 1, "with the mistake WrongDigestRecorded, by the second");
    assert!(printed.contains("\nserver 1 0\n") && printed.contains("\nagreement: broken at step "), "{printed}");
    let right = check(&["run", "--verdict"], incident, To::Read, 0, "");
    assert!(right.starts_with(include_str!("../../examples/incident5.out")), "{right}");
    check(&["run", "--mistake", "MaskGrows"], CASE_A, To::Read, 0, "with the mistake MaskGrows");
}

#[test]
fn help_for_each() {
    let help = check(&["--help"], b"", To::Read, 0, "");
    for name in ["run", "write", "read", "why", "draw", "page", "compare", "shrink", "hunt"] {
        assert!(help.contains(&format!("\n  {name} ")), "{help}");
        let own = check(&[name, "--help"], b"", To::Read, 0, "");
        assert!(own.starts_with(&format!("staubharfe {name} ")) && own.contains("\nStatus: "), "{own}");
    }
}
