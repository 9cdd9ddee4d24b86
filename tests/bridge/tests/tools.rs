//! The walk ends as its users are told.

use std::process::Command;

const WALK: &str = env!("CARGO_BIN_EXE_walk_steps");

/// How a command line ended: its status and what it printed; nothing is on standard error.
fn ended(line: &str) -> (Option<i32>, String) {
    let output = Command::new("sh").args(["-c", line]).output().expect("a shell runs");
    assert_eq!(String::from_utf8_lossy(&output.stderr), "", "a log has no progress");
    (output.status.code(), String::from_utf8(output.stdout).expect("a comparison prints text"))
}

#[test]
fn the_last_line_repeats_a_failure() {
    let (status, text) = ended(&format!("'{WALK}' --schedules 0 --seed 3"));
    assert_eq!(status, Some(1), "{text}");
    assert!(text.contains("walk_steps: 0 schedules, ") && text.contains(": not enough was reached"), "{text}");
    let last = text.lines().last().expect("there is a last line");
    assert!(last.ends_with(" --seed 3 --schedules 0"), "{last}");
    assert_eq!(ended(last), (status, text.clone()));
}

#[test]
fn one_schedule_alone_is_walked() {
    let (status, text) = ended(&format!("'{WALK}' --only 3"));
    assert_eq!(status, Some(0), "{text}");
    assert!(text.starts_with("schedules 1, ") && text.ends_with(": no difference\n"), "{text}");
}
