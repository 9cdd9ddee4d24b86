//! The comparisons notice programs that are wrong in other ways than by what they print, and their tools end with a
//! sentence and an exit status whatever they are given.

use std::fs;
use std::io::Write;
use std::os::unix::fs::PermissionsExt;
use std::path::{Path, PathBuf};
use std::process::{Command, Output, Stdio};
use std::sync::atomic::{AtomicUsize, Ordering};
use std::sync::OnceLock;

const SECOND: &str = env!("CARGO_BIN_EXE_second");
const SCHEDULES: &str = env!("CARGO_BIN_EXE_compare_schedules");
const DIGESTS: &str = env!("CARGO_BIN_EXE_compare_digests");

/// The planted programs, as what a shell does. SECOND stands for the second implementation, and ACCEPTED for whether
/// its listing is not that of a refused schedule: those whose name begins with `run` are right on refused schedules.
const PLANTED: [(&str, &str); 11] = [
    ("right", "exec SECOND"),
    ("hang", "exec sleep 600"),
    ("run_hang", "text=$(SECOND); ACCEPTED && exec sleep 600; echo \"$text\""),
    ("closed_hang", "SECOND; exec >&- 2>&-; exec sleep 600"),
    ("child_hang", "SECOND; sleep 3 & exit 0"),
    ("endless", "exec yes"),
    ("run_endless", "text=$(SECOND); ACCEPTED && exec yes; echo \"$text\""),
    ("endless_errors", "exec yes >&2"),
    ("status", "SECOND; exit 3"),
    ("run_status", "text=$(SECOND); echo \"$text\"; ACCEPTED || exit 0; echo it broke >&2; exit 3"),
    ("killed", "SECOND; kill -KILL $$"),
];

/// A planted program. All of them are written ahead of the first one that runs: a file that is still open for writing,
/// and be it in a process that is just starting, cannot be run.
fn planted(name: &str) -> PathBuf {
    static WRITTEN: OnceLock<PathBuf> = OnceLock::new();
    let folder = WRITTEN.get_or_init(|| {
        let folder = new_folder();
        PLANTED.iter().for_each(|(name, does)| plant(&folder.join(name), does));
        folder
    });
    folder.join(name)
}

/// Writes a planted program.
fn plant(path: &Path, does: &str) {
    let accepted = "[ \"${text#world}\" != \"$text\" ]";
    let does = does.replace("ACCEPTED", accepted).replace("SECOND", &format!("'{SECOND}'"));
    fs::write(path, format!("#!/bin/sh\n{does}\n")).expect("a planted program can be written");
    fs::set_permissions(path, fs::Permissions::from_mode(0o755)).expect("it can be made a program");
}

/// An empty folder.
fn new_folder() -> PathBuf {
    static MADE: AtomicUsize = AtomicUsize::new(0);
    let name = format!("planted-{}", MADE.fetch_add(1, Ordering::Relaxed));
    let folder = Path::new(env!("CARGO_TARGET_TMPDIR")).join(name);
    let _ = fs::remove_dir_all(&folder);
    fs::create_dir_all(&folder).expect("a folder can be made");
    folder
}

/// How a comparison of a planted program ended: its status, what it printed, and that nothing is on standard error.
fn compared(comparison: &str, name: &str, folder: &Path, words: &[&str]) -> (Option<i32>, String) {
    let mut command = Command::new(comparison);
    command.arg(planted(name)).args(words).current_dir(folder).stdin(Stdio::null());
    let Output { status, stdout, stderr } = command.output().expect("the comparison runs");
    assert_eq!(String::from_utf8_lossy(&stderr), "", "{name}: a log has no progress");
    (status.code(), String::from_utf8(stdout).expect("a comparison prints text"))
}

/// Compares a planted program, which must fail so, and gives back what was printed.
fn noticed(comparison: &str, name: &str, words: &[&str], so: &str) -> String {
    let (status, text) = compared(comparison, name, &new_folder(), words);
    assert_eq!(status, Some(1), "{name}: {text}");
    assert!(text.contains(so), "{name}: {text}");
    text
}

/// Runs the command on the last line of what a comparison printed, as a shell does.
fn repeated(text: &str, folder: &Path) -> (Option<i32>, String) {
    let line = text.lines().last().expect("there is a last line");
    let output = Command::new("sh").args(["-c", line]).current_dir(folder).output().expect("a shell runs");
    (output.status.code(), String::from_utf8(output.stdout).expect("a comparison prints text"))
}

#[test]
fn a_right_program_passes() {
    let (status, text) = compared(SCHEDULES, "right", &new_folder(), &["--only", "7"]);
    assert_eq!(status, Some(0), "{text}");
    assert!(text.starts_with("schedules 1\n") && text.ends_with(": no difference\n"), "{text}");
}

#[test]
fn a_hang_is_noticed() {
    let so = "does not end: stopped after 1 s";
    for name in ["hang", "closed_hang", "child_hang"] {
        noticed(SCHEDULES, name, &["--patience", "1"], so);
    }
    noticed(DIGESTS, "hang", &["--patience", "1"], so);
}

#[test]
fn a_hang_on_some_schedules_is_shrunk() {
    let text = noticed(SCHEDULES, "run_hang", &["--patience", "1"], "does not end: stopped after 1 s");
    assert!(text.contains("\nshrinking its ") && text.contains(", saved in difference-1-0.bin"), "{text}");
    assert!(text.ends_with("run_hang --patience 1 --seed 1 --only 0\n"), "{text}");
}

#[test]
fn endless_output_is_noticed() {
    for name in ["endless", "endless_errors", "run_endless"] {
        noticed(SCHEDULES, name, &[], "prints too much: more than 1048576 bytes");
    }
    noticed(DIGESTS, "endless", &[], "prints too much: more than 1048576 bytes");
}

#[test]
fn an_exit_status_is_noticed() {
    noticed(SCHEDULES, "status", &[], "ended badly: exit status: 3");
    noticed(SCHEDULES, "run_status", &[], "said \"it broke\" and ended badly: exit status: 3");
    noticed(SCHEDULES, "killed", &[], "ended badly: signal: 9");
    noticed(DIGESTS, "status", &[], "ended badly: exit status: 3");
}

#[test]
fn the_last_line_repeats_a_difference() {
    let folder = new_folder();
    let (_, text) = compared(SCHEDULES, "run_status", &folder, &["--seed", "5"]);
    let saved = |name: &str| fs::read(folder.join(name)).ok();
    let small = saved("difference-5-0.bin").expect("the difference is saved");
    let (status, again) = repeated(&text, &folder);
    assert_eq!((status, again.lines().next()), (Some(1), text.lines().next()), "{again}");
    assert!(again.contains("which difference-5-0.bin has already"), "{again}");
    fs::write(folder.join("difference-5-0.bin"), "another").expect("the file can be written");
    let (_, again) = repeated(&text, &folder);
    assert!(again.contains("saved in difference-5-0-2.bin"), "{again}");
    assert_eq!((saved("difference-5-0.bin"), saved("difference-5-0-2.bin")), (Some(b"another".to_vec()), Some(small)));
}

#[test]
fn the_last_line_repeats_what_was_not_enough_and_a_wrong_digest() {
    let folder = new_folder();
    let text = noticed(SCHEDULES, "right", &["--schedules", "2"], "not enough was reached");
    let (status, again) = repeated(&text, &folder);
    assert_eq!((status, again.lines().last()), (Some(1), text.lines().last()));
    let text = noticed(DIGESTS, "right", &[], "a difference on 0 bytes");
    let (status, again) = repeated(&text, &folder);
    assert_eq!((status, again), (Some(1), text));
}

#[test]
fn a_program_that_is_none_is_told() {
    for none in ["nothing", ""] {
        noticed(SCHEDULES, none, &[], "cannot be started");
    }
}

/// Every tool that reads a schedule or prints, and its words.
const TOOLS: [(&str, &[&str]); 2] = [(SECOND, &[]), (SCHEDULES, &[SECOND, "--only", "0"])];

/// A short schedule.
const SCHEDULE: [u8; 7] = [1, 3, 0, 7, 0, 7, 1];

/// How a tool ends that is given this input and this output.
fn ended(tool: &str, words: &[&str], input: Stdio, output: Stdio) -> (Option<i32>, String) {
    let mut command = Command::new(tool);
    let mut child = command.args(words).stdin(input).stdout(output).stderr(Stdio::piped()).spawn().expect("it starts");
    if let Some(mut input) = child.stdin.take() {
        let _ = input.write_all(&SCHEDULE);
    }
    let Output { status, stderr, .. } = child.wait_with_output().expect("it ends");
    (status.code(), String::from_utf8_lossy(&stderr).into_owned())
}

#[test]
fn a_closed_pipe_gets_a_sentence() {
    for (tool, words) in TOOLS {
        let (reader, writer) = std::io::pipe().expect("there are pipes");
        drop(reader);
        let (status, said) = ended(tool, words, Stdio::piped(), writer.into());
        assert_eq!((status, said.lines().count()), (Some(2), 1), "{tool}: {said}");
        assert!(said.contains(": cannot write standard output: Broken pipe"), "{tool}: {said}");
    }
}

#[test]
fn a_folder_in_place_of_a_file_gets_a_sentence() {
    let folder = fs::File::open(env!("CARGO_MANIFEST_DIR")).expect("the folder can be opened");
    let (status, said) = ended(SECOND, &[], folder.into(), Stdio::null());
    assert_eq!((status, said.lines().count()), (Some(2), 1), "{said}");
    assert!(said.contains(": cannot read standard input: Is a directory"), "{said}");
}
