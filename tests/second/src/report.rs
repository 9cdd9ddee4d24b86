//! What a comparison tells when it fails: a small schedule, the file that has it, and the command that repeats it.

use std::cell::RefCell;
use std::fs::{self, File};
use std::io::{ErrorKind, Write};
use std::process;
use std::time::{Duration, Instant};

use crate::options;
use crate::progress::Progress;
use crate::shrink;
use crate::standard::{print, say};
use crate::{generate, readable};

/// The exit status of a comparison that found a difference or did not reach enough.
const FAILED: i32 = 1;

/// A generated schedule on which a comparison fails.
pub struct Failed<'a> {
    pub comparison: &'a str,
    /// What the name of its file begins with.
    pub file: &'a str,
    pub seed: u64,
    pub index: u64,
    /// The words of the command line that repeats it.
    pub again: Vec<String>,
}

impl Failed<'_> {
    /// Shrinks the schedule for so long, shows and saves what is left, says how it fails, and leaves.
    pub fn report(&self, why: &str, most: Duration, differs: impl Fn(&[u8]) -> Result<(), String>) -> ! {
        let Failed { comparison, file, seed, index, again } = self;
        let schedule = generate::schedule(*seed, *index);
        say(format!("schedule {index} of seed {seed} differs: {why}"));
        say(format!("shrinking its {} bytes", schedule.len()));
        let (small, in_time) = shrunk(&schedule, most, |candidate| differs(candidate).is_err());
        if !in_time {
            say(format!("it could be smaller: shrinking was stopped after {} s", most.as_secs()));
        }
        let saved = save(&format!("{file}-{seed}-{index}"), &small);
        print(readable::of_schedule(&small).as_bytes());
        if let Err(why) = differs(&small) {
            say(why);
        }
        fail(comparison, &format!("a difference of {} bytes, {saved}", small.len()), again);
    }
}

/// Says in one line how a comparison failed and in the next one the command that repeats it, and leaves.
pub fn fail(comparison: &str, how: &str, again: &[String]) -> ! {
    say(format!("{comparison}: {how}; again with"));
    say(options::command(again));
    process::exit(FAILED);
}

/// A smaller schedule that still fails, and whether the time was enough for all tries.
fn shrunk(schedule: &[u8], most: Duration, fails: impl Fn(&[u8]) -> bool) -> (Vec<u8>, bool) {
    let begin = Instant::now();
    let in_time = || begin.elapsed() < most;
    let progress = RefCell::new((Progress::on_terminal(), 0));
    let small = shrink::shrink(schedule, |candidate| {
        let (line, tries) = &mut *progress.borrow_mut();
        *tries += 1;
        line.show(|| format!("shrinking: try {tries}, {} bytes", candidate.len()));
        in_time() && fails(candidate)
    });
    progress.borrow_mut().0.clear();
    (small, in_time())
}

/// Saves bytes in a new file, and says where they are: NAME.bin, or NAME-2.bin and so on if that has something else.
fn save(name: &str, bytes: &[u8]) -> String {
    let mut names = [format!("{name}.bin")].into_iter().chain((2..).map(|copy| format!("{name}-{copy}.bin")));
    names.find_map(|file| save_new(&file, bytes)).expect("there is a name that no file has")
}

/// What came of saving bytes in a new file of this name; nothing if there is one with something else.
fn save_new(file: &str, bytes: &[u8]) -> Option<String> {
    match File::create_new(file).and_then(|mut file| file.write_all(bytes)) {
        Ok(()) => Some(format!("saved in {file}")),
        Err(why) if why.kind() == ErrorKind::AlreadyExists => {
            let is_same = fs::read(file).is_ok_and(|saved| saved == bytes);
            is_same.then(|| format!("which {file} has already"))
        }
        Err(why) => Some(format!("which cannot be saved in {file}: {why}")),
    }
}

#[cfg(test)]
mod tests {
    use super::*;

    #[test]
    fn shrinking_stops_when_time_is_up() {
        let schedule = generate::schedule(1, 0);
        let stopped = shrunk(&schedule, Duration::ZERO, |_| panic!("there is no time for a try"));
        assert_eq!(stopped, (schedule.clone(), false));
        let (small, in_time) = shrunk(&schedule, Duration::from_secs(600), |candidate| candidate.len() >= 3);
        assert_eq!((small.len(), in_time), (3, true));
    }
}
