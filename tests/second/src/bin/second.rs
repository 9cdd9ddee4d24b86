//! Reads a schedule from standard input and prints its listing.

use second::options::Options;
use second::schedule::MAX_BYTES;
use second::steps::Mistake;
use second::{listing, standard};

const USAGE: &str = "second [--mistake NAME] <SCHEDULE";

/// Reads no further than needed to tell that a schedule is too long.
fn main() {
    let mistake = mistake_asked();
    let schedule = standard::input(MAX_BYTES + 1);
    standard::print(listing::of_schedule(&schedule, mistake).as_bytes());
}

/// The mistake to plant, by its name.
fn mistake_asked() -> Mistake {
    let mut options = Options::of_process(USAGE);
    let name: Option<String> = options.value("--mistake");
    let mistake = match &name {
        None => Mistake::None,
        Some(name) => {
            Mistake::named(name).unwrap_or_else(|| options.fail(&format!("--mistake is one of {}", Mistake::names())))
        }
    };
    options.end();
    mistake
}
