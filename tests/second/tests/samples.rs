//! Every sample schedule has its listing. A sample or a folder that is not there is an error.

use std::fs;
use std::path::{Path, PathBuf};

use second::compare::same_text;
use second::listing;
use second::steps::Mistake;

/// The folders of samples in tests/samples, and how many schedules each has; tests/samples/README.md has the same.
const FOLDERS: [(&str, usize); 3] = [("", 1), ("attacks", 17), ("mixed", 48)];

/// The files of a folder of samples that end in a way.
fn files(folder: &str, ending: &str) -> Vec<PathBuf> {
    let path = Path::new(env!("CARGO_MANIFEST_DIR")).join("../samples").join(folder);
    let items = fs::read_dir(&path).unwrap_or_else(|why| panic!("tests/samples/{folder} cannot be read: {why}"));
    let paths = items.map(|item| item.expect("an item of the folder can be read").path());
    paths.filter(|path| path.extension().is_some_and(|extension| extension == ending)).collect()
}

#[test]
fn every_sample_is_there() {
    for (folder, many) in FOLDERS {
        let found = ["bin", "out"].map(|ending| files(folder, ending).len());
        assert_eq!(found, [many; 2], "schedules and listings in tests/samples/{folder}");
    }
}

#[test]
fn samples_have_their_listings() {
    for path in FOLDERS.iter().flat_map(|(folder, _)| files(folder, "bin")) {
        let schedule = fs::read(&path).expect("the schedule can be read");
        let expected = fs::read(path.with_extension("out")).expect("the listing can be read");
        let text = listing::of_schedule(&schedule, Mistake::None);
        assert_eq!(same_text(&text, &expected), Ok(()), "{}", path.display());
    }
}
