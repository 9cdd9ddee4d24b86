//! Which generated schedules a command line asks for.

use std::ops::Range;

use crate::options::Options;

/// A seed, and how many of its schedules from the first, or one of them alone.
pub struct Asked {
    pub seed: u64,
    pub schedules: u64,
    pub only: Option<u64>,
}

impl Asked {
    /// Takes `--seed` and `--only`; the comparison itself says how many schedules it takes without them.
    pub fn taken(options: &mut Options, schedules: u64) -> Asked {
        let seed = options.value("--seed").unwrap_or(1);
        Asked { seed, schedules, only: options.value("--only") }
    }

    /// The indices of the schedules.
    pub fn indices(&self) -> Range<u64> {
        match self.only {
            Some(index) => index..index.saturating_add(1),
            None => 0..self.schedules,
        }
    }

    /// The words that ask for one schedule.
    pub fn only(&self, index: u64) -> Vec<String> {
        self.words("--only", index)
    }

    /// The words that ask for so many schedules.
    pub fn first(&self, schedules: u64) -> Vec<String> {
        self.words("--schedules", schedules)
    }

    /// The seed and one option.
    fn words(&self, name: &str, value: u64) -> Vec<String> {
        ["--seed", &self.seed.to_string(), name, &value.to_string()].map(str::to_string).to_vec()
    }
}
