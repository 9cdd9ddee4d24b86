//! Compares a program's digests with those of this implementation and of the machine's sha256sum.

use second::options::Options;
use second::program::{self, Program};
use second::progress::{so_many, Progress};
use second::random::Random;
use second::report::fail;
use second::sha256::ONE_BLOCK;
use second::standard::say;
use second::{compare, hex, listing};

const NAME: &str = "compare_digests";
const USAGE: &str = "compare_digests PROGRAM [--only INDEX] [--patience SECONDS]";
const SHA256SUM: &str = "sha256sum";
const LONGEST: usize = 60;
const RANDOM_PER_LENGTH: usize = 3;
const RANDOM: usize = 2_000;
const MACHINE: usize = 300;

/// Compares with the program first, then with the machine.
fn main() {
    let messages = messages();
    let (program, picked) = asked(messages.len());
    let comparison = Comparison { program, messages };
    let lengths = |index: &usize| comparison.messages[*index].len();
    let short: Vec<usize> = picked.iter().copied().filter(|index| lengths(index) <= ONE_BLOCK).collect();
    let stride = (short.len() / MACHINE).max(1);
    let machine: Vec<usize> = short.iter().copied().step_by(stride).collect();
    comparison.compare_all("the program", &picked, |message| comparison.program.run(message));
    let sha256sum = Program::new(SHA256SUM, program::PATIENCE);
    comparison.compare_all(SHA256SUM, &machine, |message| machine_digest(&sha256sum, message));
    say(format!("messages {}", picked.len()));
    say(format!("digests {}", short.len()));
    say(format!("refused 28 {}", picked.len() - short.len()));
    say(format!("digests of {SHA256SUM} {}", machine.len()));
    say(format!("{NAME}: {} messages: no difference", picked.len()));
}

/// The program that the command line names, and the indices of the messages that it asks for.
fn asked(many: usize) -> (Program, Vec<usize>) {
    let mut options = Options::of_process(USAGE);
    let picked = match options.value("--only") {
        None => (0..many).collect(),
        Some(index) if index < many => vec![index],
        Some(_) => options.fail(&format!("--only is less than {many}")),
    };
    let program = Program::asked(&mut options);
    options.end();
    (program, picked)
}

/// Every length up to beyond the longest, zeros, ones and random bytes, and many random messages.
fn messages() -> Vec<Vec<u8>> {
    let mut random = Random::new(1, 0);
    let mut messages = Vec::new();
    for length in 0..=LONGEST {
        messages.push(vec![0x00; length]);
        messages.push(vec![0xFF; length]);
        messages.extend((0..RANDOM_PER_LENGTH).map(|_| random.bytes(length)));
    }
    for _ in 0..RANDOM {
        let length = random.between(0, LONGEST);
        messages.push(random.bytes(length));
    }
    messages
}

/// What the machine's own tool says of a message, as a digest line.
fn machine_digest(sha256sum: &Program, message: &[u8]) -> Result<Vec<u8>, String> {
    let output = sha256sum.run(message)?;
    let digits = output.iter().take_while(|byte| byte.is_ascii_hexdigit());
    Ok(digits.chain(b"\n").copied().collect())
}

/// A program and the messages that it is given.
struct Comparison {
    program: Program,
    messages: Vec<Vec<u8>>,
}

impl Comparison {
    /// Compares someone's digest lines of these messages with ours; leaves at the first one that is not.
    fn compare_all(&self, who: &str, picked: &[usize], line: impl Fn(&[u8]) -> Result<Vec<u8>, String>) {
        let mut progress = Progress::on_terminal();
        for (done, index) in (0..).zip(picked) {
            progress.show(|| format!("{NAME}: {who}, {}", so_many(done, picked.len() as u64, "messages")));
            let message = &self.messages[*index];
            let same = line(message).and_then(|line| compare::same_text(&listing::of_digest(message), &line));
            if let Err(why) = same {
                progress.clear();
                say(format!("{who}: {why}"));
                let again = [self.program.asking(), vec!["--only".to_string(), index.to_string()]].concat();
                let bytes = hex::to_text(message);
                fail(NAME, &format!("a difference on {} bytes: {bytes}", message.len()), &again);
            }
        }
        progress.clear();
    }
}
