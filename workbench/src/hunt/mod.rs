//! Hunting: a schedule behind which a claim of demand 3 does not hold, or that shows a wished answer.
//!
//! The search is done by the second implementation, which alone can have a mistake planted and is fast; a schedule that
//! is found without a mistake is held to the proved functions before it is shown. The same hunt finds the same schedule
//! on every machine, with any count of jobs.

pub mod breadth;
pub mod due;
pub mod random;

use second::claims::{Claim, History};
use second::schedule;
use second::steps::{self, Mistake, Step};
use second::world::{Mask, World};

/// What is looked for.
#[derive(Clone, Copy, PartialEq, Eq, Debug)]
pub enum Wish {
    /// A claim that does not hold.
    Broken(Part),
    /// A step that answers so.
    Answer(u8),
}

/// A part of demand 3.
#[derive(Clone, Copy, PartialEq, Eq, Debug)]
pub enum Part {
    Agreement,
    NoRepeat,
    Quiet,
    Vouched,
    Any,
}

impl Part {
    /// Every part, with its name.
    pub const NAMED: [(Part, &str); 5] = [
        (Part::Agreement, "agreement"),
        (Part::NoRepeat, "no-repeat"),
        (Part::Quiet, "quiet"),
        (Part::Vouched, "vouched"),
        (Part::Any, "any"),
    ];

    /// Whether a broken claim is one of this part.
    pub fn has(self, claim: Claim) -> bool {
        let part = match claim {
            Claim::OneListOfSendings | Claim::ListOnlyGrows | Claim::DeliveredIsBeginning => Part::Agreement,
            Claim::NoSendingTwice => Part::NoRepeat,
            Claim::QuietHasDeliveredAll => Part::Quiet,
            Claim::HeldWithGoodSeal => Part::Vouched,
        };
        self == Part::Any || self == part
    }
}

/// A hunt: what is looked for, in which world, under which mistake.
#[derive(Clone, Copy)]
pub struct Hunt {
    pub wish: Wish,
    pub mistake: Mistake,
    pub n: u8,
    pub faulty: Mask,
}

/// The most steps that are done to let all that is due come to its end.
const MOST_DUE: usize = 4_000;

/// What one step of a hunt came to.
pub enum Seen {
    /// The wish is met.
    Met,
    /// It is not, and the search may go on from here.
    Open,
    /// A claim that was not asked for does not hold: nothing behind it can be told.
    Closed,
}

impl Hunt {
    /// Looks at the answer to a step and at the world behind it.
    pub fn look(&self, answer: u8, history: &mut History, world: &World) -> Seen {
        match self.wish {
            Wish::Answer(wished) if wished == answer => Seen::Met,
            Wish::Answer(_) => Seen::Open,
            Wish::Broken(part) => match history.observe(world) {
                Ok(()) => Seen::Open,
                Err(claim) if part.has(claim) => Seen::Met,
                Err(_) => Seen::Closed,
            },
        }
    }

    /// The offset behind the first step at which a schedule meets the wish.
    pub fn met_at(&self, bytes: &[u8]) -> Option<usize> {
        let accepted = schedule::check(bytes).ok()?;
        let (mut world, mut history) = (accepted.world, History::default());
        let mut reader = accepted.steps;
        while let Some((_, step)) = reader.next() {
            let answer = steps::apply(&mut world, &step, self.mistake).code();
            match self.look(answer, &mut history, &world) {
                Seen::Met => return Some(reader.offset()),
                Seen::Open => {}
                Seen::Closed => return None,
            }
        }
        None
    }

    /// Whether the wish asks for worlds in which nothing is due any more.
    pub fn asks_quiet(&self) -> bool {
        matches!(self.wish, Wish::Broken(Part::Quiet | Part::Any))
    }

    /// Does what is due until the wish is met, and tells those steps; none where it is never met.
    pub fn finish(&self, mut world: World, mut history: History) -> Option<Vec<Step>> {
        let mut done = Vec::new();
        while done.len() < MOST_DUE {
            let step = due::next(&world)?;
            let answer = steps::apply(&mut world, &step, self.mistake);
            done.push(step);
            match self.look(answer.code(), &mut history, &world) {
                Seen::Met => return Some(done),
                Seen::Open if answer.changes() => {}
                Seen::Open | Seen::Closed => return None,
            }
        }
        None
    }

    /// A schedule that meets the wish: this one up to there, or, where quiet is asked for, with what is due behind it.
    pub fn meeting(&self, bytes: &[u8]) -> Option<Vec<u8>> {
        if let Some(end) = self.met_at(bytes) {
            return Some(bytes[..end].to_vec());
        }
        if !self.asks_quiet() {
            return None;
        }
        let accepted = schedule::check(bytes).ok()?;
        let (mut world, mut history) = (accepted.world, History::default());
        for (_, step) in accepted.steps {
            let answer = steps::apply(&mut world, &step, self.mistake);
            self.look(answer.code(), &mut history, &world);
        }
        let mut whole = bytes.to_vec();
        self.finish(world, history)?.iter().for_each(|step| schedule::write_step(&mut whole, step));
        Some(whole)
    }
}
