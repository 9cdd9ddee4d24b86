//! `hunt`: a schedule behind which a claim does not hold, or that shows a wished answer.

use second::claims::Claim;
use second::readable;
use second::steps::{Answer, Mistake};
use second::world::{bit, Mask, World};

use crate::command_line::{Ended, Failure, Printed, Words, REFUSED};
use crate::commands::read::to_text;
use crate::hunt::{breadth, random, Hunt, Part, Wish};
use crate::proved::Rules;
use crate::trace;
use crate::verdict::claim_text;

pub const HELP: &str = "\
staubharfe hunt (--claim CLAIM | --answer A) [--mistake NAME] [--servers N] [--faulty LIST] [--search WAY] ..

Looks for a schedule behind which a claim of demand 3 does not hold, or that shows an answer, and prints it in the
words of the schedule language, small; `staubharfe write` makes bytes of it.

  --claim CLAIM    agreement (one list, and what is delivered is its beginning), no-repeat (no sending has two numbers),
                   quiet (a quiet world has delivered all), vouched (a correct server with a good seal held what was
                   numbered), or any. Without a mistake none can be broken: that is what is proved
  --answer A       an answer, by number or by name (9 or NO_ROOM)
  --mistake NAME   plants a mistake: WrongDigestRecorded, MaskGrows, UnsealedDropped or ClaimedSenderIsOrigin. It is run
                   by the second implementation, since the proved functions have none to plant
  --servers N      how many servers; 3 where it is not said
  --faulty LIST    the liars, as `1,2` or `none`; where it is not said, as many as may be, the last ones
  --search WAY     breadth: step by step from the fresh world, so that what is found has as few steps as can be; where
                   quiet is asked for, as few before all that is due is done. Up to three servers it is the way where
                   none is said. random: guided random schedules, one a seed, the one that is found made small
  --states N       breadth: how many worlds at the most; 200000 where it is not said
  --seeds A-B      random: the seeds to try, both counted; 1-200 where it is not said. The lowest that finds is shown
  --jobs N         random: how many seeds at a time; 1 where it is not said. The result does not depend on it

A seed gives the same result on every machine, so a long hunt can be spread by ranges of seeds.

Status: for --claim, 1 where a schedule is found (the claim does not hold) and 0 where none is; for --answer, 0 where
one is found and 1 where none is; 2 for bad usage, or a write that failed.
";

/// The most worlds of a breadth-first search, where nothing is said.
const STATES: usize = 200_000;

/// The seeds, where nothing is said.
const SEEDS: (u64, u64) = (1, 200);

/// The most servers for which breadth first is the way, where nothing is said.
const SMALL: u8 = 3;

/// Hunts, and prints what is found.
pub fn act(mut words: Words) -> Ended {
    let hunt = asked(&mut words)?;
    let way = words.value("--search")?.map(|way| way.to_string_lossy().into_owned());
    let states = words.parsed("--states")?.unwrap_or(STATES);
    let seeds = seeds(&mut words)?;
    let jobs: usize = words.parsed("--jobs")?.unwrap_or(1);
    words.end()?;
    if !(1..=256).contains(&jobs) {
        return Err(Failure::Usage("--jobs is from 1 to 256".to_string()));
    }
    match way.as_deref() {
        Some("breadth") => by_breadth(&hunt, states),
        None if hunt.n <= SMALL => by_breadth(&hunt, states),
        Some("random") | None => by_random(&hunt, seeds, jobs),
        Some(other) => Err(Failure::Usage(format!("--search is breadth or random, not {other:?}"))),
    }
}

/// The hunt that the words ask for.
fn asked(words: &mut Words) -> Result<Hunt, Failure> {
    let wish = wish(words)?;
    let mistake = match words.rules()? {
        Rules::Proved => Mistake::None,
        Rules::Mistaken(mistake) => mistake,
    };
    let n: u8 = words.parsed("--servers")?.unwrap_or(3);
    if !World::may_start(n, 0) {
        return Err(Failure::Usage(format!("--servers is from 1 to {}, not {n}", World::SERVERS)));
    }
    let faulty = faulty(words, n)?;
    Ok(Hunt { wish, mistake, n, faulty })
}

/// What is looked for.
fn wish(words: &mut Words) -> Result<Wish, Failure> {
    let text = |value: Option<std::ffi::OsString>| value.map(|value| value.to_string_lossy().into_owned());
    match (text(words.value("--claim")?), text(words.value("--answer")?)) {
        (Some(name), None) => {
            let part = Part::NAMED.iter().find(|(_, known)| *known == name).map(|(part, _)| Wish::Broken(*part));
            let names = Part::NAMED.map(|(_, name)| name).join(", ");
            part.ok_or_else(|| Failure::Usage(format!("--claim is one of {names}, not {name:?}")))
        }
        (None, Some(answer)) => {
            let is_it = |known: &&Answer| known.name() == answer || known.code().to_string() == answer;
            let found = Answer::ALL.iter().find(is_it).map(|found| Wish::Answer(found.code()));
            found
                .ok_or_else(|| Failure::Usage(format!("--answer is a number from 0 to 13 or its name, not {answer:?}")))
        }
        _ => Err(Failure::Usage("one of --claim and --answer is said".to_string())),
    }
}

/// The liars: as said, or the last ones, as many as may be.
fn faulty(words: &mut Words, n: u8) -> Result<Mask, Failure> {
    let Some(list) = words.value("--faulty")? else {
        let f = (n - 1) / 2;
        return Ok((n - f..n).fold(0, |mask, server| mask | bit(server)));
    };
    let list = list.to_string_lossy();
    let bad = || Failure::Usage(format!("--faulty is `none`, or at most f servers below {n} as `1,2`, not {list:?}"));
    if list == "none" {
        return Ok(0);
    }
    let mut mask = 0;
    for server in list.split(',') {
        let server: u8 = server.parse().ok().filter(|server| *server < n).ok_or_else(bad)?;
        mask |= bit(server);
    }
    Some(mask).filter(|mask| World::may_start(n, *mask)).ok_or_else(bad)
}

/// The seeds to try.
fn seeds(words: &mut Words) -> Result<(u64, u64), Failure> {
    let Some(range) = words.value("--seeds")? else { return Ok(SEEDS) };
    let range = range.to_string_lossy();
    let (first, last) = range.split_once('-').unwrap_or((&range, &range));
    let read = first.parse().ok().zip(last.parse().ok()).filter(|(first, last)| first <= last && *last < u64::MAX);
    read.ok_or_else(|| Failure::Usage(format!("--seeds is a range as 1-200, or one seed, not {range:?}")))
}

/// Breadth first.
fn by_breadth(hunt: &Hunt, states: usize) -> Ended {
    match breadth::search(hunt, states) {
        breadth::Found::Schedule(schedule) => found(hunt, &schedule, "breadth first"),
        breadth::Found::Nothing(worlds) => Ok(nothing(hunt, &format!("breadth first, all {worlds} worlds"))),
        breadth::Found::TooMany(depth) => {
            let way = format!("breadth first, {states} worlds, up to {depth} steps; --states goes further, and so may");
            Ok(nothing(hunt, &format!("{way} --search random")))
        }
    }
}

/// By guided random schedules.
fn by_random(hunt: &Hunt, (first, last): (u64, u64), jobs: usize) -> Ended {
    match random::search(hunt, first, last, jobs) {
        Some((seed, schedule)) => found(hunt, &schedule, &format!("seed {seed}")),
        None => Ok(nothing(hunt, &format!("seeds {first} to {last}"))),
    }
}

/// What is looked for, in words.
fn wish_text(hunt: &Hunt) -> String {
    let wish = match hunt.wish {
        Wish::Broken(part) => {
            let name = Part::NAMED.iter().find(|(known, _)| *known == part).map_or("", |(_, name)| name);
            format!("claim {name}")
        }
        Wish::Answer(answer) => format!("answer {answer} {}", Answer::NAMES[usize::from(answer)]),
    };
    match hunt.mistake {
        Mistake::None => wish,
        mistake => format!("{wish}, mistake {mistake:?}"),
    }
}

/// That nothing was found.
fn nothing(hunt: &Hunt, way: &str) -> Printed {
    let status = if matches!(hunt.wish, Wish::Answer(_)) { REFUSED } else { 0 };
    let start = readable::of_start(hunt.n, hunt.faulty);
    Printed::new(format!("nothing found: {}, {start}, {way}\n", wish_text(hunt))).status(status)
}

/// What was found: the schedule in words, and what it shows.
fn found(hunt: &Hunt, schedule: &[u8], way: &str) -> Ended {
    let shows = match hunt.mistake {
        Mistake::None => held_to_the_proved(hunt, schedule)?,
        mistake => shown_by(hunt, &trace::trace_mistaken(schedule, mistake)),
    };
    let status = if matches!(hunt.wish, Wish::Broken(_)) { REFUSED } else { 0 };
    let shows = shows.unwrap_or_else(|| "shown at the last step".to_string());
    let head = format!("# hunt: {}, {way}\n# {shows}\n", wish_text(hunt));
    let right = match hunt.mistake {
        Mistake::None => "",
        _ => "# the answers below are those of the right run\n",
    };
    Ok(Printed::new(head + right + &to_text(schedule).0).status(status))
}

/// What the proved run of a schedule shows; it must show what was found.
fn held_to_the_proved(hunt: &Hunt, schedule: &[u8]) -> Result<Option<String>, Failure> {
    let shows = shown_by(hunt, &trace::trace(schedule));
    let differs = "the second implementation found a schedule on which the proved functions do otherwise: a difference";
    shows.map(Some).ok_or_else(|| Failure::Failed(differs.to_string()))
}

/// What a trace shows of the wish.
fn shown_by(hunt: &Hunt, trace: &trace::Trace) -> Option<String> {
    let run = trace.outcome.as_ref().ok()?;
    match hunt.wish {
        Wish::Answer(wished) => {
            let place = run.steps.iter().position(|step| step.answer.code() == wished)?;
            Some(format!("step {}: {}", place + 1, run.steps[place].why))
        }
        Wish::Broken(part) => {
            let broken: Option<(usize, Claim)> = run.verdict.broken;
            let (step, claim) = broken.filter(|(_, claim)| part.has(*claim))?;
            Some(format!("behind step {step}: {}", claim_text(claim)))
        }
    }
}
