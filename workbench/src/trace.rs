//! A run followed step by step: each step's answer, why it is so, and what it changed; and the run as JSON.
//!
//! Every world starts empty, so the changes alone give every step's world: forwards by `now`, backwards by `was`.

use second::hex;
use second::readable;
use second::schedule::Refused;
use second::steps::{Answer, Mistake, Step};
use second::world::{members, Entry, Execution, Packet, Place, Request, Sending, World};

use crate::json::{list, optional, string, Object};
use crate::proved::{self, Rules, Turn};
use crate::verdict::{Judge, Verdict};
use crate::why;

/// The name of the JSON format.
pub const FORMAT: &str = "staubharfe-run-1";

/// A schedule, who ran it, and its run or why it is refused.
pub struct Trace {
    pub schedule: Vec<u8>,
    pub rules: Rules,
    pub outcome: Result<Run, Refused>,
}

/// An accepted schedule's run.
pub struct Run {
    pub steps: Vec<Traced>,
    pub end: World,
    pub verdict: Verdict,
}

/// One step.
pub struct Traced {
    pub offset: usize,
    pub step: Step,
    pub text: String,
    pub answer: Answer,
    pub why: String,
    pub changes: Vec<Change>,
    /// Whether the world behind the step is quiet.
    pub quiet: bool,
}

/// A change of one place of the world; none is a place that is free or not used.
#[derive(Clone, PartialEq, Eq, Debug)]
pub enum Change {
    Request { slot: usize, was: Option<Request>, now: Option<Request> },
    Execution { sender: u8, place: usize, was: Option<Execution>, now: Option<Execution> },
    Packet { origin: u8, place: usize, was: Option<Packet>, now: Option<Packet> },
    Entry { server: u8, place: usize, was: Option<Entry>, now: Option<Entry> },
    Item { server: u8, index: usize, was: Option<Sending>, now: Option<Sending> },
    Numbered { was: u8, now: u8 },
}

/// The run of a schedule by the proved functions.
pub fn trace(schedule: &[u8]) -> Trace {
    trace_by(schedule, Rules::Proved)
}

/// The run of a schedule with a planted mistake, by the second implementation.
pub fn trace_mistaken(schedule: &[u8], mistake: Mistake) -> Trace {
    trace_by(schedule, Rules::Mistaken(mistake))
}

/// The run of a schedule by some rules.
pub fn trace_by(schedule: &[u8], rules: Rules) -> Trace {
    let (mut steps, mut judge) = (Vec::new(), Judge::default());
    let walked = proved::walk(schedule, rules, |turn| {
        steps.push(traced(turn, rules));
        judge.see(steps.len(), turn.after);
    });
    let outcome = walked.map(|runner| {
        let end = runner.world().clone();
        Run { steps, verdict: judge.verdict(&end, runner.is_quiet()), end }
    });
    Trace { schedule: schedule.to_vec(), rules, outcome }
}

/// What is kept of one step.
fn traced(turn: &Turn, rules: Rules) -> Traced {
    Traced {
        offset: turn.offset,
        step: turn.step,
        text: text_in(turn.before, &turn.step),
        answer: turn.answer,
        why: why::of_answer(turn.before, &turn.step, turn.answer, rules),
        changes: changes(turn.before, turn.after),
        quiet: turn.quiet,
    }
}

/// A step in the words of the schedule language; an arrival also says where.
pub fn text_in(world: &World, step: &Step) -> String {
    match packet_of(world, step) {
        Some(packet) => readable::of_step(step).replacen("arrive", &format!("arrive at {}", packet.to), 1),
        None => readable::of_step(step),
    }
}

/// The packet that an arrival is about.
pub fn packet_of<'a>(world: &'a World, step: &Step) -> Option<&'a Packet> {
    let Step::Arrive { origin, place } = *step else { return None };
    let origin = world.present().get(usize::from(origin))?;
    origin.outgoing.get(usize::from(place)).filter(|packet| packet.used)
}

/// The places in which two worlds differ.
pub fn changes(before: &World, after: &World) -> Vec<Change> {
    let mut found = Vec::new();
    let requests = pairs(stored(before.requests.stored()), stored(after.requests.stored()));
    found.extend(requests.map(|(slot, was, now)| Change::Request { slot, was, now }));
    for (server, (old, new)) in (0..).zip(before.servers.iter().zip(&after.servers)) {
        if old == new {
            continue;
        }
        let executions = pairs(stored(old.executions.stored()), stored(new.executions.stored()));
        found.extend(executions.map(|(place, was, now)| Change::Execution { sender: server, place, was, now }));
        let packets = pairs(taken(&old.outgoing), taken(&new.outgoing));
        found.extend(packets.map(|(place, was, now)| Change::Packet { origin: server, place, was, now }));
        let entries = pairs(taken(&old.hold), taken(&new.hold));
        found.extend(entries.map(|(place, was, now)| Change::Entry { server, place, was, now }));
        let items = pairs(stored(old.delivered.stored()), stored(new.delivered.stored()));
        found.extend(items.map(|(index, was, now)| Change::Item { server, index, was, now }));
    }
    if before.numbered != after.numbered {
        found.push(Change::Numbered { was: before.numbered, now: after.numbered });
    }
    found
}

/// What is in a list, place by place.
fn stored<T: Copy>(list: &[T]) -> impl Iterator<Item = Option<T>> + '_ {
    list.iter().map(|value| Some(*value))
}

/// What is in places, none where one is free.
fn taken<T: Place>(places: &[T]) -> impl Iterator<Item = Option<T>> + '_ {
    places.iter().map(|place| Some(*place).filter(|place| !place.is_free()))
}

/// The places in which two sequences differ; behind the end of the shorter one there is none.
fn pairs<'a, T: PartialEq + 'a>(
    old: impl Iterator<Item = Option<T>> + 'a,
    new: impl Iterator<Item = Option<T>> + 'a,
) -> impl Iterator<Item = (usize, Option<T>, Option<T>)> + 'a {
    let (mut old, mut new) = (old.fuse(), new.fuse());
    let both = std::iter::from_fn(move || match (old.next(), new.next()) {
        (None, None) => None,
        (was, now) => Some((was.flatten(), now.flatten())),
    });
    both.enumerate().map(|(place, (was, now))| (place, was, now)).filter(|(_, was, now)| was != now)
}

impl Change {
    /// The change in words.
    pub fn text(&self) -> String {
        match self {
            Change::Request { slot, was, now } => arrow(&format!("slot {slot}"), was, now, request_text),
            Change::Execution { sender, place, was, now } => {
                let id = now.or(*was).map_or(0, |execution| execution.id);
                arrow(&format!("execution {sender}.{id} (place {place})"), was, now, execution_text)
            }
            Change::Packet { origin, place, was, now } => {
                arrow(&format!("outgoing place {place} of server {origin}"), was, now, packet_text)
            }
            Change::Entry { server, place, was, now } => {
                arrow(&format!("hold place {place} of server {server}"), was, now, entry_text)
            }
            Change::Item { server, index, was, now } => {
                arrow(&format!("delivered by server {server} as number {}", index + 1), was, now, Sending::to_string)
            }
            Change::Numbered { was, now } => format!("numbers given: {was} -> {now}"),
        }
    }

    /// The change as JSON.
    pub fn json(&self) -> String {
        let named = |name: &str| Object::new().text("box", name);
        match self {
            Change::Request { slot, was, now } => both(named("request").field("slot", slot), was, now, request_json),
            Change::Execution { sender, place, was, now } => {
                both(named("execution").field("sender", sender).field("place", place), was, now, execution_json)
            }
            Change::Packet { origin, place, was, now } => {
                both(named("packet").field("origin", origin).field("place", place), was, now, packet_json)
            }
            Change::Entry { server, place, was, now } => {
                both(named("entry").field("server", server).field("place", place), was, now, entry_json)
            }
            Change::Item { server, index, was, now } => {
                both(named("item").field("server", server).field("index", index), was, now, item_json)
            }
            Change::Numbered { was, now } => named("numbered").field("was", was).field("now", now).end(),
        }
    }
}

/// A place, and what was and is in it.
fn arrow<T>(place: &str, was: &Option<T>, now: &Option<T>, text: impl Fn(&T) -> String) -> String {
    let shown = |value: &Option<T>| value.as_ref().map_or("free".to_string(), &text);
    match was {
        None => format!("{place}: {}", shown(now)),
        Some(_) => format!("{place}: {} -> {}", shown(was), shown(now)),
    }
}

/// A request in words.
fn request_text(request: &Request) -> String {
    readable::of_step(&Step::Request { body: request.body })
}

/// An execution in words.
fn execution_text(execution: &Execution) -> String {
    let number = match execution.number {
        0 => "no number".to_string(),
        number => format!("number {number}"),
    };
    let (called, mask) = (readable::of_mask(execution.called), readable::of_mask(execution.mask));
    format!("called {called}, mask {mask}, {number}")
}

/// A packet in words.
fn packet_text(packet: &Packet) -> String {
    format!("packet {} to {}", packet.sending, packet.to)
}

/// An entry in words.
fn entry_text(entry: &Entry) -> String {
    let number = if entry.number == 0 { String::new() } else { format!(" with number {}", entry.number) };
    format!("stage-{} entry {}{number}", why::stage_word(entry.stage), entry.sending)
}

/// An object with what was and what is.
fn both<T>(object: Object, was: &Option<T>, now: &Option<T>, json: impl Fn(Object, &T) -> Object) -> String {
    let value = |value: &Option<T>| optional(value.as_ref(), |value| json(Object::new(), value).end());
    object.field("was", value(was)).field("now", value(now)).end()
}

/// A request's fields.
fn request_json(object: Object, request: &Request) -> Object {
    let (head, command) = request.body.split_at(Request::SEALS + 1);
    let number = u32::from_be_bytes([head[1], head[2], head[3], head[4]]);
    let object = object.field("client", head[0]).field("number", number).field("seals", list(members(request.seals())));
    object.text("command", &hex::to_text(command)).text("digest", &hex::to_text(&request.digest))
}

/// An execution's fields.
fn execution_json(object: Object, execution: &Execution) -> Object {
    let object = object.field("id", execution.id).field("number", execution.number);
    let object = object.field("called", list(members(execution.called))).field("mask", list(members(execution.mask)));
    object.text("digest", &hex::to_text(&execution.digest))
}

/// A packet's fields.
fn packet_json(object: Object, packet: &Packet) -> Object {
    item_json(object.field("to", packet.to), &packet.sending)
}

/// An entry's fields.
fn entry_json(object: Object, entry: &Entry) -> Object {
    item_json(object.field("stage", entry.stage), &entry.sending).field("number", entry.number)
}

/// A sending's fields.
fn item_json(object: Object, sending: &Sending) -> Object {
    object.field("sender", sending.sender).field("id", sending.id).field("slot", sending.slot)
}

/// The whole trace as one JSON object and a line end; `README.md` has the format.
pub fn json(trace: &Trace) -> String {
    let schedule = Object::new().field("bytes", trace.schedule.len()).text("hex", &hex::to_text(&trace.schedule)).end();
    let object = Object::new().text("format", FORMAT).field("schedule", schedule);
    let object = match trace.rules {
        Rules::Proved => object,
        Rules::Mistaken(mistake) => object.text("mistake", &format!("{mistake:?}")),
    };
    let whole = match &trace.outcome {
        Err(refused) => object.field("refused", refused_json(refused)),
        Ok(run) => {
            let steps = (1..).zip(&run.steps).map(|(k, step)| step_json(k, step));
            let object = object.field("world", world_json(&run.end)).field("steps", list(steps));
            object.field("final", state_json(&run.end)).field("verdict", verdict_json(&run.verdict))
        }
    };
    whole.end() + "\n"
}

/// A refusal.
fn refused_json(refused: &Refused) -> String {
    let (code, name) = (refused.refusal.code(), refused.refusal.name());
    Object::new().field("number", code).text("name", name).field("offset", refused.offset).end()
}

/// What a world has from its start on.
fn world_json(world: &World) -> String {
    let object = Object::new().field("n", world.n).field("f", world.f()).field("threshold", world.threshold());
    object.field("faulty", list(members(world.faulty))).end()
}

/// One step.
fn step_json(k: usize, step: &Traced) -> String {
    let object = Object::new().field("step", k).field("offset", step.offset).text("kind", kind(&step.step));
    let object = object.text("text", &step.text).field("answer", step.answer.code()).text("name", step.answer.name());
    let changes = list(step.changes.iter().map(Change::json));
    object.text("why", &step.why).field("changes", changes).field("quiet", step.quiet).end()
}

/// The name of a step's kind.
pub fn kind(step: &Step) -> &'static str {
    match step {
        Step::Request { .. } => "request",
        Step::Multicast { .. } => "multicast",
        Step::Arrive { .. } => "arrive",
        Step::Propose { .. } => "propose",
        Step::Settle { .. } => "settle",
        Step::Deliver { .. } => "deliver",
        Step::ForgePacket { .. } => "forge packet",
        Step::ForgeSend { .. } => "forge send",
        Step::ForgeReceive { .. } => "forge receive",
    }
}

/// What is in use in a world.
fn state_json(world: &World) -> String {
    let requests = world.requests.stored().iter().map(|request| request_json(Object::new(), request).end());
    let executions = world.present().iter().map(|server| {
        list(server.executions.stored().iter().map(|execution| execution_json(Object::new(), execution).end()))
    });
    let packets = in_places(world, "origin", |server| &world.server(server).outgoing, packet_json);
    let entries = in_places(world, "server", |server| &world.server(server).hold, entry_json);
    let items = world
        .present()
        .iter()
        .map(|server| list(server.delivered.stored().iter().map(|item| item_json(Object::new(), item).end())));
    let object = Object::new().field("numbered", world.numbered).field("requests", list(requests));
    let object = object.field("executions", list(executions)).field("packets", list(packets));
    object.field("entries", list(entries)).field("items", list(items)).end()
}

/// What is in the taken places of each server.
fn in_places<'a, T: Place + 'a>(
    world: &'a World,
    owner: &'a str,
    places: impl Fn(u8) -> &'a [T; 64] + 'a,
    json: impl Fn(Object, &T) -> Object + 'a,
) -> impl Iterator<Item = String> + 'a {
    members(world.all()).flat_map(move |server| {
        let taken = places(server).iter().enumerate().filter(|(_, value)| !value.is_free());
        let object = |(place, value)| json(Object::new().field(owner, server).field("place", place), value).end();
        taken.map(object).collect::<Vec<_>>()
    })
}

/// The verdict.
fn verdict_json(verdict: &Verdict) -> String {
    let texts = |texts: &[String]| list(texts.iter().map(|text| string(text)));
    let object = Object::new().field("quiet", verdict.quiet).field("open", texts(&verdict.open));
    let object = object.field("waiting", texts(&verdict.waiting)).text("agreement", &verdict.agreement);
    object.field("behind", list(&verdict.behind)).field("numbered", verdict.numbered).end()
}
