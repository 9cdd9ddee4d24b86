//! A run as a picture: a line for each server, time from left to right, packets as arrows, the orderer below.

pub mod layout;
pub mod story;
pub mod svg;

use second::readable;
use second::schedule::Refused;
use second::steps::{Answer, Step};
use second::world::has;

use crate::proved::Rules;
use crate::trace::kind;
use layout::{answer_text, Label, Layout, TEXT};
use story::{Call, End, Story, Trip};
use svg::{Point, Svg};

/// The width and height of a legend item.
const LEGEND_ITEM: Point = (196, 22);

/// The most legend items side by side.
const LEGEND_COLUMNS: i32 = 6;

/// Colours that the colour-blind can tell apart; what is forged is dashed too.
const STYLE: &str = "\
text{font:12px monospace;fill:#222;paint-order:stroke;stroke:#fff;stroke-width:3px}
.paper{fill:#fff}
.title{font-size:15px;font-weight:bold}
.middle,.about,.lie-about,.done,.to,.lie-to{text-anchor:middle}
.grey{fill:#666}
.lie-about,.lie-to,.liar-name,.answer{fill:#a33f00}
.done{fill:#005a41;font-weight:bold}
.to{fill:#0072b2}
.to,.lie-to,.answer{font-size:11px}
.guide{stroke:#e8e8e8}
.clients{stroke:#bbb;stroke-width:2}
.server,.orderer{stroke:#333;stroke-width:2}
.liar{stroke:#a33f00;stroke-dasharray:9 6}
.call{stroke:#777;stroke-dasharray:2 3}
.cross{fill:none;stroke:#a33f00;stroke-width:2}
.packet{fill:none;stroke:#0072b2;stroke-width:2}
.kept{marker-end:url(#head)}
.dropped{marker-end:url(#cross)}
.forged{stroke:#d55e00;stroke-dasharray:7 4}
.kept.forged{marker-end:url(#forged-head)}
.dropped.forged{marker-end:url(#forged-cross)}
.mark{fill:#333;stroke:#333;stroke-width:2}
.sent{fill:#0072b2;stroke:#0072b2}
.lie{fill:#d55e00;stroke:#d55e00}
.delivery{fill:#009e73;stroke:#009e73}
.number{fill:#e69f00;stroke:#333}
.hollow{fill:#fff}
";

/// The picture of a schedule's runs, one below the other, by each of the rules.
pub fn of_schedule(schedule: &[u8], rules: &[Rules]) -> Result<String, Refused> {
    let stories: Result<Vec<Story>, Refused> = rules.iter().map(|rules| Story::of_run(schedule, *rules)).collect();
    Ok(of_stories(&stories?))
}

/// The picture of stories, with one legend below them.
pub fn of_stories(stories: &[Story]) -> String {
    let layouts: Vec<Layout> = stories.iter().map(Layout::of_story).collect();
    let width = layouts.iter().map(|layout| layout.width).max().unwrap_or_default();
    let bottom: i32 = layouts.iter().map(|layout| layout.bottom).sum();
    let mut svg = Svg::new((width, bottom + 40 + legend_height(width)), STYLE, &definitions());
    let mut top = 0;
    for (story, layout) in stories.iter().zip(&layouts) {
        draw_story(&mut svg, story, layout, top);
        top += layout.bottom;
    }
    draw_legend(&mut svg, width, bottom);
    svg.finish()
}

/// One story, so far from the top: what is drawn later lies over what is drawn before.
fn draw_story(svg: &mut Svg, story: &Story, layout: &Layout, top: i32) {
    if top > 0 {
        svg.begin_lower(top);
    }
    draw_head(svg, story, layout);
    draw_lines(svg, story, layout);
    draw_calls(svg, story, layout);
    draw_packets(svg, story, layout);
    draw_marks(svg, story, layout);
    draw_labels(svg, layout);
    if top > 0 {
        svg.end_lower();
    }
}

/// The ends of arrows: heads and crosses, in both colours.
fn definitions() -> String {
    let mut text = String::new();
    for (prefix, colour) in [("", "#0072b2"), ("forged-", "#d55e00")] {
        let head = format!("<path d=\"M0 0L10 5L0 10z\" fill=\"{colour}\"/>");
        let cross = format!("<path d=\"M1 1L9 9M9 1L1 9\" stroke=\"{colour}\" stroke-width=\"2\"/>");
        text += &marker(&format!("{prefix}head"), 9, "auto", &head);
        text += &marker(&format!("{prefix}cross"), 5, "0", &cross);
    }
    text
}

/// One end of an arrow, in a box of ten by ten; `point` is where in it the arrow ends, `turn` how it is turned.
fn marker(id: &str, point: i32, turn: &str, shape: &str) -> String {
    let size = "markerWidth=\"10\" markerHeight=\"10\" markerUnits=\"userSpaceOnUse\"";
    format!("<marker id=\"{id}\" refX=\"{point}\" refY=\"5\" {size} orient=\"{turn}\">{shape}</marker>\n")
}

/// The title, and the name and number of each step over a thin line.
fn draw_head(svg: &mut Svg, story: &Story, layout: &Layout) {
    let (n, f, t) = (story.end.n, story.end.f(), story.end.threshold());
    svg.words("title", (16, 28), &format!("n {n}, f {f}, T {t}"));
    let wrong = match story.rules {
        Rules::Proved => String::new(),
        Rules::Mistaken(mistake) => format!(", with the mistake {mistake:?}"),
    };
    svg.words("grey", (156, 28), &format!("{n} servers, at most {f} may lie, {t} proposers give a number{wrong}"));
    svg.words("grey", (16, layout.head), "step");
    for (k, moment) in story.moments.iter().enumerate() {
        let x = layout.x(k);
        svg.line("guide", (x, layout.head + 6), (x, layout.orderer_y()));
        svg.words("middle", (x, layout.head), &(k + 1).to_string());
        draw_name(svg, (x, layout.head - TEXT), kind(&moment.step));
    }
}

/// A step's name, one word a line.
fn draw_name(svg: &mut Svg, (x, y): Point, name: &str) {
    for (above, word) in name.split(' ').rev().enumerate() {
        svg.words("middle", (x, y - above as i32 * TEXT), word);
    }
}

/// The lines with their names.
fn draw_lines(svg: &mut Svg, story: &Story, layout: &Layout) {
    draw_line(svg, layout, 0, "clients", "clients");
    for server in 0..story.end.n {
        let row = 1 + usize::from(server);
        let liar = has(story.end.faulty, server);
        draw_line(svg, layout, row, if liar { "server liar" } else { "server" }, &format!("server {server}"));
        if liar {
            svg.words("liar-name", (16, layout.rows[row].y + 4 + TEXT), "liar");
        }
    }
    draw_line(svg, layout, layout.rows.len() - 1, "orderer", "orderer");
}

/// A line with its name at the left.
fn draw_line(svg: &mut Svg, layout: &Layout, row: usize, class: &str, name: &str) {
    let (y, (left, right)) = (layout.rows[row].y, layout.ends());
    svg.words("name", (16, y + 4), name);
    svg.line(class, (left, y), (right, y));
}

/// The calls to the orderer, with a cross where it took no note, and the numbers that it gave.
fn draw_calls(svg: &mut Svg, story: &Story, layout: &Layout) {
    for (k, moment) in story.moments.iter().enumerate() {
        let Some((from, to)) = layout.call(k, moment) else { continue };
        svg.line("call", from, to);
        match (moment.call, &moment.numbered) {
            (Call::NotTaken, _) => svg.path("cross", &svg::cross((to.0, to.1 - 10), 4), ""),
            (_, Some(_)) => svg.path("mark number", &svg::diamond(to, 8), ""),
            (_, None) => svg.path("mark", &svg::circle(to, 3), ""),
        }
    }
}

/// The packets as arrows, or as stubs with the server that they do not reach.
fn draw_packets(svg: &mut Svg, story: &Story, layout: &Layout) {
    for (trip, arrow) in story.packets.iter().zip(&layout.arrows) {
        match arrow {
            Some(arrow) => svg.path(packet_class(trip.end, trip.forged), &arrow.way(), &packet_note(trip)),
            None => draw_stub(svg, layout, trip, layout::stub(story, trip)),
        }
    }
}

/// A stub, with the server's name at its end.
fn draw_stub(svg: &mut Svg, layout: &Layout, trip: &Trip, (right, down): Point) {
    let (x, y) = layout.at(trip.sent, trip.from);
    let way = svg::straight((x, y), (x + right * 3 / 4, y + down * 3 / 4));
    svg.path(packet_class(trip.end, trip.forged), &way, &packet_note(trip));
    let class = if trip.forged { "lie-to" } else { "to" };
    svg.words(class, (x + right, y + down + 4), &trip.packet.to.to_string());
}

/// The class of an arrow or a stub.
fn packet_class(end: End, forged: bool) -> &'static str {
    match (end, forged) {
        (End::UnderWay, false) => "packet",
        (End::Kept(_), false) => "packet kept",
        (End::Dropped(_), false) => "packet dropped",
        (End::UnderWay, true) => "packet forged",
        (End::Kept(_), true) => "packet kept forged",
        (End::Dropped(_), true) => "packet dropped forged",
    }
}

/// A packet in words.
fn packet_note(trip: &Trip) -> String {
    let forged = if trip.forged { "forged " } else { "" };
    let (sending, from, to) = (trip.packet.sending, trip.from, trip.packet.to);
    let end = match trip.end {
        End::UnderWay => "never arrives".to_string(),
        End::Kept(step) => format!("arrives at step {}", step + 1),
        End::Dropped(step) => format!("is dropped at step {}", step + 1),
    };
    format!("{forged}packet {sending} from {from} to {to}, sent at step {}, {end}", trip.sent + 1)
}

/// The marks of the steps on their lines.
fn draw_marks(svg: &mut Svg, story: &Story, layout: &Layout) {
    for (k, moment) in story.moments.iter().enumerate() {
        let note = format!("step {}: {}, {}", k + 1, readable::of_step(&moment.step), answer_text(moment.answer));
        draw_mark(svg, layout.mark(k, moment), &moment.step, moment.answer, &note);
    }
}

/// The mark of a step, hollow if its answer is not 0; a packet that arrives has its arrow for a mark.
fn draw_mark(svg: &mut Svg, at: Point, step: &Step, answer: Answer, note: &str) {
    let (class, way) = match step {
        Step::Arrive { .. } if answer.changes() => return,
        Step::Arrive { .. } | Step::Request { .. } => ("mark", svg::circle(at, 4)),
        Step::Multicast { .. } => ("mark sent", svg::circle(at, 5)),
        Step::Propose { .. } => ("mark", svg::triangle(at, 6)),
        Step::Settle { .. } => ("mark", svg::square(at, 5)),
        Step::Deliver { .. } => ("mark delivery", svg::circle(at, 8)),
        Step::ForgePacket { .. } | Step::ForgeSend { .. } | Step::ForgeReceive { .. } => {
            ("mark lie", svg::circle(at, 5))
        }
    };
    let hollow = if answer == Answer::Done { "" } else { " hollow" };
    svg.path(&format!("{class}{hollow}"), &way, note);
}

/// The labels, over everything else.
fn draw_labels(svg: &mut Svg, layout: &Layout) {
    for row in &layout.rows {
        for label in &row.above.labels {
            draw_label(svg, label, row.y - 12 - label.lane * TEXT);
        }
        for label in &row.below.labels {
            draw_label(svg, label, row.y + 20 + label.lane * TEXT);
        }
    }
}

/// A label in the middle of its room, or an answer from its left end on.
fn draw_label(svg: &mut Svg, label: &Label, y: i32) {
    let x = if label.class == "answer" { label.left } else { label.left + label.width / 2 };
    svg.words(label.class, (x, y), &label.words);
}

/// What stands in the legend.
enum Sample {
    Packet(End, bool),
    Stub,
    Step(Step, Answer),
    Call,
    NotTaken,
    Number,
    Key,
}

/// The legend's samples with their words.
fn legend() -> [(Sample, &'static str); 12] {
    let propose = Step::Propose { server: 0, place: 0 };
    [
        (Sample::Packet(End::Kept(0), false), "packet"),
        (Sample::Packet(End::Kept(0), true), "forged packet"),
        (Sample::Packet(End::Dropped(0), false), "dropped on arrival"),
        (Sample::Stub, "never arrives at 2"),
        (Sample::Key, "SENDER.ID.SLOT"),
        (Sample::Step(propose, Answer::Done), "propose"),
        (Sample::Step(Step::Settle { server: 0, place: 0 }, Answer::Done), "settle"),
        (Sample::Step(Step::Deliver { server: 0 }, Answer::Done), "deliver"),
        (Sample::Step(propose, Answer::Wait), "answer not 0"),
        (Sample::Call, "call to the orderer"),
        (Sample::NotTaken, "call not recorded"),
        (Sample::Number, "number given"),
    ]
}

/// How many legend items stand side by side.
fn legend_columns(width: i32) -> i32 {
    ((width - 16) / LEGEND_ITEM.0).min(LEGEND_COLUMNS)
}

/// How high the legend is.
fn legend_height(width: i32) -> i32 {
    let columns = legend_columns(width) as usize;
    legend().len().div_ceil(columns) as i32 * LEGEND_ITEM.1
}

/// The legend, below everything.
fn draw_legend(svg: &mut Svg, width: i32, bottom: i32) {
    let columns = legend_columns(width) as usize;
    for (k, (sample, words)) in legend().into_iter().enumerate() {
        let (column, row) = ((k % columns) as i32, (k / columns) as i32);
        let (x, y) = (16 + column * LEGEND_ITEM.0, bottom + 40 + row * LEGEND_ITEM.1);
        draw_sample(svg, (x, y), &sample);
        svg.words("name", (x + 46, y + 4), words);
    }
}

/// A sample.
fn draw_sample(svg: &mut Svg, (x, y): Point, sample: &Sample) {
    let (middle, right) = ((x + 18, y), (x + 34, y));
    match sample {
        Sample::Packet(end, forged) => svg.path(packet_class(*end, *forged), &svg::straight((x, y), right), ""),
        Sample::Stub => {
            svg.line("packet", (x, y), (x + 24, y));
            svg.words("to", (x + 32, y + 4), "2");
        }
        Sample::Step(step, answer) => draw_mark(svg, middle, step, *answer, ""),
        Sample::Call => svg.line("call", (x, y), right),
        Sample::NotTaken => svg.path("cross", &svg::cross(middle, 4), ""),
        Sample::Number => svg.path("mark number", &svg::diamond(middle, 8), ""),
        Sample::Key => svg.words("about", (middle.0, y + 4), "0.1.0"),
    }
}

#[cfg(test)]
mod tests {
    use super::*;
    use second::schedule::Refusal;
    use second::steps::Mistake;

    const CASE_A: &[u8] = include_bytes!("../../../examples/case_a.bin");

    /// The story and the picture of case A.
    fn case_a() -> (Story, String) {
        let story = Story::of_run(CASE_A, Rules::Proved).expect("case A is accepted");
        (story, of_schedule(CASE_A, &[Rules::Proved]).expect("case A is drawn"))
    }

    /// How many elements of a class have a note; the legend's have none.
    fn count(picture: &str, class: &str) -> usize {
        let start = format!("<path class=\"{class}\"");
        picture.lines().filter(|line| line.starts_with(&start) && line.contains("<title>")).count()
    }

    /// The tags that are open at the end of a text, in their order; stops at one that closes another.
    fn open_tags(text: &str) -> Vec<&str> {
        let mut open = Vec::new();
        for part in text.split('<').skip(1) {
            let tag = part.split('>').next().unwrap_or_default();
            let name = tag.split([' ', '/']).next().unwrap_or_default();
            match tag.strip_prefix('/') {
                Some(closed) if open.last() == Some(&closed) => drop(open.pop()),
                Some(_) => break,
                None if tag.ends_with('/') => {}
                None => open.push(name),
            }
        }
        open
    }

    #[test]
    fn case_a_has_its_arrows_and_deliveries() {
        let (story, picture) = case_a();
        assert_eq!(story.packets.iter().filter(|trip| trip.arrival().is_some()).count(), 3);
        assert_eq!((count(&picture, "packet kept"), count(&picture, "packet")), (3, 0));
        let delivered: usize = story.end.present().iter().map(|server| server.delivered.count).sum();
        assert_eq!((count(&picture, "mark delivery"), delivered), (3, 3));
        assert_eq!(picture.matches(">1: 0.1.0</text>").count(), 3);
        assert_eq!(picture.matches(">number 1: 0.1</text>").count(), 1);
    }

    #[test]
    fn pictures_are_well_formed() {
        let (_, picture) = case_a();
        assert!(picture.starts_with("<svg ") && picture.ends_with("</svg>\n"));
        assert_eq!(open_tags(&picture), Vec::<&str>::new());
        assert_eq!(open_tags("<a><b/><c></a>"), ["a", "c"]);
        assert!(picture.lines().all(|line| line.matches('"').count() % 2 == 0));
    }

    #[test]
    fn no_step_is_drawn_too() {
        assert!(of_schedule(&[1, 1, 0], &[Rules::Proved]).is_ok());
    }

    #[test]
    fn refused_schedules_are_not_drawn() {
        assert_eq!(of_schedule(&[1, 3, 0, 11], &[Rules::Proved]), Err(Refusal::BadKind.at(3)));
    }

    #[test]
    fn a_wrong_run_is_drawn_below_the_right_one() {
        let rules = [Rules::Proved, Rules::Mistaken(Mistake::WrongDigestRecorded)];
        let incident = include_bytes!("../../../examples/incident5.bin");
        let picture = of_schedule(incident, &rules).expect("the incident is drawn");
        assert_eq!(open_tags(&picture), Vec::<&str>::new());
        assert_eq!(picture.matches("with the mistake WrongDigestRecorded").count(), 1);
        assert_eq!((count(&picture, "mark delivery"), count(&picture, "mark delivery hollow")), (7, 1));
    }
}
