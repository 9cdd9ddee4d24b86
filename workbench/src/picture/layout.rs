//! Where everything of a picture is: columns, lines, arrows, and labels that do not overlap.

use std::collections::{HashMap, HashSet};
use std::ops::Range;

use second::steps::{Answer, Step};

use super::story::{Call, End, Moment, Numbered, Story, Trip};
use super::svg::{Bend, Point};

/// The picture is at least this wide, for its legend.
const NARROWEST: i32 = 800;
/// A column: wide enough for the labels of its step, so that a picture grows with its steps.
const COLUMN: i32 = 70;
/// The width for the names of the lines.
const LEFT: i32 = 84;
/// The width right of the last column.
const RIGHT: i32 = 64;
/// The height of a line of text.
pub const TEXT: i32 = 14;

/// Where everything is. The rows are the clients', one for each server, and the orderer's.
pub struct Layout {
    pub rows: Vec<Row>,
    /// The packets' arrows; none for a packet that never arrives.
    pub arrows: Vec<Option<Bend>>,
    pub head: i32,
    pub width: i32,
    pub bottom: i32,
}

/// A line of the picture: how far from the top it is, and its labels.
#[derive(Default)]
pub struct Row {
    pub y: i32,
    pub above: Lanes,
    pub below: Lanes,
}

/// The labels on one side of a line, in lanes; of each lane it is known what is taken, from where to where.
#[derive(Default)]
pub struct Lanes {
    taken: Vec<Vec<(i32, i32)>>,
    pub labels: Vec<Label>,
}

/// A short text beside a line; `left` and `width` are the room that it takes.
pub struct Label {
    pub class: &'static str,
    pub left: i32,
    pub width: i32,
    pub lane: i32,
    pub words: String,
}

/// What a first try has drawn: the lines' heights, and points on the arrows and calls.
#[derive(Default)]
struct Try {
    heights: Vec<i32>,
    points: Points,
}

/// Points, found by the column that they are in.
#[derive(Default)]
struct Points {
    columns: HashMap<i32, Vec<Point>>,
}

impl Points {
    /// Adds points.
    fn extend(&mut self, points: impl IntoIterator<Item = Point>) {
        points.into_iter().for_each(|point| self.columns.entry(point.0.div_euclid(COLUMN)).or_default().push(point));
    }

    /// The points from one column to another, and perhaps some beside them.
    fn between(&self, left: i32, right: i32) -> impl Iterator<Item = &Point> {
        let columns = left.div_euclid(COLUMN)..=right.div_euclid(COLUMN);
        columns.filter_map(|column| self.columns.get(&column)).flatten()
    }

    /// Whether a point lies less than so many pixels from another, to the side and in height.
    fn is_near(&self, point: Point, pixels: i32) -> bool {
        self.between(point.0 - pixels, point.0 + pixels).any(|other| is_near(point, *other, pixels))
    }
}

/// A side of a line.
#[derive(Clone, Copy, PartialEq, Eq)]
enum Side {
    Above,
    Below,
}

impl Layout {
    /// Places everything twice: where the first try has its arrows tells on which side of a line a label is free.
    pub fn of_story(story: &Story) -> Layout {
        let first = Layout::after_try(story, &Try::default());
        Layout::after_try(story, &first.drawn(story))
    }

    /// Places the labels beside the lines, the lines with room for them, and the arrows between them.
    fn after_try(story: &Story, first: &Try) -> Layout {
        let mut layout = Layout::empty(story.moments.len() as i32, story.end.n);
        layout.reserve_stubs(story);
        for (k, moment) in story.moments.iter().enumerate() {
            layout.label(k, moment, first);
        }
        layout.set_heights();
        layout.set_arrows(story);
        layout
    }

    /// Columns and rows with nothing in them.
    fn empty(steps: i32, n: u8) -> Layout {
        let width = (LEFT + steps * COLUMN + RIGHT).max(NARROWEST);
        let rows = (0..n + 2).map(|_| Row::default()).collect();
        Layout { rows, arrows: Vec::new(), head: 84, width, bottom: 0 }
    }

    /// Puts the labels of one step.
    fn label(&mut self, k: usize, moment: &Moment, first: &Try) {
        let (x, row) = (self.x(k), row_of(moment));
        if !moment.about.is_empty() {
            self.put(row, Side::Above, about_label(x, moment), first);
        }
        if moment.answer != Answer::Done {
            self.put(row, Side::Below, answer_label(x, moment.answer), first);
        }
        if let Some(numbered) = &moment.numbered {
            let orderer = self.rows.last_mut().expect("there is an orderer");
            orderer.below.put(number_label(x, numbered));
        }
    }

    /// Puts a label beside a line: on this side, unless an arrow crosses it here and none does on the other.
    fn put(&mut self, row: usize, side: Side, mut label: Label, first: &Try) {
        label.left = label.left.min(self.width - 4 - label.width).max(4);
        let is_better_there = first.crosses(row, side, &label) && !first.crosses(row, side.other(), &label);
        let side = if is_better_there { side.other() } else { side };
        self.rows[row].lanes(side).put(label);
    }

    /// Keeps room for the stubs, and for the names at their ends.
    fn reserve_stubs(&mut self, story: &Story) {
        for trip in story.packets.iter().filter(|trip| trip.end == End::UnderWay) {
            let (x, (right, down)) = (self.x(trip.sent), stub(story, trip));
            let side = if down < 0 { Side::Above } else { Side::Below };
            let lanes = ((down.abs() - 2) / TEXT + 1) as usize;
            let row = self.rows[1 + usize::from(trip.from)].lanes(side);
            row.reserve(0..lanes, x + 8, x + right + 6);
            row.reserve(1..lanes, x + right - 5, x + right + 6);
        }
    }

    /// Sets the lines one below the other, each with room for its labels.
    fn set_heights(&mut self) {
        let mut bottom = self.head;
        for (k, row) in self.rows.iter_mut().enumerate() {
            let gap = [24, 44].get(k).copied().unwrap_or(62);
            row.y = bottom + gap + row.above.height();
            bottom = row.y + row.below.height();
        }
        self.bottom = bottom;
    }

    /// The lines' heights, and points on all that is drawn between them: the packets' arrows and the calls.
    fn drawn(&self, story: &Story) -> Try {
        let arrows = self.arrows.iter().flatten().flat_map(|arrow| arrow.points());
        let calls = story.moments.iter().enumerate().filter_map(|(k, moment)| self.call(k, moment));
        let on_calls = calls.flat_map(|((x, top), (_, end))| (top..end).step_by(4).map(move |y| (x, y)));
        let mut points = Points::default();
        points.extend(arrows.chain(on_calls));
        Try { heights: self.rows.iter().map(|row| row.y).collect(), points }
    }

    /// Draws each arrow past the marks, and away from the arrows before it.
    fn set_arrows(&mut self, story: &Story) {
        let mut marks = Points::default();
        marks.extend(self.marks(story));
        let mut before = Points::default();
        for trip in &story.packets {
            let arrow = self.bends(trip).min_by_key(|bend| cost(bend, &marks, &before));
            before.extend(arrow.iter().flat_map(|arrow| arrow.points()));
            self.arrows.push(arrow);
        }
    }

    /// The marks of the steps, and the ends of the stubs.
    fn marks(&self, story: &Story) -> Vec<Point> {
        let steps = story.moments.iter().enumerate().map(|(k, moment)| self.mark(k, moment));
        let stubs = story.packets.iter().filter(|trip| trip.end == End::UnderWay).map(|trip| {
            let ((x, y), (right, down)) = (self.at(trip.sent, trip.from), stub(story, trip));
            (x + right, y + down)
        });
        steps.chain(stubs).collect()
    }

    /// The ways in which the arrow of a packet can be bent, if it arrives.
    fn bends(&self, trip: &Trip) -> impl Iterator<Item = Bend> {
        let from = self.at(trip.sent, trip.from);
        let to = trip.arrival().map(|arrival| self.at(arrival, trip.packet.to));
        to.into_iter().flat_map(move |to| [5, 3, 4, 6, 2].map(|eighths| Bend::new(from, to, eighths)))
    }

    /// The ends of the line from a step that calls the orderer.
    pub fn call(&self, k: usize, moment: &Moment) -> Option<(Point, Point)> {
        let server = moment.server.filter(|_| moment.call != Call::None)?;
        Some((self.at(k, server), (self.x(k), self.orderer_y())))
    }

    /// The middle of a step's column.
    pub fn x(&self, step: usize) -> i32 {
        LEFT + step as i32 * COLUMN + COLUMN / 2
    }

    /// Where a step is on a server's line.
    pub fn at(&self, step: usize, server: u8) -> Point {
        (self.x(step), self.rows[1 + usize::from(server)].y)
    }

    /// Where a step's mark is.
    pub fn mark(&self, step: usize, moment: &Moment) -> Point {
        (self.x(step), self.rows[row_of(moment)].y)
    }

    /// How far from the top the orderer's line is.
    pub fn orderer_y(&self) -> i32 {
        self.rows[self.rows.len() - 1].y
    }

    /// The left and right end of the lines.
    pub fn ends(&self) -> (i32, i32) {
        (LEFT, self.width - RIGHT / 2)
    }
}

impl Try {
    /// Whether a label in the nearest lane beside a line would lie on a drawn point.
    fn crosses(&self, row: usize, side: Side, label: &Label) -> bool {
        let Some(y) = self.heights.get(row) else { return false };
        let (top, end) = side.lane();
        let columns = label.left..label.left + label.width;
        let mut near = self.points.between(columns.start, columns.end);
        near.any(|point| columns.contains(&point.0) && (y + top..y + end).contains(&point.1))
    }
}

impl Row {
    /// The lanes on a side.
    fn lanes(&mut self, side: Side) -> &mut Lanes {
        match side {
            Side::Above => &mut self.above,
            Side::Below => &mut self.below,
        }
    }
}

impl Lanes {
    /// Puts a label into the first lane with room for it.
    fn put(&mut self, mut label: Label) {
        let (left, right) = (label.left, label.left + label.width);
        let is_free = |lane: &Vec<(i32, i32)>| lane.iter().all(|taken| taken.1 <= left || right <= taken.0);
        let lane = self.taken.iter().position(is_free).unwrap_or(self.taken.len());
        self.open(lane + 1);
        self.taken[lane].push((left, right));
        label.lane = lane as i32;
        self.labels.push(label);
    }

    /// Takes some lanes from a place to another.
    fn reserve(&mut self, lanes: Range<usize>, left: i32, right: i32) {
        self.open(lanes.end);
        for lane in &mut self.taken[lanes] {
            lane.push((left, right));
        }
    }

    /// Makes sure that there are so many lanes.
    fn open(&mut self, lanes: usize) {
        self.taken.resize(self.taken.len().max(lanes), Vec::new());
    }

    /// How high the lanes are together.
    fn height(&self) -> i32 {
        self.taken.len() as i32 * TEXT
    }
}

impl Label {
    /// A label that has no place yet.
    fn new(class: &'static str, words: String) -> Label {
        let width = words.len() as i32 * 29 / 4 + 4;
        Label { class, left: 0, width, lane: 0, words }
    }

    /// With its middle at a place.
    fn centred(self, x: i32) -> Label {
        Label { left: x - self.width / 2, ..self }
    }
}

impl Side {
    /// The other side.
    fn other(self) -> Side {
        match self {
            Side::Above => Side::Below,
            Side::Below => Side::Above,
        }
    }

    /// How far from the line the nearest lane begins and ends; a negative number is above.
    fn lane(self) -> (i32, i32) {
        match self {
            Side::Above => (-8 - TEXT, -8),
            Side::Below => (8, 8 + TEXT),
        }
    }
}

/// What speaks against a bend: the marks that it passes closely, and how long it goes along other arrows.
fn cost(bend: &Bend, marks: &Points, arrows: &Points) -> usize {
    let is_end = |mark: &Point| *mark == bend.from || *mark == bend.to;
    let passes = |mark: &Point, point: Point| !is_end(mark) && is_near(point, *mark, 11);
    let near = |point: Point| marks.between(point.0 - 11, point.0 + 11).filter(move |mark| passes(mark, point));
    let passed: HashSet<&Point> = bend.points().flat_map(near).collect();
    let along = bend.points().filter(|point| arrows.is_near(*point, 6));
    100 * passed.len() + along.count()
}

/// Whether two points are less than so many pixels apart, to the side and in height.
fn is_near(one: Point, other: Point, pixels: i32) -> bool {
    (one.0 - other.0).abs() < pixels && (one.1 - other.1).abs() < pixels
}

/// The row of a step: its server's, or the clients'.
fn row_of(moment: &Moment) -> usize {
    moment.server.map_or(0, |server| 1 + usize::from(server))
}

/// The label that says what a step is about; arrows leave to the right, so where they do it ends at the step.
fn about_label(x: i32, moment: &Moment) -> Label {
    let class = match moment.step {
        Step::Deliver { .. } => "done",
        _ if moment.forged => "lie-about",
        _ => "about",
    };
    let label = Label::new(class, moment.about.clone());
    match moment.step {
        Step::Multicast { .. } | Step::ForgePacket { .. } => Label { left: x + 6 - label.width, ..label },
        _ => label.centred(x),
    }
}

/// The label with an answer.
fn answer_label(x: i32, answer: Answer) -> Label {
    Label { left: x + 5, ..Label::new("answer", answer_text(answer)) }
}

/// The label with a number that the orderer gave.
fn number_label(x: i32, numbered: &Numbered) -> Label {
    let Numbered { number, sender, id } = numbered;
    Label::new("middle", format!("number {number}: {sender}.{id}")).centred(x)
}

/// An answer's number and name.
pub fn answer_text(answer: Answer) -> String {
    format!("{} {}", answer.code(), answer.name())
}

/// From a step to the end of the stub of a packet under way: the stubs of a step fan out on each side.
pub fn stub(story: &Story, trip: &Trip) -> Point {
    const FAN: [Point; 7] = [(33, 15), (25, 25), (15, 33), (4, 36), (43, 23), (29, 41), (13, 48)];
    let is_up = |trip: &Trip| trip.packet.to < trip.from;
    let is_before = |other: &&Trip| {
        (other.sent, other.end, is_up(other)) == (trip.sent, End::UnderWay, is_up(trip)) && other.place < trip.place
    };
    let (right, down) = FAN[story.packets.iter().filter(is_before).count()];
    (right, if is_up(trip) { -down } else { down })
}
