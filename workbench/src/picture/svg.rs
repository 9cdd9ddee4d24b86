//! The few SVG elements that a picture needs, written as text, one a line.

use std::fmt::Write;

/// A point: pixels from the left and from the top.
pub type Point = (i32, i32);

/// An SVG that grows.
pub struct Svg {
    text: String,
}

impl Svg {
    /// An SVG of a width and height, with a style sheet and definitions.
    pub fn new((width, height): Point, style: &str, definitions: &str) -> Svg {
        let mut svg = Svg { text: String::new() };
        let size = format!("width=\"{width}\" height=\"{height}\" viewBox=\"0 0 {width} {height}\"");
        svg.add(&format!("<svg xmlns=\"http://www.w3.org/2000/svg\" {size}>"));
        svg.add(&format!("<style>\n{style}</style>"));
        svg.add(&format!("<defs>\n{definitions}</defs>"));
        svg.add(&format!("<rect class=\"paper\" width=\"{width}\" height=\"{height}\"/>"));
        svg
    }

    /// A straight line.
    pub fn line(&mut self, class: &str, (x1, y1): Point, (x2, y2): Point) {
        self.add(&format!("<line class=\"{class}\" x1=\"{x1}\" y1=\"{y1}\" x2=\"{x2}\" y2=\"{y2}\"/>"));
    }

    /// A shape given by its way; a note is shown where a viewer points at it.
    pub fn path(&mut self, class: &str, way: &str, note: &str) {
        let end = if note.is_empty() { "/>".to_string() } else { format!("><title>{note}</title></path>") };
        self.add(&format!("<path class=\"{class}\" d=\"{way}\"{end}"));
    }

    /// Words at a point; the class says which end of them is there.
    pub fn words(&mut self, class: &str, (x, y): Point, words: &str) {
        self.add(&format!("<text class=\"{class}\" x=\"{x}\" y=\"{y}\">{words}</text>"));
    }

    /// What follows stands so much lower, up to the end of the group.
    pub fn begin_lower(&mut self, down: i32) {
        self.add(&format!("<g transform=\"translate(0 {down})\">"));
    }

    /// Ends a group.
    pub fn end_lower(&mut self) {
        self.add("</g>");
    }

    /// The whole text.
    pub fn finish(mut self) -> String {
        self.add("</svg>");
        self.text
    }

    /// Adds one line of text.
    fn add(&mut self, line: &str) {
        writeln!(self.text, "{line}").expect("a string takes all text");
    }
}

/// The way of a straight line.
pub fn straight((x1, y1): Point, (x2, y2): Point) -> String {
    format!("M{x1} {y1}L{x2} {y2}")
}

/// A slightly bent line from one point to another, by its ends and the point that draws it aside.
#[derive(Clone, Copy)]
pub struct Bend {
    pub from: Point,
    pub aside: Point,
    pub to: Point,
}

impl Bend {
    /// A line drawn aside by eighths of its width: up to 4 it begins steeper than it ends. Level ones go in a bow.
    pub fn new(from: Point, to: Point, eighths: i32) -> Bend {
        let (right, down) = (to.0 - from.0, to.1 - from.1);
        let aside = match down {
            0 => (from.0 + right / 2, from.1 - 44),
            _ => (from.0 + right * eighths / 8, from.1 + down * (8 - eighths) / 8),
        };
        Bend { from, aside, to }
    }

    /// Its way.
    pub fn way(self) -> String {
        let Bend { from, aside, to } = self;
        format!("M{} {}Q{} {} {} {}", from.0, from.1, aside.0, aside.1, to.0, to.1)
    }

    /// Points on it, from end to end.
    pub fn points(self) -> impl Iterator<Item = Point> {
        const PARTS: i32 = 64;
        let mix = |t: i32, from: i32, aside: i32, to: i32| {
            let (t, rest) = (i64::from(t), i64::from(PARTS - t));
            let sum = rest * rest * i64::from(from) + 2 * rest * t * i64::from(aside) + t * t * i64::from(to);
            (sum / i64::from(PARTS * PARTS)) as i32
        };
        let Bend { from, aside, to } = self;
        (0..=PARTS).map(move |t| (mix(t, from.0, aside.0, to.0), mix(t, from.1, aside.1, to.1)))
    }
}

/// The way of a circle.
pub fn circle((x, y): Point, radius: i32) -> String {
    let (left, width) = (x - radius, 2 * radius);
    format!("M{left} {y}a{radius} {radius} 0 1 1 {width} 0a{radius} {radius} 0 1 1 -{width} 0z")
}

/// The way of a square.
pub fn square((x, y): Point, half: i32) -> String {
    let (left, top, width) = (x - half, y - half, 2 * half);
    format!("M{left} {top}h{width}v{width}h-{width}z")
}

/// The way of a triangle that points down.
pub fn triangle((x, y): Point, half: i32) -> String {
    let (left, top, width, height) = (x - half, y - half, 2 * half, 2 * half);
    format!("M{left} {top}h{width}l-{half} {height}z")
}

/// The way of a square that stands on a corner.
pub fn diamond((x, y): Point, half: i32) -> String {
    format!("M{} {y}l{half} -{half}l{half} {half}l-{half} {half}z", x - half)
}

/// The way of a cross.
pub fn cross((x, y): Point, half: i32) -> String {
    let (left, top, width) = (x - half, y - half, 2 * half);
    format!("M{left} {top}l{width} {width}m0 -{width}l-{width} {width}")
}
