//! The committed pictures are those that the examples give, and no text in a picture overlaps another.

use std::fs;
use std::path::{Path, PathBuf};

use second::generate;
use second::schedule::Steps;
use staubharfe::picture;
use staubharfe::proved::Rules;

/// How many generated schedules are drawn.
const GENERATED: u64 = 16;

/// How many of their steps.
const STEPS: usize = 70;

/// The picture of a schedule's run, if it is accepted.
fn draw(schedule: &[u8]) -> Option<String> {
    picture::of_schedule(schedule, &[Rules::Proved]).ok()
}

/// A path in the repository.
fn in_repository(path: &str) -> PathBuf {
    Path::new(env!("CARGO_MANIFEST_DIR")).join("..").join(path)
}

/// The bytes of an example's schedule.
fn example(name: &str) -> Vec<u8> {
    fs::read(in_repository(&format!("examples/{name}.bin"))).expect("the example can be read")
}

/// Whether an example's listing says that its schedule is refused.
fn is_refused(name: &str) -> bool {
    let listing = fs::read(in_repository(&format!("examples/{name}.out"))).expect("the listing can be read");
    listing.starts_with(b"refused ")
}

/// The pictures of all examples that are accepted, by name.
fn pictures() -> Vec<(String, String)> {
    let mut pictures = Vec::new();
    for item in fs::read_dir(in_repository("examples")).expect("the examples can be listed") {
        let path = item.expect("the item can be read").path();
        if path.extension().is_some_and(|extension| extension == "bin") {
            let name = path.file_stem().expect("it has a name").to_string_lossy().into_owned();
            match draw(&example(&name)) {
                Some(picture) => pictures.push((name, picture)),
                None => assert!(is_refused(&name), "{name} is refused"),
            }
        }
    }
    pictures
}

/// The pictures of generated schedules, cut to some steps, by name.
fn generated_pictures() -> Vec<(String, String)> {
    let cut = |index| {
        let schedule = generate::schedule(7, index);
        let mut steps = Steps::after_start(&schedule);
        steps.by_ref().take(STEPS).for_each(drop);
        schedule[..steps.offset().min(schedule.len())].to_vec()
    };
    let named = |index| Some((format!("generated {index}"), draw(&cut(index))?));
    (0..GENERATED).filter_map(named).collect()
}

/// The room of a level text: left, right, top, bottom; 12 pixels high letters are less than 7.3 wide.
type Room = (f64, f64, f64, f64);

/// A value of a line's element, by its name.
fn value<'a>(line: &'a str, name: &str) -> Option<&'a str> {
    line.split_once(&format!(" {name}=\""))?.1.split('"').next()
}

/// The room and the words of a line that is a level text.
fn level_text(line: &str) -> Option<(Room, &str)> {
    let x: f64 = value(line, "x").filter(|_| line.starts_with("<text "))?.parse().ok()?;
    let y: f64 = value(line, "y")?.parse().ok()?;
    let words = line.split_once('>')?.1.split('<').next()?;
    let (letter, is_centred) = match value(line, "class")? {
        "title" => (9.1, false),
        "middle" | "about" | "lie-about" | "done" => (7.3, true),
        "to" | "lie-to" => (6.7, true),
        "answer" => (6.7, false),
        _ => (7.3, false),
    };
    let width = letter * words.len() as f64;
    let left = if is_centred { x - width / 2.0 } else { x };
    Some(((left, left + width, y - 9.0, y + 2.0), words))
}

/// Whether two rooms have a point in common.
fn overlap(one: Room, other: Room) -> bool {
    one.0 < other.1 && other.0 < one.1 && one.2 < other.3 && other.2 < one.3
}

#[test]
fn committed_pictures_are_up_to_date() {
    for name in ["incident3", "incident5"] {
        let committed =
            fs::read_to_string(in_repository(&format!("docs/{name}.svg"))).expect("the picture can be read");
        let drawn = draw(&example(name)).expect("the example is drawn");
        assert!(committed == drawn, "docs/{name}.svg is not what draw makes of examples/{name}.bin: draw it again");
    }
}

#[test]
fn texts_do_not_overlap_and_stay_inside() {
    for (name, picture) in pictures().into_iter().chain(generated_pictures()) {
        let width: f64 = value(&picture, "width").expect("it has a width").parse().expect("the width is a number");
        let texts: Vec<(Room, &str)> = picture.lines().filter_map(level_text).collect();
        for (k, (room, words)) in texts.iter().enumerate() {
            assert!(room.0 >= 0.0 && room.1 <= width, "{name}: {words:?} is cut");
            for (other_room, other) in &texts[..k] {
                assert!(!overlap(*room, *other_room), "{name}: {words:?} and {other:?} overlap");
            }
        }
    }
}

#[test]
fn each_label_is_at_its_own_step() {
    let picture = draw(&example("incident5")).expect("the example is drawn");
    let steps: Vec<f64> = picture.lines().filter(|line| line.starts_with("<line class=\"guide\"")).map(x1).collect();
    for label in picture.lines().filter(|line| value(line, "class").is_some_and(|class| class == "done")) {
        let x: f64 = value(label, "x").expect("a label has a place").parse().expect("it is a number");
        assert!(steps.iter().any(|step| (step - x).abs() < 2.0), "{label}");
    }
}

/// Where a line is, from the left.
fn x1(line: &str) -> f64 {
    value(line, "x1").expect("a line has a place").parse().expect("it is a number")
}

#[test]
fn a_picture_grows_with_its_steps() {
    let delivers = |steps: usize| [vec![1, 3, 0], [7, 0].repeat(steps)].concat();
    let width = |steps| value(&draw(&delivers(steps)).expect("it is drawn"), "width").and_then(|w| w.parse().ok());
    let (some, more): (Option<i32>, Option<i32>) = (width(100), width(300));
    assert_eq!(more.zip(some).map(|(more, some)| more - some), Some(200 * 70));
}
