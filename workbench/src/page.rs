//! One HTML file that shows a run, or two side by side. The runs are in it as JSON, and it needs no network.

use std::borrow::Cow;

/// The page, with a part named between two `@` wherever something is put in.
const FRAME: &str = include_str!("page/page.html");

const STYLE: &str = include_str!("page/page.css");

/// The script, in the order in which its parts use each other.
const SCRIPT: [&str; 4] = [
    include_str!("page/world.js"),
    include_str!("page/words.js"),
    include_str!("page/draw.js"),
    include_str!("page/page.js"),
];

/// A run to show.
pub struct Shown {
    /// What the page calls it.
    pub name: String,
    /// As `run --json` prints it.
    pub json: String,
}

/// The page of one run, or of two runs of one schedule.
pub fn page(title: &str, runs: &[Shown]) -> String {
    let part = |name: &str| match name {
        "title" => escaped(title),
        "style" => STYLE.to_string(),
        "runs" => runs.iter().map(embedded).collect(),
        "script" => SCRIPT.concat(),
        other => unreachable!("the frame has no part {other}"),
    };
    let put_in = |(index, text): (usize, &'static str)| match index % 2 {
        0 => Cow::Borrowed(text),
        _ => Cow::Owned(part(text)),
    };
    FRAME.split('@').enumerate().map(put_in).collect()
}

/// A run as an element that no browser shows; without a `<` nothing in it can end the element.
fn embedded(run: &Shown) -> String {
    let json = run.json.replace('<', "\\u003c");
    format!("<script type=\"application/json\" data-name=\"{}\">{json}</script>\n", escaped(&run.name))
}

/// A text as HTML shows it, also between quotes.
fn escaped(text: &str) -> String {
    text.chars()
        .map(|sign| match sign {
            '&' => Cow::Borrowed("&amp;"),
            '<' => Cow::Borrowed("&lt;"),
            '>' => Cow::Borrowed("&gt;"),
            '"' => Cow::Borrowed("&quot;"),
            other => Cow::Owned(other.to_string()),
        })
        .collect()
}

#[cfg(test)]
mod tests {
    use super::*;

    /// The page of one run.
    fn of(title: &str, json: &str) -> String {
        page(title, &[Shown { name: "a \"run\"".to_string(), json: json.to_string() }])
    }

    #[test]
    fn every_part_is_put_in() {
        let page = of("t", "{}");
        assert!(page.contains("<h1 id=\"title\">t</h1>"));
        assert!(page.contains("data-name=\"a &quot;run&quot;\">{}</script>"));
        assert!(page.contains(STYLE) && SCRIPT.iter().all(|part| page.contains(part)));
    }

    #[test]
    fn nothing_that_is_given_ends_its_element() {
        let page = of("<script>&@style@", "{\"text\":\"</script><b>\"}");
        assert!(page.contains("<h1 id=\"title\">&lt;script&gt;&amp;@style@</h1>"));
        assert!(page.contains("{\"text\":\"\\u003c/script>\\u003cb>\"}"));
    }

    #[test]
    fn nothing_is_fetched() {
        let page = of("t", "{}");
        for word in ["http:", "https:", "src=", "href=", "@import", "url(", "fetch(", "XMLHttpRequest", "WebSocket"] {
            assert!(!page.contains(word), "{word}");
        }
    }
}
