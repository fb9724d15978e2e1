//! The picture is well-formed XML, with everything inside it.

use std::collections::HashMap;
use std::fs;

use crate::compare::{memory_chart, time_chart};
use crate::inputs::MEGABYTES;
use crate::memory::Used;
use crate::picture::{bytes, drawn, seconds, Chart};
use crate::times::Timed;
use crate::usual_file;

/// An element of an SVG file: its name, its attributes, and its text.
struct Element<'a> {
    name: &'a str,
    attributes: HashMap<&'a str, &'a str>,
    text: &'a str,
}

impl Element<'_> {
    /// The number that an attribute is, if the element has it.
    fn number(&self, attribute: &str) -> Option<f64> {
        let number: f64 = self.attributes.get(attribute)?.parse().expect("a number");
        assert!(number.is_finite());
        Some(number)
    }
}

/// The attributes of a tag, `NAME="VALUE"` each.
fn attributes(mut rest: &str) -> HashMap<&str, &str> {
    let mut all = HashMap::new();
    while !rest.trim().is_empty() {
        let (name, after) = rest.split_once("=\"").expect("an attribute");
        let (value, after) = after.split_once('"').expect("the end of a value");
        assert!(!value.contains(['<', '&']), "{value}");
        assert!(all.insert(name.trim(), value).is_none(), "{name} twice");
        rest = after;
    }
    all
}

/// The elements of a text that is well-formed: its tags balance, with one
/// element around all.
fn elements(text: &str) -> Vec<Element<'_>> {
    let mut all = Vec::new();
    let mut open = Vec::new();
    let mut rest = text.trim_end();
    while !rest.is_empty() {
        let (tag, after) = rest[1..].split_once('>').expect("the end of a tag");
        assert!(rest.starts_with('<') && (all.is_empty() || !open.is_empty()));
        let (text, _) = after.split_once('<').unwrap_or((after, ""));
        assert!(!text.contains('&'), "{text}");
        rest = &after[text.len()..];
        if let Some(name) = tag.strip_prefix('/') {
            assert_eq!(open.pop(), Some(name));
            continue;
        }
        let (tag, is_empty) = match tag.strip_suffix('/') {
            Some(tag) => (tag, true),
            None => (tag, false),
        };
        let (name, rest) = tag.split_once(' ').unwrap_or((tag, ""));
        if !is_empty {
            open.push(name);
        }
        let attributes = attributes(rest);
        all.push(Element {
            name,
            attributes,
            text,
        });
    }
    assert!(open.is_empty() && !all.is_empty());
    all
}

/// Where a text begins and ends, across, or down if it is turned. No usual
/// font has wider letters on the average.
fn text_ends(element: &Element) -> [f64; 2] {
    let size = element.number("font-size").expect("a size");
    let width = 0.6 * size * element.text.chars().count() as f64;
    let along = if is_turned(element) { "y" } else { "x" };
    let x = element.number(along).expect("a place");
    match element.attributes["text-anchor"] {
        "start" => [x, x + width],
        "middle" => [x - width / 2.0, x + width / 2.0],
        "end" => [x - width, x],
        other => panic!("{other}"),
    }
}

/// The numbers across and down that an element reaches to.
fn reaches(element: &Element) -> [Vec<f64>; 2] {
    let numbers = |names: &[&str]| -> Vec<f64> {
        let found = names.iter().filter_map(|name| element.number(name));
        found.collect()
    };
    let mut across = numbers(&["x", "x1", "x2"]);
    let mut down = numbers(&["y", "y1", "y2"]);
    for (places, middle, length) in [(&mut across, "cx", "width"), (&mut down, "cy", "height")] {
        if let (Some(middle), Some(r)) = (element.number(middle), element.number("r")) {
            places.extend([middle - r, middle + r]);
        }
        if let (Some(&start), Some(length)) = (places.first(), element.number(length)) {
            places.push(start + length);
        }
    }
    for pair in element
        .attributes
        .get("points")
        .unwrap_or(&"")
        .split_whitespace()
    {
        let (x, y) = pair.split_once(',').expect("a pair");
        across.push(x.parse().expect("a number"));
        down.push(y.parse().expect("a number"));
    }
    [across, down]
}

fn is_turned(element: &Element) -> bool {
    element.attributes.contains_key("transform")
}

/// Width and height of a picture.
fn size(elements: &[Element]) -> [f64; 2] {
    let root = &elements[0];
    assert_eq!(root.name, "svg");
    let size = ["width", "height"].map(|name| root.number(name).expect("a size"));
    let view = format!("0 0 {} {}", size[0], size[1]);
    assert_eq!(root.attributes["viewBox"], view);
    size
}

/// No line, marker or start of a text is outside the picture.
fn assert_inside(elements: &[Element]) {
    let size = size(elements);
    for element in &elements[1..] {
        for (places, most) in reaches(element).into_iter().zip(size) {
            let inside = |place: &f64| (0.0..=most).contains(place);
            assert!(places.iter().all(inside), "{}: {places:?}", element.name);
        }
    }
}

/// No text leaves the picture or lies over another on its line.
fn assert_texts_fit(elements: &[Element]) {
    let [width, height] = size(elements);
    let mut lines: HashMap<&str, Vec<[f64; 2]>> = HashMap::new();
    for text in elements.iter().filter(|element| element.name == "text") {
        let [start, end] = text_ends(text);
        let most = if is_turned(text) { height } else { width };
        assert!(0.0 <= start && end <= most, "{}", text.text);
        if !is_turned(text) {
            let line = lines.entry(text.attributes["y"]).or_default();
            line.push([start, end]);
        }
    }
    for mut line in lines.into_values() {
        line.sort_by(|one, other| one[0].total_cmp(&other[0]));
        let apart = line.windows(2).all(|pair| pair[0][1] < pair[1][0]);
        assert!(apart, "{line:?}");
    }
}

fn count(elements: &[Element], name: &str) -> usize {
    let named = elements.iter().filter(|element| element.name == name);
    named.count()
}

fn has_text(elements: &[Element], text: &str) -> bool {
    elements.iter().any(|element| element.text == text)
}

/// Charts like those that are measured; on trees only up to so many inputs.
fn measured(on_trees: usize) -> [Chart; 2] {
    let mut input = 0;
    let timed = MEGABYTES.map(|megabytes| {
        input += 1;
        let each = megabytes as f64 * 0.004;
        let trees = (input <= on_trees).then_some(12.0 * each);
        Timed {
            seconds: [Some(each), Some(1.25 * each), trees],
            ..Timed::default()
        }
    });
    let mut input = 0;
    let used = MEGABYTES.map(|megabytes| {
        input += 1;
        let buffers = 1_000_000 * megabytes as u64;
        let used = |beyond| Used {
            input: buffers,
            output: buffers,
            before: buffers,
            peak: 2 * buffers + beyond,
        };
        let trees = (input <= on_trees).then_some(used(22 * buffers));
        [Some(used(2_800_000)), Some(used(2_790_000)), trees]
    });
    [time_chart(&timed), memory_chart(&used)]
}

#[test]
fn the_picture_has_a_marker_for_each_value() {
    for on_trees in [8, 5, 0] {
        let text = drawn("some title", &measured(on_trees));
        let elements = elements(&text);
        assert_inside(&elements);
        assert_texts_fit(&elements);
        // One of each is in the names of the lines. The ground is a rect.
        assert_eq!(count(&elements, "circle"), 2 * 8 + 1);
        assert_eq!(count(&elements, "rect"), 2 * 8 + 2);
        assert_eq!(count(&elements, "polygon"), 2 * on_trees + 1);
        for text in [
            "some title",
            "Time of one run",
            "1 ms",
            "1 s",
            "1 MB",
            "200",
        ] {
            assert!(has_text(&elements, text), "{text}");
        }
    }
}

/// What has no place on a logarithmic axis is left out, and the axes have
/// some length whatever is on them.
#[test]
fn any_values_stay_inside_the_picture() {
    let (least, most) = (f64::from_bits(1), f64::MAX);
    for (values, shown) in [
        (vec![], 0),
        (vec![(1.0, 1.0)], 1),
        (vec![(200.0, 0.3), (200.0, 0.4)], 2),
        (vec![(1.0, 0.0), (1.0, -1.0), (0.0, 1.0)], 0),
        (vec![(1.0, f64::NAN), (f64::INFINITY, 1.0)], 0),
        (
            vec![(1.0, least), (2.0, most), (least, 1.0), (most, 1.0)],
            4,
        ),
    ] {
        let chart = || Chart {
            title: "values",
            label: "value",
            tick: bytes,
            lines: [values.clone(), vec![], vec![]],
        };
        let text = drawn("title", &[chart(), chart()]);
        let elements = elements(&text);
        assert_inside(&elements);
        assert_eq!(count(&elements, "circle"), 2 * shown + 1, "{values:?}");
    }
}

/// The checks of these tests can fail.
#[test]
#[should_panic]
fn a_tag_that_is_left_open_is_found() {
    elements(&drawn("title", &measured(8)).replacen("</text>", "", 1));
}

#[test]
#[should_panic]
fn a_place_outside_is_found() {
    let text = drawn("title", &measured(8)).replacen("cx=\"", "cx=\"9", 1);
    assert_inside(&elements(&text));
}

#[test]
fn powers_of_ten_have_their_units() {
    let times = [-4, -3, -1, 0, 1].map(seconds);
    assert_eq!(times, ["100 µs", "1 ms", "100 ms", "1 s", "10 s"]);
    let sizes = [0, 5, 6, 8, 9, 10].map(bytes);
    assert_eq!(sizes, ["1 B", "100 kB", "1 MB", "100 MB", "1 GB", "10 GB"]);
}

#[test]
fn the_picture_in_the_documents_is_well_formed() {
    let text = fs::read_to_string(usual_file()).expect("docs/benchmarks.svg");
    let elements = elements(&text);
    assert_inside(&elements);
    assert_texts_fit(&elements);
    assert!(count(&elements, "circle") > 1);
}
