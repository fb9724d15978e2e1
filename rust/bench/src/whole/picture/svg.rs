//! The elements of an SVG file, written as text.

/// Across and down from the upper left corner.
pub type Point = (f64, f64);

/// Dark text and lines on a white ground, so that the picture is read on a
/// light page and on a dark one.
const TEXT_COLOUR: &str = "#222222";

/// Which part of a text stands at its point.
#[derive(Clone, Copy)]
pub enum Anchor {
    Start,
    Middle,
    End,
}

/// What stands at the points of a line.
#[derive(Clone, Copy)]
pub enum Marker {
    Disc,
    /// Not filled, and larger than the disc.
    Square,
    Triangle,
}

/// An SVG file that is being written.
pub struct Svg {
    text: String,
}

impl Svg {
    pub fn new(width: f64, height: f64, title: &str) -> Svg {
        let text = format!(
            "<svg xmlns=\"http://www.w3.org/2000/svg\" width=\"{width}\" height=\"{height}\" \
             viewBox=\"0 0 {width} {height}\" font-family=\"sans-serif\" fill=\"{TEXT_COLOUR}\">\n"
        );
        let mut svg = Svg { text };
        svg.add(format!("<title>{title}</title>"));
        svg.add(format!(
            "<rect x=\"0\" y=\"0\" width=\"{width}\" height=\"{height}\" fill=\"#ffffff\"/>"
        ));
        svg
    }

    /// The whole file.
    pub fn finished(mut self) -> String {
        self.add("</svg>".to_owned());
        self.text
    }

    fn add(&mut self, element: String) {
        self.text.push_str(&element);
        self.text.push('\n');
    }

    /// A thin line of an axis or of its grid.
    pub fn line(&mut self, (x1, y1): Point, (x2, y2): Point, colour: &str) {
        self.add(format!(
            "<line x1=\"{x1:.1}\" y1=\"{y1:.1}\" x2=\"{x2:.1}\" y2=\"{y2:.1}\" \
             stroke=\"{colour}\" stroke-width=\"1\"/>"
        ));
    }

    /// A line through the points.
    pub fn polyline(&mut self, points: &[Point], colour: &str) {
        self.add(format!(
            "<polyline points=\"{}\" fill=\"none\" stroke=\"{colour}\" stroke-width=\"2\"/>",
            listed(points)
        ));
    }

    pub fn marker(&mut self, marker: Marker, (x, y): Point, colour: &str) {
        self.add(match marker {
            Marker::Disc => {
                format!("<circle cx=\"{x:.1}\" cy=\"{y:.1}\" r=\"3.5\" fill=\"{colour}\"/>")
            }
            Marker::Square => format!(
                "<rect x=\"{:.1}\" y=\"{:.1}\" width=\"11\" height=\"11\" fill=\"none\" \
                 stroke=\"{colour}\" stroke-width=\"2\"/>",
                x - 5.5,
                y - 5.5
            ),
            Marker::Triangle => format!(
                "<polygon points=\"{}\" fill=\"{colour}\"/>",
                listed(&[(x, y - 6.0), (x + 5.5, y + 4.0), (x - 5.5, y + 4.0)])
            ),
        });
    }

    pub fn text(&mut self, (x, y): Point, size: u32, anchor: Anchor, text: &str) {
        let anchor = match anchor {
            Anchor::Start => "start",
            Anchor::Middle => "middle",
            Anchor::End => "end",
        };
        self.add(format!(
            "<text x=\"{x:.1}\" y=\"{y:.1}\" font-size=\"{size}\" \
             text-anchor=\"{anchor}\">{text}</text>"
        ));
    }

    /// A text that is read from below, with its middle at the point.
    pub fn upward_text(&mut self, (x, y): Point, size: u32, text: &str) {
        self.add(format!(
            "<text x=\"{x:.1}\" y=\"{y:.1}\" font-size=\"{size}\" text-anchor=\"middle\" \
             transform=\"rotate(-90 {x:.1} {y:.1})\">{text}</text>"
        ));
    }
}

/// As the attribute `points` has them.
fn listed(points: &[Point]) -> String {
    let listed = points.iter().map(|(x, y)| format!("{x:.1},{y:.1}"));
    listed.collect::<Vec<String>>().join(" ")
}
