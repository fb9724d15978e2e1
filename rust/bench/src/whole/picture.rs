//! The picture: two charts side by side, and the names of their lines.

mod chart;
mod svg;

use chart::Area;
use svg::{Anchor, Marker, Svg};

pub use chart::{bytes, seconds, Chart};

const WIDTH: f64 = 960.0;
const HEIGHT: f64 = 440.0;

/// How a way is drawn, in the order of `WAYS`. Colour and marker both tell the
/// lines apart; where the first two lie on each other, the disc is seen inside
/// the square.
const STYLES: [Style; 3] = [
    Style {
        name: "run (proved)",
        colour: "#0b5394",
        marker: Marker::Disc,
    },
    Style {
        name: "plain Rust interpreter",
        colour: "#c55a11",
        marker: Marker::Square,
    },
    Style {
        name: "evaluation on trees in memory",
        colour: "#38761d",
        marker: Marker::Triangle,
    },
];

#[derive(Clone, Copy)]
struct Style {
    name: &'static str,
    colour: &'static str,
    marker: Marker,
}

/// The picture, as the text of an SVG file.
pub fn drawn(title: &str, charts: &[Chart; 2]) -> String {
    let mut svg = Svg::new(WIDTH, HEIGHT, title);
    svg.text((WIDTH / 2.0, 32.0), 18, Anchor::Middle, title);
    for (chart, left) in charts.iter().zip([88.0, 572.0]) {
        let area = Area {
            left,
            top: 84.0,
            right: left + 362.0,
            bottom: 344.0,
        };
        chart.draw(&mut svg, &area);
    }
    draw_names(&mut svg);
    svg.finished()
}

/// The names of the lines, with their markers, below the charts.
fn draw_names(svg: &mut Svg) {
    for (style, left) in STYLES.iter().zip([120.0, 340.0, 620.0]) {
        let y = 420.0;
        svg.polyline(&[(left, y), (left + 36.0, y)], style.colour);
        svg.marker(style.marker, (left + 18.0, y), style.colour);
        svg.text((left + 44.0, y + 4.0), 13, Anchor::Start, style.name);
    }
}
