//! One chart: three lines over two logarithmic axes.

use super::svg::{Anchor, Point, Svg};
use super::STYLES;

const GRID_COLOUR: &str = "#dddddd";
const AXIS_COLOUR: &str = "#222222";

/// A chart of values against MB of input.
pub struct Chart {
    pub title: &'static str,
    /// What the values are.
    pub label: &'static str,
    /// The text for a power of ten on the axis of values.
    pub tick: fn(i32) -> String,
    /// For each way MB of input and a value, by increasing MB. What is not
    /// above 0 has no place on a logarithmic axis and is left out.
    pub lines: [Vec<(f64, f64)>; 3],
}

/// Where the lines of a chart go.
pub struct Area {
    pub left: f64,
    pub top: f64,
    pub right: f64,
    pub bottom: f64,
}

/// A logarithmic axis: the powers of ten at its ends, and where these are.
struct Axis {
    powers: [f64; 2],
    places: [f64; 2],
}

impl Axis {
    /// Of a number above 0 that is on the axis.
    fn place(&self, number: f64) -> f64 {
        self.place_of_power(number.log10())
    }

    fn place_of_power(&self, power: f64) -> f64 {
        let ([first, last], [start, end]) = (self.powers, self.places);
        start + (power - first) / (last - first) * (end - start)
    }
}

impl Chart {
    pub fn draw(&self, svg: &mut Svg, area: &Area) {
        let middle = (area.left + area.right) / 2.0;
        svg.text((middle, area.top - 18.0), 15, Anchor::Middle, self.title);
        let below = (middle, area.bottom + 42.0);
        svg.text(below, 13, Anchor::Middle, "input, MB of tokens");
        let beside = (area.left - 62.0, (area.top + area.bottom) / 2.0);
        svg.upward_text(beside, 13, self.label);
        let lines = self.lines.each_ref().map(|line| shown(line));
        let across = draw_sizes(svg, area, &lines);
        let up = self.draw_values(svg, area, &lines);
        draw_axes(svg, area);
        // The first way last, so that it is on top.
        for (line, style) in lines.iter().zip(STYLES).rev() {
            let place = |&(size, value): &Point| (across.place(size), up.place(value));
            let places: Vec<Point> = line.iter().map(place).collect();
            svg.polyline(&places, style.colour);
            for &place in &places {
                svg.marker(style.marker, place, style.colour);
            }
        }
    }

    /// The axis of values, from power of ten to power of ten.
    fn draw_values(&self, svg: &mut Svg, area: &Area, lines: &[Vec<Point>; 3]) -> Axis {
        let values = lines.iter().flatten().map(|&(_, value)| value);
        let [least, greatest] = ends(values);
        let first = least.log10().floor() as i32;
        let last = (greatest.log10().ceil() as i32).max(first + 1);
        let axis = Axis {
            powers: [f64::from(first), f64::from(last)],
            places: [area.bottom, area.top],
        };
        for power in first..=last {
            let y = axis.place_of_power(f64::from(power));
            svg.line((area.left, y), (area.right, y), GRID_COLOUR);
            let text = (self.tick)(power);
            svg.text((area.left - 10.0, y + 4.0), 12, Anchor::End, &text);
        }
        axis
    }
}

/// The lines of the axes, over those of the grid.
fn draw_axes(svg: &mut Svg, area: &Area) {
    let origin = (area.left, area.bottom);
    for end in [(area.left, area.top), (area.right, area.bottom)] {
        svg.line(origin, end, AXIS_COLOUR);
    }
}

/// The axis of input sizes, with a tick at each.
fn draw_sizes(svg: &mut Svg, area: &Area, lines: &[Vec<Point>; 3]) -> Axis {
    let mut sizes: Vec<f64> = lines.iter().flatten().map(|&(size, _)| size).collect();
    sizes.sort_by(f64::total_cmp);
    sizes.dedup();
    let [least, greatest] = ends(sizes.iter().copied()).map(f64::log10);
    let axis = Axis {
        powers: [least, greatest.max(least + 1.0)],
        places: [area.left, area.right],
    };
    for size in sizes {
        let x = axis.place(size);
        svg.line((x, area.bottom), (x, area.top), GRID_COLOUR);
        let text = size.to_string();
        svg.text((x, area.bottom + 18.0), 12, Anchor::Middle, &text);
    }
    axis
}

/// The points that have a place on logarithmic axes.
fn shown(line: &[Point]) -> Vec<Point> {
    let has_place = |number: f64| number > 0.0 && number.is_finite();
    let points = line.iter().copied();
    points
        .filter(|&(size, value)| has_place(size) && has_place(value))
        .collect()
}

/// The least and the greatest of some numbers; 1 and 1 if there are none.
fn ends(numbers: impl Iterator<Item = f64> + Clone) -> [f64; 2] {
    let least = numbers.clone().reduce(f64::min);
    let greatest = numbers.reduce(f64::max);
    [least.unwrap_or(1.0), greatest.unwrap_or(1.0)]
}

/// A power of ten in seconds.
pub fn seconds(power: i32) -> String {
    in_units(power, [(0, "s"), (-3, "ms"), (-6, "µs"), (-9, "ns")])
}

/// A power of ten in bytes.
pub fn bytes(power: i32) -> String {
    in_units(power, [(9, "GB"), (6, "MB"), (3, "kB"), (0, "B")])
}

/// A power of ten in the first of these units, given by their powers, that is
/// not larger, or else in the last one.
fn in_units(power: i32, units: [(i32, &str); 4]) -> String {
    let not_larger = units.into_iter().find(|&(unit, _)| unit <= power);
    let (unit, name) = not_larger.unwrap_or(units[3]);
    format!("{} {name}", 10f64.powi(power - unit))
}
