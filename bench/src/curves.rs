//! The lower half of the picture: a line for each way, from few arrays to many. Both axes go by factors, so that what grows alike
//! rises alike.

use crate::axis::{grouped, round_values, Axis};
use crate::growth::Size;
use crate::picture::{shown, Shown, INK, LEFT};
use crate::svg::{Anchor, Svg};

const TOP: f64 = 530.0;
const BOTTOM: f64 = 790.0;
const RIGHT: f64 = 720.0;
/// The least height between two labels.
const APART: f64 = 16.0;

pub fn draw(svg: &mut Svg, sizes: &[Size]) {
    let (Some(first), Some(last)) = (sizes.first(), sizes.last()) else { return };
    let ways = shown(&first.1);
    svg.text((LEFT, TOP - 20.0), Anchor::Start, 15.0, "By the number of arrays, all filled by random routes");
    let upright = upright(svg, sizes, &ways);
    let along = Axis { values: (first.0 as f64, last.0 as f64), places: (LEFT + 20.0, RIGHT - 10.0), by_factors: true };
    for (arrays, _) in sizes {
        svg.text((along.at(*arrays as f64), BOTTOM + 18.0), Anchor::Middle, 12.0, &grouped(*arrays));
    }
    svg.line(&[(LEFT, BOTTOM), (RIGHT, BOTTOM)], INK, 1.0);
    svg.text(((LEFT + RIGHT) / 2.0, BOTTOM + 42.0), Anchor::Middle, 13.0, "arrays that the list needs");
    let ends = ways.into_iter().map(|way| curve(svg, (&along, &upright), sizes, way)).collect();
    labels(svg, ends);
}

/// The line of a way. Gives where it ends, and what to say there.
fn curve(svg: &mut Svg, (along, upright): (&Axis, &Axis), sizes: &[Size], way: &Shown) -> (f64, String) {
    let times: Vec<f64> = sizes.iter().map(|size| size.1.of(way.way).expect("it took part")).collect();
    let points: Vec<(f64, f64)> =
        sizes.iter().zip(&times).map(|(size, &time)| (along.at(size.0 as f64), upright.at(time))).collect();
    svg.line(&points, way.colour, 2.0);
    points.iter().for_each(|&point| svg.dot(point, way.colour));
    let (first, last) = (times[0], times[times.len() - 1]);
    (upright.at(last), format!("{}: {first:.1} to {last:.1} ns", way.label))
}

/// The upright axis, from the round value below all times to the one above.
fn upright(svg: &mut Svg, sizes: &[Size], ways: &[&Shown]) -> Axis {
    let times = || sizes.iter().flat_map(|size| ways.iter().filter_map(|way| size.1.of(way.way)));
    let (least, most) = (times().fold(f64::MAX, f64::min), times().fold(0.0, f64::max));
    let low = round_values().filter(|&value| value <= least).last().unwrap_or(least);
    let high = round_values().find(|&value| value >= most).unwrap_or(most);
    let axis = Axis { values: (low, high), places: (BOTTOM, TOP), by_factors: true };
    let marks: Vec<f64> = round_values().filter(|value| (low..=high).contains(value)).collect();
    axis.mark(svg, RIGHT, &marks, "nanoseconds a lookup");
    axis
}

/// A label beside each line's end, moved down where it would stand on the one above.
fn labels(svg: &mut Svg, mut ends: Vec<(f64, String)>) {
    ends.sort_by(|one, other| one.0.total_cmp(&other.0));
    let mut free = 0.0;
    for (y, label) in ends {
        let y = f64::max(y, free);
        svg.text((RIGHT + 8.0, y + 4.0), Anchor::Start, 12.0, &label);
        free = y + APART;
    }
}
