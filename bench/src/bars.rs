//! The upper half of the picture: a group of bars for each list, a bar for each way.

use crate::axis::{grouped, round_values, Axis};
use crate::lookups::Row;
use crate::picture::{shown, INK, LEFT, WIDTH};
use crate::svg::{Anchor, Svg};

const TOP: f64 = 150.0;
const BOTTOM: f64 = 400.0;
const RIGHT: f64 = WIDTH - 20.0;

pub fn draw(svg: &mut Svg, rows: &[&Row]) {
    svg.text((LEFT, TOP - 20.0), Anchor::Start, 15.0, "By list");
    let times = |row: &Row| shown(&row.times).iter().filter_map(|shown| row.times.of(shown.way)).collect::<Vec<_>>();
    let most = rows.iter().flat_map(|row| times(row)).fold(1.0, f64::max);
    let step = round_values().find(|step| most / step <= 6.0).expect("no lookup takes so long");
    let last = (most / step).ceil();
    let axis = Axis { values: (0.0, last * step), places: (BOTTOM, TOP), by_factors: false };
    let marks: Vec<f64> = (0..=last as usize).map(|mark| mark as f64 * step).collect();
    axis.mark(svg, RIGHT, &marks, "nanoseconds a lookup");
    let width = (RIGHT - LEFT) / rows.len() as f64;
    for (at, row) in rows.iter().enumerate() {
        group(svg, &axis, (LEFT + width * at as f64, width), row);
    }
    svg.line(&[(LEFT, BOTTOM), (RIGHT, BOTTOM)], INK, 1.0);
    svg.text(((LEFT + RIGHT) / 2.0, BOTTOM + 58.0), Anchor::Middle, 13.0, "list of routes");
}

/// The bars of a list, with their values above, and its name below.
fn group(svg: &mut Svg, axis: &Axis, (left, width): (f64, f64), row: &Row) {
    let ways = shown(&row.times);
    let bar = (0.9 * width / ways.len() as f64).min(40.0);
    let start = left + (width - bar * ways.len() as f64) / 2.0;
    for (at, shown) in ways.iter().enumerate() {
        let time = row.times.of(shown.way).expect("it took part");
        let (x, y) = (start + bar * at as f64, axis.at(time));
        svg.rect((x + 1.0, y), (bar - 2.0, BOTTOM - y), shown.colour);
        let value = if time < 100.0 { format!("{time:.1}") } else { format!("{time:.0}") };
        svg.text((x + bar / 2.0, y - 4.0), Anchor::Middle, 11.0, &value);
    }
    let (middle, size) = (left + width / 2.0, format!("{} routes", grouped(row.routes)));
    svg.text((middle, BOTTOM + 18.0), Anchor::Middle, 13.0, row.list);
    svg.text((middle, BOTTOM + 34.0), Anchor::Middle, 11.0, &format!("{size}, {} arrays", grouped(row.arrays)));
}
