//! The picture of lookups: what it shows, its head, and the file.

use std::fs;

use crate::axis::grouped;
use crate::engines::{Times, BOXES, COPY, FIB, LPM, PACKED, TABLE};
use crate::growth::Size;
use crate::lookups::{Row, RANDOM};
use crate::svg::{Anchor, Svg};
use crate::{bars, curves, processor, Scale};

const FILE: &str = "target/lookups.svg";
const HEIGHT: f64 = 860.0;
pub const WIDTH: f64 = 980.0;
pub const LEFT: f64 = 64.0;
pub const INK: &str = "black";
pub const GRID: &str = "#d8d8d8";

/// A way that is shown.
pub struct Shown {
    pub way: &'static str,
    pub label: &'static str,
    pub colour: &'static str,
}

impl Shown {
    const fn new(way: &'static str, label: &'static str, colour: &'static str) -> Shown {
        Shown { way, label, colour }
    }
}

/// In colours that most eyes tell apart.
const SHOWN: [Shown; 6] = [
    Shown::new(TABLE, "the table", "#0072b2"),
    Shown::new(COPY, "the copy by lengths", "#d55e00"),
    Shown::new(PACKED, "the compressed table", "#009e73"),
    Shown::new(BOXES, "Rust trie with boxes", "#8c8c8c"),
    Shown::new(LPM, "DPDK's rte_lpm", "#e69f00"),
    Shown::new(FIB, "rte_fib, 32 at once", "#cc79a7"),
];

/// Those that took part.
pub fn shown(times: &Times) -> Vec<&'static Shown> {
    SHOWN.iter().filter(|shown| times.of(shown.way).is_some()).collect()
}

pub fn write(scale: &Scale, rows: &[Row], sizes: &[Size]) {
    let mut svg = Svg::new(WIDTH, HEIGHT);
    let random: Vec<&Row> = rows.iter().filter(|row| row.set == RANDOM).collect();
    head(&mut svg, scale, &shown(&random[0].times));
    bars::draw(&mut svg, &random);
    curves::draw(&mut svg, sizes);
    fs::write(FILE, svg.done()).expect("bench/run has made the folder");
    println!("the picture of these lookups: bench/{FILE}");
}

/// Title, what was measured on, and the legend.
fn head(svg: &mut Svg, scale: &Scale, shown: &[&Shown]) {
    let (addresses, rounds) = (grouped(scale.addresses), scale.rounds);
    svg.text((LEFT, 34.0), Anchor::Start, 20.0, "Toggleash: time of one lookup, random IPv4 addresses");
    svg.text((LEFT, 56.0), Anchor::Start, 13.0, &format!("Measured on: {}", processor::told()));
    let how = format!("{addresses} addresses, median of {rounds} rounds, tables warm, pages of the usual size");
    svg.text((LEFT, 74.0), Anchor::Start, 13.0, &how);
    let mut x = LEFT;
    for shown in shown {
        svg.rect((x, 90.0), (12.0, 12.0), shown.colour);
        svg.text((x + 17.0, 100.5), Anchor::Start, 12.0, shown.label);
        // As wide as letters of this size are, and a gap.
        x += 38.0 + 6.4 * shown.label.len() as f64;
    }
}
