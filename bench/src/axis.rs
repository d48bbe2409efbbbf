//! The axes of a picture: where a value is, and the round values to mark.

use crate::picture::{GRID, LEFT};
use crate::svg::{Anchor, Svg};

/// From a value at one place to another at another, evenly or by factors.
pub struct Axis {
    pub values: (f64, f64),
    pub places: (f64, f64),
    pub by_factors: bool,
}

impl Axis {
    pub fn at(&self, value: f64) -> f64 {
        let ((low, high), (from, to)) = (self.values, self.places);
        let part = match self.by_factors {
            true => (value / low).ln() / (high / low).ln(),
            false => (value - low) / (high - low),
        };
        from + part * (to - from)
    }

    /// Marks of an upright axis, each with a line to the right end.
    pub fn mark(&self, svg: &mut Svg, right: f64, marks: &[f64], title: &str) {
        for &mark in marks {
            let y = self.at(mark);
            svg.line(&[(LEFT, y), (right, y)], GRID, 1.0);
            svg.text((LEFT - 7.0, y + 4.0), Anchor::End, 12.0, &mark.to_string());
        }
        svg.upright((20.0, (self.places.0 + self.places.1) / 2.0), 13.0, title);
    }
}

/// 0.1, 0.2, 0.5, 1, 2, 5 and so on, far enough for nanoseconds.
pub fn round_values() -> impl Iterator<Item = f64> {
    [0.1, 1.0, 10.0, 100.0, 1_000.0, 10_000.0].into_iter().flat_map(|ten| [ten, 2.0 * ten, 5.0 * ten])
}

/// With a comma before each three digits.
pub fn grouped(number: usize) -> String {
    match number {
        0..1_000 => number.to_string(),
        _ => format!("{},{:03}", grouped(number / 1_000), number % 1_000),
    }
}
