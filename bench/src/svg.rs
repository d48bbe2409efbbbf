//! The shapes of a picture as SVG text.

use std::fmt::Write;

/// Where a text's point is.
pub enum Anchor {
    Start,
    Middle,
    End,
}

pub struct Svg {
    text: String,
}

impl Svg {
    /// White below everything, so that a dark viewer shows the same.
    pub fn new(width: f64, height: f64) -> Svg {
        let mut svg = Svg { text: String::new() };
        let size = format!(r#"width="{width}" height="{height}" viewBox="0 0 {width} {height}""#);
        svg.put(format_args!(
            r#"<svg xmlns="http://www.w3.org/2000/svg" {size} font-family="sans-serif" fill="black">"#
        ));
        svg.rect((0.0, 0.0), (width, height), "white");
        svg
    }

    pub fn done(mut self) -> String {
        self.put(format_args!("</svg>"));
        self.text
    }

    pub fn rect(&mut self, (x, y): (f64, f64), (width, height): (f64, f64), colour: &str) {
        self.put(format_args!(
            r#"<rect x="{x:.1}" y="{y:.1}" width="{width:.1}" height="{height:.1}" fill="{colour}"/>"#
        ));
    }

    pub fn line(&mut self, points: &[(f64, f64)], colour: &str, width: f64) {
        let points: Vec<String> = points.iter().map(|(x, y)| format!("{x:.1},{y:.1}")).collect();
        let points = points.join(" ");
        self.put(format_args!(r#"<polyline points="{points}" fill="none" stroke="{colour}" stroke-width="{width}"/>"#));
    }

    pub fn dot(&mut self, (x, y): (f64, f64), colour: &str) {
        self.put(format_args!(r#"<circle cx="{x:.1}" cy="{y:.1}" r="4" fill="{colour}"/>"#));
    }

    pub fn text(&mut self, (x, y): (f64, f64), anchor: Anchor, size: f64, words: &str) {
        let (anchor, words) = (name(anchor), escaped(words));
        self.put(format_args!(
            r#"<text x="{x:.1}" y="{y:.1}" text-anchor="{anchor}" font-size="{size}">{words}</text>"#
        ));
    }

    /// From below to above, its middle at the point.
    pub fn upright(&mut self, (x, y): (f64, f64), size: f64, words: &str) {
        let words = escaped(words);
        self.put(format_args!(
            r#"<text transform="translate({x:.1} {y:.1}) rotate(-90)" text-anchor="middle" font-size="{size}">{words}</text>"#
        ));
    }

    fn put(&mut self, line: std::fmt::Arguments) {
        writeln!(self.text, "{line}").expect("a string takes it");
    }
}

fn name(anchor: Anchor) -> &'static str {
    match anchor {
        Anchor::Start => "start",
        Anchor::Middle => "middle",
        Anchor::End => "end",
    }
}

fn escaped(words: &str) -> String {
    words.replace('&', "&amp;").replace('<', "&lt;")
}
