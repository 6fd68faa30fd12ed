//! Elements of SVG.

use std::fmt::Display;

/// A point on the sheet: x to the right, y down.
pub type Point = (f64, f64);

/// Attributes and their values.
pub type Attributes<'a> = [(&'a str, &'a dyn Display)];

/// A part of the sheet that something covers: its middle, and how far it reaches to its sides,
/// and up and down.
#[derive(Clone, Copy)]
pub struct Cover {
    pub at: Point,
    pub reach: Point,
}

impl Cover {
    pub fn overlaps(self, other: Cover) -> bool {
        let meet = |a: f64, b: f64, reach: f64| (a - b).abs() < reach;
        meet(self.at.0, other.at.0, self.reach.0 + other.reach.0)
            && meet(self.at.1, other.at.1, self.reach.1 + other.reach.1)
    }
}

pub const MONO: &str = "'DejaVu Sans Mono', Menlo, Consolas, 'Liberation Mono', monospace";
/// A character's width for its size. Where the first fonts of a list are missing, another may
/// be wider than they are: there is room for it.
pub const SANS_WIDTH: f64 = 0.56;
pub const MONO_WIDTH: f64 = 0.602;

/// At most two decimals.
pub fn round(value: f64) -> f64 {
    (value * 100.0).round() / 100.0
}

fn attributes(list: &Attributes) -> String {
    list.iter()
        .map(|(name, value)| format!(" {name}=\"{value}\""))
        .collect()
}

/// A text with the signs that SVG has a use for written out.
pub fn escaped(text: &str) -> String {
    text.replace('&', "&amp;")
        .replace('<', "&lt;")
        .replace('>', "&gt;")
}

pub fn rect((x, y): Point, (width, height): Point, list: &Attributes) -> String {
    format!(
        "<rect x=\"{}\" y=\"{}\" width=\"{}\" height=\"{}\"{}/>",
        round(x),
        round(y),
        round(width),
        round(height),
        attributes(list)
    )
}

pub fn circle((x, y): Point, radius: f64, list: &Attributes) -> String {
    format!(
        "<circle cx=\"{}\" cy=\"{}\" r=\"{}\"{}/>",
        round(x),
        round(y),
        round(radius),
        attributes(list)
    )
}

/// A line through points.
pub fn line(points: &[Point], list: &Attributes) -> String {
    let points: Vec<String> = points
        .iter()
        .map(|(x, y)| format!("{},{}", round(*x), round(*y)))
        .collect();
    format!(
        "<polyline points=\"{}\" fill=\"none\"{}/>",
        points.join(" "),
        attributes(list)
    )
}

/// Text from its left end, or around its middle.
pub fn label((x, y): Point, text: &str, size: f64, list: &Attributes) -> String {
    format!(
        "<text x=\"{}\" y=\"{}\" font-size=\"{}\"{}>{}</text>",
        round(x),
        round(y),
        round(size),
        attributes(list),
        escaped(text)
    )
}

/// A bold text whose middle is a point.
pub fn centred((x, y): Point, text: &str, size: f64, fill: &str) -> String {
    let list: &Attributes = &[
        ("text-anchor", &"middle"),
        ("font-weight", &"bold"),
        ("fill", &fill),
    ];
    label((x, y + size * 0.36), text, size, list)
}

/// A line of text broken between words, of at most so many characters unless a word is longer.
pub fn wrapped(text: &str, room: usize) -> Vec<String> {
    let mut lines: Vec<String> = vec![];
    for word in text.split(' ') {
        match lines.last_mut() {
            Some(line) if line.chars().count() + 1 + word.chars().count() <= room => {
                line.push(' ');
                line.push_str(word);
            }
            None => lines.push(word.to_string()),
            // Further lines are set in.
            Some(_) => lines.push(format!("    {word}")),
        }
    }
    lines
}
