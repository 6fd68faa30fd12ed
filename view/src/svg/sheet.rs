//! The sheet that a picture is drawn on, and where the floor's cells lie on it.

use super::floor::STRIPES;
use super::shapes::{Point, escaped, round, wrapped};
use crate::floor::{LENGTH, Place};
use crate::hall::Hall;
use crate::scene::Scene;
use crate::words::counted;

/// Length of a cell, and of a sector.
pub const CELL: f64 = 20.0;
pub const SECTOR: f64 = CELL * LENGTH as f64;
/// The least width of what stands beside and below a small floor.
const LEAST_WIDTH: f64 = 480.0;
/// The least size of text, and how many times as wide the floor is.
const LEAST_TEXT: f64 = 12.0;
const TEXTS_ACROSS: f64 = 56.0;
/// The least part of the sheet's width that a text's size may be.
const READABLE: f64 = 0.008;
/// A character's width for its size, on average over a line of words.
const TITLE_WIDTH: f64 = 0.5;
/// The most characters of a file's name.
const MOST_NAME: usize = 40;

const SANS: &str = "Helvetica, Arial, 'Liberation Sans', sans-serif";

/// Elements drawn one over the other, and where the text below the floor has got to.
pub struct Sheet<'a> {
    pub scene: Scene<'a>,
    pub hall: &'a Hall,
    elements: Vec<String>,
    /// The size of text, which goes with the sheet's width: a large hall is shown smaller.
    pub text: f64,
    /// The lines above the floor.
    pub title: Vec<String>,
    /// Where it begins below another sheet.
    pub begin: f64,
    /// The floor's north-west corner.
    pub left: f64,
    pub top: f64,
    pub width: f64,
    pub bottom: f64,
}

impl<'a> Sheet<'a> {
    pub fn new(scene: Scene<'a>, begin: f64) -> Sheet<'a> {
        let floor = &scene.hall.floor;
        let inner = (floor.width() as f64 * CELL).max(LEAST_WIDTH);
        let text = (inner / TEXTS_ACROSS).max(LEAST_TEXT);
        let title = title(scene, (inner / (text * TITLE_WIDTH)) as usize);
        let top = begin + text * (1.5 * title.len() as f64 + 3.5);
        let left = text * 3.4;
        Sheet {
            hall: scene.hall,
            scene,
            elements: vec![],
            text,
            title,
            begin,
            left,
            top,
            width: left + inner + text * 1.4,
            bottom: top + floor.height() as f64 * CELL,
        }
    }

    pub fn add(&mut self, element: String) {
        self.elements.push(element);
    }

    /// Whether a text of some size can be read when the sheet is shown as wide as a page.
    pub fn is_readable(&self, size: f64) -> bool {
        size >= self.width * READABLE
    }

    /// The north-west corner of a cell, or of the cell that would stand there.
    pub fn corner(&self, (x, y): Place) -> Point {
        (self.left + x as f64 * CELL, self.top + y as f64 * CELL)
    }

    pub fn centre(&self, place: Place) -> Point {
        let (x, y) = self.corner(place);
        (x + CELL / 2.0, y + CELL / 2.0)
    }

    /// A point moved so that what reaches so far to its sides, and up and down, lies on the floor.
    pub fn on_floor(&self, (x, y): Point, reach: Point) -> Point {
        let (right, bottom) = self.corner((self.hall.floor.width(), self.hall.floor.height()));
        (
            x.clamp(self.left + reach.0, right - reach.0),
            y.clamp(self.top + reach.1, bottom - reach.1),
        )
    }

    /// The width of a line, which goes with the text's size.
    pub fn stroke(&self, width: f64) -> f64 {
        width * (self.text / LEAST_TEXT).sqrt()
    }

    /// Runs of equal cells of a row: the first place, the length and what they are.
    pub fn runs<T: PartialEq>(&self, what: impl Fn(Place) -> Option<T>) -> Vec<(Place, usize, T)> {
        let mut runs: Vec<(Place, usize, T)> = vec![];
        for (x, y) in self.hall.floor.places() {
            let Some(found) = what((x, y)) else { continue };
            match runs.last_mut() {
                Some(((first, row), length, kind))
                    if *row == y && *first + *length == x && *kind == found =>
                {
                    *length += 1;
                }
                _ => runs.push(((x, y), 1, found)),
            }
        }
        runs
    }

    /// Where another sheet may begin.
    pub fn end(&self) -> f64 {
        self.bottom + self.text * 1.6
    }
}

/// Sheets of one width as a picture.
pub fn picture(sheets: &[Sheet]) -> String {
    let (first, last) = (&sheets[0], &sheets[sheets.len() - 1]);
    let elements: Vec<&str> = sheets
        .iter()
        .flat_map(|sheet| sheet.elements.iter().map(String::as_str))
        .collect();
    format!(
        "<svg xmlns=\"http://www.w3.org/2000/svg\" viewBox=\"0 0 {} {}\" font-family=\"{SANS}\">\n\
         <title>{}</title>\n\
         <rect width=\"100%\" height=\"100%\" fill=\"#ffffff\"/>\n{STRIPES}\n{}\n</svg>\n",
        round(first.width),
        round(last.end()),
        escaped(&first.title[0]),
        elements.join("\n")
    )
}

/// The name of a file as far as there is room for it.
fn cut(name: &str) -> String {
    match name.chars().count() {
        ..=MOST_NAME => name.to_string(),
        _ => name.chars().take(MOST_NAME).collect::<String>() + "…",
    }
}

/// The file's name, the moment and the hall's measures, then what was planned.
fn title(scene: Scene, room: usize) -> Vec<String> {
    let floor = &scene.hall.floor;
    let names = [scene.name.map(cut), scene.moment.name()];
    let names: Vec<String> = names.into_iter().flatten().collect();
    let colon = if names.is_empty() { "" } else { ": " };
    let measures = format!(
        "{}{colon}{} by {} of sectors, scale {}",
        names.join(", "),
        counted(floor.columns, "column"),
        counted(floor.rows, "row"),
        floor.scale
    );
    let planned = scene.planned.map(|text| wrapped(text, room));
    let mut lines = wrapped(&measures, room);
    lines.extend(planned.unwrap_or_default());
    lines
}
