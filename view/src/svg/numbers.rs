//! Costs written into their cells, and where midpoints stand beside them.

use std::collections::BTreeMap;

use super::colours::WINDOW;
use super::shades::{Class, class_of, classes};
use super::shapes::{Attributes, Cover, Point, SANS_WIDTH, circle, label, rect};
use super::sheet::{CELL, Sheet};
use crate::floor::Place;

/// Sizes of a number that has its cell for itself, and of one beside a mark.
const ALONE: f64 = CELL * 0.42;
const BESIDE: f64 = CELL * 0.36;

/// The part of a cell in which its number stands.
#[derive(Debug, Clone, Copy, PartialEq, Eq)]
pub enum Part {
    Middle,
    North,
    South,
}

/// The cells with a number.
pub struct Numbers {
    classes: Vec<Class>,
    parts: BTreeMap<Place, Part>,
}

impl Numbers {
    /// Open cells that cost other than 1, if their numbers can be read.
    pub fn of(sheet: &Sheet) -> Numbers {
        let classes = classes(&sheet.hall.floor);
        let mut parts = BTreeMap::new();
        if sheet.is_readable(BESIDE) {
            let open = sheet.hall.floor.places().filter(|p| sheet.hall.is_open(*p));
            let costs = open.filter(|p| class_of(&classes, sheet.hall.base(*p)).is_some());
            parts.extend(costs.map(|place| (place, Part::Middle)));
        }
        let mut numbers = Numbers { classes, parts };
        numbers.make_room(sheet);
        numbers
    }

    /// Numbers step aside for midpoints and ends.
    fn make_room(&mut self, sheet: &Sheet) {
        let ends = sheet.scene.card.map(|card| card.ends(sheet.hall));
        for end in ends.unwrap_or_default() {
            self.parts
                .entry(end.place)
                .and_modify(|part| *part = Part::South);
        }
        for (sector, window) in sheet.hall.all_windows() {
            let place = sheet.hall.place(sector, window.midpoint());
            let aside = if window.side == 2 {
                Part::North
            } else {
                Part::South
            };
            self.parts.entry(place).and_modify(|part| {
                // In a corner with a window to the south, the north is free.
                *part = if *part == Part::North {
                    Part::North
                } else {
                    aside
                };
            });
        }
    }

    pub fn has(&self, place: Place) -> bool {
        self.parts.contains_key(&place)
    }

    /// Each number's cell, middle and size.
    fn each(&self, sheet: &Sheet) -> impl Iterator<Item = (Place, Point, f64)> {
        let spot = |(place, part): (&Place, &Part)| {
            let (x, y) = sheet.centre(*place);
            let (size, aside) = match part {
                Part::Middle => (ALONE, 0.0),
                Part::North => (BESIDE, -CELL * 0.3),
                Part::South => (BESIDE, CELL * 0.3),
            };
            (*place, (x, y + aside), size)
        };
        self.parts.iter().map(spot)
    }

    /// What the numbers cover.
    pub fn covers(&self, sheet: &Sheet) -> Vec<Cover> {
        let cover = |(place, at, size): (Place, Point, f64)| {
            let digits = sheet.hall.base(place).to_string().len() as f64;
            let reach = (digits * size * SANS_WIDTH / 2.0, size * 0.37);
            Cover { at, reach }
        };
        self.each(sheet).map(cover).collect()
    }

    /// Each number on a plate of its cell's colour, which keeps a way off it.
    pub fn draw(&self, sheet: &mut Sheet) {
        let drawn: Vec<String> = self
            .each(sheet)
            .filter_map(|(place, at, size)| {
                let cost = sheet.hall.base(place);
                Some(number(at, cost, size, class_of(&self.classes, cost)?))
            })
            .collect();
        drawn.into_iter().for_each(|number| sheet.add(number));
    }
}

fn number((x, y): Point, cost: u8, size: f64, class: Class) -> String {
    let text = cost.to_string();
    let (width, height) = ((text.len() as f64 + 0.2) * size * SANS_WIDTH, size * 0.9);
    let corner = (x - width / 2.0, y - height / 2.0);
    let list: &Attributes = &[("text-anchor", &"middle"), ("fill", &class.ink())];
    rect(corner, (width, height), &[("fill", &class.fill())])
        + &label((x, y + size * 0.36), &text, size, list)
}

/// The step from a cell towards one of its sides.
pub fn towards(side: usize) -> Point {
    [(0.0, -1.0), (1.0, 0.0), (0.0, 1.0), (-1.0, 0.0)][side % 4]
}

/// A midpoint stands in the middle of its cell, or at the border if the cell has a number.
pub fn midpoints(sheet: &mut Sheet, numbers: &Numbers) {
    for (sector, window) in sheet.hall.all_windows() {
        let place = sheet.hall.place(sector, window.midpoint());
        let ((x, y), (right, down)) = (sheet.centre(place), towards(window.side));
        let (off, radius) = if numbers.has(place) {
            (CELL * 0.24, CELL * 0.13)
        } else {
            (0.0, CELL * 0.19)
        };
        let at = (x + right * off, y + down * off);
        let list: &Attributes = &[
            ("fill", &WINDOW),
            ("stroke", &"#ffffff"),
            ("stroke-width", &0.8),
        ];
        sheet.add(circle(at, radius, list));
    }
}
