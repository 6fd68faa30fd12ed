//! Columns and rows of sectors, and of the cells in each, beside the floor.

use super::colours::{FAINT, INK};
use super::shapes::{Point, centred, label, round};
use super::sheet::{CELL, SECTOR, Sheet};
use crate::floor::LENGTH;

/// Digits that stand for cells: their size, and how many cells lie from one to the next.
#[derive(Clone, Copy)]
struct Digits {
    size: f64,
    step: usize,
}

impl Digits {
    /// In a large hall they are larger than a cell allows, and fewer.
    fn of(sheet: &Sheet) -> Digits {
        let size = (CELL * 0.5).max(sheet.text * 0.62);
        let step = if size > CELL * 0.8 { 2 } else { 1 };
        Digits { size, step }
    }

    fn each(self) -> impl Iterator<Item = usize> {
        (0..LENGTH).step_by(self.step)
    }

    fn digit(self, at: Point, digit: usize) -> String {
        let list: [(&str, &dyn std::fmt::Display); 2] =
            [("text-anchor", &"middle"), ("fill", &FAINT)];
        label(at, &digit.to_string(), self.size, &list)
    }
}

pub fn draw(sheet: &mut Sheet) {
    let digits = Digits::of(sheet);
    columns(sheet, digits);
    rows(sheet, digits);
}

fn columns(sheet: &mut Sheet, digits: Digits) {
    let size = sheet.text;
    let above = sheet.top - digits.size * 0.5;
    for column in 0..sheet.hall.floor.columns {
        let west = sheet.left + column as f64 * SECTOR;
        let name = format!("column {column}");
        let at = (west + SECTOR / 2.0, above - digits.size - size * 0.6);
        sheet.add(centred(at, &name, size, INK));
        for digit in digits.each() {
            let x = west + (digit as f64 + 0.5) * CELL;
            sheet.add(digits.digit((x, above), digit));
        }
    }
}

fn rows(sheet: &mut Sheet, digits: Digits) {
    let size = sheet.text;
    let beside = sheet.left - digits.size * 0.7;
    for row in 0..sheet.hall.floor.rows {
        let north = sheet.top + row as f64 * SECTOR;
        let name = centred((0.0, 0.0), &format!("row {row}"), size, INK);
        let (x, y) = (
            beside - digits.size * 0.6 - size * 0.7,
            north + SECTOR / 2.0,
        );
        sheet.add(format!(
            "<g transform=\"translate({} {}) rotate(-90)\">{name}</g>",
            round(x),
            round(y)
        ));
        for digit in digits.each() {
            let y = north + (digit as f64 + 0.5) * CELL + digits.size * 0.36;
            sheet.add(digits.digit((beside, y), digit));
        }
    }
}
