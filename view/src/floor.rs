//! A floor of whole sectors and its base costs.

use crate::characters::shown;

/// Cells along a sector.
pub const LENGTH: usize = 10;
/// Cells of a sector.
pub const CELLS: usize = LENGTH * LENGTH;
/// The most sectors across, and down.
pub const MOST_SECTORS: usize = 10;
/// The cost of a blocked cell.
pub const BLOCKED: u8 = 255;
/// The cost of a cell that no one names.
pub const UNNAMED: u8 = 1;

/// A cell by its place on the plain floor: x from the west, y from the north.
pub type Place = (usize, usize);

/// Sectors across and down, the trolley's scale, costs by floor number, and the characters
/// that a drawing gave to some costs.
#[derive(Debug, Clone, PartialEq, Eq)]
pub struct Floor {
    pub columns: usize,
    pub rows: usize,
    pub scale: u8,
    pub costs: Vec<u8>,
    pub legend: Vec<(char, u8)>,
}

impl Floor {
    pub fn width(&self) -> usize {
        self.columns * LENGTH
    }

    pub fn height(&self) -> usize {
        self.rows * LENGTH
    }

    pub fn sectors(&self) -> usize {
        self.columns * self.rows
    }

    /// Column × rows + row.
    pub fn sector(&self, column: usize, row: usize) -> usize {
        column * self.rows + row
    }

    /// The floor number of a place: sector number × 100 + index.
    pub fn number(&self, (x, y): Place) -> usize {
        self.sector(x / LENGTH, y / LENGTH) * CELLS + (y % LENGTH) * LENGTH + x % LENGTH
    }

    /// The place of a floor number.
    pub fn place(&self, number: usize) -> Place {
        place_of(number, self.rows)
    }

    /// The floor number that a text names: by itself, or by x,y.
    pub fn named(&self, text: &str) -> Result<usize, String> {
        let number = match text.split_once(',') {
            None => text.parse().ok(),
            Some((x, y)) => x.parse().ok().zip(y.parse().ok()).and_then(|place| {
                let (x, y): (usize, usize) = place;
                (x < self.width() && y < self.height()).then(|| self.number(place))
            }),
        };
        let cells = self.costs.len();
        number.filter(|number| *number < cells).ok_or(format!(
            "`{}` is no cell of the floor: floor numbers are 0 to {}, x,y are 0,0 to {},{}",
            shown(text),
            cells - 1,
            self.width() - 1,
            self.height() - 1
        ))
    }

    /// All places, row by row from the north.
    pub fn places(&self) -> impl Iterator<Item = Place> + use<> {
        let (width, height) = (self.width(), self.height());
        (0..height).flat_map(move |y| (0..width).map(move |x| (x, y)))
    }

    /// The places beside this one, N, E, S, W, as far as the floor goes.
    pub fn beside(&self, (x, y): Place) -> impl Iterator<Item = Place> + use<> {
        let (width, height) = (self.width(), self.height());
        [
            (Some(x), y.checked_sub(1)),
            (Some(x + 1), Some(y)),
            (Some(x), Some(y + 1)),
            (x.checked_sub(1), Some(y)),
        ]
        .into_iter()
        .filter_map(|(x, y)| Some((x?, y?)))
        .filter(move |&(x, y)| x < width && y < height)
    }
}

/// The place of a floor number, on a floor of so many rows of sectors.
pub fn place_of(number: usize, rows: usize) -> Place {
    let (sector, index) = (number / CELLS, number % CELLS);
    let (column, row) = (sector / rows, sector % rows);
    (
        column * LENGTH + index % LENGTH,
        row * LENGTH + index / LENGTH,
    )
}

/// Column and row of the sector that a place lies in.
pub fn sector_of((x, y): Place) -> (usize, usize) {
    (x / LENGTH, y / LENGTH)
}

/// The index of a place in its sector.
pub fn index_of((x, y): Place) -> usize {
    (y % LENGTH) * LENGTH + x % LENGTH
}
