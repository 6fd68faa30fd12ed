//! Item 3: sectors and floor numbers of a floor.

use crate::cells::{column_row, index, CELLS, LENGTH};
use crate::directions::shifted;
use crate::refusal::refuse_if;
use std::ops::Range;

/// A floor of columns by rows sectors.
#[derive(Debug, Clone, Copy, PartialEq, Eq, Default)]
pub struct Floor {
    pub columns: usize,
    pub rows: usize,
}

impl Floor {
    /// Refusals 11 and 12, which several calls share.
    pub fn measured(columns: u8, rows: u8, scale: u8) -> Result<Floor, u8> {
        let fits = |length: u8| (1..=10).contains(&length);
        refuse_if(!fits(columns) || !fits(rows), 11)?;
        refuse_if(!(1..=9).contains(&scale), 12)?;
        Ok(Floor {
            columns: columns.into(),
            rows: rows.into(),
        })
    }

    pub fn sectors(self) -> usize {
        self.columns * self.rows
    }

    /// The number of floor numbers.
    pub fn cells(self) -> usize {
        self.sectors() * CELLS
    }

    /// Column and row of a sector number.
    pub fn sector_place(self, sector: usize) -> (usize, usize) {
        (sector / self.rows, sector % self.rows)
    }

    fn sector_number(self, (column, row): (usize, usize)) -> usize {
        column * self.rows + row
    }

    /// The sector next to this one, none at the end of the floor.
    pub fn neighbour(self, sector: usize, direction: usize) -> Option<usize> {
        let limits = (self.columns, self.rows);
        shifted(self.sector_place(sector), direction, 1, limits)
            .map(|place| self.sector_number(place))
    }

    /// Item 5: the floor number some steps away over the plain floor.
    pub fn step(self, number: usize, direction: usize, steps: usize) -> Option<usize> {
        let (sector_column, sector_row) = self.sector_place(number / CELLS);
        let (column, row) = column_row(number % CELLS);
        let place = (sector_column * LENGTH + column, sector_row * LENGTH + row);
        let limits = (self.columns * LENGTH, self.rows * LENGTH);
        let (column, row) = shifted(place, direction, steps, limits)?;
        let sector = self.sector_number((column / LENGTH, row / LENGTH));
        Some(floor_number(sector, index((column % LENGTH, row % LENGTH))))
    }
}

/// Item 3: floor number = sector number × 100 + index.
pub fn floor_number(sector: usize, index: usize) -> usize {
    sector * CELLS + index
}

/// The floor numbers of a sector.
pub fn numbers_of(sector: usize) -> Range<usize> {
    floor_number(sector, 0)..floor_number(sector + 1, 0)
}
