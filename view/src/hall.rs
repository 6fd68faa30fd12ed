//! A floor as the proved library builds it: scaled costs and windows.

use proved::{MOST_FILE_BYTES, MOST_WINDOWS, Measures, Store};

use crate::changes::Change;
use crate::floor::{BLOCKED, CELLS, Floor, LENGTH, Place};

/// First and last cell by index; side 0 N, 1 E, 2 S, 3 W.
#[derive(Debug, Clone, Copy, PartialEq, Eq)]
pub struct Window {
    pub first: usize,
    pub last: usize,
    pub side: usize,
}

impl Window {
    pub fn of(window: proved::Window) -> Window {
        Window {
            first: window.first.into(),
            last: window.last.into(),
            side: window.side.into(),
        }
    }

    /// From one cell of the window to the next.
    fn stride(self) -> usize {
        if self.side.is_multiple_of(2) {
            1
        } else {
            LENGTH
        }
    }

    /// How many cells it is wide.
    pub fn width(self) -> usize {
        (self.last - self.first) / self.stride() + 1
    }

    /// The cell in the middle, cut down.
    pub fn midpoint(self) -> usize {
        self.first + (self.width() - 1) / 2 * self.stride()
    }
}

/// A built hall.
pub struct Hall {
    pub floor: Floor,
    pub store: Store,
    /// The windows of each sector by its number, N, E, S, W.
    pub windows: Vec<Vec<Window>>,
}

impl Hall {
    /// Floors that were read have measures and costs that build accepts.
    pub fn build(floor: Floor) -> Hall {
        let measures = Measures {
            columns: floor.columns as u8,
            rows: floor.rows as u8,
            scale: floor.scale,
        };
        let store =
            Store::build(measures, &floor.costs).expect("build accepts a floor that was read");
        Hall::of(floor, store)
    }

    fn of(floor: Floor, store: Store) -> Hall {
        let windows = (0..floor.sectors())
            .map(|sector| windows_of(&store, sector))
            .collect();
        Hall {
            floor,
            store,
            windows,
        }
    }

    /// The hall after changes, made one after the other by the proved call, or why one is refused.
    pub fn changed(&self, changes: &[Change]) -> Result<Hall, String> {
        let (mut floor, mut store) = (self.floor.clone(), self.store.clone());
        for change in changes {
            store
                .change(change.number, change.after)
                .map_err(|refusal| change.refused(&floor, refusal))?;
            floor.costs[change.number] = change.after;
        }
        Ok(Hall::of(floor, store))
    }

    /// Its hall file, by the proved call.
    pub fn file(&self) -> Vec<u8> {
        let mut room = [0; MOST_FILE_BYTES];
        let file = self.store.write_file(&mut room);
        file.expect("there is room for every file").to_vec()
    }

    /// The base cost of a place.
    pub fn base(&self, place: Place) -> u8 {
        self.floor.costs[self.floor.number(place)]
    }

    /// Whether a place is open to this trolley.
    pub fn is_open(&self, place: Place) -> bool {
        self.store.bytes()[4 + self.floor.costs.len() + self.floor.number(place)] != BLOCKED
    }

    /// Whether a place is closed by scaling alone.
    pub fn is_narrow(&self, place: Place) -> bool {
        self.base(place) != BLOCKED && !self.is_open(place)
    }

    /// The place of a cell of a sector.
    pub fn place(&self, (column, row): (usize, usize), index: usize) -> Place {
        self.floor
            .place(self.floor.sector(column, row) * CELLS + index)
    }

    /// Each window with the column and row of its sector.
    pub fn all_windows(&self) -> impl Iterator<Item = ((usize, usize), Window)> + '_ {
        let sectors = (0..).zip(&self.windows);
        sectors.flat_map(|(sector, windows)| {
            let place = (sector / self.floor.rows, sector % self.floor.rows);
            windows.iter().map(move |window| (place, *window))
        })
    }
}

fn windows_of(store: &Store, sector: usize) -> Vec<Window> {
    let mut list = [proved::Window::default(); MOST_WINDOWS];
    let windows = store.windows(sector, &mut list);
    let windows = windows.expect("the sector is one of the floor");
    windows.iter().copied().map(Window::of).collect()
}

/// The place over the border at a side.
pub fn over((x, y): Place, side: usize) -> Place {
    match side {
        0 => (x, y.wrapping_sub(1)),
        1 => (x + 1, y),
        2 => (x, y + 1),
        _ => (x.wrapping_sub(1), y),
    }
}
