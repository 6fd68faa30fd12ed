//! Item 8, windows of a side, and the windows call.

use crate::cells::{column_row, index, LENGTH};
use crate::marks::{border_cell, Marks};
use crate::refusal::refuse_if;
use crate::store::Hall;

/// First and last cell by index; side 0 N, 1 E, 2 S, 3 W.
#[derive(Debug, Clone, Copy, PartialEq, Eq, Default)]
pub struct Window {
    pub first: u8,
    pub last: u8,
    pub side: u8,
}

/// A refusal has count 0.
#[derive(Debug, Clone, Copy, PartialEq, Eq, Default)]
pub struct WindowsAnswer {
    pub number: u8,
    pub count: u8,
}

impl Window {
    fn between(side: usize, first_place: usize, last_place: usize) -> Window {
        Window {
            first: border_cell(side, first_place) as u8,
            last: border_cell(side, last_place) as u8,
            side: side as u8,
        }
    }

    /// Item 8: (first + last) / 2, cut down. The axis across the side is the
    /// same in both cells, so both axes may be halved.
    pub fn midpoint(self) -> usize {
        let (first_column, first_row) = column_row(self.first.into());
        let (last_column, last_row) = column_row(self.last.into());
        index(((first_column + last_column) / 2, (first_row + last_row) / 2))
    }
}

/// The number of windows on a side: ones with a zero below them.
pub fn window_count(mark: u16) -> u32 {
    (mark & !(mark << 1)).count_ones()
}

/// The windows of a side in order: open runs that can't be made longer.
pub fn windows_on_side(mark: u16, side: usize) -> Vec<Window> {
    let open = |place: usize| place < LENGTH && mark >> place & 1 == 1;
    let mut windows = Vec::new();
    let mut first = 0;
    for place in 0..LENGTH {
        if !open(place) {
            first = place + 1;
        } else if !open(place + 1) {
            windows.push(Window::between(side, first, place));
        }
    }
    windows
}

/// The windows of a sector, N, E, S, W.
pub fn windows_of(marks: &Marks) -> Vec<Window> {
    let sides = marks.iter().enumerate();
    sides
        .flat_map(|(side, &mark)| windows_on_side(mark, side))
        .collect()
}

fn listed(store: &[u8], sector: usize, room: usize) -> Result<Vec<Window>, u8> {
    let hall = Hall::read(store)?;
    refuse_if(sector >= hall.floor.sectors(), 26)?;
    let found = windows_of(&hall.marks[sector]);
    refuse_if(found.len() > room, 27)?;
    Ok(found)
}

/// Windows of a sector: the store check, 26 and 27, or their count and list.
pub fn windows(store: &[u8], sector: usize, list: &mut [Window]) -> WindowsAnswer {
    match listed(store, sector, list.len()) {
        Err(number) => WindowsAnswer { number, count: 0 },
        Ok(found) => {
            list[..found.len()].copy_from_slice(&found);
            WindowsAnswer {
                number: 0,
                count: found.len() as u8,
            }
        }
    }
}
