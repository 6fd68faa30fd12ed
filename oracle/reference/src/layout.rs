//! Between document 01's numbers and the Rust's cells, sectors and windows.

use calls::Window;

use crate::flowfields::fields::FieldCell;
use crate::flowfields::portal::PortalWindow;
use crate::flowfields::sectors::SectorID;
use crate::flowfields::utilities::CompassDir;

/// The sides in 01's order.
pub const SIDES: [CompassDir; 4] = [
    CompassDir::North,
    CompassDir::East,
    CompassDir::South,
    CompassDir::West,
];

/// The sector with this number: column × rows + row.
pub fn sector_id(number: usize, rows: usize) -> SectorID {
    SectorID::new((number / rows) as i32, (number % rows) as i32)
}

pub fn sector_number(sector: &SectorID, rows: usize) -> usize {
    sector.get_column() as usize * rows + sector.get_row() as usize
}

/// The sector and cell of a floor number.
pub fn place_on_floor(floor_number: usize, rows: usize) -> (SectorID, FieldCell) {
    let sector = sector_id(floor_number / 100, rows);
    (sector, FieldCell::from_index(floor_number % 100))
}

/// A window in 01's terms.
pub fn window(window: &PortalWindow) -> Window {
    let (first, last) = window.ends();
    let side = SIDES.iter().position(|side| side == window.get_boundary());
    Window {
        first: first.as_1d_index() as u8,
        last: last.as_1d_index() as u8,
        side: side.expect("a window stands on one of four sides") as u8,
    }
}

/// The mark of a side: bit i for place i of its windows.
pub fn mark<'a>(side: CompassDir, windows: impl Iterator<Item = &'a PortalWindow>) -> u16 {
    let mut mark = 0;
    for window in windows.filter(|window| *window.get_boundary() == side) {
        for index in window.get_all_window_cells() {
            mark |= 1 << place(side, FieldCell::from_index(index));
        }
    }
    mark
}

/// The windows of a side with this mark: its runs of ones.
pub fn windows_of_mark(side: CompassDir, mark: u16) -> Vec<PortalWindow> {
    let mut windows = vec![];
    let mut first = None;
    for i in 0..=10 {
        let open = mark >> i & 1 == 1;
        match (open, first) {
            (true, None) => first = Some(i),
            (false, Some(start)) => {
                let (start, end) = (border_cell(side, start), border_cell(side, i - 1));
                windows.push(PortalWindow::new(start, end, side));
                first = None;
            }
            _ => {}
        }
    }
    windows
}

/// A border cell's place on its side.
fn place(side: CompassDir, cell: FieldCell) -> usize {
    match side {
        CompassDir::North | CompassDir::South => cell.get_column(),
        _ => cell.get_row(),
    }
}

/// The border cell at a place of a side.
fn border_cell(side: CompassDir, place: usize) -> FieldCell {
    match side {
        CompassDir::North => FieldCell::new(place, 0),
        CompassDir::East => FieldCell::new(9, place),
        CompassDir::South => FieldCell::new(place, 9),
        _ => FieldCell::new(0, place),
    }
}
