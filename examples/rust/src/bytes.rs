//! The calls on lent bytes, with the answers as C has them: for a caller who keeps lists as bytes, or wants every value of an
//! answer. A slice is there for the time of the call, with its length, and one lent for writing overlaps no other: what the
//! header asks of the caller.

use crate::declared;
pub use crate::declared::{FileAnswer, MeasuresAnswer, RouteAnswer, WindowsAnswer};

/// Size along x, size along y, unit, radius.
pub fn plan([size_x, size_y, unit, radius]: [f32; 4]) -> MeasuresAnswer {
    declared::hall_plan(size_x, size_y, unit, radius)
}

pub fn read_file(file: &[u8], base: &mut [u8]) -> MeasuresAnswer {
    let (costs, cells) = (base.as_mut_ptr(), base.len());
    // SAFETY: both are slices, lent with their lengths.
    unsafe { declared::hall_read_file(file.as_ptr(), file.len(), costs, cells) }
}

/// Columns, rows, scale; then base costs and the store.
pub fn build([columns, rows, scale]: [u8; 3], base: &[u8], store: &mut [u8]) -> u8 {
    let (costs, cells) = (base.as_ptr(), base.len());
    let (lent, size) = (store.as_mut_ptr(), store.len());
    // SAFETY: both are slices, lent with their lengths.
    unsafe { declared::hall_build(columns, rows, scale, costs, cells, lent, size) }
}

pub fn check_store(store: &[u8]) -> u8 {
    // SAFETY: it is a slice, lent with its length.
    unsafe { declared::hall_check_store(store.as_ptr(), store.len()) }
}

pub fn change(store: &mut [u8], floor_number: usize, cost: u8) -> u8 {
    // SAFETY: it is a slice, lent with its length.
    unsafe { declared::hall_change(store.as_mut_ptr(), store.len(), floor_number, cost) }
}

/// The list takes six bytes a step: column, row, goal, side, first cell and last cell. Without a window the side is 4, and
/// both cells are 0.
pub fn route(store: &[u8], source: usize, goal: usize, list: &mut [u8]) -> RouteAnswer {
    let (lent, room) = (list.as_mut_ptr(), list.len());
    // SAFETY: both are slices, lent with their lengths.
    unsafe { declared::hall_route(store.as_ptr(), store.len(), source, goal, lent, room) }
}

/// The list takes three bytes a window: first cell, last cell and side.
pub fn windows(store: &[u8], sector: usize, list: &mut [u8]) -> WindowsAnswer {
    let (lent, room) = (list.as_mut_ptr(), list.len());
    // SAFETY: both are slices, lent with their lengths.
    unsafe { declared::hall_windows(store.as_ptr(), store.len(), sector, lent, room) }
}

/// The hall file of the store's floor, written to the front of the lent output.
pub fn write_file(store: &[u8], output: &mut [u8]) -> FileAnswer {
    let (lent, room) = (output.as_mut_ptr(), output.len());
    // SAFETY: both are slices, lent with their lengths.
    unsafe { declared::hall_write_file(store.as_ptr(), store.len(), lent, room) }
}
