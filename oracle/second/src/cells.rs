//! Items 1, 2 and the end of 7: cells of a sector and the moves between them.

use crate::directions::{shifted, SIDES};
use std::collections::VecDeque;

/// Columns of a sector, and rows.
pub const LENGTH: usize = 10;
/// Cells of a sector.
pub const CELLS: usize = LENGTH * LENGTH;
/// The cost of a blocked cell.
pub const BLOCKED: u8 = 255;

/// Item 1: index = row × 10 + column.
pub fn index((column, row): (usize, usize)) -> usize {
    row * LENGTH + column
}

/// Column and row of an index, the order in which cells are compared.
pub fn column_row(index: usize) -> (usize, usize) {
    (index % LENGTH, index / LENGTH)
}

/// Item 7: the cells one move away. Moves go between open side neighbours.
fn next_cells(costs: &[u8], cell: usize) -> impl Iterator<Item = usize> + '_ {
    (0..SIDES)
        .filter(move |_| costs[cell] != BLOCKED)
        .filter_map(move |side| shifted(column_row(cell), side, 1, (LENGTH, LENGTH)))
        .map(index)
        .filter(|&next| costs[next] != BLOCKED)
}

/// The fewest moves from one cell to each cell of its sector, none where they
/// are not joined. A cell is joined to itself, blocked or not.
pub fn moves_from(costs: &[u8], from: usize) -> [Option<u32>; CELLS] {
    let mut fewest = [None; CELLS];
    fewest[from] = Some(0);
    let mut queue = VecDeque::from([(from, 0)]);
    while let Some((cell, moves)) = queue.pop_front() {
        for next in next_cells(costs, cell) {
            if fewest[next].is_none() {
                fewest[next] = Some(moves + 1);
                queue.push_back((next, moves + 1));
            }
        }
    }
    fewest
}

/// The fewest moves between two cells of a sector with these 100 scaled costs.
pub fn moves(costs: &[u8], from: usize, to: usize) -> Option<u32> {
    moves_from(costs, from)[to]
}
