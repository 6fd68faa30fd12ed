//! Items 3 and 5: directions, and steps along them over a grid.

/// Shifts of column and row for N, E, S, W, NE, SE, SW, NW; north lowers the
/// row. The first four are the sides.
pub const DIRECTIONS: [(isize, isize); 8] = [
    (0, -1),
    (1, 0),
    (0, 1),
    (-1, 0),
    (1, -1),
    (1, 1),
    (-1, 1),
    (-1, -1),
];

/// The number of sides, N, E, S, W.
pub const SIDES: usize = 4;

/// The side that faces this one over a border.
pub fn opposite(side: usize) -> usize {
    (side + 2) % SIDES
}

/// Item 5: both axes move separately. None past the end of the grid.
pub fn shifted(
    (column, row): (usize, usize),
    direction: usize,
    steps: usize,
    (columns, rows): (usize, usize),
) -> Option<(usize, usize)> {
    let (across, down) = DIRECTIONS[direction];
    let steps = steps as isize;
    let column = column.checked_add_signed(across * steps)?;
    let row = row.checked_add_signed(down * steps)?;
    (column < columns && row < rows).then_some((column, row))
}
