//! Cells that stand twice in a hall file. That one does, the proved read call finds; where, is
//! found here, for the planner who has to mend the file.

use std::collections::BTreeMap;

use crate::floor::place_of;
use crate::hall_file::{self, Entry};
use crate::words::state;

/// The first two entries of each cell that stands twice, counted from 1, in the order of the
/// second.
pub fn find(entries: &[Entry]) -> Vec<(usize, usize)> {
    let mut by_cell: BTreeMap<usize, Vec<usize>> = BTreeMap::new();
    for (at, entry) in (1..).zip(entries) {
        by_cell.entry(entry.number).or_default().push(at);
    }
    let two = |at: &Vec<usize>| Some((at[0], *at.get(1)?));
    let mut found: Vec<(usize, usize)> = by_cell.values().filter_map(two).collect();
    found.sort_by_key(|(_, second)| *second);
    found
}

/// What is wrong with a file that is refused with 28, and how it is mended.
pub fn told(file: &[u8]) -> String {
    let entries = hall_file::entries(file);
    let found = find(&entries);
    let (first, second) = found[0];
    let number = entries[first - 1].number;
    let (x, y) = place_of(number, file[1].into());
    let [before, after] = [first, second].map(|at| state(entries[at - 1].cost));
    let more = match found.len() - 1 {
        0 => String::new(),
        1 => "; 1 more cell stands twice".to_string(),
        count => format!("; {count} more cells stand twice"),
    };
    format!(
        "floor number {number} ({x},{y}) stands twice: of {} entries, counted from 1, \
         entry {first} has it {before} and entry {second} {after}; keep one of them{more}",
        entries.len()
    )
}
