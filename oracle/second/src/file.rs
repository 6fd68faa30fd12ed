//! The hall file: columns, rows, scale, count, floor numbers, costs. Document 02,
//! request 1: no floor number stands twice.

use crate::floor::Floor;
use crate::refusal::refuse_if;

/// Bytes before the entries.
pub const HEAD: usize = 5;
/// The cost of a cell that the file does not name.
pub const UNNAMED: u8 = 1;

/// A refusal's other values are 0.
#[derive(Debug, Clone, Copy, PartialEq, Eq, Default)]
pub struct FileAnswer {
    pub number: u8,
    pub columns: u8,
    pub rows: u8,
    pub scale: u8,
}

/// A u16, low byte first.
pub fn u16_at(bytes: &[u8], at: usize) -> u16 {
    u16::from_le_bytes([bytes[at], bytes[at + 1]])
}

fn entry_count(file: &[u8]) -> usize {
    u16_at(file, 3).into()
}

/// The bytes of the input that are the hall file: 5 + 3 × count, or all if
/// fewer. Without a whole head all is file.
pub fn file_length(input: &[u8]) -> usize {
    if input.len() < HEAD {
        return input.len();
    }
    input.len().min(HEAD + 3 * entry_count(input))
}

/// The file's floor numbers and costs, two parallel arrays.
fn entries(file: &[u8]) -> impl Iterator<Item = (usize, u8)> + '_ {
    let count = entry_count(file);
    (0..count).map(move |entry| {
        let number = u16_at(file, HEAD + 2 * entry);
        (number.into(), file[HEAD + 2 * count + entry])
    })
}

/// Whether a floor number stands twice: sorted, equal ones are neighbours.
fn has_repeat(file: &[u8]) -> bool {
    let mut numbers: Vec<usize> = entries(file).map(|(number, _)| number).collect();
    numbers.sort_unstable();
    numbers.windows(2).any(|pair| pair[0] == pair[1])
}

/// Refusals 10 to 15, then 28: those that need no list.
pub fn check_file(file: &[u8]) -> Result<Floor, u8> {
    refuse_if(file.len() < HEAD, 10)?;
    let floor = Floor::measured(file[0], file[1], file[2])?;
    let count = entry_count(file);
    refuse_if(count > 10_000, 13)?;
    refuse_if(file.len() != HEAD + 3 * count, 14)?;
    let beyond = entries(file).any(|(number, _)| number >= floor.cells());
    refuse_if(beyond, 15)?;
    refuse_if(has_repeat(file), 28)?;
    Ok(floor)
}

/// Read file into a lent base list: refusals 10 to 15, 28 and 16, or the filled list.
pub fn read_file(file: &[u8], base: &mut [u8]) -> FileAnswer {
    let checked = check_file(file).and_then(|floor| refuse_if(base.len() != floor.cells(), 16));
    if let Err(number) = checked {
        return FileAnswer {
            number,
            ..FileAnswer::default()
        };
    }
    base.fill(UNNAMED);
    for (number, cost) in entries(file) {
        base[number] = cost;
    }
    FileAnswer {
        number: 0,
        columns: file[0],
        rows: file[1],
        scale: file[2],
    }
}
