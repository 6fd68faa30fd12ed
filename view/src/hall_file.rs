//! Hall files, and what `hallroute` reads: a hall file, then pairs.

use crate::floor::{CELLS, Floor, MOST_SECTORS};

/// Bytes before the entries of a hall file.
const HEAD: usize = 5;
/// Bytes of a pair.
const PAIR: usize = 4;

/// An entry of a hall file: a cell by its floor number, and its cost.
#[derive(Debug, Clone, Copy, PartialEq, Eq)]
pub struct Entry {
    pub number: usize,
    pub cost: u8,
}

/// The entries of a hall file, in its order, if its length fits its count.
pub fn entries(file: &[u8]) -> Vec<Entry> {
    let count = u16_at(file, 3);
    let entry = |at| Entry {
        number: u16_at(file, HEAD + 2 * at),
        cost: file[HEAD + 2 * count + at],
    };
    (0..count).map(entry).collect()
}

/// A pair as `hallroute` reads it.
pub fn write_pair((source, goal): (usize, usize)) -> Vec<u8> {
    [source as u16, goal as u16].map(u16::to_le_bytes).concat()
}

/// A hall file's floor, the pairs behind it, and how many bytes behind those make no pair.
#[derive(Debug, Clone, PartialEq, Eq)]
pub struct HallFile {
    pub floor: Floor,
    pub pairs: Vec<(usize, usize)>,
    pub spare: usize,
}

/// Reads a hall file and the pairs behind it, or gives the refusal's number.
pub fn read(bytes: &[u8]) -> Result<HallFile, u8> {
    let (file, pairs) = bytes.split_at(file_length(bytes));
    // The proved call fills a list that fits the first two bytes, if they are a floor's.
    let sectors = |at: usize| {
        file.get(at)
            .map_or(0, |n| usize::from(*n).min(MOST_SECTORS))
    };
    let mut costs = vec![0; sectors(0) * sectors(1) * CELLS];
    let measures = proved::read_file(file, &mut costs).map_err(|refusal| refusal.0)?;
    let floor = Floor {
        columns: measures.columns.into(),
        rows: measures.rows.into(),
        scale: measures.scale,
        costs,
        legend: vec![],
    };
    let pairs = pairs.chunks_exact(PAIR);
    Ok(HallFile {
        floor,
        spare: pairs.remainder().len(),
        pairs: pairs
            .map(|pair| (u16_at(pair, 0), u16_at(pair, 2)))
            .collect(),
    })
}

/// The first 5 + 3 × count bytes, or all if fewer.
fn file_length(bytes: &[u8]) -> usize {
    match bytes.len() {
        0..HEAD => bytes.len(),
        length => length.min(HEAD + 3 * u16_at(bytes, 3)),
    }
}

fn u16_at(bytes: &[u8], at: usize) -> usize {
    u16::from_le_bytes([bytes[at], bytes[at + 1]]).into()
}

/// What 01's refusals of a hall file mean; what 28 is about, `repeats` tells.
pub fn meaning(number: u8) -> &'static str {
    match number {
        10 => "it has under 5 bytes",
        11 => "columns or rows are outside 1 to 10",
        12 => "the scale is outside 1 to 9",
        13 => "it counts more than 10,000 cells",
        14 => "its length does not fit its count of cells",
        15 => "it names a cell that the floor does not have",
        _ => "it is refused",
    }
}
