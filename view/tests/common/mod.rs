//! What several tests have in common: files of the repository, and halls drawn from a seed.
#![allow(dead_code)]

use std::fs;

use hallview::card::Card;
use hallview::drawing;
use hallview::floor::Floor;
use hallview::hall::Hall;
use hallview::hall_file::Entry;

/// The text of a file of the repository.
pub fn repository_text(path: &str) -> String {
    fs::read_to_string(format!("{}/../{path}", env!("CARGO_MANIFEST_DIR"))).unwrap()
}

/// A hall file with these entries, whatever they are: columns, rows, scale; count, floor numbers,
/// costs.
pub fn hall_file_of(measures: [u8; 3], entries: &[Entry]) -> Vec<u8> {
    let numbers = entries.iter().map(|entry| entry.number as u16);
    let mut file = measures.to_vec();
    file.extend((entries.len() as u16).to_le_bytes());
    file.extend(numbers.flat_map(u16::to_le_bytes));
    file.extend(entries.iter().map(|entry| entry.cost));
    file
}

/// Numbers from a seed.
pub struct Draw(pub u64);

impl Draw {
    pub fn below(&mut self, count: usize) -> usize {
        self.0 = self
            .0
            .wrapping_mul(6_364_136_223_846_793_005)
            .wrapping_add(1_442_695_040_888_963_407);
        (self.0 >> 33) as usize % count
    }
}

/// A hall of up to 4 by 4 sectors, mostly at scale 1, otherwise at most at the scale given.
pub fn drawn_hall(draw: &mut Draw, most: usize) -> Hall {
    let (columns, rows) = (1 + draw.below(4), 1 + draw.below(4));
    let scale = [1, 1 + draw.below(most)][draw.below(2)] as u8;
    let per_cent = draw.below(35);
    let mut cost = |_| if draw.below(100) < per_cent { 255 } else { 1 };
    Hall::build(Floor {
        columns,
        rows,
        scale,
        costs: (0..100 * columns * rows).map(&mut cost).collect(),
        legend: vec![],
    })
}

/// A hall of 10 by some sectors in which a wall follows each so many rows, with a gap at the
/// east and west end by turns; and the card from its first cell to the last open one.
pub fn winding(rows: usize, between: usize) -> (Hall, Card) {
    let open = ".".repeat(100) + "\n";
    let walls = [
        "#".repeat(99) + ".\n",
        ".".to_string() + &"#".repeat(99) + "\n",
    ];
    let row = |y: usize| match y % (between + 1) {
        at if at == between && y + 1 < rows * 10 => &walls[y / (between + 1) % 2],
        _ => &open,
    };
    let text: String = (0..rows * 10).map(|y| row(y).as_str()).collect();
    let hall = Hall::build(drawing::read(text.as_bytes()).unwrap().floor);
    let card = Card::of(&hall, (0, hall.floor.costs.len() - 1));
    (hall, card)
}
