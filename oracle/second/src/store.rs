//! The hall store: its layout and its check.

use crate::cells::CELLS;
use crate::file::u16_at;
use crate::floor::Floor;
use crate::marks::Marks;
use crate::refusal::{number_of, refuse_if};

/// Bytes before the base costs.
const HEAD: usize = 4;
/// Bytes of a sector: base costs, scaled costs, four marks.
const PER_SECTOR: usize = 2 * CELLS + 8;
/// The largest mark, all ten places open.
const ALL_OPEN: u16 = 1_023;

/// What a store holds.
#[derive(Debug, Clone, PartialEq, Eq)]
pub struct Hall {
    pub floor: Floor,
    pub scale: u8,
    pub base: Vec<u8>,
    pub scaled: Vec<u8>,
    pub marks: Vec<Marks>,
}

/// Size 4 + 208 × sectors.
pub fn store_size(floor: Floor) -> usize {
    HEAD + PER_SECTOR * floor.sectors()
}

/// The marks of a sector as they stand in the store.
fn marks_at(store: &[u8], floor: Floor, sector: usize) -> Marks {
    let first = HEAD + 2 * floor.cells() + 8 * sector;
    std::array::from_fn(|side| u16_at(store, first + 2 * side))
}

/// Refusal 20's condition for one sector.
fn marks_fit(store: &[u8], floor: Floor, sector: usize) -> bool {
    let marks = marks_at(store, floor, sector);
    marks.iter().enumerate().all(|(side, &mark)| {
        mark == 0 || mark <= ALL_OPEN && floor.neighbour(sector, side).is_some()
    })
}

/// The store check: 18, 11, 12, 19, 18 and 20, in this order.
fn checked(store: &[u8]) -> Result<Floor, u8> {
    refuse_if(store.len() < HEAD, 18)?;
    let floor = Floor::measured(store[0], store[1], store[2])?;
    refuse_if(store[3] != 0, 19)?;
    refuse_if(store.len() < store_size(floor), 18)?;
    let fit = (0..floor.sectors()).all(|sector| marks_fit(store, floor, sector));
    refuse_if(!fit, 20)?;
    Ok(floor)
}

/// The store check as a number, 0 if the store passes.
pub fn check_store(store: &[u8]) -> u8 {
    number_of(checked(store).map(|_| ()))
}

impl Hall {
    /// What a store holds, if it passes the check.
    pub fn read(store: &[u8]) -> Result<Hall, u8> {
        let floor = checked(store)?;
        let (base, rest) = store[HEAD..].split_at(floor.cells());
        Ok(Hall {
            floor,
            scale: store[2],
            base: base.to_vec(),
            scaled: rest[..floor.cells()].to_vec(),
            marks: (0..floor.sectors())
                .map(|sector| marks_at(store, floor, sector))
                .collect(),
        })
    }

    /// The bytes of the store.
    fn bytes(&self) -> Vec<u8> {
        let Floor { columns, rows } = self.floor;
        let mut bytes = vec![columns as u8, rows as u8, self.scale, 0];
        bytes.extend(&self.base);
        bytes.extend(&self.scaled);
        bytes.extend(
            self.marks
                .iter()
                .flatten()
                .flat_map(|mark| mark.to_le_bytes()),
        );
        bytes
    }

    /// Fills the store; bytes past its size stay.
    pub fn write(&self, store: &mut [u8]) {
        let bytes = self.bytes();
        store[..bytes.len()].copy_from_slice(&bytes);
    }
}
