//! Document 02, request 2: a floor written back as a hall file. What each byte of
//! the output is, place by place.

use crate::file::{HEAD, UNNAMED};
use crate::refusal::refuse_if;
use crate::store::Hall;

/// A refusal has length 0.
#[derive(Debug, Clone, Copy, PartialEq, Eq, Default)]
pub struct WrittenAnswer {
    pub number: u8,
    pub length: u32,
}

/// The file of a hall: "the store's sizes, scale and base costs".
struct Written {
    measures: [u8; 3],
    /// Floor numbers, ascending, and their costs; "no entry with cost 1".
    entries: Vec<(u16, u8)>,
}

impl Written {
    fn of(hall: &Hall) -> Written {
        let (columns, rows) = (hall.floor.columns as u8, hall.floor.rows as u8);
        let cells = (0..).zip(hall.base.iter().copied());
        Written {
            measures: [columns, rows, hall.scale],
            entries: cells.filter(|&(_, cost)| cost != UNNAMED).collect(),
        }
    }

    fn count(&self) -> usize {
        self.entries.len()
    }

    /// "No other bytes": 5 + 3 × count.
    fn length(&self) -> usize {
        HEAD + 3 * self.count()
    }

    /// The byte at a place of the file: measures, count, floor numbers, costs.
    fn byte(&self, place: usize) -> u8 {
        let costs = HEAD + 2 * self.count();
        if place < 3 {
            self.measures[place]
        } else if place < HEAD {
            half(self.count() as u16, place - 3)
        } else if place < costs {
            let (entry, part) = ((place - HEAD) / 2, (place - HEAD) % 2);
            half(self.entries[entry].0, part)
        } else {
            self.entries[place - costs].1
        }
    }
}

/// One byte of a u16: 0 is the low one, which comes first.
fn half(number: u16, part: usize) -> u8 {
    number.to_le_bytes()[part]
}

fn written(store: &[u8], room: usize) -> Result<Written, u8> {
    let written = Written::of(&Hall::read(store)?);
    refuse_if(room < written.length(), 29)?;
    Ok(written)
}

/// Write file: the store check, then 29, or the file's length and its bytes at the
/// front of the output.
pub fn write_file(store: &[u8], file: &mut [u8]) -> WrittenAnswer {
    match written(store, file.len()) {
        Err(number) => WrittenAnswer { number, length: 0 },
        Ok(written) => {
            let length = written.length();
            for (place, byte) in file[..length].iter_mut().enumerate() {
                *byte = written.byte(place);
            }
            WrittenAnswer {
                number: 0,
                length: length as u32,
            }
        }
    }
}
