//! The build call.

use crate::floor::Floor;
use crate::marks::marks_of;
use crate::refusal::{number_of, refuse_if};
use crate::scaling::scaled_costs;
use crate::store::{store_size, Hall};

/// Build: refusals 11, 12, 17 and 18, or 0 and the filled store.
pub fn build(columns: u8, rows: u8, scale: u8, base: &[u8], store: &mut [u8]) -> u8 {
    let built = hall_of(columns, rows, scale, base, store.len());
    number_of(built.map(|hall| hall.write(store)))
}

fn hall_of(columns: u8, rows: u8, scale: u8, base: &[u8], room: usize) -> Result<Hall, u8> {
    let floor = Floor::measured(columns, rows, scale)?;
    refuse_if(base.len() != floor.cells(), 17)?;
    refuse_if(room < store_size(floor), 18)?;
    let scaled = scaled_costs(floor, scale, base);
    Ok(Hall {
        floor,
        scale,
        base: base.to_vec(),
        marks: marks_of(floor, &scaled),
        scaled,
    })
}
