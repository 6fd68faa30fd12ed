//! Damage to bytes.

use crate::draw::Draw;
use crate::files;
use crate::floor::Floor;

/// Turns a hall file for a floor, or an input that begins with one, into another one.
pub type Turn = fn(&mut Vec<u8>, &Floor, &mut Draw);

/// Damages bytes in a few places, or not at all: cut, longer, single bits, and
/// numbers at the first bytes and at any place.
pub fn damage(bytes: &mut Vec<u8>, draw: &mut Draw) {
    for _ in 0..draw.pick(&[0, 1, 1, 1, 2]) {
        match draw.below(8) {
            0 => bytes.truncate(draw.below(bytes.len() + 1)),
            1 => bytes.truncate(draw.below(bytes.len().min(8) + 1)),
            2 => bytes.extend([0; 4].map(|_| draw.bits() as u8)),
            3 => bytes.truncate(bytes.len().saturating_sub(draw.from_to(1, 3))),
            4 | 5 => head(bytes, draw),
            _ => anywhere(bytes, draw),
        }
    }
}

/// Damages a store of so many sectors, now and then in one of its marks too.
pub fn damage_store(store: &mut Vec<u8>, sectors: usize, draw: &mut Draw) {
    damage(store, draw);
    if draw.percent(30) {
        spoil_mark(store, sectors, draw);
    }
}

/// Any bits in one of the marks.
fn spoil_mark(store: &mut [u8], sectors: usize, draw: &mut Draw) {
    let at = 4 + 200 * sectors + draw.below(8 * sectors);
    if let Some(byte) = store.get_mut(at) {
        *byte = draw.bits() as u8;
    }
}

/// One of the first five bytes.
fn head(bytes: &mut [u8], draw: &mut Draw) {
    let at = draw.below(5);
    if let Some(byte) = bytes.get_mut(at) {
        *byte = draw.pick(&[0, 1, 9, 10, 11, 39, 255]);
    }
}

/// A bit flipped or a byte replaced.
fn anywhere(bytes: &mut [u8], draw: &mut Draw) {
    if bytes.is_empty() {
        return;
    }
    let at = draw.below(bytes.len());
    if draw.percent(50) {
        bytes[at] ^= 1 << draw.below(8);
    } else {
        bytes[at] = draw.pick(&[0, 4, 255]);
    }
}

pub fn with_spare_bytes(file: &mut Vec<u8>, _: &Floor, draw: &mut Draw) {
    file.extend(&[7; 3][..draw.from_to(1, 3)]);
}

pub fn cut(file: &mut Vec<u8>, _: &Floor, draw: &mut Draw) {
    file.truncate(draw.below(file.len()));
}

pub fn with_other_measures(file: &mut Vec<u8>, _: &Floor, draw: &mut Draw) {
    file[draw.below(3)] = draw.pick(&[0, 1, 9, 10, 11, 255]);
}

/// The count next to the right one, or one at and beyond what may be.
pub fn with_another_count(file: &mut Vec<u8>, _: &Floor, draw: &mut Draw) {
    let count = files::count(file);
    let near = draw.pick(&[count.wrapping_sub(1), count + 1, count + 2]);
    let far = draw.pick(&[0, 10_000, 10_001, 20_000, 65_535]);
    let other = draw.weighted(&[(6, near), (4, far)]);
    file[3..5].copy_from_slice(&other.to_le_bytes());
}

/// A floor number too large in one of the entries, if it has any.
pub fn with_a_cell_too_large(file: &mut Vec<u8>, floor: &Floor, draw: &mut Draw) {
    let (count, cells) = (usize::from(files::count(file)), floor.costs.len());
    if count > 0 {
        let at = 5 + 2 * draw.below(count);
        let number = draw.pick(&[cells, cells + 1, 65_535]) as u16;
        file[at..at + 2].copy_from_slice(&number.to_le_bytes());
    }
}

pub fn of_any_bytes(file: &mut Vec<u8>, _: &Floor, draw: &mut Draw) {
    file.truncate(draw.below(60));
    file.fill_with(|| draw.bits() as u8);
}
