//! The Rust of docs/src as a router: its answers, and the refusals of 01 and 02 around them.

use calls::{Counted, Judge, Measures, Routed, Router, Step, Window, Written, best};
use reference_standin::Hall as Standin;

use crate::{plans, refusals, text};

/// The most bytes that the program reads.
const MOST_BYTES: usize = 65_536;

pub struct Rust;

impl Router for Rust {
    fn plan(&self, values: [f32; 4]) -> Measures {
        plans::owed(values)
    }

    fn read_file(&self, file: &[u8], base: &mut [u8]) -> Measures {
        match refusals::file(file, base.len()) {
            Ok((measures, costs)) => {
                base.copy_from_slice(&costs);
                measures
            }
            Err(number) => Measures {
                number,
                ..Measures::default()
            },
        }
    }

    fn check_store(&self, store: &[u8]) -> u8 {
        refusals::store(store).err().unwrap_or(0)
    }

    fn build(&self, measures: [u8; 3], base: &[u8], store: &mut [u8]) -> u8 {
        if let Err(number) = refusals::build(measures, base.len(), store.len()) {
            return number;
        }
        put(&Standin::build(measures, base), store);
        0
    }

    fn change(&self, store: &mut [u8], floor_number: usize, cost: u8) -> u8 {
        let sectors = match refusals::store(store) {
            Ok(sectors) => sectors,
            Err(number) => return number,
        };
        if floor_number >= 100 * sectors {
            return 21;
        }
        let mut hall = hall(store, sectors);
        // The Rust panics where 01 has 22.
        if !hall.change(floor_number, cost) {
            return 22;
        }
        put(&hall, store);
        0
    }

    fn windows(&self, store: &[u8], sector: usize, list: &mut [Window]) -> Counted {
        let refused = |number| Counted { number, count: 0 };
        let sectors = match refusals::store(store) {
            Ok(sectors) => sectors,
            Err(number) => return refused(number),
        };
        if sector >= sectors {
            return refused(26);
        }
        let windows = hall(store, sectors).windows(sector);
        let Some(room) = list.get_mut(..windows.len()) else {
            return refused(27);
        };
        room.copy_from_slice(&windows);
        let (number, count) = (0, windows.len() as u8);
        Counted { number, count }
    }

    fn route(&self, store: &[u8], source: usize, goal: usize, list: &mut [Step]) -> Routed {
        let refused = |number| Routed {
            number,
            ..Routed::default()
        };
        let sectors = match refusals::store(store) {
            Ok(sectors) => sectors,
            Err(number) => return refused(number),
        };
        let past = |number: usize| number >= 100 * sectors;
        if past(source) || past(goal) {
            return refused(if past(source) { 23 } else { 24 });
        }
        let hall = hall(store, sectors);
        let best = best::best(&hall, &hall.portal_graph(), source, goal);
        let (Some(steps), Some(best)) = (hall.route(source, goal), best) else {
            return Routed::default();
        };
        let Some(room) = list.get_mut(..steps.len()) else {
            return refused(25);
        };
        room.copy_from_slice(&steps);
        Routed {
            number: 0,
            steps: steps.len() as u32,
            leg: best.leg,
            run: best.run,
        }
    }

    fn write_file(&self, store: &[u8], file: &mut [u8]) -> Written {
        match refusals::written(store, file.len()) {
            Ok(bytes) => {
                file[..bytes.len()].copy_from_slice(&bytes);
                let (number, length) = (0, bytes.len() as u32);
                Written { number, length }
            }
            Err(number) => Written { number, length: 0 },
        }
    }

    fn hallroute(&self, input: &[u8]) -> Vec<u8> {
        if input.len() > MOST_BYTES {
            return b"too long\n".to_vec();
        }
        let length = match input {
            [_, _, _, count @ ..] if count.len() > 1 => 5 + 3 * refusals::two_bytes(count),
            _ => input.len(),
        };
        let (file, pairs) = input.split_at(length.min(input.len()));
        let cells = |file: &[u8]| 100 * usize::from(file[0]) * usize::from(file[1]);
        let lent = if file.len() < 2 { 0 } else { cells(file) };
        let (answer, base) = match refusals::file(file, lent) {
            Ok(accepted) => accepted,
            Err(number) => return format!("hall refused {number}\n").into_bytes(),
        };
        let hall = Standin::build([answer.columns, answer.rows, answer.scale], &base);
        let numbers = |pair: &[u8]| (refusals::two_bytes(pair), refusals::two_bytes(&pair[2..]));
        let spare = pairs.len() % 4;
        let pairs: Vec<_> = pairs.chunks_exact(4).map(numbers).collect();
        text::lines(&hall, base.len() / 100, &pairs, spare).into_bytes()
    }
}

/// The Rust's hall of a store that passes the check.
fn hall(store: &[u8], sectors: usize) -> Standin {
    Standin::from_store(&store[..4 + 208 * sectors])
}

/// Bytes past the size stay.
fn put(hall: &Standin, store: &mut [u8]) {
    let bytes = hall.store();
    store[..bytes.len()].copy_from_slice(&bytes);
}
