//! The proved library and the proved program as a router.

use calls::{Counted, Measures, Routed, Router, Step, Window, Written};

/// Bytes on both sides of what is lent, and what they hold.
const GUARD: [u8; 16] = [0xa5; 16];

pub struct Proved;

impl Router for Proved {
    fn plan(&self, values: [f32; 4]) -> Measures {
        measures(proved::plan(values))
    }

    fn read_file(&self, file: &[u8], base: &mut [u8]) -> Measures {
        measures(lend(base, |base| proved::read_file(file, base)))
    }

    fn check_store(&self, store: &[u8]) -> u8 {
        proved::check_store(store)
    }

    fn build(&self, measures: [u8; 3], base: &[u8], store: &mut [u8]) -> u8 {
        lend(store, |store| proved::build(measures, base, store))
    }

    fn change(&self, store: &mut [u8], floor_number: usize, cost: u8) -> u8 {
        lend(store, |store| proved::change(store, floor_number, cost))
    }

    fn windows(&self, store: &[u8], sector: usize, list: &mut [Window]) -> Counted {
        let call = |lent: &mut [u8]| proved::windows(store, sector, lent);
        let answer = lend_flat(list, Window::bytes, Window::from_bytes, sector % 3, call);
        Counted {
            number: answer.number,
            count: answer.count,
        }
    }

    fn route(&self, store: &[u8], source: usize, goal: usize, list: &mut [Step]) -> Routed {
        let call = |lent: &mut [u8]| proved::route(store, source, goal, lent);
        let spare = source.wrapping_add(goal) % 6;
        let answer = lend_flat(list, Step::bytes, Step::from_bytes, spare, call);
        Routed {
            number: answer.number,
            steps: answer.steps,
            leg: answer.leg,
            run: answer.run,
        }
    }

    fn write_file(&self, store: &[u8], file: &mut [u8]) -> Written {
        let answer = lend(file, |file| proved::write_file(store, file));
        Written {
            number: answer.number,
            length: answer.length,
        }
    }

    fn hallroute(&self, input: &[u8]) -> Vec<u8> {
        proved::hallroute(input)
    }
}

/// Lends a copy between bytes that must stay, and takes back what the call left.
fn lend<T>(bytes: &mut [u8], call: impl FnOnce(&mut [u8]) -> T) -> T {
    let mut lent = [&GUARD, &*bytes, &GUARD].concat();
    let end = lent.len() - GUARD.len();
    let answer = call(&mut lent[GUARD.len()..end]);
    let stayed = lent.starts_with(&GUARD) && lent.ends_with(&GUARD);
    assert!(stayed, "bytes beside what is lent");
    bytes.copy_from_slice(&lent[GUARD.len()..end]);
    answer
}

/// Lends a list as `N` bytes an entry, with spare bytes behind it that are no whole entry
/// and must stay.
fn lend_flat<E, const N: usize, T>(
    list: &mut [E],
    flat: impl Fn(&E) -> [u8; N],
    entry: impl Fn([u8; N]) -> E,
    spare: usize,
    call: impl FnOnce(&mut [u8]) -> T,
) -> T {
    let mut bytes: Vec<u8> = list.iter().flat_map(flat).collect();
    bytes.extend(&GUARD[..spare]);
    let answer = lend(&mut bytes, call);
    let (entries, rest) = bytes.as_chunks();
    assert!(rest == &GUARD[..spare], "bytes that are no whole entry");
    for (place, bytes) in list.iter_mut().zip(entries) {
        *place = entry(*bytes);
    }
    answer
}

fn measures(answer: proved::MeasuresAnswer) -> Measures {
    Measures {
        number: answer.number,
        columns: answer.columns,
        rows: answer.rows,
        scale: answer.scale,
    }
}
