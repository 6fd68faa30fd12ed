//! Lent lengths are those that the library takes: what stands before and behind a lent list stays, a list of just the size
//! needed is enough, and a refusal alters nothing.

use hall::bytes::{self, FileAnswer};
use hall::{BLOCKED, Measures, Refusal, Routed, Step, Window};

const GUARD: u8 = 0xa5;
const BEFORE: usize = 64;

const MEASURES: Measures = Measures {
    columns: 2,
    rows: 1,
    scale: 1,
};

/// Lends so many guard bytes out of many, and gives the answer with the bytes lent; the others must stay.
fn lend<T>(length: usize, call: impl FnOnce(&mut [u8]) -> T) -> (T, Vec<u8>) {
    let mut bytes = vec![GUARD; BEFORE + length + BEFORE];
    let answer = call(&mut bytes[BEFORE..BEFORE + length]);
    let behind = bytes.split_off(BEFORE + length);
    let lent = bytes.split_off(BEFORE);
    assert_eq!([bytes, behind].concat(), [GUARD; 2 * BEFORE]);
    (answer, lent)
}

fn stays(bytes: &[u8]) -> bool {
    bytes.iter().all(|&byte| byte == GUARD)
}

fn built() -> Vec<u8> {
    let (answer, store) = lend(420, |store| hall::build(MEASURES, &[1; 200], store));
    assert_eq!(answer, Ok(()));
    store
}

#[test]
fn read_file_fills_its_list() {
    let file = [2, 1, 1, 1, 0, 199, 0, BLOCKED, GUARD];
    let (answer, base) = lend(200, |base| hall::read_file(&file[..8], base));
    assert_eq!(answer, Ok(MEASURES));
    assert_eq!((&base[..199], base[199]), (&[1; 199][..], BLOCKED));

    for (length, list, number) in [(7, 200, 14), (9, 200, 14), (8, 199, 16), (8, 201, 16)] {
        let (answer, base) = lend(list, |base| hall::read_file(&file[..length], base));
        assert_eq!(answer, Err(Refusal(number)));
        assert!(stays(&base));
    }
}

#[test]
fn a_repeated_cell_leaves_the_list() {
    for [a, b, c] in [[7, 7, 9], [7, 9, 7], [9, 7, 7]] {
        for cost in [5, BLOCKED] {
            let file = [2, 1, 1, 3, 0, a, 0, b, 0, c, 0, 5, cost, cost];
            let (answer, base) = lend(200, |base| hall::read_file(&file, base));
            assert_eq!(answer, Err(Refusal(28)));
            assert!(stays(&base));
        }
    }
}

#[test]
fn build_writes_its_size() {
    let store = built();
    let (answer, longer) = lend(430, |store| hall::build(MEASURES, &[1; 200], store));
    assert_eq!(answer, Ok(()));
    assert_eq!(longer[..420], store);
    assert!(stays(&longer[420..]));

    for (cells, size, number) in [(199, 420, 17), (201, 420, 17), (200, 419, 18)] {
        let (answer, store) = lend(size, |store| {
            hall::build(MEASURES, &[1; 201][..cells], store)
        });
        assert_eq!(answer, Err(Refusal(number)));
        assert!(stays(&store));
    }
}

#[test]
fn change_writes_its_store() {
    let store = built();
    for (length, cell, owed) in [
        (420, 199, Ok(())),
        (420, 200, Err(Refusal(21))),
        (419, 199, Err(Refusal(18))),
    ] {
        let (answer, after) = lend(length, |lent| {
            lent.copy_from_slice(&store[..length]);
            hall::change(lent, cell, BLOCKED)
        });
        assert_eq!(answer, owed);
        assert_eq!(answer.is_err(), after == store[..length]);
    }
}

#[test]
fn route_writes_its_steps() {
    let store = built();
    let guard = Step {
        column: GUARD,
        row: GUARD,
        goal: GUARD,
        side: GUARD,
        first: GUARD,
        last: GUARD,
    };
    for room in 0..4 {
        let mut list = [guard; 8];
        let answer = hall::route(&store, 0, 100, &mut list[2..2 + room]);
        let written = match answer {
            Ok(Routed::Route { steps, .. }) => steps.len(),
            refused => {
                assert_eq!(refused, Err(Refusal(25)));
                0
            }
        };
        assert_eq!(written, if room < 2 { 0 } else { 2 });
        assert!(list[2..2 + written].iter().all(|step| step.goal != GUARD));
        let (before, behind) = (&list[..2], &list[2 + written..]);
        assert!(before.iter().chain(behind).all(|&step| step == guard));
    }
}

#[test]
fn none_writes_nothing() {
    let mut store = built();
    hall::change(&mut store, 100, BLOCKED).expect("the change is accepted");
    let mut list = [Step::default(); 2];
    assert_eq!(hall::route(&store, 0, 100, &mut list), Ok(Routed::NoRoute));
    assert_eq!(hall::route(&store, 0, 100, &mut []), Ok(Routed::NoRoute));
    assert_eq!(list, [Step::default(); 2]);
}

#[test]
fn windows_writes_its_windows() {
    let store = built();
    let guard = Window {
        first: GUARD,
        last: GUARD,
        side: GUARD,
    };
    for room in 0..3 {
        let mut list = [guard; 6];
        let answer = hall::windows(&store, 0, &mut list[2..2 + room]);
        let written = if room < 1 {
            assert_eq!(answer, Err(Refusal(27)));
            0
        } else {
            assert_eq!(answer.map(<[Window]>::len), Ok(1));
            1
        };
        assert!(list[2..2 + written].iter().all(|window| window.side == 1));
        let (before, behind) = (&list[..2], &list[2 + written..]);
        assert!(before.iter().chain(behind).all(|&window| window == guard));
    }
}

#[test]
fn write_file_writes_its_file() {
    let mut store = built();
    hall::change(&mut store, 199, 7).expect("the change is accepted");
    let owed = [2, 1, 1, 1, 0, 199, 0, 7];
    for room in [8, 9, 100] {
        let (answer, file) = lend(room, |file| hall::write_file(&store, file).map(<[u8]>::len));
        assert_eq!(answer, Ok(8));
        assert_eq!(file[..8], owed);
        assert!(stays(&file[8..]));
    }
}

#[test]
fn a_file_that_is_refused_leaves_the_bytes() {
    let mut store = built();
    hall::change(&mut store, 199, 7).expect("the change is accepted");
    let mut marked = store.clone();
    marked[404] = 1;
    for (store, room, number) in [
        (&store[..], 7, 29),
        (&store[..], 0, 29),
        (&store[..419], 7, 18),
        (&marked[..], 7, 20),
        (&marked[..], 8, 20),
    ] {
        let (answer, file) = lend(room, |file| bytes::write_file(store, file));
        assert_eq!(answer, FileAnswer { number, length: 0 });
        assert!(stays(&file));
    }
}
