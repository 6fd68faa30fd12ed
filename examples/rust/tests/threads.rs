//! The largest hall in several threads at a time, each with just the stack that the header asks for.

use std::thread;

use hall::{
    BLOCKED, MOST_FILE_BYTES, MOST_STEPS, MOST_WINDOWS, Measures, Routed, STACK_BYTES, Step, Store,
    Window,
};

const MEASURES: Measures = Measures {
    columns: 10,
    rows: 10,
    scale: 9,
};

/// The base costs of the longest file: it names every cell, the last one first, at cost 1.
fn base() -> Vec<u8> {
    let mut file = vec![10, 10, 9];
    file.extend(10_000_u16.to_le_bytes());
    file.extend((0..10_000_u16).rev().flat_map(u16::to_le_bytes));
    file.extend([1; 10_000]);
    let mut base = vec![0; 10_000];
    assert_eq!(hall::read_file(&file, &mut base), Ok(MEASURES));
    base
}

/// Reads and builds the hall, changes a cell, writes its file, and adds up leg and run of a route from corner to corner.
fn moves() -> u32 {
    let mut store = Store::build(MEASURES, &base()).expect("the hall is accepted");
    store
        .change(5_050, BLOCKED)
        .expect("the change is accepted");
    let mut windows = [Window::default(); MOST_WINDOWS];
    store.windows(50, &mut windows).expect("sector 50 is there");
    let mut room = vec![0; MOST_FILE_BYTES];
    let file = store.write_file(&mut room);
    assert_eq!(file, Ok(&[10, 10, 9, 1, 0, 0xba, 0x13, BLOCKED][..]));
    let mut list = [Step::default(); MOST_STEPS];
    match store.route(0, 9_999, &mut list) {
        Ok(Routed::Route { leg, run, .. }) => leg + run,
        other => panic!("{other:?}"),
    }
}

#[test]
fn threads_agree() {
    let threads: Vec<_> = (0..4)
        .map(|_| {
            let thread = thread::Builder::new().stack_size(STACK_BYTES);
            thread.spawn(moves).expect("the thread starts")
        })
        .collect();
    for thread in threads {
        assert_eq!(thread.join().expect("the thread ends"), 198);
    }
}
