//! The calls of c/route.c, from Rust: document 01's example of a route, then refusals, changes, the changed floor as a file,
//! and "none".

use hall::{
    BLOCKED, Dimensions, MOST_FILE_BYTES, MOST_STEPS, MOST_WINDOWS, Refusal, Routed, Step, Store,
    Window,
};

fn plan(size_x: f32, size_y: f32, unit: f32, radius: f32) {
    let dimensions = Dimensions {
        size_x,
        size_y,
        unit,
        radius,
    };
    match hall::plan(dimensions) {
        Ok(m) => println!("plan {} {} {}", m.columns, m.rows, m.scale),
        Err(Refusal(number)) => println!("plan no {number}"),
    }
}

/// A hall file of 2 by 1 sectors, scale 1, with no entries: all cells cost 1.
const FILE: [u8; 5] = [2, 1, 1, 0, 0];

/// The same with two entries for cell 49, as where two files are merged.
const MERGED: [u8; 11] = [2, 1, 1, 2, 0, 49, 0, 49, 0, 5, BLOCKED];

/// Builds the hall of a file; a refusal is printed.
fn build(file: &[u8]) -> Result<Store, Refusal> {
    let mut base = [0; 200];
    hall::read_file(file, &mut base)
        .and_then(|measures| Store::build(measures, &base))
        .inspect_err(|refusal| println!("hall refused {}", refusal.0))
}

/// Whether so many bytes of the store are one.
fn check(store: &Store, length: usize) {
    print!("store of {length} bytes");
    if let Err(Refusal(number)) = hall::check_store(&store.bytes()[..length]) {
        print!(" no {number}");
    }
    println!();
}

fn list_windows(store: &Store, sector: usize) {
    let mut list = [Window::default(); MOST_WINDOWS];
    print!("windows {sector}");
    match store.windows(sector, &mut list) {
        Ok(windows) => windows.iter().for_each(|window| print!(" {window}")),
        Err(Refusal(number)) => print!(" no {number}"),
    }
    println!();
}

fn change(store: &mut Store, floor_number: usize, cost: u8) {
    print!("change {floor_number} {cost}");
    if let Err(Refusal(number)) = store.change(floor_number, cost) {
        print!(" no {number}");
    }
    println!();
}

/// Routes with a list that holds so many steps.
fn route(store: &Store, source: usize, goal: usize, room: usize) {
    let mut list = [Step::default(); MOST_STEPS];
    print!("{source} {goal} ");
    match store.route(source, goal, &mut list[..room]) {
        Ok(Routed::Route { steps, leg, run }) => {
            print!("{} {leg} {run}", steps.len());
            steps.iter().for_each(|step| print!(" {step}"));
        }
        Ok(Routed::NoRoute) => print!("none"),
        Err(Refusal(number)) => print!("no {number}"),
    }
    println!();
}

/// Writes the hall file of the store into the lent bytes, and prints it.
fn write_file<'a>(store: &Store, room: &'a mut [u8]) -> Result<&'a [u8], Refusal> {
    let file = store.write_file(room);
    print!("file");
    match file {
        Ok(file) => file.iter().for_each(|byte| print!(" {byte}")),
        Err(Refusal(number)) => print!(" no {number}"),
    }
    println!();
    file
}

fn main() -> Result<(), Refusal> {
    assert_eq!(hall::version(), hall::VERSION);
    plan(20.0, 10.0, 1.0, 1.0);
    plan(20.0, 10.0, 1.0, 10.0);

    assert_eq!(build(&MERGED), Err(Refusal(28)));
    let mut store = build(&FILE)?;
    check(&store, store.bytes().len());
    check(&store, store.bytes().len() - 1);
    list_windows(&store, 0);
    list_windows(&store, 2);
    route(&store, 0, 100, MOST_STEPS);
    route(&store, 0, 100, 1);
    route(&store, 0, 200, MOST_STEPS);

    change(&mut store, 200, BLOCKED);
    change(&mut store, 49, BLOCKED);
    list_windows(&store, 0);
    route(&store, 0, 100, MOST_STEPS);

    // The changed floor goes home as a file, and is read back.
    let mut room = [0; MOST_FILE_BYTES];
    assert_eq!(write_file(&store, &mut room[..7]), Err(Refusal(29)));
    let mut store = build(write_file(&store, &mut room)?)?;
    route(&store, 0, 100, MOST_STEPS);
    change(&mut store, 100, BLOCKED);
    route(&store, 0, 100, MOST_STEPS);
    Ok(())
}
