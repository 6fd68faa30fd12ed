//! A router as a program: calls as lines of text, and the program `hallroute`.

use std::io::{self, BufRead, Read, Write};

use calls::{Router, Step, Window};
use second::lines::{Call, line, numbers};

/// The line with a router's answer to a call.
fn answer(router: &dyn Router, call: Call) -> String {
    match call {
        Call::Plan(values) => {
            let a = router.plan(values);
            numbers([a.number, a.columns, a.rows, a.scale])
        }
        Call::File { file, mut base } => {
            let a = router.read_file(&file, &mut base);
            line([a.number, a.columns, a.rows, a.scale], &base)
        }
        Call::Build {
            measures,
            base,
            mut store,
        } => {
            let number = router.build(measures, &base, &mut store);
            line([number], &store)
        }
        Call::Change {
            mut store,
            cell,
            cost,
        } => {
            let number = router.change(&mut store, cell, cost);
            line([number], &store)
        }
        Call::Windows {
            store,
            sector,
            mut list,
        } => {
            let call = |windows: &mut [Window]| router.windows(&store, sector, windows);
            let a = with_entries(&mut list, Window::from_bytes, Window::bytes, call);
            line([a.number, a.count], &list)
        }
        Call::Route {
            store,
            source,
            goal,
            mut list,
        } => {
            let call = |steps: &mut [Step]| router.route(&store, source, goal, steps);
            let a = with_entries(&mut list, Step::from_bytes, Step::bytes, call);
            line([a.number.into(), a.steps, a.leg, a.run], &list)
        }
        Call::Write { store, mut file } => {
            let a = router.write_file(&store, &mut file);
            line([a.number.into(), a.length], &file)
        }
    }
}

/// Lends a list of bytes as its entries, `N` bytes each, and takes back what the call left.
fn with_entries<E, const N: usize, T>(
    list: &mut [u8],
    entry: impl Fn([u8; N]) -> E,
    bytes: impl Fn(&E) -> [u8; N],
    call: impl FnOnce(&mut [E]) -> T,
) -> T {
    let (places, _) = list.as_chunks_mut();
    let mut entries: Vec<E> = places.iter().map(|place| entry(*place)).collect();
    let answer = call(&mut entries);
    for (place, entry) in places.iter_mut().zip(&entries) {
        *place = bytes(entry);
    }
    answer
}

/// Answers each line of standard input.
pub fn lines(router: &dyn Router) -> io::Result<()> {
    let mut output = io::stdout().lock();
    for line in io::stdin().lock().lines() {
        let call = Call::of(&line?);
        let answer = call.map_or("no call".into(), |call| answer(router, call));
        writeln!(output, "{answer}")?;
        output.flush()?;
    }
    Ok(())
}

/// Standard input to standard output, as the program does.
pub fn hallroute(router: &dyn Router) -> io::Result<()> {
    let mut input = vec![];
    io::stdin().read_to_end(&mut input)?;
    io::stdout().write_all(&router.hallroute(&input))
}
