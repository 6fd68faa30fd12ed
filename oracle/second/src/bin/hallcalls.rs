//! Program `hallcalls`: answers the calls of 01 and 02, a line for each line.

use second::lines::{line, numbers, Call};
use second::{Step, Window};
use std::io::{self, BufRead, Write};

/// The line that answers a call.
fn answer(call: Call) -> String {
    match call {
        Call::Plan([size_x, size_y, unit, radius]) => {
            let a = second::plan(size_x, size_y, unit, radius);
            numbers([a.number, a.columns, a.rows, a.scale])
        }
        Call::File { file, mut base } => {
            let a = second::read_file(&file, &mut base);
            line([a.number, a.columns, a.rows, a.scale], &base)
        }
        Call::Build {
            measures: [columns, rows, scale],
            base,
            mut store,
        } => {
            let number = second::build(columns, rows, scale, &base, &mut store);
            line([number], &store)
        }
        Call::Change {
            mut store,
            cell,
            cost,
        } => {
            let number = second::change(&mut store, cell, cost);
            line([number], &store)
        }
        Call::Windows {
            store,
            sector,
            mut list,
        } => {
            let count = windows(&store, sector, &mut list);
            line(count, &list)
        }
        Call::Route {
            store,
            source,
            goal,
            mut list,
        } => {
            let routed = route(&store, source, goal, &mut list);
            line(routed, &list)
        }
        Call::Write { store, mut file } => {
            let a = second::write_file(&store, &mut file);
            line([a.number.into(), a.length], &file)
        }
    }
}

fn windows(store: &[u8], sector: usize, list: &mut [u8]) -> [u8; 2] {
    let entries = list.chunks_exact(3);
    let mut windows: Vec<Window> = entries.map(|e| window(e[0], e[1], e[2])).collect();
    let answer = second::windows(store, sector, &mut windows);
    for (entry, w) in list.chunks_exact_mut(3).zip(windows) {
        entry.copy_from_slice(&[w.first, w.last, w.side]);
    }
    [answer.number, answer.count]
}

fn route(store: &[u8], source: usize, goal: usize, list: &mut [u8]) -> [u32; 4] {
    let mut steps: Vec<Step> = list.chunks_exact(6).map(step).collect();
    let answer = second::route(store, source, goal, &mut steps);
    for (entry, step) in list.chunks_exact_mut(6).zip(steps) {
        let window = step.window.map_or([4, 0, 0], |w| [w.side, w.first, w.last]);
        entry[..3].copy_from_slice(&[step.column, step.row, step.goal]);
        entry[3..].copy_from_slice(&window);
    }
    [answer.number.into(), answer.steps, answer.leg, answer.run]
}

fn window(first: u8, last: u8, side: u8) -> Window {
    Window { first, last, side }
}

/// No window is 4, 0, 0: other bytes of a lent list must come back as they were.
fn step(entry: &[u8]) -> Step {
    Step {
        column: entry[0],
        row: entry[1],
        goal: entry[2],
        window: (entry[3..] != [4, 0, 0]).then(|| window(entry[4], entry[5], entry[3])),
    }
}

fn main() -> io::Result<()> {
    let mut output = io::stdout().lock();
    for line in io::stdin().lock().lines() {
        let answer = Call::of(&line?).map_or("no call".to_string(), answer);
        writeln!(output, "{answer}")?;
        output.flush()?;
    }
    Ok(())
}
