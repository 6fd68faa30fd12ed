//! The program `hallroute`: a hall file and pairs in, a listing out.

use crate::build::build;
use crate::file::{check_file, file_length, read_file, u16_at};
use crate::portals::{graph, Graph};
use crate::refusal::accepted;
use crate::route::{route_on, Step};
use crate::store::store_size;

/// The most bytes the program reads.
pub const MOST_BYTES: usize = 65_536;
/// The most steps its list holds.
const MOST_STEPS: usize = 1_001;
/// Bytes of a source and a goal.
const PAIR: usize = 4;

/// The whole standard output for an input; lines end in \n.
pub fn hallroute(input: &[u8]) -> Vec<u8> {
    listing(input).into_bytes()
}

fn listing(input: &[u8]) -> String {
    if input.len() > MOST_BYTES {
        return "too long\n".to_string();
    }
    let (file, pairs) = input.split_at(file_length(input));
    match store_of(file) {
        Ok(store) => pair_lines(&graph(&store), pairs),
        Err(number) => format!("hall refused {number}\n"),
    }
}

/// The store that the file's hall is built in.
fn store_of(file: &[u8]) -> Result<Vec<u8>, u8> {
    let floor = check_file(file)?;
    let mut base = vec![0; floor.cells()];
    let hall = read_file(file, &mut base);
    accepted(hall.number)?;
    let mut store = vec![0; store_size(floor)];
    accepted(build(
        hall.columns,
        hall.rows,
        hall.scale,
        &base,
        &mut store,
    ))?;
    Ok(store)
}

/// A line a pair, and `cut` for 1 to 3 spare bytes.
fn pair_lines(graph: &Graph, bytes: &[u8]) -> String {
    let pairs = bytes.chunks_exact(PAIR);
    let spare = pairs.remainder();
    let mut lines: String = pairs
        .map(|pair| pair_line(graph, u16_at(pair, 0), u16_at(pair, 2)))
        .collect();
    if !spare.is_empty() {
        lines.push_str("cut\n");
    }
    lines
}

fn pair_line(graph: &Graph, source: u16, goal: u16) -> String {
    let mut list = [Step::default(); MOST_STEPS];
    let answer = route_on(graph, source.into(), goal.into(), &mut list);
    if answer.number != 0 {
        return format!("{source} {goal} no {}\n", answer.number);
    }
    if answer.steps == 0 {
        return format!("{source} {goal} none\n");
    }
    let taken = &list[..answer.steps as usize];
    let steps: String = taken.iter().map(step_text).collect();
    let (count, leg, run) = (answer.steps, answer.leg, answer.run);
    format!("{source} {goal} {count} {leg} {run}{steps}\n")
}

/// Column,row:goal index, side letter and first-last index, or `-`.
fn step_text(step: &Step) -> String {
    let window = match step.window {
        Some(window) => {
            let side = ['N', 'E', 'S', 'W'][usize::from(window.side)];
            format!("{side}{}-{}", window.first, window.last)
        }
        None => "-".to_string(),
    };
    format!(" {},{}:{}{window}", step.column, step.row, step.goal)
}
