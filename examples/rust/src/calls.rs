//! The calls on lent memory, with what they accept apart from what they refuse.

use crate::bytes::{self, MeasuresAnswer};
use crate::entries::lent;
use crate::{Dimensions, Measures, Refusal, Routed, Step, Window};

fn accepted(number: u8) -> Result<(), Refusal> {
    match number {
        0 => Ok(()),
        number => Err(Refusal(number)),
    }
}

fn measured(answer: MeasuresAnswer) -> Result<Measures, Refusal> {
    accepted(answer.number)?;
    Ok(Measures {
        columns: answer.columns,
        rows: answer.rows,
        scale: answer.scale,
    })
}

/// A hall's measures from its dimensions.
pub fn plan(d: Dimensions) -> Result<Measures, Refusal> {
    measured(bytes::plan([d.size_x, d.size_y, d.unit, d.radius]))
}

/// Fills a list of base costs from a hall file, which names each cell at most once.
pub fn read_file(file: &[u8], base: &mut [u8]) -> Result<Measures, Refusal> {
    measured(bytes::read_file(file, base))
}

/// Builds a hall in a store.
pub fn build(measures: Measures, base: &[u8], store: &mut [u8]) -> Result<(), Refusal> {
    let measures = [measures.columns, measures.rows, measures.scale];
    accepted(bytes::build(measures, base, store))
}

/// Whether change, route, windows and write file take a store.
pub fn check_store(store: &[u8]) -> Result<(), Refusal> {
    accepted(bytes::check_store(store))
}

/// Gives a cell a base cost.
pub fn change(store: &mut [u8], floor_number: usize, cost: u8) -> Result<(), Refusal> {
    accepted(bytes::change(store, floor_number, cost))
}

/// Finds the route from one cell to another.
pub fn route<'a>(
    store: &[u8],
    source: usize,
    goal: usize,
    list: &'a mut [Step],
) -> Result<Routed<'a>, Refusal> {
    let answer = bytes::route(store, source, goal, lent(list));
    accepted(answer.number)?;
    if answer.steps == 0 {
        return Ok(Routed::NoRoute);
    }
    Ok(Routed::Route {
        steps: &list[..answer.steps as usize],
        leg: answer.leg,
        run: answer.run,
    })
}

/// Lists the windows of a sector, N, E, S, W.
pub fn windows<'a>(
    store: &[u8],
    sector: usize,
    list: &'a mut [Window],
) -> Result<&'a [Window], Refusal> {
    let answer = bytes::windows(store, sector, lent(list));
    accepted(answer.number)?;
    Ok(&list[..usize::from(answer.count)])
}

/// Writes the hall file of a store's floor, and gives it as the front of the lent bytes.
pub fn write_file<'a>(store: &[u8], file: &'a mut [u8]) -> Result<&'a [u8], Refusal> {
    let answer = bytes::write_file(store, file);
    accepted(answer.number)?;
    Ok(&file[..answer.length as usize])
}
