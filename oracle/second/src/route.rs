//! The route call.

use crate::cells::CELLS;
use crate::portals::{graph, Graph};
use crate::refusal::{accepted, refuse_if};
use crate::windows::Window;

/// Item 4: a sector, a goal index, and a window or none.
#[derive(Debug, Clone, Copy, PartialEq, Eq, Default)]
pub struct Step {
    pub column: u8,
    pub row: u8,
    pub goal: u8,
    pub window: Option<Window>,
}

/// "None" has number 0 and 0 steps; a refusal's other values are 0.
#[derive(Debug, Clone, Copy, PartialEq, Eq, Default)]
pub struct RouteAnswer {
    pub number: u8,
    pub steps: u32,
    pub leg: u32,
    pub run: u32,
}

struct Found {
    steps: Vec<Step>,
    leg: u32,
    run: u32,
}

#[derive(Clone, Copy)]
struct Pair {
    start: usize,
    end: usize,
    leg: u32,
    run: u32,
}

/// Route: the store check, then as on the graph of the store.
pub fn route(store: &[u8], source: usize, goal: usize, list: &mut [Step]) -> RouteAnswer {
    route_on(&graph(store), source, goal, list)
}

/// Route: refusals 23 to 25, none, or a route and its steps in the lent list.
pub fn route_on(graph: &Graph, source: usize, goal: usize, list: &mut [Step]) -> RouteAnswer {
    match answered(graph, source, goal, list.len()) {
        Err(number) => RouteAnswer {
            number,
            ..RouteAnswer::default()
        },
        Ok(None) => RouteAnswer::default(),
        Ok(Some(Found { steps, leg, run })) => {
            list[..steps.len()].copy_from_slice(&steps);
            RouteAnswer {
                number: 0,
                steps: steps.len() as u32,
                leg,
                run,
            }
        }
    }
}

fn answered(graph: &Graph, source: usize, goal: usize, room: usize) -> Result<Option<Found>, u8> {
    accepted(graph.refused)?;
    refuse_if(source >= graph.floor.cells(), 23)?;
    refuse_if(goal >= graph.floor.cells(), 24)?;
    let found = in_one_sector(graph, source, goal).or_else(|| over_portals(graph, source, goal));
    let steps = found.as_ref().map_or(0, |found| found.steps.len());
    refuse_if(steps > room, 25)?;
    Ok(found)
}

/// The goal joined to the source in its sector: one step, leg 0.
fn in_one_sector(graph: &Graph, source: usize, goal: usize) -> Option<Found> {
    if source / CELLS != goal / CELLS {
        return None;
    }
    let run = graph.moves_from(source)[goal % CELLS]?;
    Some(Found {
        steps: vec![last_step(graph, goal)],
        leg: 0,
        run,
    })
}

fn over_portals(graph: &Graph, source: usize, goal: usize) -> Option<Found> {
    let pair = best_pair(graph, source, goal)?;
    let path = graph.path(pair.start, pair.end)?;
    Some(Found {
        steps: steps_of(graph, &path, goal),
        leg: pair.leg,
        run: pair.run,
    })
}

/// Pairs go start by start; a later pair wins only if its run is less. The leg
/// does not count in the choice.
fn best_pair(graph: &Graph, source: usize, goal: usize) -> Option<Pair> {
    let ends = graph.joined(goal);
    let mut best: Option<Pair> = None;
    for (start, leg) in graph.joined(source) {
        for &(end, moves) in &ends {
            let Some(cost) = graph.path_cost(start, end) else {
                continue;
            };
            let run = cost + moves;
            if best.is_none_or(|best| run < best.run) {
                best = Some(Pair {
                    start,
                    end,
                    leg,
                    run,
                });
            }
        }
    }
    best
}

/// Position 0, each even position, and the last, which has the goal.
fn steps_of(graph: &Graph, path: &[usize], goal: usize) -> Vec<Step> {
    let before_last = &path[..path.len() - 1];
    let even = before_last.iter().step_by(2);
    let mut steps: Vec<Step> = even.map(|&portal| portal_step(graph, portal)).collect();
    steps.push(last_step(graph, goal));
    steps
}

fn portal_step(graph: &Graph, portal: usize) -> Step {
    let portal = graph.portals()[portal];
    let window = Some(portal.window);
    step_in(graph, portal.sector, portal.window.midpoint(), window)
}

fn last_step(graph: &Graph, goal: usize) -> Step {
    step_in(graph, goal / CELLS, goal % CELLS, None)
}

fn step_in(graph: &Graph, sector: usize, goal: usize, window: Option<Window>) -> Step {
    let (column, row) = graph.floor.sector_place(sector);
    Step {
        column: column as u8,
        row: row as u8,
        goal: goal as u8,
        window,
    }
}
