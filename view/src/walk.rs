//! A way to drive a card: the cells from the source over the midpoints to the goal.

use std::collections::{BTreeMap, VecDeque};

use crate::card::{Card, Step};
use crate::floor::{Place, sector_of};
use crate::hall::{Hall, over};

/// The cells from source to goal by the card's steps, each next one beside the one before.
/// Inside a sector it takes the fewest moves.
pub fn walk(hall: &Hall, card: &Card) -> Vec<Place> {
    if card.steps().is_empty() {
        return vec![];
    }
    let mut way = vec![hall.floor.place(card.source)];
    let mut before: Option<&Step> = None;
    for step in card.steps() {
        for place in stops(hall, before, step) {
            let from = way[way.len() - 1];
            way.extend(fewest_moves(hall, from, place).into_iter().skip(1));
        }
        before = Some(step);
    }
    way
}

/// The cells to pass on the way to a step's cell: those at the border between the two steps.
fn stops(hall: &Hall, before: Option<&Step>, step: &Step) -> Vec<Place> {
    let target = hall.place(step.sector, step.goal);
    let Some(before) = before.filter(|before| before.sector != step.sector) else {
        return vec![target];
    };
    // Most steps go over their own window.
    let left = hall.place(before.sector, before.goal);
    let crossed = before.window.map(|window| over(left, window.side));
    if let Some(entered) = crossed.filter(|place| sector_of(*place) == step.sector) {
        return vec![entered, target];
    }
    // After a first move between two windows of one sector, the next step has the window entered by.
    let entered = step.window.map(|window| over(target, window.side));
    match entered.filter(|place| sector_of(*place) == before.sector) {
        Some(place) => vec![place, target],
        None => vec![target],
    }
}

/// Cells of a walk with the fewest moves that stays in the sectors of its ends; both ends
/// alone where there is none.
fn fewest_moves(hall: &Hall, from: Place, to: Place) -> Vec<Place> {
    let sectors = [sector_of(from), sector_of(to)];
    let mut came_from = BTreeMap::from([(from, from)]);
    let mut queue = VecDeque::from([from]);
    while let Some(place) = queue.pop_front() {
        for next in hall.floor.beside(place) {
            let allowed = hall.is_open(next) && sectors.contains(&sector_of(next));
            if allowed && !came_from.contains_key(&next) {
                came_from.insert(next, place);
                queue.push_back(next);
            }
        }
    }
    if !came_from.contains_key(&to) {
        return vec![from, to];
    }
    let mut way = vec![to];
    let mut place = to;
    while place != from {
        place = came_from[&place];
        way.push(place);
    }
    way.reverse();
    way
}
