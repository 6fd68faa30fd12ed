//! Marks of a route: the numbers of its steps, source and goal.

use super::colours::{END, PAPER, ROUTE};
use super::numbers::{Numbers, towards};
use super::shapes::{Attributes, Cover, Point, SANS_WIDTH, centred, circle, line, rect};
use super::sheet::{CELL, Sheet};
use crate::card::{Card, End, Step};
use crate::hall::Window;

/// How far a step's number stands off its window, so that both are seen; and how far if a
/// cost stands in the cell too.
const CLEAR: f64 = CELL * 0.2;
const CLEAR_BY_COST: f64 = CELL * 0.14;

/// Source and goal, and the steps around them, as elements that lie above all else. Lines to
/// numbers that had to step aside are drawn. The last step is the goal.
pub fn marks(sheet: &mut Sheet, card: &Card, numbers: &Numbers) -> Vec<String> {
    let ends = ends(sheet, card, numbers);
    let mut covered: Vec<Cover> = ends.iter().map(|(cover, _)| *cover).collect();
    covered.extend(numbers.covers(sheet));
    let ends = ends.iter();
    let mut marks: Vec<String> = ends
        .map(|(cover, letter)| end(cover.at, cover.reach.0, *letter))
        .collect();
    for (number, step) in (1..).zip(card.steps()) {
        if let Some(window) = step.window {
            marks.push(place(sheet, numbers, &mut covered, (number, step, window)));
        }
    }
    marks
}

fn ends(sheet: &Sheet, card: &Card, numbers: &Numbers) -> Vec<(Cover, char)> {
    let cover = |marked: &End| {
        let (x, y) = sheet.centre(marked.place);
        let (half, at) = if numbers.has(marked.place) {
            (CELL * 0.28, (x, y - CELL * 0.18))
        } else {
            let half = (CELL * 0.36).max(sheet.text * 0.42);
            (half, sheet.on_floor((x, y), (half, half)))
        };
        let reach = (half, half);
        (Cover { at, reach }, marked.letter)
    };
    card.ends(sheet.hall).iter().map(cover).collect()
}

/// The number of a step beside its window, or a little farther off if something is there; a
/// dot if there is no room. A line leads to a number that is not in its cell.
fn place(
    sheet: &mut Sheet,
    numbers: &Numbers,
    covered: &mut Vec<Cover>,
    (number, step, window): (usize, &Step, Window),
) -> String {
    let place = sheet.hall.place(step.sector, step.goal);
    let centre = sheet.centre(place);
    let radius = match numbers.has(place) {
        true => CELL * 0.24,
        false => (CELL * 0.36).max(sheet.text * 0.5),
    };
    let reach = (half_width(number, radius), radius);
    let spots = spots(centre, window, reach, numbers.has(place)).into_iter();
    let covers = spots.map(|at| Cover {
        at: sheet.on_floor(at, reach),
        reach,
    });
    let mut free = covers.filter(|cover| !covered.iter().any(|other| cover.overlaps(*other)));
    let Some(cover) = free.next() else {
        return circle(centre, CELL * 0.28, &[("fill", &ROUTE)]);
    };
    let (x, y) = cover.at;
    if (x - centre.0).abs() > reach.0 || (y - centre.1).abs() > reach.1 {
        let list: &Attributes = &[("stroke", &ROUTE), ("stroke-width", &1.2)];
        sheet.add(line(&[centre, cover.at], list));
    }
    covered.push(cover);
    badge(cover.at, number, radius)
}

/// Where a number may stand: off its window by its own size, then farther off and to the sides.
fn spots((x, y): Point, window: Window, reach: Point, has_number: bool) -> Vec<Point> {
    let (right, down) = towards(window.side);
    let inward = right.abs() * reach.0 + down.abs() * reach.1;
    let clear = if has_number { CLEAR_BY_COST } else { CLEAR };
    let off = CELL / 2.0 - clear - inward;
    // A cost stands in the south of such a cell, but for one with a window there.
    let aside = if has_number && down == 0.0 {
        -CELL * 0.16
    } else {
        0.0
    };
    let near = (x + right * off, y + down * off + aside);
    let mut spots = vec![near];
    for far in [0.0, 2.2, 4.4] {
        for side in [0.0, 2.2, -2.2, 4.4, -4.4] {
            spots.push((
                near.0 - right * far * reach.0 + down * side * reach.0,
                near.1 - down * far * reach.1 + right * side * reach.1,
            ));
        }
    }
    spots
}

/// Half the width of a step's number: round, or longer for a long number.
fn half_width(number: usize, radius: f64) -> f64 {
    let digits = number.to_string().len() as f64;
    radius.max((digits * SANS_WIDTH * radius * 1.25 + radius * 0.6) / 2.0)
}

/// The number of a step.
pub fn badge((x, y): Point, number: usize, radius: f64) -> String {
    let half = half_width(number, radius);
    let list: &Attributes = &[
        ("rx", &radius),
        ("fill", &ROUTE),
        ("stroke", &PAPER),
        ("stroke-width", &1),
    ];
    rect((x - half, y - radius), (2.0 * half, 2.0 * radius), list)
        + &centred((x, y), &number.to_string(), radius * 1.25, PAPER)
}

/// Source or goal.
pub fn end((x, y): Point, half: f64, letter: char) -> String {
    let list: &Attributes = &[
        ("rx", &(half * 0.35)),
        ("fill", &END),
        ("stroke", &PAPER),
        ("stroke-width", &1),
    ];
    rect((x - half, y - half), (2.0 * half, 2.0 * half), list)
        + &centred((x, y), &letter.to_string(), half * 1.4, PAPER)
}
