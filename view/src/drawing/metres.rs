//! The line of a drawing that plans its hall in metres.

use super::line::Line;
use crate::plan::{Plan, Trolley};
use crate::problem::Problem;

const FORM: &str = "a plan is two sizes, the unit, and the trolley's width or radius: \
    `metres 30 20 unit 1 width 1.8`";

/// `metres 30 20 unit 1 width 1.8`, or `radius 0.9` in place of the width.
pub fn read(line: Line) -> Result<Plan, Problem> {
    let words = line.words();
    let [_, x, y, unit_name, unit, name, trolley] = words[..] else {
        return line.problem_at(1, FORM);
    };
    let form: fn(f32) -> Trolley = match (unit_name, name) {
        ("unit", "radius") => Trolley::Radius,
        ("unit", "width") => Trolley::Width,
        _ => return line.problem_at(1, FORM),
    };
    Ok(Plan {
        sizes: [number(line, x)?, number(line, y)?],
        unit: number(line, unit)?,
        trolley: form(number(line, trolley)?),
    })
}

fn number(line: Line, word: &str) -> Result<f32, Problem> {
    word.parse().or_else(|_| {
        let text = format!("`{word}` is not a number such as 1.8");
        line.problem(word, text)
    })
}
