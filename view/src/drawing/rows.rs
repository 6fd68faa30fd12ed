//! The rows of a floor, and the source and goal marked in them.

use super::line::Line;
use crate::floor::{LENGTH, MOST_SECTORS, Place};
use crate::problem::Problem;
use crate::symbols;

/// A mark of the drawing: its place on the floor, and the line and column where it stands.
#[derive(Clone, Copy)]
struct Mark {
    place: Place,
    line: usize,
    column: usize,
}

/// The rows that have been read.
#[derive(Default)]
pub struct Rows {
    costs: Vec<Vec<u8>>,
    /// The line of the first row, and of the last.
    first_line: usize,
    last_line: usize,
    source: Option<Mark>,
    goal: Option<Mark>,
}

/// The whole sectors below a number of cells, and those above it.
fn sectors_around(cells: usize) -> String {
    let below = cells / LENGTH * LENGTH;
    match below {
        0 => LENGTH.to_string(),
        _ => format!("{below} or {}", below + LENGTH),
    }
}

impl Rows {
    /// Lines without cells stand above, below and between sectors.
    pub fn between_sectors(&self, line: Line, what: &str) -> Result<(), Problem> {
        let rows = self.costs.len() % LENGTH;
        if rows == 0 {
            return Ok(());
        }
        let text = format!("{what} inside a sector, after {rows} of its 10 rows");
        line.problem_at(1, text)
    }

    /// Settings stand above the floor.
    pub fn above_floor(&self, line: Line) -> Result<(), Problem> {
        if self.costs.is_empty() {
            return Ok(());
        }
        let text = format!(
            "settings stand above the floor, which began in line {}",
            self.first_line
        );
        line.problem_at(1, text)
    }

    /// Reads a row, with the cost of each character.
    pub fn row(&mut self, line: Line, cost: impl Fn(char) -> Option<u8>) -> Result<(), Problem> {
        if self.costs.len() == MOST_SECTORS * LENGTH {
            return line.problem_at(1, "row 101: a floor has at most 10 sectors down, 100 rows");
        }
        let mut cells = vec![];
        for (column, symbol) in (1..).zip(line.text.chars()) {
            if "| ".contains(symbol) {
                ruling_in_row(line, column, symbol, cells.len())?;
                continue;
            }
            self.check_width(line, column, cells.len())?;
            self.mark(symbol, line, column, cells.len())?;
            match cost(symbol) {
                Some(cost) => cells.push(cost),
                None => return line.problem_at(column, unknown(symbol)),
            }
        }
        self.check_end(line, cells.len())?;
        if self.costs.is_empty() {
            self.first_line = line.number;
        }
        self.last_line = line.number;
        self.costs.push(cells);
        Ok(())
    }

    /// Whether a row may have one more cell.
    fn check_width(&self, line: Line, column: usize, cells: usize) -> Result<(), Problem> {
        if let Some(first) = self.costs.first().filter(|first| cells == first.len()) {
            let text = format!(
                "the row goes on after {} cells, which the first row has (line {})",
                first.len(),
                self.first_line
            );
            return line.problem_at(column, text);
        }
        if cells == MOST_SECTORS * LENGTH {
            let text = "cell 101: a floor has at most 10 sectors across, 100 cells";
            return line.problem_at(column, text);
        }
        Ok(())
    }

    /// Whether a row may end with so many cells.
    fn check_end(&self, line: Line, cells: usize) -> Result<(), Problem> {
        if let Some(first) = self.costs.first().filter(|first| cells < first.len()) {
            let text = format!(
                "the row ends after {cells} cells, the first row (line {}) has {}",
                self.first_line,
                first.len()
            );
            return line.problem_at(line.end(), text);
        }
        if !cells.is_multiple_of(LENGTH) {
            let text = format!(
                "the row ends after {cells} cells: a row is whole sectors of 10, so {}",
                sectors_around(cells)
            );
            return line.problem_at(line.end(), text);
        }
        Ok(())
    }

    /// Keeps a source or goal; there is one of each.
    fn mark(&mut self, symbol: char, line: Line, column: usize, x: usize) -> Result<(), Problem> {
        let place = (x, self.costs.len());
        let mark = match symbol {
            symbols::SOURCE => &mut self.source,
            symbols::GOAL => &mut self.goal,
            _ => return Ok(()),
        };
        if let Some(first) = mark {
            let text = format!(
                "a second {symbol}: the first stands in line {}, column {}",
                first.line, first.column
            );
            return line.problem_at(column, text);
        }
        *mark = Some(Mark {
            place,
            line: line.number,
            column,
        });
        Ok(())
    }

    /// The rows, if they are whole sectors; there may be none.
    pub fn whole(&self) -> Result<&[Vec<u8>], Problem> {
        let rows = self.costs.len();
        if !rows.is_multiple_of(LENGTH) {
            let text = format!(
                "the floor ends after {rows} rows: it is whole sectors of 10, so {}",
                sectors_around(rows)
            );
            return Problem::at(self.last_line, 1, text);
        }
        Ok(&self.costs)
    }

    /// The marked source and goal; there are both or neither.
    pub fn ends(&self) -> Result<Option<(Place, Place)>, Problem> {
        match (self.source, self.goal) {
            (Some(source), Some(goal)) => Ok(Some((source.place, goal.place))),
            (None, None) => Ok(None),
            (Some(mark), None) => Problem::at(mark.line, mark.column, "an S without a G"),
            (None, Some(mark)) => Problem::at(mark.line, mark.column, "a G without an S"),
        }
    }
}

/// `|` and spaces may stand between the sectors of a row.
fn ruling_in_row(line: Line, column: usize, symbol: char, cells: usize) -> Result<(), Problem> {
    if cells.is_multiple_of(LENGTH) {
        return Ok(());
    }
    let what = if symbol == '|' { "a `|`" } else { "a space" };
    let text = format!(
        "{what} inside a sector, after {} of its 10 cells",
        cells % LENGTH
    );
    line.problem_at(column, text)
}

fn unknown(symbol: char) -> String {
    if symbol == '\t' {
        return "a tab: draw each cell, and use spaces between sectors".to_string();
    }
    format!(
        "no cell is drawn as `{symbol}`: cells are # . 0 to 9 S G, and what a legend above the floor names"
    )
}
