//! What is wrong with a drawing, and where.

use std::fmt;

/// Line and column count from 1; a column is a character.
#[derive(Debug, Clone, PartialEq, Eq)]
pub struct Problem {
    pub line: usize,
    pub column: usize,
    pub text: String,
}

impl Problem {
    /// As the result that a reader stops with.
    pub fn at<T>(line: usize, column: usize, text: impl Into<String>) -> Result<T, Problem> {
        Err(Problem {
            line,
            column,
            text: text.into(),
        })
    }
}

impl fmt::Display for Problem {
    fn fmt(&self, f: &mut fmt::Formatter) -> fmt::Result {
        write!(
            f,
            "line {}, column {}: {}",
            self.line, self.column, self.text
        )
    }
}
