//! A line of a drawing, which knows where its parts stand.

use crate::characters::{code, fills_one_column};
use crate::problem::Problem;

/// Lines and columns count from 1; a column is a character.
#[derive(Clone, Copy)]
pub struct Line<'a> {
    pub number: usize,
    pub text: &'a str,
}

impl<'a> Line<'a> {
    pub fn words(&self) -> Vec<&'a str> {
        self.text.split_whitespace().collect()
    }

    /// Lines that begin with two slashes are remarks.
    pub fn is_remark(&self) -> bool {
        self.text.trim_start().starts_with("//")
    }

    /// Whether the line has only characters that a drawing may have. A remark may have any
    /// that can be shown.
    pub fn check_characters(&self) -> Result<(), Problem> {
        for (column, character) in (1..).zip(self.text.chars()) {
            if character.is_control() && character != '\t' {
                let text = format!(
                    "the control character {}: a drawing is plain text (the name of a hall file ends in .hall)",
                    code(character)
                );
                return self.problem_at(column, text);
            }
            let is_plain = character == '\t' || fills_one_column(character);
            if !is_plain && !self.is_remark() {
                let text = format!(
                    "the character {} may not fill one column of a terminal: a drawing has printable ASCII, and Latin, Greek and Cyrillic letters",
                    code(character)
                );
                return self.problem_at(column, text);
            }
        }
        Ok(())
    }

    /// The column behind the last character.
    pub fn end(&self) -> usize {
        self.text.chars().count() + 1
    }

    /// What is wrong at a column.
    pub fn problem_at<T>(&self, column: usize, text: impl Into<String>) -> Result<T, Problem> {
        Problem::at(self.number, column, text)
    }

    /// What is wrong with a part of the line.
    pub fn problem<T>(&self, part: &str, text: impl Into<String>) -> Result<T, Problem> {
        let before = part.as_ptr() as usize - self.text.as_ptr() as usize;
        self.problem_at(self.text[..before].chars().count() + 1, text)
    }
}
