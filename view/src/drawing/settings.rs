//! The settings above a floor: scale and width or a plan in metres, pairs, and the legend.

use std::ops::RangeInclusive;

use proved::Measures;

use super::line::Line;
use super::metres;
use crate::floor::{Floor, LENGTH, MOST_SECTORS};
use crate::plan::Plan;
use crate::problem::Problem;
use crate::symbols;

/// A number, and the line that it stands in.
type Stated = Option<(usize, usize)>;

/// What has been read of the settings.
#[derive(Default)]
pub struct Settings<'a> {
    scale: Stated,
    width: Stated,
    metres: Option<Planned>,
    /// Lines that name a pair. Their cells are looked for when the floor is known.
    pairs: Vec<Line<'a>>,
    /// Character, cost and line of each entry.
    legend: Vec<(char, u8, usize)>,
}

/// A plan, what it comes to, and the line that it stands in.
#[derive(Clone, Copy)]
pub struct Planned {
    pub plan: Plan,
    pub measures: Measures,
    pub line: usize,
}

impl Planned {
    /// Cells across and down.
    pub fn cells(self) -> (usize, usize) {
        let cells = |sectors: u8| usize::from(sectors) * LENGTH;
        (cells(self.measures.columns), cells(self.measures.rows))
    }
}

impl<'a> Settings<'a> {
    /// Reads a line if it begins with the name of a setting or holds a `=`, and says whether it did.
    pub fn read(&mut self, line: Line<'a>) -> Result<bool, Problem> {
        match line.words().first().copied() {
            Some("scale") => number(line, &mut self.scale, 1..=9)?,
            Some("width") => number(line, &mut self.width, 1..=MOST_SECTORS * LENGTH)?,
            Some("metres") => self.plan(line)?,
            Some("pair") => self.pairs.push(line),
            Some(_) if line.text.contains('=') => self.entry(line)?,
            _ => return Ok(false),
        }
        self.one_source_of_scale(line)?;
        Ok(true)
    }

    fn plan(&mut self, line: Line) -> Result<(), Problem> {
        if let Some(before) = self.metres {
            let text = format!("a second plan: line {} has one", before.line);
            return line.problem_at(1, text);
        }
        let plan = metres::read(line)?;
        match plan.measures() {
            Err(text) => line.problem_at(1, text),
            Ok(measures) => {
                self.metres = Some(Planned {
                    plan,
                    measures,
                    line: line.number,
                });
                Ok(())
            }
        }
    }

    /// A plan gives the scale and the trolley's width, so nothing else may.
    fn one_source_of_scale(&self, line: Line) -> Result<(), Problem> {
        let stated = [(self.scale, "scale"), (self.width, "width")];
        match stated.into_iter().find(|(stated, _)| stated.is_some()) {
            Some((Some((_, stands)), name)) if self.metres.is_some() => {
                let text = format!("`metres` gives the {name}: leave out line {stands}");
                line.problem_at(1, text)
            }
            _ => Ok(()),
        }
    }

    /// A line that has a word and something behind it, and is no row, is meant as a setting.
    pub fn refuse_unknown(&self, line: Line) -> Result<(), Problem> {
        let words = line.words();
        let letters = words[0].chars().all(char::is_alphabetic);
        let mut cells = line.text.chars().filter(|c| !"| \t".contains(*c));
        let is_meant = letters && words[0].len() > 1 && words.len() > 1;
        if !is_meant || cells.all(|c| self.cost(c).is_some()) {
            return Ok(());
        }
        let text = format!(
            "no setting is called `{}`: there are `scale`, `width`, `metres`, `pair` and legends such as `~ = 40`",
            words[0]
        );
        line.problem(words[0], text)
    }

    /// The cost of a cell drawn with a character.
    pub fn cost(&self, symbol: char) -> Option<u8> {
        let named = self.legend.iter().find(|entry| entry.0 == symbol);
        symbols::fixed_cost(symbol).or(named.map(|entry| entry.1))
    }

    pub fn planned(&self) -> Option<Planned> {
        self.metres
    }

    pub fn scale(&self) -> u8 {
        let stated = self.scale.map_or(1, |(scale, _)| scale as u8);
        self.metres.map_or(stated, |metres| metres.measures.scale)
    }

    /// The trolley's width in cells.
    pub fn width(&self) -> Option<usize> {
        self.width.map(|(width, _)| width)
    }

    /// The pairs by floor number.
    pub fn pairs(&self, floor: &Floor) -> Result<Vec<(usize, usize)>, Problem> {
        let pairs = self.pairs.iter();
        pairs.map(|line| pair(*line, floor)).collect()
    }

    pub fn legend(&self) -> Vec<(char, u8)> {
        let entries = self.legend.iter();
        entries.map(|(symbol, cost, _)| (*symbol, *cost)).collect()
    }

    /// One character, `=` and its cost.
    fn entry(&mut self, line: Line) -> Result<(), Problem> {
        let (name, cost) = line.text.split_once('=').unwrap_or((line.text, ""));
        let (name, cost) = (name.trim(), cost.trim());
        let mut characters = name.chars();
        let (Some(symbol), None) = (characters.next(), characters.next()) else {
            let text = format!("left of `=` stands one character, not `{name}`");
            let at = if name.is_empty() { line.text } else { name };
            return line.problem(at, text);
        };
        if symbols::is_taken(symbol) {
            return line.problem(name, format!("`{symbol}` has a meaning already"));
        }
        if symbols::is_own(symbol) {
            let text = format!("hallview draws with `{symbol}` itself: take another character");
            return line.problem(name, text);
        }
        if let Some((_, _, before)) = self.legend.iter().find(|entry| entry.0 == symbol) {
            let text = format!("`{symbol}` has a cost already, in line {before}");
            return line.problem(name, text);
        }
        let cost = legend_cost(line, cost)?;
        self.legend.push((symbol, cost, line.number));
        Ok(())
    }
}

/// A setting that is one number.
fn number(line: Line, stated: &mut Stated, range: RangeInclusive<usize>) -> Result<(), Problem> {
    let words = line.words();
    let (name, from, to) = (words[0], range.start(), range.end());
    if let Some((_, before)) = stated {
        let text = format!("a second {name}: line {before} has one");
        return line.problem_at(1, text);
    }
    let [_, given] = words[..] else {
        let text = format!("after `{name}` stands one number, {from} to {to}");
        return match words.get(2) {
            Some(word) => line.problem(word, text),
            None => line.problem_at(line.end(), text),
        };
    };
    match given.parse().ok().filter(|number| range.contains(number)) {
        Some(number) => *stated = Some((number, line.number)),
        None => {
            let text = format!("{name} `{given}` is not a whole number from {from} to {to}");
            return line.problem(given, text);
        }
    }
    Ok(())
}

/// `pair`, a source and a goal.
fn pair(line: Line, floor: &Floor) -> Result<(usize, usize), Problem> {
    let words = line.words();
    let [_, source, goal] = words[..] else {
        let text = "after `pair` stand a source and a goal, as in `pair 1,1 8,8`";
        return line.problem_at(1, text);
    };
    let number = |word: &str| floor.named(word).or_else(|text| line.problem(word, text));
    Ok((number(source)?, number(goal)?))
}

fn legend_cost(line: Line, cost: &str) -> Result<u8, Problem> {
    if cost.is_empty() {
        return line.problem_at(line.end(), "right of `=` stands a cost, 0 to 254");
    }
    match cost.parse() {
        Ok(255) => line.problem(cost, "255 is blocked: draw it as `#`"),
        Ok(cost @ 0..=254) => Ok(cost),
        _ => {
            let text = format!("cost `{cost}` is not a whole number from 0 to 254");
            line.problem(cost, text)
        }
    }
}
