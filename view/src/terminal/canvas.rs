//! The characters of a floor, drawn one over the other.

use std::collections::BTreeMap;
use std::iter::repeat;

use crate::card::Card;
use crate::changes::Change;
use crate::floor::{BLOCKED, LENGTH, Place, UNNAMED};
use crate::hall::{Hall, over};
use crate::no_route::NoRoute;
use crate::symbols::{
    self, BLOCKED_SIGN, CLOSED_SIGN, CLOSING_SIGN, FIRST_STEPS, LATER_STEP, LEVEL_WINDOW, MIDPOINT,
    OPEN_SIGN, REACHED_SIGN, UPRIGHT_WINDOW,
};

/// Characters left of the floor, and lines above it.
const LEFT: usize = 4;
const TOP: usize = 2;
/// The most columns of sectors that are drawn with two characters a cell.
const WIDE_COLUMNS: usize = 3;

/// What a character shows, which decides its colour.
#[derive(Clone, Copy, PartialEq, Eq)]
enum Ink {
    Plain,
    Faint,
    Window,
    Way,
    End,
    Changed,
}

impl Ink {
    /// The terminal's code for it.
    fn code(self) -> &'static str {
        match self {
            Ink::Plain => "0",
            Ink::Faint => "2",
            Ink::Window => "36",
            Ink::Way => "31",
            Ink::End => "1;34",
            Ink::Changed => "1;35",
        }
    }
}

/// Characters by line and column.
pub struct Canvas<'a> {
    hall: &'a Hall,
    /// Characters of a cell.
    wide: usize,
    lines: Vec<Vec<(char, Ink)>>,
}

impl Canvas<'_> {
    pub fn empty(hall: &Hall) -> Canvas<'_> {
        let wide = if hall.floor.columns <= WIDE_COLUMNS {
            2
        } else {
            1
        };
        let width = LEFT + 1 + hall.floor.columns * (LENGTH * wide + 1);
        let height = TOP + 1 + hall.floor.rows * (LENGTH + 1);
        Canvas {
            hall,
            wide,
            lines: vec![vec![(' ', Ink::Plain); width]; height],
        }
    }

    fn put(&mut self, line: usize, column: usize, character: char, ink: Ink) {
        self.lines[line][column] = (character, ink);
    }

    fn put_text(&mut self, line: usize, column: usize, text: &str) {
        for (column, character) in (column..).zip(text.chars()) {
            self.put(line, column, character, Ink::Faint);
        }
    }

    /// Line and column of a cell; borders stand between sectors.
    fn spot(&self, (x, y): Place) -> (usize, usize) {
        (
            TOP + 1 + y + y / LENGTH,
            LEFT + 1 + x * self.wide + x / LENGTH,
        )
    }

    fn put_cell(&mut self, place: Place, character: char, ink: Ink) {
        let (line, column) = self.spot(place);
        self.put(line, column, character, ink);
    }

    /// Columns and rows of sectors, and of the cells in each.
    pub fn scales(&mut self) {
        for x in 0..self.hall.floor.width() {
            let (_, column) = self.spot((x, 0));
            self.put_text(1, column, &(x % LENGTH).to_string());
            if x % LENGTH == 0 {
                self.put_text(0, column, &(x / LENGTH).to_string());
            }
        }
        for y in 0..self.hall.floor.height() {
            let (line, _) = self.spot((0, y));
            self.put_text(line, 3, &(y % LENGTH).to_string());
            if y % LENGTH == 0 {
                self.put_text(line, 1, &(y / LENGTH).to_string());
            }
        }
    }

    pub fn cells(&mut self) {
        let table = symbols::table(&self.hall.floor);
        for place in self.hall.floor.places() {
            let cost = self.hall.base(place);
            let (character, ink) = match cost {
                BLOCKED => (BLOCKED_SIGN, Ink::Plain),
                _ if self.hall.is_narrow(place) => (CLOSED_SIGN, Ink::Plain),
                UNNAMED => (OPEN_SIGN, Ink::Faint),
                _ => (symbols::symbol_of(&table, cost), Ink::Plain),
            };
            let (line, column) = self.spot(place);
            self.put(line, column, character, ink);
            if self.wide == 2 && [BLOCKED_SIGN, CLOSED_SIGN].contains(&character) {
                self.put(line, column + 1, character, ink);
            }
        }
    }

    /// The area that the source reaches.
    pub fn area(&mut self, no_route: &NoRoute) {
        for place in &no_route.reached {
            self.put_cell(*place, REACHED_SIGN, Ink::End);
        }
    }

    /// The cells that keep source and goal apart.
    pub fn closing(&mut self, no_route: &NoRoute) {
        for place in &no_route.closing {
            let (line, column) = self.spot(*place);
            for column in column..column + self.wide {
                self.put(line, column, CLOSING_SIGN, Ink::Way);
            }
        }
    }

    pub fn borders(&mut self) {
        let (columns, rows) = (self.hall.floor.columns, self.hall.floor.rows);
        let upright = |column| LEFT + column * (LENGTH * self.wide + 1);
        let level = |row| TOP + row * (LENGTH + 1);
        let (right, bottom) = (upright(columns), level(rows));
        let uprights: Vec<usize> = (0..=columns).map(upright).collect();
        let levels: Vec<usize> = (0..=rows).map(level).collect();
        for line in TOP..=bottom {
            uprights
                .iter()
                .for_each(|column| self.put(line, *column, '┃', Ink::Plain));
        }
        for line in &levels {
            for column in LEFT..=right {
                let over_upright = uprights.contains(&column);
                let joint = joint(
                    (column == LEFT, column == right),
                    (*line == TOP, *line == bottom),
                );
                self.put(
                    *line,
                    column,
                    if over_upright { joint } else { '━' },
                    Ink::Plain,
                );
            }
        }
        self.windows();
    }

    /// Open stretches of the borders. Windows face each other, so two sides of four are enough.
    fn windows(&mut self) {
        for (sector, window) in self.hall.all_windows() {
            let step = if window.side % 2 == 0 { 1 } else { LENGTH };
            for index in (window.first..=window.last).step_by(step) {
                let (line, column) = self.spot(self.hall.place(sector, index));
                match window.side {
                    1 => self.put(line, column + self.wide, UPRIGHT_WINDOW, Ink::Window),
                    2 => {
                        for column in column..column + self.wide {
                            self.put(line + 1, column, LEVEL_WINDOW, Ink::Window);
                        }
                    }
                    _ => {}
                }
            }
        }
    }

    pub fn midpoints(&mut self) {
        for (sector, window) in self.hall.all_windows() {
            let place = self.hall.place(sector, window.midpoint());
            self.put_cell(place, MIDPOINT, Ink::Window);
        }
    }

    /// Lines from cell to cell.
    pub fn way(&mut self, way: &[Place]) {
        let mut links = BTreeMap::new();
        for pair in way.windows(2) {
            for side in (0..4).filter(|side| over(pair[0], *side) == pair[1]) {
                *links.entry(pair[0]).or_insert(0) |= 1 << side;
                *links.entry(pair[1]).or_insert(0) |= 1 << ((side + 2) % 4);
            }
        }
        for (place, sides) in links {
            self.put_cell(place, line_through(sides), Ink::Way);
            let (line, column) = self.spot(place);
            let (next_line, next_column) = self.spot((place.0 + 1, place.1 + 1));
            if sides & 2 != 0 {
                (column + 1..next_column).for_each(|column| self.put(line, column, '─', Ink::Way));
            }
            if sides & 4 != 0 {
                (line + 1..next_line).for_each(|line| self.put(line, column, '│', Ink::Way));
            }
        }
    }

    /// Changed cells by what they cost here; in a small hall the other half of a cell shows more.
    pub fn changed(&mut self, changes: &[Change]) {
        for change in changes {
            let place = self.hall.floor.place(change.number);
            let sign = symbols::changed_sign(self.hall.base(place));
            self.put_cell(place, sign, Ink::Changed);
        }
    }

    /// The signs of the steps at their cells, and source and goal.
    pub fn steps(&mut self, card: &Card) {
        let signs = FIRST_STEPS.chars().chain(repeat(LATER_STEP));
        for (sign, step) in signs.zip(card.steps()) {
            let place = self.hall.place(step.sector, step.goal);
            self.put_cell(place, sign, Ink::Way);
        }
        for end in card.ends(self.hall) {
            self.put_cell(end.place, end.letter, Ink::End);
        }
    }

    pub fn text(&self, colours: bool) -> String {
        let mut text = String::new();
        for line in &self.lines {
            let end = line
                .iter()
                .rposition(|(c, _)| *c != ' ')
                .map_or(0, |last| last + 1);
            let mut ink = Ink::Plain;
            for (character, next) in &line[..end] {
                if colours && *next != ink {
                    ink = *next;
                    text.push_str(&format!("\x1b[0;{}m", ink.code()));
                }
                text.push(*character);
            }
            if colours && ink != Ink::Plain {
                text.push_str("\x1b[0m");
            }
            text.push('\n');
        }
        text
    }
}

/// Where two borders meet: whether at the left, the right, the top, the bottom.
fn joint((left, right): (bool, bool), (top, bottom): (bool, bool)) -> char {
    match (left, right, top, bottom) {
        (true, _, true, _) => '┏',
        (_, true, true, _) => '┓',
        (true, _, _, true) => '┗',
        (_, true, _, true) => '┛',
        (true, ..) => '┣',
        (_, true, ..) => '┫',
        (_, _, true, _) => '┳',
        (_, _, _, true) => '┻',
        _ => '╋',
    }
}

/// The line through a cell to these sides, N 1, E 2, S 4, W 8.
fn line_through(sides: u8) -> char {
    [
        '·', '│', '─', '╰', '│', '│', '╭', '├', '─', '╯', '─', '┴', '╮', '┤', '┬', '┼',
    ][usize::from(sides)]
}
