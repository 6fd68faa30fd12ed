//! Changes of a floor: cells that get another cost.

use proved::Refusal;

use crate::characters::shown;
use crate::floor::{BLOCKED, Floor, Place};
use crate::hall::Hall;
use crate::words::{counted, state};

/// A cell by its floor number, and its cost before and after.
#[derive(Debug, Clone, Copy, PartialEq, Eq)]
pub struct Change {
    pub number: usize,
    pub before: u8,
    pub after: u8,
}

/// When a hall is shown: at the only time there is, or before or after changes.
#[derive(Debug, Clone, Copy, PartialEq, Eq)]
pub enum Moment<'a> {
    Only,
    Before(&'a [Change]),
    After(&'a [Change]),
}

impl<'a> Moment<'a> {
    pub fn changes(self) -> &'a [Change] {
        match self {
            Moment::Only => &[],
            Moment::Before(changes) | Moment::After(changes) => changes,
        }
    }

    /// Its name, where there are two.
    pub fn name(self) -> Option<String> {
        match self {
            Moment::Only => None,
            Moment::Before(_) => Some("before".to_string()),
            Moment::After(changes) => Some(format!("after {}", counted(changes.len(), "change"))),
        }
    }

    /// A line for each change, once it is made.
    pub fn told(self, hall: &Hall) -> Vec<String> {
        match self {
            Moment::After(changes) => changes.iter().map(|change| change.words(hall)).collect(),
            _ => vec![],
        }
    }
}

/// Reads changes such as `5,7=40`, each of another cell.
pub fn read(floor: &Floor, texts: &[String]) -> Result<Vec<Change>, String> {
    let mut changes: Vec<Change> = vec![];
    for text in texts {
        let change = Change::read(floor, text)?;
        if changes.iter().any(|other| other.number == change.number) {
            let cell = change.cell(floor);
            return Err(format!("{cell} is changed twice: keep one of the changes"));
        }
        changes.push(change);
    }
    Ok(changes)
}

/// What is to be said of a changed hall if its hall file gives another one. A change scales and
/// marks only the sectors around it, in an order of its own.
pub fn warning(hall: &Hall) -> Option<String> {
    let built = Hall::build(hall.floor.clone());
    if built.store == hall.store {
        return None;
    }
    let mut cells = hall.floor.places();
    let differs = |place: &Place| built.is_open(*place) != hall.is_open(*place);
    let other = match cells.find(differs) {
        None => "windows than the changed one".to_string(),
        Some((x, y)) => {
            let more = match cells.filter(differs).count() {
                0 => String::new(),
                count => format!(" and {count} more"),
            };
            format!("cells closed than the changed one ({x},{y}{more})")
        }
    };
    Some(format!(
        "a hall built from the hall file has other {other}, and may have other cards"
    ))
}

impl Change {
    /// A cell as elsewhere, `=` and its cost.
    fn read(floor: &Floor, text: &str) -> Result<Change, String> {
        let Some((cell, cost)) = text.split_once('=') else {
            return Err(format!(
                "`{}` is no change: it is a cell, = and its cost, as in 5,7=40 or 5,7=blocked",
                shown(text)
            ));
        };
        let number = floor.named(cell)?;
        Ok(Change {
            number,
            before: floor.costs[number],
            after: read_cost(cost)?,
        })
    }

    fn cell(self, floor: &Floor) -> String {
        let (x, y) = floor.place(self.number);
        format!("{x},{y} (floor number {})", self.number)
    }

    /// What was changed, in the hall after it.
    fn words(self, hall: &Hall) -> String {
        let closed = if hall.is_narrow(hall.floor.place(self.number)) {
            ", closed by scaling"
        } else {
            ""
        };
        let (before, after) = (state(self.before), state(self.after));
        let cell = self.cell(&hall.floor);
        match self.before == self.after {
            true => format!("{cell}: {before}, as before{closed}"),
            false => format!("{cell}: {before}, now {after}{closed}"),
        }
    }

    /// Why the change call refuses it. What 22 is about, a fresh build takes.
    pub fn refused(self, floor: &Floor, refusal: Refusal) -> String {
        let anew = match refusal.0 {
            22 => "; built anew with it the hall is accepted: put it into the drawing",
            _ => "",
        };
        let (number, text) = (refusal.0, refusal.text());
        let (cell, cost) = (self.cell(floor), state(self.after));
        format!("{cell} cannot become {cost}: refused {number}, {text}{anew}")
    }
}

/// 0 to 255, or `blocked`.
fn read_cost(text: &str) -> Result<u8, String> {
    match text {
        "blocked" => Ok(BLOCKED),
        _ => text.parse().map_err(|_| {
            format!(
                "`{}` is no cost: costs are 0 to 254, and 255 or `blocked`",
                shown(text)
            )
        }),
    }
}
