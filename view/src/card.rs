//! A route's card.

use proved::{MOST_STEPS, Refusal, Routed};

use crate::floor::Place;
use crate::hall::{Hall, Window};
use crate::no_route::NoRoute;
use crate::symbols;
use crate::words::counted;

const LETTERS: [char; 4] = ['N', 'E', 'S', 'W'];
const NAMES: [&str; 4] = ["north", "east", "south", "west"];

/// One step: the cell to reach in a sector, and a window there; mostly the one to leave by.
#[derive(Debug, Clone, Copy, PartialEq, Eq)]
pub struct Step {
    pub sector: (usize, usize),
    pub goal: usize,
    pub window: Option<Window>,
}

/// What the route call answers.
#[derive(Debug, Clone, PartialEq, Eq)]
pub enum Answer {
    Refused(u8),
    None(NoRoute),
    Route {
        steps: Vec<Step>,
        leg: u32,
        run: u32,
    },
}

/// A pair of floor numbers and the answer to it.
#[derive(Debug, Clone, PartialEq, Eq)]
pub struct Card {
    pub source: usize,
    pub goal: usize,
    pub answer: Answer,
}

/// A marked end of a route: its place, its letter and what that stands for.
pub struct End {
    pub place: Place,
    pub letter: char,
    pub name: &'static str,
}

impl Card {
    /// The card of a pair.
    pub fn of(hall: &Hall, (source, goal): (usize, usize)) -> Card {
        let mut list = [proved::Step::default(); MOST_STEPS];
        let answer = match hall.store.route(source, goal, &mut list) {
            Ok(Routed::NoRoute) => {
                let ends = [source, goal].map(|number| hall.floor.place(number));
                Answer::None(NoRoute::between(hall, ends[0], ends[1]))
            }
            Ok(Routed::Route { steps, leg, run }) => Answer::Route {
                steps: steps.iter().map(Step::of).collect(),
                leg,
                run,
            },
            Err(Refusal(number)) => Answer::Refused(number),
        };
        Card {
            source,
            goal,
            answer,
        }
    }

    /// The steps, none if there is no route.
    pub fn steps(&self) -> &[Step] {
        match &self.answer {
            Answer::Route { steps, .. } => steps,
            _ => &[],
        }
    }

    /// Source and goal, as far as they lie on the floor.
    pub fn ends(&self, hall: &Hall) -> Vec<End> {
        let ends = if self.source == self.goal {
            vec![(self.source, symbols::SOURCE, "source and goal")]
        } else {
            vec![
                (self.source, symbols::SOURCE, "source"),
                (self.goal, symbols::GOAL, "goal"),
            ]
        };
        ends.into_iter()
            .filter(|(number, ..)| *number < hall.floor.costs.len())
            .map(|(number, letter, name)| End {
                place: hall.floor.place(number),
                letter,
                name,
            })
            .collect()
    }

    /// Whether there is a way of one move or more.
    pub fn has_way(&self) -> bool {
        !self.steps().is_empty() && self.source != self.goal
    }

    /// The line that `hallroute` prints.
    pub fn line(&self) -> String {
        let answer = match &self.answer {
            Answer::Refused(number) => format!("no {number}"),
            Answer::None(_) => "none".to_string(),
            Answer::Route { steps, leg, run } => {
                let listed: Vec<String> = steps.iter().map(Step::short).collect();
                format!("{} {leg} {run} {}", steps.len(), listed.join(" "))
            }
        };
        format!("{} {} {answer}", self.source, self.goal)
    }

    /// Why there is no route, if there is none.
    pub fn no_route(&self) -> Option<&NoRoute> {
        match &self.answer {
            Answer::None(no_route) => Some(no_route),
            _ => None,
        }
    }

    /// What the card says in all.
    pub fn outcome(&self, hall: &Hall) -> String {
        match &self.answer {
            Answer::Refused(23) => "the source does not lie on the floor".to_string(),
            Answer::Refused(24) => "the goal does not lie on the floor".to_string(),
            Answer::Refused(number) => format!("refused: {number}"),
            Answer::None(no_route) => format!("no route: {}", no_route.reason(hall)),
            Answer::Route { steps, leg, run } => {
                format!("{}, leg {leg}, run {run}", counted(steps.len(), "step"))
            }
        }
    }

    /// What it says one by one: each step with its number, or what keeps source and goal apart.
    pub fn details(&self, hall: &Hall) -> Vec<String> {
        if let Some(no_route) = self.no_route() {
            return no_route.details(hall);
        }
        let width = self.steps().len().to_string().len();
        let steps = (1..).zip(self.steps());
        steps
            .map(|(number, step)| format!("{number:>width$}  {}", step.words()))
            .collect()
    }
}

impl Step {
    fn of(step: &proved::Step) -> Step {
        Step {
            sector: (step.column.into(), step.row.into()),
            goal: step.goal.into(),
            window: step.window().map(Window::of),
        }
    }

    fn short(&self) -> String {
        let (column, row) = self.sector;
        let window = self.window.map_or("-".to_string(), |w| {
            format!("{}{}-{}", LETTERS[w.side], w.first, w.last)
        });
        format!("{column},{row}:{}{window}", self.goal)
    }

    fn words(&self) -> String {
        let (column, row) = self.sector;
        let window = self.window.map_or("the goal".to_string(), |w| {
            format!("{} window {}-{}", NAMES[w.side], w.first, w.last)
        });
        format!("sector {column},{row}  cell {:<2}  {window}", self.goal)
    }
}
