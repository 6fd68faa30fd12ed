//! Why there is no route: the area that the source reaches, and the cells that close it.

use std::collections::{BTreeMap, BTreeSet};

use crate::floor::{BLOCKED, Place, index_of, sector_of};
use crate::hall::Hall;
use crate::words::counted;

/// The most cells in the way, and sectors, that are told one by one.
const MOST_TOLD: usize = 8;

/// The way from source to goal with the fewest blocked cells, of those the one with the
/// fewest drawn ones, of those a shortest.
type Weight = (usize, usize, usize);

/// What a source reaches, and what keeps it from the goal.
#[derive(Debug, Clone, PartialEq, Eq)]
pub struct NoRoute {
    /// The cells to which moves lead from the source; none if it is blocked.
    pub reached: BTreeSet<Place>,
    /// A way to the goal with as few blocked cells as there can be.
    way: Vec<Place>,
    /// The blocked cells of that way. There are none where a change left an old border.
    pub closing: Vec<Place>,
}

impl NoRoute {
    pub fn between(hall: &Hall, source: Place, goal: Place) -> NoRoute {
        let way = way_of_least_weight(hall, source, goal);
        let closing = way.iter().filter(|place| !hall.is_open(**place));
        NoRoute {
            reached: reached(hall, source),
            closing: closing.copied().collect(),
            way,
        }
    }

    /// The reason in one line.
    pub fn reason(&self, hall: &Hall) -> String {
        let ends = [
            (self.way[0], "source"),
            (self.way[self.way.len() - 1], "goal"),
        ];
        for ((x, y), name) in ends {
            if self.closing.contains(&(x, y)) {
                return format!("the {name} {x},{y} is {}", kind(hall, (x, y)));
            }
        }
        let Some((x, y)) = self.closing.first() else {
            return "no cell is in the way, but a border that the changes did not mark afresh"
                .to_string();
        };
        let more = match self.closing.len() {
            1 => String::new(),
            count => format!(" and {} more", count - 1),
        };
        format!(
            "the source reaches {}; in the way: {x},{y}{more}",
            counted(self.reached.len(), "cell")
        )
    }

    /// The area, the closing cells one by one, and what would open it.
    pub fn details(&self, hall: &Hall) -> Vec<String> {
        let mut lines = vec![self.area()];
        if self.closing.is_empty() {
            return lines;
        }
        let count = counted(self.closing.len(), "cell");
        lines.push(format!(
            "in the way to the goal, where it is least: {count}"
        ));
        let told = (0..self.way.len()).filter(|at| self.closing.contains(&self.way[*at]));
        lines.extend(told.take(MOST_TOLD).map(|at| self.cell(hall, at)));
        if self.closing.len() > MOST_TOLD {
            lines.push(format!("  and {} more", self.closing.len() - MOST_TOLD));
        }
        let scale = hall.floor.scale.into();
        lines.push(format!(
            "at scale {scale} a gap there needs {} or more",
            counted(scale, "cell")
        ));
        lines
    }

    fn area(&self) -> String {
        let Some(first) = self.reached.first() else {
            return "the source reaches no cell".to_string();
        };
        let columns = self.reached.iter().map(|place| place.0);
        let rows = || self.reached.iter().map(|place| place.1);
        let sectors: BTreeSet<_> = self.reached.iter().map(|place| sector_of(*place)).collect();
        let listed: Vec<String> = sectors.iter().map(|(c, r)| format!("{c},{r}")).collect();
        let sectors = match listed.len() {
            1 => format!("sector {}", listed[0]),
            ..=MOST_TOLD => format!("sectors {}", listed.join(" ")),
            count => format!("{count} sectors"),
        };
        format!(
            "the source reaches {}: x {} to {}, y {} to {}, in {sectors}",
            counted(self.reached.len(), "cell"),
            first.0,
            columns.max().unwrap_or(first.0),
            rows().min().unwrap_or(first.1),
            rows().max().unwrap_or(first.1)
        )
    }

    /// A cell of the way: where it lies, and what it is.
    fn cell(&self, hall: &Hall, at: usize) -> String {
        let place = self.way[at];
        let ((x, y), (column, row)) = (place, sector_of(place));
        let beside = [at.checked_sub(1), Some(at + 1)];
        let over = beside
            .into_iter()
            .filter_map(|at| self.way.get(at?))
            .map(|next| sector_of(*next))
            .find(|sector| *sector != (column, row));
        let border = over.map_or(String::new(), |(column, row)| {
            format!(", on the border to sector {column},{row}")
        });
        format!(
            "  {x},{y}: cell {} of sector {column},{row}{border}, {}",
            index_of(place),
            kind(hall, place)
        )
    }
}

/// What blocks a cell.
fn kind(hall: &Hall, place: Place) -> &'static str {
    match hall.base(place) {
        BLOCKED => "blocked",
        _ => "closed by scaling",
    }
}

/// The cells to which moves between open cells lead.
fn reached(hall: &Hall, source: Place) -> BTreeSet<Place> {
    let mut reached: BTreeSet<Place> = [source]
        .into_iter()
        .filter(|place| hall.is_open(*place))
        .collect();
    let mut waiting: Vec<Place> = reached.iter().copied().collect();
    while let Some(place) = waiting.pop() {
        let next = hall.floor.beside(place);
        waiting.extend(next.filter(|next| hall.is_open(*next) && reached.insert(*next)));
    }
    reached
}

fn weight_beyond(hall: &Hall, (blocked, drawn, moves): Weight, place: Place) -> Weight {
    let is_blocked = !hall.is_open(place);
    let is_drawn = hall.base(place) == BLOCKED;
    (
        blocked + usize::from(is_blocked),
        drawn + usize::from(is_drawn),
        moves + 1,
    )
}

/// The cells from source to goal over cells of any kind, the least weight first.
fn way_of_least_weight(hall: &Hall, source: Place, goal: Place) -> Vec<Place> {
    let mut waiting = BTreeSet::from([((0, 0, 0), source, source)]);
    let mut came_from = BTreeMap::new();
    while let Some((weight, place, before)) = waiting.pop_first() {
        if came_from.contains_key(&place) {
            continue;
        }
        came_from.insert(place, before);
        for next in hall.floor.beside(place) {
            waiting.insert((weight_beyond(hall, weight, next), next, place));
        }
    }
    let mut way = vec![goal];
    let mut place = goal;
    while place != source {
        place = came_from[&place];
        way.push(place);
    }
    way.reverse();
    way
}
