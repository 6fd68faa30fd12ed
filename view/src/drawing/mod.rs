//! Drawings of a floor as plain text: settings, a legend, then the rows of the floor.

mod line;
mod metres;
mod rows;
mod settings;
mod write;

use crate::floor::{Floor, LENGTH, UNNAMED};
use crate::plan::Plan;
use crate::problem::Problem;
use line::Line;
use rows::Rows;
use settings::Settings;

pub use write::write;

/// A floor, pairs of source and goal by floor number, and what is stated of the trolley: its
/// width in cells, or the plan in metres that gave scale and sectors.
#[derive(Debug, Clone, PartialEq)]
pub struct Drawn {
    pub floor: Floor,
    pub pairs: Vec<(usize, usize)>,
    pub width: Option<usize>,
    pub plan: Option<Plan>,
}

impl Drawn {
    /// A floor of which nothing else is stated.
    pub fn plain(floor: Floor, pairs: Vec<(usize, usize)>) -> Drawn {
        Drawn {
            floor,
            pairs,
            width: None,
            plan: None,
        }
    }

    /// The trolley's width in cells, if it is stated.
    pub fn cells_wide(&self) -> Option<usize> {
        let planned = self.plan.map(|plan| plan.cells_wide(self.floor.scale));
        self.width.or(planned)
    }

    /// What was planned in metres.
    pub fn planned(&self) -> Option<String> {
        let plan = self.plan?;
        Some(plan.words(plan.measures().ok()?))
    }
}

/// Reads a drawing, or says what is wrong with it and where.
pub fn read(bytes: &[u8]) -> Result<Drawn, Problem> {
    let text = utf8(bytes)?;
    let (mut settings, mut rows) = (Settings::default(), Rows::default());
    let lines = text.strip_prefix('\u{feff}').unwrap_or(text).lines();
    for (number, text) in (1..).zip(lines) {
        Line { number, text }.check_characters()?;
        let text = text.trim_end();
        read_line(Line { number, text }, &mut settings, &mut rows)?;
    }
    drawn(&settings, &rows)
}

fn utf8(bytes: &[u8]) -> Result<&str, Problem> {
    std::str::from_utf8(bytes).or_else(|error| {
        let good = String::from_utf8_lossy(&bytes[..error.valid_up_to()]);
        let last = good.rsplit('\n').next().unwrap_or_default();
        let (line, column) = (good.matches('\n').count() + 1, last.chars().count() + 1);
        Problem::at(line, column, "this is no text: a drawing is UTF-8")
    })
}

fn read_line<'a>(
    line: Line<'a>,
    settings: &mut Settings<'a>,
    rows: &mut Rows,
) -> Result<(), Problem> {
    if line.is_remark() {
        return Ok(());
    }
    if line.words().is_empty() {
        return rows.between_sectors(line, "an empty line");
    }
    if line.text.chars().all(|c| "-+| ".contains(c)) {
        return rows.between_sectors(line, "a ruling");
    }
    if settings.read(line)? {
        return rows.above_floor(line);
    }
    settings.refuse_unknown(line)?;
    rows.row(line, |symbol| settings.cost(symbol))
}

fn drawn(settings: &Settings, rows: &Rows) -> Result<Drawn, Problem> {
    let floor = floor(settings, rows.whole()?)?;
    let numbers = |(source, goal)| (floor.number(source), floor.number(goal));
    let mut pairs: Vec<(usize, usize)> = rows.ends()?.map(numbers).into_iter().collect();
    pairs.extend(settings.pairs(&floor)?);
    Ok(Drawn {
        floor,
        pairs,
        width: settings.width(),
        plan: settings.planned().map(|planned| planned.plan),
    })
}

/// The floor that is drawn, or an open one if it is planned and no row is drawn.
fn floor(settings: &Settings, rows: &[Vec<u8>]) -> Result<Floor, Problem> {
    let drawn = (rows.first().map_or(0, Vec::len), rows.len());
    let planned = settings.planned().map(|planned| planned.cells());
    let (width, height) = match planned {
        None if rows.is_empty() => return Problem::at(1, 1, "no row of a floor is drawn"),
        None => drawn,
        Some(cells) => cells,
    };
    if let Some(planned) = settings
        .planned()
        .filter(|_| drawn != (0, 0) && drawn != (width, height))
    {
        let text = format!(
            "these metres are {width} by {height} cells, and {} by {} are drawn",
            drawn.0, drawn.1
        );
        return Problem::at(planned.line, 1, text);
    }
    let mut floor = Floor {
        columns: width / LENGTH,
        rows: height / LENGTH,
        scale: settings.scale(),
        costs: vec![UNNAMED; width * height],
        legend: settings.legend(),
    };
    for place in floor.places().filter(|_| !rows.is_empty()) {
        let number = floor.number(place);
        floor.costs[number] = rows[place.1][place.0];
    }
    Ok(floor)
}
