//! A plan from metres: sectors and scale by the proved plan call.

use proved::{Dimensions, Measures, Refusal};

use crate::floor::{LENGTH, MOST_SECTORS};

/// The highest scale.
const MOST_SCALE: f64 = 9.0;

/// How a drawing states the trolley's size, in metres.
#[derive(Debug, Clone, Copy, PartialEq)]
pub enum Trolley {
    Radius(f32),
    /// The whole width. It is planned as a radius, so that gaps narrower than it are closed.
    Width(f32),
}

/// A hall's sizes along x and y, the length of a cell, and the trolley, in metres.
#[derive(Debug, Clone, Copy, PartialEq)]
pub struct Plan {
    pub sizes: [f32; 2],
    pub unit: f32,
    pub trolley: Trolley,
}

impl Trolley {
    fn metres(self) -> f32 {
        match self {
            Trolley::Radius(metres) | Trolley::Width(metres) => metres,
        }
    }

    fn name(self) -> &'static str {
        match self {
            Trolley::Radius(_) => "radius",
            Trolley::Width(_) => "width",
        }
    }
}

impl Plan {
    /// Sectors and scale, or why there are none.
    pub fn measures(&self) -> Result<Measures, String> {
        let radius = self.trolley.metres();
        let dimensions = Dimensions {
            size_x: self.sizes[0],
            size_y: self.sizes[1],
            unit: self.unit,
            radius,
        };
        proved::plan(dimensions).map_err(|Refusal(number)| {
            let why = self.refusal(number, f64::from(radius));
            format!("plan refused, {number}: {why}")
        })
    }

    /// A refusal in words, and what to take instead.
    fn refusal(&self, number: u8, radius: f64) -> String {
        let (unit, name) = (self.unit, self.trolley.name());
        let [x, y] = self.sizes.map(f64::from);
        let least_unit = rounded_up(radius / MOST_SCALE);
        match number {
            1 => "a value is not a finite number".to_string(),
            2 => "a size of the hall is 0 or less".to_string(),
            3 => format!("the trolley's {name} is 0 or less"),
            4 => "the unit, the length of a cell, is 0 or less".to_string(),
            5 => format!(
                "in cells of {unit} m the hall is shorter than one sector of 10 cells; \
                 take a unit of at most {} m",
                rounded_down(x.min(y) / LENGTH as f64)
            ),
            6 => format!(
                "in cells of {unit} m the trolley's {name} is one sector of 10 cells or more; \
                 take a unit of at least {least_unit} m"
            ),
            7 => format!(
                "in cells of {unit} m the trolley's {name} is more than 9 cells; \
                 take a unit of at least {least_unit} m"
            ),
            8 => format!("the trolley's {name} is so short beside the unit that the scale is 0"),
            9 => format!(
                "in cells of {unit} m the hall is longer than 10 sectors of 10 cells; \
                 take a unit of more than {} m",
                rounded_up(x.max(y) / ((MOST_SECTORS + 1) * LENGTH) as f64)
            ),
            _ => "for a reason that is not known here".to_string(),
        }
    }

    /// The trolley's width in metres: two radii.
    fn metres_wide(&self) -> f64 {
        match self.trolley {
            Trolley::Radius(radius) => 2.0 * f64::from(radius),
            Trolley::Width(width) => width.into(),
        }
    }

    /// The trolley's width in cells, rounded as the plan call rounds a radius. One that was
    /// planned as a width is as wide as its scale.
    pub fn cells_wide(&self, scale: u8) -> usize {
        match self.trolley {
            Trolley::Radius(radius) => (2.0 * radius / self.unit).ceil() as usize,
            Trolley::Width(_) => scale.into(),
        }
    }

    /// What closes the gaps that are too narrow for a trolley stated by its radius.
    pub fn remedy(&self) -> Option<String> {
        let width = rounded_up(self.metres_wide());
        matches!(self.trolley, Trolley::Radius(_))
            .then(|| format!("state `width {width}` in place of the radius"))
    }

    /// What was planned from what, and what of the hall lies outside its sectors.
    pub fn words(&self, measures: Measures) -> String {
        let [x, y] = self.sizes;
        let sectors = [measures.columns, measures.rows];
        let sector = f64::from(self.unit) * LENGTH as f64;
        let beyond = |axis: usize| f64::from(self.sizes[axis]) - f64::from(sectors[axis]) * sector;
        let mut text = format!(
            "{x} by {y} m in cells of {} m: {} by {} sectors; a trolley {} m wide: scale {}",
            self.unit,
            sectors[0],
            sectors[1],
            rounded_up(self.metres_wide()),
            measures.scale
        );
        for (axis, end) in [(0, "east"), (1, "south")] {
            // A rest that is due to rounding is none.
            if beyond(axis) > sector / 1_000.0 {
                let rest = rounded_down(beyond(axis));
                text.push_str(&format!("; {rest} m at the {end} end have no sector"));
            }
        }
        text
    }

    /// The line of a drawing.
    pub fn line(&self) -> String {
        let ([x, y], trolley) = (self.sizes, self.trolley);
        format!(
            "metres {x} {y} unit {} {} {}",
            self.unit,
            trolley.name(),
            trolley.metres()
        )
    }
}

/// Three digits, of which the last is rounded by a rule. A value that has no more digits, but
/// for what its storing in 32 bits adds, stays.
fn rounded(value: f64, rule: fn(f64) -> f64) -> f64 {
    let digits = 10f64.powf(2.0 - value.log10().floor());
    let nearest = (value * digits).round() / digits;
    if (nearest - value).abs() < value * 1e-6 {
        return nearest;
    }
    rule(value * digits) / digits
}

fn rounded_up(value: f64) -> f64 {
    rounded(value, f64::ceil)
}

fn rounded_down(value: f64) -> f64 {
    rounded(value, f64::floor)
}
