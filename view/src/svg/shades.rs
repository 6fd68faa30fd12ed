//! Colours of costs: as many as can be told apart.

use crate::floor::{BLOCKED, Floor, UNNAMED};

/// From little to much.
const SHADES: [&str; 8] = [
    "#fff3a3", "#fedb7a", "#feb24c", "#f58b2a", "#e0631a", "#b94410", "#8c2d04", "#5c1d02",
];
/// From this shade on text is light.
const FIRST_DARK: usize = 4;

/// Costs that share a colour: the least, the most, and the colour's place among the shades.
#[derive(Debug, Clone, Copy, PartialEq, Eq)]
pub struct Class {
    pub least: u8,
    pub most: u8,
    shade: usize,
}

impl Class {
    pub fn fill(self) -> &'static str {
        SHADES[self.shade]
    }

    /// The colour of a number on it.
    pub fn ink(self) -> &'static str {
        if self.shade < FIRST_DARK {
            "#4d3200"
        } else {
            "#ffffff"
        }
    }

    pub fn words(self) -> String {
        match (self.least, self.most) {
            (least, most) if least == most => format!("cost {least}"),
            (least, most) => format!("cost {least} to {most}"),
        }
    }
}

/// The costs of a floor other than 1, a colour for each; or, where there are more costs than
/// colours, for each of as many ranges.
pub fn classes(floor: &Floor) -> Vec<Class> {
    let mut costs = floor.costs.clone();
    costs.retain(|cost| ![UNNAMED, BLOCKED].contains(cost));
    costs.sort_unstable();
    costs.dedup();
    let mut ranges: Vec<(u8, u8)> = costs.iter().map(|cost| (*cost, *cost)).collect();
    while ranges.len() > SHADES.len() {
        join_closest(&mut ranges);
    }
    let count = ranges.len();
    let ranges = ranges.into_iter().enumerate();
    ranges
        .map(|(at, (least, most))| Class {
            least,
            most,
            shade: spread(at, count),
        })
        .collect()
}

/// Joins the two neighbours of which the most is the fewest times the least.
fn join_closest(ranges: &mut Vec<(u8, u8)>) {
    let times = |at: usize| {
        let (least, most) = (ranges[at].0, ranges[at + 1].1);
        (f64::from(most) + 1.0) / (f64::from(least) + 1.0)
    };
    let closest = (0..ranges.len() - 1).min_by(|a, b| times(*a).total_cmp(&times(*b)));
    if let Some(at) = closest {
        ranges[at].1 = ranges[at + 1].1;
        ranges.remove(at + 1);
    }
}

/// Few classes take shades that lie far apart.
fn spread(class: usize, count: usize) -> usize {
    match count {
        1 => SHADES.len() / 4,
        _ => class * (SHADES.len() - 1) / (count - 1),
    }
}

/// The class of a cell's cost, if it has one.
pub fn class_of(classes: &[Class], cost: u8) -> Option<Class> {
    let within = |class: &&Class| (class.least..=class.most).contains(&cost);
    classes
        .iter()
        .find(within)
        .filter(|_| ![UNNAMED, BLOCKED].contains(&cost))
        .copied()
}

#[cfg(test)]
mod tests {
    use super::*;

    fn floor(costs: impl Iterator<Item = u8>) -> Floor {
        let mut list: Vec<u8> = costs.collect();
        list.resize(400, 1);
        Floor {
            columns: 2,
            rows: 2,
            scale: 1,
            costs: list,
            legend: vec![],
        }
    }

    /// How far apart two colours are, as the sum over red, green and blue.
    fn distance(a: &str, b: &str) -> u32 {
        let part = |colour: &str, at| u32::from_str_radix(&colour[at..at + 2], 16).unwrap();
        [1, 3, 5]
            .map(|at| part(a, at).abs_diff(part(b, at)))
            .iter()
            .sum()
    }

    #[test]
    fn any_two_shades_can_be_told_apart() {
        let others = ["#ffffff", "#3d434b"];
        for (at, shade) in SHADES.iter().enumerate() {
            for other in SHADES[..at].iter().chain(&others) {
                assert!(distance(shade, other) >= 60, "{shade} {other}");
            }
        }
    }

    #[test]
    fn each_cost_has_one_class() {
        for most in [1, 2, 3, 7, 8, 9, 100, 254] {
            let floor = floor((0..=most).chain([255]));
            let classes = classes(&floor);
            assert_eq!(classes.len(), usize::from(most).min(SHADES.len()));
            let fills: Vec<&str> = classes.iter().map(|class| class.fill()).collect();
            assert!((1..fills.len()).all(|at| !fills[..at].contains(&fills[at])));
            for cost in (0..=most).filter(|cost| *cost != 1) {
                let found = classes
                    .iter()
                    .filter(|c| (c.least..=c.most).contains(&cost));
                assert_eq!(found.count(), 1, "{cost}");
                assert!(class_of(&classes, cost).is_some());
            }
            assert_eq!(class_of(&classes, 1), None);
        }
    }

    #[test]
    fn costs_that_lie_close_share_a_class() {
        let costs = [2, 3, 4, 5, 6, 7, 8, 12, 40, 90, 254];
        let classes = classes(&floor(costs.into_iter()));
        let words: Vec<String> = classes.iter().map(|class| class.words()).collect();
        assert_eq!(
            words,
            [
                "cost 2",
                "cost 3 to 4",
                "cost 5 to 6",
                "cost 7 to 8",
                "cost 12",
                "cost 40",
                "cost 90",
                "cost 254"
            ]
        );
    }
}
