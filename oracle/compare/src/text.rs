//! The program's lines, from the Rust's answers.

use calls::{Judge, Step};

use crate::routes;

/// The lines for these pairs on an accepted hall, and `cut` for spare bytes.
pub fn lines<J: Judge>(
    judge: &J,
    sectors: usize,
    pairs: &[(usize, usize)],
    spare: usize,
) -> String {
    let graph = judge.portal_graph();
    let mut text = String::new();
    for (source, goal) in pairs {
        let owed = routes::owed(judge, &graph, sectors * 100, (*source, *goal));
        let answer = match owed {
            Err(number) => format!("no {number}"),
            Ok(None) => "none".into(),
            Ok(Some((steps, best))) => route(&steps, best.leg, best.run),
        };
        text.push_str(&format!("{source} {goal} {answer}\n"));
    }
    if spare > 0 {
        text.push_str("cut\n");
    }
    text
}

fn route(steps: &[Step], leg: u32, run: u32) -> String {
    let mut text = format!("{} {leg} {run}", steps.len());
    for step in steps {
        text.push_str(&format!(" {},{}:{}", step.column, step.row, step.goal));
        match step.window {
            Some(window) => {
                let side = ['N', 'E', 'S', 'W'][usize::from(window.side)];
                text.push_str(&format!("{side}{}-{}", window.first, window.last));
            }
            None => text.push('-'),
        }
    }
    text
}
