//! The legend below the floor: what its characters stand for.

use crate::card::Card;
use crate::floor::{BLOCKED, UNNAMED};
use crate::hall::Hall;
use crate::scene::Scene;
use crate::symbols::{
    self, BLOCKED_SIGN, CHANGED_BLOCKED, CHANGED_OPEN, CLOSED_SIGN, CLOSING_SIGN, FIRST_STEPS,
    LATER_STEP, LEVEL_WINDOW, MIDPOINT, OPEN_SIGN, REACHED_SIGN, UPRIGHT_WINDOW,
};
use crate::words::state;

pub fn draw(scene: Scene) -> String {
    let hall = scene.hall;
    let mut entries = vec![format!("{BLOCKED_SIGN} {}", state(BLOCKED))];
    if hall.floor.places().any(|place| hall.is_narrow(place)) {
        entries.push(format!("{CLOSED_SIGN} closed by scaling"));
    }
    entries.push(format!("{OPEN_SIGN} {}", state(UNNAMED)));
    let others = symbols::table(&hall.floor).into_iter();
    for (symbol, cost) in others.filter(|(_, cost)| ![UNNAMED, BLOCKED].contains(cost)) {
        entries.push(format!("{symbol} {}", state(cost)));
    }
    entries.push(format!("{UPRIGHT_WINDOW}{LEVEL_WINDOW} window"));
    entries.push(format!("{MIDPOINT} its midpoint"));
    entries.extend(changed(scene));
    let card = scene.card.into_iter();
    entries.extend(card.flat_map(|card| card_legend(hall, card)));
    wrapped(&entries)
}

/// The signs of changed cells, as far as they are drawn.
fn changed(scene: Scene) -> Vec<String> {
    let (costs, changes) = (&scene.hall.floor.costs, scene.moment.changes());
    let is_drawn = |sign| {
        let mut signs = changes
            .iter()
            .map(|c| symbols::changed_sign(costs[c.number]));
        signs.any(|drawn| drawn == sign)
    };
    let told = [(CHANGED_BLOCKED, "blocked"), (CHANGED_OPEN, "open")].into_iter();
    told.filter(|(sign, _)| is_drawn(*sign))
        .map(|(sign, name)| format!("{sign} changed cell, {name}"))
        .collect()
}

/// What a card adds to the legend. Its last step is the goal, and has no other sign.
fn card_legend(hall: &Hall, card: &Card) -> Vec<String> {
    let ends = card.ends(hall).into_iter();
    let mut entries: Vec<String> = ends
        .map(|end| format!("{} {}", end.letter, end.name))
        .collect();
    let (first, steps) = (FIRST_STEPS.chars().count(), card.steps().len());
    if steps > 1 {
        entries.push("① step of the card".to_string());
    }
    if steps > first + 1 {
        entries.push(format!("{LATER_STEP} step after the {first}th"));
    }
    if card.has_way() {
        entries.push("─ a way to drive it".to_string());
    }
    if let Some(no_route) = card.no_route() {
        if !no_route.reached.is_empty() {
            entries.push(format!("{REACHED_SIGN} the source reaches it"));
        }
        if !no_route.closing.is_empty() {
            entries.push(format!("{CLOSING_SIGN} in the way"));
        }
    }
    entries
}

/// Entries in lines of at most 78 characters.
fn wrapped(entries: &[String]) -> String {
    let mut lines = vec![String::new()];
    for entry in entries {
        let last = lines.len() - 1;
        if lines[last].chars().count() + entry.chars().count() > 76 {
            lines.push(String::new());
        }
        let last = lines.len() - 1;
        lines[last].push_str(&format!("  {entry}"));
    }
    lines.join("\n") + "\n"
}
