//! The legend below the floor.

use super::apart::closing;
use super::badges::{badge, end};
use super::colours::{CLOSED, FAINT, INK, PAPER, REACHED, ROUTE, STEP_WINDOW, WALL, WINDOW};
use super::floor::{BAR, FRAME, bar, frame};
use super::shades::classes;
use super::shapes::{Attributes, SANS_WIDTH, circle, label, line, rect, round};
use super::sheet::{CELL, Sheet};
use crate::card::Card;
use crate::hall::Hall;

/// Room for a sample, and between entries, by the size of text.
const SAMPLE: f64 = 2.1;
const BETWEEN: f64 = 1.4;

/// What an entry shows.
enum Sample {
    Cell(&'static str),
    Changed,
    Window,
    StepWindow,
    Way,
    Step,
    End(char),
    Closing,
}

type Entry = (Sample, String);

/// Entries in columns of one width, as many as the sheet has room for.
pub fn draw(sheet: &mut Sheet) {
    let entries = entries(sheet);
    let (size, room) = (sheet.text, sheet.width - sheet.left);
    let longest = entries.iter().map(|(_, text)| text.len()).max();
    let needed = (SAMPLE + BETWEEN) * size + longest.unwrap_or(0) as f64 * size * SANS_WIDTH;
    let columns = ((room / needed) as usize).clamp(1, entries.len());
    let first = sheet.bottom + size * 2.0;
    for (at, (sample, text)) in entries.iter().enumerate() {
        let x = sheet.left + (at % columns) as f64 * room / columns as f64;
        let y = first + (at / columns) as f64 * size * 1.9;
        let zoom = size / CELL * 1.35;
        sheet.add(format!(
            "<g transform=\"translate({} {}) scale({})\">{}</g>",
            round(x + size * 0.7),
            round(y),
            round(zoom),
            draw_sample(sample)
        ));
        let at = (x + SAMPLE * size, y + size * 0.36);
        sheet.add(label(at, text, size, &[("fill", &INK)]));
        sheet.bottom = y + size * 0.8;
    }
}

fn entries(sheet: &Sheet) -> Vec<Entry> {
    let hall = sheet.hall;
    let mut entries = vec![(Sample::Cell(WALL), "blocked".to_string())];
    if hall.floor.places().any(|place| hall.is_narrow(place)) {
        entries.push((Sample::Cell(CLOSED), "closed by scaling".into()));
    }
    entries.push((Sample::Cell(PAPER), "open at cost 1".into()));
    let classes = classes(&hall.floor).into_iter();
    entries.extend(classes.map(|class| (Sample::Cell(class.fill()), class.words())));
    if hall.all_windows().next().is_some() {
        entries.push((Sample::Window, "window, midpoints".into()));
    }
    if !sheet.scene.moment.changes().is_empty() {
        entries.push((Sample::Changed, "changed cell".into()));
    }
    let card = sheet.scene.card.into_iter();
    entries.extend(card.flat_map(|card| card_entries(hall, card)));
    entries
}

/// The last step is drawn as the goal, and has no window.
fn card_entries(hall: &Hall, card: &Card) -> Vec<Entry> {
    let ends = card.ends(hall).into_iter();
    let mut entries: Vec<Entry> = ends
        .map(|end| (Sample::End(end.letter), end.name.into()))
        .collect();
    if card.steps().len() > 1 {
        entries.push((Sample::Step, "step of the card".into()));
        entries.push((Sample::StepWindow, "a step's window".into()));
    }
    if card.has_way() {
        entries.push((Sample::Way, "a way to drive it".into()));
    }
    if let Some(no_route) = card.no_route() {
        if !no_route.reached.is_empty() {
            entries.push((Sample::Cell(REACHED), "reached from source".into()));
        }
        if !no_route.closing.is_empty() {
            entries.push((Sample::Closing, "in the way".into()));
        }
    }
    entries
}

/// An entry's sample around the origin.
fn draw_sample(sample: &Sample) -> String {
    let half = CELL / 2.0;
    let upright = [(0.0, -half), (0.0, half)];
    let cell = |fill: &str| {
        let list: &Attributes = &[("fill", &fill), ("stroke", &FAINT), ("stroke-width", &0.8)];
        rect((-half, -half), (CELL, CELL), list)
    };
    match sample {
        Sample::Cell(fill) => cell(fill),
        Sample::Changed => frame((0.0, 0.0), FRAME),
        Sample::Window => {
            let points = [-half * 0.7, half * 0.7]
                .map(|x| circle((x, 0.0), CELL * 0.19, &[("fill", &WINDOW)]));
            bar(&upright, WINDOW, BAR) + &points.concat()
        }
        Sample::StepWindow => bar(&upright, STEP_WINDOW, BAR),
        Sample::Way => {
            let list: &Attributes = &[("stroke", &ROUTE), ("stroke-width", &3)];
            line(&[(-half, 0.0), (half, 0.0)], list)
        }
        Sample::Step => badge((0.0, 0.0), 1, CELL * 0.44),
        Sample::End(letter) => end((0.0, 0.0), CELL * 0.44, *letter),
        Sample::Closing => closing((0.0, 0.0), CELL * 0.44),
    }
}
