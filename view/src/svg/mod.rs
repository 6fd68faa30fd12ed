//! A floor as an SVG picture, for screens and for print.

mod apart;
mod axes;
mod badges;
mod caption;
mod colours;
mod floor;
mod legend;
mod numbers;
mod route;
mod shades;
mod shapes;
mod sheet;

use crate::card::Card;
use crate::scene::Scene;
use numbers::Numbers;
use sheet::Sheet;

/// The picture of a hall, and of a card on it.
pub fn draw(scene: Scene) -> String {
    draw_each(&[scene])
}

/// The picture of one hall at several moments, each below the one before.
pub fn draw_each(scenes: &[Scene]) -> String {
    let mut sheets: Vec<Sheet> = vec![];
    for scene in scenes {
        let begin = sheets.last().map_or(0.0, Sheet::end);
        let mut sheet = Sheet::new(*scene, begin);
        draw_on(&mut sheet);
        sheets.push(sheet);
    }
    sheet::picture(&sheets)
}

fn draw_on(sheet: &mut Sheet) {
    let scene = sheet.scene;
    let no_route = scene.card.and_then(Card::no_route);
    caption::draw_title(sheet);
    axes::draw(sheet);
    if let Some(no_route) = no_route {
        apart::draw_area(sheet, no_route);
    }
    floor::draw(sheet);
    if let Some(card) = scene.card {
        route::draw(sheet, card);
    }
    let numbers = Numbers::of(sheet);
    numbers::midpoints(sheet, &numbers);
    let marks = scene.card.map(|card| badges::marks(sheet, card, &numbers));
    numbers.draw(sheet);
    if let Some(no_route) = no_route {
        apart::draw_closing(sheet, no_route);
    }
    let marks = marks.into_iter().flatten();
    marks.for_each(|mark| sheet.add(mark));
    legend::draw(sheet);
    caption::draw(sheet);
}
