//! Pictures, and the elements of one by name and attributes.
#![allow(dead_code)]

use hallview::card::Card;
use hallview::hall::Hall;
use hallview::scene::Scene;
use hallview::{drawing, svg};

/// An element of a picture: its name, its attributes and the text in it.
#[derive(Debug, Clone)]
pub struct Element {
    pub name: String,
    attributes: String,
    pub text: String,
}

impl Element {
    /// The value of an attribute as text.
    pub fn value(&self, attribute: &str) -> Option<String> {
        let (_, rest) = self.attributes.split_once(&format!(" {attribute}=\""))?;
        Some(rest.split_once('"')?.0.to_string())
    }

    /// The value of an attribute that is a number.
    pub fn number(&self, attribute: &str) -> f64 {
        self.value(attribute).unwrap().parse().unwrap()
    }

    pub fn has(&self, attribute: &str, value: &str) -> bool {
        self.value(attribute).is_some_and(|found| found == value)
    }
}

/// What an element covers: left, top, right, bottom.
pub type Cover = [f64; 4];

/// Whether two covers have a part in common.
pub fn overlap(a: Cover, b: Cover) -> bool {
    a[0] < b[2] && b[0] < a[2] && a[1] < b[3] && b[1] < a[3]
}

/// Lines, rectangles, circles and texts; of a text the part that its digits fill.
pub fn cover(element: &Element) -> Cover {
    let at = |name| element.number(name);
    match element.name.as_str() {
        "rect" => [
            at("x"),
            at("y"),
            at("x") + at("width"),
            at("y") + at("height"),
        ],
        "circle" => {
            let (x, y, r) = (at("cx"), at("cy"), at("r"));
            [x - r, y - r, x + r, y + r]
        }
        "text" => {
            let (x, y, size) = (at("x"), at("y"), at("font-size"));
            let half = element.text.len() as f64 * size * 0.556 / 2.0;
            [x - half, y - size * 0.72, x + half, y]
        }
        _ => {
            let points = element.value("points").unwrap();
            let numbers: Vec<f64> = points
                .split([' ', ','])
                .map(|n| n.parse().unwrap())
                .collect();
            let half = at("stroke-width") / 2.0;
            // A window is a straight line, whose width is across it.
            let (across, along) = if numbers[0] == numbers[2] {
                (half, 0.0)
            } else {
                (0.0, half)
            };
            [
                numbers[0].min(numbers[2]) - across,
                numbers[1].min(numbers[3]) - along,
                numbers[0].max(numbers[2]) + across,
                numbers[1].max(numbers[3]) + along,
            ]
        }
    }
}

/// The elements of a picture in order. Those of the legend lie in groups, and are left out.
pub fn elements(picture: &str) -> Vec<Element> {
    let mut depth = 0;
    let mut elements = vec![];
    for tag in picture.split('<').skip(1) {
        let (inside, text) = tag.split_once('>').unwrap();
        let name = inside.split([' ', '/']).next().unwrap();
        match (name, inside.starts_with('/')) {
            ("g", _) => depth += 1,
            ("", true) if inside == "/g" => depth -= 1,
            (_, false) if depth == 0 => elements.push(Element {
                name: name.to_string(),
                attributes: inside.trim_end_matches('/').to_string(),
                text: text.to_string(),
            }),
            _ => {}
        }
    }
    elements
}

/// The width and height of a picture.
pub fn size(picture: &str) -> (f64, f64) {
    let sheet = &elements(picture)[0];
    let view = sheet.value("viewBox").unwrap();
    let numbers: Vec<f64> = view.split(' ').map(|n| n.parse().unwrap()).collect();
    (numbers[2], numbers[3])
}

/// The picture of a drawing, with the card of its first pair.
pub fn picture_of(text: &str) -> String {
    let drawn = drawing::read(text.as_bytes()).unwrap();
    let hall = Hall::build(drawn.floor.clone());
    let card = drawn.pairs.first().map(|pair| Card::of(&hall, *pair));
    svg::draw(Scene::of(&hall, card.as_ref()))
}
