//! What can be seen in the pictures, at 1 by 1, 3 by 2 and 10 by 10 sectors.

mod common;
#[path = "common/picture.rs"]
mod picture;

use common::winding;
use hallview::drawing;
use hallview::hall::Hall;
use hallview::scene::Scene;
use hallview::svg;
use picture::{Element, cover, elements, overlap, picture_of, size};

const STEP_WINDOW: &str = "#7c3aed";
/// Numbers of steps; source and goal.
const MARKS: [&str; 2] = ["#c2185b", "#1a4fa0"];

/// A drawing of whole sectors from a rule for each cell.
fn drawing_of(columns: usize, rows: usize, cell: impl Fn(usize, usize) -> char) -> String {
    let row = |y| {
        (0..columns * 10)
            .map(|x| cell(x, y))
            .chain(['\n'])
            .collect::<String>()
    };
    "x = 254\n~ = 40\n".to_string() + &(0..rows * 10).map(row).collect::<String>()
}

/// Sectors that only windows of one cell join, in cells that cost much; S in the first
/// sector and G in the last.
fn one_cell_windows(columns: usize, rows: usize) -> String {
    let (last_x, last_y) = (columns * 10 - 2, rows * 10 - 2);
    drawing_of(columns, rows, |x, y| match (x % 10, y % 10) {
        _ if (x, y) == (1, 1) => 'S',
        _ if (x, y) == (last_x, last_y) => 'G',
        (0 | 9, 4) => '~',
        (4, 0 | 9) => 'x',
        (0 | 9, _) | (_, 0 | 9) => '#',
        (5, 5) => '7',
        _ => '.',
    })
}

/// Pictures of three sizes, with what is drawn in small halls and in large ones.
fn three_sizes() -> [String; 3] {
    [(1, 1), (3, 2), (10, 10)].map(|(columns, rows)| picture_of(&one_cell_windows(columns, rows)))
}

fn texts(picture: &str) -> Vec<Element> {
    let all = elements(picture).into_iter();
    all.filter(|element| element.name == "text").collect()
}

/// A text that the picture has.
fn text_of(picture: &str, text: &str) -> Element {
    let found = texts(picture)
        .into_iter()
        .find(|element| element.text == text);
    found.unwrap_or_else(|| panic!("no {text}"))
}

#[test]
fn every_text_can_be_read() {
    for picture in three_sizes() {
        let (width, _) = size(&picture);
        for text in texts(&picture) {
            let part = text.number("font-size") / width;
            assert!(part >= 0.008, "{} is {part} of the width", text.text);
        }
    }
}

#[test]
fn the_caption_keeps_its_size_in_a_large_hall() {
    for picture in three_sizes() {
        let (width, _) = size(&picture);
        for text in ["blocked", "column 0", ", leg ", " of sectors, scale 1"] {
            let all = texts(&picture);
            let found = all.iter().find(|element| element.text.contains(text));
            let part = found.unwrap().number("font-size") / width;
            assert!((0.016..0.025).contains(&part), "{text}: {part}");
        }
    }
}

#[test]
fn digits_beside_the_floor_have_room() {
    for picture in three_sizes() {
        let (width, _) = size(&picture);
        let faint =
            |text: &Element| text.has("fill", "#57606a") && text.has("text-anchor", "middle");
        let digits: Vec<Element> = texts(&picture).into_iter().filter(faint).collect();
        assert!(digits.len() >= 20);
        for (at, digit) in digits.iter().enumerate() {
            assert!(digit.number("font-size") / width > 0.01);
            let others = &digits[..at];
            let room = digit.number("font-size") * 0.3;
            let [left, top, right, bottom] = cover(digit);
            let around = [left - room, top - room, right + room, bottom + room];
            assert!(!others.iter().any(|other| overlap(around, cover(other))));
        }
    }
}

/// The numbers of costs that are written into cells.
fn costs(picture: &str) -> Vec<Element> {
    let inks = ["#4d3200", "#ffffff"];
    let is_cost = |text: &Element| {
        let cost = ["7", "40", "254"].contains(&text.text.as_str());
        cost && text.value("font-weight").is_none() && inks.iter().any(|ink| text.has("fill", ink))
    };
    texts(picture).into_iter().filter(is_cost).collect()
}

#[test]
fn costs_are_not_covered() {
    let [one, three, _] = three_sizes();
    assert_eq!((costs(&one).len(), costs(&three).len()), (5, 30));
    for picture in [one, three] {
        let all = elements(&picture);
        let is_mark = |element: &&Element| {
            let is_badge = element.name == "rect" && element.value("rx").is_some();
            let is_border = element.name == "rect" && element.has("fill", "none");
            let is_window =
                element.name == "polyline" && element.value("stroke-linejoin").is_none();
            is_badge || is_window || is_border || element.name == "circle"
        };
        for mark in all.iter().filter(is_mark) {
            for cost in costs(&picture) {
                let covers = overlap(cover(mark), cover(&cost));
                let is_around =
                    mark.has("fill", "none") && mark.name == "rect" && !on_edge(mark, &cost);
                assert!(!covers || is_around, "{mark:?} covers {cost:?}");
            }
        }
    }
}

/// Whether the frame of a sector lies on a number.
fn on_edge(frame: &Element, number: &Element) -> bool {
    let (frame, number) = (cover(frame), cover(number));
    let inside = [
        frame[0] + 1.0 < number[0],
        frame[1] + 1.0 < number[1],
        number[2] < frame[2] - 1.0,
        number[3] < frame[3] - 1.0,
    ];
    !inside.iter().all(|is_inside| *is_inside)
}

#[test]
fn a_way_does_not_cross_a_cost_out() {
    let text = drawing_of(1, 1, |x, y| match (x, y) {
        (0, 5) => 'S',
        (9, 5) => 'G',
        (_, 5) => '~',
        _ => '#',
    });
    let picture = picture_of(&text);
    let (way, number) = (
        picture.find("stroke-linejoin").unwrap(),
        picture.rfind(">40</text>").unwrap(),
    );
    assert!(way < number);
    let plate = elements(&picture)
        .into_iter()
        .filter(|element| element.name == "rect" && element.has("fill", "#feb24c"));
    assert!(plate.clone().count() >= 8);
}

#[test]
fn a_large_hall_tells_its_costs_by_shades() {
    let [_, _, ten] = three_sizes();
    assert!(costs(&ten).is_empty());
    for cost in ["cost 7", "cost 40", "cost 254"] {
        text_of(&ten, cost);
    }
    let more = drawing_of(10, 10, |x, y| match (x, y) {
        (0, 0) => '~',
        (1, 0) => 'x',
        _ if x / 10 == 0 => '.',
        _ => char::from(b'0' + (x / 10) as u8),
    });
    let more = picture_of(&more);
    for range in [
        "cost 2",
        "cost 6 to 7",
        "cost 8 to 9",
        "cost 40",
        "cost 254",
    ] {
        text_of(&more, range);
    }
}

/// The numbers of steps with source and goal, and the windows of steps.
fn badges_and_windows(picture: &str) -> (Vec<Element>, Vec<Element>) {
    let all = elements(picture);
    let is_badge = |e: &&Element| {
        let is_mark = e.name == "rect" && e.value("rx").is_some();
        is_mark && MARKS.iter().any(|fill| e.has("fill", fill))
    };
    let is_window = |e: &&Element| e.name == "polyline" && e.has("stroke", STEP_WINDOW);
    (
        all.iter().filter(is_badge).cloned().collect(),
        all.iter().filter(is_window).cloned().collect(),
    )
}

#[test]
fn a_window_of_one_cell_is_seen_beside_the_number_of_its_step() {
    let [_, three, ten] = three_sizes();
    let (hall, card) = winding(10, 1);
    let snake = svg::draw(Scene::of(&hall, Some(&card)));
    let at_window = |cell| {
        let gap = |x, y| {
            if y == 4 {
                cell
            } else if x == 9 || x == 10 {
                '#'
            } else {
                '.'
            }
        };
        picture_of(&format!("pair 9,4 10,4\n{}", drawing_of(2, 1, gap)))
    };
    let pictures = [
        (three, 3),
        (ten, 18),
        (snake, 450),
        (at_window('.'), 1),
        (at_window('x'), 1),
    ];
    for (picture, least) in pictures {
        let (badges, windows) = badges_and_windows(&picture);
        assert!(badges.len() >= least + 2 && windows.len() >= least);
        for window in &windows {
            let seen = !badges
                .iter()
                .any(|badge| overlap(cover(badge), cover(window)));
            assert!(seen, "{window:?}");
        }
    }
}

#[test]
fn numbers_of_steps_do_not_lie_on_each_other() {
    let (hall, card) = winding(10, 1);
    let (badges, _) = badges_and_windows(&svg::draw(Scene::of(&hall, Some(&card))));
    for (at, badge) in badges.iter().enumerate() {
        assert!(
            !badges[..at]
                .iter()
                .any(|other| overlap(cover(badge), cover(other)))
        );
    }
}

#[test]
fn a_long_card_is_cut_in_the_picture() {
    let (hall, card) = winding(10, 1);
    assert!(card.steps().len() > 400);
    let picture = svg::draw(Scene::of(&hall, Some(&card)));
    let (width, height) = size(&picture);
    assert!(height < 2.0 * width, "{width} by {height}");
    let listed = texts(&picture)
        .iter()
        .filter(|text| text.text.contains("  sector "))
        .count();
    text_of(
        &picture,
        &format!("and {} more", card.steps().len() - listed),
    );
    assert!(texts(&picture).iter().any(|text| text.text.ends_with(" …")));
    let short = picture_of(&one_cell_windows(3, 2));
    assert!(!short.contains(" more</text>") && !short.contains(" …</text>"));
}

#[test]
fn the_legend_is_evenly_spaced() {
    for picture in three_sizes() {
        let first = text_of(&picture, "blocked");
        let card = texts(&picture)
            .into_iter()
            .find(|text| text.value("xml:space").is_some());
        let (from, to) = (first.number("y"), card.unwrap().number("y"));
        let entries: Vec<Element> = texts(&picture)
            .into_iter()
            .filter(|text| (from..to).contains(&text.number("y")))
            .collect();
        let steps = |name: &str| {
            let mut values: Vec<i64> = entries
                .iter()
                .map(|e| (e.number(name) * 10.0) as i64)
                .collect();
            values.sort_unstable();
            values.dedup();
            values
                .windows(2)
                .map(|pair| pair[1] - pair[0])
                .collect::<Vec<i64>>()
        };
        for steps in [steps("x"), steps("y")] {
            assert!(!steps.is_empty());
            assert!(
                steps.iter().all(|step| step.abs_diff(steps[0]) <= 1),
                "{steps:?}"
            );
        }
    }
}

#[test]
fn the_name_of_the_file_stands_in_the_picture() {
    let text = one_cell_windows(1, 1);
    let hall = Hall::build(drawing::read(text.as_bytes()).unwrap().floor);
    let titled = |name| {
        let mut scene = Scene::of(&hall, None);
        scene.name = Some(name);
        svg::draw(scene)
    };
    let measures = "1 column by 1 row of sectors, scale 1";
    text_of(&titled("a.txt"), &format!("a.txt: {measures}"));
    text_of(
        &titled("<&>.txt"),
        &format!("&lt;&amp;&gt;.txt: {measures}"),
    );
    assert!(titled("a.txt").contains(&format!("<title>a.txt: {measures}</title>")));
    text_of(&svg::draw(Scene::of(&hall, None)), measures);
    let long = titled(&"n".repeat(200));
    assert!(texts(&long).iter().any(|text| text.text.contains("nnn…:")));
}

#[test]
fn a_plan_and_a_warning_stand_in_the_picture() {
    let hall = Hall::build(
        drawing::read(one_cell_windows(2, 1).as_bytes())
            .unwrap()
            .floor,
    );
    let mut scene = Scene::of(&hall, None);
    let warnings = ["the trolley is wide".to_string()];
    (scene.planned, scene.warnings) = (Some("20 by 10 m"), &warnings);
    let picture = svg::draw(scene);
    text_of(&picture, "20 by 10 m");
    assert!(text_of(&picture, "warning: the trolley is wide").has("fill", "#d1242f"));
}
