//! Why there is no route: what the source reaches, and what is in the way.

mod common;

use common::{Draw, drawn_hall};
use hallview::card::{Answer, Card};
use hallview::drawing;
use hallview::hall::Hall;
use hallview::scene::Scene;
use hallview::{svg, terminal};
use proved::Store;

#[test]
fn there_is_no_route_where_the_source_does_not_reach_the_goal() {
    let (mut draw, mut apart) = (Draw(7), 0);
    for _ in 0..100 {
        let hall = drawn_hall(&mut draw, 4);
        let cells = hall.floor.costs.len();
        for _ in 0..20 {
            let pair = (draw.below(cells), draw.below(cells));
            let Answer::None(no_route) = Card::of(&hall, pair).answer else {
                continue;
            };
            let [source, goal] = [pair.0, pair.1].map(|number| hall.floor.place(number));
            assert_eq!(no_route.reached.contains(&source), hall.is_open(source));
            assert!(!no_route.reached.contains(&goal));
            assert!(no_route.closing.iter().all(|place| !hall.is_open(*place)));
            for place in &no_route.reached {
                let mut beside = hall.floor.beside(*place);
                assert!(beside.all(|p| no_route.reached.contains(&p) || !hall.is_open(p)));
            }
            apart += 1;
        }
    }
    assert!(apart > 200);
}

#[test]
fn at_scale_1_a_route_is_there_once_the_cells_in_the_way_are_open() {
    let (mut draw, mut opened) = (Draw(9), 0);
    for _ in 0..40 {
        let hall = drawn_hall(&mut draw, 1);
        let cells = hall.floor.costs.len();
        for _ in 0..5 {
            let pair = (draw.below(cells), draw.below(cells));
            let Answer::None(no_route) = Card::of(&hall, pair).answer else {
                continue;
            };
            let mut floor = hall.floor.clone();
            for (at, place) in no_route.closing.iter().enumerate() {
                // One cell less is not enough.
                let still = Card::of(&Hall::build(floor.clone()), pair);
                assert!(still.no_route().is_some(), "{at}");
                let number = floor.number(*place);
                floor.costs[number] = 1;
            }
            assert!(!Card::of(&Hall::build(floor), pair).steps().is_empty());
            opened += 1;
        }
    }
    assert!(opened > 50);
}

fn hall(text: &str) -> Hall {
    Hall::build(drawing::read(text.as_bytes()).unwrap().floor)
}

/// Two sectors side by side that a wall keeps apart but for one place, at a scale.
fn walled(gap: char, scale: u8) -> Hall {
    let rows = |row: &str, count: usize| format!("{row}\n").repeat(count);
    let wall = rows(".........#|..........", 5);
    let gap = format!(".........{gap}|..........\n");
    hall(&format!(
        "scale {scale}\n{wall}{gap}{}",
        rows(".........#|..........", 4)
    ))
}

#[test]
fn a_closed_border_is_told_with_its_cells() {
    let hall = walled('#', 1);
    let card = Card::of(&hall, (50, 159));
    assert_eq!(card.line(), "50 159 none");
    assert_eq!(
        card.outcome(&hall),
        "no route: the source reaches 90 cells; in the way: 9,5"
    );
    assert_eq!(
        card.details(&hall),
        [
            "the source reaches 90 cells: x 0 to 8, y 0 to 9, in sector 0,0",
            "in the way to the goal, where it is least: 1 cell",
            "  9,5: cell 59 of sector 0,0, on the border to sector 1,0, blocked",
            "at scale 1 a gap there needs 1 cell or more",
        ]
    );
}

#[test]
fn a_gap_closed_by_scaling_is_told_before_a_wall() {
    let hall = walled('.', 2);
    let card = Card::of(&hall, (33, 155));
    let details = card.details(&hall);
    assert_eq!(
        details[1],
        "in the way to the goal, where it is least: 1 cell"
    );
    assert_eq!(
        details[2],
        "  9,5: cell 59 of sector 0,0, on the border to sector 1,0, closed by scaling"
    );
    assert_eq!(details[3], "at scale 2 a gap there needs 2 cells or more");
    assert!(!Card::of(&walled('.', 1), (33, 155)).steps().is_empty());
}

#[test]
fn one_wall_is_less_in_the_way_than_a_long_corridor_closed_by_scaling() {
    let rows = |row: &str, count: usize| format!("{row}\n").repeat(count);
    let (open, gap, wall) = ("..........", "#....###.#", "########.#");
    let drawn = [(open, 3), (gap, 2), (wall, 1), (gap, 2), (open, 2)];
    let text: String = drawn.map(|(row, count)| rows(row, count)).concat();
    let hall = hall(&format!("scale 2\n{text}"));
    assert!((3..8).all(|y| hall.is_narrow((8, y))));
    let card = Card::of(&hall, (15, 95));
    let details = card.details(&hall);
    assert_eq!(
        details[1],
        "in the way to the goal, where it is least: 1 cell"
    );
    assert!(details[2].ends_with(", blocked"), "{}", details[2]);
}

#[test]
fn a_blocked_end_is_told() {
    let hall = walled('.', 2);
    let outcome = |pair| Card::of(&hall, pair).outcome(&hall);
    assert_eq!(outcome((9, 33)), "no route: the source 9,0 is blocked");
    assert_eq!(outcome((33, 9)), "no route: the goal 9,0 is blocked");
    assert_eq!(
        outcome((33, 59)),
        "no route: the goal 9,5 is closed by scaling"
    );
    let details = Card::of(&hall, (9, 33)).details(&hall);
    assert_eq!(details[0], "the source reaches no cell");
}

#[test]
fn thick_walls_are_cut_short() {
    let hall = hall(&".############.......\n".repeat(10));
    let details = Card::of(&hall, (0, 199)).details(&hall);
    assert_eq!(
        details[1],
        "in the way to the goal, where it is least: 12 cells"
    );
    assert_eq!((details.len(), details[10].as_str()), (12, "  and 4 more"));
}

#[test]
fn both_pictures_show_the_area_and_what_is_in_the_way() {
    let hall = walled('#', 1);
    let shown = |pair| {
        let card = Card::of(&hall, pair);
        let scene = Scene::of(&hall, Some(&card));
        (terminal::draw(scene, false), svg::draw(scene))
    };
    let (text, picture) = shown((50, 159));
    let (floor, legend) = text.split_once("\n\n").unwrap();
    let count = |sign| floor.chars().filter(|c| *c == sign).count();
    // The source has a sign of its own; a cell is two characters wide.
    assert_eq!((count('+'), count('×')), (89, 2));
    assert!(legend.contains("+ the source reaches it") && legend.contains("× in the way"));
    assert!(picture.contains(">reached from source</text>"));
    assert!(picture.contains(">in the way</text>"));
    let (text, picture) = shown((50, 51));
    assert!(!text.contains(['+', '×']) && !picture.contains(">in the way</text>"));
}

#[test]
fn an_old_border_may_keep_a_route_away_where_no_cell_does() {
    let text = "....................\n".repeat(10);
    let mut hall = Hall::build(drawing::read(text.as_bytes()).unwrap().floor);
    let mut bytes = hall.store.bytes().to_vec();
    let marks = bytes.len() - 16;
    bytes[marks..].fill(0);
    hall.store = Store::from_bytes(bytes).unwrap();
    let card = Card::of(&hall, (0, 100));
    assert_eq!(
        card.outcome(&hall),
        "no route: no cell is in the way, but a border that the changes did not mark afresh"
    );
    assert_eq!(
        card.details(&hall),
        ["the source reaches 200 cells: x 0 to 19, y 0 to 9, in sectors 0,0 1,0"]
    );
    let scene = Scene::of(&hall, Some(&card));
    assert!(!terminal::draw(scene, false).contains("× in the way"));
    assert!(!svg::draw(scene).contains(">in the way<"));
}
