//! The pictures of the sample drawing are those of the repository.

mod common;

use common::repository_text;
use hallview::card::Card;
use hallview::changes::{self, Moment};
use hallview::hall::Hall;
use hallview::scene::Scene;
use hallview::{drawing, svg, terminal};

fn sample() -> (Hall, Card) {
    let drawn = drawing::read(repository_text("sample/parcels.txt").as_bytes()).unwrap();
    let hall = Hall::build(drawn.floor);
    let card = Card::of(&hall, drawn.pairs[0]);
    (hall, card)
}

#[test]
fn the_picture_in_docs_is_that_of_the_sample() {
    let (hall, card) = sample();
    let mut scene = Scene::of(&hall, Some(&card));
    scene.name = Some("parcels.txt");
    assert!(
        svg::draw(scene) == repository_text("docs/hall.svg"),
        "run view/pictures.sh"
    );
}

#[test]
fn the_picture_in_docs_of_a_change_is_that_of_the_sample() {
    let (hall, card) = sample();
    let changes = ["6,7=1", "8,12=blocked"].map(String::from);
    let changes = changes::read(&hall.floor, &changes).unwrap();
    let changed = hall.changed(&changes).unwrap();
    let changed_card = Card::of(&changed, (card.source, card.goal));
    let scene = |hall, card, moment| Scene {
        moment,
        name: Some("parcels.txt"),
        ..Scene::of(hall, Some(card))
    };
    let picture = svg::draw_each(&[
        scene(&hall, &card, Moment::Before(&changes)),
        scene(&changed, &changed_card, Moment::After(&changes)),
    ]);
    assert!(
        picture == repository_text("docs/changed.svg"),
        "run view/pictures.sh"
    );
}

#[test]
fn the_terminal_shows_the_sample() {
    let (hall, card) = sample();
    assert!(
        terminal::draw(Scene::of(&hall, Some(&card)), false) == repository_text("docs/hall.txt"),
        "run view/pictures.sh"
    );
}

/// A hall of 10 by 6 sectors whose rows of sectors are joined at the east and west end by turns.
fn winding() -> (Hall, Card) {
    common::winding(6, 9)
}

#[test]
fn late_steps_take_one_column_and_are_listed_by_number() {
    let (hall, card) = winding();
    let count = card.steps().len();
    assert!(count > 50);
    let text = terminal::draw(Scene::of(&hall, Some(&card)), false);
    let (floor, below) = text.split_once("\n\n").unwrap();
    let signs = |wanted: char| floor.chars().filter(|sign| *sign == wanted).count();
    assert_eq!((signs('①'), signs('⑳')), (1, 1));
    // The last step is drawn as the goal.
    assert_eq!((signs('◉'), signs('G')), (count - 21, 1));
    for number in 1..=count {
        assert!(below.contains(&format!("\n  {number:>2}  sector ")));
    }
}

#[test]
fn the_legend_tells_the_signs_of_a_card_that_are_drawn() {
    let signs = [
        "S source",
        "G goal",
        "① step",
        "─ a way",
        "◉ step after the 20th",
    ];
    let assert_told = |hall: &Hall, card: Option<&Card>, told: usize| {
        let text = terminal::draw(Scene::of(hall, card), false);
        for (at, sign) in signs.iter().enumerate() {
            assert_eq!(text.contains(sign), at < told, "{sign}");
        }
    };
    let ((hall, card), (long, long_card)) = (sample(), winding());
    assert_told(&hall, None, 0);
    let blocked = hall.floor.number((0, 7));
    assert_told(&hall, Some(&Card::of(&hall, (card.source, blocked))), 2);
    assert_told(&hall, Some(&card), 4);
    assert_told(&long, Some(&long_card), 5);
    let standing = terminal::draw(Scene::of(&hall, Some(&Card::of(&hall, (344, 344)))), false);
    assert!(standing.contains("S source and goal\n"));
}

#[test]
fn no_legend_may_take_a_sign_that_is_drawn() {
    for (hall, card) in [sample(), winding()] {
        let text = terminal::draw(Scene::of(&hall, Some(&card)), false);
        let (floor, _) = text.split_once("\n\n").unwrap();
        for sign in floor.chars().filter(|sign| !"~ \n".contains(*sign)) {
            let legend = format!("{sign} = 4\n{}", "..........\n".repeat(10));
            let problem = drawing::read(legend.as_bytes()).unwrap_err();
            assert_eq!((problem.line, problem.column), (1, 1), "{sign}");
        }
    }
}

#[test]
fn colours_change_no_character() {
    let (hall, card) = sample();
    let mut plain = String::new();
    for (at, part) in terminal::draw(Scene::of(&hall, Some(&card)), true)
        .split("\x1b[")
        .enumerate()
    {
        let text = if at == 0 {
            part
        } else {
            part.split_once('m').unwrap().1
        };
        plain.push_str(text);
    }
    assert_eq!(plain, terminal::draw(Scene::of(&hall, Some(&card)), false));
}

#[test]
fn every_element_of_the_picture_is_closed() {
    let (hall, card) = sample();
    let text = svg::draw(Scene::of(&hall, Some(&card)));
    let mut open = vec![];
    for tag in text.split('<').skip(1) {
        let (inside, _) = tag.split_once('>').unwrap();
        let name = inside.split([' ', '/']).next().unwrap();
        if let Some(closed) = inside.strip_prefix('/') {
            assert_eq!(open.pop(), Some(closed));
        } else if !inside.ends_with('/') {
            open.push(name);
        }
    }
    assert!(open.is_empty());
}
