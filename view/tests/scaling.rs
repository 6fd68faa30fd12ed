//! What scaling closes and what it leaves open: the documents have one wording for it, and
//! the library does what it says.

mod common;

use common::{Draw, drawn_hall, repository_text};
use hallview::card::{Answer, Card};
use hallview::drawing::{self, Drawn};
use hallview::floor::{Floor, Place, sector_of};
use hallview::gaps::{self, DUTY, RULE};
use hallview::hall::Hall;
use hallview::words::counted;

/// The words of a document alone: no line ends, no signs of comments, no code marks.
fn words_of(path: &str) -> String {
    let text = repository_text(path)
        .replace(['`', '*'], " ")
        .replace("//", " ");
    text.split_whitespace().collect::<Vec<&str>>().join(" ")
}

#[test]
fn every_document_has_the_one_wording() {
    let documents = [
        "README.md",
        "view/README.md",
        "include/hall.h",
        "docs/AUDIT.md",
    ];
    for path in documents {
        assert!(words_of(path).contains(&format!("{RULE} {DUTY}")), "{path}");
    }
    assert!(words_of("sample/parcels.txt").contains(RULE));
}

/// A hall of one sector with rows of these cells, the others open.
fn with_rows(rows: std::ops::Range<usize>, cells: &str, scale: u8) -> Hall {
    let row = |y| {
        if rows.contains(&y) {
            cells
        } else {
            ".........."
        }
    };
    let drawn: Vec<&str> = (0..10).map(row).collect();
    let text = format!("scale {scale}\n{}\n", drawn.join("\n"));
    Hall::build(drawing::read(text.as_bytes()).unwrap().floor)
}

/// The cells of a row, as the terminal draws them.
fn scaled_row(hall: &Hall, y: usize) -> String {
    let sign = |x| match (hall.is_open((x, y)), hall.is_narrow((x, y))) {
        (true, _) => '·',
        (_, true) => '░',
        _ => '█',
    };
    (0..10).map(sign).collect()
}

/// Whether a trolley gets from the north to the south past a wall with a gap of some cells.
fn passes(gap: usize, scale: u8) -> bool {
    let wall = format!("{:#<2$}{:.<1$}", "", gap, 30 - gap) + &"#".repeat(30);
    let open = ".".repeat(60) + "\n";
    let text = format!("scale {scale}\n{0}{wall}\n{0}", open.repeat(4)) + &open;
    let hall = Hall::build(drawing::read(text.as_bytes()).unwrap().floor);
    let ends = [(30, 0), (30, 9)].map(|place| hall.floor.number(place));
    matches!(
        Card::of(&hall, (ends[0], ends[1])).answer,
        Answer::Route { .. }
    )
}

/// The table of view/README.md.
fn table() -> String {
    let drawn = "#.#..#...#";
    let mut text = format!(
        "| scale | a trolley of that radius is wide | the row `{drawn}` becomes | the narrowest gap that still gets a route |\n|---|---|---|---|\n"
    );
    for scale in 1..=4u8 {
        let narrowest = (1..30).find(|gap| passes(*gap, scale)).unwrap();
        let row = scaled_row(&with_rows(5..6, drawn, scale), 5);
        let narrowest = counted(narrowest, "cell");
        text.push_str(&format!(
            "| {scale} | {} cells | `{row}` | {narrowest} |\n",
            2 * scale
        ));
    }
    text
}

#[test]
fn the_table_is_what_the_library_does() {
    let table = table();
    assert!(
        repository_text("view/README.md").contains(&table),
        "view/README.md has another table than this:\n{table}"
    );
}

/// The cells from a blocked cell in a direction up to the next blocked cell or the end of the
/// floor, by the costs that were drawn.
fn gap_from(floor: &Floor, from: Place, (right, down): (isize, isize)) -> Vec<Place> {
    let inside = |(x, y): Place| x < floor.width() && y < floor.height();
    let next = |&(x, y): &Place| {
        Some((x.wrapping_add_signed(right), y.wrapping_add_signed(down)))
            .filter(|place| inside(*place) && floor.costs[floor.number(*place)] != 255)
    };
    std::iter::successors(next(&from), next).collect()
}

/// In each direction in which a blocked cell sees a gap of fewer cells than the scale, the
/// cell beside it, if it lies in the same sector.
fn closed_beside(floor: &Floor, from: Place) -> Vec<Place> {
    let directions = (-1..=1).flat_map(|right| (-1..=1).map(move |down| (right, down)));
    directions
        .filter(|direction| *direction != (0, 0))
        .map(|direction| gap_from(floor, from, direction))
        .filter(|gap| (1..floor.scale.into()).contains(&gap.len()))
        .map(|gap| gap[0])
        .filter(|beside| sector_of(*beside) == sector_of(from))
        .collect()
}

#[test]
fn a_narrow_gap_is_closed_beside_each_blocked_cell_that_sees_it() {
    let (mut draw, mut closed) = (Draw(11), 0);
    for _ in 0..120 {
        let hall = drawn_hall(&mut draw, 9);
        for place in hall.floor.places().filter(|place| hall.base(*place) == 255) {
            let cells = closed_beside(&hall.floor, place);
            assert!(cells.iter().all(|cell| !hall.is_open(*cell)));
            closed += cells.len();
        }
    }
    assert!(closed > 10_000);
}

#[test]
fn a_corridor_to_the_end_of_the_floor_can_close_from_there() {
    let wall = with_rows(5..6, "#.#..#...#", 2);
    let corridor = with_rows(0..10, "#.#..#...#", 2);
    assert_eq!(scaled_row(&wall, 5), "█░█··█···█");
    assert_eq!(scaled_row(&corridor, 5), "█░█░░█···█");
}

#[test]
fn what_lies_behind_a_cell_already_closed_can_stay_open() {
    // From 2,3 the cells before 2,7 are closed, 2,5 among them. So 3,5 sees no gap to the west.
    let rows = [3, 5, 7].map(|y| (if y == 5 { 3 } else { 2 }, y));
    let drawn = |x, y| if rows.contains(&(x, y)) { '#' } else { '.' };
    let line = |y| {
        (0..10)
            .map(|x| drawn(x, y))
            .chain(['\n'])
            .collect::<String>()
    };
    let text = "scale 4\n".to_string() + &(0..10).map(line).collect::<String>();
    let hall = Hall::build(drawing::read(text.as_bytes()).unwrap().floor);
    assert_eq!(
        [0, 1, 2].map(|x| hall.is_open((x, 5))),
        [false, true, false]
    );
    let told = warning(&hall, 4).unwrap();
    assert!(
        told.contains("3 cells from 0,5 to 2,5; block in the drawing"),
        "{told}"
    );
}

/// The warning for a trolley that is some cells wide.
fn warning(hall: &Hall, width: usize) -> Option<String> {
    let mut drawn = Drawn::plain(hall.floor.clone(), vec![]);
    drawn.width = Some(width);
    gaps::warning(hall, &drawn)
}

#[test]
fn a_trolley_wider_than_the_gaps_that_stay_open_is_warned_of() {
    let hall = with_rows(3..7, "#.###...##", 2);
    assert_eq!((warning(&hall, 1), warning(&hall, 2)), (None, None));
    assert_eq!(
        warning(&hall, 3).unwrap(),
        "the trolley is 3 cells wide, and scale 2 closes only gaps of fewer than 2 cells; \
         no gap of this floor is narrower; for this trolley take scale 3"
    );
    assert_eq!(
        warning(&hall, 10).unwrap(),
        "the trolley is 10 cells wide, and scale 2 closes only gaps of fewer than 2 cells; \
         16 narrower gaps of this floor stay open, the narrowest: 3 cells from 5,3 to 7,3; \
         no scale is above 9: make the cells larger"
    );
    let one = warning(&with_rows(3..4, "#.########", 1), 2).unwrap();
    assert!(
        one.contains("1 narrower gap of this floor stays open: 1 cell at 1,3; for"),
        "{one}"
    );
}
