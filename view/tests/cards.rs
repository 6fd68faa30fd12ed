//! Hall files, cards and the ways drawn for them, on the samples and on drawn floors.

mod common;

use std::fs;

use common::{Draw, drawn_hall};
use hallview::card::{Answer, Card};
use hallview::floor::Place;
use hallview::hall::Hall;
use hallview::hall_file::{self, HallFile};
use hallview::walk::walk;

const SAMPLES: [&str; 3] = ["chutes", "corner_gate", "two_sectors"];

fn sample(name: &str) -> Vec<u8> {
    fs::read(format!(
        "{}/../sample/{name}.hall",
        env!("CARGO_MANIFEST_DIR")
    ))
    .unwrap()
}

#[test]
fn cards_are_the_lines_of_hallroute() {
    for name in SAMPLES {
        let input = sample(name);
        let HallFile { floor, pairs, .. } = hall_file::read(&input).unwrap();
        let hall = Hall::build(floor);
        let card = |pair: &(usize, usize)| Card::of(&hall, *pair).line() + "\n";
        let lines: String = pairs.iter().map(card).collect();
        assert_eq!(lines.into_bytes(), second::hallroute(&input), "{name}");
    }
}

#[test]
fn a_hall_file_that_is_written_reads_as_the_same_hall() {
    for name in SAMPLES {
        let read = hall_file::read(&sample(name)).unwrap();
        let mut written = Hall::build(read.floor.clone()).file();
        written.extend(read.pairs.iter().copied().flat_map(hall_file::write_pair));
        assert_eq!(hall_file::read(&written), Ok(read), "{name}");
    }
}

#[test]
fn refused_hall_files() {
    let refused = |bytes: &[u8]| hall_file::read(bytes).unwrap_err();
    assert_eq!(refused(&[]), 10);
    assert_eq!(refused(&[11, 1, 1, 0, 0]), 11);
    assert_eq!(refused(&[1, 1, 0, 0, 0]), 12);
    assert_eq!(refused(&[1, 1, 1, 255, 255]), 13);
    assert_eq!(refused(&[1, 1, 1, 1, 0]), 14);
    assert_eq!(refused(&[1, 1, 1, 1, 0, 100, 0, 255]), 15);
    assert_eq!(refused(&[1, 1, 1, 3, 0, 0, 0, 0, 0, 100, 0, 1, 1, 1]), 15);
    assert_eq!(refused(&[1, 1, 1, 2, 0, 7, 0, 7, 0, 5, 5]), 28);
}

fn are_beside(a: Place, b: Place) -> bool {
    a.0.abs_diff(b.0) + a.1.abs_diff(b.1) == 1
}

#[test]
fn a_way_has_as_many_moves_as_leg_and_run() {
    let mut draw = Draw(5);
    let mut longest = 0;
    for _ in 0..60 {
        let hall = drawn_hall(&mut draw, 3);
        let cells = hall.floor.costs.len();
        for _ in 0..20 {
            let card = Card::of(&hall, (draw.below(cells), draw.below(cells)));
            let Answer::Route { steps, leg, run } = &card.answer else {
                assert!(walk(&hall, &card).is_empty());
                continue;
            };
            let way = walk(&hall, &card);
            assert_eq!(way.len() as u32, leg + run + 1, "{}", card.line());
            assert!(
                way.windows(2).all(|pair| are_beside(pair[0], pair[1])),
                "{}",
                card.line()
            );
            assert!(way.len() == 1 || way.iter().all(|place| hall.is_open(*place)));
            longest = longest.max(steps.len());
        }
    }
    assert!(longest > 5);
}
