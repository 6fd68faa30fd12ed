//! Cells that stand twice in a hall file: which files are refused for it, what a planner is
//! told, and that no drawing gives such a file.

mod common;
#[path = "common/program.rs"]
mod program;

use std::collections::BTreeMap;

use common::{Draw, drawn_hall, hall_file_of, repository_text};
use hallview::drawing;
use hallview::hall::Hall;
use hallview::hall_file::{self, Entry};
use hallview::repeats::{find, told};
use program::{Folder, problem};

fn listed(entries: &[(usize, u8)]) -> Vec<Entry> {
    let entries = entries.iter();
    entries
        .map(|&(number, cost)| Entry { number, cost })
        .collect()
}

/// A hall file of 2 by 1 sectors.
fn file(entries: &[(usize, u8)]) -> Vec<u8> {
    hall_file_of([2, 1, 1], &listed(entries))
}

fn of_drawing(text: &str) -> Vec<u8> {
    Hall::build(drawing::read(text.as_bytes()).unwrap().floor).file()
}

/// Where cells stand twice among entries for these.
fn found(numbers: &[usize]) -> Vec<(usize, usize)> {
    let entries: Vec<(usize, u8)> = numbers.iter().map(|number| (*number, 5)).collect();
    find(&listed(&entries))
}

#[test]
fn the_first_two_entries_of_a_cell_are_found() {
    assert_eq!(found(&[]), []);
    assert_eq!(found(&[9, 8, 7]), []);
    assert_eq!(found(&[7, 7]), [(1, 2)]);
    assert_eq!(found(&[0, 256, 0]), [(1, 3)]);
    assert_eq!(found(&[1, 2, 3, 2, 1]), [(2, 4), (1, 5)]);
    assert_eq!(found(&[9, 3, 9, 3, 9]), [(1, 3), (2, 4)]);
}

#[test]
fn cell_entries_and_costs_are_told() {
    let one = file(&[(7, 0), (144, 255), (8, 2), (144, 40)]);
    let said = "floor number 144 (14,4) stands twice: of 4 entries, counted from 1, \
                entry 2 has it blocked and entry 4 open at cost 40; keep one of them";
    assert_eq!(told(&one), said);
    let pair = hall_file::write_pair((7, 7));
    assert_eq!(told(&[one, pair].concat()), said);
    let alike = told(&file(&[(7, 1), (7, 1)]));
    assert!(alike.contains("entry 1 has it open at cost 1 and entry 2 open at cost 1; keep"));
}

#[test]
fn other_cells_are_counted() {
    let two = told(&file(&[(5, 9), (6, 9), (6, 8), (5, 8), (6, 7)]));
    assert!(two.starts_with("floor number 6 (6,0) stands twice: of 5 entries"));
    assert!(two.ends_with("keep one of them; 1 more cell stands twice"));
    let three = told(&file(&[(5, 9), (5, 8), (6, 9), (6, 8), (7, 9), (7, 8)]));
    assert!(three.ends_with("keep one of them; 2 more cells stand twice"));
}

#[test]
fn files_are_refused_just_where_a_cell_is_found_twice() {
    let mut draw = Draw(28);
    let mut counts = BTreeMap::new();
    for _ in 0..2_000 {
        let count = draw.below(25);
        let entry = |_| (draw.below(201), draw.below(256) as u8);
        let entries: Vec<(usize, u8)> = (0..count).map(entry).collect();
        let owed = if entries.iter().any(|(number, _)| *number == 200) {
            Some(15)
        } else if find(&listed(&entries)).is_empty() {
            None
        } else {
            Some(28)
        };
        assert_eq!(hall_file::read(&file(&entries)).err(), owed, "{entries:?}");
        *counts.entry(owed).or_insert(0) += 1;
    }
    assert!(counts.len() == 3 && counts.values().all(|count| *count > 100));
}

#[test]
fn two_drawings_that_are_merged() {
    let belts = repository_text("sample/parcels.txt");
    let ramp_closed = belts.replace('#', ".").replace("~~~~", "####");
    let entries = [&belts, &ramp_closed].map(|text| hall_file::entries(&of_drawing(text)));
    let folder = Folder::new("merged");
    let merged = hall_file_of([3, 2, 2], &entries.concat());
    let name = folder.written("merged.hall", merged);
    let said = problem(&[&name]).replace(&name, "merged.hall");
    assert!(said.starts_with("merged.hall: refused 28, floor number 244 (14,4) stands twice: "));
    let readme = repository_text("view/README.md");
    assert!(readme.contains(&format!("    {said}\n")), "{said}");
}

fn assert_ascending(file: &[u8]) {
    let entries = hall_file::entries(file);
    assert!(!entries.is_empty());
    assert!(entries.is_sorted_by(|one, next| one.number < next.number));
}

#[test]
fn no_drawing_gives_a_cell_twice() {
    let ends = "pair 0,0 9,9\npair 0 99\npair 9,9 9,9\n~ = 1\n^ = 7\n";
    let marked = format!("{ends}S.^~~##05G\n{}", "0123456789\n".repeat(9));
    for text in [
        repository_text("sample/parcels.txt"),
        repository_text("sample/closed.txt"),
        marked,
    ] {
        assert_ascending(&of_drawing(&text));
    }
    let mut draw = Draw(1);
    for _ in 0..100 {
        let mut floor = drawn_hall(&mut draw, 9).floor;
        floor.costs[0] = 255;
        assert_ascending(&Hall::build(floor).file());
    }
}
