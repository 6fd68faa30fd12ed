//! Changes on the command line: what is drawn before and after, what is written, and what is
//! refused.

mod common;
#[path = "common/picture.rs"]
mod picture;
#[path = "common/program.rs"]
mod program;

use std::fs;

use common::{Draw, drawn_hall, repository_text};
use hallview::card::{Answer, Card};
use hallview::changes::{self, Change};
use hallview::floor::{Floor, Place};
use hallview::hall::Hall;
use hallview::{drawing, hall_file};
use picture::{Element, cover, elements, overlap};
use program::{Folder, hallview, problem, sample};

/// The words of a call with changes.
fn with_changes<'a>(floor: &'a str, changes: &[&'a str], more: &[&'a str]) -> Vec<&'a str> {
    let changes = changes.iter().flat_map(|change| ["--change", change]);
    [floor]
        .into_iter()
        .chain(changes)
        .chain(more.iter().copied())
        .collect()
}

fn floor_of(text: &str) -> Floor {
    drawing::read(text.as_bytes()).unwrap().floor
}

/// A gate of the sample's north belt opened, and the door of the south belt made narrower.
const SEASON: [&str; 2] = ["6,7=1", "8,12=blocked"];

#[test]
fn the_changed_floor_is_written() {
    let folder = Folder::new("written");
    let (floor, file) = (sample("parcels.txt"), folder.name("season.hall"));
    let changes = [&SEASON[..], &["0=0", "1,0=254", "244=7"]].concat();
    let words = with_changes(&floor, &changes, &["--hall", &file]);
    assert_eq!(hallview(&words).0, Some(0));
    let mut owed = floor_of(&repository_text("sample/parcels.txt"));
    for (place, cost) in [((6, 7), 1), ((8, 12), 255), ((0, 0), 0), ((1, 0), 254)] {
        let number = owed.number(place);
        owed.costs[number] = cost;
    }
    owed.costs[244] = 7;
    let read = hall_file::read(&fs::read(file).unwrap()).unwrap();
    assert_eq!(read.floor.costs, owed.costs);
    assert_eq!((read.floor.scale, read.pairs, read.spare), (2, vec![], 0));
}

#[test]
fn the_drawing_of_the_changed_floor_gives_the_same_file() {
    let folder = Folder::new("drawing");
    let [first, second, drawing] =
        ["first.hall", "second.hall", "drawing.txt"].map(|name| folder.name(name));
    let floor = sample("parcels.txt");
    let more = ["--hall", &first, "--drawing", &drawing, "--quiet"];
    let (status, printed, said) = hallview(&with_changes(&floor, &SEASON, &more));
    assert_eq!(
        (status, printed, said),
        (Some(0), String::new(), String::new())
    );
    assert_eq!(
        hallview(&[&drawing, "--hall", &second, "--quiet"]).0,
        Some(0)
    );
    assert_eq!(fs::read(&first).unwrap(), fs::read(&second).unwrap());
    let text = fs::read_to_string(drawing).unwrap();
    assert!(text.contains("|#####..###|") && text.contains("|#########.|"));
    assert!(text.contains("|.S........|"));
}

#[test]
fn a_hall_file_is_changed_as_its_drawing_is() {
    let folder = Folder::new("hall");
    let [hall, one, other] = ["p.hall", "one.hall", "other.hall"].map(|name| folder.name(name));
    let floor = sample("parcels.txt");
    hallview(&[&floor, "--hall", &hall, "--quiet"]);
    hallview(&with_changes(&floor, &SEASON, &["--hall", &one, "--quiet"]));
    hallview(&with_changes(
        &hall,
        &SEASON,
        &["--hall", &other, "--quiet"],
    ));
    assert_eq!(fs::read(one).unwrap(), fs::read(other).unwrap());
}

#[test]
fn the_terminal_shows_before_and_after() {
    let floor = sample("parcels.txt");
    let (status, shown, said) = hallview(&with_changes(&floor, &SEASON, &["--plain"]));
    assert_eq!((status, said.as_str()), (Some(0), ""));
    let (before, after) = shown.split_once("\nafter 2 changes\n\n").unwrap();
    assert!(before.starts_with("before\n\n     0 "));
    let signs = |text: &str| ['◆', '◇'].map(|sign| text.matches(sign).count());
    // Each floor has a sign of both, and so has its legend.
    assert_eq!((signs(before), signs(after)), ([2, 2], [2, 2]));
    for text in [before, after] {
        assert!(text.contains("  ◆ changed cell, blocked  ◇ changed cell, open"));
    }
    let told = "  6,7 (floor number 76): blocked, now open at cost 1\n  \
                8,12 (floor number 128): open at cost 1, now blocked\n";
    assert!(after.contains(&format!("\n\n{told}\n")) && !before.contains("floor number"));
    assert!(repository_text("view/README.md").contains(&format!("```\n{told}```\n")));
    let unchanged = hallview(&[&floor, "--plain"]).1;
    let card = |text: &str| text.rsplit_once("\n\n").unwrap().1.to_string();
    assert_eq!(card(before), card(&unchanged));
    assert!(card(after).starts_with("11 588 ") && card(after) != card(before));
}

#[test]
fn a_change_to_the_same_cost_and_one_closed_by_scaling_are_told() {
    let floor = sample("closed.txt");
    let shown = hallview(&with_changes(&floor, &["0,0=1", "16,4=40"], &[])).1;
    assert!(shown.contains("\n  0,0 (floor number 0): open at cost 1, as before\n"));
    let closed = "\n  16,4 (floor number 146): open at cost 1, now open at cost 40, \
                  closed by scaling\n";
    assert!(shown.contains(closed), "{shown}");
}

#[test]
fn all_pairs_before_and_after() {
    let floor = sample("closed.txt");
    let changes = ["16,5=1"];
    let (status, shown, _) = hallview(&with_changes(&floor, &changes, &["--all"]));
    assert_eq!(status, Some(0));
    let (before, after) = shown.split_once("\nafter 1 change\n\n").unwrap();
    assert_eq!(
        before,
        format!("before\n\n{}", hallview(&[&floor, "--all"]).1)
    );
    assert!(before.ends_with("3 pairs, 2 routes\n"));
    assert!(after.contains("3 pairs, 3 routes\n"), "{after}");
    assert!(after.ends_with("  16,5 (floor number 156): blocked, now open at cost 1\n"));
}

#[test]
fn what_hallroute_reads_is_the_changed_floor() {
    let folder = Folder::new("input");
    let (floor, input) = (sample("closed.txt"), folder.name("input.hall"));
    let more = ["--all", "--input", &input];
    let shown = hallview(&with_changes(&floor, &["16,5=1"], &more)).1;
    let (_, after) = shown.split_once("after 1 change\n\n").unwrap();
    let cards = String::from_utf8(second::hallroute(&fs::read(input).unwrap())).unwrap();
    assert_eq!(cards.lines().count(), 3);
    assert!(cards.starts_with("11 118 2 ") && !cards.contains("none"));
    let moves = |line: &str| {
        let numbers: Vec<u32> = line.split(' ').filter_map(|n| n.parse().ok()).collect();
        numbers[3] + numbers[4]
    };
    for (card, row) in cards.lines().zip(after.lines().skip(1)) {
        assert!(row.ends_with(&format!(" {}", moves(card))), "{row}");
    }
}

#[test]
fn wrong_changes_are_named() {
    let folder = Folder::new("wrong");
    let (floor, file) = (sample("parcels.txt"), folder.name("season.hall"));
    let off = "is no cell of the floor: floor numbers are 0 to 599, x,y are 0,0 to 29,19";
    let form = "is no change: it is a cell, = and its cost, as in 5,7=40 or 5,7=blocked";
    let cost = "is no cost: costs are 0 to 254, and 255 or `blocked`";
    let cases = [
        ("5,7", format!("`5,7` {form}")),
        ("", format!("`` {form}")),
        ("30,0=1", format!("`30,0` {off}")),
        ("0,20=1", format!("`0,20` {off}")),
        ("600=1", format!("`600` {off}")),
        ("=1", format!("`` {off}")),
        ("5,7=256", format!("`256` {cost}")),
        ("5,7=-1", format!("`-1` {cost}")),
        ("5,7=", format!("`` {cost}")),
        ("5,7=1=2", format!("`1=2` {cost}")),
        ("5,7=\u{1b}", format!("`U+001B` {cost}")),
        (
            "6,7=7",
            "6,7 (floor number 76) is changed twice: keep one of the changes".to_string(),
        ),
    ];
    for (change, expected) in cases {
        let changes = ["76=1", change];
        let words = with_changes(&floor, &changes, &["--hall", &file]);
        assert_eq!(problem(&words), expected);
    }
    let missing = problem(&[&floor, "--hall", &file, "--change"]);
    assert_eq!(missing, "behind --change something is missing");
    assert!(folder.files().is_empty());
}

/// A drawing of 3 by 1 sectors, scale 2, with these cells blocked. Document 01 has 48 and 150,
/// and 22 for a change of 68.
fn three_by_one(blocked: &[Place]) -> String {
    let cell = |place| if blocked.contains(&place) { '#' } else { '.' };
    let row = |y| (0..30).map(move |x| cell((x, y))).chain(['\n']);
    "scale 2\n".chars().chain((0..10).flat_map(row)).collect()
}

#[test]
fn a_change_that_the_library_refuses_writes_nothing() {
    let folder = Folder::new("refused");
    let floor = folder.written("three.txt", three_by_one(&[(8, 4), (10, 5)]));
    let writers = ["--hall", "--input", "--svg", "--drawing"];
    let names = ["a.hall", "b.hall", "c.svg", "d.txt"].map(|name| folder.name(name));
    let written = writers.iter().zip(&names);
    let more: Vec<&str> = written.flat_map(|(option, name)| [*option, name]).collect();
    let expected = "8,6 (floor number 68) cannot become blocked: refused 22, change: a sector \
                    marked afresh has more windows on a side than the facing side of a sector \
                    not marked afresh; built anew with it the hall is accepted: put it into the \
                    drawing";
    for changes in [&["8,6=blocked"][..], &["0,0=7", "68=255"]] {
        let said = problem(&with_changes(&floor, changes, &more));
        assert_eq!(said, expected);
        assert_eq!(folder.files(), ["three.txt"]);
    }
    assert!(repository_text("view/README.md").contains(&format!("    {expected}\n")));
    let anew = folder.written("anew.txt", three_by_one(&[(8, 4), (10, 5), (8, 6)]));
    assert_eq!(hallview(&[&anew, "--quiet"]).0, Some(0));
}

#[test]
fn the_floor_that_is_read_is_not_overwritten_by_the_changed_one() {
    let folder = Folder::new("kept");
    let hall = folder.written("p.hall", fs::read(sample("two_sectors.hall")).unwrap());
    let before = fs::read(&hall).unwrap();
    let other = folder.name("other.svg");
    let more = ["--svg", &other, "--hall", &hall];
    let said = problem(&with_changes(&hall, &["5,5=blocked"], &more));
    assert_eq!(
        said,
        format!("--hall {hall} would overwrite the floor that is read")
    );
    assert_eq!(fs::read(&hall).unwrap(), before);
    assert_eq!(folder.files(), ["p.hall"]);
}

/// The frames of changed cells in a picture.
fn frames(picture: &str) -> Vec<Element> {
    let all = elements(picture).into_iter();
    all.filter(|element| element.has("stroke", "#0091ff"))
        .collect()
}

#[test]
fn the_picture_shows_before_and_after() {
    let floor = sample("parcels.txt");
    let picture = hallview(&with_changes(&floor, &SEASON, &["--svg", "-"])).1;
    let text = |text: &str| {
        let mut texts = elements(&picture).into_iter().filter(|e| e.name == "text");
        let found = texts.find(|element| element.text == text);
        found.unwrap_or_else(|| panic!("no {text}")).number("y")
    };
    let measures = "3 columns by 2 rows of sectors, scale 2";
    let first = text(&format!("parcels.txt, before: {measures}"));
    let second = text(&format!("parcels.txt, after 2 changes: {measures}"));
    let told = [
        text("6,7 (floor number 76): blocked, now open at cost 1"),
        text("8,12 (floor number 128): open at cost 1, now blocked"),
    ];
    let frames = frames(&picture);
    assert_eq!(frames.len(), 4);
    let tops: Vec<f64> = frames.iter().map(|frame| frame.number("y")).collect();
    assert!(first < tops[0] && tops[1] < second && second < tops[2] && tops[3] < told[0]);
    // Both floors stand at one place from west to east.
    for at in [0, 1] {
        assert_eq!(frames[at].number("x"), frames[at + 2].number("x"));
    }
    assert_eq!(picture.matches("id=\"closed\"").count(), 1);
    assert_eq!(picture.matches(">changed cell</text>").count(), 2);
}

#[test]
fn frames_lie_in_their_cells_and_leave_the_costs_free() {
    let floor = sample("parcels.txt");
    let changes = ["14,4=254", "15,4=blocked", "16,4=40"];
    let picture = hallview(&with_changes(&floor, &changes, &["--svg", "-"])).1;
    let frames = frames(&picture);
    assert_eq!(frames.len(), 6);
    for pair in [[0, 1], [1, 2], [3, 4], [4, 5]] {
        let [one, next] = pair.map(|at| cover(&frames[at]));
        assert!(!overlap(one, next));
        assert!(next[0] - one[0] == 20.0 && next[1] == one[1]);
    }
    // Costs are drawn over the frames.
    let all = elements(&picture);
    let last_frame = all.iter().rposition(|e| e.has("stroke", "#0091ff"));
    let number = all.iter().position(|e| e.text == "254");
    assert!(last_frame < number);
}

#[test]
fn each_pair_has_its_picture_before_and_after() {
    let folder = Folder::new("pictures");
    let (floor, pictures) = (sample("closed.txt"), folder.name("pictures"));
    let more = ["--all", "--quiet", "--pictures", &pictures];
    hallview(&with_changes(&floor, &["16,5=1"], &more));
    for number in 1..=3 {
        let picture = fs::read_to_string(format!("{pictures}/pair-{number}.svg")).unwrap();
        assert!(picture.contains("closed.txt, before: ") && picture.contains(", after 1 change: "));
    }
}

/// Some changes of a hall that are accepted, and the hall after them.
fn drawn_changes(draw: &mut Draw, hall: &Hall) -> Option<Hall> {
    let cells = hall.floor.costs.len();
    let count = 1 + draw.below(4);
    let texts: Vec<String> = (0..count)
        .map(|_| format!("{}={}", draw.below(cells), [1, 255, 40][draw.below(3)]))
        .collect();
    let changes: Vec<Change> = changes::read(&hall.floor, &texts).ok()?;
    hall.changed(&changes).ok()
}

#[test]
fn a_changed_hall_has_the_file_of_its_floor() {
    let (mut draw, mut made) = (Draw(29), 0);
    for _ in 0..200 {
        let hall = drawn_hall(&mut draw, 9);
        let Some(changed) = drawn_changes(&mut draw, &hall) else {
            continue;
        };
        let file = changed.file();
        assert_eq!(file, Hall::build(changed.floor.clone()).file());
        assert_eq!(hall_file::read(&file).unwrap().floor, changed.floor);
        made += 1;
    }
    assert!(made > 100);
}

#[test]
fn a_change_that_closes_other_cells_than_a_build_is_warned_of() {
    let floor = sample("parcels.txt");
    let (status, _, said) = hallview(&with_changes(&floor, &["22,12=1"], &[]));
    assert_eq!(status, Some(0));
    let said = said.replace(&floor, "hall.txt");
    assert!(
        repository_text("view/README.md").contains(&format!("    {said}")),
        "{said}"
    );
    let picture = hallview(&with_changes(&floor, &["22,12=1"], &["--svg", "-"])).1;
    assert_eq!(picture.matches(">warning: a hall built").count(), 1);
}

#[test]
fn a_changed_hall_that_its_file_does_not_give_is_warned_of() {
    let (mut draw, mut other) = (Draw(3), 0);
    for _ in 0..200 {
        let hall = drawn_hall(&mut draw, 5);
        assert_eq!(changes::warning(&hall), None);
        let Some(changed) = drawn_changes(&mut draw, &hall) else {
            continue;
        };
        let warning = changes::warning(&changed);
        assert!(warning.is_none() || changed.floor.scale > 1);
        other += usize::from(warning.is_some());
        // Every pair can be told, whatever borders a change leaves behind.
        let cells = changed.floor.costs.len();
        let card = Card::of(&changed, (draw.below(cells), draw.below(cells)));
        assert!(!matches!(card.answer, Answer::Refused(_)));
        assert!(!card.outcome(&changed).is_empty());
        card.details(&changed);
    }
    assert!(other > 0);
}
