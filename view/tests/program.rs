//! What the program says on the command line, and the status it ends with.

#[path = "common/program.rs"]
mod program;

use std::fs;

use program::{Folder, hallview, problem, sample};

#[test]
fn help_is_no_failure() {
    for word in ["-h", "--help"] {
        let (status, printed, said) = hallview(&[word]);
        assert_eq!((status, said.as_str()), (Some(0), ""));
        assert!(printed.starts_with("usage: hallview FLOOR"));
    }
}

#[test]
fn wrong_words_are_named() {
    let cases: [(&[&str], &str); 7] = [
        (&[], "no floor is named"),
        (&["a.txt", "--scale", "3"], "there is no option --scale"),
        (&["-x"], "there is no option -x"),
        (&["a.txt", "b.txt"], "b.txt is a second floor"),
        (&["a.txt", "--svg"], "behind --svg something is missing"),
        (&["a.txt", "--svg", "a", "--svg", "b"], "--svg stands twice"),
        (
            &["a.txt", "--pair", "two"],
            "--pair takes a number, not two",
        ),
    ];
    for (words, expected) in cases {
        assert_eq!(problem(words), expected);
    }
}

/// The sample drawing with another trolley, and what is said of it.
fn said_of_width(width: usize) -> String {
    let text = fs::read_to_string(sample("parcels.txt")).unwrap();
    let text = text.replace("\nwidth 2\n", &format!("\nwidth {width}\n"));
    let folder = Folder::new(&format!("width-{width}"));
    let name = folder.written("hall.txt", text);
    let (status, _, said) = hallview(&[&name]);
    assert_eq!(status, Some(0));
    said.replace(&name, "hall.txt")
}

#[test]
fn a_trolley_wider_than_gaps_that_stay_open_is_warned_of() {
    assert_eq!(said_of_width(2), "");
    let said = said_of_width(4);
    assert!(said.starts_with("hall.txt: warning: the trolley is 4 cells wide"));
    let readme = format!("{}/README.md", env!("CARGO_MANIFEST_DIR"));
    let shown = fs::read_to_string(readme).unwrap();
    assert!(shown.contains(&format!("    {said}")), "{said}");
}

#[test]
fn routes_off_the_floor() {
    let floor = sample("parcels.txt");
    let range = "floor numbers are 0 to 599, x,y are 0,0 to 29,19";
    for cell in ["600", "70000", "30,0", "0,20", "-1", "0,0,0", "dock"] {
        let expected = format!("`{cell}` is no cell of the floor: {range}");
        assert_eq!(problem(&[&floor, "--route", "0", cell]), expected);
        assert_eq!(problem(&[&floor, "--route", cell, "0"]), expected);
    }
    let printed = |words: [&str; 3]| hallview(&[&[floor.as_str()], &words[..]].concat()).1;
    let by_number = printed(["--route", "0", "599"]);
    assert!(by_number.contains("\n0 599 "));
    assert_eq!(by_number, printed(["--route", "0,0", "29,19"]));
}

#[test]
fn pairs_that_are_not_there() {
    let floor = sample("parcels.txt");
    for wanted in ["0", "2"] {
        let expected = format!("{floor} has 1 pair: there is no pair {wanted}");
        assert_eq!(problem(&[&floor, "--pair", wanted]), expected);
    }
}

#[test]
fn spare_bytes_are_told() {
    let folder = Folder::new("spare");
    let pair = fs::read(sample("two_sectors.hall")).unwrap();
    let whole = hallview(&[&sample("two_sectors.hall")]);
    assert_eq!((whole.0, whole.2.as_str()), (Some(0), ""));
    for (count, spare) in [(1, "1 spare byte"), (3, "3 spare bytes")] {
        let name = folder.written("spare.hall", [pair.clone(), vec![0; count]].concat());
        let said = format!("{name}: cut: {spare} behind the pairs; a pair has 4 bytes\n");
        assert_eq!(hallview(&[&name]), (Some(0), whole.1.clone(), said));
    }
}

#[test]
fn a_drawing_with_the_name_of_a_hall_file() {
    let folder = Folder::new("named");
    let name = folder.written("drawing.hall", fs::read(sample("parcels.txt")).unwrap());
    let expected = format!(
        "{name}: refused 11, columns or rows are outside 1 to 10 \
         (a name that ends in .hall is read as a hall file)"
    );
    assert_eq!(problem(&[&name]), expected);
}

/// The numbers of each line behind source and goal, or none.
fn numbers_of(line: &str) -> Vec<String> {
    let words = line
        .split_whitespace()
        .filter(|word| !word.starts_with('('));
    let numbers = words.take_while(|word| word.parse::<u32>().is_ok());
    numbers.map(str::to_string).collect()
}

#[test]
fn all_pairs_are_a_table() {
    for name in ["chutes.hall", "corner_gate.hall", "two_sectors.hall"] {
        let (status, table, said) = hallview(&[&sample(name), "--all"]);
        assert_eq!((status, said.as_str()), (Some(0), ""));
        let cards = second::hallroute(&fs::read(sample(name)).unwrap());
        let cards = String::from_utf8(cards).unwrap();
        let rows = table.lines().skip(1);
        for (number, (card, row)) in (1..).zip(cards.lines().zip(rows)) {
            let card = numbers_of(card);
            let mut expected = [vec![number.to_string()], card.clone()].concat();
            if let [_, _, _, leg, run] = &card[..] {
                let moves = leg.parse::<u32>().unwrap() + run.parse::<u32>().unwrap();
                expected.push(moves.to_string());
            }
            assert_eq!(numbers_of(row), expected, "{row}");
        }
        let count = cards.lines().count();
        let last = format!("{count} pair{}, ", if count == 1 { "" } else { "s" });
        assert!(table.lines().last().unwrap().starts_with(&last));
    }
}

#[test]
fn a_pair_without_a_route_says_why_in_the_table() {
    let folder = Folder::new("why");
    let rows = "....#.....\n".repeat(10);
    let name = folder.written("why.txt", format!("pair 0,0 9,9\npair 0,0 4,4\n{rows}"));
    let table = hallview(&[&name, "--all"]).1;
    let lines: Vec<&str> = table.lines().collect();
    assert!(
        lines[1].ends_with("99 (9,9)  no route: the source reaches 40 cells; in the way: 4,9"),
        "{table}"
    );
    assert!(
        lines[2].ends_with("44 (4,4)  no route: the goal 4,4 is blocked"),
        "{table}"
    );
    assert_eq!(lines[4], "2 pairs, 0 routes");
}

#[test]
fn each_pair_has_its_picture() {
    let folder = Folder::new("each");
    let pictures = folder.name("new/folder");
    let floor = sample("chutes.hall");
    assert_eq!(
        hallview(&[&floor, "--all", "--pictures", &pictures]).0,
        Some(0)
    );
    let count = fs::read_dir(&pictures).unwrap().count();
    assert!(count > 1);
    for number in 1..=count {
        let picture = fs::read_to_string(format!("{pictures}/pair-{number}.svg")).unwrap();
        let one = hallview(&[&floor, "--pair", &number.to_string(), "--svg", "-"]).1;
        assert_eq!(picture, one);
    }
    let second = folder.name("second");
    hallview(&[&floor, "--pair", "2", "--pictures", &second]);
    assert_eq!(fs::read_dir(&second).unwrap().count(), 1);
    assert!(fs::exists(format!("{second}/pair-2.svg")).unwrap());
}

#[test]
fn all_pairs_are_written() {
    let folder = Folder::new("written");
    let floor = sample("chutes.hall");
    let [input, drawing] = [folder.name("input.hall"), folder.name("drawing.txt")];
    hallview(&[
        &floor,
        "--all",
        "--quiet",
        "--input",
        &input,
        "--drawing",
        &drawing,
    ]);
    let table = |floor: &str| hallview(&[floor, "--all"]).1;
    assert_eq!(table(&input), table(&floor));
    assert_eq!(table(&drawing), table(&floor));
}

#[test]
fn the_first_of_several_pairs_is_said_to_be_it() {
    let chutes = hallview(&[&sample("chutes.hall")]).1;
    assert!(
        chutes
            .lines()
            .last()
            .unwrap()
            .starts_with("This is pair 1 of ")
    );
    let chosen = hallview(&[&sample("chutes.hall"), "--pair", "1"]).1;
    assert!(!chosen.contains("This is pair") && chutes.starts_with(&chosen));
    assert!(
        !hallview(&[&sample("parcels.txt")])
            .1
            .contains("This is pair")
    );
}

#[test]
fn pairs_are_asked_for_in_one_way() {
    let one = "--route, --pair and --all each say which pairs: take one of them";
    assert_eq!(problem(&["a.txt", "--all", "--pair", "1"]), one);
    assert_eq!(problem(&["a.txt", "--all", "--route", "1", "2"]), one);
    assert_eq!(problem(&["a.txt", "--pair", "1", "--route", "1", "2"]), one);
    let picture = "--svg is the picture of one pair: with --all take --pictures FOLDER";
    assert_eq!(problem(&["a.txt", "--all", "--svg", "a.svg"]), picture);
    let folder = Folder::new("none");
    let name = folder.written("none.txt", "..........\n".repeat(10));
    assert_eq!(problem(&[&name, "--all"]), format!("{name} has no pairs"));
}

#[test]
fn the_readme_shows_what_is_printed() {
    let readme = format!("{}/README.md", env!("CARGO_MANIFEST_DIR"));
    let readme = fs::read_to_string(readme).unwrap();
    let closed = sample("closed.txt");
    let table = hallview(&[&closed, "--all"]).1;
    assert!(readme.contains(&format!("```\n{table}```\n")), "{table}");
    let shown = hallview(&[&closed, "--pair", "3"]).1;
    let (_, card) = shown.rsplit_once("\n\n").unwrap();
    assert!(readme.contains(&format!("```\n{card}```\n")), "{card}");
    let folder = Folder::new("readme");
    let name = folder.written("hall.txt", "metres 30 20 unit 1 width 9.5\n");
    let refused = problem(&[&name]).replace(&name, "hall.txt");
    assert!(readme.contains(&format!("    {refused}\n")), "{refused}");
}
