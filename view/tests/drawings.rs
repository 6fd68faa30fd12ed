//! Drawings: what is read, and each way in which one can be wrong.

use hallview::drawing::{Drawn, read, write};
use hallview::floor::Floor;

/// Settings, then a floor of one sector that is open.
fn with_settings(settings: &str) -> String {
    format!("{settings}{}", "..........\n".repeat(10))
}

/// An open floor of one sector with one row in place of its n-th, counted from 1.
fn with_row(n: usize, row: &str) -> String {
    let mut rows = [".........."; 10];
    rows[n - 1] = row;
    rows.join("\n")
}

fn problem(text: &str) -> String {
    read(text.as_bytes()).unwrap_err().to_string()
}

/// Each of these settings above a floor gives its problem.
fn assert_settings(cases: &[(&str, &str)]) {
    for (settings, expected) in cases {
        assert_eq!(problem(&with_settings(settings)), *expected);
    }
}

/// Each of these rows in place of the n-th gives its problem.
fn assert_rows<T: AsRef<str>>(cases: &[(usize, &str, T)]) {
    for (n, row, expected) in cases {
        assert_eq!(problem(&with_row(*n, row)), expected.as_ref());
    }
}

fn floor(text: &str) -> Floor {
    read(text.as_bytes()).unwrap().floor
}

#[test]
fn a_floor_with_settings_and_marks() {
    let text = "// a hall\nscale 2\n~ = 40\n\nS.#~5.....\n".to_string()
        + &"..........\n".repeat(8)
        + ".........G\n";
    let drawn = read(text.as_bytes()).unwrap();
    assert_eq!(
        (drawn.floor.columns, drawn.floor.rows, drawn.floor.scale),
        (1, 1, 2)
    );
    assert_eq!(drawn.floor.costs[..6], [1, 1, 255, 40, 5, 1]);
    assert_eq!(drawn.pairs, [(0, 99)]);
}

#[test]
fn floor_numbers_go_by_sector() {
    let west = "#.........";
    let rows = [format!("..........{west}\n"), "..........".repeat(2) + "\n"];
    let text = rows[1].repeat(10) + &rows[0] + &rows[1].repeat(9);
    let floor = floor(&text);
    assert_eq!((floor.columns, floor.rows), (2, 2));
    assert_eq!(floor.costs.iter().position(|cost| *cost == 255), Some(300));
}

#[test]
fn rulings_spaces_and_line_ends_change_nothing() {
    let plain = "#........./........#./".replace('/', "\r\n") + &"..........\r\n".repeat(18);
    let mut ruled = String::from("\u{feff}// ruled\n\n+----------+\n");
    for row in plain.lines().take(10) {
        ruled += &format!("  | {row} |  \n");
    }
    ruled += "\n|----------|\n\n";
    for row in plain.lines().skip(10) {
        ruled += &format!("{row}\n");
    }
    assert_eq!(floor(&plain), floor(&ruled));
}

#[test]
fn the_scale_is_1_unless_told() {
    assert_eq!(floor(&with_settings("")).scale, 1);
    assert_eq!(floor(&with_settings("scale 9\n")).scale, 9);
}

#[test]
fn wrong_settings() {
    assert_settings(&[
        (
            "scale 0\n",
            "line 1, column 7: scale `0` is not a whole number from 1 to 9",
        ),
        (
            "\nscale  10\n",
            "line 2, column 8: scale `10` is not a whole number from 1 to 9",
        ),
        (
            "scale two\n",
            "line 1, column 7: scale `two` is not a whole number from 1 to 9",
        ),
        (
            "scale\n",
            "line 1, column 6: after `scale` stands one number, 1 to 9",
        ),
        (
            "scale 2 3\n",
            "line 1, column 9: after `scale` stands one number, 1 to 9",
        ),
        (
            "scale 2\nscale 2\n",
            "line 2, column 1: a second scale: line 1 has one",
        ),
        (
            " weight 2\n",
            "line 1, column 2: no setting is called `weight`: there are `scale`, `width`, `metres`, `pair` and legends such as `~ = 40`",
        ),
    ]);
}

#[test]
fn wrong_widths() {
    assert_settings(&[
        (
            "width 0\n",
            "line 1, column 7: width `0` is not a whole number from 1 to 100",
        ),
        (
            "width 101\n",
            "line 1, column 7: width `101` is not a whole number from 1 to 100",
        ),
        (
            "width 2\nwidth 2\n",
            "line 2, column 1: a second width: line 1 has one",
        ),
        (
            "width 2 cells\n",
            "line 1, column 9: after `width` stands one number, 1 to 100",
        ),
    ]);
}

#[test]
fn wrong_legends() {
    assert_settings(&[
        (
            " = 4\n",
            "line 1, column 1: left of `=` stands one character, not ``",
        ),
        (
            "ab = 4\n",
            "line 1, column 1: left of `=` stands one character, not `ab`",
        ),
        ("  # = 4\n", "line 1, column 3: `#` has a meaning already"),
        ("S = 4\n", "line 1, column 1: `S` has a meaning already"),
        ("7 = 4\n", "line 1, column 1: `7` has a meaning already"),
        (
            "a = 4\na = 5\n",
            "line 2, column 1: `a` has a cost already, in line 1",
        ),
        (
            "a =\n",
            "line 1, column 4: right of `=` stands a cost, 0 to 254",
        ),
        (
            "a = 255\n",
            "line 1, column 5: 255 is blocked: draw it as `#`",
        ),
        (
            "a = 256\n",
            "line 1, column 5: cost `256` is not a whole number from 0 to 254",
        ),
        (
            "a = -1\n",
            "line 1, column 5: cost `-1` is not a whole number from 0 to 254",
        ),
        (
            "a = 4 ramp\n",
            "line 1, column 5: cost `4 ramp` is not a whole number from 0 to 254",
        ),
    ]);
}

#[test]
fn settings_below_the_floor() {
    let floor = with_settings("");
    for setting in ["scale 2", "width 2", "a = 2"] {
        assert_eq!(
            problem(&format!("{floor}{setting}\n")),
            "line 11, column 1: settings stand above the floor, which began in line 1"
        );
    }
}

#[test]
fn wrong_rows() {
    let cells = "cells are # . 0 to 9 S G, and what a legend above the floor names";
    let unknown = |symbol| format!("no cell is drawn as `{symbol}`: {cells}");
    let cases = [
        (1, "........", "line 1, column 9: the row ends after 8 cells: a row is whole sectors of 10, so 10".to_string()),
        (1, "..............", "line 1, column 15: the row ends after 14 cells: a row is whole sectors of 10, so 10 or 20".to_string()),
        (3, ".........", "line 3, column 10: the row ends after 9 cells, the first row (line 1) has 10".to_string()),
        (3, "...........", "line 3, column 11: the row goes on after 10 cells, which the first row has (line 1)".to_string()),
        (3, "....x.....", format!("line 3, column 5: {}", unknown('x'))),
        (3, "....,.....", format!("line 3, column 5: {}", unknown(','))),
        (3, ".\t........", "line 3, column 2: a tab: draw each cell, and use spaces between sectors".to_string()),
        (3, "SG\t.......", "line 3, column 3: a tab: draw each cell, and use spaces between sectors".to_string()),
        (3, "....|......", "line 3, column 5: a `|` inside a sector, after 4 of its 10 cells".to_string()),
        (3, ". .........", "line 3, column 2: a space inside a sector, after 1 of its 10 cells".to_string()),
        (3, "", "line 3, column 1: an empty line inside a sector, after 2 of its 10 rows".to_string()),
        (3, "----------", "line 3, column 1: a ruling inside a sector, after 2 of its 10 rows".to_string()),
    ];
    assert_rows(&cases);
}

#[test]
fn signs_that_hallview_draws_with() {
    for sign in "█░·●┊┈◉①⑳─│╭┃━┏╋".chars() {
        let expected = format!(
            "line 1, column 1: hallview draws with `{sign}` itself: take another character"
        );
        assert_eq!(problem(&with_settings(&format!("{sign} = 40\n"))), expected);
    }
}

#[test]
fn control_characters() {
    let told = |code: &str| {
        format!(
            "the control character {code}: a drawing is plain text (the name of a hall file ends in .hall)"
        )
    };
    let escape = told("U+001B");
    for settings in ["// \u{1b}[31m\n", "sc \u{1b}[31m\n", "ab\u{1b} = 4\n"] {
        let column = settings.find('\u{1b}').unwrap() + 1;
        let expected = format!("line 1, column {column}: {escape}");
        assert_eq!(problem(&with_settings(settings)), expected);
    }
    assert_rows(&[
        (3, "..\u{1b}.......", format!("line 3, column 3: {escape}")),
        (
            3,
            ".\u{0}........",
            format!("line 3, column 2: {}", told("U+0000")),
        ),
        (
            3,
            "..........\u{85}",
            format!("line 3, column 11: {}", told("U+0085")),
        ),
    ]);
}

#[test]
fn characters_that_shift_a_row() {
    let wide_combining_and_invisible = [
        '\u{6f22}',
        '\u{1f69a}',
        '\u{ff21}',
        '\u{301}',
        '\u{20dd}',
        '\u{345}',
        '\u{200b}',
        '\u{200d}',
        '\u{202e}',
        '\u{ad}',
        '\u{a0}',
        '\u{2028}',
        '\u{feff}',
        '\u{115f}',
    ];
    for character in wide_combining_and_invisible {
        let told = format!(
            "the character U+{:04X} may not fill one column of a terminal: a drawing has printable ASCII, and Latin, Greek and Cyrillic letters",
            u32::from(character)
        );
        let legend = with_settings(&format!("// {character}\n~{character} = 4\n"));
        assert_eq!(problem(&legend), format!("line 2, column 2: {told}"));
        let row = with_row(3, &format!("...{character}......"));
        assert_eq!(problem(&row), format!("line 3, column 4: {told}"));
    }
    for character in "~^äÿŁǆΩжћ".chars() {
        let text = with_settings(&format!("{character} = 4\n"));
        assert_eq!(floor(&text).legend, [(character, 4)]);
    }
}

#[test]
fn floors_too_large() {
    let wide = ".".repeat(101) + "\n";
    assert_eq!(
        problem(&wide),
        "line 1, column 101: cell 101: a floor has at most 10 sectors across, 100 cells"
    );
    let tall = "..........\n".repeat(101);
    assert_eq!(
        problem(&tall),
        "line 101, column 1: row 101: a floor has at most 10 sectors down, 100 rows"
    );
    let largest = (".".repeat(100) + "\n").repeat(100);
    assert_eq!(floor(&largest).costs.len(), 10_000);
}

#[test]
fn floors_cut_short() {
    assert_eq!(problem(""), "line 1, column 1: no row of a floor is drawn");
    assert_eq!(
        problem("scale 3\n// nothing\n"),
        "line 1, column 1: no row of a floor is drawn"
    );
    let rows = "..........\n".repeat(14);
    assert_eq!(
        problem(&rows),
        "line 14, column 1: the floor ends after 14 rows: it is whole sectors of 10, so 10 or 20"
    );
}

#[test]
fn wrong_marks() {
    let cases = [
        (
            4,
            "..S...S...",
            "line 4, column 7: a second S: the first stands in line 4, column 3",
        ),
        (
            2,
            "|G........G|",
            "line 2, column 11: a second G: the first stands in line 2, column 2",
        ),
        (2, "..S.......", "line 2, column 3: an S without a G"),
        (2, "..G.......", "line 2, column 3: a G without an S"),
    ];
    assert_rows(&cases);
}

#[test]
fn no_text() {
    let text = read(b"scale 2\n..\xff......").unwrap_err().to_string();
    assert_eq!(
        text,
        "line 2, column 3: this is no text: a drawing is UTF-8"
    );
}

#[test]
fn a_drawing_that_is_written_reads_as_the_same_floor() {
    let mut costs: Vec<u8> = (0..600).map(|cell| (cell * 7 % 256) as u8).collect();
    (costs[0], costs[599]) = (1, 1);
    let floor = Floor {
        columns: 3,
        rows: 2,
        scale: 4,
        costs,
        legend: vec![],
    };
    let given = Drawn {
        floor,
        pairs: vec![(0, 599)],
        width: Some(4),
        plan: None,
    };
    let mut drawn = read(write(&given).as_bytes()).unwrap();
    // Its legend gives a character to costs that had none.
    assert!(drawn.floor.legend.len() > 100);
    drawn.floor.legend.clear();
    assert_eq!(drawn, given);
}

/// A pair whose ends cannot both be marked is written as a line.
fn assert_unmarked(floor: &Floor, pair: (usize, usize)) {
    let given = Drawn::plain(floor.clone(), vec![pair]);
    let text = write(&given);
    assert!(!text.contains(['S', 'G']) && text.contains("\npair "));
    let drawn = read(text.as_bytes()).unwrap();
    assert_eq!(
        (drawn.floor.costs, drawn.pairs),
        (floor.costs.clone(), vec![pair])
    );
}

#[test]
fn ends_are_marked_only_on_two_cells_of_cost_1() {
    let mut floor = floor(&with_settings(""));
    for cost in [255, 40, 0] {
        floor.costs[70] = cost;
        assert_unmarked(&floor, (70, 99));
        assert_unmarked(&floor, (99, 70));
    }
    assert_unmarked(&floor, (44, 44));
}

#[test]
fn pairs_are_listed_above_the_floor() {
    let text = with_row(2, "|..S...G...|");
    let pairs = "pair 0,0 9,9\npair 7 8,0\npair 3,3 3,3\n";
    let drawn = read(format!("{pairs}{text}").as_bytes()).unwrap();
    assert_eq!(drawn.pairs, [(12, 16), (0, 99), (7, 8), (33, 33)]);
    assert_eq!(read(write(&drawn).as_bytes()), Ok(drawn));
    let off = Drawn::plain(floor(&text), vec![(12, 100), (0, 5)]);
    assert_eq!(read(write(&off).as_bytes()).unwrap().pairs, [(0, 5)]);
}

#[test]
fn wrong_pairs() {
    let form = "after `pair` stand a source and a goal, as in `pair 1,1 8,8`";
    let range = "floor numbers are 0 to 99, x,y are 0,0 to 9,9";
    let cases = ["pair\n", "pair 1\n", "pair 1 2 3\n"];
    for settings in cases {
        assert_eq!(
            problem(&with_settings(settings)),
            format!("line 1, column 1: {form}")
        );
    }
    for (settings, column, cell) in [("pair 0 100\n", 8, "100"), ("pair 10,0 3\n", 6, "10,0")] {
        let expected =
            format!("line 1, column {column}: `{cell}` is no cell of the floor: {range}");
        assert_eq!(problem(&with_settings(settings)), expected);
    }
}

#[test]
fn a_drawing_keeps_its_own_characters() {
    let text = with_settings("~ = 40\n").replacen('.', "~", 1);
    let drawn = read(text.as_bytes()).unwrap();
    assert!(write(&drawn).contains("|~.........|"));
}
