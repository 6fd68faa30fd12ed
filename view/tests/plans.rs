//! Plans from metres: what a drawing's line gives, and each way in which it can be wrong.

use hallview::drawing::{Drawn, read, write};
use hallview::gaps;
use hallview::hall::Hall;
use hallview::problem::Problem;

fn planned(line: &str) -> Result<Drawn, Problem> {
    read(format!("metres {line}\n").as_bytes())
}

fn problem(text: &str) -> String {
    read(text.as_bytes()).unwrap_err().to_string()
}

/// Columns, rows and scale.
fn measures(line: &str) -> (usize, usize, u8) {
    let floor = planned(line).unwrap().floor;
    (floor.columns, floor.rows, floor.scale)
}

#[test]
fn metres_give_sectors_and_scale() {
    assert_eq!(measures("30 20 unit 1 radius 0.9"), (3, 2, 1));
    assert_eq!(measures("30 20 unit 0.5 radius 0.9"), (6, 4, 2));
    assert_eq!(measures("30 20 unit 0.5 width 1.8"), (6, 4, 4));
    // As document 01 has it.
    assert_eq!(measures("2 2 unit 0.1 radius 0.3"), (2, 2, 3));
    assert_eq!(measures("109 10 unit 1 radius 1"), (10, 1, 1));
}

#[test]
fn a_plan_without_rows_is_an_open_floor() {
    let drawn = planned("30 20 unit 1 radius 0.9").unwrap();
    assert_eq!(drawn.floor.costs, [1; 600]);
    let text = write(&drawn);
    assert!(text.starts_with("metres 30 20 unit 1 radius 0.9\n\n+----------+"));
    assert_eq!(read(text.as_bytes()), Ok(drawn));
}

#[test]
fn rows_fit_the_plan() {
    let rows = "#.........\n".repeat(10);
    let drawn = read(format!("metres 10 10 unit 1 width 1.8\n{rows}").as_bytes()).unwrap();
    assert_eq!((drawn.floor.scale, drawn.floor.costs[10]), (2, 255));
    assert_eq!(
        problem(&format!("\nmetres 20 30 unit 1 width 1.8\n{rows}")),
        "line 2, column 1: these metres are 20 by 30 cells, and 10 by 10 are drawn"
    );
}

#[test]
fn refusals_are_told_in_words() {
    let cases = [
        (
            "inf 20 unit 1 radius 1",
            "1: a value is not a finite number",
        ),
        (
            "30 20 unit 1 radius 1e39",
            "1: a value is not a finite number",
        ),
        ("30 0 unit 1 radius 1", "2: a size of the hall is 0 or less"),
        (
            "30 20 unit 1 width -1",
            "3: the trolley's width is 0 or less",
        ),
        (
            "30 20 unit 0 radius 1",
            "4: the unit, the length of a cell, is 0 or less",
        ),
        (
            "5 20 unit 1 radius 1",
            "5: in cells of 1 m the hall is shorter than one sector of 10 cells; take a unit of at most 0.5 m",
        ),
        (
            "20 10 unit 1 radius 10",
            "6: in cells of 1 m the trolley's radius is one sector of 10 cells or more; take a unit of at least 1.12 m",
        ),
        (
            "20 10 unit 1 width 9.5",
            "7: in cells of 1 m the trolley's width is more than 9 cells; take a unit of at least 1.06 m",
        ),
        (
            "100 100 unit 10 radius 1e-45",
            "8: the trolley's radius is so short beside the unit that the scale is 0",
        ),
        (
            "120 10 unit 1 radius 1",
            "9: in cells of 1 m the hall is longer than 10 sectors of 10 cells; take a unit of more than 1.1 m",
        ),
    ];
    for (line, expected) in cases {
        let said = planned(line).unwrap_err().to_string();
        assert_eq!(said, format!("line 1, column 1: plan refused, {expected}"));
    }
}

/// Whether a plan is refused by a number.
fn is_refused(line: &str, number: u8) -> bool {
    planned(line).is_err_and(|problem| {
        problem
            .text
            .starts_with(&format!("plan refused, {number}:"))
    })
}

#[test]
fn a_unit_that_is_named_is_good() {
    for (number, sizes, trolley) in [
        (5, "7.3 20", "radius 0.01"),
        (5, "0.0377 20", "radius 0.001"),
        (6, "2000 3000", "width 123.4"),
        (7, "20 30", "radius 9.1"),
        (7, "0.9 0.9", "radius 0.03"),
        (9, "777 20", "radius 1"),
    ] {
        let unit = if number == 7 && sizes == "0.9 0.9" {
            "0.003"
        } else {
            "1"
        };
        let refused = format!("{sizes} unit {unit} {trolley}");
        assert!(is_refused(&refused, number), "{refused}");
        let said = planned(&refused).unwrap_err().text;
        let words: Vec<&str> = said.split(' ').collect();
        let named: f64 = words[words.len() - 2].parse().unwrap();
        let unit = if number == 9 { named * 1.001 } else { named };
        let better = format!("{sizes} unit {unit} {trolley}");
        assert!(!is_refused(&better, number), "{better}");
    }
}

#[test]
fn wrong_plans() {
    let form = "line 1, column 1: a plan is two sizes, the unit, and the trolley's width or radius: `metres 30 20 unit 1 width 1.8`";
    for line in [
        "",
        "30 20",
        "30 20 unit 1",
        "30 20 cell 1 radius 1",
        "30 20 unit 1 girth 1",
    ] {
        assert_eq!(planned(line).unwrap_err().to_string(), form);
    }
    let plan = "metres 30 20 unit 1 radius 1\n";
    let cases = [
        (
            "metres 30 20 unit 1 radius 1,5\n".to_string(),
            "line 1, column 28: `1,5` is not a number such as 1.8",
        ),
        (
            plan.repeat(2),
            "line 2, column 1: a second plan: line 1 has one",
        ),
        (
            format!("{plan}scale 2\n"),
            "line 2, column 1: `metres` gives the scale: leave out line 2",
        ),
        (
            format!("width 2\n{plan}"),
            "line 2, column 1: `metres` gives the width: leave out line 1",
        ),
    ];
    for (text, expected) in cases {
        assert_eq!(problem(&text), expected);
    }
}

#[test]
fn a_plan_says_what_lies_outside_its_sectors() {
    let words = |line: &str| planned(line).unwrap().planned().unwrap();
    assert_eq!(
        words("30 20 unit 1 radius 0.9"),
        "30 by 20 m in cells of 1 m: 3 by 2 sectors; a trolley 1.8 m wide: scale 1"
    );
    assert_eq!(
        words("34.5 22.25 unit 0.5 width 0.7"),
        "34.5 by 22.25 m in cells of 0.5 m: 6 by 4 sectors; a trolley 0.7 m wide: scale 2; \
         4.5 m at the east end have no sector; 2.25 m at the south end have no sector"
    );
}

#[test]
fn a_plan_by_radius_is_warned_of_and_one_by_width_is_not() {
    let warning = |line: &str| {
        let drawn = planned(line).unwrap();
        gaps::warning(&Hall::build(drawn.floor.clone()), &drawn)
    };
    assert_eq!(
        warning("3 2 unit 0.1 radius 0.3").unwrap(),
        "the trolley is 6 cells wide, and scale 3 closes only gaps of fewer than 3 cells; \
         no gap of this floor is narrower; state `width 0.6` in place of the radius"
    );
    assert_eq!(warning("3 2 unit 0.1 width 0.6"), None);
    assert_eq!(warning("30 20 unit 1 radius 0.5"), None);
}
