//! The program `hallroute`, input for input against the second reading: every byte that
//! is printed.

use calls::Router;
use cases::{halls, inputs};

use crate::options::Options;
use crate::report::{Difference, Report};
use crate::second_router::Second;

pub fn compare(router: &dyn Router, options: &Options, case: u64, report: &mut Report) {
    let (kind, input) = inputs::input(options.seed, case);
    let owed = Second.hallroute(&input);
    report.count("inputs of the program", 1);
    report.count(format!("inputs {kind}"), 1);
    let text = String::from_utf8_lossy(&owed);
    if text.is_empty() {
        report.count("inputs with nothing to print", 1);
    }
    for line in text.lines() {
        report.count(format!("lines: {}", form(line)), 1);
    }
    let given = router.hallroute(&input);
    if given != owed {
        let (length, given) = (input.len(), String::from_utf8_lossy(&given));
        let (given, owed) = first_difference(&given, &text);
        report.differences.push(Difference {
            sectors: halls::hall(options.seed, case).sectors(),
            case,
            changes: 0,
            routes: 0,
            text: format!("input {kind}, {length} bytes: {given:?}, second {owed:?}"),
        });
    }
}

/// What a line says, without the numbers of its pair.
fn form(line: &str) -> String {
    let words: Vec<&str> = line.split(' ').collect();
    match words[..] {
        [_, _, "none"] => "none".into(),
        [_, _, "no", number] => format!("no {number}"),
        [_, _, _, _, _, ..] => "a route".into(),
        _ => line.into(),
    }
}

/// The first lines that are not alike.
fn first_difference<'a>(given: &'a str, owed: &'a str) -> (Option<&'a str>, Option<&'a str>) {
    let (mut given, mut owed) = (given.split_inclusive('\n'), owed.split_inclusive('\n'));
    loop {
        match (given.next(), owed.next()) {
            (Some(one), Some(other)) if one == other => {}
            lines => return lines,
        }
    }
}
